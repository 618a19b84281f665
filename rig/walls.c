#include "walls.h"

#include <string.h>

#include "plain.h"

bool read_wall(const struct test_case *c, struct wall *wall)
{
    if (plain_read(c->image, c->image_len, wall->image, sizeof wall->image).refusal)
        return false;
    wall->count = c->image[c->image_len - 2];
    return true;
}

const uint8_t *record_at(const uint8_t *image, size_t k)
{
    return image + RECORD_LEN * k;
}

bool is_after(const struct wall *wall, const struct trial *t)
{
    return memcmp(t->out + GUARD, wall->image, t->result.image_len) == 0;
}

struct packet packet_of(const struct test_case *c)
{
    return read_packet(c->line, c->burst, c->burst_len);
}

enum whom whom_of(const struct test_case *c)
{
    struct packet p = packet_of(c);
    return p.group != 0 ? GROUP : p.id == 0 ? ALL : ONE;
}

bool is_addressed(const struct test_case *c, const uint8_t *record)
{
    struct packet p = packet_of(c);
    return p.group == 0 ? p.id == 0 || record[ID_AT] == p.id : p.group != 255 && record[GROUP_AT] == p.group;
}
