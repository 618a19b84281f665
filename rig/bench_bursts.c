#include "bench_bursts.h"

#include <string.h>

#include "bench_images.h"
#include "checksum.h"

size_t make_packet(const struct edition *edition, uint8_t id, uint8_t group, const uint8_t *data, size_t len, uint8_t spoil,
                   uint8_t *burst)
{
    size_t size = shortest_packet(edition) + len;
    burst[0] = (uint8_t)size;
    burst[1] = id;
    burst[2] = group;                   /* behind which the data is, or in whose place */
    memcpy(burst + edition->head, data, len);
    burst[size - 1] = xor_of(burst, size - 1) ^ spoil;
    return size;
}

/* A burst that comes once in each round. */
struct part {
    enum { ONE, GROUP, ALL, NOBODY } to;
    uint8_t len, data[8];               /* no data stands for an empty burst */
    uint8_t step, limit;                /* what is added to the first value from round to round, and the highest that it gets */
    uint8_t spoil, left;                /* of the checksum; how many bytes are left of the packet, 0 being all */
};

static const struct part parts[] = {
    {ONE, 1, {0x19}, 0, 0, 0, 0},                               /* power? */
    {ONE, 2, {0x18, 2}, 0, 0, 0, 0},                            /* on */
    {ONE, 8, {0x32, 0, 50, 50, 50, 50, 50, 3}, 1, 100, 0, 0},   /* video */
    {ONE, 1, {0x33}, 0, 0, 0, 0},
    {GROUP, 2, {0x61, 0}, 1, 4, 0, 0},                          /* fan */
    {ONE, 1, {0x62}, 0, 0, 0, 0},
    {GROUP, 8, {0x32, 0, 40, 60, 50, 50, 50, 2}, 2, 100, 0, 0},
    {ONE, 5, {0x22, 1, 0, 2, 8}, 0, 0, 0, 0},                   /* tiling */
    {ONE, 1, {0x23}, 0, 0, 0, 0},
    {GROUP, 5, {0x22, 0, 0, 1, 0}, 0, 0, 0, 0},
    {ONE, 2, {0x34, 0}, 1, 3, 0, 0},                            /* colour temperature */
    {ONE, 3, {0x42, 0, 50}, 3, 100, 0, 0},                      /* audio */
    {ALL, 2, {0xD0, 0}, 1, 3, 0, 0},                            /* APM */
    {ONE, 2, {0xA3, 0}, 1, 2, 0, 0},                            /* cold start */
    {ONE, 1, {0x19}, 0, 0, 1, 0},                               /* a byte changed on the way */
    {ONE, 2, {0x61, 2}, 0, 0, 0, 3},                            /* the end lost */
    {ONE, 0, {0}, 0, 0, 0, 0},
    {NOBODY, 1, {0x62}, 0, 0, 0, 0},
    {ONE, 2, {0x61, 5}, 0, 0, 0, 0},                            /* not allowed */
    {ONE, 2, {0x18, 1}, 0, 0, 0, 0},                            /* off */
};
enum { PARTS = sizeof parts / sizeof parts[0] };
_Static_assert(SCENE_BURSTS % PARTS == 0, "whole rounds");

static size_t make_part(const struct part *part, unsigned round, unsigned k, uint8_t *burst)
{
    uint8_t data[sizeof part->data];
    if (part->len == 0)
        return 0;
    memcpy(data, part->data, sizeof data);
    if (part->limit > 0)
        data[1] = (uint8_t)(part->step * round % (part->limit + 1u));
    /* four bursts behind each other are to one panel */
    unsigned panel = 1 + (11 * round + 3 * (k / 4)) % PANELS, id = part->to == ONE ? panel : part->to == NOBODY ? PANELS + 1 : 0;
    unsigned group = part->to == GROUP ? 1 + round % 4 : 0;
    size_t len = make_packet(&editions[SICP_2_01], (uint8_t)id, (uint8_t)group, data, part->len, part->spoil, burst);
    return part->left > 0 ? part->left : len;
}

void make_scene(struct scene *scene)
{
    scene->len = 0;
    for (unsigned i = 0; i < SCENE_BURSTS; i++) {
        uint8_t *to = scene->list + scene->len;
        to[0] = (uint8_t)make_part(&parts[i % PARTS], i / PARTS, i % PARTS, to + 1);
        scene->len += 1u + to[0];
    }
}
