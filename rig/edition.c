#include "edition.h"

#include <string.h>

#include "undivarro.h"

enum { ID_AT = 1, GROUP_AT = 2 };

const struct edition editions[EDITIONS] = {
    [SICP_1_85] = {"1.85", UNDIVARRO_SICP_1_85, GROUP_AT},
    [SICP_2_01] = {"2.01", UNDIVARRO_SICP_2_01, GROUP_AT + 1},
};

const struct edition *edition_by_name(const char *name)
{
    for (const struct edition *e = editions; e < editions + EDITIONS; e++)
        if (strcmp(e->name, name) == 0)
            return e;
    return NULL;
}

const struct edition *edition_by_number(uint32_t number)
{
    for (const struct edition *e = editions; e < editions + EDITIONS; e++)
        if (e->number == number)
            return e;
    return NULL;
}

bool has_group(const struct edition *edition)
{
    return edition->head > GROUP_AT;
}

size_t shortest_packet(const struct edition *edition)
{
    return edition->head + 1;
}

uint8_t group_in(const struct edition *edition, const uint8_t *burst)
{
    return has_group(edition) ? burst[GROUP_AT] : 0;
}

struct packet read_packet(const struct edition *edition, const uint8_t *burst, size_t len)
{
    return (struct packet){
        .id = burst[ID_AT],
        .group = group_in(edition, burst),
        .data = burst + edition->head,
        .len = len - shortest_packet(edition),
    };
}
