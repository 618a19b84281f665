#include "case_tilings.h"

#include <string.h>

#include "undivarro.h"

uint8_t any_kind(struct source *s)
{
    return one_in(s, 2) ? UNDIVARRO_5_BY_5 : UNDIVARRO_15_BY_10;
}

uint8_t other_kind(uint8_t kind)
{
    return kind == UNDIVARRO_5_BY_5 ? UNDIVARRO_15_BY_10 : UNDIVARRO_5_BY_5;
}

uint8_t unknown_kind(struct source *s)
{
    return one_in(s, 2) ? KINDS : (uint8_t)(KINDS + below(s, 256 - KINDS));
}

/* Any wall, or the smallest, the last, or one of the widest, whose bytes have the remainder 0. */
static uint8_t any_wall(struct source *s, uint8_t kind)
{
    struct size most = largest_walls[kind];
    switch (below(s, 8)) {
    case 0:
        return 1;
    case 1:
        return (uint8_t)positions_in(most);
    case 2:
    case 3:
        return (uint8_t)(most.width * (1 + below(s, most.height)));
    default:
        return (uint8_t)(1 + below(s, positions_in(most)));
    }
}

void make_tiling(struct source *s, uint8_t kind, uint8_t to[TILING_LEN])
{
    uint8_t byte = any_wall(s, kind);
    unsigned last = positions_in(wall_of(kind, byte));
    to[ENABLE] = (uint8_t)below(s, 2);
    to[FRAME_COMPENSATION] = (uint8_t)below(s, 2);
    to[POSITION] = (uint8_t)(one_in(s, 2) ? last : 1 + below(s, last));
    to[WALL_BYTE] = byte;
}

/* A wall with more positions on this kind than on the other, and one of those. */
void make_own_tiling(struct source *s, uint8_t kind, uint8_t to[TILING_LEN])
{
    unsigned own, other;
    do {
        make_tiling(s, kind, to);
        own = positions_in(wall_of(kind, to[WALL_BYTE]));
        other = positions_in(wall_of(other_kind(kind), to[WALL_BYTE]));
    } while (own <= other);
    to[POSITION] = (uint8_t)(own - below(s, own - other));
}

void make_nearly_fresh(struct source *s, uint8_t to[TILING_LEN])
{
    static const uint8_t others[] = {ENABLE, FRAME_COMPENSATION, WALL_BYTE};    /* a position needs its wall */
    memcpy(to, fresh_tiling, TILING_LEN);
    to[others[below(s, sizeof others)]]++;
}

unsigned spoil_tiling(struct source *s, uint8_t kind, uint8_t to[TILING_LEN])
{
    static const uint8_t places[] = {ENABLE, FRAME_COMPENSATION, POSITION, POSITION, POSITION, WALL_BYTE, WALL_BYTE};
    unsigned at = places[below(s, sizeof places)];
    if (at == WALL_BYTE)
        to[at] = (uint8_t)(positions_in(largest_walls[kind]) + 1);
    else if (at == POSITION)
        to[at] = (uint8_t)(one_in(s, 4) ? 0 : positions_in(wall_of(kind, to[WALL_BYTE])) + 1);
    else
        to[at] = 2;
    return at;
}

/* The last wall or one of the widest, with a position at its end or past it by one. */
static void make_limit(struct source *s, uint8_t kind, uint8_t to[TILING_LEN])
{
    struct size most = largest_walls[kind];
    to[WALL_BYTE] = (uint8_t)(most.width * (one_in(s, 2) ? most.height : 1 + below(s, most.height)));
    to[POSITION] = (uint8_t)(positions_in(wall_of(kind, to[WALL_BYTE])) + below(s, 2));
}

/* Byte 0, which keeps the wall held, with a position in it, at its end, or past it; seldom with a switch that is 2. */
static void keep_wall(struct source *s, uint8_t kind, const uint8_t held[TILING_LEN], uint8_t to[TILING_LEN])
{
    unsigned last = positions_in(wall_of(kind, held[WALL_BYTE]));
    to[WALL_BYTE] = 0;
    to[POSITION] = (uint8_t)(one_in(s, 3) ? last + below(s, 2) : below(s, last + 1));
    if (one_in(s, 8))
        to[one_in(s, 2) ? ENABLE : FRAME_COMPENSATION] = 2;
}

void make_tiling_set(struct source *s, uint8_t kind, const uint8_t held[TILING_LEN], uint8_t to[TILING_LEN])
{
    make_tiling(s, kind, to);
    switch (below(s, 15)) {
    case 0: case 1: case 2: case 3:
        keep_wall(s, kind, held, to);
        break;
    case 4: case 5: case 6:
        spoil_tiling(s, kind, to);
        break;
    case 7: case 8:
        make_limit(s, kind, to);
        break;
    case 9: case 10:
        make_own_tiling(s, one_in(s, 2) ? kind : UNDIVARRO_5_BY_5, to);
        break;
    case 11:                            /* both kinds have the wall and the position */
        make_tiling(s, UNDIVARRO_5_BY_5, to);
        to[POSITION] = 1;
        break;
    case 12:                            /* a position of the wall held */
        to[POSITION] = (uint8_t)(1 + below(s, positions_in(wall_of(kind, held[WALL_BYTE]))));
        break;
    case 13:                            /* what the panel has */
        memcpy(to, held, TILING_LEN);
        if (one_in(s, 2))
            to[WALL_BYTE] = 0;
        break;
    }
}
