#include "tiling_sets.h"

#include <stddef.h>
#include <string.h>

#include "names.h"
#include "record.h"
#include "undivarro.h"

/* The classes of a sight. The position is seen by the wall that would then hold. */
enum { SMALL = 1, LARGE = 2, ANY_KIND = SMALL | LARGE };
enum { BYTE_0 = 1, WALL = 2, WIDEST = 4, LAST = 8, NEXT = 16, FAR = 32, ANY_WALL = WALL | WIDEST | LAST };
enum { ZERO = 1, IN = 2, END = 4, PAST = 8, BEYOND = 16, INSIDE = IN | END, ANY_POSITION = ZERO | INSIDE | PAST | BEYOND };
enum { OFF_OR_ON = 1, ENABLE_2 = 2, FRAME_2 = 4, OTHER = 8 };
enum { IN_OLD = 1, PAST_OLD = 2, AS_IT_IS = 4, ANY_OLD = IN_OLD | PAST_OLD | AS_IT_IS };

struct set_case {
    const char *name;
    struct sight of;
    uint8_t control;
};

static const struct set_case set_cases[] = {
    {"5x5, a wall, position H times V: ACK", {SMALL, WALL, END, OFF_OR_ON, ANY_OLD}, ACK},
    {"5x5, a wall, position H times V + 1: NAV", {SMALL, WALL, PAST, OFF_OR_ON, ANY_OLD}, NAV},
    {"5x5, a wall 5 wide, position H times V: ACK", {SMALL, WIDEST, END, OFF_OR_ON, ANY_OLD}, ACK},
    {"5x5, a wall 5 wide, position H times V + 1: NAV", {SMALL, WIDEST, PAST, OFF_OR_ON, ANY_OLD}, NAV},
    {"5x5, byte 25, position 25: ACK", {SMALL, LAST, END, OFF_OR_ON, ANY_OLD}, ACK},
    {"5x5, byte 25, position 26: NAV", {SMALL, LAST, PAST, OFF_OR_ON, ANY_OLD}, NAV},
    {"5x5, byte 26: NAV", {SMALL, NEXT, ANY_POSITION, OFF_OR_ON, ANY_OLD}, NAV},
    {"5x5, byte 0, position in the wall that it has: ACK", {SMALL, BYTE_0, IN, OFF_OR_ON, ANY_OLD}, ACK},
    {"5x5, byte 0, position at that wall's end: ACK", {SMALL, BYTE_0, END, OFF_OR_ON, ANY_OLD}, ACK},
    {"5x5, byte 0, position past that wall by one: NAV", {SMALL, BYTE_0, PAST, OFF_OR_ON, ANY_OLD}, NAV},
    {"15x10, a wall, position H times V: ACK", {LARGE, WALL, END, OFF_OR_ON, ANY_OLD}, ACK},
    {"15x10, a wall, position H times V + 1: NAV", {LARGE, WALL, PAST, OFF_OR_ON, ANY_OLD}, NAV},
    {"15x10, a wall 15 wide, position H times V: ACK", {LARGE, WIDEST, END, OFF_OR_ON, ANY_OLD}, ACK},
    {"15x10, a wall 15 wide, position H times V + 1: NAV", {LARGE, WIDEST, PAST, OFF_OR_ON, ANY_OLD}, NAV},
    {"15x10, byte 150, position 150: ACK", {LARGE, LAST, END, OFF_OR_ON, ANY_OLD}, ACK},
    {"15x10, byte 150, position 151: NAV", {LARGE, LAST, PAST, OFF_OR_ON, ANY_OLD}, NAV},
    {"15x10, byte 151: NAV", {LARGE, NEXT, ANY_POSITION, OFF_OR_ON, ANY_OLD}, NAV},
    {"15x10, byte 0, position in the wall that it has: ACK", {LARGE, BYTE_0, IN, OFF_OR_ON, ANY_OLD}, ACK},
    {"15x10, byte 0, position at that wall's end: ACK", {LARGE, BYTE_0, END, OFF_OR_ON, ANY_OLD}, ACK},
    {"15x10, byte 0, position past that wall by one: NAV", {LARGE, BYTE_0, PAST, OFF_OR_ON, ANY_OLD}, NAV},
    {"byte 0, position 0: NAV", {ANY_KIND, BYTE_0, ZERO, OFF_OR_ON, ANY_OLD}, NAV},
    {"a wall, position 0: NAV", {ANY_KIND, ANY_WALL, ZERO, OFF_OR_ON, ANY_OLD}, NAV},
    {"enable 2: NAV", {ANY_KIND, ANY_WALL, INSIDE, ENABLE_2, ANY_OLD}, NAV},
    {"frame compensation 2: NAV", {ANY_KIND, ANY_WALL, INSIDE, FRAME_2, ANY_OLD}, NAV},
    {"byte 0, enable or frame compensation 2: NAV", {ANY_KIND, BYTE_0, INSIDE, ENABLE_2 | FRAME_2, ANY_OLD}, NAV},
    {"position past the old wall and in the new one: ACK", {ANY_KIND, ANY_WALL, INSIDE, OFF_OR_ON, PAST_OLD}, ACK},
    {"position in the old wall and past the new one: NAV", {ANY_KIND, ANY_WALL, PAST | BEYOND, OFF_OR_ON, IN_OLD}, NAV},
    {"what it has: ACK", {ANY_KIND, ANY_WALL, INSIDE, OFF_OR_ON, AS_IT_IS}, ACK},
    {"what it has, with byte 0: ACK", {ANY_KIND, BYTE_0, INSIDE, OFF_OR_ON, AS_IT_IS}, ACK},
};
_Static_assert(sizeof set_cases / sizeof set_cases[0] == SET_CASES, "one count for each case");

const char *set_case_name(unsigned i)
{
    return set_cases[i].name;
}

static unsigned byte_class(uint8_t kind, uint8_t byte)
{
    struct size most = largest_walls[kind];
    unsigned last = positions_in(most);
    if (byte >= last)
        return byte == last ? LAST : byte == last + 1 ? NEXT : FAR;
    return byte == 0 ? BYTE_0 : byte % most.width == 0 ? WIDEST : WALL;
}

static unsigned position_class(unsigned positions, uint8_t position)
{
    if (position == 0)
        return ZERO;
    return position < positions ? IN : position == positions ? END : position == positions + 1 ? PAST : BEYOND;
}

static unsigned switches_class(const uint8_t *values)
{
    uint8_t enable = values[ENABLE], frame = values[FRAME_COMPENSATION];
    if (enable <= 1 && frame <= 1)
        return OFF_OR_ON;
    return enable == 2 && frame <= 1 ? ENABLE_2 : enable <= 1 && frame == 2 ? FRAME_2 : OTHER;
}

void fill_in(const uint8_t *values, const uint8_t *tiling, uint8_t then[TILING_LEN])
{
    memcpy(then, values, TILING_LEN);
    if (then[WALL_BYTE] == 0)
        then[WALL_BYTE] = tiling[WALL_BYTE];
}

struct sight see(const uint8_t *record, const uint8_t *values)
{
    uint8_t kind = record[KIND_AT], then[TILING_LEN];
    const uint8_t *tiling = record + TILING_AT;
    fill_in(values, tiling, then);
    bool same = memcmp(then, tiling, TILING_LEN) == 0;
    return (struct sight){
        .kind = kind == UNDIVARRO_5_BY_5 ? SMALL : LARGE,
        .byte = byte_class(kind, values[WALL_BYTE]),
        .position = position_class(positions_in(wall_of(kind, then[WALL_BYTE])), values[POSITION]),
        .switches = switches_class(values),
        .old = same ? AS_IT_IS : values[POSITION] <= positions_in(wall_of(kind, tiling[WALL_BYTE])) ? IN_OLD : PAST_OLD,
    };
}

bool is_taken(struct sight s)
{
    return (s.byte & (BYTE_0 | ANY_WALL)) && (s.position & INSIDE) && s.switches == OFF_OR_ON;
}

static bool falls_under(struct sight s, struct sight of)
{
    return (s.kind & of.kind) && (s.byte & of.byte) && (s.position & of.position) && (s.switches & of.switches)
        && (s.old & of.old);
}

void count_set_cases(unsigned long met[SET_CASES], struct sight s, uint8_t control)
{
    for (unsigned i = 0; i < SET_CASES; i++)
        met[i] += falls_under(s, set_cases[i].of) && control == set_cases[i].control;
}
