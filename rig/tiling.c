#include "tiling.h"

#include "undivarro.h"

const uint8_t fresh_tiling[TILING_LEN] = {0, 0, 1, 1};

const struct size largest_walls[KINDS] = {[UNDIVARRO_5_BY_5] = {5, 5}, [UNDIVARRO_15_BY_10] = {15, 10}};

/* The byte counts the walls of height 1 by width, then those of height 2, and so on. */
struct size wall_of(uint8_t kind, uint8_t byte)
{
    struct size most = largest_walls[kind];
    if (byte == 0 || byte > positions_in(most))
        return (struct size){0, 0};
    return (struct size){(byte - 1) % most.width + 1, (byte - 1) / most.width + 1};
}

unsigned positions_in(struct size wall)
{
    return wall.width * wall.height;
}
