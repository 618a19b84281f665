/* Tiling's values, and the walls that they speak of: 002's section 8.6, as 02's A6 reads it. */
#ifndef TILING_H
#define TILING_H

#include <stdint.h>

enum { ENABLE, FRAME_COMPENSATION, POSITION, WALL_BYTE, TILING_LEN };

extern const uint8_t fresh_tiling[TILING_LEN];

enum { KINDS = 2 };                     /* UNDIVARRO_5_BY_5, UNDIVARRO_15_BY_10 */

struct size {
    unsigned width, height;
};

/* Of a panel of the kind. */
extern const struct size largest_walls[KINDS];

/* The wall of the byte on a panel of the kind: 0 by 0 where it has none. */
struct size wall_of(uint8_t kind, uint8_t byte);

/* The number of its positions. */
unsigned positions_in(struct size wall);

#endif
