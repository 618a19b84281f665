/* Tilings worth trying: allowed ones, with walls and positions at both ends, and the nearest that are not; and kinds. */
#ifndef CASE_TILINGS_H
#define CASE_TILINGS_H

#include "random.h"
#include "tiling.h"

uint8_t any_kind(struct source *s);
uint8_t other_kind(uint8_t kind);

/* Of no panel. */
uint8_t unknown_kind(struct source *s);

/* Allowed for a panel of the kind. */
void make_tiling(struct source *s, uint8_t kind, uint8_t to[TILING_LEN]);

/* Allowed for the kind alone. */
void make_own_tiling(struct source *s, uint8_t kind, uint8_t to[TILING_LEN]);

/* Fresh but for one value. */
void make_nearly_fresh(struct source *s, uint8_t to[TILING_LEN]);

/* One value of an allowed tiling changed to the nearest that is not; which. */
unsigned spoil_tiling(struct source *s, uint8_t kind, uint8_t to[TILING_LEN]);

/* The values of a set for a panel of the kind that has the tiling held: half the time allowed, often with byte 0. */
void make_tiling_set(struct source *s, uint8_t kind, const uint8_t held[TILING_LEN], uint8_t to[TILING_LEN]);

#endif
