/* A set of tiling beside the panel that it is for: the cases that are told apart, with their answers. */
#ifndef TILING_SETS_H
#define TILING_SETS_H

#include <stdbool.h>
#include <stdint.h>

#include "tiling.h"

enum { SET_CASES = 29 };

/* Each a class, one bit. */
struct sight {
    unsigned kind, byte, position, switches;
    unsigned old;                       /* the position by the wall that the panel has, or the whole set is what it has */
};

struct sight see(const uint8_t *record, const uint8_t *values);
bool is_taken(struct sight s);

/* The values as a panel with this tiling would then have them. */
void fill_in(const uint8_t *values, const uint8_t *tiling, uint8_t then[TILING_LEN]);

/* The cases that it falls under, where they have this answer. */
void count_set_cases(unsigned long met[SET_CASES], struct sight s, uint8_t control);

const char *set_case_name(unsigned i);

#endif
