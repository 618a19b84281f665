/* Random numbers, the same on every machine: splitmix64. */
#ifndef RANDOM_H
#define RANDOM_H

#include <stdbool.h>
#include <stddef.h>
#include <stdint.h>

struct source {
    uint64_t state;
};

uint64_t next(struct source *s);
uint8_t any_byte(struct source *s);
void fill_any(struct source *s, uint8_t *to, size_t len);

/* From 0 to limit - 1. */
unsigned below(struct source *s, unsigned limit);

/* True one time in n. */
bool one_in(struct source *s, unsigned n);

#endif
