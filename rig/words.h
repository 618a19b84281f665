/* A burst and its answer in words, on one line and without a colon. */
#ifndef WORDS_H
#define WORDS_H

#include <stdio.h>

#include "edition.h"

/* What the burst asks for, or what was wrong with it; damage is what the library told of it. On a line of another edition
 * than the usual one its name comes first. */
void say_burst(FILE *to, const struct edition *edition, const uint8_t *burst, size_t len, uint32_t damage);

/* What the box answered to the burst; no bytes are silence. */
void say_answer(FILE *to, const struct edition *edition, const uint8_t *burst, size_t burst_len, const uint8_t *answer,
                size_t len);

#endif
