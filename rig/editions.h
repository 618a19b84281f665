/* What the editions bring to cases: bursts that each line takes in its own way, and numbers that are no edition's, with the
 * outcome that has to come of them. */
#ifndef EDITIONS_H
#define EDITIONS_H

#include "trial.h"

enum edition_case {
    /* on a 1.85 line */
    OLD_2_BYTES_NACK, OLD_2_BYTES_SILENCE, OLD_3_BYTES_NAV, OLD_3_BYTES_TO_ALL, OLD_THIRD_BYTE, OLD_ID_0, OLD_37_BYTES,
    OLD_GET_OF_NEW, OLD_SET_OF_NEW,
    /* on a 2.01 line */
    NEW_2_BYTES, NEW_3_BYTES, NEW_GET_OF_OLD, NEW_SET_OF_OLD,
    /* no edition */
    UNKNOWN_INTACT, UNKNOWN_DAMAGED, UNKNOWN_EMPTY, UNKNOWN_ANY,
    EDITION_CASES
};

/* The refusals of image and room. */
enum { FIRST_BESIDE = 11, BESIDE = 9 };

extern const char *const edition_case_names[EDITION_CASES];

struct editions {
    unsigned long met[EDITION_CASES];
    unsigned long number[UNKNOWN_EDITIONS];     /* refused by 23 */
    unsigned long beside[BESIDE];               /* refused by another number, which comes first */
};

/* Of a play. */
void count_editions(struct editions *e, const struct test_case *c, const struct trial *by_plain);

#endif
