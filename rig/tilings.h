/* Tiling on the line: sets and gets by the panels' kinds and by the walls that they have, and the kind's code, with the
 * answer and the wall that have to come of it. */
#ifndef TILINGS_H
#define TILINGS_H

#include "tiling_sets.h"
#include "trial.h"

/* Of a set to a group or to all. */
enum shared_set { LARGE_ALONE, SMALL_ALONE, BOTH_KINDS, OWN_BYTES, BY_OWN_WALL, SHARED_SETS };

enum other_tiling {
    GOT_SMALL, GOT_LARGE, SET_OF_3, SET_OF_5, KIND_CODE_ALONE, KIND_CODE_SET, KIND_CODE_TO_MANY,
    CODE_0_ALONE, OTHER_TILINGS
};

extern const char *const shared_set_names[SHARED_SETS];
extern const char *const other_tiling_names[OTHER_TILINGS];

struct tilings {
    unsigned long set[SET_CASES];       /* to a panel */
    unsigned long to_group[SHARED_SETS], to_all[SHARED_SETS];
    unsigned long other[OTHER_TILINGS];
};

/* Of a play. */
void count_tiling(struct tilings *t, const struct test_case *c, const struct trial *by_plain);

#endif
