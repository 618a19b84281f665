/* Kinds and tilings in images: the walls that were read, where the two fields stood, images with one of them spoiled, and
 * what form 1 could not hold. */
#ifndef KINDS_H
#define KINDS_H

#include "trial.h"

enum kind_wall { WALL_5_BY_5, WALL_15_BY_10, WALL_BOTH_KINDS, KIND_WALLS };

enum kind_case {
    /* images with one spoiling, refused for it */
    FORM_1_KIND, FORM_1_TILING, KIND_LENGTH, TILING_LENGTH, KIND_CUT, TILING_CUT, KIND_TWICE, TILING_TWICE, KIND_BEHIND,
    UNKNOWN_BEHIND, KIND_2, KIND_OVER_2, TILING_ENABLE, TILING_FRAME, TILING_POSITION_0, TILING_PAST_5_BY_5,
    TILING_PAST_15_BY_10, TILING_BYTE_0, TILING_BYTE_26, TILING_BYTE_151, KIND_0_SAID, KIND_0_LEFT_OUT, KIND_1_SAID,
    /* form 1 written, or 31 */
    BACK_DONE, LOST_PROFILES, LOST_KINDS, LOST_TILINGS, LOST_ENABLE, LOST_FRAME, LOST_WALL, LOST_LAST_PROFILE,
    LOST_LAST_KIND, LOST_LAST_TILING,
    KIND_CASES
};

extern const char *const kind_wall_names[KIND_WALLS];
extern const char *const place_kind_names[PLACE_KINDS];
extern const char *const kind_case_names[KIND_CASES];

struct kinds {
    unsigned long wall[CALLS][KIND_WALLS];      /* without a refusal, or with 31 */
    unsigned long place[PLACE_KINDS];           /* read without a refusal */
    unsigned long met[KIND_CASES];
};

void count_kinds(struct kinds *k, const struct test_case *c, const struct trial *by_plain);

#endif
