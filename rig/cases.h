/* Random cases for the comparison: a call, the edition of its line, a setup image, a burst or a list of bursts, and how much
 * room is lent for answer, answers or lines and for output. A case is made from the seed and its number alone, and is the same on every machine. */
#ifndef CASES_H
#define CASES_H

#include <stdbool.h>
#include <stddef.h>
#include <stdint.h>

#include "edition.h"

enum { MAX_IMAGE_BYTES = 70000, MAX_BURST_BYTES = 70000, MAX_ROOM = 69000 };

enum call { CALL_PLAY, CALL_PLAY_ON, CALL_BATCH, CALL_BATCH_ON, CALL_READ, CALL_BACK, CALL_SALVAGE, CALLS };

/* What was done to the image last; a case may have up to three spoilings, and one spoiling may hide another. A wreck has
 * them in many of its records. */
enum image_kind {
    IMAGE_WRITTEN, IMAGE_ANY_ORDER, IMAGE_LEFT_OUT, IMAGE_NO_PANELS, IMAGE_33_PANELS,
    RECORD_1_BYTE, RECORD_2_BYTES, RECORD_ID_0, RECORD_GROUP_0, RECORD_ID_TWICE, RECORD_PROFILE,
    FIELD_GET_CODE, FIELD_UNKNOWN, FIELD_TWICE, FIELD_LENGTH, FIELD_CUT, FIELD_CODE_ALONE, FIELD_VALUE,
    FIELD_GENERAL_ALONE, FIELD_PHOENIX_ALONE,
    FIELD_LATER, FIELD_KIND, FIELD_KIND_TWICE, FIELD_KIND_BEHIND, FIELD_TILING, FIELD_OTHER_KIND,
    WHOLE_FORM, WHOLE_COUNT, WHOLE_CUT, WHOLE_STARTS, WHOLE_EXTRA, WHOLE_NOISE, WHOLE_SHORT, WHOLE_RANDOM, WHOLE_LONG,
    WRECK_ANY, WRECK_VALUES, WRECK_KINDS, WRECK_IDS, WRECK_DROPPED, WRECK_FULL,
    IMAGE_KINDS
};

enum burst_kind {
    BURST_EMPTY, BURST_GET, BURST_SET, BURST_SET_ANY_VALUE, BURST_SET_ONE_PROFILE, BURST_SET_POWER, BURST_SET_TILING,
    BURST_SET_LENGTH, BURST_GET_LENGTH, BURST_UNKNOWN, BURST_KIND,
    BURST_NO_DATA, BURST_FULL, BURST_OTHER_EDITION, BURST_CHANGED, BURST_LOST, BURST_ADDED, BURST_SWAPPED, BURST_SHORT, BURST_LONG,
    BURST_VERY_LONG, BURST_LIMIT, BURST_RANDOM,
    BURST_KINDS
};

enum list_kind {
    LIST_NO_BYTES, LIST_ONE, LIST_FEW, LIST_TO_ONE_PANEL, LIST_MANY, LIST_EMPTY_BURSTS, LIST_LONGEST,
    /* which may stop inside a burst */
    LIST_CUT, LIST_COUNT_ALONE, LIST_BYTE_LOST, LIST_COUNT_HIGH, LIST_ANY_BYTES,
    /* which are seldom made, as each costs as much as hundreds of others */
    LIST_OVER_65535, LIST_OVER_255, LIST_OVER_1598,
    LIST_KINDS, LIST_SELDOM = LIST_OVER_65535
};

enum room_kind { ROOM_EXACT, ROOM_AMPLE, ROOM_EDGE, ROOM_OTHER_FORM, ROOM_ANY, ROOM_KINDS };

/* Which fields of kind and tiling a record has, and where. */
enum place_kind { NEITHER, KIND_ALONE, TILING_ALONE, KIND_FIRST, KIND_LATER, PLACE_KINDS };

/* The field that was spoiled: of a kind or a tiling which value, what it was made, and the panel's kind. */
struct spoiled {
    uint8_t code;
    uint8_t at, value;
    uint8_t kind;
    bool kind_said;                     /* by a field */
};

extern const char *const call_names[CALLS];
extern const char *const image_kind_names[IMAGE_KINDS];
extern const char *const burst_kind_names[BURST_KINDS];
extern const char *const list_kind_names[LIST_KINDS];
extern const char *const room_kind_names[ROOM_KINDS];

/* Numbers of no edition: those beside one, those that are one in 8 bits or in 16, and others that one might be taken for. */
enum { UNKNOWN_EDITIONS = 17 };
extern const uint32_t unknown_editions[UNKNOWN_EDITIONS];

struct test_case {
    enum call call;
    uint32_t edition;                   /* the number that play_on or batch_on is given; of the other calls 201 */
    const struct edition *line;         /* which that is, or NULL */
    enum image_kind image_kind;
    unsigned spoilings;                 /* of the image */
    struct spoiled spoiled;
    uint8_t form;                       /* in which it was drafted */
    bool no_video[2];                   /* by profile: a panel of the draft has its video left out */
    bool places[PLACE_KINDS];           /* a panel of the draft has its kind and tiling so */
    enum burst_kind burst_kind;
    enum list_kind list_kind;           /* of a batch, whose list stands in the burst's place */
    size_t bursts;                      /* that begin in it */
    bool cut;                           /* it stops inside the last of them */
    enum room_kind room_kind;
    size_t image_len, burst_len, answer_cap, out_cap;   /* answer_cap is that of answer, answers or lines */
    uint64_t fill;                      /* what answer, out and their guards hold before */
    uint8_t image[MAX_IMAGE_BYTES];
    uint8_t burst[MAX_BURST_BYTES];
};

/* It plays its burst. */
bool is_play(const struct test_case *c);

/* It plays a list of bursts. */
bool is_batch(const struct test_case *c);

void make_case(uint64_t seed, uint64_t number, struct test_case *c);

/* Of a written image. */
size_t image_size(unsigned form, size_t panels);

#endif
