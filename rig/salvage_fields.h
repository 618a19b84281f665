/* Faults of fields in salvages: what was met of them, with what was told and what was kept. */
#ifndef SALVAGE_FIELDS_H
#define SALVAGE_FIELDS_H

#include "case_fields.h"
#include "record.h"
#include "told.h"

enum field_case {
    /* why 17 was told */
    STOP_CODE_0, STOP_CODE_FF, STOP_GET_CODE, STOP_UNKNOWN, STOP_KIND_IN_1, STOP_TILING_IN_1, STOP_ALONE_KNOWN,
    STOP_ALONE_UNKNOWN, STOP_TWICE, STOP_TWICE_AFTER_18, STOP_BEHIND_TILING, STOP_BEHIND_18, STOP_UNKNOWN_BEHIND_18,
    STOP_LENGTH, STOP_CUT,
    /* what stood before and behind it */
    STOP_AT_FIRST, STOP_AFTER_VALUES, STOP_AFTER_18, STOP_BEFORE_GOOD, STOP_BEFORE_17, STOP_BEFORE_18,
    /* several 18 */
    TWO_18, ALL_18_IN_1, ALL_18_IN_2, ELEVEN_LINES, VALUES_AFTER_18,
    /* fresh by profile and kind */
    VIDEO_18_GENERAL, VIDEO_18_PHOENIX, VIDEO_STOPPED_GENERAL, VIDEO_STOPPED_PHOENIX,
    KIND_18_TILING_KEPT, KIND_18_TILING_18, TILING_18_OF_15_BY_10, TILING_STOPPED_OF_15_BY_10,
    FIELD_CASES
};

extern const char *const field_case_names[FIELD_CASES];

struct field_faults {
    unsigned long met[FIELD_CASES];
    unsigned long by_row[2][ROWS];      /* 18, by form and row */
    unsigned long digit[2][16];         /* of codes in lines of 17, first and second */
};

/* A record of an image and what a salvage made of it. */
struct view {
    struct raw_record raw;
    uint8_t form;
    const uint8_t *kept;                /* as it is written; NULL where it was dropped */
    unsigned count_18;
    uint8_t codes_18[ROWS];
    bool has_17;
    uint8_t code_17;
};

/* The first fault, or 0, of the fields by themselves, up to 255 bytes of them, in a record of the form with a sound head.
 * kept, if wanted, is what is written of it. */
unsigned fault_alone(uint8_t form, uint8_t profile, const uint8_t *fields, size_t len, uint8_t kept[RECORD_LEN]);

/* Of a record that was kept. */
void count_fields(struct field_faults *f, const struct view *v);

#endif
