/* A record of form 2 as it is written: what stands where, and what of it form 1 cannot hold. */
#ifndef RECORD_H
#define RECORD_H

#include <stdint.h>

enum { ID_AT, GROUP_AT, PROFILE_AT, FIELDS_AT, KIND_AT = 5, POWER_AT = 8, TILING_AT = 11, VIDEO_AT = 17, RECORD_LEN = 43 };

/* A field's values, found by its code, or NULL. */
const uint8_t *values_of(const uint8_t *record, uint8_t code);

/* A Phoenix panel's profile, a 15 by 10 panel's kind, a tiling that is not fresh; in sum, or 0. */
enum lost { LOST_PROFILE = 1, LOST_KIND = 2, LOST_TILING = 4 };

unsigned lost_in_form_1(const uint8_t *record);

#endif
