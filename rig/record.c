#include "record.h"

#include <string.h>

#include "tiling.h"
#include "undivarro.h"

const uint8_t *values_of(const uint8_t *record, uint8_t code)
{
    for (size_t at = FIELDS_AT; at + 2 <= RECORD_LEN; at += 2u + record[at + 1])
        if (record[at] == code)
            return record + at + 2;
    return NULL;
}

unsigned lost_in_form_1(const uint8_t *record)
{
    unsigned lost = 0;
    if (record[PROFILE_AT] != UNDIVARRO_GENERAL)
        lost |= LOST_PROFILE;
    if (record[KIND_AT] != UNDIVARRO_5_BY_5)
        lost |= LOST_KIND;
    if (memcmp(record + TILING_AT, fresh_tiling, TILING_LEN) != 0)
        lost |= LOST_TILING;
    return lost;
}
