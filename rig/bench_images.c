#include "bench_images.h"

#include <string.h>

#include "plain.h"
#include "record.h"

struct image form_1, form_2, one_apart, four_groups, wreck;

/* No value is allowed, and behind each record's fields stands a code alone. */
static void make_wreck(void)
{
    uint8_t *to = wreck.bytes, *starts = to + (RECORD_LEN + 1) * PANELS;
    for (unsigned k = 0; k < PANELS; k++) {
        *starts++ = (uint8_t)((to - wreck.bytes) >> 8);
        *starts++ = (uint8_t)(to - wreck.bytes);
        memcpy(to, form_2.bytes + RECORD_LEN * k, RECORD_LEN);
        for (size_t at = FIELDS_AT; at < RECORD_LEN; at += 2u + to[at + 1])
            memset(to + at + 2, 0xFF, to[at + 1]);
        to[RECORD_LEN] = 0xFF;
        to += RECORD_LEN + 1;
    }
    *starts++ = PANELS;
    *starts++ = 2;
    wreck.len = (size_t)(starts - wreck.bytes);
}

void make_images(void)
{
    uint8_t fresh[4 * PANELS + 2];      /* form 1, records of ID and group */
    for (unsigned k = 0; k < PANELS; k++) {
        fresh[2 * k] = (uint8_t)(k + 1);
        fresh[2 * k + 1] = 9;
        fresh[2 * PANELS + 2 * k] = 0;
        fresh[2 * PANELS + 2 * k + 1] = (uint8_t)(2 * k);
    }
    fresh[4 * PANELS] = PANELS;
    fresh[4 * PANELS + 1] = 1;
    form_1.len = plain_back(fresh, sizeof fresh, form_1.bytes, sizeof form_1.bytes).image_len;
    form_2.len = plain_read(fresh, sizeof fresh, form_2.bytes, sizeof form_2.bytes).image_len;
    one_apart = form_2;
    one_apart.bytes[RECORD_LEN * 16 + GROUP_AT] = 8;
    four_groups = form_2;
    for (unsigned k = 0; k < PANELS; k++)
        four_groups.bytes[RECORD_LEN * k + GROUP_AT] = (uint8_t)(1 + k / 8);
    make_wreck();
}
