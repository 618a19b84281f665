/* The records of an image, kept apart until it is put together. */
#ifndef CASE_RECORDS_H
#define CASE_RECORDS_H

#include "case_fields.h"
#include "cases.h"
#include "undivarro.h"

enum { MAX_RECORDS = UNDIVARRO_MAX_PANELS + 1 };

struct draft {
    uint8_t form;
    size_t count;
    struct record records[MAX_RECORDS];
};

/* ID and group, in form 2 the profile too. */
size_t head_len(const struct draft *d);

/* Sound records in one form or the other, as many and with such fields as the kind says. */
void make_draft(struct source *s, struct draft *d, enum image_kind kind);

/* A record of the profile has no video. */
bool video_left_out(const struct draft *d, uint8_t profile);

/* Where the record has its kind and its tiling. */
enum place_kind place_kind_of(const struct record *r);

#endif
