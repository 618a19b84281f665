/* The spoilings of an image's records. */
#ifndef CASE_SPOILINGS_H
#define CASE_SPOILINGS_H

#include "case_records.h"

/* One record spoiled, in itself or in one of its fields: any, or this one. A record takes three of them. */
void spoil_draft(struct source *s, struct draft *d, enum image_kind kind, struct spoiled *spoiled);
void spoil_record(struct source *s, const struct draft *d, struct record *r, enum image_kind kind, struct spoiled *spoiled);

#endif
