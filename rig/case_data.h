/* The data bytes of a case's burst. */
#ifndef CASE_DATA_H
#define CASE_DATA_H

#include "case_records.h"

enum { MAX_PACKET = 40 };

/* Of the kind, for the panel if there is one, and so many at most; the bytes are 0 before. Their number. */
size_t make_data(struct source *s, enum burst_kind kind, const struct record *panel, unsigned most, uint8_t *data);

#endif
