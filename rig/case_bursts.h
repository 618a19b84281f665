/* The bursts of cases. */
#ifndef CASE_BURSTS_H
#define CASE_BURSTS_H

#include "case_records.h"

enum burst_kind choose_burst(struct source *s);

/* For a line, or for one of no edition, and addressed, as a rule, to panels of the draft; its length. burst has room for
 * MAX_BURST_BYTES. */
size_t make_burst(struct source *s, enum burst_kind kind, const struct edition *line, const struct draft *d, uint8_t *burst);

#endif
