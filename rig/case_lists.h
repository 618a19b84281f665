/* The list of bursts of a batch. */
#ifndef CASE_LISTS_H
#define CASE_LISTS_H

#include "case_records.h"

/* The longest burst that a list can have: its count is one byte. */
enum { LONGEST_LISTED = 255 };

/* Its bursts are addressed, as a rule, to panels of the draft. */
void make_list(struct source *s, struct test_case *c, const struct draft *d);

#endif
