/* Images worth salvaging: faults in many records, and several in one. */
#ifndef CASE_WRECKS_H
#define CASE_WRECKS_H

#include "case_records.h"

enum image_kind any_wreck(struct source *s);

/* The draft is of sound records. */
void wreck_draft(struct source *s, struct draft *d, enum image_kind kind);

#endif
