/* A batch beside its bursts played by calls of their own. */
#ifndef ONE_BY_ONE_H
#define ONE_BY_ONE_H

#include "trial.h"

/* In what the box's own batch, which was not refused, differs from its bursts played one after the other; or NULL. */
const char *differs_one_by_one(const struct box *box, const struct test_case *c, const struct trial *t);

#endif
