/* Power off and on: what the addressed panels were before, with the answer and the wall that have to come of it. */
#ifndef POWERS_H
#define POWERS_H

#include "trial.h"

enum { POWER_CASES = 12 };

/* Of a play. */
void count_power(unsigned long met[POWER_CASES], const struct test_case *c, const struct trial *by_plain);

const char *power_case_name(unsigned i);

#endif
