/* What was wrong with the bursts that were played: each damage with the ways in which it was met, and bursts at the limits
 * of what a packet may be with the damage that was told. */
#ifndef DAMAGES_H
#define DAMAGES_H

#include "trial.h"

enum { DAMAGES = UNDIVARRO_CHECKSUM_WRONG + 1, LIMITS = 31 };

enum way { WAY_NACK, WAY_OTHER_GROUP, WAY_NO_PANEL, WAY_IMAGE_REFUSED, WAY_NO_ROOM, WAYS };

extern const char *const way_names[WAYS];

struct damages {
    unsigned long told[DAMAGES];
    unsigned long met[DAMAGES][WAYS];
    unsigned long at_limit[LIMITS];
};

/* Of the case's burst on a line of the edition with this number, whatever image and room are. */
uint32_t damage_on(uint32_t edition, const struct test_case *c);

/* Of a play on a line of an edition, to the counts of that edition. */
void count_damage(struct damages *d, const struct test_case *c, const struct trial *by_plain);

const char *limit_name(unsigned limit);
uint32_t limit_damage(unsigned limit, unsigned edition);

#endif
