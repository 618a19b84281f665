/* What a run of the comparison met, kind by kind. */
#ifndef TALLY_H
#define TALLY_H

#include "batches.h"
#include "damages.h"
#include "editions.h"
#include "kinds.h"
#include "meetings.h"
#include "powers.h"
#include "salvages.h"
#include "tilings.h"

/* Of plays on lines of one edition. */
struct line_tally {
    unsigned long burst[BURST_KINDS];
    unsigned long silence, control[256], report[256];
    struct damages damages;
};

struct tally {
    unsigned long image[IMAGE_KINDS], room[ROOM_KINDS];
    unsigned long refusal[CALLS][256];  /* 0 is none */
    struct line_tally lines[EDITIONS];
    struct editions editions;
    unsigned long power[POWER_CASES];
    struct tilings tilings;
    struct kinds kinds;
    struct meetings meetings;
    struct salvages salvages;
    struct batches batches;
};

/* by_plain is the outcome of the plain box. */
void count_outcome(struct tally *tally, const struct test_case *c, const struct trial *by_plain);
void print_tally(const struct tally *tally);

/* Every kind of image and room, every refusal and every kind of wall for each call, for each edition every kind of burst and
 * of answer and every damage in all its ways and at all limits, every case of the editions, of power, of tiling, of kinds, of
 * salvage and of batches, and every meeting; if not, says which was not met. */
bool met_everything(const struct tally *tally);

#endif
