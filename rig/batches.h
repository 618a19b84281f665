/* Batches: what was met of lists, of the room lent and of refusals beside each other, with the outcome. */
#ifndef BATCHES_H
#define BATCHES_H

#include "trial.h"

enum batch_case {
    /* played */
    NO_BURSTS, ONE_BURST, EMPTY_ALONE, EMPTY_BETWEEN, LONGEST_NACK, LONGEST_SILENCE, ALL_SILENT, WALL_STAYS, WALL_CHANGES,
    DAMAGED_BETWEEN,
    /* answered otherwise than on the wall before the batch */
    LATER_REPORT, LATER_POWER_OFF, LATER_TILING,
    /* the room lent for the answers of a list that has bursts */
    ANSWERS_EXACT, ANSWERS_MORE,
    /* 32 */
    STOPS_BEHIND_COUNT, STOPS_BEFORE_LAST, STOPS_BETWEEN, STOPS_IN_FIRST, STOPS_IN_LATER, STOPS_AFTER_CHANGE,
    /* 33 */
    ANSWERS_1_LESS, ANSWERS_40_EACH, ANSWERS_NONE, ANSWERS_WOULD_FIT, ANSWERS_SILENT,
    BATCH_CASES
};

/* Counts and lengths over 8 bits and over 16, of a list that was played. */
enum large_case { OVER_255_BURSTS, OVER_65535_LISTED, OVER_65535_NEEDED, LARGE_CASES };

/* What would be refused by a number that comes later: 19, 23, 32, 33. */
enum later { LATER_19, LATER_23, LATER_32, LATER_33, LATERS };

extern const char *const batch_case_names[BATCH_CASES];
extern const char *const large_case_names[LARGE_CASES];

/* The refusals that a later one can stand behind: 11 to 19, 23 and 32. */
enum { EARLIERS = 11 };
uint32_t earlier_refusal(unsigned i);
const char *later_name(enum later later);

/* It comes behind that refusal. */
bool comes_later(unsigned i, enum later later);

struct batches {
    unsigned long list[LIST_KINDS];
    unsigned long met[EDITIONS][BATCH_CASES];
    unsigned long large[LARGE_CASES];
    unsigned long beside[EARLIERS][LATERS];     /* refused by the earlier, though the later holds too */
};

/* Of a batch. */
void count_batch(struct batches *b, const struct test_case *c, const struct trial *by_plain);

#endif
