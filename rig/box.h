/* Bursts played on a setup. */
#ifndef BOX_H
#define BOX_H

#include "edition.h"
#include "setup.h"

struct reply {
    size_t len;                         /* 0 is silence */
    uint8_t answer[UNDIVARRO_ANSWER_CAP];
    uint32_t damage;                    /* of the burst */
    struct setup after;                 /* the setup behind the burst */
};

/* On a line of the edition. 0, or the library's refusal of the setup. */
uint32_t play_burst(const struct edition *edition, const struct setup *setup, const uint8_t *burst, size_t len,
                    struct reply *reply);

/* The same of a list of bursts, as the library has it; answers has room for UNDIVARRO_BATCH_CAP bytes for each. */
uint32_t play_list(const struct edition *edition, const struct setup *setup, const uint8_t *list, size_t len, uint8_t *answers,
                   size_t answers_cap, struct setup *after);

/* What is wrong with a burst of such a list. */
uint32_t burst_damage(const struct edition *edition, const uint8_t *burst, size_t len);

#endif
