/* One implementation run on one case, with guard bytes around everything that is lent. */
#ifndef TRIAL_H
#define TRIAL_H

#include "cases.h"
#include "names.h"
#include "undivarro.h"

enum { GUARD = 32, AREA = GUARD + MAX_ROOM + GUARD };

struct box {
    const char *name;
    struct undivarro_result (*play)(const uint8_t *, size_t, const uint8_t *, size_t, uint8_t *, size_t, uint8_t *, size_t);
    struct undivarro_result (*play_on)(uint32_t, const uint8_t *, size_t, const uint8_t *, size_t, uint8_t *, size_t, uint8_t *,
                                       size_t);
    struct undivarro_result (*batch)(const uint8_t *, size_t, const uint8_t *, size_t, uint8_t *, size_t, uint8_t *, size_t);
    struct undivarro_result (*batch_on)(uint32_t, const uint8_t *, size_t, const uint8_t *, size_t, uint8_t *, size_t, uint8_t *,
                                        size_t);
    struct undivarro_result (*read)(const uint8_t *, size_t, uint8_t *, size_t);
    struct undivarro_result (*back)(const uint8_t *, size_t, uint8_t *, size_t);
    struct undivarro_result (*salvage)(const uint8_t *, size_t, uint8_t *, size_t, uint8_t *, size_t);
};

struct trial {
    struct undivarro_result result;
    const char *fault;                  /* what was touched or answered against the header, or NULL */
    _Alignas(8) uint8_t answer[AREA];   /* or answers or lines: a guard, the lent bytes, a guard */
    _Alignas(8) uint8_t out[AREA];
};

void run_trial(const struct box *box, const struct test_case *c, struct trial *t);

/* Refusal, lengths, damage and every byte of both areas the same. */
bool same_outcome(const struct test_case *c, const struct trial *a, const struct trial *b);

/* What the answer says, which is there. */
struct packet answer_of(const struct test_case *c, const struct trial *t);

/* The answer's control word, or SILENCE. */
enum { SILENCE = 0 };
uint8_t control_of(const struct test_case *c, const struct trial *t);

/* The outcome mixed into a sum over all cases so far; runs with equal sums met equal outcomes. */
uint64_t add_outcome(uint64_t sum, const struct trial *t);

#endif
