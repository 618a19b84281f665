#include "batches.h"

#include <string.h>

#include "case_lists.h"
#include "plain.h"
#include "tiling.h"
#include "walls.h"

const char *const batch_case_names[BATCH_CASES] = {
    "no bursts: no answers, the wall as before", "one burst", "empty bursts alone: a 0 for each, the wall as before",
    "an empty burst between others: a 0", "a burst of 255 bytes for a panel: NACK", "a burst of 255 bytes: silence",
    "several bursts, all silence", "several bursts, the wall as before", "several bursts, another wall",
    "a damaged burst, then a set: ACK",
    "a get after a set in the list: what was set", "power off after power off in the list: NAV",
    "a tiling whose byte is 0 after a tiling in the list: another answer",
    "41 bytes for each burst", "more than 41 bytes for each burst",
    "32 behind a count", "32 before the last byte of a burst", "32 between these", "32 in the first burst",
    "32 in a later burst", "32 behind a burst that would change the wall",
    "33 for 41 bytes for each burst but one", "33 for 40 bytes for each burst", "33 for no room",
    "33 though the answers would fit", "33 though all would be silence",
};

const char *const large_case_names[LARGE_CASES] = {
    "over 255 bursts", "over 65,535 bytes of list", "over 65,535 bytes of room needed",
};

static const uint32_t earliers[EARLIERS] = {11, 12, 13, 14, 15, 16, 17, 18, 19, 23, 32};
static const uint32_t laters[LATERS] = {19, 23, 32, 33};

uint32_t earlier_refusal(unsigned i)
{
    return earliers[i];
}

const char *later_name(enum later later)
{
    static const char *const names[LATERS] = {
        "there is no room for the image", "the edition is unknown", "the list stops inside a burst",
        "there is no room for the answers",
    };
    return names[later];
}

bool comes_later(unsigned i, enum later later)
{
    return earliers[i] < laters[later];
}

/* The case alone: what it lends and asks for, whatever else is wrong. */
static bool holds(enum later later, const struct test_case *c)
{
    switch (later) {
    case LATER_19:
        return c->out_cap < image_size(2, c->image_len > 1 ? c->image[c->image_len - 2] : 0);
    case LATER_23:
        return !c->line;
    case LATER_32:
        return c->cut;
    default:
        return c->answer_cap < UNDIVARRO_BATCH_CAP * c->bursts;
    }
}

static void count_beside(struct batches *b, const struct test_case *c, uint32_t refusal)
{
    for (unsigned i = 0; i < EARLIERS; i++)
        for (enum later later = 0; later < LATERS; later++)
            b->beside[i][later] += earliers[i] == refusal && comes_later(i, later) && holds(later, c);
}

/* A burst of the list that was played, and its answer; and what it gets on the wall before the batch. */
struct step {
    const uint8_t *burst, *answer;
    size_t len, answer_len;
    uint8_t alone[UNDIVARRO_ANSWER_CAP];
    struct undivarro_result by_itself;
};

static void play_alone(const struct test_case *c, struct step *step)
{
    uint8_t out[UNDIVARRO_IMAGE_CAP];
    step->by_itself = plain_play_on(c->edition, c->image, c->image_len, step->burst, step->len, step->alone,
                                    sizeof step->alone, out, sizeof out);
}

static bool is_control(const struct test_case *c, const struct step *step, uint8_t control)
{
    if (step->answer_len == 0)
        return false;
    const uint8_t *data = read_packet(c->line, step->answer, step->answer_len).data;
    return data[0] == 0 && data[1] == control;
}

/* What an earlier burst of the list has brought about. */
static void count_later(unsigned long *met, const struct test_case *c, const struct step *step)
{
    if (step->len == 0 || step->by_itself.damage || step->answer_len == 0)
        return;
    bool other = step->answer_len != step->by_itself.answer_len
        || memcmp(step->answer, step->alone, step->answer_len) != 0;
    struct packet p = read_packet(c->line, step->burst, step->len);
    const struct setting *setting = p.len > 0 ? setting_of(p.data[0]) : NULL;
    if (!other || !setting)
        return;
    met[LATER_REPORT] += p.data[0] == setting->get_code;
    met[LATER_POWER_OFF] += p.data[0] == settings[POWER].set_code && p.data[1] == OFF && is_control(c, step, NAV);
    met[LATER_TILING] += p.data[0] == settings[TILING].set_code && p.data[1 + WALL_BYTE] == 0;
}

static void count_longest(unsigned long *met, const struct test_case *c, const struct step *step)
{
    if (step->len != LONGEST_LISTED)
        return;
    met[LONGEST_NACK] += is_control(c, step, NACK);
    met[LONGEST_SILENCE] += step->answer_len == 0;
}

/* Over all bursts of a list that was played. */
struct sight {
    size_t at;                          /* how many came before */
    bool empty_alone, silent, intact_before, damaged_before;
};

static void count_step(unsigned long *met, const struct test_case *c, const struct step *step, struct sight *sight)
{
    bool damaged = step->by_itself.damage != UNDIVARRO_NO_DAMAGE, within = sight->at > 0 && sight->at + 1 < c->bursts;
    sight->empty_alone &= step->len == 0;
    sight->silent &= step->answer_len == 0;
    met[EMPTY_BETWEEN] += within && sight->intact_before && step->len == 0 && step->answer_len == 0;
    met[DAMAGED_BETWEEN] += sight->damaged_before && is_control(c, step, ACK);
    count_longest(met, c, step);
    count_later(met, c, step);
    sight->intact_before |= !damaged && step->len > 0;
    sight->damaged_before |= damaged;
    sight->at++;
}

static struct sight walk_list(unsigned long *met, const struct test_case *c, const struct trial *t)
{
    struct sight sight = {.empty_alone = true, .silent = true};
    const uint8_t *answer = t->answer + GUARD;
    for (size_t at = 0; at < c->burst_len; at += 1u + c->burst[at]) {
        struct step step = {.burst = c->burst + at + 1, .len = c->burst[at], .answer = answer + 1, .answer_len = answer[0]};
        play_alone(c, &step);
        count_step(met, c, &step, &sight);
        answer += 1 + step.answer_len;
    }
    return sight;
}

static void count_played(unsigned long *met, const struct test_case *c, const struct trial *t)
{
    struct wall wall;
    bool stays = read_wall(c, &wall) && is_after(&wall, t), several = c->bursts > 1;
    size_t needed = UNDIVARRO_BATCH_CAP * c->bursts;
    struct sight sight = walk_list(met, c, t);
    met[NO_BURSTS] += c->bursts == 0 && t->result.answer_len == 0 && stays;
    met[ONE_BURST] += c->bursts == 1;
    met[EMPTY_ALONE] += several && sight.empty_alone && t->result.answer_len == c->bursts && stays;
    met[ALL_SILENT] += several && !sight.empty_alone && sight.silent && t->result.answer_len == c->bursts;
    met[stays ? WALL_STAYS : WALL_CHANGES] += several;
    met[ANSWERS_EXACT] += c->bursts > 0 && c->answer_cap == needed;
    met[ANSWERS_MORE] += c->bursts > 0 && c->answer_cap > needed;
}

static void count_large(unsigned long *large, const struct test_case *c)
{
    large[OVER_255_BURSTS] += c->bursts > 255;
    large[OVER_65535_LISTED] += c->burst_len > 65535;
    large[OVER_65535_NEEDED] += UNDIVARRO_BATCH_CAP * c->bursts > 65535;
}

/* The list up to the burst that it stops in, which begins at *last, played where there is room: whether the wall changes. */
static bool changes_before(const struct test_case *c, size_t *last)
{
    static uint8_t answers[MAX_ROOM], out[UNDIVARRO_IMAGE_CAP];
    struct wall wall;
    *last = 0;
    for (size_t at = 0; at < c->burst_len; at += 1u + c->burst[at])
        *last = at;
    struct undivarro_result r = plain_batch_on(c->edition, c->image, c->image_len, c->burst, *last, answers, sizeof answers, out,
                                               sizeof out);
    return read_wall(c, &wall) && memcmp(out, wall.image, r.image_len) != 0;
}

static void count_stops(unsigned long *met, const struct test_case *c)
{
    size_t last;
    met[STOPS_AFTER_CHANGE] += changes_before(c, &last);
    size_t there = c->burst_len - last - 1, missing = c->burst[last] - there;
    met[STOPS_BEHIND_COUNT] += there == 0;
    met[STOPS_BEFORE_LAST] += missing == 1;
    met[STOPS_BETWEEN] += there > 0 && missing > 1;
    met[c->bursts == 1 ? STOPS_IN_FIRST : STOPS_IN_LATER]++;
}

/* 33: what would have been written, had there been room. */
static void count_no_room(unsigned long *met, const struct test_case *c)
{
    static uint8_t answers[MAX_ROOM], out[UNDIVARRO_IMAGE_CAP];
    size_t would = plain_batch_on(c->edition, c->image, c->image_len, c->burst, c->burst_len, answers, sizeof answers, out,
                                  sizeof out).answer_len;
    met[ANSWERS_1_LESS] += c->answer_cap == UNDIVARRO_BATCH_CAP * c->bursts - 1;
    met[ANSWERS_40_EACH] += c->answer_cap == UNDIVARRO_ANSWER_CAP * c->bursts;
    met[ANSWERS_NONE] += c->answer_cap == 0;
    met[ANSWERS_WOULD_FIT] += would <= c->answer_cap;
    met[ANSWERS_SILENT] += would == c->bursts;
}

void count_batch(struct batches *b, const struct test_case *c, const struct trial *by_plain)
{
    uint32_t refusal = by_plain->result.refusal;
    b->list[c->list_kind]++;
    count_beside(b, c, refusal);
    if (!c->line)
        return;
    unsigned long *met = b->met[c->line - editions];
    if (refusal == 0) {
        count_played(met, c, by_plain);
        count_large(b->large, c);
    } else if (refusal == 32) {
        count_stops(met, c);
    } else if (refusal == 33) {
        count_no_room(met, c);
    }
}
