#include "tilings.h"

#include <string.h>

#include "walls.h"

const char *const shared_set_names[SHARED_SETS] = {
    "15x10 panels took it and 5x5 ones did not", "5x5 panels took it and 15x10 ones did not",
    "both kinds took it, a wall of another size on each", "byte 0: panels of other walls took it and kept their bytes",
    "byte 0: of one kind, some took it and some not",
};

const char *const other_tiling_names[OTHER_TILINGS] = {
    "get to a 5x5 panel: the report of its four values", "get to a 15x10 panel: the report of its four values",
    "set with 3 values: NAV", "set with 5 values: NAV", "code 01 alone: NAV", "code 01 with a kind behind it: NAV",
    "code 01 with a kind behind it, to a group or all: silence", "code 00 alone: NAV",
};

/* What the addressed panels made of a set. */
struct outcome {
    size_t panels;
    struct sight last;                  /* of the last of them */
    bool took[KINDS], kept[KINDS];
    bool other_bytes;                   /* those that took it had not all the same byte */
};

/* The set put into the wall. */
static struct outcome set_tiling(const struct test_case *c, struct wall *wall, const uint8_t *values)
{
    struct outcome o = {0};
    uint8_t byte = 0;
    for (size_t k = 0; k < wall->count; k++) {
        uint8_t *record = wall->image + RECORD_LEN * k, *tiling = record + TILING_AT, then[TILING_LEN];
        if (!is_addressed(c, record))
            continue;
        o.panels++;
        o.last = see(record, values);
        (is_taken(o.last) ? o.took : o.kept)[record[KIND_AT]] = true;
        if (!is_taken(o.last))
            continue;
        o.other_bytes |= byte != 0 && byte != tiling[WALL_BYTE];
        byte = tiling[WALL_BYTE];
        fill_in(values, tiling, then);
        memcpy(tiling, then, TILING_LEN);
    }
    return o;
}

static void count_shared(unsigned long met[SHARED_SETS], struct outcome o, uint8_t byte)
{
    enum { S = UNDIVARRO_5_BY_5, L = UNDIVARRO_15_BY_10 };
    if (byte == 0) {
        met[OWN_BYTES] += o.other_bytes;
        met[BY_OWN_WALL] += (o.took[S] && o.kept[S]) || (o.took[L] && o.kept[L]);
        return;
    }
    met[LARGE_ALONE] += o.took[L] && o.kept[S];
    met[SMALL_ALONE] += o.took[S] && o.kept[L];
    met[BOTH_KINDS] += o.took[S] && o.took[L] && wall_of(S, byte).width != wall_of(L, byte).width;
}

static void count_set(struct tilings *t, const struct test_case *c, const struct trial *by_plain, struct wall *wall)
{
    const uint8_t *values = packet_of(c).data + 1;
    struct outcome o = set_tiling(c, wall, values);
    uint8_t control = control_of(c, by_plain);
    if (!is_after(wall, by_plain) || o.panels == 0)
        return;
    if (whom_of(c) == ONE)
        count_set_cases(t->set, o.last, control);
    else if (control == SILENCE)
        count_shared(whom_of(c) == ALL ? t->to_all : t->to_group, o, values[WALL_BYTE]);
}

static void count_get(unsigned long *met, const struct test_case *c, const struct trial *by_plain, const struct wall *wall)
{
    if (by_plain->result.answer_len == 0)
        return;
    struct packet report = answer_of(c, by_plain);
    for (size_t k = 0; k < wall->count; k++) {
        const uint8_t *record = record_at(wall->image, k);
        if (is_addressed(c, record) && report.len == 1 + TILING_LEN)
            met[record[KIND_AT] == UNDIVARRO_5_BY_5 ? GOT_SMALL : GOT_LARGE]
                += memcmp(report.data + 1, record + TILING_AT, TILING_LEN) == 0;
    }
}

/* A get, or what is not available: the burst's code with so many bytes behind it. */
static void count_other(unsigned long *met, const struct test_case *c, const struct trial *by_plain, const struct wall *wall,
                        size_t given)
{
    struct packet p = packet_of(c);
    uint8_t code = p.data[0], control = control_of(c, by_plain);
    if (!is_after(wall, by_plain))
        return;
    if (code == settings[TILING].get_code && given == 0) {
        count_get(met, c, by_plain, wall);
    } else if (code == settings[TILING].set_code) {
        met[SET_OF_3] += given == 3 && control == NAV;
        met[SET_OF_5] += given == 5 && control == NAV;
    } else if (code == UNDIVARRO_KIND_CODE) {
        bool a_kind = given == 1 && p.data[1] < KINDS;
        met[KIND_CODE_ALONE] += given == 0 && control == NAV;
        met[KIND_CODE_SET] += a_kind && control == NAV;
        met[KIND_CODE_TO_MANY] += a_kind && whom_of(c) != ONE && control == SILENCE && wall->count > 0;
    } else if (code == 0) {
        met[CODE_0_ALONE] += given == 0 && control == NAV;
    }
}

void count_tiling(struct tilings *t, const struct test_case *c, const struct trial *by_plain)
{
    struct wall wall;
    if (by_plain->result.refusal || by_plain->result.damage || c->burst_len == 0)
        return;
    struct packet p = packet_of(c);
    if (p.len == 0 || !read_wall(c, &wall))
        return;
    size_t given = p.len - 1;
    if (p.data[0] == settings[TILING].set_code && given == TILING_LEN)
        count_set(t, c, by_plain, &wall);
    else
        count_other(t->other, c, by_plain, &wall, given);
}
