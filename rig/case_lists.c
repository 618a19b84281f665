#include "case_lists.h"

#include <string.h>

#include "case_bursts.h"

const char *const list_kind_names[LIST_KINDS] = {
    "no bytes", "one burst", "2 to 12 bursts", "2 to 12 bursts to one panel", "13 to 40 bursts", "empty bursts alone",
    "bursts of 255 bytes", "cut anywhere", "a count alone at its end", "the last byte lost", "a count too high", "any bytes",
    "bursts of 255 bytes, over 65,535 bytes in all", "over 255 bursts", "over 1,598 bursts",
};

/* Where there is room for every burst behind it. */
static bool has_room(const struct test_case *c)
{
    return c->burst_len + 1 + LONGEST_LISTED <= sizeof c->burst;
}

static void put_burst(struct test_case *c, const uint8_t *burst, size_t len)
{
    c->burst[c->burst_len] = (uint8_t)len;
    memcpy(c->burst + c->burst_len + 1, burst, len);
    c->burst_len += 1 + len;
}

static void add_bursts(struct source *s, struct test_case *c, const struct draft *d, size_t count)
{
    static uint8_t burst[MAX_BURST_BYTES];
    for (size_t i = 0; i < count && has_room(c); i++) {
        enum burst_kind kind = choose_burst(s);
        size_t len = make_burst(s, kind == BURST_VERY_LONG ? BURST_LONG : kind, c->line, d, burst);
        put_burst(c, burst, len < LONGEST_LISTED ? len : LONGEST_LISTED);
    }
}

/* Damaged ones of the greatest length, at times with others between. */
static void add_longest(struct source *s, struct test_case *c, const struct draft *d, size_t count)
{
    uint8_t burst[LONGEST_LISTED];
    for (size_t i = 0; i < count && has_room(c); i++) {
        fill_any(s, burst, sizeof burst);
        if (d->count > 0 && one_in(s, 2)) {
            burst[1] = d->records[below(s, (unsigned)d->count)].bytes[0];
            burst[2] = 0;
        }
        put_burst(c, burst, sizeof burst);
        if (count < 8 && one_in(s, 2))
            add_bursts(s, c, d, 1);
    }
}

/* Short ones, most of them empty: so many that 41 bytes for each are over 16 bits. */
static void add_very_many(struct source *s, struct test_case *c, const struct draft *d, size_t count)
{
    static uint8_t burst[MAX_BURST_BYTES];
    for (size_t i = 0; i < count; i++)
        put_burst(c, burst, make_burst(s, one_in(s, 8) ? BURST_GET : BURST_EMPTY, c->line, d, burst));
}

/* To one panel alone, where there is one: what comes later goes by what came before. */
static void add_to_one(struct source *s, struct test_case *c, const struct draft *d, size_t count)
{
    static struct draft one;
    one.form = d->form;
    one.count = d->count > 0;
    if (one.count > 0)
        one.records[0] = d->records[below(s, (unsigned)d->count)];
    add_bursts(s, c, &one, count);
}

static void add_sound(struct source *s, struct test_case *c, const struct draft *d)
{
    switch (c->list_kind) {
    case LIST_NO_BYTES:
        break;
    case LIST_ONE:
        add_bursts(s, c, d, 1);
        break;
    case LIST_TO_ONE_PANEL:
        add_to_one(s, c, d, 2 + below(s, 11));
        break;
    case LIST_MANY:
        add_bursts(s, c, d, 13 + below(s, 28));
        break;
    case LIST_EMPTY_BURSTS:
        c->burst_len = 2 + below(s, 6);
        memset(c->burst, 0, c->burst_len);
        break;
    case LIST_LONGEST:
        add_longest(s, c, d, 1 + below(s, 4));
        break;
    case LIST_OVER_65535:
        add_longest(s, c, d, 256 + below(s, 4));
        break;
    case LIST_OVER_255:
        add_bursts(s, c, d, 256 + below(s, 8));
        break;
    case LIST_OVER_1598:
        add_very_many(s, c, d, 1599 + below(s, 8));
        break;
    default:
        add_bursts(s, c, d, 2 + below(s, 11));
        break;
    }
}

/* Where its last burst begins. */
static size_t last_burst(const struct test_case *c)
{
    size_t last = 0;
    for (size_t at = 0; at < c->burst_len; at += 1u + c->burst[at])
        last = at;
    return last;
}

static void spoil_list(struct source *s, struct test_case *c)
{
    switch (c->list_kind) {
    case LIST_CUT:
        c->burst_len = below(s, (unsigned)c->burst_len);
        break;
    case LIST_COUNT_ALONE:
        c->burst[c->burst_len++] = (uint8_t)(1 + below(s, 255));
        break;
    case LIST_BYTE_LOST:
        c->burst_len -= c->burst[last_burst(c)] > 0;
        break;
    case LIST_COUNT_HIGH: {
        uint8_t *count = c->burst + last_burst(c);
        *count = (uint8_t)(*count + (255 - *count) / (1 + below(s, 8)));
        break;
    }
    case LIST_ANY_BYTES:
        c->burst_len = 1 + below(s, 300);
        fill_any(s, c->burst, c->burst_len);
        break;
    default:
        break;
    }
}

void make_list(struct source *s, struct test_case *c, const struct draft *d)
{
    c->list_kind = one_in(s, 90) ? LIST_SELDOM + below(s, LIST_KINDS - LIST_SELDOM)
        : one_in(s, 5) ? LIST_TO_ONE_PANEL : below(s, LIST_SELDOM);
    c->burst_len = 0;
    add_sound(s, c, d);
    spoil_list(s, c);

    c->bursts = 0;
    size_t at = 0;
    for (; at < c->burst_len; at += 1u + c->burst[at])
        c->bursts++;
    c->cut = at > c->burst_len;
}
