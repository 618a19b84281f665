#include "case_bursts.h"

#include <string.h>

#include "case_data.h"
#include "checksum.h"

const char *const burst_kind_names[BURST_KINDS] = {
    "empty", "get", "set", "set with any values", "set of video for one profile", "power off or on", "tiling",
    "set with any length", "get with bytes behind it", "any code", "code of the kind, or 0", "no data",
    "as much data as fits", "packet of the other edition", "one byte changed", "one byte lost", "one byte added",
    "two bytes swapped", "1 to 3 bytes", "41 to 300 bytes", "over 65,535 bytes", "2 to 5 or 39 to 41 bytes", "random bytes",
};

static void set_checksum(uint8_t *burst, size_t len)
{
    burst[len - 1] = xor_of(burst, len - 1);
}

static void close_packet(uint8_t *burst, size_t len)
{
    burst[0] = (uint8_t)len;
    set_checksum(burst, len);
}

/* To the panel, if there is one, its group, or all. A set that panels may judge each in its own way goes to all or to a
 * group more often. A packet without a group byte has its data in the group's place. */
static void address(struct source *s, enum burst_kind kind, const struct record *panel, uint8_t *id, uint8_t *group)
{
    uint8_t an_id = panel ? panel->bytes[0] : any_byte(s), a_group = panel ? panel->bytes[1] : any_byte(s);
    bool judged = kind == BURST_SET_ONE_PROFILE || kind == BURST_SET_POWER || kind == BURST_SET_TILING;
    *id = an_id;
    *group = 0;
    switch (judged && one_in(s, 4) ? 1 : below(s, judged ? 3 : 8)) {
    case 0:
        *id = 0;
        break;
    case 1:
        *group = a_group;
        *id = one_in(s, 2) ? 0 : an_id;
        break;
    case 3:
        *id = any_byte(s);
        break;
    case 4:
        *group = one_in(s, 2) ? 255 : any_byte(s);
        break;
    }
}

/* Often one that leaves the XOR or the size right. */
static size_t add_byte(struct source *s, uint8_t *burst, size_t len)
{
    size_t at = below(s, (unsigned)len + 1);
    memmove(burst + at + 1, burst + at, len - at);
    burst[at] = one_in(s, 3) ? any_byte(s) : one_in(s, 2) ? 0 : (uint8_t)(len + 1);
    return len + 1;
}

static size_t make_short(struct source *s, uint8_t *burst)
{
    size_t len = 1 + below(s, 3);
    if (one_in(s, 2))
        burst[0] = (uint8_t)len;
    if (one_in(s, 2))                   /* an XOR of 0, as a packet of 3 bytes would have */
        set_checksum(burst, len);
    return len;
}

/* At one of the limits of a packet's length or beside it; the size right or wrong, and the XOR as well. */
static size_t make_limit(struct source *s, const struct edition *form, uint8_t *burst)
{
    static const uint8_t lens[] = {2, 3, 4, 5, 39, 40, 41};
    size_t len = lens[below(s, sizeof lens)];
    if (len > form->head)
        fill_any(s, burst + form->head, len - form->head);
    burst[0] = one_in(s, 4) ? any_byte(s) : (uint8_t)(one_in(s, 3) ? len - 1 + 2 * below(s, 2) : len);
    set_checksum(burst, len);
    if (one_in(s, 2))
        burst[len - 1] ^= (uint8_t)(1 + below(s, 255));
    return len;
}

/* Often with the count's low byte for its size, and an XOR of 0. */
static size_t make_long(struct source *s, uint8_t *burst, size_t len, size_t to)
{
    fill_any(s, burst + len, to - len);
    if (!one_in(s, 4))
        close_packet(burst, to);
    return to;
}

static size_t make_random(struct source *s, uint8_t *burst)
{
    uint8_t id = burst[1], group = burst[2];
    size_t len = 1 + below(s, MAX_PACKET + 4);
    fill_any(s, burst, len);
    if (one_in(s, 2))
        burst[0] = (uint8_t)len;
    if (len > 2 && one_in(s, 2)) {
        burst[1] = id;
        burst[2] = group;
    }
    if (one_in(s, 2))
        set_checksum(burst, len);
    return len;
}

/* An intact burst made into one of the kind; its length then. */
static size_t spoil_burst(struct source *s, enum burst_kind kind, const struct edition *form, uint8_t *burst, size_t len)
{
    size_t at = below(s, (unsigned)len);
    switch (kind) {
    case BURST_EMPTY:
        return 0;
    case BURST_CHANGED:
        burst[at] ^= (uint8_t)(1 + below(s, 255));
        return len;
    case BURST_LOST:
        memmove(burst + at, burst + at + 1, len - at - 1);
        return len - 1;
    case BURST_ADDED:
        return add_byte(s, burst, len);
    case BURST_SWAPPED: {
        size_t other = below(s, (unsigned)len);
        uint8_t held = burst[at];
        burst[at] = burst[other];
        burst[other] = held;
        return len;
    }
    case BURST_SHORT:
        return make_short(s, burst);
    case BURST_LONG:
        return make_long(s, burst, len, one_in(s, 6) ? 256 : MAX_PACKET + 1 + below(s, one_in(s, 2) ? 3 : 260));
    case BURST_VERY_LONG:
        return make_long(s, burst, len, one_in(s, 3) ? 65536 : 65536 + below(s, 64));
    case BURST_LIMIT:
        return make_limit(s, form, burst);
    case BURST_RANDOM:
        return make_random(s, burst);
    default:
        return len;
    }
}

/* One of the draft, for a tiling often one that is 15 by 10 or has a wall; NULL where there is none. */
static const struct record *choose_panel(struct source *s, enum burst_kind kind, const struct draft *d)
{
    const struct record *panel = NULL;
    for (int tries = kind == BURST_SET_TILING ? 3 : 1; d->count > 0 && tries > 0; tries--) {
        panel = &d->records[below(s, (unsigned)d->count)];
        if (panel->kind == UNDIVARRO_15_BY_10 || panel->tiling[WALL_BYTE] > 1)
            break;
    }
    return panel;
}

/* In which the packet is made: the line's own, but for one that is meant to be the other's. */
static const struct edition *choose_form(struct source *s, enum burst_kind kind, const struct edition *line)
{
    if (!line)
        return &editions[below(s, EDITIONS)];
    bool old = line == &editions[SICP_1_85], other = kind == BURST_OTHER_EDITION;
    return &editions[old != other ? SICP_1_85 : SICP_2_01];
}

/* Of what kind the data is that is then spoiled, or put into the other edition's form. */
static enum burst_kind choose_data(struct source *s, enum burst_kind kind)
{
    if (kind == BURST_OTHER_EDITION)
        return one_in(s, 5) ? BURST_NO_DATA : one_in(s, 2) ? BURST_GET : BURST_SET;
    return kind >= BURST_CHANGED && one_in(s, 2) ? BURST_GET : kind;
}

enum burst_kind choose_burst(struct source *s)
{
    static const enum burst_kind often[] = {
        BURST_SET_ONE_PROFILE, BURST_SET_ONE_PROFILE, BURST_SET_ONE_PROFILE, BURST_SET_POWER, BURST_SET_POWER,
        BURST_SET_TILING, BURST_SET_TILING, BURST_SET_TILING, BURST_SET_TILING, BURST_SET_TILING, BURST_SET_TILING,
        BURST_SET_TILING, BURST_SET_TILING, BURST_SET_TILING, BURST_SET_TILING, BURST_SET, BURST_GET, BURST_GET,
        BURST_GET, BURST_LIMIT, BURST_LIMIT, BURST_LIMIT, BURST_SHORT, BURST_LONG,
    };
    enum burst_kind kind = one_in(s, 2) ? often[below(s, sizeof often / sizeof often[0])] : below(s, BURST_KINDS);
    return kind == BURST_VERY_LONG && !one_in(s, 3) ? BURST_GET : kind;
}

size_t make_burst(struct source *s, enum burst_kind kind, const struct edition *line, const struct draft *d, uint8_t *burst)
{
    const struct record *panel = choose_panel(s, kind, d);
    const struct edition *form = choose_form(s, kind, line);
    uint8_t data[64] = {0};
    address(s, kind, panel, &burst[1], &burst[2]);
    size_t around = shortest_packet(form);
    size_t data_len = make_data(s, choose_data(s, kind), panel, MAX_PACKET - (unsigned)around, data);
    memcpy(burst + form->head, data, data_len);
    close_packet(burst, data_len + around);
    return spoil_burst(s, kind, form, burst, data_len + around);
}
