#include "case_data.h"

#include <string.h>

static size_t make_set(struct source *s, enum burst_kind kind, unsigned row, const struct record *panel, uint8_t *data)
{
    uint8_t profile = any_profile(s);
    size_t len = 1u + settings[row].count;
    data[0] = settings[row].set_code;
    values(s, row, profile, any_kind(s), data + 1);
    if (kind == BURST_SET_TILING && panel)
        make_tiling_set(s, panel->kind, panel->tiling, data + 1);
    if (kind == BURST_SET_ANY_VALUE)
        spoil_value(s, row, profile, data + 1);
    if (kind == BURST_SET_ONE_PROFILE)
        put_own_value(s, profile, data + 1);
    if (kind == BURST_SET_POWER)
        data[1] = one_in(s, 4) ? ON : OFF;
    if (kind == BURST_SET_LENGTH || (kind == BURST_SET_TILING && one_in(s, 16))) {
        data[len] = (uint8_t)below(s, 3);
        len = one_in(s, 2) ? len - 1 : one_in(s, 2) ? len + 1 : 1 + below(s, 9);
    }
    return len;
}

/* Which setting it is about. */
static unsigned choose_row(struct source *s, enum burst_kind kind)
{
    switch (kind) {
    case BURST_SET_ONE_PROFILE:
        return VIDEO;
    case BURST_SET_POWER:
        return POWER;
    case BURST_SET_TILING:
        return TILING;
    default:
        return one_in(s, 5) ? VIDEO : one_in(s, 5) ? TILING : below(s, SETTINGS);
    }
}

size_t make_data(struct source *s, enum burst_kind kind, const struct record *panel, unsigned most, uint8_t *data)
{
    unsigned row = choose_row(s, kind);
    switch (kind) {
    case BURST_GET:
        data[0] = settings[row].get_code;
        return 1;
    case BURST_GET_LENGTH:
        fill_any(s, data, most);
        data[0] = settings[row].get_code;
        return one_in(s, 2) ? 1u + settings[row].count : 2 + below(s, most - 1);
    case BURST_UNKNOWN:
        fill_any(s, data, most);
        data[0] = any_code(s);
        return 1 + below(s, 9);
    case BURST_KIND:                    /* as a get, as a set of a kind, and longer; and code 0, beside it */
        data[0] = one_in(s, 3) ? 0 : UNDIVARRO_KIND_CODE;
        data[1] = (uint8_t)below(s, KINDS + 1);
        return 1 + below(s, 3);
    case BURST_NO_DATA:
        return 0;
    case BURST_FULL:
        memset(data, (int)below(s, 3), most);
        data[0] = one_in(s, 2) ? settings[row].set_code : any_code(s);
        return most;
    default:
        return make_set(s, kind, row, panel, data);
    }
}
