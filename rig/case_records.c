#include "case_records.h"

#include <string.h>

size_t head_len(const struct draft *d)
{
    return d->form == 1 ? 2 : 3;
}

static unsigned panel_count(struct source *s)
{
    switch (below(s, 16)) {
    case 0:
        return UNDIVARRO_MAX_PANELS;
    case 1:
    case 2:
        return 8 + below(s, 24);
    case 3: case 4: case 5: case 6:
        return 4 + below(s, 5);
    default:
        return 1 + below(s, 3);
    }
}

/* For each record its profile, its kind, or whether it has a tiling of its own: in form 1 0, in form 2 each 0 or 1, or all
 * alike, or all alike but one, often the last. */
static void choose(struct source *s, const struct draft *d, uint8_t *chosen)
{
    uint8_t most = (uint8_t)(d->form == 1 ? 0 : below(s, 2));
    bool mixed = d->form == 2 && one_in(s, 3);
    for (size_t k = 0; k < d->count; k++)
        chosen[k] = (uint8_t)(mixed ? below(s, 2) : most);
    if (d->form == 2 && !mixed && d->count > 0 && one_in(s, 2))
        chosen[one_in(s, 2) ? d->count - 1 : below(s, (unsigned)d->count)] = !most;
}

/* Which fields the record has, in which order; their number. A panel whose kind is left out is 5 by 5; half of those that
 * would be 15 by 10 keep it. */
static unsigned choose_fields(struct source *s, uint8_t form, struct record *r, enum image_kind kind, uint8_t rows[ROWS])
{
    unsigned count = rows_of(form, rows);
    if (kind == IMAGE_WRITTEN)
        return count;
    shuffle(s, rows, count);
    if (r->kind == UNDIVARRO_15_BY_10 && one_in(s, 2))
        put_before(KIND, rows[0], rows, count);
    if (kind == IMAGE_LEFT_OUT || (kind >= WRECK_ANY && one_in(s, 3)))
        count = below(s, count + 1);
    put_before(KIND, TILING, rows, count);
    if (place_of(KIND, rows, count) == count)
        r->kind = UNDIVARRO_5_BY_5;
    return count;
}

static void turn_off(struct record *r)
{
    unsigned f = field_of(r, POWER);
    if (f < r->fields)
        r->bytes[r->at[f] + 2] = OFF;
}

void make_draft(struct source *s, struct draft *d, enum image_kind kind)
{
    d->form = one_in(s, 4) && kind != WRECK_FULL ? 1 : 2;
    d->count = kind == IMAGE_NO_PANELS ? 0 : kind == IMAGE_33_PANELS ? MAX_RECORDS
        : kind == WRECK_FULL ? UNDIVARRO_MAX_PANELS : panel_count(s);
    uint8_t profiles[MAX_RECORDS], kinds[MAX_RECORDS], own_tiling[MAX_RECORDS];
    choose(s, d, profiles);
    choose(s, d, kinds);
    choose(s, d, own_tiling);
    bool taken[256] = {[0] = true}, all_off = one_in(s, 6), all_nearly_fresh = one_in(s, 4);
    uint8_t nearly_fresh[TILING_LEN];
    make_nearly_fresh(s, nearly_fresh);
    uint8_t groups[4] = {(uint8_t)(1 + below(s, 254)), one_in(s, 2) ? 1 : 254, 255, 9};
    for (size_t k = 0; k < d->count; k++) {
        struct record *r = &d->records[k];
        uint8_t id = one_in(s, 4) ? 255 : (uint8_t)(1 + below(s, 40)), rows[ROWS];
        while (taken[id])
            id = any_byte(s);
        taken[id] = true;
        r->profile = profiles[k];
        r->kind = kinds[k];
        r->bytes[0] = id;
        r->bytes[1] = groups[one_in(s, 2) ? 0 : below(s, 4)];
        r->bytes[2] = r->profile;       /* in form 1 the first field comes over it */
        r->len = head_len(d);
        r->fields = 0;
        unsigned count = choose_fields(s, d->form, r, kind, rows);
        bool fresh = !own_tiling[k] || place_of(TILING, rows, count) == count;
        if (fresh || all_nearly_fresh)
            memcpy(r->tiling, fresh ? fresh_tiling : nearly_fresh, TILING_LEN);
        else
            make_tiling(s, r->kind, r->tiling);
        add_fields(s, r, rows, count);
        if (all_off)
            turn_off(r);
    }
}

bool video_left_out(const struct draft *d, uint8_t profile)
{
    for (size_t k = 0; k < d->count; k++)
        if (d->records[k].profile == profile && field_of(&d->records[k], VIDEO) == d->records[k].fields)
            return true;
    return false;
}

enum place_kind place_kind_of(const struct record *r)
{
    unsigned kind = field_of(r, KIND);
    if (field_of(r, TILING) == r->fields)
        return kind == r->fields ? NEITHER : KIND_ALONE;
    return kind == r->fields ? TILING_ALONE : kind == 0 ? KIND_FIRST : KIND_LATER;
}
