#include "case_wrecks.h"

#include "case_spoilings.h"

enum image_kind any_wreck(struct source *s)
{
    static const enum image_kind wrecks[] = {
        WRECK_ANY, WRECK_ANY, WRECK_ANY, WRECK_VALUES, WRECK_VALUES, WRECK_KINDS, WRECK_KINDS, WRECK_IDS, WRECK_IDS,
        WRECK_DROPPED,
    };
    return one_in(s, 60) ? WRECK_FULL : wrecks[below(s, sizeof wrecks / sizeof wrecks[0])];
}

/* One of the kinds from..to - 1. */
static void spoil_by(struct source *s, const struct draft *d, struct record *r, enum image_kind from, enum image_kind to)
{
    struct spoiled spoiled;
    spoil_record(s, d, r, from + below(s, to - from), &spoiled);
}

/* A fault 17, in any field or behind all. */
static void spoil_a_field(struct source *s, const struct draft *d, struct record *r)
{
    spoil_by(s, d, r, FIELD_GET_CODE, FIELD_VALUE);
}

/* What drops a record of any ID. */
static void drop(struct source *s, const struct draft *d, struct record *r)
{
    static const enum image_kind kinds[] = {RECORD_1_BYTE, RECORD_ID_0, RECORD_GROUP_0, RECORD_2_BYTES, RECORD_PROFILE};
    struct spoiled spoiled;
    spoil_record(s, d, r, kinds[below(s, d->form == 1 ? 3 : 5)], &spoiled);
}

static void start_anew(const struct draft *d, struct record *r)
{
    r->len = head_len(d);
    r->fields = 0;
}

/* All fields of the form anew, each with fault 18 or every second one; the kind stands before the tiling. */
static void wreck_values(struct source *s, const struct draft *d, struct record *r, bool all)
{
    uint8_t rows[ROWS];
    unsigned count = rows_of(d->form, rows);
    shuffle(s, rows, count);
    put_before(KIND, TILING, rows, count);
    start_anew(d, r);
    add_fields(s, r, rows, count);
    for (unsigned f = 0; f < count; f++) {
        uint8_t *values = r->bytes + r->at[f] + 2;
        if (!all && one_in(s, 2))
            continue;
        if (rows[f] == KIND)
            *values = unknown_kind(s);
        else
            put_bad_value(s, rows[f], r->profile, values);
    }
}

/* Kind and tiling among the other fields in either order, known and allowed or not, the tiling for either kind. */
static void wreck_kind(struct source *s, const struct draft *d, struct record *r)
{
    uint8_t rows[ROWS];
    unsigned count = rows_of(d->form, rows);
    shuffle(s, rows, count);
    if (one_in(s, 2))
        put_before(KIND, TILING, rows, count);
    r->kind = any_kind(s);
    if (one_in(s, 2))
        make_own_tiling(s, any_kind(s), r->tiling);
    else
        make_tiling(s, r->kind, r->tiling);
    if (one_in(s, 3))
        spoil_tiling(s, any_kind(s), r->tiling);
    start_anew(d, r);
    add_fields(s, r, rows, count);
    if (one_in(s, 2))
        *values_in(s, r, KIND) = unknown_kind(s);
}

/* IDs of records before it, some of which are dropped. */
static void wreck_id(struct source *s, const struct draft *d, size_t k, struct record *r)
{
    if (k > 0 && one_in(s, 2))
        r->bytes[0] = d->records[below(s, (unsigned)k)].bytes[0];
    if (one_in(s, 3))
        drop(s, d, r);
}

static void wreck_record(struct source *s, const struct draft *d, size_t k, struct record *r, enum image_kind kind)
{
    switch (kind) {
    case WRECK_VALUES:
        wreck_values(s, d, r, one_in(s, 2));
        if (one_in(s, 2))
            spoil_a_field(s, d, r);
        break;
    case WRECK_KINDS:
        if (d->form == 2)
            wreck_kind(s, d, r);
        else
            spoil_by(s, d, r, FIELD_LATER, FIELD_KIND);
        break;
    case WRECK_IDS:
        wreck_id(s, d, k, r);
        break;
    case WRECK_DROPPED:
        spoil_a_field(s, d, r);
        drop(s, d, r);
        break;
    default:
        for (unsigned i = 1 + below(s, 3); i > 0; i--)
            spoil_by(s, d, r, RECORD_1_BYTE, WHOLE_FORM);
    }
}

void wreck_draft(struct source *s, struct draft *d, enum image_kind kind)
{
    bool each = kind == WRECK_IDS || kind == WRECK_DROPPED;
    for (size_t k = 0; k < d->count; k++) {
        struct record *r = &d->records[k];
        if (kind == WRECK_FULL) {
            wreck_values(s, d, r, true);
            spoil_by(s, d, r, FIELD_CODE_ALONE, FIELD_VALUE);
        } else if (each || !one_in(s, 3)) {
            wreck_record(s, d, k, r, kind);
        }
    }
}
