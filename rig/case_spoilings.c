#include "case_spoilings.h"

#include <string.h>

static void spoil_field(struct source *s, const struct draft *d, struct record *r, enum image_kind kind,
                        struct spoiled *spoiled)
{
    uint8_t rows[ROWS];
    unsigned count = rows_of(d->form, rows);
    if (r->fields == 0)
        add_field(s, r, rows[below(s, count)]);
    unsigned f = below(s, r->fields);
    unsigned row = r->row_of[f];
    uint8_t *field = r->bytes + r->at[f];
    spoiled->code = code_of(row);
    switch (kind) {
    case FIELD_GET_CODE:
        field[0] = settings[row == KIND ? TILING : row].get_code;
        break;
    case FIELD_UNKNOWN:
        field[0] = any_code(s);
        break;
    case FIELD_TWICE:                   /* a whole second field, with the same or other values */
        if (r->len + 2 + count_of(row) <= RECORD_ROOM) {
            memmove(r->bytes + r->len, field, 2u + count_of(row));
            if (one_in(s, 2))
                make_values(s, r, row, r->bytes + r->len + 2);
            r->len += 2u + count_of(row);
        }
        break;
    case FIELD_LENGTH:
        field[1] = one_in(s, 2) ? (uint8_t)(field[1] - 1 + 2 * below(s, 2)) : any_byte(s);
        break;
    case FIELD_CUT:                     /* with all behind it */
        r->len = r->at[f] + 1u + below(s, 1u + count_of(row));
        r->fields = f + 1;
        break;
    case FIELD_CODE_ALONE:
        if (r->len < RECORD_ROOM)
            r->bytes[r->len++] = one_in(s, 2) ? code_of(rows[below(s, count)]) : any_code(s);
        break;
    default:
        if (row == KIND)
            field[2] = unknown_kind(s);
        else
            spoil_value(s, row, r->profile, field + 2);
    }
}

/* All fields of form 2 anew, in any order, with a kind that is unknown, there twice, or behind the tiling. */
static void spoil_kind(struct source *s, const struct draft *d, struct record *r, enum image_kind kind,
                       struct spoiled *spoiled)
{
    uint8_t rows[ROWS], value = r->kind;
    unsigned count = rows_of(d->form, rows);
    if (kind == FIELD_KIND_TWICE)       /* and no tiling */
        rows[place_of(TILING, rows, count)] = KIND;
    shuffle(s, rows, count);
    put_before(KIND, TILING, rows, count);
    if (kind == FIELD_KIND)
        value = unknown_kind(s);
    if (kind == FIELD_KIND_BEHIND) {
        put_before(TILING, KIND, rows, count);
        value = one_in(s, 2) ? any_kind(s) : unknown_kind(s);
        r->kind = UNDIVARRO_5_BY_5;
        make_tiling(s, r->kind, r->tiling);
    }
    r->len = head_len(d);
    r->fields = 0;
    add_fields(s, r, rows, count);
    *values_in(s, r, KIND) = value;
    spoiled->code = code_of(KIND);
    spoiled->value = value;
}

/* One value of the tiling not allowed, byte 0 too, or all of it for the other kind alone. */
static void spoil_tiling_field(struct source *s, struct record *r, enum image_kind kind, struct spoiled *spoiled)
{
    uint8_t *tiling = values_in(s, r, TILING);
    unsigned at = WALL_BYTE;
    if (kind == FIELD_OTHER_KIND) {
        make_own_tiling(s, other_kind(r->kind), tiling);
    } else if (one_in(s, 4)) {
        tiling[POSITION] = 1;           /* which any wall would have */
        tiling[WALL_BYTE] = 0;
    } else {
        at = spoil_tiling(s, r->kind, tiling);
    }
    *spoiled = (struct spoiled){
        .code = code_of(TILING), .at = (uint8_t)at, .value = tiling[at], .kind = r->kind,
        .kind_said = field_of(r, KIND) < r->fields,
    };
}

/* A whole field that form 1 does not have. */
static void add_later_field(struct source *s, struct record *r, struct spoiled *spoiled)
{
    unsigned row = one_in(s, 2) ? KIND : TILING;
    add_field(s, r, row);
    spoiled->code = code_of(row);
}

/* Any record, or for a value that one profile alone allows one of the other profile; NULL where there is none. */
static struct record *record_to_spoil(struct source *s, struct draft *d, enum image_kind kind)
{
    for (size_t i = 0, k = below(s, (unsigned)d->count); i < d->count; i++, k = (k + 1) % d->count) {
        struct record *r = &d->records[k];
        if ((kind == FIELD_GENERAL_ALONE && r->profile == UNDIVARRO_GENERAL)
            || (kind == FIELD_PHOENIX_ALONE && r->profile == UNDIVARRO_PHOENIX))
            continue;
        return r;
    }
    return NULL;
}

static uint8_t unknown_profile(struct source *s)
{
    static const uint8_t near[] = {2, 3, 0x18, 0x32, 0x80, 0x81, 254, 255};
    return one_in(s, 4) ? (uint8_t)(2 + below(s, 254)) : near[below(s, sizeof near)];
}

static void spoil_head(struct source *s, const struct draft *d, struct record *r, enum image_kind kind)
{
    switch (kind) {
    case RECORD_1_BYTE:
    case RECORD_2_BYTES:                /* sound in form 1 */
        r->len = kind == RECORD_1_BYTE ? 1 : 2;
        r->fields = 0;
        break;
    case RECORD_ID_0:
        r->bytes[0] = 0;
        break;
    case RECORD_GROUP_0:
        r->bytes[1] = 0;
        break;
    case RECORD_ID_TWICE:
        r->bytes[0] = d->records[below(s, (unsigned)d->count)].bytes[0];
        break;
    default:
        if (d->form == 2)
            r->bytes[2] = unknown_profile(s);
    }
}

static void spoil_fields(struct source *s, const struct draft *d, struct record *r, enum image_kind kind,
                         struct spoiled *spoiled)
{
    switch (kind) {
    case FIELD_GENERAL_ALONE:
    case FIELD_PHOENIX_ALONE:
        put_own_value(s, other_profile(r->profile), values_in(s, r, VIDEO));
        break;
    case FIELD_LATER:
        if (d->form == 1)
            add_later_field(s, r, spoiled);
        break;
    case FIELD_KIND:
    case FIELD_KIND_TWICE:
    case FIELD_KIND_BEHIND:
        if (d->form == 2)
            spoil_kind(s, d, r, kind, spoiled);
        break;
    case FIELD_TILING:
    case FIELD_OTHER_KIND:
        if (d->form == 2)
            spoil_tiling_field(s, r, kind, spoiled);
        break;
    default:
        spoil_field(s, d, r, kind, spoiled);
    }
}

void spoil_record(struct source *s, const struct draft *d, struct record *r, enum image_kind kind, struct spoiled *spoiled)
{
    if (kind <= RECORD_PROFILE)
        spoil_head(s, d, r, kind);
    else if (r->len >= head_len(d))
        spoil_fields(s, d, r, kind, spoiled);
}

void spoil_draft(struct source *s, struct draft *d, enum image_kind kind, struct spoiled *spoiled)
{
    struct record *r = d->count > 0 ? record_to_spoil(s, d, kind) : NULL;
    if (r)
        spoil_record(s, d, r, kind, spoiled);
}
