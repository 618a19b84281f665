#include "case_fields.h"

#include <string.h>

#include "undivarro.h"

uint8_t code_of(unsigned row)
{
    return row == KIND ? UNDIVARRO_KIND_CODE : settings[row].set_code;
}

uint8_t count_of(unsigned row)
{
    return row == KIND ? 1 : settings[row].count;
}

void make_values(struct source *s, const struct record *r, unsigned row, uint8_t *to)
{
    if (row == KIND)
        *to = r->kind;
    else
        values(s, row, r->profile, r->kind, to);
}

void add_field(struct source *s, struct record *r, unsigned row)
{
    uint8_t *field = r->bytes + r->len;
    r->row_of[r->fields] = (uint8_t)row;
    r->at[r->fields++] = (uint8_t)r->len;
    field[0] = code_of(row);
    field[1] = count_of(row);
    if (row == TILING)
        memcpy(field + 2, r->tiling, TILING_LEN);
    else
        make_values(s, r, row, field + 2);
    r->len += 2u + count_of(row);
}

void add_fields(struct source *s, struct record *r, const uint8_t *rows, unsigned count)
{
    for (unsigned i = 0; i < count; i++)
        add_field(s, r, rows[i]);
}

unsigned field_of(const struct record *r, unsigned row)
{
    return place_of(row, r->row_of, r->fields);
}

uint8_t *values_in(struct source *s, struct record *r, unsigned row)
{
    unsigned f = field_of(r, row);
    if (f == r->fields)
        add_field(s, r, row);
    return r->bytes + r->at[f] + 2;
}

unsigned rows_of(uint8_t form, uint8_t rows[ROWS])
{
    unsigned count = 0;
    if (form == 2)
        rows[count++] = KIND;
    for (uint8_t row = 0; row < SETTINGS; row++)
        if (form == 2 || row != TILING)
            rows[count++] = row;
    return count;
}

static void exchange(uint8_t *a, uint8_t *b)
{
    uint8_t held = *a;
    *a = *b;
    *b = held;
}

void shuffle(struct source *s, uint8_t *rows, unsigned count)
{
    for (unsigned i = count; i > 1; i--)
        exchange(&rows[i - 1], &rows[below(s, i)]);
}

unsigned place_of(unsigned row, const uint8_t *rows, unsigned count)
{
    unsigned place = 0;
    while (place < count && rows[place] != row)
        place++;
    return place;
}

void put_before(unsigned row, unsigned other, uint8_t *rows, unsigned count)
{
    unsigned place = place_of(row, rows, count), other_place = place_of(other, rows, count);
    if (place < count && other_place < place)
        exchange(&rows[place], &rows[other_place]);
}
