/* A record of an image, and its fields. */
#ifndef CASE_FIELDS_H
#define CASE_FIELDS_H

#include "case_tilings.h"
#include "case_values.h"

enum { MAX_FIELDS = 16, RECORD_ROOM = 96 };

/* What a field is of: a setting, or the kind. */
enum { KIND = SETTINGS, ROWS };

struct record {
    uint8_t profile, kind;
    uint8_t tiling[TILING_LEN];         /* what the panel has, also where no field says it */
    size_t len;
    unsigned fields;
    uint8_t row_of[MAX_FIELDS], at[MAX_FIELDS];         /* which row a field is of, and where it begins */
    uint8_t bytes[RECORD_ROOM];
};

uint8_t code_of(unsigned row);

/* Of the row's values. */
uint8_t count_of(unsigned row);

/* Any values that the record's panel may have. */
void make_values(struct source *s, const struct record *r, unsigned row, uint8_t *to);

/* Put at the end, with the record's own kind and tiling. */
void add_field(struct source *s, struct record *r, unsigned row);
void add_fields(struct source *s, struct record *r, const uint8_t *rows, unsigned count);

/* The place of the row among the record's fields, or their number. */
unsigned field_of(const struct record *r, unsigned row);

/* The values of the row's field, which is put at the end where there is none. */
uint8_t *values_in(struct source *s, struct record *r, unsigned row);

/* Lists of rows. */

/* All rows of the form, by rising code; their number. */
unsigned rows_of(uint8_t form, uint8_t rows[ROWS]);

void shuffle(struct source *s, uint8_t *rows, unsigned count);

/* The place of the row, or their number. */
unsigned place_of(unsigned row, const uint8_t *rows, unsigned count);

/* Exchanges the two rows, where both are there in the other order. */
void put_before(unsigned row, unsigned other, uint8_t *rows, unsigned count);

#endif
