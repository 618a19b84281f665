/* A part of plain.c: salvage of a setup image, 02's A7. */
#ifndef PLAIN_SALVAGE_H
#define PLAIN_SALVAGE_H

#include "plain_image.h"

struct lines {
    size_t len;
    uint8_t text[UNDIVARRO_LINES_CAP];
};

static void put(struct lines *lines, char c)
{
    lines->text[lines->len++] = (uint8_t)c;
}

/* Below 100. */
static void put_decimal(struct lines *lines, unsigned number)
{
    if (number >= 10)
        put(lines, (char)('0' + number / 10));
    put(lines, (char)('0' + number % 10));
}

/* One line. Its code, if the fault has one, is the byte at code. */
static void tell(struct lines *lines, size_t record, uint32_t fault, const uint8_t *code)
{
    static const char digits[] = "0123456789ABCDEF";
    put_decimal(lines, (unsigned)record);
    put(lines, ' ');
    put_decimal(lines, fault);
    if (fault != 16) {
        put(lines, ' ');
        put(lines, digits[*code >> 4]);
        put(lines, digits[*code & 15]);
    }
    put(lines, '\n');
}

/* What can be kept of the record, put at the end of the wall; number is the record's. */
static void salvage_record(const uint8_t *record, size_t len, uint8_t form, size_t number, struct wall *wall,
                           struct lines *lines)
{
    struct panel *panel = read_head(record, len, form, wall);
    if (!panel) {
        tell(lines, number, 16, NULL);
        return;
    }
    unsigned seen = 0;
    uint32_t fault = 0;
    for (size_t at = head_len(form); at < len && fault != 17;) {
        const uint8_t *code = record + at;
        fault = read_field(record, len, form, &at, &seen, panel);
        if (fault)
            tell(lines, number, fault, code);
    }
    wall->count++;
}

/* The refusal of the image as a whole, or 0. */
static uint32_t salvage_image(const uint8_t *image, size_t len, struct wall *wall, struct lines *lines)
{
    struct whole whole;
    wall->count = 0;
    lines->len = 0;
    uint32_t refusal = read_whole(image, len, &whole);
    for (size_t k = 0; !refusal && k < whole.count; k++) {
        size_t record_len;
        const uint8_t *record = record_at(&whole, k, &record_len);
        salvage_record(record, record_len, whole.form, k + 1, wall, lines);
    }
    return refusal;
}

#endif
