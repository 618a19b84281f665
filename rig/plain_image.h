/* A part of plain.c: the setup image, read and written in both forms. */
#ifndef PLAIN_IMAGE_H
#define PLAIN_IMAGE_H

#include <string.h>

#include "plain_panels.h"

enum { START = 2, TRAILER = 2 };        /* bytes of a start, and of n and the form byte */

/* ID and group, in form 2 the profile too. */
static size_t head_len(uint8_t form)
{
    return form == FORM_1 ? 2 : 3;
}

/* As it is written. */
static size_t record_len(uint8_t form)
{
    return form == FORM_1 ? 33 : 43;
}

/* In an image the byte of a tiling is never 0. */
static bool allowed_in_image(const struct panel *panel, const struct field *f, const uint8_t *values)
{
    if (f == &fields[TILING])
        return values[BYTE] != 0 && tiling_allowed(panel, values);
    return all_allowed(f, panel->profile, values);
}

/* A fresh panel of the record's head, put behind the wall's last and not counted yet; NULL where it has fault 16. */
static inline struct panel *read_head(const uint8_t *record, size_t len, uint8_t form, struct wall *wall)
{
    if (len < head_len(form) || record[0] == 0 || record[1] == 0 || panel_with_id(wall, record[0]))
        return NULL;
    uint8_t profile = form == FORM_1 ? UNDIVARRO_GENERAL : record[2];
    if (profile >= PROFILES)
        return NULL;
    struct panel *panel = &wall->panels[wall->count];
    panel->id = record[0];
    panel->group = record[1];
    panel->profile = profile;
    memcpy(panel->values, fresh_values[profile], VALUE_BYTES);
    return panel;
}

/* The field at *at, which is below len: its refusal, or 0 and the panel has its values. But for 17 it is seen then, bit k
 * for fields[k], and *at is behind it. */
static inline uint32_t read_field(const uint8_t *record, size_t len, uint8_t form, size_t *at, unsigned *seen,
                                  struct panel *panel)
{
    const struct field *f = field_by_code(record[*at]);
    if (!f || f->form > form || (*seen >> (f - fields) & 1))
        return 17;
    if (f == &fields[KIND] && (*seen >> TILING & 1))
        return 17;
    if (len - *at < 2 || record[*at + 1] != f->count || len - *at - 2 < f->count)
        return 17;
    const uint8_t *values = record + *at + 2;
    *seen |= 1u << (f - fields);
    *at += 2 + f->count;
    if (!allowed_in_image(panel, f, values))
        return 18;
    take(panel, f, values);
    return 0;
}

/* One record, put at the end of the wall; its refusal or 0. */
static uint32_t read_record(const uint8_t *record, size_t len, uint8_t form, struct wall *wall)
{
    struct panel *panel = read_head(record, len, form, wall);
    if (!panel)
        return 16;
    unsigned seen = 0;
    for (size_t at = head_len(form); at < len;) {
        uint32_t refusal = read_field(record, len, form, &at, &seen, panel);
        if (refusal)
            return refusal;
    }
    wall->count++;
    return 0;
}

/* An image that 11 to 15 let pass. */
struct whole {
    const uint8_t *records, *starts;    /* the records end where the starts begin */
    size_t count;
    uint8_t form;
};

static size_t start_at(const uint8_t *starts, size_t k)
{
    return (size_t)starts[2 * k] << 8 | starts[2 * k + 1];
}

static inline uint32_t read_whole(const uint8_t *image, size_t len, struct whole *whole)
{
    if (len < 2)
        return 11;
    uint8_t form = image[len - 1];
    if (form != FORM_1 && form != FORM_2)
        return 12;
    size_t n = image[len - 2];
    if (n > UNDIVARRO_MAX_PANELS)
        return 13;
    if (len < 2 * n + 2)
        return 14;

    size_t records_len = len - 2 - 2 * n;
    const uint8_t *starts = image + records_len;
    *whole = (struct whole){image, starts, n, form};
    if (n == 0)
        return records_len == 0 ? 0 : 15;
    if (start_at(starts, 0) != 0)
        return 15;
    for (size_t k = 0; k < n; k++) {
        if (start_at(starts, k) >= records_len)
            return 15;
        if (k > 0 && start_at(starts, k) <= start_at(starts, k - 1))
            return 15;
    }
    return 0;
}

static inline const uint8_t *record_at(const struct whole *whole, size_t k, size_t *len)
{
    const uint8_t *record = whole->records + start_at(whole->starts, k);
    const uint8_t *end = k + 1 < whole->count ? whole->records + start_at(whole->starts, k + 1) : whole->starts;
    *len = (size_t)(end - record);
    return record;
}

static uint32_t read_image(const uint8_t *image, size_t len, struct wall *wall)
{
    struct whole whole;
    wall->count = 0;
    uint32_t refusal = read_whole(image, len, &whole);
    for (size_t k = 0; !refusal && k < whole.count; k++) {
        size_t record_len;
        const uint8_t *record = record_at(&whole, k, &record_len);
        refusal = read_record(record, record_len, whole.form, wall);
    }
    return refusal;
}

static size_t image_len_of(const struct wall *wall, uint8_t form)
{
    return (record_len(form) + START) * wall->count + TRAILER;
}

/* Form 1 has all that the panel holds. */
static bool fits_form_1(const struct panel *panel)
{
    if (panel->profile != UNDIVARRO_GENERAL)
        return false;
    for (const struct field *f = fields; f < fields + FIELDS; f++)
        if (f->form > FORM_1 && memcmp(panel->values + f->place, fresh_values[UNDIVARRO_GENERAL] + f->place, f->count) != 0)
            return false;
    return true;
}

/* out has room for image_len_of(wall, form) bytes. What form 1 does not have is not written there. */
static void write_image(const struct wall *wall, uint8_t form, uint8_t *out)
{
    uint8_t *to = out;
    uint8_t *start = out + record_len(form) * wall->count;
    for (size_t k = 0; k < wall->count; k++) {
        const struct panel *panel = &wall->panels[k];
        *start++ = (uint8_t)((to - out) >> 8);
        *start++ = (uint8_t)(to - out);
        *to++ = panel->id;
        *to++ = panel->group;
        if (form == FORM_2)
            *to++ = panel->profile;
        for (const struct field *f = fields; f < fields + FIELDS; f++) {
            if (f->form > form)
                continue;
            *to++ = f->code;
            *to++ = f->count;
            memcpy(to, panel->values + f->place, f->count);
            to += f->count;
        }
    }
    *start++ = (uint8_t)wall->count;
    *start = form;
}

#endif
