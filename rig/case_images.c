#include "case_images.h"

#include <string.h>

#include "case_spoilings.h"
#include "case_wrecks.h"

const char *const image_kind_names[IMAGE_KINDS] = {
    "as written", "fields in any order", "fields left out", "no panels", "33 panels",
    "record of 1 byte", "record of 2 bytes", "record with ID 0", "record with group 0", "record with an ID seen before",
    "record with an unknown profile",
    "field with a get code", "field with any code", "field twice", "field with any length", "field cut off",
    "field of a code alone", "field with any value",
    "Phoenix panel, video for general alone", "general panel, video for Phoenix alone",
    "form 1 with a kind or a tiling", "unknown kind", "kind twice, no tiling", "kind behind the tiling",
    "tiling with a value not allowed", "tiling for the other kind alone",
    "any form byte", "any panel count", "shorter than its trailer", "starts that don't fit", "bytes before the trailer",
    "one to three bytes of noise", "0 to 3 bytes", "random bytes", "over 65,535 bytes",
    "any faults in many records", "values not allowed in many fields", "kinds and tilings at odds in many records",
    "IDs seen before in many records", "all heads spoiled", "32 records with eleven faults each",
};

static size_t trailer_len(size_t n)
{
    return 2 * n + 2;
}

static void set_start(uint8_t *start, size_t to)
{
    start[0] = (uint8_t)(to >> 8);
    start[1] = (uint8_t)to;
}

static size_t put_together(const struct draft *d, uint8_t *image)
{
    size_t at = 0, n = d->count;
    uint8_t starts[2 * MAX_RECORDS];
    for (size_t k = 0; k < n; k++) {
        set_start(starts + 2 * k, at);
        memcpy(image + at, d->records[k].bytes, d->records[k].len);
        at += d->records[k].len;
    }
    memcpy(image + at, starts, 2 * n);
    at += 2 * n;
    image[at++] = (uint8_t)n;
    image[at++] = d->form;
    return at;
}

/* Spoilings of an image of n panels as a whole; it may be spoiled already. */

/* Cut at the front, to one of the lengths around 2n + 2. */
static void cut(struct source *s, struct test_case *c, size_t n)
{
    size_t to = trailer_len(n) + 1 - below(s, 4);
    if (c->image_len > to) {
        memmove(c->image, c->image + c->image_len - to, to);
        c->image_len = to;
    }
}

static void spoil_starts(struct source *s, struct test_case *c, size_t n)
{
    if (n == 0 || c->image_len < trailer_len(n))
        return;
    size_t records_len = c->image_len - trailer_len(n);
    uint8_t *starts = c->image + records_len;
    size_t k = below(s, (unsigned)n);
    switch (below(s, 5)) {
    case 0:
        set_start(starts + 2 * k, records_len - 1 + below(s, 3));
        break;
    case 1:                             /* equal to its neighbour, or one beside it */
        if (k > 0) {
            size_t before = (size_t)starts[2 * k - 2] << 8 | starts[2 * k - 1];
            set_start(starts + 2 * k, before + below(s, 3) - 1);
        }
        break;
    case 2:
        set_start(starts, 1 + below(s, 3));
        break;
    case 3:                             /* the last, right or wrong at its end */
        set_start(starts + 2 * (n - 1), records_len - below(s, 4));
        break;
    default:
        starts[2 * k + below(s, 2)] = any_byte(s);
    }
}

/* Room for more bytes in front of the last ones. */
static uint8_t *open_gap(struct test_case *c, size_t last, size_t gap)
{
    uint8_t *at = c->image + c->image_len - last;
    memmove(at + gap, at, last);
    c->image_len += gap;
    return at;
}

/* Before the starts, or between them and n. */
static void add_bytes(struct source *s, struct test_case *c, size_t n)
{
    size_t extra = 1 + below(s, 4), last = one_in(s, 2) ? 2 : trailer_len(n);
    if (c->image_len >= last && c->image_len + extra <= MAX_IMAGE_BYTES)
        fill_any(s, open_gap(c, last, extra), extra);
}

/* The last record runs past what a start can name. */
static void make_long(struct source *s, struct test_case *c, size_t n)
{
    size_t to = 65536 + below(s, 3000);
    if (c->image_len >= trailer_len(n) && c->image_len < to) {
        size_t gap = to - c->image_len;
        memset(open_gap(c, trailer_len(n), gap), one_in(s, 2) ? 0 : 0x18, gap);
    }
}

static void make_short(struct source *s, struct test_case *c)
{
    c->image_len = below(s, 4);
    for (size_t i = 0; i < c->image_len; i++)
        c->image[i] = (uint8_t)below(s, 3);
}

static void make_random(struct source *s, struct test_case *c)
{
    c->image_len = below(s, 120);
    fill_any(s, c->image, c->image_len);
    if (c->image_len >= 2 && !one_in(s, 4)) {
        c->image[c->image_len - 2] = (uint8_t)below(s, MAX_RECORDS + 1);
        c->image[c->image_len - 1] = (uint8_t)(1 + below(s, 2));
    }
}

static uint8_t wrong_count(struct source *s)
{
    if (one_in(s, 2))
        return (uint8_t)(MAX_RECORDS - 2 * below(s, 2));
    return one_in(s, 2) ? any_byte(s) : (uint8_t)below(s, MAX_RECORDS + 1);
}

static uint8_t any_form(struct source *s)
{
    static const uint8_t near[] = {0, 1, 2, 3, 255};
    return one_in(s, 4) ? any_byte(s) : near[below(s, sizeof near)];
}

static void spoil_whole(struct source *s, struct test_case *c, size_t n, enum image_kind kind)
{
    uint8_t *image = c->image;
    size_t len = c->image_len;
    switch (kind) {
    case WHOLE_FORM:
        if (len > 0)
            image[len - 1] = any_form(s);
        break;
    case WHOLE_COUNT:
        if (len > 1)
            image[len - 2] = wrong_count(s);
        break;
    case WHOLE_CUT:
        cut(s, c, n);
        break;
    case WHOLE_STARTS:
        spoil_starts(s, c, n);
        break;
    case WHOLE_EXTRA:
        add_bytes(s, c, n);
        break;
    case WHOLE_NOISE:
        for (unsigned i = 1 + below(s, 3); i > 0 && len > 0; i--)
            image[below(s, (unsigned)len)] = any_byte(s);
        break;
    case WHOLE_SHORT:
        make_short(s, c);
        break;
    case WHOLE_RANDOM:
        make_random(s, c);
        break;
    case WHOLE_LONG:
        make_long(s, c, n);
        break;
    default:
        break;
    }
}

/* Wrecked as the image's kind says; seldom there is noise too, or another form byte. */
static void make_wreck(struct source *s, struct test_case *c, struct draft *d)
{
    wreck_draft(s, d, c->image_kind);
    c->spoilings = 2;                   /* or more */
    c->image_len = put_together(d, c->image);
    if (one_in(s, 8)) {
        c->image_kind = one_in(s, 2) ? WHOLE_NOISE : WHOLE_FORM;
        spoil_whole(s, c, d->count, c->image_kind);
    }
}

void make_image(struct source *s, struct test_case *c, struct draft *d)
{
    static const enum image_kind sound[] = {
        IMAGE_WRITTEN, IMAGE_ANY_ORDER, IMAGE_LEFT_OUT, IMAGE_LEFT_OUT,
    };
    c->image_kind = one_in(s, 40) ? IMAGE_NO_PANELS : one_in(s, 200) ? IMAGE_33_PANELS : sound[below(s, 4)];
    if (c->call == CALL_SALVAGE && !one_in(s, 3))
        c->image_kind = any_wreck(s);
    make_draft(s, d, c->image_kind);
    c->form = d->form;
    c->no_video[UNDIVARRO_GENERAL] = video_left_out(d, UNDIVARRO_GENERAL);
    c->no_video[UNDIVARRO_PHOENIX] = video_left_out(d, UNDIVARRO_PHOENIX);
    memset(c->places, 0, sizeof c->places);
    for (size_t k = 0; k < d->count; k++)
        c->places[place_kind_of(&d->records[k])] = true;

    c->spoiled = (struct spoiled){0};
    if (c->image_kind >= WRECK_ANY) {
        make_wreck(s, c, d);
        return;
    }
    c->spoilings = below(s, 2) ? 0 : below(s, 3) ? 1 : 2 + below(s, 2);
    enum image_kind whole[3];
    unsigned wholes = 0;
    for (unsigned i = 0; i < c->spoilings; i++) {
        enum image_kind kind = RECORD_1_BYTE + below(s, WRECK_ANY - RECORD_1_BYTE);
        if (kind == WHOLE_LONG && !one_in(s, 50))
            kind = FIELD_VALUE;
        if (kind >= WHOLE_FORM)
            whole[wholes++] = kind;
        else
            spoil_draft(s, d, kind, &c->spoiled);
        c->image_kind = kind;
    }
    c->image_len = put_together(d, c->image);
    for (unsigned i = 0; i < wholes; i++)
        spoil_whole(s, c, d->count, whole[i]);
}
