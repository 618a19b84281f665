#include "salvage_fields.h"

#include <string.h>

#include "plain.h"

const char *const field_case_names[FIELD_CASES] = {
    "17 for code 00", "17 for code FF", "17 for a get code", "17 for another unknown code", "17 for a kind in form 1",
    "17 for a tiling in form 1", "17 for a known code and no length", "17 for an unknown code and no length",
    "17 for a second field, the first kept", "17 for a second field, the first with 18",
    "17 for a kind behind a tiling that was kept", "17 for a kind behind a tiling with 18",
    "17 for an unknown kind behind a tiling with 18", "17 for a wrong length", "17 for a field that is cut off",
    "17 at the first field, all fresh", "17 behind values that are kept and not fresh", "17 behind 18",
    "behind a 17: good values, which are not kept", "behind a 17: another, which is not told",
    "behind a 17: an 18, which is not told",
    "two to seven 18 in a record", "18 for all eight fields, form 1", "18 for all ten fields, form 2",
    "ten 18 and a 17 in a record", "behind an 18: values that are kept and not fresh",
    "18 for a general panel's video, its own is fresh", "18 for a Phoenix panel's video, its own is fresh",
    "17 before a general panel's video, its own is fresh", "17 before a Phoenix panel's video, its own is fresh",
    "18 for the kind, the tiling behind it kept by kind 0", "18 for the kind and for a tiling that 15x10 alone allows",
    "18 for the tiling of a 15x10 panel, which stays one", "17 before the tiling of a 15x10 panel, which stays one",
};

/* 01's fresh values and those of 02's A1 and A6, as they are written; by profile, without a head. */
static const uint8_t fresh[2][RECORD_LEN] = {
    {0, 0, 0, 0x01, 1, 0, 0x18, 1, 2, 0x22, 4, 0, 0, 1, 1, 0x32, 7, 50, 50, 50, 50, 50, 50, 3, 0x34, 1, 1, 0x42, 2, 50, 50,
     0x61, 1, 1, 0xA3, 1, 2, 0xD0, 1, 0, 0xDD, 1, 0},
    {0, 0, 1, 0x01, 1, 0, 0x18, 1, 2, 0x22, 4, 0, 0, 1, 1, 0x32, 7, 50, 50, 50, 5, 0, 50, 3, 0x34, 1, 1, 0x42, 2, 50, 50,
     0x61, 1, 1, 0xA3, 1, 2, 0xD0, 1, 0, 0xDD, 1, 0},
};

/* All fields of a record as it is written. */
static bool all_fresh(const uint8_t *kept)
{
    return memcmp(kept + FIELDS_AT, fresh[kept[PROFILE_AT]] + FIELDS_AT, RECORD_LEN - FIELDS_AT) == 0;
}

static bool is_fresh(const uint8_t *kept, unsigned row)
{
    return memcmp(values_of(kept, code_of(row)), values_of(fresh[kept[PROFILE_AT]], code_of(row)), count_of(row)) == 0;
}

unsigned fault_alone(uint8_t form, uint8_t profile, const uint8_t *fields, size_t len, uint8_t kept[RECORD_LEN])
{
    enum { MOST = 255 };
    uint8_t image[3 + MOST + 4] = {1, 1, profile}, lines[UNDIVARRO_LINES_CAP], out[UNDIVARRO_IMAGE_CAP];
    const uint8_t trailer[] = {0, 0, 1, form};
    size_t at = raw_head_len(form);
    len = len < MOST ? len : MOST;
    memcpy(image + at, fields, len);
    at += len;
    memcpy(image + at, trailer, sizeof trailer);
    struct told first = {0};
    if (plain_salvage(image, at + sizeof trailer, lines, sizeof lines, out, sizeof out).answer_len > 0)
        read_told(lines, &first);
    if (kept)
        memcpy(kept, out, RECORD_LEN);
    return first.fault;
}

/* The fields before the first with fault 17. */
struct walk {
    size_t end;
    bool seen[ROWS];
    size_t at[ROWS];                    /* where a field that was seen begins */
};

/* ROWS where the form has no such code. */
static unsigned row_by_code(uint8_t form, uint8_t code)
{
    uint8_t rows[ROWS];
    unsigned count = rows_of(form, rows);
    for (unsigned i = 0; i < count; i++)
        if (code_of(rows[i]) == code)
            return rows[i];
    return ROWS;
}

static struct walk walk(const struct view *v)
{
    struct walk w = {.end = raw_head_len(v->form)};
    while (w.end < v->raw.len) {
        const uint8_t *field = v->raw.bytes + w.end;
        size_t left = v->raw.len - w.end;
        unsigned row = row_by_code(v->form, field[0]);
        if (row == ROWS || w.seen[row] || (row == KIND && w.seen[TILING]))
            break;
        if (left < 2 || field[1] != count_of(row) || left - 2 < count_of(row))
            break;
        w.seen[row] = true;
        w.at[row] = w.end;
        w.end += 2u + count_of(row);
    }
    return w;
}

static bool told_18(const struct view *v, unsigned row)
{
    return memchr(v->codes_18, code_of(row), v->count_18);
}

static enum field_case why_unknown(uint8_t code, size_t left)
{
    if (left == 1)
        return STOP_ALONE_UNKNOWN;
    if (row_by_code(2, code) < ROWS)
        return code == code_of(KIND) ? STOP_KIND_IN_1 : STOP_TILING_IN_1;
    return code == 0 ? STOP_CODE_0 : code == 0xFF ? STOP_CODE_FF : setting_of(code) ? STOP_GET_CODE : STOP_UNKNOWN;
}

/* Why the field behind the walk has fault 17. */
static enum field_case why_stopped(const struct view *v, const struct walk *w)
{
    const uint8_t *field = v->raw.bytes + w->end;
    size_t left = v->raw.len - w->end;
    unsigned row = row_by_code(v->form, field[0]);
    if (row == ROWS)
        return why_unknown(field[0], left);
    if (w->seen[row])
        return told_18(v, row) ? STOP_TWICE_AFTER_18 : STOP_TWICE;
    if (row == KIND && w->seen[TILING]) {
        if (!told_18(v, TILING))
            return STOP_BEHIND_TILING;
        return left > 2 && field[2] < KINDS ? STOP_BEHIND_18 : STOP_UNKNOWN_BEHIND_18;
    }
    return left == 1 ? STOP_ALONE_KNOWN : field[1] != count_of(row) ? STOP_LENGTH : STOP_CUT;
}

/* What stood before the field with fault 17, and what stands behind it, if that can be told. */
static void count_around(unsigned long *met, const struct view *v, const struct walk *w)
{
    met[STOP_AT_FIRST] += w->end == raw_head_len(v->form) && all_fresh(v->kept);
    met[STOP_AFTER_VALUES] += !all_fresh(v->kept);
    met[STOP_AFTER_18] += v->count_18 > 0;
    size_t left = v->raw.len - w->end, own = left < 2 ? left : 2u + v->raw.bytes[w->end + 1];
    if (own >= left)
        return;
    uint8_t alone[RECORD_LEN];
    unsigned fault = fault_alone(v->form, v->kept[PROFILE_AT], v->raw.bytes + w->end + own, left - own, alone);
    met[STOP_BEFORE_GOOD] += fault == 0 && !all_fresh(alone);
    met[STOP_BEFORE_17] += fault == 17;
    met[STOP_BEFORE_18] += fault == 18;
}

static void count_18s(struct field_faults *f, const struct view *v, const struct walk *w)
{
    bool later = false;
    for (unsigned i = 0; i < v->count_18; i++) {
        unsigned row = row_by_code(v->form, v->codes_18[i]);
        f->by_row[v->form - 1][row] += is_fresh(v->kept, row);
    }
    unsigned first = row_by_code(v->form, v->codes_18[0]);
    for (unsigned row = 0; row < ROWS; row++)
        later |= w->seen[row] && w->at[row] > w->at[first] && !is_fresh(v->kept, row);
    f->met[VALUES_AFTER_18] += later;
    f->met[TWO_18] += v->count_18 > 1 && v->count_18 < 8;
    f->met[ALL_18_IN_1] += v->form == 1 && v->count_18 == 8 && all_fresh(v->kept);
    f->met[ALL_18_IN_2] += v->form == 2 && v->count_18 == 10 && all_fresh(v->kept);
    f->met[ELEVEN_LINES] += v->count_18 == 10 && v->has_17;
}

/* The tiling that was seen is allowed for a 15 by 10 panel. */
static bool fits_15_by_10(const struct view *v, const struct walk *w)
{
    uint8_t fields[3 + 2 + TILING_LEN] = {UNDIVARRO_KIND_CODE, 1, UNDIVARRO_15_BY_10};
    memcpy(fields + 3, v->raw.bytes + w->at[TILING], 2 + TILING_LEN);
    return fault_alone(2, UNDIVARRO_GENERAL, fields, sizeof fields, NULL) == 0;
}

/* What is fresh, or judged, by the panel's own profile and kind. */
static void count_own(unsigned long *met, const struct view *v, const struct walk *w)
{
    bool phoenix = v->kept[PROFILE_AT] == UNDIVARRO_PHOENIX, large = v->kept[KIND_AT] == UNDIVARRO_15_BY_10;
    if (is_fresh(v->kept, VIDEO)) {
        met[phoenix ? VIDEO_18_PHOENIX : VIDEO_18_GENERAL] += told_18(v, VIDEO);
        met[phoenix ? VIDEO_STOPPED_PHOENIX : VIDEO_STOPPED_GENERAL] += v->has_17 && !w->seen[VIDEO];
    }
    if (told_18(v, KIND) && w->seen[TILING]) {
        if (told_18(v, TILING))
            met[KIND_18_TILING_18] += fits_15_by_10(v, w);
        else
            met[KIND_18_TILING_KEPT] += !is_fresh(v->kept, TILING);
    }
    if (large && is_fresh(v->kept, TILING)) {
        met[TILING_18_OF_15_BY_10] += told_18(v, TILING);
        met[TILING_STOPPED_OF_15_BY_10] += v->has_17 && !w->seen[TILING];
    }
}

void count_fields(struct field_faults *f, const struct view *v)
{
    if (!v->has_17 && v->count_18 == 0)
        return;
    struct walk w = walk(v);
    if (v->has_17 && w.end < v->raw.len && v->raw.bytes[w.end] == v->code_17) {
        f->met[why_stopped(v, &w)]++;
        count_around(f->met, v, &w);
        f->digit[0][v->code_17 >> 4]++;
        f->digit[1][v->code_17 & 15]++;
    }
    if (v->count_18 > 0)
        count_18s(f, v, &w);
    count_own(f->met, v, &w);
}
