#include "salvages.h"

#include <string.h>

#include "plain.h"
#include "walls.h"

const char *const salvage_case_names[SALVAGE_CASES] = {
    "form 1 without a fault: what read writes", "form 2 without a fault: what read writes", "form 1 with faults",
    "form 2 with faults", "16, 17 and 18 in one image", "no record kept", "the first record dropped, others kept",
    "the last record dropped, others kept", "3,069 bytes of lines",
    "16 for a form 1 record of 1 byte", "16 for a form 2 record of 1 byte", "16 for a form 2 record of 2 bytes",
    "16 for ID 0", "16 for group 0", "16 for an unknown profile", "16 for the ID of a record that was kept",
    "16 for a record that has faults in fields too",
    "kept, with the ID of a record dropped as too short", "kept, with the ID of a record dropped for group 0",
    "kept, with the ID of a record dropped for its profile",
    "an ID three times: dropped, kept, dropped", "an ID three times: kept, dropped, dropped",
    "done with exactly the room for lines", "done with more room for lines", "19 for one byte less for lines",
    "19 for less for lines, though they would fit", "19 for no room for lines, and there are none",
    "done with exactly the room for what is kept, a record dropped", "19 for one byte less for what is kept",
    "19 for one byte less, and nothing is kept", "19 with room for form 1", "19 for both", "11 to 15 with no room for either",
};

/* What a salvage made of an image. */
struct outcome {
    const uint8_t *lines, *out;
    size_t lines_len, kept;
};

static size_t size_kept(const struct outcome *o)
{
    return image_size(2, o->kept);
}

static void count_room_done(unsigned long *met, const struct test_case *c, const struct outcome *o, size_t records)
{
    met[ROOM_LINES_EXACT] += c->answer_cap == UNDIVARRO_LINES_CAP && o->lines_len > 0;
    met[ROOM_LINES_MORE] += c->answer_cap > UNDIVARRO_LINES_CAP;
    met[ROOM_OUT_EXACT] += c->out_cap == size_kept(o) && o->kept < records;
}

/* 19 came; o is what comes with room. */
static void count_room_less(unsigned long *met, const struct test_case *c, const struct outcome *o)
{
    bool lines = c->answer_cap >= UNDIVARRO_LINES_CAP, out = c->out_cap >= size_kept(o);
    met[ROOM_BOTH_LESS] += !lines && !out;
    if (!lines && out) {
        met[ROOM_LINES_LESS] += c->answer_cap == UNDIVARRO_LINES_CAP - 1;
        met[ROOM_LINES_FOR_TEXT] += o->lines_len > 0 && c->answer_cap >= o->lines_len;
        met[ROOM_LINES_NONE] += o->lines_len == 0 && c->answer_cap == 0;
    }
    if (lines && !out) {
        met[o->kept > 0 ? ROOM_OUT_LESS : ROOM_OUT_LESS_OF_NONE] += c->out_cap == size_kept(o) - 1;
        met[ROOM_OUT_FORM_1] += c->out_cap >= image_size(1, o->kept);
    }
}

static void count_dropped(unsigned long *met, const struct view *v)
{
    size_t head = raw_head_len(v->form);
    static const enum salvage_case cases[] = {
        [DROP_ID_0] = WITH_ID_0, [DROP_GROUP_0] = WITH_GROUP_0, [DROP_PROFILE] = WITH_PROFILE, [DROP_ID_SEEN] = WITH_ID_SEEN,
    };
    enum drop why = why_dropped(v->raw, v->form);
    if (why == DROP_SHORT)
        met[v->form == 1 ? SHORT_1 : v->raw.len == 1 ? SHORT_2_OF_1 : SHORT_2_OF_2]++;
    else
        met[cases[why]]++;
    if (v->raw.len > head && fault_alone(v->form, UNDIVARRO_GENERAL, v->raw.bytes + head, v->raw.len - head, NULL))
        met[WITH_FIELD_FAULTS]++;
}

/* Record k and those before it that have its ID. */
static void count_ids(unsigned long *met, const struct view *views, size_t k)
{
    const struct view *v = &views[k];
    bool kept = false, dropped_first = false, dropped_then = false;
    for (const struct view *w = views; w < v; w++) {
        if (w->raw.bytes[0] != v->raw.bytes[0])
            continue;
        dropped_first |= !w->kept && !kept;
        dropped_then |= !w->kept && kept;
        kept |= w->kept != NULL;
        if (v->kept && !w->kept) {
            enum drop why = why_dropped(w->raw, w->form);
            met[KEPT_AFTER_SHORT] += why == DROP_SHORT;
            met[KEPT_AFTER_GROUP_0] += why == DROP_GROUP_0;
            met[KEPT_AFTER_PROFILE] += why == DROP_PROFILE;
        }
    }
    if (!v->kept && kept && why_dropped(v->raw, v->form) == DROP_ID_SEEN) {
        met[DROPPED_KEPT_DROPPED] += dropped_first;
        met[KEPT_DROPPED_DROPPED] += dropped_then;
    }
}

/* What each record has of the lines and of the output. All faults together: bit 0 for 16, bit 1 for 17, bit 2 for 18. */
static unsigned view_records(struct salvages *s, const struct test_case *c, const struct outcome *o, struct view *views,
                             size_t records)
{
    unsigned faults = 0;
    bool dropped[UNDIVARRO_MAX_PANELS] = {false};
    for (size_t k = 0; k < records; k++)
        views[k] = (struct view){.raw = raw_record(c->image, c->image_len, k), .form = c->image[c->image_len - 1]};
    struct told line;
    for (size_t at = 0; at < o->lines_len;) {
        at += read_told(o->lines + at, &line);
        struct view *v = &views[line.record - 1];
        s->record[line.record]++;
        faults |= 1u << (line.fault - 16);
        dropped[line.record - 1] |= line.fault == 16;
        if (line.fault == 17) {
            v->has_17 = true;
            v->code_17 = line.code;
        } else if (line.fault == 18) {
            v->codes_18[v->count_18++] = line.code;
        }
    }
    const uint8_t *kept = o->out;
    for (size_t k = 0; k < records; k++)
        if (!dropped[k]) {
            views[k].kept = kept;
            kept += RECORD_LEN;
        }
    return faults;
}

static void count_done(struct salvages *s, const struct test_case *c, const struct trial *t, const struct outcome *o)
{
    enum { ALL = 7 };
    struct view views[UNDIVARRO_MAX_PANELS];
    size_t records = c->image[c->image_len - 2];
    bool form_1 = c->image[c->image_len - 1] == 1;
    count_room_done(s->met, c, o, records);
    if (records == 0)
        return;
    struct wall wall;
    if (o->lines_len == 0)
        s->met[form_1 ? SOUND_1 : SOUND_2] += read_wall(c, &wall) && is_after(&wall, t);
    unsigned faults = view_records(s, c, o, views, records);
    s->met[form_1 ? FAULTS_IN_1 : FAULTS_IN_2] += faults != 0;
    s->met[ALL_FAULTS] += faults == ALL;
    s->met[NONE_KEPT] += o->kept == 0;
    s->met[FIRST_DROPPED] += o->kept > 0 && !views[0].kept;
    s->met[LAST_DROPPED] += o->kept > 0 && !views[records - 1].kept;
    s->met[LINES_FULL] += o->lines_len == 9 * 11 * 8 + 23 * 11 * 9;
    for (size_t k = 0; k < records; k++) {
        count_ids(s->met, views, k);
        if (views[k].kept)
            count_fields(&s->fields, &views[k]);
        else
            count_dropped(s->met, &views[k]);
    }
}

void count_salvage(struct salvages *s, const struct test_case *c, const struct trial *by_plain)
{
    struct undivarro_result r = by_plain->result;
    struct outcome o = {.lines = by_plain->answer + GUARD, .out = by_plain->out + GUARD};
    uint8_t lines[UNDIVARRO_LINES_CAP], out[UNDIVARRO_IMAGE_CAP];
    if (r.refusal && r.refusal != 19) {
        s->met[ROOM_REFUSED_BEFORE] += c->answer_cap < UNDIVARRO_LINES_CAP && c->out_cap < image_size(2, 0);
        return;
    }
    if (r.refusal) {
        r = plain_salvage(c->image, c->image_len, lines, sizeof lines, out, sizeof out);
        o.lines = lines;
        o.out = out;
    }
    o.lines_len = r.answer_len;
    o.kept = o.out[r.image_len - 2];
    if (by_plain->result.refusal)
        count_room_less(s->met, c, &o);
    else
        count_done(s, c, by_plain, &o);
}
