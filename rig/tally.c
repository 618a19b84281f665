#include "tally.h"

#include <stdio.h>

#include "names.h"

static void count_answer(struct line_tally *line, const struct test_case *c, const struct trial *t)
{
    if (t->result.answer_len == 0) {
        line->silence++;
        return;
    }
    struct packet answer = answer_of(c, t);
    if (answer.data[0] != 0)
        line->report[answer.data[0]]++;
    else
        line->control[answer.data[1]]++;
}

static void count_play(struct tally *tally, const struct test_case *c, const struct trial *by_plain)
{
    count_editions(&tally->editions, c, by_plain);
    if (!c->line)
        return;
    struct line_tally *line = &tally->lines[c->line - editions];
    line->burst[c->burst_kind]++;
    count_damage(&line->damages, c, by_plain);
    count_power(tally->power, c, by_plain);
    count_tiling(&tally->tilings, c, by_plain);
    if (!by_plain->result.refusal)
        count_answer(line, c, by_plain);
}

void count_outcome(struct tally *tally, const struct test_case *c, const struct trial *by_plain)
{
    tally->image[c->image_kind]++;
    tally->room[c->room_kind]++;
    tally->refusal[c->call][by_plain->result.refusal & 0xFF]++;
    count_meetings(&tally->meetings, c, by_plain);
    count_kinds(&tally->kinds, c, by_plain);
    if (c->call == CALL_SALVAGE)
        count_salvage(&tally->salvages, c, by_plain);
    if (is_play(c))
        count_play(tally, c, by_plain);
    if (is_batch(c))
        count_batch(&tally->batches, c, by_plain);
}

/* A line of the tally: what was met, and how often; a line whose what is NULL begins the section that is named. */
typedef void take_line(void *to, const char *section, const char *what, unsigned long times);

static void each_name(take_line *take, void *to, const char *section, const char *const *names, const unsigned long *times,
                      size_t count)
{
    take(to, section, NULL, 0);
    for (size_t i = 0; i < count; i++)
        take(to, section, names[i], times[i]);
}

static void each_of_call(take_line *take, void *to, const struct tally *tally, enum call call)
{
    char what[16];
    const char *section = call_names[call];
    const unsigned long *refusal = tally->refusal[call];
    take(to, section, NULL, 0);
    take(to, section, "no refusal", refusal[0]);
    for (int i = 11; i <= 19; i++) {
        if (call == CALL_SALVAGE && i >= 16 && i <= 18)
            continue;
        snprintf(what, sizeof what, "refusal %d", i);
        take(to, section, what, refusal[i]);
    }
    if (call == CALL_PLAY_ON || call == CALL_BATCH_ON)
        take(to, section, "refusal 23", refusal[23]);
    if (call == CALL_BATCH || call == CALL_BATCH_ON) {
        take(to, section, "refusal 32", refusal[32]);
        take(to, section, "refusal 33", refusal[33]);
    }
    if (call == CALL_BACK)
        take(to, section, "refusal 31", refusal[31]);
    for (int i = 0; i < WALL_KINDS; i++)
        take(to, section, wall_kind_names[i], tally->meetings.wall[call][i]);
    for (int i = 0; i < KIND_WALLS; i++)
        take(to, section, kind_wall_names[i], tally->kinds.wall[call][i]);
}

/* The sections of one edition have its name. */
static const char *section_of(char section[64], const char *what, const struct edition *edition)
{
    snprintf(section, 64, "%s, %s", edition->name, what);
    return section;
}

static void each_answer(take_line *take, void *to, const char *section, const struct line_tally *line)
{
    take(to, section, NULL, 0);
    take(to, section, "silence", line->silence);
    take(to, section, "ACK", line->control[ACK]);
    take(to, section, "NACK", line->control[NACK]);
    take(to, section, "NAV", line->control[NAV]);
    for (const struct setting *s = settings; s < settings + SETTINGS; s++) {
        char what[16];
        snprintf(what, sizeof what, "report 0x%02X", s->get_code);
        take(to, section, what, line->report[s->get_code]);
    }
}

static void each_way(take_line *take, void *to, const char *section, const struct edition *edition, const unsigned long *met)
{
    take(to, section, NULL, 0);
    for (int way = 0; way < WAYS; way++)
        if (way != WAY_OTHER_GROUP || has_group(edition))
            take(to, section, way_names[way], met[way]);
}

static void each_damage(take_line *take, void *to, const struct edition *edition, const struct damages *d)
{
    char section[64], what[96];
    take(to, section_of(section, "damage", edition), NULL, 0);
    for (int damage = 0; damage < DAMAGES; damage++)
        take(to, section, damage_name(damage), d->told[damage]);
    for (int damage = UNDIVARRO_TOO_SHORT; damage < DAMAGES; damage++)
        each_way(take, to, section_of(section, damage_name(damage), edition), edition, d->met[damage]);
    take(to, section_of(section, "burst and damage", edition), NULL, 0);
    for (unsigned i = 0; i < LIMITS; i++) {
        snprintf(what, sizeof what, "%s: %s", limit_name(i), damage_name(limit_damage(i, (unsigned)(edition - editions))));
        take(to, section, what, d->at_limit[i]);
    }
}

static void each_of_edition(take_line *take, void *to, const struct edition *edition, const struct line_tally *line)
{
    char section[64];
    each_name(take, to, section_of(section, "burst", edition), burst_kind_names, line->burst, BURST_KINDS);
    each_answer(take, to, section_of(section, "answer", edition), line);
    each_damage(take, to, edition, &line->damages);
}

static void each_edition_case(take_line *take, void *to, const struct editions *e)
{
    char what[40];
    each_name(take, to, "editions", edition_case_names, e->met, EDITION_CASES);
    for (unsigned i = 0; i < UNKNOWN_EDITIONS; i++) {
        snprintf(what, sizeof what, "23 for %lu", (unsigned long)unknown_editions[i]);
        take(to, "editions", what, e->number[i]);
    }
    for (unsigned i = 0; i < BESIDE; i++) {
        snprintf(what, sizeof what, "%u though the edition is unknown too", FIRST_BESIDE + i);
        take(to, "editions", what, e->beside[i]);
    }
}

static void each_tiling(take_line *take, void *to, const struct tilings *t)
{
    take(to, "tiling, set to a panel", NULL, 0);
    for (unsigned i = 0; i < SET_CASES; i++)
        take(to, "tiling, set to a panel", set_case_name(i), t->set[i]);
    each_name(take, to, "tiling, set to a group", shared_set_names, t->to_group, SHARED_SETS);
    each_name(take, to, "tiling, set to all", shared_set_names, t->to_all, SHARED_SETS);
    each_name(take, to, "tiling, other bursts", other_tiling_names, t->other, OTHER_TILINGS);
}

static void each_salvage(take_line *take, void *to, const struct salvages *s)
{
    char what[40];
    each_name(take, to, "salvage and outcome", salvage_case_names, s->met, SALVAGE_CASES);
    each_name(take, to, "salvage, fields", field_case_names, s->fields.met, FIELD_CASES);
    for (unsigned form = 1; form <= 2; form++) {
        uint8_t rows[ROWS];
        unsigned count = rows_of((uint8_t)form, rows);
        for (unsigned i = 0; i < count; i++) {
            snprintf(what, sizeof what, "18 for code %02X, form %u", code_of(rows[i]), form);
            take(to, "salvage, fields", what, s->fields.by_row[form - 1][rows[i]]);
        }
    }
    for (unsigned i = 0; i < 32; i++) {
        snprintf(what, sizeof what, "17 with %s digit %X", i < 16 ? "first" : "second", i % 16);
        take(to, "salvage, fields", what, s->fields.digit[i / 16][i % 16]);
    }
    take(to, "salvage, lines", NULL, 0);
    for (unsigned i = 1; i <= UNDIVARRO_MAX_PANELS; i++) {
        snprintf(what, sizeof what, "of record %u", i);
        take(to, "salvage, lines", what, s->record[i]);
    }
}

static void each_batch(take_line *take, void *to, const struct batches *b)
{
    char section[64], what[64];
    each_name(take, to, "list", list_kind_names, b->list, LIST_KINDS);
    for (unsigned i = 0; i < EDITIONS; i++)
        each_name(take, to, section_of(section, "batch", &editions[i]), batch_case_names, b->met[i], BATCH_CASES);
    each_name(take, to, "batch, large lists", large_case_names, b->large, LARGE_CASES);
    take(to, "batch, refusals beside each other", NULL, 0);
    for (unsigned i = 0; i < EARLIERS; i++)
        for (enum later later = 0; later < LATERS; later++)
            if (comes_later(i, later)) {
                snprintf(what, sizeof what, "%lu though %s", (unsigned long)earlier_refusal(i), later_name(later));
                take(to, "batch, refusals beside each other", what, b->beside[i][later]);
            }
}

static void each_line(take_line *take, void *to, const struct tally *tally)
{
    each_name(take, to, "image, by its last spoiling", image_kind_names, tally->image, IMAGE_KINDS);
    each_name(take, to, "room lent", room_kind_names, tally->room, ROOM_KINDS);
    for (int call = 0; call < CALLS; call++)
        each_of_call(take, to, tally, call);
    for (unsigned i = 0; i < EDITIONS; i++)
        each_of_edition(take, to, &editions[i], &tally->lines[i]);
    each_edition_case(take, to, &tally->editions);
    take(to, "power", NULL, 0);
    for (unsigned i = 0; i < POWER_CASES; i++)
        take(to, "power", power_case_name(i), tally->power[i]);
    each_tiling(take, to, &tally->tilings);
    each_name(take, to, "kind and tiling in a form 2 record", place_kind_names, tally->kinds.place, PLACE_KINDS);
    each_name(take, to, "kind and tiling in images", kind_case_names, tally->kinds.met, KIND_CASES);
    each_salvage(take, to, &tally->salvages);
    each_batch(take, to, &tally->batches);
    each_name(take, to, "case and outcome", meeting_names, tally->meetings.met, MEETINGS);
}

static void print_line(void *to, const char *section, const char *what, unsigned long times)
{
    (void)to;
    if (what)
        printf("  %-66s %9lu\n", what, times);
    else
        printf("%s:\n", section);
}

void print_tally(const struct tally *tally)
{
    each_line(print_line, NULL, tally);
}

static void check_line(void *to, const char *section, const char *what, unsigned long times)
{
    if (!what || times > 0)
        return;
    printf("never met: %s: %s\n", section, what);
    *(bool *)to = false;
}

bool met_everything(const struct tally *tally)
{
    bool all = true;
    each_line(check_line, &all, tally);
    return all;
}
