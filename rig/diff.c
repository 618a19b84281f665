/* rig diff */
#include <stdbool.h>
#include <stdio.h>
#include <string.h>

#include "commands.h"
#include "names.h"
#include "setup.h"
#include "status.h"
#include "value_text.h"

enum { ALIKE = 0, DIFFERENT = 1 };      /* and BAD; as diff's */

static bool tell(const uint8_t *record, const char *name, const char *from, const char *to)
{
    if (strcmp(from, to) == 0)
        return false;
    printf("panel %u: %s from %s to %s\n", record[ID_AT], name, from, to);
    return true;
}

/* By what the values mean on each panel: of another profile or kind, the same byte may mean another tint or wall. */
static bool tell_setting(const struct setting *setting, const uint8_t *record, const uint8_t *other)
{
    bool differs = false;
    const uint8_t *values = values_of(record, setting->set_code), *others = values_of(other, setting->set_code);
    for (unsigned i = 0; i < setting->count; i++) {
        char from[VALUE_TEXT], to[VALUE_TEXT];
        print_value(from, sizeof from, setting, i, values, record);
        print_value(to, sizeof to, setting, i, others, other);
        differs |= tell(record, value_name(setting, i), from, to);
    }
    return differs;
}

static bool tell_panel(const uint8_t *record, const uint8_t *other)
{
    char from[VALUE_TEXT], to[VALUE_TEXT];
    print_group(from, record[GROUP_AT]);
    print_group(to, other[GROUP_AT]);
    bool differs = tell(record, "group", from, to);
    differs |= tell(record, "profile", profile_name(record[PROFILE_AT]), profile_name(other[PROFILE_AT]));
    differs |= tell(record, "kind", kind_name(record[KIND_AT]), kind_name(other[KIND_AT]));
    for (const struct setting *s = settings; s < settings + SETTINGS; s++)
        differs |= tell_setting(s, record, other);
    return differs;
}

static const uint8_t *panel_of(const struct setup *setup, uint8_t id)
{
    for (size_t k = 0; k < panel_count(setup); k++)
        if (record_of(setup, k)[ID_AT] == id)
            return record_of(setup, k);
    return NULL;
}

/* The IDs of the panels that both have, in the setup's order; their number. */
static size_t ids_in_both(const struct setup *setup, const struct setup *other, uint8_t ids[UNDIVARRO_MAX_PANELS])
{
    size_t count = 0;
    for (size_t k = 0; k < panel_count(setup); k++)
        if (panel_of(other, record_of(setup, k)[ID_AT]))
            ids[count++] = record_of(setup, k)[ID_AT];
    return count;
}

static void print_order(const uint8_t *ids, size_t count, const char *path)
{
    for (size_t k = 0; k < count; k++)
        printf(" %u", ids[k]);
    printf(" in %s", path);
}

static bool tell_order(const struct setup *setup, const char *path, const struct setup *other, const char *other_path)
{
    uint8_t ids[UNDIVARRO_MAX_PANELS], other_ids[UNDIVARRO_MAX_PANELS];
    size_t count = ids_in_both(setup, other, ids);
    ids_in_both(other, setup, other_ids);
    if (memcmp(ids, other_ids, count) == 0)
        return false;
    fputs("the order of the panels:", stdout);
    print_order(ids, count, path);
    putchar(',');
    print_order(other_ids, count, other_path);
    putchar('\n');
    return true;
}

/* The panels that the setup has and the other has not. */
static bool tell_single(const struct setup *setup, const char *path, const struct setup *other)
{
    bool differs = false;
    for (size_t k = 0; k < panel_count(setup); k++) {
        uint8_t id = record_of(setup, k)[ID_AT];
        if (panel_of(other, id))
            continue;
        printf("panel %u: only in %s\n", id, path);
        differs = true;
    }
    return differs;
}

int diff(const char *path, const char *other_path)
{
    struct setup setup, other;
    if (load(path, -1, &setup, NULL) != DONE || load(other_path, -1, &other, NULL) != DONE)
        return BAD;
    bool differs = false;
    for (size_t k = 0; k < panel_count(&setup); k++) {
        const uint8_t *record = record_of(&setup, k), *others = panel_of(&other, record[ID_AT]);
        if (others)
            differs |= tell_panel(record, others);
    }
    differs |= tell_single(&setup, path, &other);
    differs |= tell_single(&other, other_path, &setup);
    differs |= tell_order(&setup, path, &other, other_path);
    return printed() != DONE ? BAD : differs ? DIFFERENT : ALIKE;
}
