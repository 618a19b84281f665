/* rig new */
#include <stdbool.h>
#include <stdio.h>
#include <string.h>

#include "commands.h"
#include "names.h"
#include "setup.h"
#include "status.h"

/* A record of a fresh panel: its head and its kind. */
enum { FRESH_LEN = KIND_AT + 1 };

/* A number from 0 to 255 in decimal at the front of the text, which is moved past it. */
static bool small_number(const char **text, uint8_t *number)
{
    unsigned value = 0;
    const char *at = *text;
    for (; *at >= '0' && *at <= '9' && value <= 255; at++)
        value = 10 * value + (unsigned)(*at - '0');
    if (at == *text || value > 255)
        return false;
    *number = (uint8_t)value;
    *text = at;
    return true;
}

/* The word behind a colon stands at the front of the text, which is moved past it. */
static bool word_follows(const char **text, const char *word)
{
    size_t len = strlen(word);
    if (**text != ':' || strncmp(*text + 1, word, len) != 0)
        return false;
    *text += 1 + len;
    return true;
}

/* ID:GROUP[:phoenix][:15x10] as the record of a fresh panel. */
static bool fresh_record(const char *text, uint8_t record[FRESH_LEN])
{
    if (!small_number(&text, &record[ID_AT]) || *text++ != ':' || !small_number(&text, &record[GROUP_AT]))
        return false;
    record[PROFILE_AT] = word_follows(&text, "phoenix") ? UNDIVARRO_PHOENIX : UNDIVARRO_GENERAL;
    record[FIELDS_AT] = UNDIVARRO_KIND_CODE;
    record[FIELDS_AT + 1] = 1;
    record[KIND_AT] = word_follows(&text, kind_name(UNDIVARRO_15_BY_10)) ? UNDIVARRO_15_BY_10 : UNDIVARRO_5_BY_5;
    return *text == '\0';
}

/* The library gave 16, which is about one record: names its panel and the fault, the first in 01's words for 16. */
static int refused_panel(const char *path, uint8_t records[][FRESH_LEN], size_t count, char **panels)
{
    for (size_t k = 0; k < count; k++) {
        size_t first = 0;
        while (records[first][ID_AT] != records[k][ID_AT])
            first++;
        if (records[k][ID_AT] == 0)
            fprintf(stderr, "rig: %s: refusal 16: %s has ID 0; IDs are 1 to 255\n", path, panels[k]);
        else if (records[k][GROUP_AT] == 0)
            fprintf(stderr, "rig: %s: refusal 16: %s has group 0; groups are 1 to 255, and 255 is group off\n", path,
                    panels[k]);
        else if (first < k)
            fprintf(stderr, "rig: %s: refusal 16: %s has the ID of %s; each panel has an ID of its own\n", path, panels[k],
                    panels[first]);
        else
            continue;
        return REFUSED;
    }
    return refused(path, 16);
}

/* Their image, in which all other fields are left out; its length. */
static size_t fresh_image(uint8_t records[][FRESH_LEN], size_t count, uint8_t *image)
{
    uint8_t *to = image;
    memcpy(to, records, FRESH_LEN * count);
    to += FRESH_LEN * count;
    for (size_t k = 0; k < count; k++) {
        *to++ = 0;
        *to++ = (uint8_t)(FRESH_LEN * k);
    }
    *to++ = (uint8_t)count;
    *to++ = 2;
    return (size_t)(to - image);
}

int make_new(const char *path, size_t count, char **panels)
{
    uint8_t records[UNDIVARRO_MAX_PANELS][FRESH_LEN], image[(FRESH_LEN + 2) * UNDIVARRO_MAX_PANELS + 2];
    if (count > UNDIVARRO_MAX_PANELS) {
        fprintf(stderr, "rig: a setup has at most %d panels; %zu are given\n", UNDIVARRO_MAX_PANELS, count);
        return BAD;
    }
    for (size_t k = 0; k < count; k++)
        if (!fresh_record(panels[k], records[k])) {
            fprintf(stderr, "rig: %s is not ID:GROUP[:phoenix][:15x10]; ID and GROUP are decimal numbers from 1 to 255, as "
                    "in 1:9 for a general 5x5 panel, 1:9:phoenix, 1:9:15x10 or 1:9:phoenix:15x10\n", panels[k]);
            return BAD;
        }

    struct setup setup;
    size_t len = fresh_image(records, count, image);
    struct undivarro_result r = undivarro_read(image, len, setup.bytes, sizeof setup.bytes);
    if (r.refusal == 16)
        return refused_panel(path, records, count, panels);
    if (r.refusal)
        return refused(path, r.refusal);
    setup.len = r.image_len;
    return keep_new(path, &setup);
}
