/* A part of plain.c: the settings, and the panels that hold them. */
#ifndef PLAIN_PANELS_H
#define PLAIN_PANELS_H

#include <stdbool.h>
#include <string.h>

#include "undivarro.h"

enum { FORM_1 = 1, FORM_2 = 2 };
enum { PROFILES = 2 };                  /* UNDIVARRO_GENERAL, UNDIVARRO_PHOENIX */
enum { KINDS = 2 };                     /* UNDIVARRO_5_BY_5, UNDIVARRO_15_BY_10 */

/* The settings, and with them the kind, which only images have */

enum { KIND, POWER, TILING, FIELDS = 10, VALUE_BYTES = 20 };

/* Of a byte in two's complement, in which no byte above 127 is from 0 to 100. */
struct range {
    int8_t low, high;
};

struct field {
    uint8_t code, get_code;             /* of the kind 0: it has none */
    uint8_t count;                      /* of its value bytes */
    uint8_t place;                      /* of the first of them among a panel's values */
    uint8_t form;                       /* the first that has it */
    uint16_t gaps;                      /* bit v: v lies between low and high and is not allowed */
    const struct range *ranges[PROFILES];
};

static const struct range kinds[] = {{0, KINDS - 1}}, power[] = {{1, 2}}, colour_temperature[] = {{0, 13}},
    treble_bass[] = {{0, 100}, {0, 100}}, fan[] = {{0, 4}}, cold_start[] = {{0, 2}}, saving[] = {{0, 3}};
/* Brightness, colour, contrast, sharpness, tint, black level, gamma. */
static const struct range video[] = {{0, 100}, {0, 100}, {0, 100}, {0, 100}, {0, 100}, {0, 100}, {1, 5}};
static const struct range phoenix_video[] = {{0, 100}, {0, 100}, {0, 100}, {0, 10}, {-50, 50}, {0, 100}, {1, 5}};

enum { POWER_OFF = 1 };

/* By rising code, as images are written. */
static const struct field fields[FIELDS] = {
    [KIND] = {UNDIVARRO_KIND_CODE, 0, 1, 0, FORM_2, 0, {kinds, kinds}},
    [POWER] = {0x18, 0x19, 1, 1, FORM_1, 0, {power, power}},
    [TILING] = {0x22, 0x23, 4, 2, FORM_2, 0, {NULL, NULL}},       /* judged by tiling_allowed */
    {0x32, 0x33, 7, 6, FORM_1, 0, {video, phoenix_video}},
    {0x34, 0x35, 1, 13, FORM_1, 1 << 2 | 1 << 7 | 1 << 8 | 1 << 11 | 1 << 12, {colour_temperature, colour_temperature}},
    {0x42, 0x43, 2, 14, FORM_1, 0, {treble_bass, treble_bass}},
    {0x61, 0x62, 1, 16, FORM_1, 0, {fan, fan}},
    {0xA3, 0xA4, 1, 17, FORM_1, 0, {cold_start, cold_start}},
    {0xD0, 0xD1, 1, 18, FORM_1, 0, {saving, saving}},            /* APM */
    {0xDD, 0xDE, 1, 19, FORM_1, 0, {saving, saving}},            /* power saving */
};

/* All values of a panel, in the order of the fields. */
static const uint8_t fresh_values[PROFILES][VALUE_BYTES] = {
    {UNDIVARRO_5_BY_5, 2, 0, 0, 1, 1, 50, 50, 50, 50, 50, 50, 3, 1, 50, 50, 1, 2, 0, 0},
    {UNDIVARRO_5_BY_5, 2, 0, 0, 1, 1, 50, 50, 50, 5, 0, 50, 3, 1, 50, 50, 1, 2, 0, 0},
};

static const struct field *field_by_code(uint8_t code)
{
    for (const struct field *f = fields; f < fields + FIELDS; f++)
        if (f->code == code)
            return f;
    return NULL;
}

/* On the line, where the kind's code is unknown. */
static const struct field *setting_by_set_code(uint8_t code)
{
    return code == UNDIVARRO_KIND_CODE ? NULL : field_by_code(code);
}

static const struct field *setting_by_get_code(uint8_t code)
{
    for (const struct field *f = fields + POWER; f < fields + FIELDS; f++)
        if (f->get_code == code)
            return f;
    return NULL;
}

/* Of any field but tiling. */
static bool all_allowed(const struct field *f, uint8_t profile, const uint8_t *values)
{
    const struct range *ranges = f->ranges[profile];
    for (size_t i = 0; i < f->count; i++) {
        int8_t v = (int8_t)values[i];
        if (v < ranges[i].low || v > ranges[i].high)
            return false;
        if (values[i] < 16 && (f->gaps >> v & 1))
            return false;
    }
    return true;
}

/* Panels */

enum { GROUP_OFF = 255 };

struct panel {
    uint8_t id, group, profile;
    uint8_t values[VALUE_BYTES];
};

struct wall {
    size_t count;
    struct panel panels[UNDIVARRO_MAX_PANELS];
};

static struct panel *panel_with_id(struct wall *wall, uint8_t id)
{
    for (size_t i = 0; i < wall->count; i++)
        if (wall->panels[i].id == id)
            return &wall->panels[i];
    return NULL;
}

static void take(struct panel *panel, const struct field *f, const uint8_t *values)
{
    memcpy(panel->values + f->place, values, f->count);
}

/* Tiling: 002's section 8.6, and 02's A6 */

enum { ENABLE, FRAME, POSITION, BYTE };         /* the last is the wall's, of its height V and width H */

static const uint8_t widest[KINDS] = {5, 15}, highest[KINDS] = {5, 10};

/* The values, whose byte may be 0 for the wall that the panel has. */
static bool tiling_allowed(const struct panel *panel, const uint8_t *values)
{
    unsigned kind = panel->values[fields[KIND].place], width = widest[kind];
    unsigned byte = values[BYTE] ? values[BYTE] : panel->values[fields[TILING].place + BYTE];
    if (values[ENABLE] > 1 || values[FRAME] > 1 || byte > width * highest[kind])
        return false;
    unsigned h = (byte - 1) % width + 1, v = (byte - 1) / width + 1;
    return values[POSITION] >= 1 && values[POSITION] <= h * v;
}

static void take_tiling(struct panel *panel, const uint8_t *values)
{
    uint8_t *held = panel->values + fields[TILING].place, byte = held[BYTE];
    take(panel, &fields[TILING], values);
    if (values[BYTE] == 0)
        held[BYTE] = byte;
}

#endif
