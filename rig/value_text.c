#include "value_text.h"

#include <stdio.h>

#include "record.h"
#include "tiling.h"
#include "undivarro.h"

/* The position as a column and a row of the wall: it is counted from left to right, then down. */
static int print_position(char *to, size_t room, struct size wall, uint8_t position)
{
    unsigned before = position - 1u;
    return snprintf(to, room, "%u (column %u, row %u)", position, before % wall.width + 1, before / wall.width + 1);
}

int print_value(char *to, size_t room, const struct setting *setting, unsigned i, const uint8_t *values,
                const uint8_t *record)
{
    uint8_t value = values[i];
    const char *word = value_word(setting, i, value);
    if (word)
        return snprintf(to, room, "%s", word);
    if (record[PROFILE_AT] == UNDIVARRO_PHOENIX && is_tint(setting, i))
        return snprintf(to, room, value > 0 ? "%+d" : "%d", (int8_t)value);
    if (setting != &settings[TILING])
        return snprintf(to, room, "%u", value);
    struct size wall = wall_of(record[KIND_AT], values[WALL_BYTE]);
    return is_wall(setting, i) ? snprintf(to, room, "%u wide, %u high", wall.width, wall.height)
                               : print_position(to, room, wall, value);
}

const char *value_name(const struct setting *setting, unsigned i)
{
    return setting->value_names[i] ? setting->value_names[i] : setting->name;
}

void print_group(char to[VALUE_TEXT], uint8_t group)
{
    if (group == 255)
        snprintf(to, VALUE_TEXT, "off");
    else
        snprintf(to, VALUE_TEXT, "%u", group);
}
