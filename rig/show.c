/* rig show */
#include <stdio.h>
#include <string.h>

#include "commands.h"
#include "names.h"
#include "setup.h"
#include "status.h"
#include "tiling.h"
#include "value_text.h"

enum { TEXT = 2 * VALUE_TEXT };         /* room for what stands in one column */

/* Some of a setting's values. */
struct column {
    unsigned setting;
    unsigned first, count;
    int width;                          /* of the longest text; 0 where the name is longer */
};

/* Six numbers of up to three characters are 23 wide with the spaces between. */
static const struct column columns[] = {
    {POWER, 0, 1, 0}, {VIDEO, 0, 6, 23}, {VIDEO, 6, 1, 0}, {COLOUR_TEMPERATURE, 0, 1, 0}, {AUDIO, 0, 1, 0},
    {AUDIO, 1, 1, 0}, {FAN, 0, 1, 0}, {COLD_START, 0, 1, 0}, {APM, 0, 1, 0}, {POWER_SAVING, 0, 1, 0},
};
/* "15 wide, 10 high", "150 (column 15, row 10)" */
static const struct column tiling_columns[] = {
    {TILING, ENABLE, 1, 0}, {TILING, FRAME_COMPENSATION, 1, 0}, {TILING, WALL_BYTE, 1, 16}, {TILING, POSITION, 1, 23},
};
enum { COLUMNS = sizeof columns / sizeof columns[0], TILING_COLUMNS = sizeof tiling_columns / sizeof tiling_columns[0] };

static const char *name_of(const struct column *column)
{
    const struct setting *setting = &settings[column->setting];
    return column->count == 1 ? value_name(setting, column->first) : setting->name;
}

static int width_of(const struct column *column)
{
    return column->width ? column->width : (int)strlen(name_of(column));
}

static void print_column(const struct column *column, const uint8_t *record)
{
    char text[TEXT] = "?";
    const struct setting *setting = &settings[column->setting];
    const uint8_t *values = values_of(record, setting->set_code);
    for (unsigned i = 0, at = 0; values && i < column->count; i++) {
        if (i > 0)
            text[at++] = ' ';
        at += (unsigned)print_value(text + at, sizeof text - at, setting, column->first + i, values, record);
    }
    printf("  %*s", width_of(column), text);
}

static void print_names(const struct column *from, size_t count)
{
    for (const struct column *c = from; c < from + count; c++)
        printf("  %*s", width_of(c), name_of(c));
    putchar('\n');
}

static void print_columns(const struct column *from, size_t count, const uint8_t *record)
{
    for (const struct column *c = from; c < from + count; c++)
        print_column(c, record);
    putchar('\n');
}

static void print_head(const uint8_t *record)
{
    char group[VALUE_TEXT];
    print_group(group, record[GROUP_AT]);
    printf("%3u  %5s  %s  %5s", record[ID_AT], group, profile_name(record[PROFILE_AT]), kind_name(record[KIND_AT]));
}

int show(const char *path)
{
    struct setup setup;
    uint8_t form;
    int status = load(path, -1, &setup, &form);
    if (status != DONE)
        return status;
    size_t count = panel_count(&setup);
    printf(" ID  group  profile   kind");
    print_names(columns, COLUMNS);
    for (size_t k = 0; k < count; k++) {
        print_head(record_of(&setup, k));
        print_columns(columns, COLUMNS, record_of(&setup, k));
    }
    printf("\n ID");
    print_names(tiling_columns, TILING_COLUMNS);
    for (size_t k = 0; k < count; k++) {
        printf("%3u", record_of(&setup, k)[ID_AT]);
        print_columns(tiling_columns, TILING_COLUMNS, record_of(&setup, k));
    }
    printf("%zu panel%s, form %u\n", count, count == 1 ? "" : "s", form);
    return printed();
}
