/* rig salvage */
#include <stdio.h>

#include "commands.h"
#include "names.h"
#include "setup.h"
#include "status.h"
#include "told.h"

enum { LINE_WIDTH = 8 };                /* of the longest, "32 17 DD" */

static const char *why_dropped_words(enum drop why)
{
    switch (why) {
    case DROP_SHORT:
        return "it is too short";
    case DROP_ID_0:
        return "its ID is 0";
    case DROP_GROUP_0:
        return "its group is 0";
    case DROP_PROFILE:
        return "its profile is unknown";
    default:
        return "a record that was kept has its ID";
    }
}

/* NULL where the code is of no field; a get code is of none. */
static const char *field_name(uint8_t code)
{
    if (code == UNDIVARRO_KIND_CODE)
        return "kind";
    const struct setting *setting = setting_of(code);
    return setting && setting->set_code == code ? setting->name : NULL;
}

static void say_fault(struct told line, struct raw_record record, uint8_t form)
{
    const char *name = field_name(line.code);
    printf("  record %u, ID %u: ", line.record, record.bytes[ID_AT]);
    if (line.fault == 16)
        printf("dropped, since %s\n", why_dropped_words(why_dropped(record, form)));
    else if (line.fault == 18)
        printf("%s has a value that is not allowed; the fresh value is in its place\n", name);
    else if (name)
        printf("reading stops at a field of %s; what was not read before it is fresh\n", name);
    else
        printf("reading stops at code %02X, which is of no field; what was not read before it is fresh\n", line.code);
}

/* Each line as it is, and what it means. */
static void print_lines(const uint8_t *lines, size_t len, const uint8_t *image, size_t image_len)
{
    struct told line;
    for (size_t at = 0, own; at < len; at += own) {
        own = read_told(lines + at, &line);
        printf("%-*.*s", LINE_WIDTH, (int)own - 1, (const char *)lines + at);
        say_fault(line, raw_record(image, image_len, line.record - 1), image[image_len - 1]);
    }
}

int salvage(const char *path, const char *new_path)
{
    uint8_t image[SETUP_FILE_LIMIT + 1], lines[UNDIVARRO_LINES_CAP];
    struct setup kept;
    size_t len;
    int status = load_image(path, -1, image, &len);
    if (status != DONE)
        return status;
    struct undivarro_result r = undivarro_salvage(image, len, lines, sizeof lines, kept.bytes, sizeof kept.bytes);
    if (r.refusal)
        return refused(path, r.refusal);
    kept.len = r.image_len;
    size_t panels = panel_count(&kept), records = image[len - 2];
    print_lines(lines, r.answer_len, image, len);
    printf("%zu panel%s of %zu record%s to be kept in %s\n", panels, panels == 1 ? "" : "s", records, records == 1 ? "" : "s",
           new_path);
    /* What was lost is told before there is a file without it. */
    status = printed();
    return status == DONE ? keep_new(new_path, &kept) : status;
}
