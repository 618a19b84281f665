/* rig back */
#include <stdio.h>

#include "commands.h"
#include "names.h"
#include "setup.h"
#include "status.h"

static void name_panel(const uint8_t *record, unsigned lost)
{
    const char *words[3];
    unsigned count = 0;
    if (lost & LOST_PROFILE)
        words[count++] = profile_name(record[PROFILE_AT]);
    if (lost & LOST_KIND)
        words[count++] = kind_name(record[KIND_AT]);
    if (lost & LOST_TILING)
        words[count++] = "tiling not fresh";
    fprintf(stderr, "panel %u (", record[ID_AT]);
    for (unsigned i = 0; i < count; i++)
        fprintf(stderr, "%s%s", i > 0 ? ", " : "", words[i]);
    fputc(')', stderr);
}

/* 31 came: names the panels that form 1 cannot hold, each with the reasons, and what can be done. */
static int refused_form_1(const char *path, const struct setup *setup)
{
    unsigned all_lost = 0;
    for (size_t k = 0; k < panel_count(setup); k++) {
        const uint8_t *record = record_of(setup, k);
        unsigned lost = lost_in_form_1(record);
        if (!lost)
            continue;
        if (all_lost)
            fputs(", ", stderr);
        else
            fprintf(stderr, "rig: %s: refusal 31: form 1 cannot hold ", path);
        name_panel(record, lost);
        all_lost |= lost;
    }
    if (!all_lost)
        return refused(path, 31);
    if (all_lost & (LOST_PROFILE | LOST_KIND))
        fputs("; give an older box a setup without Phoenix and 15x10 panels, made with rig new", stderr);
    if (all_lost & LOST_TILING)
        fputs("; a tiling is fresh again after the set 22 00 00 01 01", stderr);
    fputs("; keep this setup for boxes that know tiling\n", stderr);
    return REFUSED;
}

int back(const char *path, const char *new_path)
{
    struct setup setup, form_1;
    int status = load(path, -1, &setup, NULL);
    if (status != DONE)
        return status;
    struct undivarro_result r = undivarro_back(setup.bytes, setup.len, form_1.bytes, sizeof form_1.bytes);
    if (r.refusal == 31)
        return refused_form_1(path, &setup);
    if (r.refusal)
        return refused(path, r.refusal);
    form_1.len = r.image_len;
    return keep_new(new_path, &form_1);
}
