/* Salvages: what was met of images, of records that were dropped and of the room lent, with the outcome. */
#ifndef SALVAGES_H
#define SALVAGES_H

#include "salvage_fields.h"
#include "trial.h"

enum salvage_case {
    /* the whole image */
    SOUND_1, SOUND_2, FAULTS_IN_1, FAULTS_IN_2, ALL_FAULTS, NONE_KEPT, FIRST_DROPPED, LAST_DROPPED, LINES_FULL,
    /* a record with fault 16, by the first reason */
    SHORT_1, SHORT_2_OF_1, SHORT_2_OF_2, WITH_ID_0, WITH_GROUP_0, WITH_PROFILE, WITH_ID_SEEN, WITH_FIELD_FAULTS,
    /* a record that is kept, with the ID of one that was dropped */
    KEPT_AFTER_SHORT, KEPT_AFTER_GROUP_0, KEPT_AFTER_PROFILE,
    /* and a later one with that ID; and two with the ID of one that was kept */
    DROPPED_KEPT_DROPPED, KEPT_DROPPED_DROPPED,
    /* the room lent */
    ROOM_LINES_EXACT, ROOM_LINES_MORE, ROOM_LINES_LESS, ROOM_LINES_FOR_TEXT, ROOM_LINES_NONE, ROOM_OUT_EXACT, ROOM_OUT_LESS,
    ROOM_OUT_LESS_OF_NONE, ROOM_OUT_FORM_1, ROOM_BOTH_LESS, ROOM_REFUSED_BEFORE,
    SALVAGE_CASES
};

extern const char *const salvage_case_names[SALVAGE_CASES];

struct salvages {
    unsigned long met[SALVAGE_CASES];
    unsigned long record[UNDIVARRO_MAX_PANELS + 1];     /* lines, by the record's number */
    struct field_faults fields;
};

/* Of a salvage. */
void count_salvage(struct salvages *s, const struct test_case *c, const struct trial *by_plain);

#endif
