/* What the forms and the profiles bring to cases: the walls that were read, and meetings of a case with its outcome that
 * are worth a line of their own. */
#ifndef MEETINGS_H
#define MEETINGS_H

#include "trial.h"

enum wall_kind { WALL_EMPTY_1, WALL_EMPTY_2, WALL_FORM_1, WALL_GENERAL, WALL_PHOENIX, WALL_BOTH, WALL_KINDS };

enum meeting {
    /* images with one spoiling, refused for it */
    MET_FORM_BYTE_0, MET_FORM_BYTE_3, MET_FORM_BYTE_255, MET_1_AS_2, MET_2_AS_1, MET_RECORD_OF_1, MET_RECORD_OF_2,
    MET_UNKNOWN_PROFILE, MET_GENERAL_ALONE, MET_PHOENIX_ALONE_1, MET_PHOENIX_ALONE_2,
    /* fresh video in form 2 */
    MET_NO_GENERAL_VIDEO, MET_NO_PHOENIX_VIDEO,
    /* the form written */
    MET_31_WITH_ROOM, MET_31_WITHOUT_ROOM, MET_PLAY_ROOM_FOR_1, MET_READ_ROOM_FOR_1, MET_BACK_ROOM_FOR_1,
    /* sets that one profile alone takes */
    MET_GENERAL_ACK, MET_GENERAL_NAV, MET_PHOENIX_ACK, MET_PHOENIX_NAV,
    MET_GROUP_GENERAL, MET_GROUP_PHOENIX, MET_ALL_GENERAL, MET_ALL_PHOENIX,
    MEETINGS
};

extern const char *const wall_kind_names[WALL_KINDS];
extern const char *const meeting_names[MEETINGS];

struct meetings {
    unsigned long wall[CALLS][WALL_KINDS];      /* without a refusal, or with 31 */
    unsigned long met[MEETINGS];
};

void count_meetings(struct meetings *m, const struct test_case *c, const struct trial *by_plain);

#endif
