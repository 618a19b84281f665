#include "meetings.h"

#include <string.h>

#include "walls.h"

const char *const wall_kind_names[WALL_KINDS] = {
    "form 1, no panels", "form 2, no panels", "form 1", "form 2, all general", "form 2, all Phoenix", "form 2, both profiles",
};

const char *const meeting_names[MEETINGS] = {
    "12 for form byte 0", "12 for form byte 3", "12 for form byte 255",
    "form 1 refused under form byte 2", "form 2 refused under form byte 1",
    "16 for a form 2 record of 1 byte", "16 for a form 2 record of 2 bytes", "16 for an unknown profile",
    "18 for a Phoenix panel's video that general alone allows",
    "18 for a video that Phoenix alone allows, form 1", "18 for a general panel's video that Phoenix alone allows, form 2",
    "form 2, a general panel's video left out", "form 2, a Phoenix panel's video left out",
    "31 with room for form 1", "31 without room for form 1",
    "19 from play with room for form 1", "19 from read with room for form 1", "back done without room for form 2",
    "ACK from a general panel to what general alone allows", "NAV from a general panel to what Phoenix alone allows",
    "ACK from a Phoenix panel to what Phoenix alone allows", "NAV from a Phoenix panel to what general alone allows",
    "set to a group, general panels took it and Phoenix ones did not",
    "set to a group, Phoenix panels took it and general ones did not",
    "set to all, general panels took it and Phoenix ones did not",
    "set to all, Phoenix panels took it and general ones did not",
};

static size_t phoenix_count(const struct wall *wall)
{
    size_t count = 0;
    for (size_t k = 0; k < wall->count; k++)
        count += record_at(wall->image, k)[PROFILE_AT] == UNDIVARRO_PHOENIX;
    return count;
}

static enum wall_kind kind_of(uint8_t form, const struct wall *wall)
{
    size_t phoenix = phoenix_count(wall);
    if (wall->count == 0)
        return form == 1 ? WALL_EMPTY_1 : WALL_EMPTY_2;
    if (form == 1)
        return WALL_FORM_1;
    return phoenix == 0 ? WALL_GENERAL : phoenix == wall->count ? WALL_PHOENIX : WALL_BOTH;
}

static void count_spoiled(unsigned long *met, const struct test_case *c, uint32_t refusal)
{
    uint8_t last = c->image_len > 0 ? c->image[c->image_len - 1] : 0;
    switch (c->image_kind) {
    case WHOLE_FORM:
        met[MET_FORM_BYTE_0] += refusal == 12 && last == 0;
        met[MET_FORM_BYTE_3] += refusal == 12 && last == 3;
        met[MET_FORM_BYTE_255] += refusal == 12 && last == 255;
        met[MET_1_AS_2] += refusal != 0 && c->form == 1 && last == 2;
        met[MET_2_AS_1] += refusal != 0 && c->form == 2 && last == 1;
        break;
    case RECORD_1_BYTE:
        met[MET_RECORD_OF_1] += refusal == 16 && c->form == 2;
        break;
    case RECORD_2_BYTES:
        met[MET_RECORD_OF_2] += refusal == 16 && c->form == 2;
        break;
    case RECORD_PROFILE:
        met[MET_UNKNOWN_PROFILE] += refusal == 16;
        break;
    case FIELD_GENERAL_ALONE:
        met[MET_GENERAL_ALONE] += refusal == 18;
        break;
    case FIELD_PHOENIX_ALONE:
        met[c->form == 1 ? MET_PHOENIX_ALONE_1 : MET_PHOENIX_ALONE_2] += refusal == 18;
        break;
    default:
        break;
    }
}

static void count_room(unsigned long *met, const struct test_case *c, uint32_t refusal, const struct wall *wall)
{
    bool for_1 = c->out_cap >= image_size(1, wall->count), for_2 = c->out_cap >= image_size(2, wall->count);
    if (is_play(c))
        met[MET_PLAY_ROOM_FOR_1] += refusal == 19 && for_1 && c->answer_cap >= UNDIVARRO_ANSWER_CAP;
    else if (c->call == CALL_READ)
        met[MET_READ_ROOM_FOR_1] += refusal == 19 && for_1;
    else if (refusal == 31)
        met[for_1 ? MET_31_WITH_ROOM : MET_31_WITHOUT_ROOM]++;
    else if (c->call == CALL_BACK)
        met[MET_BACK_ROOM_FOR_1] += refusal == 0 && !for_2;
}

/* The burst is a set of video that one profile alone allows. */
static void count_set(unsigned long *met, const struct test_case *c, const struct trial *t, size_t panels)
{
    const uint8_t *values = packet_of(c).data + 1;
    enum whom to = whom_of(c);
    bool took[2] = {false, false}, kept[2] = {false, false};
    for (size_t k = 0; k < panels; k++) {
        const uint8_t *record = record_at(t->out + GUARD, k);
        if (is_addressed(c, record)) {
            bool has = memcmp(record + VIDEO_AT, values, settings[VIDEO].count) == 0;
            (has ? took : kept)[record[PROFILE_AT]] = true;
        }
    }
    if (to == ONE) {
        uint8_t control = control_of(c, t);
        met[MET_GENERAL_ACK] += took[UNDIVARRO_GENERAL] && control == ACK;
        met[MET_GENERAL_NAV] += kept[UNDIVARRO_GENERAL] && control == NAV;
        met[MET_PHOENIX_ACK] += took[UNDIVARRO_PHOENIX] && control == ACK;
        met[MET_PHOENIX_NAV] += kept[UNDIVARRO_PHOENIX] && control == NAV;
    } else {
        met[to == GROUP ? MET_GROUP_GENERAL : MET_ALL_GENERAL] += took[UNDIVARRO_GENERAL] && kept[UNDIVARRO_PHOENIX];
        met[to == GROUP ? MET_GROUP_PHOENIX : MET_ALL_PHOENIX] += took[UNDIVARRO_PHOENIX] && kept[UNDIVARRO_GENERAL];
    }
}

void count_meetings(struct meetings *m, const struct test_case *c, const struct trial *by_plain)
{
    uint32_t refusal = by_plain->result.refusal;
    if (c->spoilings == 1)
        count_spoiled(m->met, c, refusal);
    struct wall wall;
    if (!read_wall(c, &wall))
        return;
    count_room(m->met, c, refusal, &wall);
    if (refusal != 0 && refusal != 31)
        return;
    m->wall[c->call][kind_of(c->image[c->image_len - 1], &wall)]++;
    if (refusal == 0 && c->spoilings == 0 && c->form == 2) {
        m->met[MET_NO_GENERAL_VIDEO] += c->no_video[UNDIVARRO_GENERAL];
        m->met[MET_NO_PHOENIX_VIDEO] += c->no_video[UNDIVARRO_PHOENIX];
    }
    if (refusal == 0 && is_play(c) && c->burst_kind == BURST_SET_ONE_PROFILE)
        count_set(m->met, c, by_plain, wall.count);
}
