#include "kinds.h"

#include "tiling.h"
#include "walls.h"

const char *const kind_wall_names[KIND_WALLS] = {"form 2, all 5x5", "form 2, all 15x10", "form 2, both kinds"};

const char *const place_kind_names[PLACE_KINDS] = {
    "neither kind nor tiling", "kind, no tiling", "tiling, no kind", "kind before all others, and tiling",
    "kind behind others, then tiling",
};

const char *const kind_case_names[KIND_CASES] = {
    "17 for a kind in form 1", "17 for a tiling in form 1", "17 for a kind of another length",
    "17 for a tiling of another length", "17 for a kind that is cut off", "17 for a tiling that is cut off",
    "17 for a second kind, no tiling", "17 for a second tiling", "17 for a kind behind the tiling",
    "17 for an unknown kind behind the tiling", "18 for kind 2", "18 for another unknown kind", "18 for enable 2",
    "18 for frame compensation 2", "18 for position 0", "18 for a position past its wall by one, 5x5",
    "18 for a position past its wall by one, 15x10", "18 for byte 0, position 1", "18 for byte 26, 5x5",
    "18 for byte 151, 15x10", "18 for a tiling that 15x10 alone allows, kind 0",
    "18 for a tiling that 15x10 alone allows, no kind", "18 for a tiling that 5x5 alone allows, kind 1",
    "back done from form 2 with kinds and tilings", "31 for profiles alone", "31 for kinds alone", "31 for tilings alone",
    "31 for enable alone", "31 for frame compensation alone", "31 for a wall alone, position 1",
    "31 for the last panel's profile alone", "31 for the last panel's kind alone", "31 for the last panel's tiling alone",
};

static enum kind_case tiling_case(const struct spoiled *spoiled)
{
    bool small = spoiled->kind == UNDIVARRO_5_BY_5;
    switch (spoiled->at) {
    case ENABLE:
        return TILING_ENABLE;
    case FRAME_COMPENSATION:
        return TILING_FRAME;
    case POSITION:
        return spoiled->value == 0 ? TILING_POSITION_0 : small ? TILING_PAST_5_BY_5 : TILING_PAST_15_BY_10;
    default:
        return spoiled->value == 0 ? TILING_BYTE_0 : small ? TILING_BYTE_26 : TILING_BYTE_151;
    }
}

/* The case of an image's only spoiling, or KIND_CASES. */
static enum kind_case case_of(enum image_kind image_kind, const struct spoiled *spoiled)
{
    bool kind = spoiled->code == UNDIVARRO_KIND_CODE, tiling = spoiled->code == settings[TILING].set_code;
    switch (image_kind) {
    case FIELD_LATER:
        return kind ? FORM_1_KIND : tiling ? FORM_1_TILING : KIND_CASES;
    case FIELD_LENGTH:
        return kind ? KIND_LENGTH : tiling ? TILING_LENGTH : KIND_CASES;
    case FIELD_CUT:
        return kind ? KIND_CUT : tiling ? TILING_CUT : KIND_CASES;
    case FIELD_TWICE:
        return tiling ? TILING_TWICE : KIND_CASES;
    case FIELD_KIND_TWICE:
        return kind ? KIND_TWICE : KIND_CASES;
    case FIELD_KIND_BEHIND:
        return !kind ? KIND_CASES : spoiled->value < KINDS ? KIND_BEHIND : UNKNOWN_BEHIND;
    case FIELD_KIND:
        return !kind ? KIND_CASES : spoiled->value == KINDS ? KIND_2 : KIND_OVER_2;
    case FIELD_TILING:
        return tiling ? tiling_case(spoiled) : KIND_CASES;
    case FIELD_OTHER_KIND:
        if (!tiling)
            return KIND_CASES;
        return spoiled->kind != UNDIVARRO_5_BY_5 ? KIND_1_SAID : spoiled->kind_said ? KIND_0_SAID : KIND_0_LEFT_OUT;
    default:
        return KIND_CASES;
    }
}

static enum kind_wall wall_kind(const struct wall *wall)
{
    bool has[KINDS] = {false, false};
    for (size_t k = 0; k < wall->count; k++)
        has[record_at(wall->image, k)[KIND_AT]] = true;
    return !has[UNDIVARRO_15_BY_10] ? WALL_5_BY_5 : has[UNDIVARRO_5_BY_5] ? WALL_BOTH_KINDS : WALL_15_BY_10;
}

/* Bit i: a panel's tiling value i is not fresh. */
static unsigned values_lost(const struct wall *wall)
{
    unsigned lost = 0;
    for (size_t k = 0; k < wall->count; k++)
        for (unsigned i = 0; i < TILING_LEN; i++)
            lost |= (unsigned)(record_at(wall->image, k)[TILING_AT + i] != fresh_tiling[i]) << i;
    return lost;
}

static void count_lost(unsigned long *met, const struct wall *wall)
{
    unsigned all = 0, before_last = 0;
    for (size_t k = 0; k < wall->count; k++) {
        before_last = all;
        all |= lost_in_form_1(record_at(wall->image, k));
    }
    bool last_alone = wall->count > 1 && before_last == 0;
    switch (all) {
    case LOST_PROFILE:
        met[LOST_PROFILES]++;
        met[LOST_LAST_PROFILE] += last_alone;
        break;
    case LOST_KIND:
        met[LOST_KINDS]++;
        met[LOST_LAST_KIND] += last_alone;
        break;
    case LOST_TILING:
        met[LOST_TILINGS]++;
        met[LOST_LAST_TILING] += last_alone;
        met[LOST_ENABLE] += values_lost(wall) == 1u << ENABLE;
        met[LOST_FRAME] += values_lost(wall) == 1u << FRAME_COMPENSATION;
        met[LOST_WALL] += values_lost(wall) == 1u << WALL_BYTE;
        break;
    }
}

void count_kinds(struct kinds *k, const struct test_case *c, const struct trial *by_plain)
{
    uint32_t refusal = by_plain->result.refusal;
    enum kind_case spoiled = c->spoilings == 1 ? case_of(c->image_kind, &c->spoiled) : KIND_CASES;
    if (spoiled < KIND_CASES)
        k->met[spoiled] += refusal == (spoiled < KIND_2 ? 17 : 18);
    struct wall wall;
    if ((refusal != 0 && refusal != 31) || c->spoilings > 0 || c->form == 1 || !read_wall(c, &wall) || wall.count == 0)
        return;
    k->wall[c->call][wall_kind(&wall)]++;
    for (unsigned i = 0; i < PLACE_KINDS; i++)
        k->place[i] += c->places[i];
    if (refusal == 31)
        count_lost(k->met, &wall);
    else if (c->call == CALL_BACK)
        k->met[BACK_DONE] += c->places[KIND_FIRST] || c->places[KIND_LATER];
}
