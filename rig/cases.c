#include "cases.h"

#include "case_bursts.h"
#include "case_images.h"
#include "case_lists.h"
#include "plain.h"

const char *const call_names[CALLS] = {
    "play", "play on a line of an edition", "batch", "batch on a line of an edition", "read", "back", "salvage",
};
const char *const room_kind_names[ROOM_KINDS] = {"exact", "ample", "at the limits", "for the other form", "any"};

const uint32_t unknown_editions[UNKNOWN_EDITIONS] = {
    0, 1, 2, 16, 160, 184, 186, 200, 202, 255, 185 + 0x100, 201 + 0x100, 0x185, 0x201, 185 + 0x10000, 201 + 0x10000,
    UINT32_MAX,
};

bool is_play(const struct test_case *c)
{
    return c->call == CALL_PLAY || c->call == CALL_PLAY_ON;
}

bool is_batch(const struct test_case *c)
{
    return c->call == CALL_BATCH || c->call == CALL_BATCH_ON;
}

static void choose_edition(struct source *s, struct test_case *c)
{
    unsigned which = c->call == CALL_PLAY_ON || c->call == CALL_BATCH_ON ? below(s, 20) : 20;
    if (which < 10)
        c->edition = UNDIVARRO_SICP_1_85;
    else if (which < 13)
        c->edition = one_in(s, 8) ? (uint32_t)next(s) : unknown_editions[below(s, UNKNOWN_EDITIONS)];
    else
        c->edition = UNDIVARRO_SICP_2_01;
    c->line = edition_by_number(c->edition);
}

static size_t edge(struct source *s, size_t needed)
{
    switch (below(s, 6)) {
    case 0:
        return needed > 0 ? needed - 1 : 0;
    case 1:
        return needed + 1;
    case 2:
        return 0;
    default:
        return needed;
    }
}

size_t image_size(unsigned form, size_t panels)
{
    return (form == 1 ? 35 : 45) * panels + 2;
}

/* Panels that a salvage keeps of the image, or n where it is refused. */
static size_t kept_of(const struct test_case *c, size_t n)
{
    uint8_t lines[UNDIVARRO_LINES_CAP], out[UNDIVARRO_IMAGE_CAP];
    struct undivarro_result r = plain_salvage(c->image, c->image_len, lines, sizeof lines, out, sizeof out);
    return r.refusal ? n : out[r.image_len - 2];
}

/* What answer, answers or lines need. */
static size_t answer_room(const struct test_case *c)
{
    if (is_batch(c))
        return UNDIVARRO_BATCH_CAP * c->bursts;
    return c->call == CALL_SALVAGE ? UNDIVARRO_LINES_CAP : UNDIVARRO_ANSWER_CAP;
}

/* How much is lent, for an image of n panels. */
static void make_room(struct source *s, struct test_case *c, size_t n)
{
    unsigned form = c->call == CALL_BACK ? 1 : 2;
    size_t answer = answer_room(c);
    if (c->call == CALL_SALVAGE)
        n = kept_of(c, n);
    size_t out = image_size(form, n);
    static const enum room_kind kinds[] = {
        ROOM_EXACT, ROOM_EXACT, ROOM_EXACT, ROOM_AMPLE, ROOM_AMPLE, ROOM_EDGE, ROOM_EDGE, ROOM_OTHER_FORM, ROOM_ANY,
    };
    c->room_kind = kinds[below(s, sizeof kinds / sizeof kinds[0])];
    c->answer_cap = answer;
    c->out_cap = out;
    switch (c->room_kind) {
    case ROOM_AMPLE:
        c->answer_cap = answer + below(s, one_in(s, 8) ? 3000 : 60);
        c->out_cap = out + below(s, 60);
        break;
    case ROOM_EDGE:
        c->answer_cap = is_batch(c) && one_in(s, 4) ? UNDIVARRO_ANSWER_CAP * c->bursts : edge(s, answer);
        c->out_cap = edge(s, out);
        break;
    case ROOM_OTHER_FORM:
        c->out_cap = image_size(3 - form, n);
        break;
    case ROOM_ANY:
        c->answer_cap = below(s, (unsigned)answer + 60);
        c->out_cap = below(s, (unsigned)out + 100);
        break;
    default:
        break;
    }
}

void make_case(uint64_t seed, uint64_t number, struct test_case *c)
{
    static const enum call calls[] = {
        CALL_PLAY, CALL_PLAY, CALL_PLAY_ON, CALL_PLAY_ON, CALL_PLAY_ON, CALL_PLAY_ON, CALL_PLAY_ON, CALL_BATCH,
        CALL_BATCH_ON, CALL_BATCH_ON, CALL_BATCH_ON, CALL_READ, CALL_BACK, CALL_BACK, CALL_SALVAGE, CALL_SALVAGE,
    };
    struct source s = {seed};
    s.state = next(&s) ^ number * 0xD1342543DE82EF95u;
    struct draft draft;
    c->call = calls[below(&s, sizeof calls / sizeof calls[0])];
    c->fill = next(&s);
    choose_edition(&s, c);
    make_image(&s, c, &draft);
    if (is_batch(c)) {
        make_list(&s, c, &draft);
    } else {
        c->burst_kind = choose_burst(&s);
        c->burst_len = make_burst(&s, c->burst_kind, c->line, &draft, c->burst);
    }
    make_room(&s, c, draft.count);
}
