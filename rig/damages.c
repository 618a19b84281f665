#include "damages.h"

#include "checksum.h"
#include "plain.h"

const char *const way_names[WAYS] = {
    "NACK", "silence, the third byte is not 0", "silence, no panel has the second byte for its ID",
    "refusal 11 to 18 and no damage told", "refusal 19 and no damage told",
};

/* A burst's first byte beside its count of bytes, of which it has no more than the low byte; and its XOR. */
enum { RIGHT = 1, BELOW = 2, ABOVE = 4, WRONG = BELOW | ABOVE, ANY_SIZE = RIGHT | WRONG };
enum { ZERO = 1, NOT_ZERO = 2, ANY_XOR = ZERO | NOT_ZERO };

/* What is told on a line of each edition. */
enum {
    NONE = UNDIVARRO_NO_DAMAGE, SHORT = UNDIVARRO_TOO_SHORT, LONG = UNDIVARRO_TOO_LONG, SIZE = UNDIVARRO_SIZE_DIFFERS,
    CHECKSUM = UNDIVARRO_CHECKSUM_WRONG
};

struct limit {
    const char *name;
    size_t from, to;                    /* the count of bytes */
    unsigned size, xor;
    uint32_t damage[EDITIONS];          /* by 1.85, by 2.01 */
};

static const struct limit limits[] = {
    {"no bytes", 0, 0, ANY_SIZE, ANY_XOR, {NONE, NONE}},
    {"1 byte, size 1", 1, 1, RIGHT, ANY_XOR, {SHORT, SHORT}},
    {"1 byte, another size", 1, 1, WRONG, ANY_XOR, {SHORT, SHORT}},
    {"2 bytes, size 2, XOR 0", 2, 2, RIGHT, ZERO, {SHORT, SHORT}},
    {"2 bytes, another size", 2, 2, WRONG, ANY_XOR, {SHORT, SHORT}},
    {"3 bytes, size 3, XOR 0", 3, 3, RIGHT, ZERO, {NONE, SHORT}},
    {"3 bytes, size 3, XOR not 0", 3, 3, RIGHT, NOT_ZERO, {CHECKSUM, SHORT}},
    {"3 bytes, another size, XOR 0", 3, 3, WRONG, ZERO, {SIZE, SHORT}},
    {"3 bytes, another size, XOR not 0", 3, 3, WRONG, NOT_ZERO, {SIZE, SHORT}},
    {"4 bytes, size 4, XOR 0", 4, 4, RIGHT, ZERO, {NONE, NONE}},
    {"4 bytes, size 4, XOR not 0", 4, 4, RIGHT, NOT_ZERO, {CHECKSUM, CHECKSUM}},
    {"4 bytes, another size, XOR 0", 4, 4, WRONG, ZERO, {SIZE, SIZE}},
    {"4 bytes, another size, XOR not 0", 4, 4, WRONG, NOT_ZERO, {SIZE, SIZE}},
    {"5 to 39 bytes, size right, XOR 0", 5, 39, RIGHT, ZERO, {NONE, NONE}},
    {"5 to 39 bytes, size right, XOR not 0", 5, 39, RIGHT, NOT_ZERO, {CHECKSUM, CHECKSUM}},
    {"5 to 39 bytes, size below, XOR 0", 5, 39, BELOW, ZERO, {SIZE, SIZE}},
    {"5 to 39 bytes, size below, XOR not 0", 5, 39, BELOW, NOT_ZERO, {SIZE, SIZE}},
    {"5 to 39 bytes, size above, XOR 0", 5, 39, ABOVE, ZERO, {SIZE, SIZE}},
    {"5 to 39 bytes, size above, XOR not 0", 5, 39, ABOVE, NOT_ZERO, {SIZE, SIZE}},
    {"40 bytes, size 40, XOR 0", 40, 40, RIGHT, ZERO, {NONE, NONE}},
    {"40 bytes, size 40, XOR not 0", 40, 40, RIGHT, NOT_ZERO, {CHECKSUM, CHECKSUM}},
    {"40 bytes, another size, XOR 0", 40, 40, WRONG, ZERO, {SIZE, SIZE}},
    {"40 bytes, another size, XOR not 0", 40, 40, WRONG, NOT_ZERO, {SIZE, SIZE}},
    {"41 bytes, size 41, XOR 0", 41, 41, RIGHT, ZERO, {LONG, LONG}},
    {"41 bytes, size 41, XOR not 0", 41, 41, RIGHT, NOT_ZERO, {LONG, LONG}},
    {"41 bytes, another size, XOR 0", 41, 41, WRONG, ZERO, {LONG, LONG}},
    {"41 bytes, another size, XOR not 0", 41, 41, WRONG, NOT_ZERO, {LONG, LONG}},
    /* empty or intact to one who counts in 8 bits or in 16 */
    {"256 bytes", 256, 256, ANY_SIZE, ANY_XOR, {LONG, LONG}},
    {"256 + 4 to 256 + 40 bytes, size 4 to 40, XOR 0", 260, 296, RIGHT, ZERO, {LONG, LONG}},
    {"65,536 bytes", 65536, 65536, ANY_SIZE, ANY_XOR, {LONG, LONG}},
    {"65,536 + 4 to 65,536 + 40 bytes, size 4 to 40, XOR 0", 65540, 65576, RIGHT, ZERO, {LONG, LONG}},
};
_Static_assert(sizeof limits / sizeof limits[0] == LIMITS, "one count for each limit");

const char *limit_name(unsigned limit)
{
    return limits[limit].name;
}

uint32_t limit_damage(unsigned limit, unsigned edition)
{
    return limits[limit].damage[edition];
}

static unsigned first_byte_of(const struct test_case *c)
{
    uint8_t count = (uint8_t)c->burst_len;
    if (c->burst_len == 0 || c->burst[0] == count)
        return RIGHT;
    return c->burst[0] < count ? BELOW : ABOVE;
}

static void count_limits(struct damages *d, const struct test_case *c, uint32_t damage)
{
    unsigned size = first_byte_of(c), xor = xor_of(c->burst, c->burst_len) == 0 ? ZERO : NOT_ZERO;
    for (unsigned i = 0; i < LIMITS; i++) {
        const struct limit *l = &limits[i];
        d->at_limit[i] += c->burst_len >= l->from && c->burst_len <= l->to && (size & l->size) && (xor & l->xor)
            && damage == l->damage[c->line - editions];
    }
}

/* A burst that is shorter than a packet's head has nothing to be answered by. */
static void count_answer(unsigned long *met, const struct test_case *c, const struct trial *t)
{
    if (t->result.answer_len > 0)
        met[WAY_NACK] += control_of(c, t) == NACK;
    else if (c->burst_len >= c->line->head)
        met[group_in(c->line, c->burst) != 0 ? WAY_OTHER_GROUP : WAY_NO_PANEL]++;
}

/* Told on a wall without panels. */
uint32_t damage_on(uint32_t edition, const struct test_case *c)
{
    static const uint8_t no_panels[] = {0, 2};
    uint8_t answer[UNDIVARRO_ANSWER_CAP], out[sizeof no_panels];
    return plain_play_on(edition, no_panels, sizeof no_panels, c->burst, c->burst_len, answer, sizeof answer, out, sizeof out)
        .damage;
}

void count_damage(struct damages *d, const struct test_case *c, const struct trial *by_plain)
{
    struct undivarro_result r = by_plain->result;
    if (r.refusal) {
        enum way way = r.refusal == 19 ? WAY_NO_ROOM : WAY_IMAGE_REFUSED;
        d->met[damage_on(c->edition, c)][way] += r.damage == UNDIVARRO_NO_DAMAGE;
        return;
    }
    d->told[r.damage]++;
    count_limits(d, c, r.damage);
    if (r.damage)
        count_answer(d->met[r.damage], c, by_plain);
}
