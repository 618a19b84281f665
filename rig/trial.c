#include "trial.h"

#include <string.h>

#include "one_by_one.h"

/* In the sanitized run a read or write of a guard byte is a fault at once. */
#ifdef __SANITIZE_ADDRESS__
#include <sanitizer/asan_interface.h>
#else
#define ASAN_POISON_MEMORY_REGION(at, len) ((void)(at), (void)(len))
#define ASAN_UNPOISON_MEMORY_REGION(at, len) ((void)(at), (void)(len))
#endif

static _Alignas(8) uint8_t image_area[GUARD + MAX_IMAGE_BYTES + GUARD];
static _Alignas(8) uint8_t burst_area[GUARD + MAX_BURST_BYTES + GUARD];
static _Alignas(8) uint8_t filled[AREA];        /* what answer and out hold before the call */

static void close_guards(uint8_t *area, size_t len, bool closed)
{
    if (closed) {
        ASAN_POISON_MEMORY_REGION(area, GUARD);
        ASAN_POISON_MEMORY_REGION(area + GUARD + len, GUARD);
    } else {
        ASAN_UNPOISON_MEMORY_REGION(area, GUARD);
        ASAN_UNPOISON_MEMORY_REGION(area + GUARD + len, GUARD);
    }
}

static void close_all(const struct test_case *c, struct trial *t, bool closed)
{
    close_guards(image_area, c->image_len, closed);
    close_guards(burst_area, c->burst_len, closed);
    close_guards(t->answer, c->answer_cap, closed);
    close_guards(t->out, c->out_cap, closed);
}

/* The bytes from..to of an area are as they were before the call. */
static bool as_before(const uint8_t *area, size_t from, size_t to)
{
    return memcmp(area + from, filled + from, to - from) == 0;
}

static const char *fault_of(const struct box *box, const struct test_case *c, const struct trial *t)
{
    struct undivarro_result r = t->result;
    if (memcmp(image_area + GUARD, c->image, c->image_len) != 0)
        return "the lent image was written to";
    if (memcmp(burst_area + GUARD, c->burst, c->burst_len) != 0)
        return "the lent burst or list was written to";
    if (r.refusal && (r.answer_len || r.image_len))
        return "a refusal with a length that is not 0";
    if (!c->line && !r.refusal)
        return "a number of no edition is taken for one";
    if (r.damage && (r.refusal || !is_play(c)))
        return "damage from a refusal, or from a call that plays no single burst";
    if (r.damage > UNDIVARRO_CHECKSUM_WRONG)
        return "a damage that the header does not name";
    if (r.answer_len > c->answer_cap || r.image_len > c->out_cap)
        return "a length above what was lent";
    if (!as_before(t->answer, 0, GUARD) || !as_before(t->out, 0, GUARD))
        return "a byte before a buffer was touched";
    if (!as_before(t->answer, GUARD + r.answer_len, GUARD + c->answer_cap + GUARD))
        return "a byte past the answer, the answers or the lines was touched";
    if (!as_before(t->out, GUARD + r.image_len, GUARD + c->out_cap + GUARD))
        return "a byte past the image was touched";
    return is_batch(c) && !r.refusal ? differs_one_by_one(box, c, t) : NULL;
}

struct lent {
    const uint8_t *image, *burst;
    uint8_t *answer, *out;
};

static struct undivarro_result call_box(const struct box *box, const struct test_case *c, struct lent l)
{
    switch (c->call) {
    case CALL_PLAY:
    case CALL_BATCH:
        return (c->call == CALL_PLAY ? box->play : box->batch)(l.image, c->image_len, l.burst, c->burst_len, l.answer,
                                                               c->answer_cap, l.out, c->out_cap);
    case CALL_PLAY_ON:
    case CALL_BATCH_ON:
        return (c->call == CALL_PLAY_ON ? box->play_on : box->batch_on)(c->edition, l.image, c->image_len, l.burst, c->burst_len,
                                                                        l.answer, c->answer_cap, l.out, c->out_cap);
    case CALL_SALVAGE:
        return box->salvage(l.image, c->image_len, l.answer, c->answer_cap, l.out, c->out_cap);
    default:
        return (c->call == CALL_READ ? box->read : box->back)(l.image, c->image_len, l.out, c->out_cap);
    }
}

void run_trial(const struct box *box, const struct test_case *c, struct trial *t)
{
    size_t answer_area = GUARD + c->answer_cap + GUARD, out_area = GUARD + c->out_cap + GUARD;
    size_t larger = answer_area > out_area ? answer_area : out_area;
    for (size_t i = 0; i < larger; i += 8)
        memcpy(filled + i, &c->fill, 8);
    memcpy(t->answer, filled, answer_area);
    memcpy(t->out, filled, out_area);
    memcpy(image_area + GUARD, c->image, c->image_len);
    memcpy(burst_area + GUARD, c->burst, c->burst_len);

    /* Where nothing is lent the pointer may be NULL. */
    bool null = c->fill & 1;
    struct lent lent = {
        .image = null && c->image_len == 0 ? NULL : image_area + GUARD,
        .burst = null && c->burst_len == 0 ? NULL : burst_area + GUARD,
        .answer = null && c->answer_cap == 0 ? NULL : t->answer + GUARD,
        .out = null && c->out_cap == 0 ? NULL : t->out + GUARD,
    };
    close_all(c, t, true);
    t->result = call_box(box, c, lent);
    close_all(c, t, false);
    t->fault = fault_of(box, c, t);
}

bool same_outcome(const struct test_case *c, const struct trial *a, const struct trial *b)
{
    return a->result.refusal == b->result.refusal && a->result.answer_len == b->result.answer_len
        && a->result.image_len == b->result.image_len && a->result.damage == b->result.damage
        && memcmp(a->answer, b->answer, GUARD + c->answer_cap + GUARD) == 0
        && memcmp(a->out, b->out, GUARD + c->out_cap + GUARD) == 0;
}

struct packet answer_of(const struct test_case *c, const struct trial *t)
{
    return read_packet(c->line, t->answer + GUARD, t->result.answer_len);
}

uint8_t control_of(const struct test_case *c, const struct trial *t)
{
    return t->result.answer_len > 0 ? answer_of(c, t).data[1] : SILENCE;
}

static uint64_t mix(uint64_t sum, uint64_t word)
{
    sum = (sum ^ word) * 0x9FB21C651E98DF25u;
    return sum ^ sum >> 32;
}

static uint64_t mix_bytes(uint64_t sum, const uint8_t *bytes, size_t len)
{
    for (size_t i = 0; i < len; i += 8) {
        uint64_t word = 0;
        for (size_t j = i; j < i + 8 && j < len; j++)
            word = word << 8 | bytes[j];
        sum = mix(sum, word);
    }
    return sum;
}

/* Guards and the bytes past the lengths are left to fault_of. */
uint64_t add_outcome(uint64_t sum, const struct trial *t)
{
    sum = mix(sum, (uint64_t)t->result.refusal << 32 | t->result.damage);
    sum = mix(sum, t->result.answer_len);
    sum = mix(sum, t->result.image_len);
    sum = mix_bytes(sum, t->answer + GUARD, t->result.answer_len);
    return mix_bytes(sum, t->out + GUARD, t->result.image_len);
}
