#include "one_by_one.h"

#include <string.h>

const char *differs_one_by_one(const struct box *box, const struct test_case *c, const struct trial *t)
{
    uint8_t images[2][UNDIVARRO_IMAGE_CAP], answer[UNDIVARRO_ANSWER_CAP];
    struct undivarro_result r = {0};
    const uint8_t *before = c->image, *told = t->answer + GUARD, *end = told + t->result.answer_len;
    size_t before_len = c->image_len;
    unsigned turn = 0;
    for (size_t at = 0; at < c->burst_len; at += 1u + c->burst[at]) {
        uint8_t *after = images[turn ^= 1];
        r = box->play_on(c->edition, before, before_len, c->burst + at + 1, c->burst[at], answer, sizeof answer, after,
                         sizeof images[0]);
        if (r.refusal)
            return "a burst of the list is refused by itself";
        if ((size_t)(end - told) < 1 + r.answer_len || told[0] != r.answer_len || memcmp(told + 1, answer, r.answer_len) != 0)
            return "an answer is not that of the bursts played one by one";
        told += 1 + r.answer_len;
        before = after;
        before_len = r.image_len;
    }
    if (c->burst_len == 0)
        r = box->read(c->image, c->image_len, images[turn], sizeof images[0]);
    if (told != end)
        return "more answers than bursts";
    if (r.image_len != t->result.image_len || memcmp(images[turn], t->out + GUARD, r.image_len) != 0)
        return "the wall is not that of the bursts played one by one";
    return NULL;
}
