#include "box.h"

uint32_t play_burst(const struct edition *edition, const struct setup *setup, const uint8_t *burst, size_t len,
                    struct reply *reply)
{
    struct undivarro_result r = undivarro_play_on(edition->number, setup->bytes, setup->len, burst, len, reply->answer,
                                                  sizeof reply->answer, reply->after.bytes, sizeof reply->after.bytes);
    reply->len = r.answer_len;
    reply->damage = r.damage;
    reply->after.len = r.image_len;
    return r.refusal;
}

uint32_t play_list(const struct edition *edition, const struct setup *setup, const uint8_t *list, size_t len, uint8_t *answers,
                   size_t answers_cap, struct setup *after)
{
    struct undivarro_result r = undivarro_batch_on(edition->number, setup->bytes, setup->len, list, len, answers, answers_cap,
                                                   after->bytes, sizeof after->bytes);
    after->len = r.image_len;
    return r.refusal;
}

/* A list's result has no damages. They go by the burst and the edition alone, so the library itself tells them of the burst
 * played on a wall without panels. */
uint32_t burst_damage(const struct edition *edition, const uint8_t *burst, size_t len)
{
    static const struct setup no_panels = {.len = 2, .bytes = {0, 2}};
    struct reply reply;
    play_burst(edition, &no_panels, burst, len, &reply);
    return reply.damage;
}
