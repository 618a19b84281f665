/* The box in plain C, written from documents 01 and 02 alone; the sections are named as in 01. Its parts are headers, so
 * that it is compiled in one piece, as the library is: compiled apart, make bench has other figures. */
#include "plain.h"

#include <stdbool.h>
#include <string.h>

#include "plain_image.h"
#include "plain_panels.h"
#include "plain_salvage.h"

/* Packet and burst */

/* The bytes before a packet's data, by the edition of its line (02's A11): size and ID, in 2.01 the group too. A damaged
 * burst needs as many for its NACK. */
enum { HEAD_1_85 = 2, HEAD_2_01 = 3, MAX_PACKET = 40 };
enum { ACK = 0x06, NACK = 0x15, NAV = 0x18 };

static uint8_t xor_of(const uint8_t *bytes, size_t len)
{
    uint8_t sum = 0;
    for (size_t i = 0; i < len; i++)
        sum ^= bytes[i];
    return sum;
}

/* 0 for an edition that is unknown. */
static size_t head_of(uint32_t edition)
{
    return edition == UNDIVARRO_SICP_1_85 ? HEAD_1_85 : edition == UNDIVARRO_SICP_2_01 ? HEAD_2_01 : 0;
}

static uint8_t group_in(const uint8_t *burst, size_t head)
{
    return head == HEAD_2_01 ? burst[2] : 0;
}

static uint32_t damage_of(const uint8_t *burst, size_t len, size_t head)
{
    if (len == 0)
        return UNDIVARRO_NO_DAMAGE;
    if (len < head + 1)                 /* the checksum is behind it */
        return UNDIVARRO_TOO_SHORT;
    if (len > MAX_PACKET)
        return UNDIVARRO_TOO_LONG;
    if (burst[0] != len)
        return UNDIVARRO_SIZE_DIFFERS;
    return xor_of(burst, len) == 0 ? UNDIVARRO_NO_DAMAGE : UNDIVARRO_CHECKSUM_WRONG;
}

/* An answer packet from the panel: the first data byte, then the rest. Its length. */
static size_t write_answer(uint8_t *answer, size_t head, uint8_t id, uint8_t first, const uint8_t *rest, size_t rest_len)
{
    size_t len = head + 1 + rest_len + 1;
    answer[0] = (uint8_t)len;
    answer[1] = id;
    if (head == HEAD_2_01)
        answer[2] = 0;
    answer[head] = first;
    memcpy(answer + head + 1, rest, rest_len);
    answer[len - 1] = xor_of(answer, len - 1);
    return len;
}

static size_t write_control(uint8_t *answer, size_t head, uint8_t id, uint8_t control)
{
    return write_answer(answer, head, id, 0x00, &control, 1);
}

/* Who is addressed */

static bool is_addressed(const struct panel *panel, uint8_t id, uint8_t group)
{
    if (group == 0)
        return id == 0 || panel->id == id;
    return group != GROUP_OFF && panel->group == group;
}

/* Power off to a panel that is off: 02's A5. */
static bool is_off_already(const struct panel *panel, const struct field *f, const uint8_t *values)
{
    return f == &fields[POWER] && values[0] == POWER_OFF && panel->values[f->place] == POWER_OFF;
}

/* Stores the set in each addressed panel whose profile allows it; whether the answering panel takes it. A panel that is off
 * already refuses, but in the answer alone: what is stored there is what it has. */
static bool store(struct wall *wall, uint8_t id, uint8_t group, const struct field *f, const uint8_t *values,
                  const struct panel *answering)
{
    bool allowed[PROFILES];
    for (uint8_t profile = 0; profile < PROFILES; profile++)
        allowed[profile] = all_allowed(f, profile, values);
    bool taken = answering && allowed[answering->profile] && !is_off_already(answering, f, values);
    for (size_t i = 0; i < wall->count; i++) {
        struct panel *panel = &wall->panels[i];
        if (allowed[panel->profile] && is_addressed(panel, id, group))
            take(panel, f, values);
    }
    return taken;
}

/* The same of a tiling, which each panel judges by its kind and by the wall that it has; whether one takes it, as the
 * answering panel is addressed alone. */
static bool store_tiling(struct wall *wall, uint8_t id, uint8_t group, const uint8_t *values)
{
    bool taken = false;
    for (size_t i = 0; i < wall->count; i++) {
        struct panel *panel = &wall->panels[i];
        if (!is_addressed(panel, id, group) || !tiling_allowed(panel, values))
            continue;
        take_tiling(panel, values);
        taken = true;
    }
    return taken;
}

/* Answering a burst: the length of the answer. answer has room for 40 bytes. */
static size_t answer_burst(struct wall *wall, size_t head, const uint8_t *burst, size_t len, uint32_t damage, uint8_t *answer)
{
    if (len == 0)
        return 0;
    if (damage) {
        if (len < head || group_in(burst, head) != 0 || !panel_with_id(wall, burst[1]))
            return 0;
        return write_control(answer, head, burst[1], NACK);
    }

    uint8_t id = burst[1], group = group_in(burst, head);
    /* Answers are due only where one panel is meant by its ID. */
    struct panel *answering = group == 0 && id != 0 ? panel_with_id(wall, id) : NULL;

    const uint8_t *data = burst + head;
    size_t data_len = len - head - 1;
    const struct field *f;
    if (data_len == 1 && (f = setting_by_get_code(data[0])))
        return answering ? write_answer(answer, head, id, f->get_code, answering->values + f->place, f->count) : 0;
    bool taken = false;
    if (data_len > 1 && (f = setting_by_set_code(data[0])) && data_len - 1 == f->count)
        taken = f == &fields[TILING] ? store_tiling(wall, id, group, data + 1)
                                     : store(wall, id, group, f, data + 1, answering);
    return answering ? write_control(answer, head, id, taken ? ACK : NAV) : 0;
}

/* For C */

static struct undivarro_result refused(uint32_t refusal)
{
    return (struct undivarro_result){.refusal = refusal};
}

/* The wall written in the form, or 19. */
static struct undivarro_result written(const struct wall *wall, uint8_t form, uint8_t *out, size_t out_cap)
{
    size_t len = image_len_of(wall, form);
    if (out_cap < len)
        return refused(19);
    write_image(wall, form, out);
    return (struct undivarro_result){.image_len = len};
}

struct undivarro_result plain_play_on(uint32_t edition,
                                      const uint8_t *image, size_t image_len,
                                      const uint8_t *burst, size_t burst_len,
                                      uint8_t *answer, size_t answer_cap,
                                      uint8_t *out, size_t out_cap)
{
    struct wall wall;
    uint32_t refusal = read_image(image, image_len, &wall);
    if (refusal)
        return refused(refusal);
    if (answer_cap < UNDIVARRO_ANSWER_CAP || out_cap < image_len_of(&wall, FORM_2))
        return refused(19);
    size_t head = head_of(edition);
    if (head == 0)
        return refused(23);

    uint32_t damage = damage_of(burst, burst_len, head);
    size_t answer_len = answer_burst(&wall, head, burst, burst_len, damage, answer);
    write_image(&wall, FORM_2, out);
    return (struct undivarro_result){
        .damage = damage,
        .answer_len = answer_len,
        .image_len = image_len_of(&wall, FORM_2),
    };
}

struct undivarro_result plain_play(const uint8_t *image, size_t image_len,
                                   const uint8_t *burst, size_t burst_len,
                                   uint8_t *answer, size_t answer_cap,
                                   uint8_t *out, size_t out_cap)
{
    return plain_play_on(UNDIVARRO_SICP_2_01, image, image_len, burst, burst_len, answer, answer_cap, out, out_cap);
}

/* A list has a byte that counts a burst's bytes, and then these, again and again (02's A9). How many bursts it has; false
 * where it stops inside one. */
static bool count_bursts(const uint8_t *list, size_t len, size_t *count)
{
    *count = 0;
    for (size_t at = 0; at < len; at += 1u + list[at]) {
        if (len - at - 1 < list[at])
            return false;
        ++*count;
    }
    return true;
}

/* All of the list on one wall; the length of the answers, each with its own in front. */
static size_t answer_list(struct wall *wall, size_t head, const uint8_t *list, size_t len, uint8_t *answers)
{
    uint8_t *to = answers;
    for (const uint8_t *at = list; at < list + len; at += 1u + *at) {
        size_t answer_len = answer_burst(wall, head, at + 1, *at, damage_of(at + 1, *at, head), to + 1);
        *to = (uint8_t)answer_len;
        to += 1 + answer_len;
    }
    return (size_t)(to - answers);
}

struct undivarro_result plain_batch_on(uint32_t edition,
                                       const uint8_t *image, size_t image_len,
                                       const uint8_t *list, size_t list_len,
                                       uint8_t *answers, size_t answers_cap,
                                       uint8_t *out, size_t out_cap)
{
    struct wall wall;
    size_t count;
    uint32_t refusal = read_image(image, image_len, &wall);
    if (refusal)
        return refused(refusal);
    if (out_cap < image_len_of(&wall, FORM_2))
        return refused(19);
    size_t head = head_of(edition);
    if (head == 0)
        return refused(23);
    if (!count_bursts(list, list_len, &count))
        return refused(32);
    if (answers_cap / UNDIVARRO_BATCH_CAP < count)
        return refused(33);

    size_t answers_len = answer_list(&wall, head, list, list_len, answers);
    struct undivarro_result result = written(&wall, FORM_2, out, out_cap);
    result.answer_len = answers_len;
    return result;
}

struct undivarro_result plain_batch(const uint8_t *image, size_t image_len,
                                    const uint8_t *list, size_t list_len,
                                    uint8_t *answers, size_t answers_cap,
                                    uint8_t *out, size_t out_cap)
{
    return plain_batch_on(UNDIVARRO_SICP_2_01, image, image_len, list, list_len, answers, answers_cap, out, out_cap);
}

struct undivarro_result plain_read(const uint8_t *image, size_t image_len,
                                   uint8_t *out, size_t out_cap)
{
    struct wall wall;
    uint32_t refusal = read_image(image, image_len, &wall);
    return refusal ? refused(refusal) : written(&wall, FORM_2, out, out_cap);
}

struct undivarro_result plain_back(const uint8_t *image, size_t image_len,
                                   uint8_t *out, size_t out_cap)
{
    struct wall wall;
    uint32_t refusal = read_image(image, image_len, &wall);
    if (refusal)
        return refused(refusal);
    for (size_t i = 0; i < wall.count; i++)
        if (!fits_form_1(&wall.panels[i]))
            return refused(31);
    return written(&wall, FORM_1, out, out_cap);
}

struct undivarro_result plain_salvage(const uint8_t *image, size_t image_len,
                                      uint8_t *lines, size_t lines_cap,
                                      uint8_t *out, size_t out_cap)
{
    struct wall wall;
    struct lines told;
    uint32_t refusal = salvage_image(image, image_len, &wall, &told);
    if (refusal)
        return refused(refusal);
    if (lines_cap < UNDIVARRO_LINES_CAP)
        return refused(19);
    struct undivarro_result result = written(&wall, FORM_2, out, out_cap);
    if (!result.refusal) {
        memcpy(lines, told.text, told.len);
        result.answer_len = told.len;
    }
    return result;
}
