#include "editions.h"

#include "damages.h"
#include "walls.h"

const char *const edition_case_names[EDITION_CASES] = {
    "1.85: 2 bytes for a panel: NACK", "1.85: 2 bytes for no panel: silence", "1.85: 3 bytes, intact: NAV",
    "1.85: 3 bytes, intact, to all: silence", "1.85: damaged, the third byte is not 0: NACK", "1.85: damaged, ID 0: silence",
    "1.85: 37 bytes of data: NAV", "1.85: a get with a group byte of 0: NAV", "1.85: a set with a group byte of 0: NAV",
    "2.01: 2 bytes for a panel: silence", "2.01: 3 bytes that are intact on 1.85: too short",
    "2.01: a get without a group byte: no damage, silence", "2.01: a set without a group byte: no damage, silence",
    "23 with an intact burst", "23 with a damaged burst", "23 with no bytes", "23 for any other number",
};

static bool is_panel(const struct wall *wall, uint8_t id)
{
    for (size_t k = 0; k < wall->count; k++)
        if (record_at(wall->image, k)[ID_AT] == id)
            return true;
    return false;
}

static bool is_set(struct packet p)
{
    const struct setting *setting = p.len > 1 ? setting_of(p.data[0]) : NULL;
    return setting && p.data[0] == setting->set_code && p.len - 1 == setting->count;
}

static bool is_get(struct packet p)
{
    const struct setting *setting = p.len == 1 ? setting_of(p.data[0]) : NULL;
    return setting && p.data[0] == setting->get_code;
}

static void count_2_bytes(unsigned long *met, const struct test_case *c, uint8_t control)
{
    struct wall wall;
    bool old = !has_group(c->line), panel = read_wall(c, &wall) && is_panel(&wall, c->burst[1]);
    met[OLD_2_BYTES_NACK] += old && panel && control == NACK;
    met[OLD_2_BYTES_SILENCE] += old && !panel && control == SILENCE;
    met[NEW_2_BYTES] += !old && panel && control == SILENCE;
}

static void count_damaged(unsigned long *met, const struct test_case *c, uint8_t control)
{
    bool old = !has_group(c->line);
    if (c->burst_len == 2)
        count_2_bytes(met, c, control);
    if (c->burst_len < 3)
        return;
    met[OLD_THIRD_BYTE] += old && c->burst[2] != 0 && control == NACK;
    met[OLD_ID_0] += old && c->burst[1] == 0 && control == SILENCE;
    met[NEW_3_BYTES] += !old && c->burst_len == 3 && damage_on(UNDIVARRO_SICP_1_85, c) == UNDIVARRO_NO_DAMAGE;
}

/* A host that speaks the other edition: it means one thing, and the line hears another. */
static void count_other(unsigned long *met, const struct test_case *c, const struct trial *by_plain, uint8_t control)
{
    struct wall wall;
    if (!read_wall(c, &wall) || !is_after(&wall, by_plain))
        return;
    bool old = !has_group(c->line);
    struct packet meant = read_packet(&editions[old ? SICP_2_01 : SICP_1_85], c->burst, c->burst_len);
    if (old && meant.group == 0) {
        met[OLD_GET_OF_NEW] += is_get(meant) && control == NAV;
        met[OLD_SET_OF_NEW] += is_set(meant) && control == NAV;
    } else if (!old) {
        met[NEW_GET_OF_OLD] += is_get(meant) && control == SILENCE;
        met[NEW_SET_OF_OLD] += is_set(meant) && control == SILENCE;
    }
}

static void count_known(unsigned long *met, const struct test_case *c, const struct trial *by_plain)
{
    uint8_t control = control_of(c, by_plain);
    if (by_plain->result.damage) {
        count_damaged(met, c, control);
        return;
    }
    struct packet p = packet_of(c);
    bool old = !has_group(c->line);
    met[OLD_3_BYTES_NAV] += old && p.len == 0 && control == NAV;
    met[OLD_3_BYTES_TO_ALL] += old && p.len == 0 && p.id == 0 && control == SILENCE;
    met[OLD_37_BYTES] += old && p.len == 37 && control == NAV;
    if (c->burst_kind == BURST_OTHER_EDITION)
        count_other(met, c, by_plain, control);
}

/* Whatever number there is, the burst is one for both editions, or for neither. */
static void count_unknown(struct editions *e, const struct test_case *c)
{
    bool listed = false;
    for (unsigned i = 0; i < UNKNOWN_EDITIONS; i++) {
        e->number[i] += c->edition == unknown_editions[i];
        listed |= c->edition == unknown_editions[i];
    }
    e->met[UNKNOWN_ANY] += !listed;
    if (c->burst_len == 0)
        e->met[UNKNOWN_EMPTY]++;
    else if (damage_on(UNDIVARRO_SICP_2_01, c) == UNDIVARRO_NO_DAMAGE)
        e->met[UNKNOWN_INTACT]++;
    else if (damage_on(UNDIVARRO_SICP_1_85, c) != UNDIVARRO_NO_DAMAGE)
        e->met[UNKNOWN_DAMAGED]++;
}

void count_editions(struct editions *e, const struct test_case *c, const struct trial *by_plain)
{
    uint32_t refusal = by_plain->result.refusal;
    if (c->line && !refusal && c->burst_len > 0)
        count_known(e->met, c, by_plain);
    else if (!c->line && refusal == 23)
        count_unknown(e, c);
    else if (!c->line && refusal >= FIRST_BESIDE && refusal < FIRST_BESIDE + BESIDE)
        e->beside[refusal - FIRST_BESIDE]++;
}
