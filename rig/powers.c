#include "powers.h"

#include "walls.h"

struct power_case {
    const char *name;
    enum whom to;                       /* a group or all are two panels or more */
    uint8_t value;
    uint8_t before;                     /* OFF | ON where some are off and some on */
    uint8_t control;
};

static const struct power_case power_cases[] = {
    {"off to a panel that is on: ACK, it is off", ONE, OFF, ON, ACK},
    {"off to a panel that is off: NAV, the wall as before", ONE, OFF, OFF, NAV},
    {"on to a panel that is off: ACK, it is on", ONE, ON, OFF, ACK},
    {"on to a panel that is on: ACK, the wall as before", ONE, ON, ON, ACK},
    {"off to a group, all on: silence, all off", GROUP, OFF, ON, SILENCE},
    {"off to a group, some off and some on: silence, all off", GROUP, OFF, OFF | ON, SILENCE},
    {"off to a group, all off: silence, the wall as before", GROUP, OFF, OFF, SILENCE},
    {"on to a group, some off and some on: silence, all on", GROUP, ON, OFF | ON, SILENCE},
    {"off to all, all on: silence, all off", ALL, OFF, ON, SILENCE},
    {"off to all, some off and some on: silence, all off", ALL, OFF, OFF | ON, SILENCE},
    {"off to all, all off: silence, the wall as before", ALL, OFF, OFF, SILENCE},
    {"on to all, some off and some on: silence, all on", ALL, ON, OFF | ON, SILENCE},
};
_Static_assert(sizeof power_cases / sizeof power_cases[0] == POWER_CASES, "one count for each case");

const char *power_case_name(unsigned i)
{
    return power_cases[i].name;
}

/* What the addressed panels have before, all together, and how many they are; they then have the value. */
static uint8_t set_power(const struct test_case *c, struct wall *wall, uint8_t value, size_t *panels)
{
    uint8_t before = 0;
    for (size_t k = 0; k < wall->count; k++)
        if (is_addressed(c, record_at(wall->image, k))) {
            uint8_t *power = wall->image + RECORD_LEN * k + POWER_AT;
            before |= *power;
            *power = value;
            ++*panels;
        }
    return before;
}

void count_power(unsigned long met[POWER_CASES], const struct test_case *c, const struct trial *by_plain)
{
    struct wall wall;
    if (c->burst_kind != BURST_SET_POWER || by_plain->result.refusal || !read_wall(c, &wall))
        return;
    uint8_t value = packet_of(c).data[1];
    size_t panels = 0;
    uint8_t before = set_power(c, &wall, value, &panels);
    enum whom to = whom_of(c);
    if (!is_after(&wall, by_plain) || (panels == 1) != (to == ONE))
        return;
    for (unsigned i = 0; i < POWER_CASES; i++) {
        const struct power_case *p = &power_cases[i];
        met[i] += to == p->to && value == p->value && before == p->before && control_of(c, by_plain) == p->control;
    }
}
