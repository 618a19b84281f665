#include "case_values.h"

#include "case_tilings.h"
#include "undivarro.h"

enum { SHARPNESS_AT = 3, TINT_AT, GAMMA_AT = 6 };

struct choice {
    uint8_t count;
    uint8_t bytes[9];
};

static const struct {
    struct choice allowed, not_allowed;
} choices[SETTINGS] = {
    [POWER] = {{2, {1, 2}}, {3, {0, 3, 255}}},
    [TILING] = {{0}, {3, {151, 152, 255}}},             /* what is allowed is one whole: case_tilings.c */
    [VIDEO] = {{5, {0, 1, 50, 99, 100}}, {5, {101, 128, 206, 230, 255}}},
    [COLOUR_TEMPERATURE] = {{9, {0, 1, 3, 4, 5, 6, 9, 10, 13}}, {7, {2, 7, 8, 11, 12, 14, 255}}},
    [AUDIO] = {{5, {0, 1, 50, 99, 100}}, {5, {101, 128, 206, 230, 255}}},
    [FAN] = {{5, {0, 1, 2, 3, 4}}, {2, {5, 255}}},
    [COLD_START] = {{3, {0, 1, 2}}, {2, {3, 255}}},
    [APM] = {{4, {0, 1, 2, 3}}, {2, {4, 255}}},
    [POWER_SAVING] = {{4, {0, 1, 2, 3}}, {2, {4, 255}}},
};

/* The video bytes that have ranges of their own. */
static const struct choice gamma_allowed = {5, {1, 2, 3, 4, 5}}, gamma_not_allowed = {3, {0, 6, 255}};
static const struct choice phoenix_sharpness = {5, {0, 1, 5, 9, 10}}, not_phoenix_sharpness = {5, {11, 50, 100, 101, 255}};
static const struct choice phoenix_tint = {8, {0, 1, 49, 50, 206, 207, 254, 255}};
static const struct choice not_phoenix_tint = {7, {51, 52, 100, 127, 128, 204, 205}};

/* What one profile alone allows; Phoenix has nothing of its own but the tints below 0. */
static const struct choice general_sharpness_alone = {4, {11, 12, 99, 100}}, general_tint_alone = {4, {51, 52, 99, 100}};
static const struct choice phoenix_tint_alone = {5, {206, 207, 230, 254, 255}};

static uint8_t one_of(struct source *s, const struct choice *from)
{
    return from->bytes[below(s, from->count)];
}

static uint8_t value(struct source *s, unsigned setting, uint8_t profile, unsigned at, bool allowed)
{
    bool own = setting == VIDEO && profile == UNDIVARRO_PHOENIX;
    if (setting == VIDEO && at == GAMMA_AT)
        return one_of(s, allowed ? &gamma_allowed : &gamma_not_allowed);
    if (own && at == SHARPNESS_AT)
        return one_of(s, allowed ? &phoenix_sharpness : &not_phoenix_sharpness);
    if (own && at == TINT_AT)
        return one_of(s, allowed ? &phoenix_tint : &not_phoenix_tint);
    return one_of(s, allowed ? &choices[setting].allowed : &choices[setting].not_allowed);
}

void values(struct source *s, unsigned setting, uint8_t profile, uint8_t kind, uint8_t *to)
{
    if (setting == TILING)
        make_tiling(s, kind, to);
    else
        for (unsigned i = 0; i < settings[setting].count; i++)
            to[i] = value(s, setting, profile, i, true);
}

static unsigned place_to_spoil(struct source *s, unsigned setting)
{
    return setting == VIDEO && one_in(s, 2) ? SHARPNESS_AT + below(s, 2) : below(s, settings[setting].count);
}

void spoil_value(struct source *s, unsigned setting, uint8_t profile, uint8_t *to)
{
    unsigned at = place_to_spoil(s, setting);
    to[at] = one_in(s, 4) ? any_byte(s) : value(s, setting, profile, at, false);
}

void put_bad_value(struct source *s, unsigned setting, uint8_t profile, uint8_t *to)
{
    unsigned at = place_to_spoil(s, setting);
    to[at] = value(s, setting, profile, at, false);
}

void put_own_value(struct source *s, uint8_t profile, uint8_t *video)
{
    if (profile == UNDIVARRO_PHOENIX)
        video[TINT_AT] = one_of(s, &phoenix_tint_alone);
    else if (one_in(s, 2))
        video[SHARPNESS_AT] = one_of(s, &general_sharpness_alone);
    else
        video[TINT_AT] = one_of(s, &general_tint_alone);
}

uint8_t any_profile(struct source *s)
{
    return one_in(s, 2) ? UNDIVARRO_GENERAL : UNDIVARRO_PHOENIX;
}

uint8_t other_profile(uint8_t profile)
{
    return profile == UNDIVARRO_GENERAL ? UNDIVARRO_PHOENIX : UNDIVARRO_GENERAL;
}

uint8_t any_code(struct source *s)
{
    static const uint8_t near[] = {
        0x00, 0x01, 0x02, 0x17, 0x1A, 0x21, 0x24, 0x31, 0x36, 0x41, 0x44, 0x60, 0x63, 0xA2, 0xA5, 0xCF, 0xDC, 0xFF,
    };
    return one_in(s, 2) ? near[below(s, sizeof near)] : any_byte(s);
}
