/* The papers' words for the settings, the profiles, the kinds, the answers, the damages of a burst and the refusals. */
#ifndef NAMES_H
#define NAMES_H

#include <stdbool.h>
#include <stdint.h>

enum { POWER, TILING, VIDEO, COLOUR_TEMPERATURE, AUDIO, FAN, COLD_START, APM, POWER_SAVING, SETTINGS };
enum { MAX_VALUES = 7 };
enum { OFF = 1, ON = 2 };               /* power */
enum { ACK = 0x06, NACK = 0x15, NAV = 0x18 };

struct setting {
    const char *name;
    uint8_t set_code, get_code;
    uint8_t count;                      /* of its values */
    const char *value_names[MAX_VALUES];        /* NULL where a value goes by the setting's name */
};

extern const struct setting settings[SETTINGS];

/* The setting that has this set code or get code, or NULL. */
const struct setting *setting_of(uint8_t code);

/* The word of value i of the setting, or NULL where it is a number. */
const char *value_word(const struct setting *setting, unsigned i, uint8_t value);

/* Value i of the setting is the tint, which has a sign on a Phoenix panel. */
bool is_tint(const struct setting *setting, unsigned i);

/* Value i of the setting is the byte of tiling's wall. */
bool is_wall(const struct setting *setting, unsigned i);

const char *profile_name(uint8_t profile);

/* Also the word for it in what `rig new` is given. */
const char *kind_name(uint8_t kind);

/* What was wrong with a burst. */
const char *damage_name(uint32_t damage);

/* What a refusal of the library means. */
const char *refusal_words(uint32_t refusal);

#endif
