#include "names.h"

#include <stddef.h>

#include "tiling.h"
#include "undivarro.h"

const struct setting settings[SETTINGS] = {
    [POWER] = {"power", 0x18, 0x19, 1, {0}},
    [TILING] = {"tiling", 0x22, 0x23, TILING_LEN,
                {[FRAME_COMPENSATION] = "frame compensation", [POSITION] = "position", [WALL_BYTE] = "wall"}},
    [VIDEO] = {"video", 0x32, 0x33, 7, {"brightness", "colour", "contrast", "sharpness", "tint", "black level", "gamma"}},
    [COLOUR_TEMPERATURE] = {"colour temperature", 0x34, 0x35, 1, {0}},
    [AUDIO] = {"audio", 0x42, 0x43, 2, {"treble", "bass"}},
    [FAN] = {"fan", 0x61, 0x62, 1, {0}},
    [COLD_START] = {"cold start", 0xA3, 0xA4, 1, {0}},
    [APM] = {"APM", 0xD0, 0xD1, 1, {0}},
    [POWER_SAVING] = {"power saving", 0xDD, 0xDE, 1, {0}},
};

const struct setting *setting_of(uint8_t code)
{
    for (const struct setting *s = settings; s < settings + SETTINGS; s++)
        if (s->set_code == code || s->get_code == code)
            return s;
    return NULL;
}

const char *value_word(const struct setting *setting, unsigned i, uint8_t value)
{
    static const char *const power_words[] = {[OFF] = "off", [ON] = "on"}, *const tiling_words[] = {"off", "on"};
    if (setting == &settings[POWER] && value <= ON)
        return power_words[value];
    return setting == &settings[TILING] && i <= FRAME_COMPENSATION && value <= 1 ? tiling_words[value] : NULL;
}

bool is_tint(const struct setting *setting, unsigned i)
{
    return setting == &settings[VIDEO] && i == 4;
}

bool is_wall(const struct setting *setting, unsigned i)
{
    return setting == &settings[TILING] && i == WALL_BYTE;
}

const char *profile_name(uint8_t profile)
{
    return profile == UNDIVARRO_PHOENIX ? "Phoenix" : "general";
}

const char *kind_name(uint8_t kind)
{
    return kind == UNDIVARRO_15_BY_10 ? "15x10" : "5x5";
}

const char *damage_name(uint32_t damage)
{
    switch (damage) {
    case UNDIVARRO_NO_DAMAGE:
        return "none";
    case UNDIVARRO_TOO_SHORT:
        return "too short";
    case UNDIVARRO_TOO_LONG:
        return "too long";
    case UNDIVARRO_SIZE_DIFFERS:
        return "size differs from the count";
    case UNDIVARRO_CHECKSUM_WRONG:
        return "checksum wrong";
    default:
        return "not a number of the header";
    }
}

const char *refusal_words(uint32_t refusal)
{
    switch (refusal) {
    case 11:
        return "image: fewer than 2 bytes";
    case 12:
        return "image: last byte is neither 1 nor 2";
    case 13:
        return "image: panel count above 32";
    case 14:
        return "image: shorter than 2n + 2 bytes";
    case 15:
        return "image: starts don't fit";
    case 16:
        return "record: under 2 bytes, in form 2 under 3, ID 0, group 0, ID seen before, or an unknown profile";
    case 17:
        return "field: not a set code of its form (a get code isn't one), or seen before in this record, a kind behind the "
               "tiling, length wrong, or cut off";
    case 18:
        return "field: value not allowed";
    case 19:
        return "lent output too short: image under 45n + 2 bytes, in form 1 under 35n + 2, answer or packet under 40";
    case 23:
        return "edition: neither 1.85 nor 2.01";
    case 31:
        return "writing form 1 while a panel is Phoenix or 15x10, or has a tiling that is not fresh";
    case 32:
        return "list: stops inside a burst";
    case 33:
        return "lent output too short: answers under 41 bytes for each burst";
    default:
        return "not a number of the table";
    }
}
