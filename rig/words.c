#include "words.h"

#include "checksum.h"
#include "names.h"
#include "tiling.h"
#include "undivarro.h"

enum { CONTROL = 0x00 };

static const char *plural(size_t count)
{
    return count == 1 ? "" : "s";
}

/* A burst does not say of which kind a panel is, so each kind's reading is told where they differ. */
static void say_wall(FILE *to, uint8_t byte)
{
    struct size small = wall_of(UNDIVARRO_5_BY_5, byte), large = wall_of(UNDIVARRO_15_BY_10, byte);
    if (byte == 0)
        fputs("as it is", to);
    else if (large.width == 0)
        fputs("of no panel", to);
    else if (small.width == large.width && small.height == large.height)
        fprintf(to, "%u wide %u high", large.width, large.height);
    else if (small.width == 0)
        fprintf(to, "%u wide %u high on 15x10", large.width, large.height);
    else
        fprintf(to, "%u wide %u high on 5x5 or %u wide %u high on 15x10", small.width, small.height, large.width,
                large.height);
    fprintf(to, " (byte %02X)", byte);
}

static void say_value(FILE *to, const struct setting *setting, unsigned i, uint8_t value)
{
    const char *word = value_word(setting, i, value);
    if (setting->value_names[i])
        fprintf(to, "%s ", setting->value_names[i]);
    if (word)
        fputs(word, to);
    else if (is_tint(setting, i) && value > 127)
        fprintf(to, "%d (byte %02X)", (int8_t)value, value);
    else if (is_wall(setting, i))
        say_wall(to, value);
    else
        fprintf(to, "%u", value);
}

static void say_setting(FILE *to, const struct setting *setting, const uint8_t *values)
{
    fputs(setting->name, to);
    for (unsigned i = 0; i < setting->count; i++) {
        fputs(i > 0 ? ", " : " ", to);
        say_value(to, setting, i, values[i]);
    }
}

static void say_data(FILE *to, const uint8_t *data, size_t len)
{
    if (len == 0) {
        fputs("no data", to);
        return;
    }
    const struct setting *setting = setting_of(data[0]);
    size_t given = len - 1;
    if (!setting) {
        fprintf(to, "unknown code %02X", data[0]);
    } else if (data[0] == setting->get_code) {
        fprintf(to, "get %s", setting->name);
        if (given > 0)
            fprintf(to, " with %zu value%s, and a get has none", given, plural(given));
    } else if (given != setting->count) {
        fprintf(to, "set %s with %zu value%s, and it has %u", setting->name, given, plural(given), setting->count);
    } else {
        fputs("set ", to);
        say_setting(to, setting, data + 1);
    }
}

static void say_damage(FILE *to, const struct edition *edition, const uint8_t *burst, size_t len, uint32_t damage)
{
    fputs(damage_name(damage), to);
    switch (damage) {
    case UNDIVARRO_TOO_SHORT:
        fprintf(to, ", %zu byte%s and a packet has at least %zu", len, plural(len), shortest_packet(edition));
        break;
    case UNDIVARRO_TOO_LONG:
        fprintf(to, ", %zu bytes and a packet has at most 40", len);
        break;
    case UNDIVARRO_SIZE_DIFFERS:
        fprintf(to, ", the first byte says %u and %zu bytes came", burst[0], len);
        break;
    case UNDIVARRO_CHECKSUM_WRONG:
        fprintf(to, ", the last byte is %02X and the others give %02X", burst[len - 1], xor_of(burst, len - 1));
        break;
    }
}

static void say_packet(FILE *to, const struct edition *edition, const uint8_t *burst, size_t len)
{
    struct packet packet = read_packet(edition, burst, len);
    fprintf(to, "ID %u, ", packet.id);
    if (has_group(edition))
        fprintf(to, "group %u, ", packet.group);
    say_data(to, packet.data, packet.len);
}

void say_burst(FILE *to, const struct edition *edition, const uint8_t *burst, size_t len, uint32_t damage)
{
    if (edition != &editions[USUAL_EDITION])
        fprintf(to, "SICP %s, ", edition->name);
    if (damage != UNDIVARRO_NO_DAMAGE)
        say_damage(to, edition, burst, len, damage);
    else if (len == 0)
        fputs("no bytes", to);
    else
        say_packet(to, edition, burst, len);
}

static const char *control_name(uint8_t control)
{
    return control == ACK ? "ACK" : control == NACK ? "NACK" : "NAV";
}

static bool is_power_off(struct packet packet)
{
    return packet.len == 2 && packet.data[0] == settings[POWER].set_code && packet.data[1] == OFF;
}

void say_answer(FILE *to, const struct edition *edition, const uint8_t *burst, size_t burst_len, const uint8_t *answer,
                size_t len)
{
    if (len == 0) {
        fputs("silence", to);
        return;
    }
    struct packet packet = read_packet(edition, answer, len);
    if (packet.data[0] == CONTROL) {
        uint8_t control = packet.data[1];
        fprintf(to, "%s from panel %u", control_name(control), packet.id);
        /* NAV comes to intact bursts only, and to this one for no other reason. */
        if (control == NAV && is_power_off(read_packet(edition, burst, burst_len)))
            fputs(", which is off already", to);
    } else {
        fprintf(to, "report from panel %u, ", packet.id);
        say_setting(to, setting_of(packet.data[0]), packet.data + 1);
    }
}
