/* The editions of SICP that a line may be set to, and the packets that they have. */
#ifndef EDITION_H
#define EDITION_H

#include <stdbool.h>
#include <stddef.h>
#include <stdint.h>

enum { SICP_1_85, SICP_2_01, EDITIONS, USUAL_EDITION = SICP_2_01 };

/* A packet is size, ID, in 2.01 the group, data, checksum. */
struct edition {
    const char *name;
    uint32_t number;                    /* the library's */
    size_t head;                        /* bytes before the data */
};

extern const struct edition editions[EDITIONS];

/* NULL where there is none. */
const struct edition *edition_by_name(const char *name);
const struct edition *edition_by_number(uint32_t number);

bool has_group(const struct edition *edition);

/* One without data. */
size_t shortest_packet(const struct edition *edition);

/* Of a burst that has a packet's head; 0 where the edition has no group. */
uint8_t group_in(const struct edition *edition, const uint8_t *burst);

/* What a packet says. */
struct packet {
    uint8_t id, group;
    const uint8_t *data;
    size_t len;                         /* of the data */
};

/* Of an intact burst, or of an answer. */
struct packet read_packet(const struct edition *edition, const uint8_t *burst, size_t len);

#endif
