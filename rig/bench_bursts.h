/* The bursts that the benchmark plays. */
#ifndef BENCH_BURSTS_H
#define BENCH_BURSTS_H

#include "edition.h"
#include "undivarro.h"

/* A packet whose checksum is off by spoil; its length. */
size_t make_packet(const struct edition *edition, uint8_t id, uint8_t group, const uint8_t *data, size_t len, uint8_t spoil,
                   uint8_t *burst);

/* A night on a 2.01 line for the panels 1 to 32 in groups 1 to 4, as a list: gets and sets to one panel, to a group and to all,
 * of every setting, with values that change from round to round, and bursts that are damaged, empty or for nobody. */
enum { SCENE_BURSTS = 1000 };

struct scene {
    size_t len;
    uint8_t list[SCENE_BURSTS * (1 + UNDIVARRO_ANSWER_CAP)];
};

void make_scene(struct scene *scene);

#endif
