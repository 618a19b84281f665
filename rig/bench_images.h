/* The setup images that the benchmark plays on. */
#ifndef BENCH_IMAGES_H
#define BENCH_IMAGES_H

#include "undivarro.h"

enum { PANELS = UNDIVARRO_MAX_PANELS };

/* 32 fresh general 5 by 5 panels, all in group 9, as each form is written; and in form 2 with one of them in group 8, with eight
 * in each of the groups 1 to 4, and with eleven faults each. */
struct image {
    size_t len;
    uint8_t bytes[UNDIVARRO_IMAGE_CAP + PANELS];
};

extern struct image form_1, form_2, one_apart, four_groups, wreck;

void make_images(void);

#endif
