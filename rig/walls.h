/* The wall of a case as the counts of a comparison look at it: in form 2, as it is written. */
#ifndef WALLS_H
#define WALLS_H

#include "record.h"
#include "trial.h"

struct wall {
    size_t count;
    uint8_t image[UNDIVARRO_IMAGE_CAP];
};

/* The wall before the call; false where the image is refused. */
bool read_wall(const struct test_case *c, struct wall *wall);

const uint8_t *record_at(const uint8_t *image, size_t k);

/* The wall is the one that a call without a refusal has written. */
bool is_after(const struct wall *wall, const struct trial *t);

/* Of the case's burst, which is intact on its line. */
struct packet packet_of(const struct test_case *c);
enum whom { ONE, GROUP, ALL };
enum whom whom_of(const struct test_case *c);
bool is_addressed(const struct test_case *c, const uint8_t *record);

#endif
