/* The lines that a salvage tells, and the records that they speak of. */
#ifndef TOLD_H
#define TOLD_H

#include <stddef.h>
#include <stdint.h>

struct told {
    unsigned record;                    /* from 1 */
    unsigned fault;
    uint8_t code;                       /* of 17 and 18 */
};

/* The line at the front of the text, which has one; its length with the line feed. */
size_t read_told(const uint8_t *text, struct told *line);

struct raw_record {
    const uint8_t *bytes;
    size_t len;                         /* at least 1 */
};

/* Record k, from 0, of an image that 11 to 15 let pass. */
struct raw_record raw_record(const uint8_t *image, size_t image_len, size_t k);

/* ID and group, in form 2 the profile too. */
size_t raw_head_len(uint8_t form);

/* Why 16 is told of a record: the first of these that holds, in 01's order. */
enum drop { DROP_SHORT, DROP_ID_0, DROP_GROUP_0, DROP_PROFILE, DROP_ID_SEEN };
enum drop why_dropped(struct raw_record record, uint8_t form);

#endif
