/* The answers on their way to a line. */
#ifndef SENDER_H
#define SENDER_H

#include <stdbool.h>
#include <stddef.h>
#include <stdint.h>

#include "device.h"
#include "undivarro.h"

struct sender {
    bool stuck;                         /* the line took no more in time, and nothing since */
    size_t rest_len;                    /* of an answer that had begun: whole packets alone go out */
    uint8_t rest[UNDIVARRO_ANSWER_CAP];
};

enum sent {
    SENT,
    DROPPED,                            /* none of it was taken in time */
    BEGUN,                              /* a part was: the rest goes out in front of the next answer */
    NO_LINE                             /* the device is gone */
};

/* Waits for a line that takes no more as long as a host waits before it asks again (time_for), but not for one that is stuck. */
enum sent send_answer(struct sender *sender, const struct device *device, const uint8_t *bytes, size_t len);

#endif
