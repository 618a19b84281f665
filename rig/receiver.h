/* The bursts of a line: the bytes between two gaps of quiet. A thread of its own reads the device, so that a gap counts also
 * while the box is busy with the burst before. */
#ifndef RECEIVER_H
#define RECEIVER_H

#include <pthread.h>
#include <signal.h>
#include <stdbool.h>
#include <stdint.h>

#include "burst_queue.h"

struct receiver {
    int64_t quiet;                      /* nanoseconds */
    int device;
    int stop[2];                        /* a pipe */
    pthread_t thread;
    struct burst_queue queue;
};

/* Each is false with errno. A receiver is made once, and started for a device that was opened. */
bool make_receiver(struct receiver *receiver, int64_t quiet);
bool start_receiver(struct receiver *receiver, int device);

/* The next burst; false where a signal came first, of those that are let in while it waits. Where no more come, because the
 * device is gone or because of stop_receiver, the receiver has ended. */
bool next_burst(struct receiver *receiver, const sigset_t *while_waiting, struct burst *burst);

/* Ends it between two bursts: one that has begun is taken to its end, unless it is over 40 bytes and so no packet. */
void stop_receiver(struct receiver *receiver);

#endif
