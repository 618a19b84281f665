/* The bursts that wait to be played: put in by the thread that reads the line, taken out by the one that plays them. */
#ifndef BURST_QUEUE_H
#define BURST_QUEUE_H

#include <pthread.h>
#include <stdbool.h>
#include <stddef.h>
#include <stdint.h>
#include <time.h>

enum { BURST_FRONT = 256, WAITING_BURSTS = 1024 };

struct burst {
    size_t len;                         /* 0: none; and where none were lost either, no more come from this device */
    struct timespec at;                 /* the time of day at its last byte */
    unsigned long lost;                 /* how many before it found no room */
    struct timespec lost_at;            /* the last of these */
    uint8_t front[BURST_FRONT];         /* its first bytes; those behind are counted and not kept */
};

struct burst_queue {
    pthread_mutex_t lock;
    int filled;                         /* an eventfd: something may have been put in */
    size_t first, count;
    unsigned long lost;                 /* since the last that found room */
    struct timespec lost_at;
    bool ended;
    struct burst bursts[WAITING_BURSTS];
};

/* False with errno. */
bool make_burst_queue(struct burst_queue *queue);

/* For the bursts of a device, until they end. */
void begin_bursts(struct burst_queue *queue);
void end_bursts(struct burst_queue *queue);

/* Never waits: a burst that finds no room is counted. */
void put_burst(struct burst_queue *queue, const struct burst *burst);

/* The first in the queue, or what stands for none. False where nothing is there yet. */
bool take_burst(struct burst_queue *queue, struct burst *burst);

#endif
