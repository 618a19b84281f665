#define _GNU_SOURCE

#include "burst_queue.h"

#include <sys/eventfd.h>

bool make_burst_queue(struct burst_queue *queue)
{
    pthread_mutex_init(&queue->lock, NULL);
    queue->first = queue->count = 0;
    queue->lost = 0;
    queue->filled = eventfd(0, EFD_CLOEXEC | EFD_NONBLOCK);
    return queue->filled >= 0;
}

/* Something was put in, and the lock is given back. */
static void give_back(struct burst_queue *queue)
{
    pthread_mutex_unlock(&queue->lock);
    eventfd_write(queue->filled, 1);
}

void begin_bursts(struct burst_queue *queue)
{
    queue->ended = false;
}

void end_bursts(struct burst_queue *queue)
{
    pthread_mutex_lock(&queue->lock);
    queue->ended = true;
    give_back(queue);
}

void put_burst(struct burst_queue *queue, const struct burst *burst)
{
    pthread_mutex_lock(&queue->lock);
    if (queue->count == WAITING_BURSTS) {
        queue->lost++;
        queue->lost_at = burst->at;
    } else {
        struct burst *place = &queue->bursts[(queue->first + queue->count++) % WAITING_BURSTS];
        *place = *burst;
        place->lost = queue->lost;
        place->lost_at = queue->lost_at;
        queue->lost = 0;
    }
    give_back(queue);
}

bool take_burst(struct burst_queue *queue, struct burst *burst)
{
    pthread_mutex_lock(&queue->lock);
    bool some = queue->count > 0 || queue->lost > 0 || queue->ended;
    if (queue->count > 0) {
        *burst = queue->bursts[queue->first];
        queue->first = (queue->first + 1) % WAITING_BURSTS;
        queue->count--;
    } else {
        *burst = (struct burst){.lost = queue->lost, .lost_at = queue->lost_at};
        queue->lost = 0;
    }
    pthread_mutex_unlock(&queue->lock);
    return some;
}
