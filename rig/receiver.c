#define _GNU_SOURCE

#include "receiver.h"

#include <errno.h>
#include <fcntl.h>
#include <poll.h>
#include <string.h>
#include <sys/eventfd.h>
#include <unistd.h>

#include "clock.h"

enum { READ_END, WRITE_END };
enum { MOST_OF_A_PACKET = 40 };

enum event { BYTES, QUIET, STOPPED };

/* Waits: without a burst for anything, within one until the quiet has lasted since its last bytes. */
static enum event next_event(const struct receiver *receiver, const struct burst *burst, int64_t last)
{
    bool packet = burst->len > 0 && burst->len <= MOST_OF_A_PACKET;
    struct pollfd fds[] = {{receiver->device, POLLIN, 0}, {packet ? -1 : receiver->stop[READ_END], POLLIN, 0}};
    int ready;
    do {
        struct timespec wait = span(last + receiver->quiet - now());
        ready = ppoll(fds, 2, burst->len > 0 ? &wait : NULL, NULL);
    } while (ready < 0);
    if (ready == 0)
        return QUIET;
    /* Bytes that are there came before the stop, but a line that never falls quiet does not put it off. */
    return fds[0].revents && !(burst->len > 0 && fds[1].revents) ? BYTES : STOPPED;
}

/* False where the device is gone. */
static bool take_bytes(int device, struct burst *burst)
{
    uint8_t bytes[1024];
    ssize_t got = read(device, bytes, sizeof bytes);
    if (got < 0)
        return errno == EAGAIN || errno == EINTR;
    if (burst->len < BURST_FRONT) {
        size_t room = BURST_FRONT - burst->len;
        memcpy(burst->front + burst->len, bytes, (size_t)got < room ? (size_t)got : room);
    }
    burst->len += (size_t)got;
    clock_gettime(CLOCK_REALTIME, &burst->at);
    return got > 0;
}

static void hand_on(struct receiver *receiver, struct burst *burst)
{
    put_burst(&receiver->queue, burst);
    burst->len = 0;
}

static void *receive(void *of)
{
    struct receiver *receiver = of;
    struct burst burst = {.len = 0};
    int64_t last = 0;
    enum event event;
    while ((event = next_event(receiver, &burst, last)) != STOPPED) {
        if (event == QUIET)
            hand_on(receiver, &burst);
        else if (take_bytes(receiver->device, &burst))
            last = now();
        else
            break;
    }
    if (event != STOPPED && burst.len > 0)      /* the line is quiet for good */
        hand_on(receiver, &burst);
    end_bursts(&receiver->queue);
    return NULL;
}

bool make_receiver(struct receiver *receiver, int64_t quiet)
{
    receiver->quiet = quiet;
    return make_burst_queue(&receiver->queue) && pipe2(receiver->stop, O_CLOEXEC) == 0;
}

/* No signal is the thread's. */
bool start_receiver(struct receiver *receiver, int device)
{
    sigset_t all, own;
    receiver->device = device;
    begin_bursts(&receiver->queue);
    sigfillset(&all);
    pthread_sigmask(SIG_SETMASK, &all, &own);
    errno = pthread_create(&receiver->thread, NULL, receive, receiver);
    pthread_sigmask(SIG_SETMASK, &own, NULL);
    return errno == 0;
}

bool next_burst(struct receiver *receiver, const sigset_t *while_waiting, struct burst *burst)
{
    while (!take_burst(&receiver->queue, burst)) {
        struct pollfd fd = {receiver->queue.filled, POLLIN, 0};
        if (ppoll(&fd, 1, NULL, while_waiting) < 0)
            return false;
        eventfd_read(receiver->queue.filled, &(eventfd_t){0});
    }
    if (burst->len == 0 && burst->lost == 0)
        pthread_join(receiver->thread, NULL);
    return true;
}

void stop_receiver(struct receiver *receiver)
{
    if (receiver->stop[WRITE_END] >= 0)
        close(receiver->stop[WRITE_END]);
    receiver->stop[WRITE_END] = -1;
}
