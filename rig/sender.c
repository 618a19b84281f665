#define _GNU_SOURCE

#include "sender.h"

#include <errno.h>
#include <poll.h>
#include <string.h>
#include <unistd.h>

#include "clock.h"

/* False where there is none in that time. */
static bool wait_for_room(const struct device *device, int64_t time)
{
    struct timespec left = span(time);
    return time > 0 && ppoll(&(struct pollfd){device->fd, POLLOUT, 0}, 1, &left, NULL) >= 0;
}

/* How many of the bytes the line takes until the end; where not all, errno is EAGAIN, or says why it takes none any more. */
static size_t put(struct sender *sender, const struct device *device, int64_t end, const uint8_t *bytes, size_t len)
{
    size_t done = 0;
    while (done < len) {
        ssize_t took = write(device->fd, bytes + done, len - done);
        if (took > 0) {
            done += (size_t)took;
            sender->stuck = false;
        } else if (took < 0 && errno != EAGAIN) {
            break;
        } else if (sender->stuck || !wait_for_room(device, end - now())) {
            sender->stuck = true;
            errno = EAGAIN;
            break;
        }
    }
    return done;
}

static void set_rest(struct sender *sender, const uint8_t *bytes, size_t len)
{
    memmove(sender->rest, bytes, len);
    sender->rest_len = len;
}

enum sent send_answer(struct sender *sender, const struct device *device, const uint8_t *bytes, size_t len)
{
    int64_t end = now() + time_for(device, sender->rest_len + len);
    size_t done = put(sender, device, end, sender->rest, sender->rest_len);
    set_rest(sender, sender->rest + done, sender->rest_len - done);
    done = sender->rest_len == 0 ? put(sender, device, end, bytes, len) : 0;
    if (done == len)
        return SENT;
    if (errno != EAGAIN)
        return NO_LINE;
    if (done == 0)
        return DROPPED;
    set_rest(sender, bytes + done, len - done);
    return BEGUN;
}
