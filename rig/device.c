#define _DEFAULT_SOURCE

#include "device.h"

#include <errno.h>
#include <fcntl.h>
#include <poll.h>
#include <sys/ioctl.h>
#include <sys/sysmacros.h>
#include <unistd.h>

#include "clock.h"
#include "hold.h"

const unsigned baud_rates[BAUD_RATES] = {1200, 2400, 4800, 9600, 19200, 38400, 57600};

static const speed_t speeds[BAUD_RATES] = {B1200, B2400, B4800, B9600, B19200, B38400, B57600};

/* Its place among the rates, or BAUD_RATES. */
static size_t place_of(unsigned long rate)
{
    size_t k = 0;
    while (k < BAUD_RATES && baud_rates[k] != rate)
        k++;
    return k;
}

bool is_baud_rate(unsigned long rate)
{
    return place_of(rate) < BAUD_RATES;
}

/* 8N1 takes ten bits for a byte. */
enum { BITS_OF_A_BYTE = 10, ASKED_AGAIN_AFTER = 500 };  /* milliseconds */
/* How long what was in a device from before may take to come out, the gaps within it and in all; milliseconds. */
enum { OLD_GAP = 20, OLD_IN_ALL = 500 };

/* Every byte as it comes, without echo and flow control; eight bits, no parity, one stop bit; no modem lines. A device may
 * take a part of what it is given and say nothing, so it is asked what it has. */
static bool make_raw(int fd, struct termios wanted, speed_t speed)
{
    enum { FRAME = CSIZE | PARENB | CSTOPB };
    struct termios is;
    wanted.c_iflag = 0;
    wanted.c_oflag = 0;
    wanted.c_lflag = 0;
    wanted.c_cflag = CS8 | CREAD | CLOCAL;
    wanted.c_cc[VMIN] = 1;
    wanted.c_cc[VTIME] = 0;
    cfsetispeed(&wanted, speed);
    cfsetospeed(&wanted, speed);
    if (tcsetattr(fd, TCSANOW, &wanted) != 0 || tcgetattr(fd, &is) != 0)
        return false;
    errno = EINVAL;
    return (is.c_cflag & FRAME) == CS8 && cfgetispeed(&is) == speed && cfgetospeed(&is) == speed;
}

/* Their number. */
static size_t drop_old_bytes(int fd)
{
    uint8_t bytes[1024];
    size_t dropped = 0;
    ssize_t got = 1;
    int64_t end = now() + (int64_t)OLD_IN_ALL * MILLISECOND;
    while (got > 0 && now() < end && poll(&(struct pollfd){fd, POLLIN, 0}, 1, OLD_GAP) > 0) {
        got = read(fd, bytes, sizeof bytes);
        dropped += got > 0 ? (size_t)got : 0;
    }
    return dropped;
}

/* Held before it is set up: another one's rate is left alone. */
static bool set_up(struct device *device, pid_t *holder)
{
    struct stat is;
    if (!isatty(device->fd) || fstat(device->fd, &is) != 0)
        return false;
    errno = ENOTTY;
    if (is.st_rdev == makedev(5, 0))    /* /dev/tty, which is another one's second name */
        return false;
    device->pseudo = is_pseudo_terminal(&is);
    if (!hold_alone(device->fd)) {
        int error = errno;
        *holder = holder_of(device->fd);
        errno = error;
        return false;
    }
    if (tcgetattr(device->fd, &device->was) != 0)
        return false;
    if (make_raw(device->fd, device->was, speeds[place_of(device->baud)])) {
        device->dropped = drop_old_bytes(device->fd);
        return true;
    }
    int error = errno;
    tcsetattr(device->fd, TCSANOW, &device->was);
    errno = error;
    return false;
}

/* By the link that is told of it. */
static int open_by_link(const char *path, struct link_to *link)
{
    for (;;) {
        *link = link_at(path);
        int fd = open(path, O_RDWR | O_NOCTTY | O_NONBLOCK | O_CLOEXEC);
        struct link_to after = link_at(path);
        if (fd < 0 || same_link(link, &after))
            return fd;
        close(fd);
    }
}

bool open_device(struct device *device, const char *path, unsigned baud, pid_t *holder)
{
    *device = (struct device){.baud = baud};
    device->fd = open_by_link(path, &device->link);
    if (device->fd < 0)
        return false;
    if (set_up(device, holder))
        return true;
    int error = errno;
    close(device->fd);
    errno = error;
    return false;
}

int64_t time_for(const struct device *device, size_t bytes)
{
    int64_t needed = (int64_t)bytes * BITS_OF_A_BYTE * SECOND / device->baud;
    int64_t asked_again = (int64_t)ASKED_AGAIN_AFTER * MILLISECOND;
    return needed > asked_again ? needed : asked_again;
}

/* How many bytes have not left yet. */
static size_t leaving(int fd)
{
    int count = 0;
    return ioctl(fd, TIOCOUTQ, &count) == 0 && count > 0 ? (size_t)count : 0;
}

void close_device(struct device *device)
{
    enum { LOOKED_AT_EVERY = 10 };      /* milliseconds */
    int64_t end = now() + time_for(device, leaving(device->fd));
    while (leaving(device->fd) > 0 && now() < end)
        poll(NULL, 0, LOOKED_AT_EVERY);
    /* A drain would wait for ever for bytes that nobody takes. */
    tcsetattr(device->fd, leaving(device->fd) > 0 ? TCSANOW : TCSADRAIN, &device->was);
    close(device->fd);
    device->fd = -1;
}

bool may_come_back(const struct device *device)
{
    return !device->pseudo || device->link.there;
}

bool is_back(const struct device *device, const char *path)
{
    struct stat there;
    struct link_to link = link_at(path);
    if (stat(path, &there) != 0)
        return false;
    return !is_pseudo_terminal(&there) || (link.there && !same_link(&link, &device->link));
}
