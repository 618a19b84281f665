/* The serial device of a line: raw, 8N1, and for one program alone. */
#ifndef DEVICE_H
#define DEVICE_H

#include <stdbool.h>
#include <stddef.h>
#include <sys/types.h>
#include <termios.h>

#include "pseudo.h"

enum { BAUD_RATES = 7, USUAL_BAUD = 9600 };

/* 000's, rising. */
extern const unsigned baud_rates[BAUD_RATES];

bool is_baud_rate(unsigned long rate);

struct device {
    int fd;                             /* never waits; -1 when it is closed */
    unsigned baud;
    size_t dropped;                     /* the bytes that were in it from before */
    struct termios was;                 /* its settings before */
    bool pseudo;                        /* a pseudo-terminal */
    struct link_to link;                /* by which it was opened */
};

/* baud is one of the rates. What is in the device from before is dropped. False with errno: EWOULDBLOCK where another program
 * has the device, *holder being its process or 0; ENOTTY where it is no serial device, EINVAL where it does not take 8N1 at
 * this rate. */
bool open_device(struct device *device, const char *path, unsigned baud, pid_t *holder);

/* Its settings are put back when its last bytes have left, which are waited for as long as an answer is. */
void close_device(struct device *device);

/* The device at path went away and may come back: a pseudo-terminal only through a link. */
bool may_come_back(const struct device *device);

/* It is back. A pseudo-terminal is where its link was made anew: that of before, or its name, may lead to another's. */
bool is_back(const struct device *device, const char *path);

/* How long a line may take for bytes: the 500 ms after which a host asks again, or as long as they need at the rate. */
int64_t time_for(const struct device *device, size_t bytes);

#endif
