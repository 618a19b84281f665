/* Time that only goes forward, in nanoseconds. */
#ifndef CLOCK_H
#define CLOCK_H

#include <stdint.h>
#include <time.h>

enum { MILLISECOND = 1000000, SECOND = 1000000000 };

int64_t now(void);

/* A span of time for the system's calls; none is below 0. */
struct timespec span(int64_t nanoseconds);

#endif
