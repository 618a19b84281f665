#define _POSIX_C_SOURCE 200809L

#include "clock.h"

int64_t now(void)
{
    struct timespec t;
    clock_gettime(CLOCK_MONOTONIC, &t);
    return (int64_t)t.tv_sec * SECOND + t.tv_nsec;
}

struct timespec span(int64_t nanoseconds)
{
    int64_t left = nanoseconds > 0 ? nanoseconds : 0;
    return (struct timespec){left / SECOND, left % SECOND};
}
