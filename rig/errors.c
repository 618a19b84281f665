#define _GNU_SOURCE

#include "errors.h"

#include <poll.h>
#include <signal.h>
#include <stdbool.h>
#include <stdio.h>
#include <sys/time.h>
#include <unistd.h>

enum { MOMENT = 100 };                  /* milliseconds */

static void interrupt(int number)
{
    (void)number;
}

static void set_timer(suseconds_t microseconds)
{
    const struct timeval time = {0, microseconds};
    setitimer(ITIMER_REAL, &(struct itimerval){time, time}, NULL);
}

void write_in_a_moment(int fd, const char *bytes, size_t len)
{
    static bool unread;                 /* the last was not taken, so this one is not waited for */
    struct pollfd to = {fd, POLLOUT, 0};
    unread = poll(&to, 1, unread ? 0 : MOMENT) <= 0;
    if (unread)
        return;
    /* The room may be too little, or another's by now: then a timer ends the write, and comes again should it be early. */
    set_timer(MOMENT * 1000);
    unread = write(fd, bytes, len) != (ssize_t)len;     /* the rest is dropped */
    set_timer(0);
}

static ssize_t put_error(void *cookie, const char *bytes, size_t len)
{
    (void)cookie;
    write_in_a_moment(STDERR_FILENO, bytes, len);
    return (ssize_t)len;
}

void never_wait_for_errors(void)
{
    FILE *errors = fopencookie(NULL, "w", (cookie_io_functions_t){.write = put_error});
    if (!errors)
        return;
    sigset_t timer;
    sigemptyset(&timer);
    sigaddset(&timer, SIGALRM);
    sigaction(SIGALRM, &(struct sigaction){.sa_handler = interrupt}, NULL);
    sigprocmask(SIG_UNBLOCK, &timer, NULL);
    setvbuf(errors, NULL, _IOLBF, BUFSIZ);
    stderr = errors;
}
