/* The log: a line for each burst, put behind what the file has. */
#ifndef LOG_H
#define LOG_H

#include <stdbool.h>
#include <time.h>

#include "box.h"

struct log {
    const char *path;
    int fd;                             /* -1 while it is not open */
    bool in_line;                       /* the file ends inside a line */
    const int *never[2];                /* descriptors of what it may not be, or NULL: setup and device */
};

/* A burst that was played, and what came of it. */
struct played {
    unsigned long number;
    const struct timespec *at;          /* when it came, or NULL where no time is wanted */
    const struct edition *edition;      /* of its line */
    const uint8_t *burst;
    size_t len;
    size_t shown;                       /* of its bytes these are at hand, from the front */
    const struct reply *reply;
    const struct failure *failure;      /* then there was no answer; or NULL */
};

/* The log may be any file but this one, by whatever name; what says in a word what that is. Gives an exit status. */
int log_is_not(const char *path, const char *other, const char *what);

/* Gives an exit status, and has said on standard error what was wrong. */
int open_log(struct log *log, const char *image_path);
int log_burst(struct log *log, const struct played *played);

/* What a line says that is not of a burst played: of which bursts, by their numbers, its bytes, if any, what it is about, and
 * what became of it. */
struct remark {
    const struct timespec *at;
    unsigned long first, last;
    const uint8_t *bytes;
    size_t len;
    const char *about, *outcome;
};

/* For a program that goes on without a log, or has words of its own: these say nothing and wait for nothing. Lines open the log where it is not open,
 * and close it where it fails; what is open stays so where it cannot be opened anew. False with errno. */
bool try_open_log(struct log *log);
bool try_log(struct log *log, const struct played *played);
bool try_remark(struct log *log, const struct remark *remark);

/* What errno means of a log. */
const char *log_error(int error);

#endif
