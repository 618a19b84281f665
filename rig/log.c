#define _POSIX_C_SOURCE 200809L

#include "log.h"

#include <errno.h>
#include <fcntl.h>
#include <stdio.h>
#include <stdlib.h>
#include <string.h>
#include <sys/stat.h>
#include <unistd.h>

#include "same_file.h"
#include "status.h"
#include "words.h"
#include "write_all.h"

/* After a power cut, or where the disk was full, the last line may lack its end. */
static bool ends_in_line(int fd, const char *path)
{
    struct stat is;
    if (fstat(fd, &is) != 0 || is.st_size == 0)         /* what is no file on a disk has no size */
        return false;
    int to_read = open(path, O_RDONLY | O_CLOEXEC);
    if (to_read < 0)
        return false;
    char last = '\n';
    bool in_line = pread(to_read, &last, 1, is.st_size - 1) == 1 && last != '\n';
    close(to_read);
    return in_line;
}

int log_is_not(const char *path, const char *other, const char *what)
{
    if (!lead_to_one(path, other))
        return DONE;
    fprintf(stderr, "rig: the log %s is the %s %s itself; give the log a file of its own\n", path, what, other);
    return BAD;
}

/* By whatever way its name leads there. */
static bool is_never(const struct log *log, int fd)
{
    bool never = false;
    for (size_t k = 0; k < sizeof log->never / sizeof log->never[0]; k++)
        never |= log->never[k] && *log->never[k] >= 0 && same_file(fd, *log->never[k]);
    return never;
}

static bool open_file(struct log *log, int flags)
{
    int fd = open(log->path, O_WRONLY | O_APPEND | O_CREAT | O_NOCTTY | O_CLOEXEC | flags, 0666);
    if (fd < 0)
        return false;
    if (is_never(log, fd)) {
        close(fd);
        errno = EBUSY;
        return false;
    }
    if (log->fd >= 0)
        close(log->fd);
    log->fd = fd;
    log->in_line = ends_in_line(fd, log->path);
    return true;
}

const char *log_error(int error)
{
    return error == EBUSY ? "it is the setup or the device itself" : strerror(error);
}

int open_log(struct log *log, const char *image_path)
{
    if (log_is_not(log->path, image_path, "setup") != DONE)
        return BAD;
    if (open_file(log, 0))
        return DONE;
    fprintf(stderr, "rig: cannot open the log %s: %s; no burst was played; name a file that can be written to\n", log->path,
            log_error(errno));
    return BAD;
}

/* In UTC, so that no hour comes twice. */
static void print_time(FILE *to, const struct timespec *at)
{
    struct tm utc;
    char text[sizeof "2026-11-16T12:00:00"];
    if (gmtime_r(&at->tv_sec, &utc) && strftime(text, sizeof text, "%Y-%m-%dT%H:%M:%S", &utc) > 0)
        fprintf(to, "%s.%03ldZ ", text, at->tv_nsec / 1000000);
}

static void print_bytes(FILE *to, const uint8_t *bytes, size_t len, size_t shown)
{
    if (len == 0)
        fputs(" -", to);
    for (size_t i = 0; i < shown; i++)
        fprintf(to, " %02X", bytes[i]);
    if (shown < len)
        fputs(" ...", to);
}

static void print_played(FILE *to, const void *of)
{
    const struct played *played = of;
    const struct reply *reply = played->reply;
    if (played->at)
        print_time(to, played->at);
    fprintf(to, "%lu:", played->number);
    print_bytes(to, played->burst, played->len, played->shown);
    fputs(": ", to);
    say_burst(to, played->edition, played->burst, played->len, reply->damage);
    fputs(": ", to);
    if (played->failure)
        fprintf(to, "silence, since the setup is not kept (cannot %s, %s)", played->failure->failed_at, played->failure->why);
    else
        say_answer(to, played->edition, played->burst, played->len, reply->answer, reply->len);
}

static void print_remark(FILE *to, const void *of)
{
    const struct remark *remark = of;
    print_time(to, remark->at);
    fprintf(to, "%lu", remark->first);
    if (remark->last != remark->first)
        fprintf(to, " to %lu", remark->last);
    fputc(':', to);
    print_bytes(to, remark->bytes, remark->len, remark->len);
    fprintf(to, ": %s: %s", remark->about, remark->outcome);
}

/* Made whole before it is written, so that two rigs at work on one log keep their lines apart. */
static bool write_line(struct log *log, void print(FILE *to, const void *of), const void *of)
{
    char *line = NULL;
    size_t len = 0;
    FILE *to = open_memstream(&line, &len);
    if (!to)
        return false;
    if (log->in_line)
        fputc('\n', to);
    print(to, of);
    fputc('\n', to);
    bool good = !ferror(to);
    good = fclose(to) == 0 && good && write_all(log->fd, line, len);
    int error = errno;
    free(line);
    errno = error;
    if (good)
        log->in_line = false;
    return good;
}

int log_burst(struct log *log, const struct played *played)
{
    if (write_line(log, print_played, played))
        return DONE;
    fprintf(stderr, "rig: cannot write to the log %s: %s; the burst of line %lu was played, but its answer is held back; "
            "make room for the log, or name another\n", log->path, strerror(errno), played->number);
    return BAD;
}

bool try_open_log(struct log *log)
{
    return open_file(log, O_NONBLOCK);
}

/* A log that failed is opened anew for the next line. */
static bool try_line(struct log *log, void print(FILE *to, const void *of), const void *of)
{
    if (log->fd < 0 && !try_open_log(log))
        return false;
    if (write_line(log, print, of))
        return true;
    int error = errno;
    close(log->fd);
    log->fd = -1;
    errno = error;
    return false;
}

bool try_log(struct log *log, const struct played *played)
{
    return try_line(log, print_played, played);
}

bool try_remark(struct log *log, const struct remark *remark)
{
    return try_line(log, print_remark, remark);
}
