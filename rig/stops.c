/* Linked with all of the rig in the place of some calls (-Wl,--wrap=...), for the tests: stops the real program at one moment,
 * or lets something happen there. STOP_AT names the moment. */
#define _GNU_SOURCE

#include <errno.h>
#include <fcntl.h>
#include <poll.h>
#include <pthread.h>
#include <signal.h>
#include <stdbool.h>
#include <stdio.h>
#include <stdlib.h>
#include <string.h>
#include <sys/file.h>
#include <sys/stat.h>
#include <sys/sysmacros.h>
#include <unistd.h>

#include "pseudo.h"
#include "same_file.h"

ssize_t __real_read(int fd, void *bytes, size_t len);
ssize_t __real_write(int fd, const void *bytes, size_t len);
int __real_fsync(int fd);
int __real_renameat(int from_folder, const char *from, int to_folder, const char *to);
int __real_renameat2(int from_folder, const char *from, int to_folder, const char *to, unsigned flags);
int __real_flock(int fd, int how);
int __real_pthread_create(pthread_t *thread, const pthread_attr_t *with, void *(*run)(void *), void *of);
int __real_poll(struct pollfd *fds, nfds_t count, int time);
bool __real_is_pseudo_terminal(const struct stat *is);
ssize_t __wrap_read(int fd, void *bytes, size_t len);
ssize_t __wrap_write(int fd, const void *bytes, size_t len);
int __wrap_fsync(int fd);
int __wrap_renameat(int from_folder, const char *from, int to_folder, const char *to);
int __wrap_renameat2(int from_folder, const char *from, int to_folder, const char *to, unsigned flags);
int __wrap_flock(int fd, int how);
int __wrap_pthread_create(pthread_t *thread, const pthread_attr_t *with, void *(*run)(void *), void *of);
int __wrap_poll(struct pollfd *fds, nfds_t count, int time);
bool __wrap_is_pseudo_terminal(const struct stat *is);

static bool at(const char *moment)
{
    const char *stop = getenv("STOP_AT");
    return stop && strcmp(stop, moment) == 0;
}

static int fail(int error)
{
    errno = error;
    return -1;
}

/* A disk is full for files alone, and not for a line. */
static bool is_file(int fd)
{
    struct stat is;
    return fstat(fd, &is) == 0 && S_ISREG(is.st_mode);
}

/* Somebody writes a line more to the file that STOP_UNTIL names, once its first bytes are read. */
ssize_t __wrap_read(int fd, void *bytes, size_t len)
{
    static bool written;
    ssize_t got = __real_read(fd, bytes, len);
    if (at("written-while-read") && !written && leads_to(getenv("STOP_UNTIL"), fd)) {
        int to = open(getenv("STOP_UNTIL"), O_WRONLY | O_APPEND);
        written = __real_write(to, "050100191D\n", 11) == 11;
        close(to);
    }
    return got;
}

/* A line that takes half of the first answer, and nothing more as long as it is tried for. */
static ssize_t write_half(int fd, const char *bytes, size_t len)
{
    static const char *rest;
    if (bytes == rest)
        return fail(EAGAIN);
    if (rest)
        return __real_write(fd, bytes, len);
    rest = bytes + len / 2;
    return __real_write(fd, bytes, len / 2);
}

ssize_t __wrap_write(int fd, const void *bytes, size_t len)
{
    static bool half_done;
    if (at("killed-without-room") && __real_poll(&(struct pollfd){fd, POLLOUT, 0}, 1, 0) == 0)
        raise(SIGKILL);
    if (at("half-an-answer") && isatty(fd))
        return write_half(fd, bytes, len);
    if (!is_file(fd))
        return __real_write(fd, bytes, len);
    if (!half_done && (at("killed-in-write") || at("no-space") || at("two-writes"))) {
        half_done = true;
        return __real_write(fd, bytes, len / 2);
    }
    if (at("killed-in-write"))
        raise(SIGKILL);
    return at("no-space") ? fail(ENOSPC) : __real_write(fd, bytes, len);
}

/* Until somebody opens the pipe that STOP_UNTIL names for writing. */
static void wait_for_pipe(void)
{
    close(open(getenv("STOP_UNTIL"), O_RDONLY));
}

int __wrap_fsync(int fd)
{
    static int calls;
    calls++;                            /* the file, then its folder */
    if (at("slow-sync") && calls == 1)
        sleep(1);
    if (at("long-sync") && calls == 1)
        wait_for_pipe();
    if (at("killed-before-sync") && calls == 1)
        raise(SIGKILL);
    if (at("sync-fails") && calls == 1)
        return fail(EIO);
    if (at("killed-after-rename") && calls == 2)
        raise(SIGKILL);
    if (at("folder-sync-fails") && calls == 2)
        return fail(EIO);
    if (at("killed-in-second-keep") && calls == 3)
        raise(SIGKILL);
    return __real_fsync(fd);
}

/* A file of another's comes to the name at the last moment: the one that STOP_UNTIL names, or an empty one. */
static void give_name(int folder, const char *name)
{
    if (at("moved-before"))
        __real_renameat(AT_FDCWD, getenv("STOP_UNTIL"), folder, name);
    if (at("named-before") || at("linked-before"))
        close(openat(folder, name, O_WRONLY | O_CREAT | O_EXCL, 0666));
}

/* A rename with flags: two files exchanged, or a name that nobody has. Some file systems know none of these. */
int __wrap_renameat2(int from_folder, const char *from, int to_folder, const char *to, unsigned flags)
{
    static bool named;
    if (!named)
        give_name(to_folder, to);
    named = true;
    if (at("killed-before-rename"))
        raise(SIGKILL);
    if (at("rename-fails"))
        return fail(EIO);
    if (at("no-flags") || at("no-flags-and-fails") || at("linked-before"))
        return fail(EINVAL);
    return __real_renameat2(from_folder, from, to_folder, to, flags);
}

int __wrap_renameat(int from_folder, const char *from, int to_folder, const char *to)
{
    return at("no-flags-and-fails") ? fail(EIO) : __real_renameat(from_folder, from, to_folder, to);
}

/* Between the opening of a file and its lock the one that STOP_UNTIL names is moved there. */
int __wrap_flock(int fd, int how)
{
    static bool moved;
    char of[32], path[4096] = "";
    snprintf(of, sizeof of, "/proc/self/fd/%d", fd);
    if (at("moved-before-hold") && !moved && readlink(of, path, sizeof path - 1) > 0)
        __real_renameat(AT_FDCWD, getenv("STOP_UNTIL"), AT_FDCWD, path);
    moved = true;
    return __real_flock(fd, how);
}

int __wrap_pthread_create(pthread_t *thread, const pthread_attr_t *with, void *(*run)(void *), void *of)
{
    return at("no-thread") ? EAGAIN : __real_pthread_create(thread, with, run, of);
}

/* Between the look for room in a pipe and the message somebody else fills it. */
int __wrap_poll(struct pollfd *fds, nfds_t count, int time)
{
    static const char page[4096];
    int ready = __real_poll(fds, count, time);
    if (at("room-taken") && ready > 0 && fds->fd == STDERR_FILENO) {
        fcntl(STDERR_FILENO, F_SETFL, O_NONBLOCK);
        while (__real_write(STDERR_FILENO, page, sizeof page) > 0)
            ;
        fcntl(STDERR_FILENO, F_SETFL, 0);
    }
    return ready;
}

/* No adapter is at hand: a pseudo-terminal stands for one, with the number of a USB adapter. */
bool __wrap_is_pseudo_terminal(const struct stat *is)
{
    struct stat seen = *is;
    if (at("adapter"))
        seen.st_rdev = makedev(188, 0);
    return __real_is_pseudo_terminal(&seen);
}
