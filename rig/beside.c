#define _DEFAULT_SOURCE

#include "beside.h"

#include <dirent.h>
#include <errno.h>
#include <fcntl.h>
#include <signal.h>
#include <stdio.h>
#include <stdlib.h>
#include <string.h>
#include <sys/file.h>
#include <sys/stat.h>
#include <unistd.h>

#include "same_file.h"
#include "undivarro.h"

/* The process's own number, or one of the next where somebody has put something there. */
enum { TRIES = 100, HIGHEST_PROCESS = 1 << 22 };

static const char ending[] = ".new";

/* Held from its first moment. False with errno, EWOULDBLOCK or ENOENT where somebody who cleans up was quicker. */
static bool hold_beside(struct beside *beside)
{
    beside->held = openat(beside->folder, beside->name, O_RDONLY | O_NOFOLLOW | O_CLOEXEC);
    if (beside->held < 0 || (flock(beside->held, LOCK_EX | LOCK_NB) != 0 && errno == EWOULDBLOCK))
        return false;
    errno = ENOENT;
    return same_file(beside->fd, beside->held) && is_at(beside->held, beside->folder, beside->name);
}

bool make_beside(int folder, const char *of, mode_t mode, struct beside *beside)
{
    static int k;                       /* a number that was lost to somebody who cleans up is not taken again */
    *beside = (struct beside){.folder = folder, .held = -1, .fd = -1};
    for (int tries = 0; tries < TRIES; tries++, k = (k + 1) % TRIES) {
        snprintf(beside->name, sizeof beside->name, "%s.%ld%s", of, (long)getpid() + k, ending);
        beside->fd = openat(folder, beside->name, O_WRONLY | O_CREAT | O_EXCL | O_NOFOLLOW | O_CLOEXEC, mode);
        if (beside->fd >= 0 && hold_beside(beside))
            return true;
        drop_beside(beside);
        if (errno != EEXIST && errno != EWOULDBLOCK && errno != ENOENT)
            break;
    }
    return false;
}

void drop_beside(struct beside *beside)
{
    int error = errno;
    int *const fds[] = {&beside->fd, &beside->held};
    for (size_t k = 0; k < sizeof fds / sizeof fds[0]; k++) {
        if (*fds[k] < 0)
            continue;
        if (is_at(*fds[k], beside->folder, beside->name))
            unlinkat(beside->folder, beside->name, 0);
        close(*fds[k]);
        *fds[k] = -1;
    }
    errno = error;
}

/* The number in .NUMBER.new, without zeros in front and no higher than any that is tried; 0 where it is none of these. */
static pid_t number_in(const char *end)
{
    if (end[0] != '.' || end[1] < '1' || end[1] > '9')
        return 0;
    char *behind;
    long number = strtol(end + 1, &behind, 10);
    return number < HIGHEST_PROCESS + TRIES && strcmp(behind, ending) == 0 ? (pid_t)number : 0;
}

bool is_beside_name(const char *name)
{
    bool is = false;
    for (const char *dot = strchr(name, '.'); dot; dot = strchr(dot + 1, '.'))
        is |= number_in(dot) > 0;
    return is;
}

/* A file as the rig makes it: of one name, no larger than a setup, and its owner this program's or the setup's. */
static bool is_ours(int fd, int folder, const char *of)
{
    struct stat is, setup;
    return fstat(fd, &is) == 0 && S_ISREG(is.st_mode) && is.st_nlink == 1 && is.st_size <= UNDIVARRO_IMAGE_CAP &&
           (is.st_uid == geteuid() ||
            (fstatat(folder, of, &setup, AT_SYMLINK_NOFOLLOW) == 0 && is.st_uid == setup.st_uid));
}

/* It has ended, and its parent has not asked for its status yet. */
static bool is_ended(pid_t process)
{
    char path[32], text[512] = "";
    snprintf(path, sizeof path, "/proc/%ld/stat", (long)process);
    int fd = open(path, O_RDONLY | O_CLOEXEC);
    if (fd < 0)
        return false;
    ssize_t len = read(fd, text, sizeof text - 1);
    close(fd);
    const char *name_end = len > 0 ? strrchr(text, ')') : NULL;
    return name_end && strncmp(name_end, ") Z", 3) == 0;
}

/* A program that has just made its file has not held it yet, so its process counts too. */
static bool is_gone(pid_t process)
{
    return process == getpid() || (kill(process, 0) != 0 && errno == ESRCH) || is_ended(process);
}

static void remove_if_left(int folder, const char *name, const char *of)
{
    int fd = openat(folder, name, O_RDONLY | O_NOFOLLOW | O_NONBLOCK | O_NOCTTY | O_CLOEXEC);
    if (fd < 0)
        return;
    if (is_ours(fd, folder, of) && flock(fd, LOCK_EX | LOCK_NB) == 0 && is_at(fd, folder, name) &&
        unlinkat(folder, name, 0) == 0)
        fprintf(stderr, "rig: removed %s, which a program that is gone left beside %s\n", name, of);
    close(fd);
}

void remove_leftovers(int folder, const char *of)
{
    int copy = openat(folder, ".", O_RDONLY | O_DIRECTORY | O_CLOEXEC);
    DIR *entries = copy < 0 ? NULL : fdopendir(copy);
    if (!entries)
        return;
    size_t len = strlen(of);
    for (struct dirent *entry; (entry = readdir(entries));) {
        pid_t process = strncmp(entry->d_name, of, len) == 0 ? number_in(entry->d_name + len) : 0;
        if (process && is_gone(process))
            remove_if_left(folder, entry->d_name, of);
    }
    closedir(entries);
}
