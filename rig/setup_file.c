#define _GNU_SOURCE

#include "setup_file.h"

#include <errno.h>
#include <fcntl.h>
#include <limits.h>
#include <linux/limits.h>
#include <stdio.h>
#include <stdlib.h>
#include <string.h>
#include <sys/stat.h>
#include <sys/xattr.h>
#include <unistd.h>

#include "beside.h"
#include "hold.h"
#include "same_file.h"
#include "write_all.h"

/* A file by its folder and its name there. */
struct place {
    int folder;
    char name[NAME_MAX + 1];
};

static bool open_place(const char *path, struct place *place)
{
    char folder[PATH_MAX];
    const char *slash = strrchr(path, '/'), *name = slash ? slash + 1 : path;
    size_t len = (size_t)(name - path);
    errno = ENAMETOOLONG;
    if (len >= sizeof folder || strlen(name) >= sizeof place->name)
        return false;
    memcpy(folder, path, len);          /* with its slash */
    folder[len] = '\0';
    strcpy(place->name, name);
    place->folder = open(slash ? folder : ".", O_RDONLY | O_DIRECTORY | O_CLOEXEC);
    return place->folder >= 0;
}

/* That of the file itself, where path is a link to it. */
static bool open_place_behind(const char *path, struct place *place)
{
    char target[PATH_MAX];
    return realpath(path, target) && open_place(target, place);
}

/* Open for reading alone, so that a disk can be made read-only while a file on it is held. */
static int open_regular(const char *path)
{
    struct stat is;
    int fd = open(path, O_RDONLY | O_NONBLOCK | O_NOCTTY | O_CLOEXEC);
    if (fd < 0 || (fstat(fd, &is) == 0 && S_ISREG(is.st_mode)))
        return fd;
    close(fd);
    errno = S_ISDIR(is.st_mode) ? EISDIR : EINVAL;
    return -1;
}

/* Another file may be put in its place meanwhile: then that one is to be held. */
static int hold_what_is_there(const char *path, pid_t *holder)
{
    for (;;) {
        int fd = open_regular(path);
        if (fd < 0)
            return -1;
        int error = hold_alone(fd) ? 0 : errno;
        *holder = error == EWOULDBLOCK ? holder_of(fd) : 0;
        bool there = leads_to(path, fd);
        if (there && !error)
            return fd;
        close(fd);
        errno = error;
        if (there || *holder)
            return -1;
    }
}

int hold_setup(const char *path, pid_t *holder)
{
    struct place place;
    int fd = hold_what_is_there(path, holder);
    if (fd >= 0 && open_place_behind(path, &place)) {
        remove_leftovers(place.folder, place.name);
        close(place.folder);
    }
    return fd;
}

/* A step on the way; where it is not good, errno says why. */
static bool step(struct failure *failure, const char *what, bool good)
{
    if (!good)
        *failure = (struct failure){what, strerror(errno)};
    return good;
}

static bool own_as(int fd, const struct stat *was)
{
    struct stat is;
    return fstat(fd, &is) == 0 &&
           ((is.st_uid == was->st_uid && is.st_gid == was->st_gid) || fchown(fd, was->st_uid, was->st_gid) == 0);
}

/* The list of who else may read and write it, where there is one. */
static bool list_as(int fd, int old)
{
    static const char list[] = "system.posix_acl_access";
    char entries[XATTR_SIZE_MAX];
    ssize_t len = fgetxattr(old, list, entries, sizeof entries);
    if (len >= 0)
        return fsetxattr(fd, list, entries, (size_t)len, 0) == 0;
    if (errno != ENODATA && errno != ENOTSUP)
        return false;
    return fremovexattr(fd, list) == 0 || errno == ENODATA || errno == ENOTSUP;
}

/* old is the file whose owner, group and permissions it takes over, or -1. What is written takes some of these away, so they
 * come behind it. */
static bool fill(struct beside *beside, int old, const uint8_t *bytes, size_t len, struct failure *failure)
{
    struct stat was;
    bool good = step(failure, "write the new setup beside it", write_all(beside->fd, bytes, len));
    if (good && old >= 0)
        good = step(failure, "give the new setup the owner and the group of the old one",
                    fstat(old, &was) == 0 && own_as(beside->fd, &was)) &&
               step(failure, "give the new setup the permissions of the old one",
                    fchmod(beside->fd, was.st_mode & 07777) == 0 && list_as(beside->fd, old));
    good = good && step(failure, "sync the new setup", fsync(beside->fd) == 0);
    int closed = close(beside->fd);
    beside->fd = -1;
    return good && step(failure, "write the new setup beside it", closed == 0);
}

/* So that a name itself outlasts a power cut. */
static bool sync_folder(int folder)
{
    return fsync(folder) == 0 || errno == EINVAL;       /* EINVAL: a file system that syncs no folders */
}

static const struct failure another = {"replace it", "another file stands in its place"};

static bool is_in_place(const char *path, const struct place *place, int held, struct failure *failure)
{
    if (leads_to(path, held) && is_at(held, place->folder, place->name))
        return true;
    *failure = another;
    return false;
}

/* The two names change their files. */
static bool exchange(const struct place *place, const struct beside *beside)
{
    return renameat2(place->folder, beside->name, place->folder, place->name, RENAME_EXCHANGE) == 0;
}

/* An exchange lets nothing go before it was looked at: what was not held is given its name back. Where the file system has
 * none, the look was just before. */
static bool put_over(const struct place *place, const struct beside *beside, int held, struct failure *failure)
{
    if (!exchange(place, beside))
        return step(failure, "rename the new setup over it", (errno == EINVAL || errno == ENOSYS) &&
                    renameat(place->folder, beside->name, place->folder, place->name) == 0);
    if (!is_at(held, place->folder, beside->name)) {
        exchange(place, beside);
        *failure = another;
        return false;
    }
    unlinkat(place->folder, beside->name, 0);
    return true;
}

/* The new file is held before it has the name, so that the name is never free for another. */
static enum kept replace(const char *path, const struct place *place, int *held, const uint8_t *bytes, size_t len,
                         struct failure *failure)
{
    struct beside beside;
    /* A rename would also replace a file that may not be written to. */
    if (!is_in_place(path, place, *held, failure) ||
        !step(failure, "write to it", faccessat(place->folder, place->name, W_OK, 0) == 0) ||
        !step(failure, "create a file beside it", make_beside(place->folder, place->name, S_IRUSR | S_IWUSR, &beside)))
        return NOT_KEPT;
    if (!fill(&beside, *held, bytes, len, failure) || !step(failure, "hold the new setup", hold_alone(beside.held)) ||
        !is_in_place(path, place, *held, failure) || !put_over(place, &beside, *held, failure)) {
        drop_beside(&beside);
        return NOT_KEPT;
    }
    close(*held);
    *held = beside.held;
    return step(failure, "sync its folder", sync_folder(place->folder)) ? KEPT : KEPT_UNSYNCED;
}

enum kept keep_setup(const char *path, int *held, const uint8_t *bytes, size_t len, struct failure *failure)
{
    struct place place;
    if (!step(failure, "find it", open_place_behind(path, &place)))
        return NOT_KEPT;
    enum kept kept = replace(path, &place, held, bytes, len, failure);
    close(place.folder);
    return kept;
}

/* Never over what has the name: by a rename that does not replace or, where the file system has none, by a link. */
static bool name_new(const struct place *place, const struct beside *beside)
{
    if (renameat2(place->folder, beside->name, place->folder, place->name, RENAME_NOREPLACE) == 0)
        return true;
    if (errno != EINVAL && errno != ENOSYS)
        return false;
    if (linkat(place->folder, beside->name, place->folder, place->name, 0) != 0)
        return false;
    unlinkat(place->folder, beside->name, 0);
    return true;
}

static enum kept make(const struct place *place, const uint8_t *bytes, size_t len, struct failure *failure)
{
    enum { ALL = 0666 };                /* less what the process's mask takes away */
    struct beside beside;
    struct stat there;
    if (fstatat(place->folder, place->name, &there, AT_SYMLINK_NOFOLLOW) == 0)
        return THERE_ALREADY;
    remove_leftovers(place->folder, place->name);
    if (!step(failure, "create a file beside it", make_beside(place->folder, place->name, ALL, &beside)))
        return NOT_KEPT;
    if (!fill(&beside, -1, bytes, len, failure) || !step(failure, "give the new setup its name", name_new(place, &beside))) {
        bool there = errno == EEXIST;
        drop_beside(&beside);
        return there ? THERE_ALREADY : NOT_KEPT;
    }
    close(beside.held);
    return step(failure, "sync its folder", sync_folder(place->folder)) ? KEPT : KEPT_UNSYNCED;
}

enum kept make_setup(const char *path, const uint8_t *bytes, size_t len, struct failure *failure)
{
    struct place place;
    *failure = (struct failure){"make it", "names with .NUMBER.new at their end are of files that the rig writes beside a setup"};
    if (is_beside_name(path))
        return NOT_KEPT;
    if (!step(failure, "open its folder", open_place(path, &place)))
        return NOT_KEPT;
    enum kept kept = make(&place, bytes, len, failure);
    close(place.folder);
    return kept;
}
