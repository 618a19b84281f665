#define _GNU_SOURCE

#include "pseudo.h"

#include <fcntl.h>
#include <limits.h>
#include <stdio.h>
#include <string.h>
#include <sys/sysmacros.h>
#include <unistd.h>

/* Linux's numbers: 136 to 143, and 3 for those of old. */
bool is_pseudo_terminal(const struct stat *is)
{
    unsigned number = major(is->st_rdev);
    return S_ISCHR(is->st_mode) && ((number >= 136 && number <= 143) || number == 3);
}

/* path, a link, is replaced by what it says. False where that cannot be told. */
static bool follow(char path[PATH_MAX])
{
    char to[PATH_MAX], *slash = strrchr(path, '/');
    ssize_t len = readlink(path, to, sizeof to - 1);
    if (len < 0)
        return false;
    to[len] = '\0';
    size_t folder = to[0] == '/' || !slash ? 0 : (size_t)(slash + 1 - path);
    return (size_t)snprintf(path + folder, PATH_MAX - folder, "%s", to) < PATH_MAX - folder;
}

/* Its birth, which no later change of it moves, or its last change where the file system knows no births. */
static bool is_link(const char *path, struct link_to *link)
{
    struct statx is;
    if (statx(AT_FDCWD, path, AT_SYMLINK_NOFOLLOW, STATX_BASIC_STATS | STATX_BTIME, &is) != 0 || !S_ISLNK(is.stx_mode))
        return false;
    const struct statx_timestamp *made = is.stx_mask & STATX_BTIME ? &is.stx_btime : &is.stx_ctime;
    *link = (struct link_to){true, makedev(is.stx_dev_major, is.stx_dev_minor), is.stx_ino, {made->tv_sec, made->tv_nsec}};
    return true;
}

struct link_to link_at(const char *path)
{
    enum { MOST_LINKS = 40 };
    struct link_to link = {.there = false};
    char at[PATH_MAX];
    bool good = (size_t)snprintf(at, sizeof at, "%s", path) < sizeof at;
    for (int k = 0; good && k < MOST_LINKS && is_link(at, &link); k++)
        good = follow(at);
    return link;
}

bool same_link(const struct link_to *link, const struct link_to *other)
{
    return link->there == other->there && link->device == other->device && link->inode == other->inode &&
           link->made[0] == other->made[0] && link->made[1] == other->made[1];
}
