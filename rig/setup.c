#define _POSIX_C_SOURCE 200809L

#include "setup.h"

#include <errno.h>
#include <fcntl.h>
#include <stdio.h>
#include <string.h>
#include <unistd.h>

#include "read_up_to.h"
#include "status.h"

/* errno says why. */
static int not_opened(const char *what, const char *path)
{
    if (errno != ENOENT)
        return not_done(what, path);
    fprintf(stderr, "rig: there is no %s; make it with: rig new %s ID:GROUP ...\n", path, path);
    return BAD;
}

int hold(const char *path, int *held, pid_t *holder)
{
    *held = hold_setup(path, holder);
    if (*held >= 0 || errno == EWOULDBLOCK)
        return DONE;
    if (errno == EINVAL)
        fprintf(stderr, "rig: %s is no regular file, and a setup that is to be changed is kept in one\n", path);
    else if (errno == ENOLCK || errno == EBADF || errno == EOPNOTSUPP || errno == ENOSYS)
        fprintf(stderr, "rig: %s cannot be held, since its file system has no locks for it; keep it on a disk of this machine\n",
                path);
    else
        return not_opened("hold", path);
    return BAD;
}

int load_image(const char *path, int held, uint8_t image[SETUP_FILE_LIMIT + 1], size_t *len)
{
    int fd = held >= 0 ? held : open(path, O_RDONLY | O_NOCTTY | O_CLOEXEC);
    if (fd < 0)
        return not_opened("read", path);
    bool good = read_up_to(fd, image, SETUP_FILE_LIMIT + 1, len);
    int error = errno;
    if (held < 0)
        close(fd);
    errno = error;
    if (!good)
        return not_done("read", path);
    if (*len > SETUP_FILE_LIMIT) {
        fprintf(stderr, "rig: %s: over %d bytes; a setup image has at most %d, so this is not one\n", path,
                SETUP_FILE_LIMIT, UNDIVARRO_IMAGE_CAP);
        return REFUSED;
    }
    return DONE;
}

int load(const char *path, int held, struct setup *setup, uint8_t *form)
{
    uint8_t image[SETUP_FILE_LIMIT + 1];
    size_t len;
    int status = load_image(path, held, image, &len);
    if (status != DONE)
        return status;
    struct undivarro_result r = undivarro_read(image, len, setup->bytes, sizeof setup->bytes);
    if (r.refusal) {
        refused(path, r.refusal);
        if (r.refusal >= 16 && r.refusal <= 18)
            fprintf(stderr, "rig: what is good of it can be kept in a new file NEW: rig salvage %s NEW\n", path);
        return REFUSED;
    }
    setup->len = r.image_len;
    if (form)
        *form = image[len - 1];
    return DONE;
}

static int not_kept(const char *path, const struct failure *failure, const char *so)
{
    fprintf(stderr, "rig: %s: cannot %s: %s; %s\n", path, failure->failed_at, failure->why, so);
    return BAD;
}

int keep(const char *path, int *held, const struct setup *setup)
{
    struct failure failure;
    switch (keep_setup(path, held, setup->bytes, setup->len, &failure)) {
    case KEPT:
        return DONE;
    case KEPT_UNSYNCED:
        return not_kept(path, &failure, "it has the new setup, but a power cut may bring back what was there");
    default:
        return not_kept(path, &failure, "it is as it was");
    }
}

int keep_new(const char *path, const struct setup *setup)
{
    struct failure failure;
    switch (make_setup(path, setup->bytes, setup->len, &failure)) {
    case KEPT:
        return DONE;
    case KEPT_UNSYNCED:
        return not_kept(path, &failure, "it has the new setup, but a power cut may take it away");
    case THERE_ALREADY:
        fprintf(stderr, "rig: %s is there already; remove it first, or give another name\n", path);
        return BAD;
    default:
        return not_kept(path, &failure, "no file is made");
    }
}

bool same_setup(const struct setup *setup, const struct setup *other)
{
    return setup->len == other->len && memcmp(setup->bytes, other->bytes, setup->len) == 0;
}

size_t panel_count(const struct setup *setup)
{
    return setup->bytes[setup->len - 2];
}

const uint8_t *record_of(const struct setup *setup, size_t k)
{
    return setup->bytes + RECORD_LEN * k;
}
