/* A setup image kept in a file. */
#ifndef SETUP_FILE_H
#define SETUP_FILE_H

#include <stdbool.h>
#include <stddef.h>
#include <stdint.h>
#include <sys/types.h>

enum { SETUP_FILE_LIMIT = 65536 };      /* a file over this is no setup image */

/* Holds the file at path for one program alone, and takes away what programs that are gone left beside it: a descriptor to
 * read it by, at whose end, with the program's at the latest, it is free again. -1 with errno: EWOULDBLOCK where another
 * program holds it, *holder being its process or 0; EINVAL where it is no regular file. */
int hold_setup(const char *path, pid_t *holder);

enum kept {
    KEPT,
    NOT_KEPT,                           /* the file is as it was */
    KEPT_UNSYNCED,                      /* the file has the new bytes, but a power cut may bring back what was there */
    THERE_ALREADY                       /* a file that was to be new */
};

/* What could not be done, and why, for a sentence that begins with "cannot". */
struct failure {
    const char *failed_at, *why;
};

/* Puts the bytes into the file at path, which is held: written to a new file beside it with the same owner, group and
 * permissions, synced, and renamed over it, then the folder synced. Killed or cut off at any moment, path has all of the old
 * bytes or all of the new ones. Where path does not lead to what is held, nothing is kept. The new file, once it is in its
 * place, is held in the old one's stead. */
enum kept keep_setup(const char *path, int *held, const uint8_t *bytes, size_t len, struct failure *failure);

/* The same in a new file. What has the name, a link too, is never replaced. */
enum kept make_setup(const char *path, const uint8_t *bytes, size_t len, struct failure *failure);

#endif
