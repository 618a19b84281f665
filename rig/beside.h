/* The file beside a setup that its new bytes are written to: NAME.NUMBER.new in the folder of NAME. Its program holds it, so
 * one that nobody holds is left over from a program that is gone. */
#ifndef BESIDE_H
#define BESIDE_H

#include <limits.h>
#include <stdbool.h>
#include <sys/types.h>

struct beside {
    int folder;
    char name[NAME_MAX + 32];
    int held;                           /* open for reading alone, and held */
    int fd;                             /* open for writing, until it is written; then -1 */
};

/* A new file, and never one that is there, nor one behind a link. False with errno. */
bool make_beside(int folder, const char *of, mode_t mode, struct beside *beside);

/* Takes it away, and leaves errno as it was. */
void drop_beside(struct beside *beside);

/* Those of programs that are gone; each is told. */
void remove_leftovers(int folder, const char *of);

/* The name is one that a file beside some setup may have. */
bool is_beside_name(const char *name);

#endif
