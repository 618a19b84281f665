/* Pseudo-terminals: when one goes away, its name comes back as somebody else's. */
#ifndef PSEUDO_H
#define PSEUDO_H

#include <stdbool.h>
#include <stdint.h>
#include <sys/stat.h>

bool is_pseudo_terminal(const struct stat *is);

/* The link by which a path leads to a file, the last where there are several; one that is made anew is another. */
struct link_to {
    bool there;
    uint64_t device, inode;
    int64_t made[2];                    /* when: seconds, nanoseconds */
};

struct link_to link_at(const char *path);
bool same_link(const struct link_to *link, const struct link_to *other);

#endif
