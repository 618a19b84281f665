/* Whether two ways lead to one file: by its device and its inode. */
#ifndef SAME_FILE_H
#define SAME_FILE_H

#include <stdbool.h>

bool same_file(int fd, int other);

/* The file has this name in the folder; a link to it is not it. */
bool is_at(int fd, int folder, const char *name);

/* Behind links. */
bool leads_to(const char *path, int fd);
bool lead_to_one(const char *path, const char *other);

#endif
