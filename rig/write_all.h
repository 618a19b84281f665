/* Bytes written to an open file whole. */
#ifndef WRITE_ALL_H
#define WRITE_ALL_H

#include <stdbool.h>
#include <stddef.h>

/* False with errno if a part could not be written. */
bool write_all(int fd, const void *bytes, size_t len);

#endif
