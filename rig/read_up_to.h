/* Bytes read to their end, or to a limit. */
#ifndef READ_UP_TO_H
#define READ_UP_TO_H

#include <stdbool.h>
#include <stddef.h>

/* At most so many; *len is how many there were. False with errno. */
bool read_up_to(int fd, void *bytes, size_t most, size_t *len);

#endif
