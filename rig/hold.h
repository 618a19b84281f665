/* A file or a device that one program has for itself. */
#ifndef HOLD_H
#define HOLD_H

#include <stdbool.h>
#include <sys/types.h>

/* Until the end of the descriptor, with the program's at the latest. False with errno: EWOULDBLOCK where another holds it. */
bool hold_alone(int fd);

/* The number of the process that holds it, or 0 where that cannot be told. */
pid_t holder_of(int fd);

#endif
