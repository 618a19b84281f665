/* Exit statuses, and the messages that go with them. */
#ifndef STATUS_H
#define STATUS_H

#include <stdint.h>
#include <sys/types.h>

enum { DONE = 0, REFUSED = 1, BAD = 2, GONE = 3 };
enum { MISFIT = -1 };                   /* for `rig` itself: the command's arguments are not those that it takes */

/* The library refused the image at path. */
int refused(const char *path, uint32_t refusal);

/* A call of the system failed; errno says why. */
int not_done(const char *what, const char *path);

/* Another program holds it: this process, or 0 where that is not known. */
int taken(const char *path, pid_t holder);

/* What was printed has left the program. */
int printed(void);

#endif
