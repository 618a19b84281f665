/* For a program that goes on whatever becomes of its messages. */
#ifndef ERRORS_H
#define ERRORS_H

#include <stddef.h>

/* From here on no message on standard error is waited for: what nobody takes is dropped. */
void never_wait_for_errors(void);

/* Writes to a descriptor what it takes within a moment. */
void write_in_a_moment(int fd, const char *bytes, size_t len);

#endif
