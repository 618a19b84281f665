#define _POSIX_C_SOURCE 200809L

#include "read_up_to.h"

#include <errno.h>
#include <unistd.h>

bool read_up_to(int fd, void *bytes, size_t most, size_t *len)
{
    ssize_t got = 1;
    for (*len = 0; got > 0 && *len < most;) {
        got = read(fd, (char *)bytes + *len, most - *len);
        if (got > 0)
            *len += (size_t)got;
        else if (got < 0 && errno == EINTR)
            got = 1;
    }
    return got >= 0;
}
