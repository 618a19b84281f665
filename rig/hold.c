#define _DEFAULT_SOURCE

#include "hold.h"

#include <fcntl.h>
#include <sys/file.h>
#include <unistd.h>

/* The lock that keeps others off is flock's: it goes with this descriptor alone. Beside it stands a shared one of fcntl's,
 * which keeps nobody off and has its process's number; it goes with any descriptor of the file that the process closes. */
bool hold_alone(int fd)
{
    if (flock(fd, LOCK_EX | LOCK_NB) != 0)
        return false;
    fcntl(fd, F_SETLK, &(struct flock){.l_type = F_RDLCK, .l_whence = SEEK_SET});
    return true;
}

pid_t holder_of(int fd)
{
    struct flock mark = {.l_type = F_WRLCK, .l_whence = SEEK_SET};
    return fcntl(fd, F_GETLK, &mark) == 0 && mark.l_type == F_RDLCK && mark.l_pid > 0 ? mark.l_pid : 0;
}
