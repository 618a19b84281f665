#include "status.h"

#include <errno.h>
#include <stdio.h>
#include <string.h>

#include "names.h"

int refused(const char *path, uint32_t refusal)
{
    fprintf(stderr, "rig: %s: refusal %u: %s\n", path, (unsigned)refusal, refusal_words(refusal));
    return REFUSED;
}

int not_done(const char *what, const char *path)
{
    fprintf(stderr, "rig: cannot %s %s: %s\n", what, path, strerror(errno));
    return BAD;
}

int taken(const char *path, pid_t holder)
{
    fprintf(stderr, "rig: %s is taken: another rig is at work on it; end that one first", path);
    if (holder)
        fprintf(stderr, " (process %ld)\n", (long)holder);
    else
        fprintf(stderr, "; fuser %s names it\n", path);
    return BAD;
}

int printed(void)
{
    return fflush(stdout) == 0 && !ferror(stdout) ? DONE : not_done("write to", "standard output");
}
