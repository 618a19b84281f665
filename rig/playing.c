/* The arguments of rig play and of rig scene */
#include "commands.h"
#include "options.h"
#include "status.h"

/* Behind the names: options, each at most once. */
static int read_options(int count, char **given, struct playing *playing)
{
    if (count % 2 != 0)
        return MISFIT;
    for (int i = 0; i < count; i += 2) {
        int status = read_shared_option(given[i], given[i + 1], &playing->edition, &playing->log);
        if (status != DONE)
            return status;
    }
    if (!playing->edition)
        playing->edition = &editions[USUAL_EDITION];
    return DONE;
}

int read_playing(int count, char **given, struct playing *playing)
{
    if (count < 1)
        return MISFIT;
    *playing = (struct playing){.image = given[0]};
    return read_options(count - 1, given + 1, playing);
}

int read_scene(int count, char **given, struct playing *playing)
{
    if (count < 2)
        return MISFIT;
    *playing = (struct playing){.image = given[0], .scene = given[1]};
    return read_options(count - 2, given + 2, playing);
}
