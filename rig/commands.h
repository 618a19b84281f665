/* The commands of the rig: each gives its exit status, and has said on standard error what was wrong. */
#ifndef COMMANDS_H
#define COMMANDS_H

#include <stddef.h>
#include <stdint.h>

#include "edition.h"

/* What `rig play` and `rig scene` are given. */
struct playing {
    const char *image;
    const char *scene;                  /* of `rig scene`: the file, or - */
    const struct edition *edition;
    const char *log;                    /* or NULL */
};
/* From their arguments; the status may be MISFIT. */
int read_playing(int count, char **given, struct playing *playing);
int read_scene(int count, char **given, struct playing *playing);
int play(const struct playing *playing);
int play_scene(const struct playing *playing);

/* What `rig serve` is given. */
struct serving {
    const char *device, *image;
    const struct edition *edition;
    const char *log;                    /* or NULL */
    unsigned baud;
    int64_t quiet;                      /* nanoseconds */
};
/* From its arguments; the status may be MISFIT. */
int read_serving(int count, char **given, struct serving *serving);
int serve(const struct serving *serving);

int make_new(const char *path, size_t count, char **panels);
int show(const char *path);
/* Its exit status is diff's: 0 alike, 1 different, 2 anything that was wrong. */
int diff(const char *path, const char *other_path);
int back(const char *path, const char *new_path);
int salvage(const char *path, const char *new_path);

#endif
