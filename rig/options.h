/* The options that rig play, rig scene and rig serve share. */
#ifndef OPTIONS_H
#define OPTIONS_H

#include "edition.h"

/* One option and the text behind it: --sicp or --log, each at most once, so that its place is NULL before. The status is
 * MISFIT for any other. */
int read_shared_option(const char *name, const char *text, const struct edition **edition, const char **log);

#endif
