#include "options.h"

#include <stdio.h>
#include <string.h>

#include "status.h"

static int read_sicp(const char *text, const struct edition **edition)
{
    *edition = edition_by_name(text);
    if (*edition)
        return DONE;
    fprintf(stderr, "rig: %s is no edition of SICP that the box speaks; give %s or %s\n", text, editions[SICP_1_85].name,
            editions[SICP_2_01].name);
    return BAD;
}

int read_shared_option(const char *name, const char *text, const struct edition **edition, const char **log)
{
    if (strcmp(name, "--sicp") == 0 && !*edition)
        return read_sicp(text, edition);
    if (strcmp(name, "--log") != 0 || *log)
        return MISFIT;
    *log = text;
    return DONE;
}
