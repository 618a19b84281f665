/* The arguments of rig serve */
#define _POSIX_C_SOURCE 200809L

#include <stdbool.h>
#include <stdio.h>
#include <string.h>

#include "clock.h"
#include "commands.h"
#include "device.h"
#include "options.h"
#include "status.h"

enum { LONGEST_QUIET = 60000, LEAST_USUAL_QUIET = 20 };  /* milliseconds */
/* 8N1 takes ten bits for a byte; the usual quiet is the time of three and a half. */
enum { BITS_OF_QUIET = 35 };

static bool number_of(const char *text, unsigned long most, unsigned long *number)
{
    *number = 0;
    const char *at = text;
    for (; *at >= '0' && *at <= '9' && *number <= most; at++)
        *number = 10 * *number + (unsigned long)(*at - '0');
    return at > text && *at == '\0' && *number <= most;
}

static int read_baud(const char *text, struct serving *serving)
{
    unsigned long baud;
    if (number_of(text, baud_rates[BAUD_RATES - 1], &baud) && is_baud_rate(baud)) {
        serving->baud = (unsigned)baud;
        return DONE;
    }
    fprintf(stderr, "rig: %s is no baud rate of SICP; these are", text);
    for (unsigned k = 0; k < BAUD_RATES; k++)
        fprintf(stderr, "%s %u", k > 0 ? "," : "", baud_rates[k]);
    fputc('\n', stderr);
    return BAD;
}

static int read_quiet(const char *text, struct serving *serving)
{
    unsigned long quiet;
    if (number_of(text, LONGEST_QUIET, &quiet) && quiet > 0) {
        serving->quiet = (int64_t)quiet * MILLISECOND;
        return DONE;
    }
    fprintf(stderr, "rig: %s is no quiet; give whole milliseconds from 1 to %d\n", text, LONGEST_QUIET);
    return BAD;
}

static int read_option(const char *name, const char *text, struct serving *serving)
{
    if (strcmp(name, "--baud") == 0 && !serving->baud)
        return read_baud(text, serving);
    if (strcmp(name, "--quiet") == 0 && !serving->quiet)
        return read_quiet(text, serving);
    return read_shared_option(name, text, &serving->edition, &serving->log);
}

static int64_t usual_quiet(unsigned baud)
{
    int64_t bytes = (int64_t)BITS_OF_QUIET * SECOND / baud, least = (int64_t)LEAST_USUAL_QUIET * MILLISECOND;
    return bytes > least ? bytes : least;
}

/* DEVICE and IMAGE, then options, each at most once. */
int read_serving(int count, char **given, struct serving *serving)
{
    if (count < 2 || count % 2 != 0)
        return MISFIT;
    *serving = (struct serving){.device = given[0], .image = given[1]};
    for (int i = 2; i < count; i += 2) {
        int status = read_option(given[i], given[i + 1], serving);
        if (status != DONE)
            return status;
    }
    if (!serving->edition)
        serving->edition = &editions[USUAL_EDITION];
    if (!serving->baud)
        serving->baud = USUAL_BAUD;
    if (!serving->quiet)
        serving->quiet = usual_quiet(serving->baud);
    return DONE;
}
