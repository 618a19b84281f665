/* The bench rig: bursts from a line or from a file, played on a setup that is kept in a file. */
#define _POSIX_C_SOURCE 200809L

#include <fcntl.h>
#include <signal.h>
#include <stdbool.h>
#include <stdio.h>
#include <string.h>
#include <unistd.h>

#include "commands.h"
#include "errors.h"
#include "status.h"

static const char usage[] =
    "usage: rig serve DEVICE IMAGE [--sicp EDITION] [--baud N] [--quiet MS] [--log FILE]   answers on a serial line\n"
    "       rig play IMAGE [--sicp EDITION] [--log FILE]   plays bursts from standard input, one in hex on each line\n"
    "       rig scene IMAGE SCENE [--sicp EDITION] [--log FILE]   plays the bursts of the file SCENE as one; - is standard input\n"
    "       rig new IMAGE [PANEL ...]     a new setup of up to 32 fresh panels, in this order\n"
    "       rig show IMAGE                the panels of a setup\n"
    "       rig diff A B                  what differs between two setups\n"
    "       rig back IMAGE NEW            the setup in form 1, for an older box, in a new file NEW\n"
    "       rig salvage IMAGE NEW         what can be kept of a setup that is refused, in a new file NEW\n"
    "\n"
    "DEVICE is a serial device or a pseudo-terminal. It is opened raw, 8N1, at N baud: 1200, 2400, 4800, 9600, 19200, 38400\n"
    "or 57600, and 9600 where nothing is said. MS milliseconds without a byte end a burst; where nothing is said it is the\n"
    "time of three and a half bytes, but at least 20 ms. SIGTERM and SIGINT end it between two bursts, SIGHUP opens the log\n"
    "anew. A setup that another rig has is refused; play then answers bursts that change nothing, and ends at one that would;\n"
    "a scene is played if it changes nothing.\n"
    "EDITION is the SICP that the hosts of the line speak: 1.85, whose packets have no group byte, or 2.01, which it is where\n"
    "nothing is said. It is never guessed.\n"
    "For play, a burst's bytes have two hex digits each, with or without spaces between bytes; an empty line is an empty\n"
    "burst. The answer is printed in hex, or - for silence. A scene has the same lines, but empty ones are left out, # begins\n"
    "a comment, and a burst has up to 255 bytes. All of it is played, or nothing where a line is wrong; IMAGE is written once,\n"
    "and then the answers are printed.\n"
    "IMAGE is written at each burst that changes a setting, before its answer goes out, and at no other time. With --log a\n"
    "line for each burst is put at the end of FILE, before its answer goes out: its number, which for play and scene is that\n"
    "of its line, the burst in hex, what it asks for or what was wrong with it, and the answer in words; for serve with the\n"
    "time in front. A PANEL is\n"
    "ID:GROUP[:phoenix][:15x10]: IDs are 1 to 255, groups 1 to 255, and group 255 is group off; a panel is general unless\n"
    ":phoenix is given, and of the 5 by 5 kind unless :15x10 is given, which is 15 wide and 10 high. Setups of form 1 and\n"
    "form 2 are read, and form 2 is written; form 1 has no Phoenix and no 15x10 panels, and no tiling. A setup that is\n"
    "refused with 16, 17 or 18 can be salvaged: each fault is printed with what it means, and IMAGE stays as it is.\n"
    "Exit status: 0 done, 1 the setup image was refused, 2 bad arguments, input or files, 3 the pseudo-terminal that was served\n"
    "went away; of diff: 0 alike, 1 different, 2 anything that was wrong.\n";

static int run_serve(int count, char **given)
{
    struct serving serving;
    never_wait_for_errors();
    int status = read_serving(count, given, &serving);
    return status == DONE ? serve(&serving) : status;
}

static int run_play(int count, char **given)
{
    struct playing playing;
    int status = read_playing(count, given, &playing);
    return status == DONE ? play(&playing) : status;
}

static int run_scene(int count, char **given)
{
    struct playing playing;
    int status = read_scene(count, given, &playing);
    return status == DONE ? play_scene(&playing) : status;
}

static int run_new(int count, char **given)
{
    return count >= 1 ? make_new(given[0], (size_t)count - 1, given + 1) : MISFIT;
}

static int run_show(int count, char **given)
{
    return count == 1 ? show(given[0]) : MISFIT;
}

static int run_diff(int count, char **given)
{
    return count == 2 ? diff(given[0], given[1]) : MISFIT;
}

static int run_back(int count, char **given)
{
    return count == 2 ? back(given[0], given[1]) : MISFIT;
}

static int run_salvage(int count, char **given)
{
    return count == 2 ? salvage(given[0], given[1]) : MISFIT;
}

static const struct command {
    const char *name;
    int (*run)(int count, char **given);
    const char *takes;
} commands[] = {
    {"serve", run_serve,
     "a DEVICE and an IMAGE, and then --sicp EDITION, --baud N, --quiet MS and --log FILE where they are wanted"},
    {"play", run_play, "one IMAGE, and then --sicp EDITION and --log FILE where they are wanted"},
    {"scene", run_scene, "an IMAGE and a SCENE, and then --sicp EDITION and --log FILE where they are wanted"},
    {"new", run_new, "an IMAGE and then panels"},
    {"show", run_show, "one IMAGE"},
    {"diff", run_diff, "two setups"},
    {"back", run_back, "an IMAGE and a NEW file"},
    {"salvage", run_salvage, "an IMAGE and a NEW file"},
};
enum { COMMANDS = sizeof commands / sizeof commands[0] };

static int misused(void)
{
    fputs(usage, stderr);
    return BAD;
}

/* A descriptor of the three that is closed would be given to a file, and what is printed would go there. */
static bool have_descriptors(void)
{
    for (int fd = STDIN_FILENO; fd <= STDERR_FILENO; fd++)
        if (fcntl(fd, F_GETFD) < 0 && open("/dev/null", O_RDWR) != fd)
            return false;
    return true;
}

int main(int argc, char **argv)
{
    if (!have_descriptors())
        return BAD;
    /* A limit on the size of files is a failure to write, and no end. */
    signal(SIGXFSZ, SIG_IGN);
    if (argc < 2) {
        fputs("rig: no command is given\n", stderr);
        return misused();
    }
    if (argc == 2 && (strcmp(argv[1], "--help") == 0 || strcmp(argv[1], "help") == 0)) {
        fputs(usage, stdout);
        return printed();
    }
    for (const struct command *c = commands; c < commands + COMMANDS; c++) {
        if (strcmp(argv[1], c->name) != 0)
            continue;
        int status = c->run(argc - 2, argv + 2);
        if (status != MISFIT)
            return status;
        fprintf(stderr, "rig: %s takes %s\n", c->name, c->takes);
        return misused();
    }
    fprintf(stderr, "rig: %s is no command\n", argv[1]);
    return misused();
}
