/* rig serve */
#define _GNU_SOURCE

#include <errno.h>
#include <poll.h>
#include <signal.h>
#include <stdio.h>
#include <stdlib.h>
#include <string.h>
#include <unistd.h>

#include "box.h"
#include "clock.h"
#include "commands.h"
#include "device.h"
#include "errors.h"
#include "log.h"
#include "receiver.h"
#include "sender.h"
#include "status.h"

enum { LOOKED_FOR_EVERY = 200 * MILLISECOND };          /* a device that is away */

struct server {
    const struct serving *serving;
    struct setup setup;
    int held;                           /* the setup's file */
    struct device device;
    struct receiver receiver;
    struct log log;
    unsigned long number;               /* of the last burst */
    struct sender sender;
    bool without_log, without_setup, unheard;   /* told already */
    bool log_moved;                     /* it is to be opened anew */
    sigset_t while_waiting;             /* the signals that are met come while it waits, and at no other time */
};

static volatile sig_atomic_t ending, hung_up;

static void end_soon(int number)
{
    (void)number;
    ending = 1;
}

static void open_log_soon(int number)
{
    (void)number;
    hung_up = 1;
}

/* One that the caller had ignored stays so. */
static void meet_end(int number)
{
    struct sigaction was;
    if (sigaction(number, NULL, &was) == 0 && was.sa_handler != SIG_IGN)
        sigaction(number, &(struct sigaction){.sa_handler = end_soon}, NULL);
}

/* A reader that is gone is a failure to write, and no end. */
static void meet_signals(sigset_t *while_waiting)
{
    static const int met[] = {SIGTERM, SIGINT, SIGHUP};
    sigset_t all;
    sigemptyset(&all);
    for (size_t k = 0; k < sizeof met / sizeof met[0]; k++)
        sigaddset(&all, met[k]);
    sigprocmask(SIG_BLOCK, &all, while_waiting);
    for (size_t k = 0; k < sizeof met / sizeof met[0]; k++)
        sigdelset(while_waiting, met[k]);
    meet_end(SIGTERM);
    meet_end(SIGINT);
    sigaction(SIGHUP, &(struct sigaction){.sa_handler = open_log_soon}, NULL);
    sigaction(SIGPIPE, &(struct sigaction){.sa_handler = SIG_IGN}, NULL);
}

/* A changed setup is kept, or the wall stays as it was. */
static bool keep_changed(struct server *server, const struct setup *after, struct failure *failure)
{
    const char *path = server->serving->image;
    if (same_setup(after, &server->setup))
        return true;
    enum kept kept = keep_setup(path, &server->held, after->bytes, after->len, failure);
    if (kept == KEPT) {
        server->setup = *after;
        if (server->without_setup)
            fprintf(stderr, "rig: %s is kept again\n", path);
        server->without_setup = false;
        return true;
    }
    if (kept == KEPT_UNSYNCED)          /* nobody may rely on it, so the old one is put back */
        keep_setup(path, &server->held, server->setup.bytes, server->setup.len, &(struct failure){NULL, NULL});
    if (!server->without_setup)
        fprintf(stderr, "rig: %s: cannot %s: %s; sets are not taken and not answered until it can be kept, gets are "
                "answered\n", path, failure->failed_at, failure->why);
    server->without_setup = true;
    return false;
}

/* A log is there to be written, or is not. */
static void meet_log(struct server *server, bool good)
{
    const char *path = server->serving->log;
    if (!good && !server->without_log)
        fprintf(stderr, "rig: cannot write to the log %s: %s; the box goes on, and tries again at each burst\n", path,
                log_error(errno));
    if (good && server->without_log)
        fprintf(stderr, "rig: the log %s is written again, from burst %lu on\n", path, server->number);
    server->without_log = !good;
}

static void remark(struct server *server, const struct remark *remark)
{
    if (server->serving->log)
        meet_log(server, try_remark(&server->log, remark));
}

/* After SIGHUP the file that has the log's name by then is the log; where it cannot be opened, lines go where they went. */
static void open_log_anew(struct server *server)
{
    const char *path = server->serving->log;
    bool told = server->log_moved;
    server->log_moved |= hung_up;
    hung_up = 0;
    if (!path || !server->log_moved)
        return;
    server->log_moved = !try_open_log(&server->log);
    if (server->log_moved && !told)
        fprintf(stderr, "rig: cannot open the log %s anew: %s; it goes on where it was, and tries again at each burst\n", path,
                log_error(errno));
}

static void tell_unsent(struct server *server, const struct reply *reply, enum sent sent)
{
    static const char *const about[] = {
        [DROPPED] = "the answer, which the line did not take in time",
        [BEGUN] = "the answer, of which the line took a part in time",
        [NO_LINE] = "the answer, which went to a device that is gone",
    };
    struct timespec at;
    clock_gettime(CLOCK_REALTIME, &at);
    remark(server, &(struct remark){&at, server->number, server->number, reply->answer, reply->len, about[sent],
                                    sent == BEGUN ? "the rest goes out in front of the next" : "dropped"});
    if (sent == NO_LINE || server->unheard)
        return;
    fprintf(stderr, "rig: %s: nobody takes the answers; from burst %lu on they are dropped until they are taken again; the box "
            "goes on\n", server->serving->device, server->number);
    server->unheard = true;
}

static void answer(struct server *server, const struct reply *reply)
{
    if (reply->len == 0)
        return;
    enum sent sent = send_answer(&server->sender, &server->device, reply->answer, reply->len);
    if (sent != SENT) {
        tell_unsent(server, reply, sent);
        return;
    }
    if (server->unheard)
        fprintf(stderr, "rig: %s: the answers are taken again, from burst %lu on\n", server->serving->device, server->number);
    server->unheard = false;
}

/* What the box says to a burst over 40 bytes goes by its second and third byte at most, so its front stands for it. */
static void serve_burst(struct server *server, const struct burst *burst)
{
    struct reply reply;
    struct failure failure;
    size_t shown = burst->len < BURST_FRONT ? burst->len : BURST_FRONT;
    uint32_t refusal = play_burst(server->serving->edition, &server->setup, burst->front, shown, &reply);
    if (refusal) {
        refused(server->serving->image, refusal);
        return;
    }
    bool kept = keep_changed(server, &reply.after, &failure);
    struct played played = {++server->number, &burst->at, server->serving->edition, burst->front, burst->len, shown, &reply,
                            kept ? NULL : &failure};
    if (server->serving->log)
        meet_log(server, try_log(&server->log, &played));
    if (kept)
        answer(server, &reply);
}

/* They have numbers as those that are played. */
static void tell_lost(struct server *server, const struct burst *burst)
{
    char about[80];
    unsigned long first = server->number + 1;
    server->number += burst->lost;
    fprintf(stderr, "rig: %s: %lu burst%s lost: %d were waiting already; what comes behind is whole again\n",
            server->serving->device, burst->lost, burst->lost == 1 ? " was" : "s were", WAITING_BURSTS);
    snprintf(about, sizeof about, "%lu burst%s for which there was no room, since %d were waiting", burst->lost,
             burst->lost == 1 ? "" : "s", WAITING_BURSTS);
    remark(server, &(struct remark){&burst->lost_at, first, server->number, NULL, 0, about, "lost"});
}

/* Signals come in here, also where bursts wait and there is nothing to be waited for. */
static void meet_what_came(struct server *server)
{
    ppoll(NULL, 0, &(struct timespec){0, 0}, &server->while_waiting);
    open_log_anew(server);
    if (ending)
        stop_receiver(&server->receiver);
}

/* Until the device is gone, or a signal ends the program between two bursts. */
static void serve_device(struct server *server)
{
    for (bool more = true; more;) {
        struct burst burst;
        meet_what_came(server);
        if (!next_burst(&server->receiver, &server->while_waiting, &burst))
            continue;
        if (burst.lost > 0)
            tell_lost(server, &burst);
        if (burst.len > 0)
            serve_burst(server, &burst);
        more = burst.lost > 0 || burst.len > 0;
    }
    close_device(&server->device);
}

static void tell_old_bytes(const struct server *server)
{
    size_t dropped = server->device.dropped;
    if (dropped > 0)
        fprintf(stderr, "rig: %s: %zu byte%s from before it was opened %s dropped\n", server->serving->device, dropped,
                dropped == 1 ? "" : "s", dropped == 1 ? "is" : "are");
}

enum opened { OPENED, NO_DEVICE, NO_THREAD };           /* what is not opened, with errno */

static enum opened open_line(struct server *server, pid_t *holder)
{
    struct device device;
    if (!open_device(&device, server->serving->device, server->serving->baud, holder))
        return NO_DEVICE;
    if (!start_receiver(&server->receiver, device.fd)) {
        int error = errno;
        close_device(&device);
        errno = error;
        return NO_THREAD;
    }
    server->device = device;
    server->sender = (struct sender){.stuck = false};
    return OPENED;
}

static int line_not_opened(const struct serving *serving, enum opened opened, pid_t holder)
{
    if (opened == NO_THREAD)
        return not_done("make a thread to read", serving->device);
    if (errno == EWOULDBLOCK)
        return taken(serving->device, holder);
    if (errno == ENOTTY)
        fprintf(stderr, "rig: %s is no serial device\n", serving->device);
    else if (errno == EINVAL)
        fprintf(stderr, "rig: %s does not take 8N1 at %u baud; give another rate with --baud\n", serving->device,
                serving->baud);
    else
        return not_done("open", serving->device);
    return BAD;
}

/* DONE where it is back, or where the program is to end before. */
static int wait_for_device(struct server *server)
{
    const char *path = server->serving->device;
    if (!may_come_back(&server->device)) {
        fprintf(stderr, "rig: %s went away; a pseudo-terminal that has this name next may be somebody else's, so it is not "
                "opened again; name a link that is made anew with it, as socat's link= is\n", path);
        return GONE;
    }
    fprintf(stderr, "rig: %s went away; it is opened again when it comes back\n", path);
    do {
        ppoll(NULL, 0, &(struct timespec){0, LOOKED_FOR_EVERY}, &server->while_waiting);
        open_log_anew(server);
    } while (!ending && !(is_back(&server->device, path) && open_line(server, &(pid_t){0}) == OPENED));
    if (!ending) {
        fprintf(stderr, "rig: %s is back\n", path);
        tell_old_bytes(server);
    }
    return DONE;
}

static int hold_and_load(struct server *server)
{
    const char *image = server->serving->image;
    pid_t holder = 0;
    int status = hold(image, &server->held, &holder);
    if (status == DONE && server->held < 0)
        status = taken(image, holder);
    return status == DONE ? load(image, server->held, &server->setup, NULL) : status;
}

static int open_server(struct server *server)
{
    const struct serving *serving = server->serving;
    int status = hold_and_load(server);
    if (status == DONE && serving->log)
        status = log_is_not(serving->log, serving->image, "setup");
    if (status == DONE && serving->log)
        status = log_is_not(serving->log, serving->device, "device");
    if (status != DONE)
        return status;
    if (!make_receiver(&server->receiver, serving->quiet))
        return not_done("make a receiver for", serving->device);
    pid_t holder = 0;
    enum opened opened = open_line(server, &holder);
    return opened == OPENED ? DONE : line_not_opened(serving, opened, holder);
}

static void tell_ready(const struct serving *serving)
{
    char *line;
    int len = asprintf(&line, "serving %s on %s at %u baud, SICP %s, a burst ends after %.*f ms of quiet\n", serving->image,
                       serving->device, serving->baud, serving->edition->name, serving->quiet % MILLISECOND ? 1 : 0,
                       (double)serving->quiet / MILLISECOND);
    if (len < 0)
        return;
    write_in_a_moment(STDOUT_FILENO, line, (size_t)len);
    free(line);
}

int serve(const struct serving *serving)
{
    static struct server server = {.held = -1, .device = {.fd = -1},
                                   .log = {.fd = -1, .never = {&server.held, &server.device.fd}}};
    server.serving = serving;
    server.log.path = serving->log;
    meet_signals(&server.while_waiting);
    int status = open_server(&server);
    if (status != DONE)
        return status;
    tell_old_bytes(&server);
    if (serving->log)
        meet_log(&server, try_open_log(&server.log));
    tell_ready(serving);
    do {
        serve_device(&server);
        if (!ending)
            status = wait_for_device(&server);
    } while (!ending && status == DONE);
    return status;
}
