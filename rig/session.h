/* A setup that a command plays bursts on: held, read, and kept where they change it. What gives an exit status has said on
 * standard error what was wrong. */
#ifndef SESSION_H
#define SESSION_H

#include "commands.h"
#include "log.h"
#include "setup.h"

struct session {
    const char *path;
    const struct edition *edition;
    struct setup setup;
    int held;                           /* or -1 while another program has the setup */
    pid_t holder;                       /* that one */
    struct log log;                     /* its path is NULL where none is wanted */
};

/* The setup is held from before it is read. Where another program has it, it is read all the same. */
int open_session(const struct playing *playing, struct session *session);

/* Plays something on the session's setup, which gives the library's refusal of the setup, or 0 and the setup after it; and
 * keeps that where it is another. A setup that another program has is read anew, and held only for what would change it, which
 * is then played on what it is by now. */
int play_and_keep(struct session *session, uint32_t play(const struct session *session, void *of), void *of,
                  const struct setup *after);

#endif
