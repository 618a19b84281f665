/* rig play */
#define _POSIX_C_SOURCE 200809L

#include <stdio.h>
#include <stdlib.h>

#include "box.h"
#include "commands.h"
#include "hex.h"
#include "session.h"
#include "status.h"

struct turn {
    const uint8_t *burst;
    size_t len;
    struct reply reply;
};

static uint32_t play_turn(const struct session *session, void *of)
{
    struct turn *turn = of;
    return play_burst(session->edition, &session->setup, turn->burst, turn->len, &turn->reply);
}

/* The answer is printed last: one that was printed speaks of a setup that is kept, and stands in the log. */
static int play_one(struct session *session, unsigned long number, const uint8_t *burst, size_t len)
{
    struct turn turn = {.burst = burst, .len = len};
    int status = play_and_keep(session, play_turn, &turn, &turn.reply.after);
    if (status == DONE && session->log.path)
        status = log_burst(&session->log, &(struct played){.number = number, .edition = session->edition, .burst = burst,
                                                           .len = len, .shown = len, .reply = &turn.reply});
    if (status != DONE)
        return status;
    print_answer(turn.reply.answer, turn.reply.len);
    return printed();
}

static int play_lines(struct session *session)
{
    int status = DONE;
    char *line = NULL;
    size_t cap = 0;
    ssize_t len;
    for (unsigned long number = 1; status == DONE && (len = getline(&line, &cap, stdin)) >= 0; number++) {
        uint8_t *burst = (uint8_t *)line;
        size_t count, place;
        if (read_hex(line, (size_t)len, burst, cap, &count, &place) == HEX_GOOD) {
            status = play_one(session, number, burst, count);
        } else {
            fprintf(stderr, "rig: line %lu, place %zu: %s; the lines before were played\n", number, place, hex_rule);
            status = BAD;
        }
    }
    if (status == DONE && !feof(stdin))
        status = not_done("read", "standard input");
    free(line);
    return status;
}

int play(const struct playing *playing)
{
    struct session session;
    int status = open_session(playing, &session);
    if (status == DONE && session.held < 0) {
        taken(session.path, session.holder);
        fprintf(stderr, "rig: until then %s is looked at: a burst that would change it ends this program\n", session.path);
    }
    return status == DONE ? play_lines(&session) : status;
}
