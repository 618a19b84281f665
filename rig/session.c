#include "session.h"

#include "status.h"

static int take_up(struct session *session)
{
    int status = hold(session->path, &session->held, &session->holder);
    return status == DONE ? load(session->path, session->held, &session->setup, NULL) : status;
}

int open_session(const struct playing *playing, struct session *session)
{
    *session = (struct session){.path = playing->image, .edition = playing->edition, .held = -1};
    session->log = (struct log){.path = playing->log, .fd = -1, .never = {&session->held, NULL}};
    int status = take_up(session);
    return status == DONE && playing->log ? open_log(&session->log, session->path) : status;
}

static int play_on(struct session *session, uint32_t play(const struct session *session, void *of), void *of,
                   const struct setup *after)
{
    int status = session->held < 0 ? load(session->path, -1, &session->setup, NULL) : DONE;
    while (status == DONE) {
        uint32_t refusal = play(session, of);
        if (refusal)
            return refused(session->path, refusal);
        if (session->held >= 0 || same_setup(after, &session->setup))
            return DONE;
        status = take_up(session);
        if (status == DONE && session->held < 0)
            return taken(session->path, session->holder);
    }
    return status;
}

int play_and_keep(struct session *session, uint32_t play(const struct session *session, void *of), void *of,
                  const struct setup *after)
{
    int status = play_on(session, play, of, after);
    if (status != DONE || same_setup(after, &session->setup))
        return status;
    status = keep(session->path, &session->held, after);
    if (status == DONE)
        session->setup = *after;
    return status;
}
