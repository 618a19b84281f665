/* rig scene */
#define _POSIX_C_SOURCE 200809L

#include <errno.h>
#include <fcntl.h>
#include <stdio.h>
#include <stdlib.h>
#include <string.h>
#include <sys/stat.h>
#include <unistd.h>

#include "box.h"
#include "commands.h"
#include "hex.h"
#include "read_up_to.h"
#include "session.h"
#include "status.h"

enum {
    SCENE_LIMIT = 1 << 20,              /* bytes of its text */
    MOST_BURSTS = SCENE_LIMIT / 2,      /* each has at least two digits */
    LONGEST_BURST = 255                 /* the list's count is one byte */
};

struct scene {
    const char *name;                   /* of its file, for messages */
    size_t text_len, list_len, bursts;
    struct setup after;
    char text[SCENE_LIMIT + 1];
    uint8_t list[SCENE_LIMIT + 1];
    unsigned long lines[MOST_BURSTS];   /* of the file, from 1: where each burst stands */
    uint8_t answers[MOST_BURSTS * UNDIVARRO_BATCH_CAP];
};

static bool written_between(const struct stat *before, const struct stat *after)
{
    return S_ISREG(before->st_mode) && (before->st_size != after->st_size || before->st_mtim.tv_sec != after->st_mtim.tv_sec
                                        || before->st_mtim.tv_nsec != after->st_mtim.tv_nsec);
}

static int read_text(struct scene *scene, int fd)
{
    struct stat before, after;
    if (fstat(fd, &before) != 0 || !read_up_to(fd, scene->text, sizeof scene->text, &scene->text_len) || fstat(fd, &after) != 0)
        return not_done("read", scene->name);
    if (scene->text_len > SCENE_LIMIT) {
        fprintf(stderr, "rig: %s: over %d bytes; a scene has at most that; no burst was played; play it in parts\n", scene->name,
                SCENE_LIMIT);
        return BAD;
    }
    if (written_between(&before, &after)) {
        fprintf(stderr, "rig: %s was written to while it was read; no burst was played; play it when it is whole\n",
                scene->name);
        return BAD;
    }
    return DONE;
}

static bool is_standard_input(const char *file)
{
    return strcmp(file, "-") == 0;
}

static int read_file(struct scene *scene, const char *file)
{
    if (is_standard_input(file)) {
        scene->name = "standard input";
        return read_text(scene, STDIN_FILENO);
    }
    scene->name = file;
    int fd = open(file, O_RDONLY | O_NOCTTY | O_CLOEXEC);
    if (fd < 0)
        return not_done("read", file);
    int status = read_text(scene, fd);
    close(fd);
    return status;
}

/* The burst of a line, if it has one, is put behind the list. */
static int add_line(struct scene *scene, unsigned long line, const char *text, size_t len)
{
    uint8_t *to = scene->list + scene->list_len;
    size_t count, place;
    enum hex hex = read_hex(text, len, to + 1, LONGEST_BURST, &count, &place);
    if (hex == HEX_WRONG)
        fprintf(stderr, "rig: %s, line %lu, place %zu: %s; a comment begins with #; no burst was played; mend the line and play "
                "the scene again\n", scene->name, line, place, hex_rule);
    if (hex == HEX_TOO_LONG)
        fprintf(stderr, "rig: %s, line %lu, place %zu: byte %d of a burst, and in a scene it has at most %d; no burst was played; "
                "end the line before it, or play the burst with rig play\n", scene->name, line, place, LONGEST_BURST + 1,
                LONGEST_BURST);
    if (hex != HEX_GOOD)
        return BAD;
    if (count > 0) {
        to[0] = (uint8_t)count;
        scene->list_len += 1 + count;
        scene->lines[scene->bursts++] = line;
    }
    return DONE;
}

static int read_lines(struct scene *scene)
{
    const char *at = scene->text, *end = at + scene->text_len;
    int status = DONE;
    for (unsigned long line = 1; status == DONE && at < end; line++) {
        const char *line_end = memchr(at, '\n', (size_t)(end - at));
        if (!line_end)
            line_end = end;
        const char *comment = memchr(at, '#', (size_t)(line_end - at));
        status = add_line(scene, line, at, (size_t)((comment ? comment : line_end) - at));
        at = line_end < end ? line_end + 1 : end;
    }
    if (status == DONE && scene->bursts == 0)
        fprintf(stderr, "rig: %s has no bursts, so nothing is played\n", scene->name);
    return status;
}

static uint32_t play_all(const struct session *session, void *of)
{
    struct scene *scene = of;
    return play_list(session->edition, &session->setup, scene->list, scene->list_len, scene->answers, sizeof scene->answers,
                     &scene->after);
}

static int log_all(struct session *session, const struct scene *scene)
{
    const uint8_t *burst = scene->list, *answer = scene->answers;
    for (size_t k = 0; k < scene->bursts; k++) {
        struct reply reply = {.len = answer[0], .damage = burst_damage(session->edition, burst + 1, burst[0])};
        memcpy(reply.answer, answer + 1, answer[0]);
        if (!try_log(&session->log, &(struct played){.number = scene->lines[k], .edition = session->edition, .burst = burst + 1,
                                                     .len = burst[0], .shown = burst[0], .reply = &reply})) {
            fprintf(stderr, "rig: cannot write to the log %s: %s; all of the scene was played, but its answers are held back; "
                    "make room for the log, or name another\n", session->log.path, log_error(errno));
            return BAD;
        }
        burst += 1 + burst[0];
        answer += 1 + answer[0];
    }
    return DONE;
}

static int print_all(const struct scene *scene)
{
    const uint8_t *answer = scene->answers;
    for (size_t k = 0; k < scene->bursts; k++) {
        print_answer(answer + 1, answer[0]);
        answer += 1 + answer[0];
    }
    return printed();
}

/* Read whole before the setup is held. Answers are printed last: what was printed speaks of a setup that is kept, and all of
 * the scene stands in the log. */
static int run(struct scene *scene, const struct playing *playing)
{
    struct session session;
    int status = read_file(scene, playing->scene);
    if (status == DONE)
        status = read_lines(scene);
    if (status == DONE && playing->log && !is_standard_input(playing->scene))
        status = log_is_not(playing->log, playing->scene, "scene");
    if (status == DONE)
        status = open_session(playing, &session);
    if (status == DONE)
        status = play_and_keep(&session, play_all, scene, &scene->after);
    if (status == DONE && playing->log)
        status = log_all(&session, scene);
    return status == DONE ? print_all(scene) : status;
}

int play_scene(const struct playing *playing)
{
    struct scene *scene = calloc(1, sizeof *scene);
    if (!scene)
        return not_done("make room for", playing->scene);
    int status = run(scene, playing);
    free(scene);
    return status;
}
