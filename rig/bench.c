/* Guest instructions per call, the proved box and the plain one, on a wall of 32 panels. Runs under qemu-x86_64 with the
 * counting plugin: make bench. */
#define _GNU_SOURCE

#include <fcntl.h>
#include <inttypes.h>
#include <stdbool.h>
#include <stdio.h>
#include <stdlib.h>
#include <string.h>
#include <unistd.h>

#include "bench_bursts.h"
#include "bench_images.h"
#include "count.h"
#include "plain.h"

typedef struct undivarro_result play_function(const uint8_t *, size_t, const uint8_t *, size_t, uint8_t *, size_t, uint8_t *,
                                              size_t);
typedef struct undivarro_result play_on_function(uint32_t, const uint8_t *, size_t, const uint8_t *, size_t, uint8_t *, size_t,
                                                 uint8_t *, size_t);
typedef struct undivarro_result read_function(const uint8_t *, size_t, uint8_t *, size_t);

static int count_from, count_to;        /* the pipe through which the counts come */

static uint64_t count_now(void)
{
    uint64_t count;
    syscall(ASK_FOR_COUNT, count_to);
    if (read(count_from, &count, sizeof count) != sizeof count) {
        fputs("bench: nothing counts here; run it with make bench\n", stderr);
        exit(2);
    }
    return count;
}

/* A call that does nothing: what stands around each call is counted with it and taken off. */
static struct undivarro_result no_play(const uint8_t *image, size_t image_len, const uint8_t *burst, size_t burst_len,
                                       uint8_t *answer, size_t answer_cap, uint8_t *out, size_t out_cap)
{
    (void)image, (void)image_len, (void)burst, (void)burst_len, (void)answer, (void)answer_cap, (void)out, (void)out_cap;
    return (struct undivarro_result){0};
}

static struct undivarro_result no_play_on(uint32_t edition, const uint8_t *image, size_t image_len, const uint8_t *burst,
                                          size_t burst_len, uint8_t *answer, size_t answer_cap, uint8_t *out, size_t out_cap)
{
    (void)edition;
    return no_play(image, image_len, burst, burst_len, answer, answer_cap, out, out_cap);
}

static struct undivarro_result no_read(const uint8_t *image, size_t image_len, uint8_t *out, size_t out_cap)
{
    (void)image, (void)image_len, (void)out, (void)out_cap;
    return (struct undivarro_result){0};
}

struct outcome {
    struct undivarro_result result;
    uint8_t answer[UNDIVARRO_ANSWER_CAP], out[UNDIVARRO_IMAGE_CAP];
};

/* A salvage as a reading, with its lines apart. */
static uint8_t proved_lines[UNDIVARRO_LINES_CAP], plain_lines[UNDIVARRO_LINES_CAP];

static struct undivarro_result proved_salvage(const uint8_t *image, size_t image_len, uint8_t *out, size_t out_cap)
{
    return undivarro_salvage(image, image_len, proved_lines, sizeof proved_lines, out, out_cap);
}

static struct undivarro_result plain_salvaged(const uint8_t *image, size_t image_len, uint8_t *out, size_t out_cap)
{
    return plain_salvage(image, image_len, plain_lines, sizeof plain_lines, out, out_cap);
}

/* noipa: one piece of code for all, so that what stands around a call is the same for each. Aligned: so is the stack below it,
 * whatever the environment, and a copy there takes as many instructions at each run. */
__attribute__((noipa)) static uint64_t count_play(play_function *function, const struct image *image, const uint8_t *burst,
                                                  size_t len, struct outcome *o)
{
    _Alignas(64) volatile uint64_t before = count_now();
    o->result = function(image->bytes, image->len, burst, len, o->answer, sizeof o->answer, o->out, sizeof o->out);
    return count_now() - before;
}

__attribute__((noipa)) static uint64_t count_play_on(play_on_function *function, uint32_t edition, const struct image *image,
                                                     const uint8_t *burst, size_t len, struct outcome *o)
{
    _Alignas(64) volatile uint64_t before = count_now();
    o->result = function(edition, image->bytes, image->len, burst, len, o->answer, sizeof o->answer, o->out, sizeof o->out);
    return count_now() - before;
}

__attribute__((noipa)) static uint64_t count_read(read_function *function, const struct image *image, struct outcome *o)
{
    _Alignas(64) volatile uint64_t before = count_now();
    o->result = function(image->bytes, image->len, o->out, sizeof o->out);
    return count_now() - before;
}

static void check(const char *what, bool good)
{
    if (good)
        return;
    fprintf(stderr, "bench: %s: the two differ, or refuse; run make rig-test\n", what);
    exit(1);
}

static void check_same(const char *what, const struct outcome *proved, const struct outcome *plain)
{
    check(what, memcmp(proved, plain, sizeof *proved) == 0 && memcmp(proved_lines, plain_lines, sizeof plain_lines) == 0
          && proved->result.refusal == 0);
}

struct cost {
    uint64_t proved, plain;
};

static void print_head(const char *what, const char *one, const char *other)
{
    printf("| %s | %s | %s | %s / %s |\n|---|---|---|---|\n", what, one, other, one, other);
}

static void print_figures(const char *what, uint64_t one, uint64_t other)
{
    printf("| %s | %" PRIu64 " | %" PRIu64 " | %.2f |\n", what, one, other, (double)one / (double)other);
}

static void print_row(const char *what, struct cost cost)
{
    print_figures(what, cost.proved, cost.plain);
}

enum { EACH = -1, ALL = 0, ABSENT = PANELS + 1 };

struct trial {
    const char *what;
    const struct image *image;
    unsigned edition;                   /* of the line */
    const uint8_t *data;
    size_t len;                         /* of the data */
    int id;                             /* or EACH panel's in turn */
    uint8_t group, spoil;
};

static const uint8_t get_power[] = {0x19};
static const uint8_t set_video[] = {0x32, 10, 20, 30, 40, 60, 70, 2};
static const uint8_t set_fan[] = {0x61, 4};
static const uint8_t set_tiling[] = {0x22, 1, 0, 2, 8};
static const struct trial trials[] = {
    {"get of power, 5 bytes, to one of 32, form 2", &form_2, SICP_2_01, get_power, sizeof get_power, EACH, 0, 0},
    {"set of video, 12 bytes, to one of 32, form 2", &form_2, SICP_2_01, set_video, sizeof set_video, EACH, 0, 0},
    {"set of fan, 6 bytes, to all 32, form 2", &form_2, SICP_2_01, set_fan, sizeof set_fan, ALL, 0, 0},
    {"set of video, 12 bytes, to all 32, form 2", &form_2, SICP_2_01, set_video, sizeof set_video, ALL, 0, 0},
    {"set of tiling, 9 bytes, to all 32, form 2", &form_2, SICP_2_01, set_tiling, sizeof set_tiling, ALL, 0, 0},
    {"damaged burst, 5 bytes, for one of 32 (NACK), form 2", &form_2, SICP_2_01, get_power, sizeof get_power, EACH, 0, 1},
    {"get of power, 5 bytes, to the first of 32, form 2", &form_2, SICP_2_01, get_power, sizeof get_power, 1, 0, 0},
    {"get of power, 5 bytes, to the last of 32, form 2", &form_2, SICP_2_01, get_power, sizeof get_power, PANELS, 0, 0},
    {"get of power, 5 bytes, to an ID that is not there, form 2", &form_2, SICP_2_01, get_power, sizeof get_power, ABSENT, 0, 0},
    {"set of fan, 6 bytes, to a group without panels, form 2", &form_2, SICP_2_01, set_fan, sizeof set_fan, ALL, 8, 0},
    {"set of fan, 6 bytes, to a group with one panel, form 2", &one_apart, SICP_2_01, set_fan, sizeof set_fan, ALL, 8, 0},
    {"set of fan, 6 bytes, to a group with all 32, form 2", &form_2, SICP_2_01, set_fan, sizeof set_fan, ALL, 9, 0},
    {"on 1.85, get of power, 4 bytes, to one of 32, form 2", &form_2, SICP_1_85, get_power, sizeof get_power, EACH, 0, 0},
    {"on 1.85, set of video, 11 bytes, to one of 32, form 2", &form_2, SICP_1_85, set_video, sizeof set_video, EACH, 0, 0},
};
enum { TRIALS = sizeof trials / sizeof trials[0] };

/* One implementation: of a 2.01 line the call that takes no edition. */
struct box {
    play_function *play;
    play_on_function *play_on;
};

static const struct box nothing = {no_play, no_play_on}, proved_box = {undivarro_play, undivarro_play_on},
    plain_box = {plain_play, plain_play_on};

static uint64_t count_burst(const struct box *box, const struct trial *t, const uint8_t *burst, size_t len, struct outcome *o)
{
    if (t->edition == SICP_2_01)
        return count_play(box->play, t->image, burst, len, o);
    return count_play_on(box->play_on, editions[t->edition].number, t->image, burst, len, o);
}

/* One burst for each panel in turn, the mean of all; where not each is named, all 32 calls are alike. */
static struct cost cost_of_play(const struct trial *t)
{
    static struct outcome proved, plain, none;
    uint64_t proved_sum = 0, plain_sum = 0;
    for (unsigned k = 0; k < PANELS; k++) {
        uint8_t burst[UNDIVARRO_ANSWER_CAP];
        size_t len = make_packet(&editions[t->edition], (uint8_t)(t->id == EACH ? (int)k + 1 : t->id), t->group, t->data, t->len,
                                 t->spoil, burst);
        uint64_t around = count_burst(&nothing, t, burst, len, &none);
        proved_sum += count_burst(&proved_box, t, burst, len, &proved) - around;
        plain_sum += count_burst(&plain_box, t, burst, len, &plain) - around;
        check_same(t->what, &proved, &plain);
    }
    return (struct cost){proved_sum / PANELS, plain_sum / PANELS};
}

struct reading {
    const char *what;
    const struct image *image;
    read_function *proved, *plain;
};

/* The first is what every call above does with its image. */
static const struct reading readings[] = {
    {"image of 32, form 2 read and written", &form_2, undivarro_read, plain_read},
    {"image of 32, form 1 read, form 2 written", &form_1, undivarro_read, plain_read},
    {"image of 32, form 2 read, form 1 written", &form_2, undivarro_back, plain_back},
    {"image of 32, form 2 salvaged, no fault", &form_2, proved_salvage, plain_salvaged},
    {"image of 32, form 2 salvaged, eleven faults in each record", &wreck, proved_salvage, plain_salvaged},
};
enum { READINGS = sizeof readings / sizeof readings[0] };

static struct cost cost_of_reading(const struct reading *r)
{
    static struct outcome proved, plain, none;
    uint64_t around = count_read(no_read, r->image, &none);
    uint64_t by_proved = count_read(r->proved, r->image, &proved) - around;
    uint64_t by_plain = count_read(r->plain, r->image, &plain) - around;
    check_same(r->what, &proved, &plain);
    return (struct cost){by_proved, by_plain};
}

/* A scene in one call, as a play whose answers are apart. */
static uint8_t proved_answers[SCENE_BURSTS * UNDIVARRO_BATCH_CAP], plain_answers[SCENE_BURSTS * UNDIVARRO_BATCH_CAP];

static struct undivarro_result proved_batch(const uint8_t *image, size_t image_len, const uint8_t *list, size_t list_len,
                                            uint8_t *answer, size_t answer_cap, uint8_t *out, size_t out_cap)
{
    (void)answer, (void)answer_cap;
    return undivarro_batch(image, image_len, list, list_len, proved_answers, sizeof proved_answers, out, out_cap);
}

static struct undivarro_result plain_batched(const uint8_t *image, size_t image_len, const uint8_t *list, size_t list_len,
                                             uint8_t *answer, size_t answer_cap, uint8_t *out, size_t out_cap)
{
    (void)answer, (void)answer_cap;
    return plain_batch(image, image_len, list, list_len, plain_answers, sizeof plain_answers, out, out_cap);
}

static const char in_one_call[] = "scene of 1,000 bursts, in one call, form 2";
static const char in_calls[] = "the same bursts, in 1,000 calls, form 2";

static struct cost cost_of_scene(const struct scene *scene, struct outcome *proved)
{
    static struct outcome plain, none;
    uint64_t around = count_play(no_play, &four_groups, scene->list, scene->len, &none);
    uint64_t by_proved = count_play(proved_batch, &four_groups, scene->list, scene->len, proved) - around;
    uint64_t by_plain = count_play(plain_batched, &four_groups, scene->list, scene->len, &plain) - around;
    check_same(in_one_call, proved, &plain);
    check(in_one_call, memcmp(proved_answers, plain_answers, sizeof plain_answers) == 0);
    return (struct cost){by_proved, by_plain};
}

/* Each burst on the image of the one before; answers and last image are those of the one call. */
static struct cost cost_of_calls(const struct scene *scene, const struct outcome *batch)
{
    static struct outcome proved, plain, none;
    static struct image image;
    struct cost sum = {0, 0};
    const uint8_t *answer = proved_answers;
    image = four_groups;
    for (const uint8_t *at = scene->list; at < scene->list + scene->len; at += 1u + *at) {
        uint64_t around = count_play(no_play, &image, at + 1, *at, &none);
        sum.proved += count_play(undivarro_play, &image, at + 1, *at, &proved) - around;
        sum.plain += count_play(plain_play, &image, at + 1, *at, &plain) - around;
        check_same(in_calls, &proved, &plain);
        check(in_calls, answer[0] == proved.result.answer_len && memcmp(answer + 1, proved.answer, answer[0]) == 0);
        answer += 1u + answer[0];
        memcpy(image.bytes, proved.out, image.len);
    }
    check(in_calls, memcmp(batch->out, proved.out, sizeof proved.out) == 0);
    return sum;
}

static void print_scene(struct cost one_call, struct cost calls)
{
    print_head("scene of 1,000 bursts", "one call", "1,000 calls");
    print_figures("proved", one_call.proved, calls.proved);
    print_figures("plain", one_call.plain, calls.plain);
}

int main(void)
{
    static struct scene scene;
    static struct outcome batch;
    int ends[2];
    if (pipe2(ends, O_NONBLOCK) != 0) {
        perror("bench: no pipe");
        return 2;
    }
    count_from = ends[0];
    count_to = ends[1];
    make_images();
    make_scene(&scene);
    count_now();

    struct cost costs[TRIALS];
    print_head("call", "proved", "plain");
    for (int i = 0; i < TRIALS; i++)
        print_row(trials[i].what, costs[i] = cost_of_play(&trials[i]));
    struct cost image_cost = cost_of_reading(&readings[0]);
    print_row(readings[0].what, image_cost);
    for (int i = 1; i < READINGS; i++)
        print_row(readings[i].what, cost_of_reading(&readings[i]));
    struct cost one_call = cost_of_scene(&scene, &batch), calls = cost_of_calls(&scene, &batch);
    print_row(in_one_call, one_call);
    print_row(in_calls, calls);

    putchar('\n');
    print_head("the burst alone", "proved", "plain");
    for (int i = 0; i < TRIALS; i++)
        print_row(trials[i].what, (struct cost){costs[i].proved - image_cost.proved, costs[i].plain - image_cost.plain});
    putchar('\n');
    print_scene(one_call, calls);
    return 0;
}
