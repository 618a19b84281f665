/* The proved box beside the plain one on random cases: compare CASES [SEED [FIRST]]
 *
 * Equal in refusal, lengths, damage and every byte, guards included, or the first case that differs is printed whole.
 * Built with PLAIN_ALONE the proved box is left out: that is the sanitized run, whose sum shows that it met the same
 * outcomes. */
#include <inttypes.h>
#include <stdio.h>
#include <stdlib.h>
#include <sys/random.h>

#include "names.h"
#include "plain.h"
#include "tally.h"
#include "trial.h"

static const struct box plain = {"plain", plain_play, plain_play_on, plain_batch, plain_batch_on, plain_read, plain_back,
                                 plain_salvage};
#ifdef PLAIN_ALONE
static const struct box *const proved = NULL;
#else
static const struct box proved_box = {"proved", undivarro_play, undivarro_play_on, undivarro_batch, undivarro_batch_on,
                                      undivarro_read, undivarro_back, undivarro_salvage};
static const struct box *const proved = &proved_box;
#endif

static void print_hex(const char *what, const uint8_t *bytes, size_t len)
{
    printf("  %s (%zu):", what, len);
    for (size_t i = 0; i < len; i++)
        printf(" %02X", bytes[i]);
    putchar('\n');
}

static void print_trial(const struct box *box, const struct test_case *c, const struct trial *t)
{
    printf("%s: refusal %" PRIu32 ", damage %" PRIu32 " (%s), answer length %zu, image length %zu%s%s\n", box->name,
           t->result.refusal, t->result.damage, damage_name(t->result.damage), t->result.answer_len, t->result.image_len,
           t->fault ? ": " : "", t->fault ? t->fault : "");
    print_hex("answer, answers or lines buffer with guards", t->answer, GUARD + c->answer_cap + GUARD);
    print_hex("output buffer with guards", t->out, GUARD + c->out_cap + GUARD);
}

static void print_case(uint64_t seed, uint64_t number, const struct test_case *c)
{
    printf("case %" PRIu64 " of seed %" PRIu64 " (again: compare 1 %" PRIu64 " %" PRIu64 "): %s\n", number, seed, seed, number,
           call_names[c->call]);
    const char *what = is_batch(c) ? "list" : "burst";
    printf("  edition: %" PRIu32 "; image: %s; %s: %s; room: %s\n", c->edition, image_kind_names[c->image_kind], what,
           is_batch(c) ? list_kind_names[c->list_kind] : burst_kind_names[c->burst_kind], room_kind_names[c->room_kind]);
    print_hex("image", c->image, c->image_len);
    print_hex(what, c->burst, c->burst_len);
    print_hex("fill", (const uint8_t *)&c->fill, sizeof c->fill);
}

/* A number in decimal, all of the text. */
static bool number_in(const char *text, uint64_t *number)
{
    char *end;
    *number = strtoull(text, &end, 10);
    return *text >= '0' && *text <= '9' && *end == '\0';
}

int main(int argc, char **argv)
{
    static struct test_case c;
    static struct trial by_plain, by_proved;
    static struct tally tally;
    uint64_t cases, seed, first = 0, sum = 0;
    if (getrandom(&seed, sizeof seed, 0) != sizeof seed) {
        perror("compare: no random seed");
        return 2;
    }
    if (argc < 2 || argc > 4 || !number_in(argv[1], &cases) || (argc > 2 && !number_in(argv[2], &seed))
        || (argc > 3 && !number_in(argv[3], &first))) {
        fputs("usage: compare CASES [SEED [FIRST]], all in decimal\n", stderr);
        return 2;
    }
    printf("seed %" PRIu64 "\n", seed);
    fflush(stdout);

    for (uint64_t number = first; number - first < cases; number++) {
        make_case(seed, number, &c);
        run_trial(&plain, &c, &by_plain);
        if (proved)
            run_trial(proved, &c, &by_proved);
        if (by_plain.fault || (proved && (by_proved.fault || !same_outcome(&c, &by_plain, &by_proved)))) {
            print_case(seed, number, &c);
            print_trial(&plain, &c, &by_plain);
            if (proved)
                print_trial(proved, &c, &by_proved);
            return 1;
        }
        count_outcome(&tally, &c, &by_plain);
        sum = add_outcome(sum, &by_plain);
    }
    print_tally(&tally);
    printf("%" PRIu64 " cases, sum %016" PRIX64 "\n", cases, sum);
    /* A short run need not meet everything. */
    return cases < 50000 || met_everything(&tally) ? 0 : 1;
}
