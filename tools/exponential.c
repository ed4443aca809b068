/* The house exponential over a row and by itself, for tools/exponential.sh. The numbers d are from 0 to 20 by a fixed rule; a row has
 * largest 0 and s = -d. Where OTHER is defined, a second library is there whose functions are named other_ in place of klaverdomp_.
 * Arguments:
 *   same     compares the bits of all that is measured with the plain C program's of reference/; the status is 1 where they differ
 *   row N    one pass over a row of N elements
 *   alone    1,000 calls of E by itself
 *   time     nanoseconds for one element */
#include <stdio.h>
#include <stdlib.h>
#include <string.h>
#include <time.h>
#include "../include/klaverdomp.h"
#include "../reference/reference.h"

#ifdef OTHER
uint32_t other_exp_neg_1(float d, float *value);
void other_exp_neg_row_1(float *row, size_t row_len, float largest);
#endif

enum { ELEMENTS = 4096, CALLS = 1000, ROUNDS = 201, FILLS = 100, TURNS = 400, MOST = 3 };

static const size_t lengths[] = {61, 63, 64, 255, 256, 500, 509, 511, 512, 2047, 2048};
static float scores[ELEMENTS], memory[ELEMENTS];

/* xorshift */
static void make_scores(void)
{
    uint64_t state = 0x2545F4914F6CDD1DULL;
    for (size_t i = 0; i < ELEMENTS; i++) {
        state ^= state << 13;
        state ^= state >> 7;
        state ^= state << 17;
        scores[i] = (float)(state >> 40) / 16777216.0f * -20.0f;
    }
}

static double now(void)
{
    struct timespec t;
    clock_gettime(CLOCK_MONOTONIC, &t);
    return (double)t.tv_sec + 1e-9 * (double)t.tv_nsec;
}

/* For each function: `all_` lets every row of a length in the memory through it, `time_` takes the time of one element. The copy that
 * fills the memory is not timed. */
#define ROWS(function) \
    static void all_##function(size_t length) \
    { \
        for (size_t at = 0; at + length <= ELEMENTS; at += length) function(memory + at, length, 0.0f); \
    } \
    static double time_##function(size_t length) \
    { \
        double time = 0; \
        for (size_t fill = 0; fill < FILLS; fill++) { \
            memcpy(memory, scores, sizeof memory); \
            double start = now(); \
            all_##function(length); \
            time += now() - start; \
        } \
        return time / (double)(FILLS * (ELEMENTS / length * length)); \
    }

/* The same for E by itself. */
#define ALONE(function) \
    static void all_##function(size_t calls) \
    { \
        for (size_t i = 0; i < calls; i++) function(-scores[i], &memory[i]); \
    } \
    static double time_##function(size_t calls) \
    { \
        double start = now(); \
        for (size_t turn = 0; turn < TURNS; turn++) all_##function(calls); \
        return (now() - start) / (double)(TURNS * calls); \
    }

ROWS(klaverdomp_exp_neg_row_1)
ALONE(klaverdomp_exp_neg_1)
ALONE(reference_exp_neg)
#ifdef OTHER
ROWS(other_exp_neg_row_1)
ALONE(other_exp_neg_1)
#endif

static uint32_t bits(float value)
{
    uint32_t b;
    memcpy(&b, &value, sizeof b);
    return b;
}

/* The memory has the plain C program's values in its first `number` elements. A length of 0 stands for E by itself. */
static int as_plain_c(const char *who, size_t length, size_t number)
{
    for (size_t i = 0; i < number; i++) {
        float want;
        reference_exp_neg(-scores[i], &want);
        if (bits(memory[i]) == bits(want)) continue;
        fprintf(stderr, "they differ: for d %08X %s has %08X, plain C %08X, ", bits(-scores[i]), who, bits(memory[i]), bits(want));
        fprintf(stderr, length ? "in rows of %zu\n" : "by itself\n", length);
        return 0;
    }
    return 1;
}

static int same_rows(const char *who, void all(size_t))
{
    for (size_t n = 0; n < sizeof lengths / sizeof *lengths; n++) {
        memcpy(memory, scores, sizeof memory);
        all(lengths[n]);
        if (!as_plain_c(who, lengths[n], ELEMENTS / lengths[n] * lengths[n])) return 0;
    }
    return 1;
}

static int same_alone(const char *who, void all(size_t))
{
    memset(memory, 0xFF, sizeof memory);
    all(CALLS);
    return as_plain_c(who, 0, CALLS);
}

static int same(void)
{
    int good = same_rows("the library", all_klaverdomp_exp_neg_row_1) && same_alone("the library", all_klaverdomp_exp_neg_1);
#ifdef OTHER
    good = good && same_rows("the other", all_other_exp_neg_row_1) && same_alone("the other", all_other_exp_neg_1);
#endif
    return good;
}

static int rising(const void *a, const void *b)
{
    double x = *(const double *)a, y = *(const double *)b;
    return (x > y) - (x < y);
}

struct timed {
    const char *name;
    double (*time)(size_t);
    double rounds[ROUNDS], ratios[ROUNDS];
};

/* Each round takes all in turns, and each begins a round as often as any other. The first is the library. */
static void say_times(struct timed *timed, size_t number, size_t size)
{
    for (size_t round = 0; round < ROUNDS; round++) {
        for (size_t turn = 0; turn < number; turn++) {
            struct timed *t = &timed[(round + turn) % number];
            t->rounds[round] = t->time(size);
        }
        for (size_t n = 1; n < number; n++) timed[n].ratios[round] = timed[0].rounds[round] / timed[n].rounds[round];
    }
    for (size_t n = 0; n < number; n++) {
        qsort(timed[n].rounds, ROUNDS, sizeof(double), rising);
        printf("%s%s %.3f", n ? ", " : "", timed[n].name, 1e9 * timed[n].rounds[ROUNDS / 2]);
    }
    for (size_t n = 1; n < number; n++) {
        double *r = timed[n].ratios;
        qsort(r, ROUNDS, sizeof(double), rising);
        printf(", library / %s %.3f [%.3f - %.3f]", timed[n].name, r[ROUNDS / 2], r[ROUNDS / 4], r[ROUNDS - 1 - ROUNDS / 4]);
    }
    printf("\n");
}

static void say_all_times(void)
{
    static struct timed rows[MOST] = {{.name = "library", .time = time_klaverdomp_exp_neg_row_1}};
    static struct timed alone[MOST] = {{.name = "library", .time = time_klaverdomp_exp_neg_1}};
    size_t row_number = 1, alone_number = 1;
#ifdef OTHER
    rows[row_number++] = (struct timed){.name = "other", .time = time_other_exp_neg_row_1};
    alone[alone_number++] = (struct timed){.name = "other", .time = time_other_exp_neg_1};
#endif
    alone[alone_number++] = (struct timed){.name = "plain C", .time = time_reference_exp_neg};
    for (size_t n = 0; n < sizeof lengths / sizeof *lengths; n++) {
        printf("row of %zu: ", lengths[n]);
        say_times(rows, row_number, lengths[n]);
    }
    printf("by itself: ");
    say_times(alone, alone_number, CALLS);
}

int main(int argc, char **argv)
{
    const char *word = argc > 1 ? argv[1] : "";
    size_t length = argc > 2 ? strtoull(argv[2], 0, 10) : 0;
    make_scores();
    if (!strcmp(word, "same") && argc == 2) return !same();
    if (!strcmp(word, "row") && argc == 3 && length <= ELEMENTS) {
        memcpy(memory, scores, sizeof memory);
        klaverdomp_exp_neg_row_1(memory, length, 0.0f);
#ifdef OTHER
        memcpy(memory, scores, sizeof memory);
        other_exp_neg_row_1(memory, length, 0.0f);
#endif
    } else if (!strcmp(word, "alone") && argc == 2) {
        all_klaverdomp_exp_neg_1(CALLS);
        all_reference_exp_neg(CALLS);
#ifdef OTHER
        all_other_exp_neg_1(CALLS);
#endif
    } else if (!strcmp(word, "time") && argc == 2) {
        say_all_times();
    } else {
        return fprintf(stderr, "usage: exponential same | row N | alone | time\n"), 2;
    }
    return 0;
}
