/* The time of a call of one shape in two libraries, for tools/shapes.sh. The second library's functions are named other_ in place of
 * klaverdomp_. Arguments: SECONDS B Hq Hkv P S D [SOFTCAP]. Both take turns on the same tensors, and each begins a round as often as the
 * other. The status is 1 where what they write differs. */
#define _POSIX_C_SOURCE 199309L
#include <time.h>
#include "shape.h"

__typeof__(klaverdomp_attention_3) other_attention_3;

enum { MOST = 1 << 20 };

static uint32_t attend(__typeof__(klaverdomp_attention_3) *attention, const klaverdomp_call *call, const klaverdomp_tensors *t)
{
    const klaverdomp_record record = klaverdomp_record_of(call);
    uint64_t tensor, index, total, masked_rows;
    float no_float = 0;
    uint8_t no_byte = 0;
    int64_t no_count = 0;
    return attention(
        record.numbers, KLAVERDOMP_RECORD_NUMBERS, call->scale, call->softcap, t->query, t->query_len, t->key, t->key_len, t->value,
        t->value_len, &no_byte, 0, &no_float, 0, t->past_key, t->past_key_len, t->past_value, t->past_value_len, &no_count, 0, t->output,
        t->output_len, t->present_key, t->present_key_len, t->present_value, t->present_value_len, &no_float, 0, t->work, t->work_len,
        &tensor, &index, &total, &masked_rows);
}

static double now(void)
{
    struct timespec t;
    clock_gettime(CLOCK_PROCESS_CPUTIME_ID, &t);
    return (double)t.tv_sec + 1e-9 * (double)t.tv_nsec;
}

static int rising(const void *a, const void *b)
{
    double x = *(const double *)a, y = *(const double *)b;
    return (x > y) - (x < y);
}

int main(int argc, char **argv)
{
    if (argc != 8 && argc != 9) return fprintf(stderr, "usage: shapes SECONDS B Hq Hkv P S D [SOFTCAP]\n"), 2;
    double seconds = strtod(argv[1], 0);
    uint64_t n[6];
    for (int i = 0; i < 6; i++) n[i] = strtoull(argv[i + 2], 0, 10);
    struct shape s = {n[0], n[1], n[2], n[3], n[4], n[5], argc == 9 ? strtof(argv[8], 0) : 0.0f};
    __typeof__(klaverdomp_attention_3) *sides[2] = {klaverdomp_attention_3, other_attention_3};
    klaverdomp_call call = call_of(&s);
    klaverdomp_tensors t = inputs_of(&s);
    struct written written[2] = {written_of(&s), written_of(&s)};
    for (int side = 0; side < 2; side++) {
        lend(&t, &written[side]);
        if (attend(sides[side], &call, &t) != 0) return fprintf(stderr, "a call is refused\n"), 1;
    }
    if (!equal(&written[0], &written[1])) return fprintf(stderr, "they differ\n"), 1;

    double *ratios = malloc(MOST * sizeof *ratios), start = now();
    size_t rounds = 0;
    if (!ratios) return 2;
    while (rounds < MOST && (rounds < 3 || now() - start < seconds)) {
        double times[2];
        for (size_t turn = 0; turn < 2; turn++) {
            size_t side = (rounds + turn) % 2;
            lend(&t, &written[0]);
            double begin = now();
            attend(sides[side], &call, &t);
            times[side] = now() - begin;
        }
        ratios[rounds++] = times[0] / times[1];
    }
    qsort(ratios, rounds, sizeof *ratios, rising);
    printf("library / other %.3f [%.3f - %.3f], %zu rounds\n", ratios[rounds / 2], ratios[rounds / 4], ratios[rounds - 1 - rounds / 4], rounds);
    return 0;
}
