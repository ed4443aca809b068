/* A causal prefill and then cached steps of one position, as a decoder calls attention. Every output row has the bits of the same row of
 * one plain call over all positions. At the end a step with a NaN is refused and leaves its tensors as they were.
 *
 *   gcc -std=c99 -O2 -Iinclude -o prefill_and_steps examples/prefill_and_steps.c target/staticlib/libklaverdomp.a
 *   ./prefill_and_steps
 *
 * The status is 0 exactly where all of that holds. */
#include <math.h>
#include <stdio.h>
#include <string.h>

#include "klaverdomp.h"

enum { QUERY_HEADS = 4, KEY_HEADS = 2, SIZE = 8, VALUE_SIZE = 6, POSITIONS = 12, PREFILL = 7 };

enum {
    QUERY_LEN = QUERY_HEADS * POSITIONS * SIZE,
    KEY_LEN = KEY_HEADS * POSITIONS * SIZE,
    VALUE_LEN = KEY_HEADS * POSITIONS * VALUE_SIZE,
    OUTPUT_LEN = QUERY_HEADS * POSITIONS * VALUE_SIZE
};

/* All positions of a recording, and the outputs of the plain call over them. */
static float query[QUERY_LEN], key[KEY_LEN], value[VALUE_LEN], expected[OUTPUT_LEN];

/* The caches: a step reads one pair and writes the other. */
static float key_cache[2][KEY_LEN], value_cache[2][VALUE_LEN];

/* What a prefill or a step is lent besides. */
static float some_query[QUERY_LEN], some_key[KEY_LEN], some_value[VALUE_LEN], some_output[OUTPUT_LEN], work[POSITIONS];

/* Numbers from -2 to below 2. */
static void fill(float *row, size_t len, uint32_t seed)
{
    for (size_t i = 0; i < len; i++) {
        seed = seed * 1664525u + 1013904223u;
        row[i] = (float)(seed >> 8) / 4194304.0f - 2.0f;
    }
}

/* Copies `count` positions from `first` on, of each head. Returns how many elements that are. */
static size_t cut(float *to, const float *from, size_t heads, size_t size, size_t first, size_t count)
{
    for (size_t n = 0; n < heads; n++)
        memcpy(to + n * count * size, from + (n * POSITIONS + first) * size, count * size * sizeof(float));
    return heads * count * size;
}

/* Whether the outputs of `count` positions from `first` on have the bits of the plain call's. */
static int as_expected(const float *output, size_t first, size_t count)
{
    static float rows[OUTPUT_LEN];
    size_t len = cut(rows, expected, QUERY_HEADS, VALUE_SIZE, first, count);
    return memcmp(rows, output, len * sizeof(float)) == 0;
}

static klaverdomp_call causal_call(uint64_t form, uint64_t past, uint64_t count)
{
    klaverdomp_call call;
    memset(&call, 0, sizeof call);
    call.form = form;
    call.mask = KLAVERDOMP_NO_MASK;
    call.scale_kind = KLAVERDOMP_DEFAULT_SCALE;
    call.score_mode = KLAVERDOMP_NO_SCORES;
    call.rank = 4;
    call.causal = 1;
    call.batches = 1;
    call.query_heads = QUERY_HEADS;
    call.key_heads = KEY_HEADS;
    call.query_length = count;
    call.key_length = count;
    call.past_length = past;
    call.head_size = SIZE;
    call.value_size = VALUE_SIZE;
    return call;
}

/* The one plain call over all positions. */
static klaverdomp_answer plain(void)
{
    klaverdomp_call call = causal_call(KLAVERDOMP_PLAIN, 0, POSITIONS);
    klaverdomp_tensors t;
    memset(&t, 0, sizeof t);
    t.query = query;
    t.query_len = QUERY_LEN;
    t.key = key;
    t.key_len = KEY_LEN;
    t.value = value;
    t.value_len = VALUE_LEN;
    t.output = expected;
    t.output_len = OUTPUT_LEN;
    t.work = work;
    t.work_len = POSITIONS;
    return klaverdomp_attention(&call, &t);
}

/* A cached call without a past on the `count` positions that some_query, some_key and some_value hold; it writes the caches of `to`. */
static klaverdomp_answer prefill(size_t count, int to)
{
    klaverdomp_call call = causal_call(KLAVERDOMP_CACHED, 0, count);
    klaverdomp_tensors t;
    memset(&t, 0, sizeof t);
    t.query = some_query;
    t.query_len = QUERY_HEADS * count * SIZE;
    t.key = some_key;
    t.key_len = KEY_HEADS * count * SIZE;
    t.value = some_value;
    t.value_len = KEY_HEADS * count * VALUE_SIZE;
    t.output = some_output;
    t.output_len = QUERY_HEADS * count * VALUE_SIZE;
    t.present_key = key_cache[to];
    t.present_key_len = KEY_HEADS * count * SIZE;
    t.present_value = value_cache[to];
    t.present_value_len = KEY_HEADS * count * VALUE_SIZE;
    t.work = work;
    t.work_len = count;
    return klaverdomp_attention(&call, &t);
}

/* A step on the position that some_query, some_key and some_value hold, after `past` of them; it reads the caches of `from`. */
static klaverdomp_answer step(size_t past, int from)
{
    klaverdomp_call call = causal_call(KLAVERDOMP_CACHED, past, 1);
    size_t total = past + 1;
    klaverdomp_step_tensors t;
    t.query = some_query;
    t.query_len = QUERY_HEADS * SIZE;
    t.key = some_key;
    t.key_len = KEY_HEADS * SIZE;
    t.value = some_value;
    t.value_len = KEY_HEADS * VALUE_SIZE;
    t.past_key = key_cache[from];
    t.past_key_len = KEY_HEADS * past * SIZE;
    t.past_value = value_cache[from];
    t.past_value_len = KEY_HEADS * past * VALUE_SIZE;
    t.output = some_output;
    t.output_len = QUERY_HEADS * VALUE_SIZE;
    t.present_key = key_cache[!from];
    t.present_key_len = KEY_HEADS * total * SIZE;
    t.present_value = value_cache[!from];
    t.present_value_len = KEY_HEADS * total * VALUE_SIZE;
    t.work = work;
    t.work_len = total;
    return klaverdomp_step(&call, &t);
}

/* Takes `count` positions from `past` on. */
static void take(size_t past, size_t count)
{
    cut(some_query, query, QUERY_HEADS, SIZE, past, count);
    cut(some_key, key, KEY_HEADS, SIZE, past, count);
    cut(some_value, value, KEY_HEADS, VALUE_SIZE, past, count);
}

/* The step after `past` positions with a NaN among its keys: refused, with the place, and nothing is written. */
static int refused_step(size_t past, int from)
{
    static float output_before[OUTPUT_LEN], key_before[KEY_LEN], value_before[VALUE_LEN];
    klaverdomp_answer a;
    take(past, 1);
    some_key[SIZE + 3] = NAN;
    memcpy(output_before, some_output, sizeof some_output);
    memcpy(key_before, key_cache[!from], sizeof key_before);
    memcpy(value_before, value_cache[!from], sizeof value_before);
    a = step(past, from);
    printf("a NaN key:  refusal %u, tensor %u, index %u: %s\n", (unsigned)a.refusal, (unsigned)a.tensor, (unsigned)a.index,
           klaverdomp_refusal_text(a.refusal));
    return a.refusal == KLAVERDOMP_ELEMENT && a.tensor == KLAVERDOMP_KEY && a.index == SIZE + 3 && a.total == 0 && a.masked_rows == 0 &&
           memcmp(output_before, some_output, sizeof some_output) == 0 &&
           memcmp(key_before, key_cache[!from], sizeof key_before) == 0 &&
           memcmp(value_before, value_cache[!from], sizeof value_before) == 0;
}

int main(void)
{
    size_t past = 0;
    int from = 0;
    int good;
    klaverdomp_answer a;
    fill(query, QUERY_LEN, 1);
    fill(key, KEY_LEN, 2);
    fill(value, VALUE_LEN, 3);

    a = plain();
    printf("plain call: %s, %u positions\n", klaverdomp_refusal_text(a.refusal), (unsigned)a.total);
    good = a.refusal == KLAVERDOMP_DONE && a.total == POSITIONS && a.masked_rows == 0;

    while (past < POSITIONS) {
        size_t count = past == 0 ? PREFILL : 1;
        int same;
        if (past == POSITIONS - 1)
            good = refused_step(past, from) && good;
        take(past, count);
        a = past == 0 ? prefill(count, !from) : step(past, from);
        same = as_expected(some_output, past, count);
        printf("%-11s %s, %2u positions, outputs %s\n", past == 0 ? "prefill:" : "step:", klaverdomp_refusal_text(a.refusal),
               (unsigned)a.total, same ? "as in the plain call" : "DIFFER from the plain call");
        good = good && a.refusal == KLAVERDOMP_DONE && a.total == past + count && a.masked_rows == 0 && same;
        past += count;
        from = !from;
    }
    good = good && memcmp(key_cache[from], key, sizeof key) == 0 && memcmp(value_cache[from], value, sizeof value) == 0;
    printf("%s\n", good ? "all as expected" : "NOT as expected");
    return good ? 0 : 1;
}
