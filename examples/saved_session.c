/* A session that is saved and taken up again. A first run saves every position after its step, as a box does, and is switched off in the
 * middle of the eighth record; a second run reads the file, goes on behind its last whole position and writes over the cut record. Once a
 * row that is no number is refused: the file stays as it was, and the next position is saved behind the same byte. Every output row has the
 * bits of the same row of one plain call over all positions, and the file ends with all of them.
 *
 *   gcc -std=c99 -O2 -Iinclude -o saved_session examples/saved_session.c target/staticlib/libklaverdomp.a
 *   ./saved_session [FILE]     (default saved_session.klaverdomp; it is written anew)
 *
 * The status is 0 exactly where all of that holds. */
#define _POSIX_C_SOURCE 200809L
#include <math.h>
#include <stdio.h>
#include <string.h>
#include <sys/file.h>
#include <unistd.h>

#include "klaverdomp.h"

enum { QUERY_HEADS = 4, KEY_HEADS = 2, SIZE = 8, VALUE_SIZE = 6, POSITIONS = 12, SAVED = 7 };

enum {
    QUERY_LEN = QUERY_HEADS * SIZE, /* of one position */
    KEY_LEN = KEY_HEADS * SIZE,
    VALUE_LEN = KEY_HEADS * VALUE_SIZE,
    OUTPUT_LEN = QUERY_HEADS * VALUE_SIZE,
    RECORD_LEN = KLAVERDOMP_SESSION_HEAD_BYTES + 4 * (KEY_LEN + VALUE_LEN),
    FILE_LEN = KLAVERDOMP_SESSION_FIRST_BYTES + POSITIONS * RECORD_LEN
};

/* A recording: the rows of each position, and the outputs of the plain call, (position, head, element) both. */
static float query[POSITIONS][QUERY_LEN], key[POSITIONS][KEY_LEN], value[POSITIONS][VALUE_LEN], expected[POSITIONS][OUTPUT_LEN];

/* A session: the caches, of which a step reads one pair and writes the other, and the bytes of its file. */
typedef struct session {
    float keys[2][POSITIONS * KEY_LEN], values[2][POSITIONS * VALUE_LEN];
    int from;
    size_t positions;
    uint8_t file[FILE_LEN];
    uint64_t used;
} session;

/* Numbers from -2 to below 2. */
static void fill(float *row, size_t len, uint32_t seed)
{
    for (size_t i = 0; i < len; i++) {
        seed = seed * 1664525u + 1013904223u;
        row[i] = (float)(seed >> 8) / 4194304.0f - 2.0f;
    }
}

static klaverdomp_call causal_call(uint64_t form, uint64_t rank, uint64_t past, uint64_t count)
{
    klaverdomp_call call;
    memset(&call, 0, sizeof call);
    call.form = form;
    call.score_mode = KLAVERDOMP_NO_SCORES;
    call.rank = rank;
    call.causal = 1;
    call.batches = 1;
    call.query_heads = QUERY_HEADS;
    call.key_heads = KEY_HEADS;
    call.query_length = call.key_length = count;
    call.past_length = past;
    call.head_size = SIZE;
    call.value_size = VALUE_SIZE;
    return call;
}

/* The one plain call over all positions, of rank 3, in which the rows of a position stand together. */
static int plain(void)
{
    static float work[POSITIONS];
    klaverdomp_call call = causal_call(KLAVERDOMP_PLAIN, 3, 0, POSITIONS);
    klaverdomp_tensors t;
    memset(&t, 0, sizeof t);
    t.query = query[0];
    t.query_len = POSITIONS * QUERY_LEN;
    t.key = key[0];
    t.key_len = POSITIONS * KEY_LEN;
    t.value = value[0];
    t.value_len = POSITIONS * VALUE_LEN;
    t.output = expected[0];
    t.output_len = POSITIONS * OUTPUT_LEN;
    t.work = work;
    t.work_len = POSITIONS;
    return klaverdomp_attention(&call, &t).refusal == KLAVERDOMP_DONE;
}

/* The step on the next position. Whether its outputs have the bits of the plain call's. */
static int step(session *s)
{
    static float output[OUTPUT_LEN], work[POSITIONS];
    const size_t past = s->positions, total = past + 1;
    klaverdomp_call call = causal_call(KLAVERDOMP_CACHED, 4, past, 1);
    klaverdomp_step_tensors t;
    t.query = query[past];
    t.query_len = QUERY_LEN;
    t.key = key[past];
    t.key_len = KEY_LEN;
    t.value = value[past];
    t.value_len = VALUE_LEN;
    t.past_key = s->keys[s->from];
    t.past_key_len = past * KEY_LEN;
    t.past_value = s->values[s->from];
    t.past_value_len = past * VALUE_LEN;
    t.output = output;
    t.output_len = OUTPUT_LEN;
    t.present_key = s->keys[!s->from];
    t.present_key_len = total * KEY_LEN;
    t.present_value = s->values[!s->from];
    t.present_value_len = total * VALUE_LEN;
    t.work = work;
    t.work_len = total;
    if (klaverdomp_step(&call, &t).refusal != KLAVERDOMP_DONE)
        return 0;
    s->from = !s->from;
    s->positions = total;
    return memcmp(output, expected[past], sizeof output) == 0;
}

/* Adds a position to the file's bytes. Where that is refused, used is what it was: the file is still what stands before it. */
static klaverdomp_session_saving add(session *s, const float *key_row, const float *value_row)
{
    klaverdomp_session_saving saving =
        klaverdomp_session_append(s->file, FILE_LEN, s->used, 1, key_row, KEY_LEN, value_row, VALUE_LEN);
    s->used = saving.used;
    return saving;
}

/* Adds the last position. */
static int save(session *s)
{
    const size_t last = s->positions - 1;
    const klaverdomp_session_saving saving = add(s, key[last], value[last]);
    printf("position %2u: %s, %u saved in %u bytes\n", (unsigned)last, klaverdomp_refusal_text(saving.refusal),
           (unsigned)saving.positions, (unsigned)saving.used);
    return saving.refusal == KLAVERDOMP_DONE && saving.positions == s->positions;
}

/* Tries to add a row that is no number. Whether it is refused and the session can go on. */
static int refused(session *s)
{
    static const float no_numbers[KEY_LEN] = { NAN };
    const uint64_t used = s->used;
    const klaverdomp_session_saving saving = add(s, no_numbers, value[0]);
    printf("a bad row:   %s; still %u bytes\n", klaverdomp_refusal_text(saving.refusal), (unsigned)saving.used);
    return saving.refusal == KLAVERDOMP_ELEMENT && s->used == used;
}

/* Takes up what the first `len` bytes of the file hold, however it is cut. */
static int take_up(session *s, size_t len)
{
    klaverdomp_session_reading r = klaverdomp_session_inspect(s->file, len);
    printf("%u bytes: %s, %u positions, %u bytes of a cut record\n", (unsigned)len, klaverdomp_refusal_text(r.refusal),
           (unsigned)r.positions, (unsigned)(len - r.used));
    if (r.refusal != KLAVERDOMP_DONE || r.batches != 1 || r.key_heads != KEY_HEADS || r.head_size != SIZE || r.value_size != VALUE_SIZE ||
        r.positions > POSITIONS)
        return 0;
    s->from = 0;
    s->positions = r.positions;
    s->used = r.used;
    r = klaverdomp_session_load(s->file, len, s->keys[0], s->positions * KEY_LEN, s->values[0], s->positions * VALUE_LEN);
    return r.refusal == KLAVERDOMP_DONE;
}

/* The first bytes of the session's file, written to a file of that name under the lock that the Rust crate takes too. The file is not
 * opened with "wb", which would empty it before it is locked. */
static int write_file(const char *name, const session *s, size_t len)
{
    FILE *out = fopen(name, "ab");
    int locked = out != NULL && flock(fileno(out), LOCK_EX | LOCK_NB) == 0;
    int good = locked && ftruncate(fileno(out), 0) == 0 && fwrite(s->file, 1, len, out) == len;
    if (!locked)
        printf("%s: it cannot be opened, or another session has it open to save in it\n", name);
    return (out == NULL || fclose(out) == 0) && good;
}

static size_t read_file(const char *name, session *s)
{
    FILE *in = fopen(name, "rb");
    size_t len = in == NULL ? 0 : fread(s->file, 1, FILE_LEN, in);
    if (in != NULL)
        fclose(in);
    return len;
}

int main(int argc, char **argv)
{
    static session first, second;
    const char *name = argc > 1 ? argv[1] : "saved_session.klaverdomp";
    int good;
    fill(query[0], POSITIONS * QUERY_LEN, 1);
    fill(key[0], POSITIONS * KEY_LEN, 2);
    fill(value[0], POSITIONS * VALUE_LEN, 3);
    good = plain();

    first.used = klaverdomp_session_begin(first.file, FILE_LEN, 1, KEY_HEADS, SIZE, VALUE_SIZE).used;
    while (good && first.positions < SAVED + 1)
        good = step(&first) && save(&first);
    good = good && refused(&first) && write_file(name, &first, first.used - RECORD_LEN / 2);
    printf("switched off in the middle of a record\n");

    good = good && take_up(&second, read_file(name, &second)) && second.positions == SAVED && refused(&second);
    while (good && second.positions < POSITIONS)
        good = step(&second) && save(&second);
    good = good && second.used == FILE_LEN && write_file(name, &second, FILE_LEN);
    printf("%s\n", good ? "all as expected" : "NOT as expected");
    return good ? 0 : 1;
}
