/* The functions of saved sessions, called from C and from C++: the bytes of the example in the header, every refusal, buffers one byte too
 * small, null pointers, and that nothing is written on a refusal. The status is 0 exactly where all is as expected. */
#include <math.h>
#include <string.h>

#include "expect.h"
#include "klaverdomp.h"

/* The file of one position, all sizes 1, key 1, value 2. */
static const uint8_t one_position[28] = { 8, 0, 0, 0, 1, 0, 1, 0, 1, 0, 1, 0, 1, 0, 8, 0, 0, 0, 2, 0, 0, 0, 0x80, 0x3f, 0, 0, 0, 0x40 };

/* A buffer and caches to be written, what stood there before, and rows to be added. */
enum { FULL = 14 + 2048 * 14, SPARE = 28 };
static uint8_t buffer[FULL + SPARE], before[FULL + SPARE];
static float keys[2048], values_read[2048], rows[2049];

static void one_saved(void)
{
    size_t i;
    for (i = 0; i < sizeof buffer; i++)
        buffer[i] = (uint8_t)(i * 7 + 3);
    memcpy(buffer, one_position, sizeof one_position);
    memcpy(before, buffer, sizeof buffer);
    keys[0] = keys[1] = values_read[0] = values_read[1] = -7;
    rows[0] = 3;
    rows[1] = -0.0f;
}

/* Whether the reading is that refusal, with this place and no other number, and the caches are as they were. */
static int reading_refused(klaverdomp_session_reading r, uint32_t number, uint64_t place)
{
    return r.refusal == number && r.place == place && r.batches == 0 && r.key_heads == 0 && r.head_size == 0 && r.value_size == 0 &&
           r.positions == 0 && r.used == 0 && keys[0] == -7 && keys[1] == -7 && values_read[0] == -7 && values_read[1] == -7;
}

/* The first bytes of the buffer are refused by either reader, whatever the caches are, and by an append, which comes to it before it
 * looks at anything but `used`. */
static void file_refused(size_t len, uint32_t number, uint64_t place, const char *what)
{
    klaverdomp_session_saving s;
    memcpy(before, buffer, sizeof buffer);
    expect(reading_refused(klaverdomp_session_inspect(buffer, len), number, place), what);
    expect(reading_refused(klaverdomp_session_load(buffer, len, keys, 2, values_read, 1), number, place), what);
    if (number == KLAVERDOMP_ELEMENT || place > 0) /* what stands before the fault is a file of whole positions */
        expect(klaverdomp_session_inspect(buffer, number == KLAVERDOMP_ELEMENT ? 14 + 14 * place : place).refusal == KLAVERDOMP_DONE, what);
    s = klaverdomp_session_append(buffer, len, len, UINT64_MAX, NULL, 5, NULL, 5);
    expect(s.refusal == number && s.place == place && s.positions == 0 && s.used == len, what);
    expect(memcmp(buffer, before, sizeof buffer) == 0, what);
}

static int is_reading(klaverdomp_session_reading r, uint64_t positions)
{
    return r.refusal == KLAVERDOMP_DONE && r.place == 0 && r.batches == 1 && r.key_heads == 1 && r.head_size == 1 && r.value_size == 1 &&
           r.positions == positions && r.used == 14 + 14 * positions;
}

static int is_saving(klaverdomp_session_saving s, uint64_t positions)
{
    return s.refusal == KLAVERDOMP_DONE && s.place == 0 && s.positions == positions && s.used == 14 + 14 * positions;
}

/* Whether a begin or an append is that refusal, and gives back the `used` that was lent, which is 0 for a begin. */
static void saving_refused(klaverdomp_session_saving s, uint64_t used, uint32_t number, uint64_t place, const char *what)
{
    expect(s.refusal == number && s.place == place && s.positions == 0 && s.used == used, what);
    expect(memcmp(buffer, before, sizeof buffer) == 0, what);
}

/* A begin and an append write the bytes of the example and no others; every cut of it is read. */
static void sessions_that_are_saved(void)
{
    const float key_row = 1, value_row = 2;
    klaverdomp_session_reading r;
    size_t i, len;
    one_saved();
    memset(buffer, 0xee, 64);
    expect(is_saving(klaverdomp_session_begin(buffer, 64, 1, 1, 1, 1), 0), "a begin");
    expect(memcmp(buffer, one_position, 14) == 0 && buffer[14] == 0xee && buffer[63] == 0xee, "the bytes of a begin");
    expect(is_saving(klaverdomp_session_append(buffer, 28, 14, 1, &key_row, 1, &value_row, 1), 1), "an append that fills the buffer");
    expect(memcmp(buffer, one_position, 28) == 0 && buffer[28] == 0xee, "the bytes of an append");
    for (len = 14; len <= 28; len++) {
        one_saved();
        expect(is_reading(klaverdomp_session_inspect(buffer, len), len == 28), "a cut file");
        expect(reading_refused(klaverdomp_session_load(buffer, len, keys, len < 28, values_read, 0), KLAVERDOMP_OUTPUT_LENGTH, 0),
               "a cache of the wrong length");
        r = klaverdomp_session_load(buffer, len, keys, len == 28, values_read, len == 28);
        expect(is_reading(r, len == 28) && keys[0] == (len == 28 ? 1 : -7) && values_read[0] == (len == 28 ? 2 : -7), "a load");
        expect(keys[1] == -7 && values_read[1] == -7, "a load writes its caches alone");
        expect(is_saving(klaverdomp_session_append(buffer, sizeof buffer, len, 0, NULL, 0, NULL, 0), len == 28), "an append of nothing");
        expect(memcmp(buffer, before, sizeof buffer) == 0, "an append of nothing writes nothing");
    }
    expect(is_reading(klaverdomp_session_load(buffer, 27, NULL, 9, NULL, 9), 0), "null caches stand for empty ones");
    one_saved();
    expect(is_saving(klaverdomp_session_append(buffer, sizeof buffer, 21, 1, rows + 1, 1, rows, 1), 1), "a cut record is written over");
    expect(memcmp(buffer, one_position, 20) == 0 && memcmp(buffer + 28, before + 28, sizeof buffer - 28) == 0, "what stands around it");
    expect(is_reading(klaverdomp_session_load(buffer, 28, keys, 1, values_read, 1), 1) && bits(keys[0]) == 0x80000000u &&
               values_read[0] == 3, "what is read back");
    for (i = 0; i < 2048; i++)
        rows[i] = (float)i - 1024;
    expect(is_saving(klaverdomp_session_append(buffer, FULL, 14, 2048, rows, 2048, rows, 2048), 2048), "2,048 positions");
    expect(is_reading(klaverdomp_session_load(buffer, FULL + 5, keys, 2048, values_read, 2048), 2048) &&
               memcmp(keys, rows, sizeof keys) == 0 && memcmp(values_read, rows, sizeof keys) == 0, "2,048 positions are read");
}

/* Two batches, keys of two elements, values of one, two positions: where each element stands in the file, and that it comes back. */
static void other_sizes(void)
{
    enum { RECORD = 6 + 4 * 2 * 3, LEN = 14 + 2 * RECORD };
    const float least = 1e-45f;
    const float key[8] = { 1, -65536.0f, 3, -0.0f, 5, 65536.0f, least, -least }, value[4] = { 9, 10, 11, 12 };
    float key_back[8], value_back[4], spoilt[8];
    size_t b, j;
    klaverdomp_session_saving s = klaverdomp_session_begin(buffer, LEN, 2, 1, 2, 1);
    klaverdomp_session_reading r;
    s = klaverdomp_session_append(buffer, LEN, s.used, 2, key, 8, value, 4);
    expect(s.refusal == KLAVERDOMP_DONE && s.positions == 2 && s.used == LEN, "other sizes");
    for (j = 0; j < 2; j++)
        for (b = 0; b < 2; b++) {
            const uint8_t *at = buffer + 14 + j * RECORD + 6 + b * 12;
            expect(memcmp(at, key + (b * 2 + j) * 2, 8) == 0 && memcmp(at + 8, value + b * 2 + j, 4) == 0, "where a row stands");
        }
    r = klaverdomp_session_load(buffer, LEN, key_back, 8, value_back, 4);
    expect(r.refusal == KLAVERDOMP_DONE && r.batches == 2 && r.key_heads == 1 && r.head_size == 2 && r.value_size == 1, "its sizes");
    expect(memcmp(key, key_back, sizeof key) == 0 && memcmp(value, value_back, sizeof value) == 0, "rows keep their bits");
    memcpy(spoilt, key, sizeof key);
    spoilt[3] = spoilt[4] = NAN; /* position 1 of batch 0, and position 0 of batch 1 */
    memcpy(before, buffer, sizeof buffer);
    s = klaverdomp_session_append(buffer, LEN, 14, 2, spoilt, 8, value, 4);
    expect(s.refusal == KLAVERDOMP_ELEMENT && s.place == 0 && memcmp(buffer, before, sizeof buffer) == 0, "the least position at fault");
}

static void files_that_are_refused(void)
{
    /* an infinity, the f32 next to -65,536 and two NaNs */
    static const uint8_t bad[4][4] = { { 0, 0, 0x80, 0x7f }, { 1, 0, 0x80, 0xc7 }, { 1, 0, 0x80, 0x7f }, { 0, 0, 0xc0, 0xff } };
    size_t i;
    for (i = 0; i < 14; i++) {
        one_saved();
        file_refused(i, KLAVERDOMP_FILE_RECORD, 0, "a cut first record");
    }
    for (i = 0; i < 6; i++) {
        one_saved();
        buffer[i] ^= 4;
        file_refused(28, KLAVERDOMP_FILE_RECORD, 0, "a wrong first head");
        one_saved();
        buffer[14 + i] ^= 4;
        file_refused(20, KLAVERDOMP_FILE_RECORD, 14, "a wrong head");
        expect(is_reading(klaverdomp_session_inspect(buffer, 19), 0), "a head of five bytes is not judged");
    }
    for (i = 0; i < 4; i++) {
        one_saved();
        buffer[6 + 2 * i] = 0;
        file_refused(28, KLAVERDOMP_LIMITS, 0, "a size of 0");
        one_saved();
        buffer[7 + 2 * i] = 2;
        file_refused(28, KLAVERDOMP_LIMITS, 0, "a size above its limit");
        one_saved();
        memcpy(buffer + 24, bad[i], 4);
        file_refused(28, KLAVERDOMP_ELEMENT, 0, "an element of the first position");
        memcpy(buffer + 20, bad[i], 4);
        expect(is_reading(klaverdomp_session_inspect(buffer, 27), 0), "elements of a cut record are not looked at");
        memcpy(buffer, one_position, 28);
        memcpy(buffer + 28, one_position + 14, 14);
        memcpy(buffer + 34, bad[i], 4);
        file_refused(42, KLAVERDOMP_ELEMENT, 1, "an element of the second position");
    }
    one_saved();
    memcpy(buffer + 28, one_position, 14);
    file_refused(42, KLAVERDOMP_FILE_RECORD, 28, "a second record of kind 1");
    for (i = 14; i < FULL + 14; i += 14)
        memcpy(buffer + i, one_position + 14, 14);
    expect(is_reading(klaverdomp_session_inspect(buffer, FULL + 5), 2048), "five bytes behind 2,048 positions");
    file_refused(FULL + 6, KLAVERDOMP_LIMITS, 0, "the head of a 2,049th position");
    buffer[FULL] = 9;
    file_refused(FULL + 14, KLAVERDOMP_FILE_RECORD, FULL, "a wrong head behind 2,048 positions");
    expect(klaverdomp_session_inspect(NULL, 28).refusal == KLAVERDOMP_FILE_RECORD, "a null pointer stands for an empty file");
}

static void savings_that_are_refused(void)
{
    const uint64_t most[4] = { 8, 32, 256, 256 }, counts[4] = { 2048, 1ull << 61, 1ull << 63, UINT64_MAX };
    size_t i;
    one_saved();
    for (i = 0; i < 4; i++) {
        uint64_t s[4] = { 1, 1, 1, 1 };
        s[i] = 0;
        saving_refused(klaverdomp_session_begin(buffer, 0, s[0], s[1], s[2], s[3]), 0, KLAVERDOMP_LIMITS, 0, "a size of 0");
        s[i] = most[i] + 1;
        saving_refused(klaverdomp_session_begin(buffer, 28, s[0], s[1], s[2], s[3]), 0, KLAVERDOMP_LIMITS, 0, "a size above its limit");
        s[i] = (1ull << 32) + 1;
        saving_refused(klaverdomp_session_begin(buffer, 28, s[0], s[1], s[2], s[3]), 0, KLAVERDOMP_LIMITS, 0, "a size of 33 bits");
        s[i] = most[i];
        saving_refused(klaverdomp_session_begin(buffer, 13, s[0], s[1], s[2], s[3]), 0, KLAVERDOMP_ROOM, 0, "a begin with a byte too few");
    }
    expect(klaverdomp_session_begin(NULL, 28, 1, 1, 1, 1).refusal == KLAVERDOMP_ROOM, "a null pointer stands for an empty buffer");
    saving_refused(klaverdomp_session_append(buffer, 28, 29, 0, NULL, 0, NULL, 0), 29, KLAVERDOMP_ROOM, 0, "more used than there is");
    saving_refused(klaverdomp_session_append(buffer, 28, UINT64_MAX, 1, rows, 1, rows, 1), UINT64_MAX, KLAVERDOMP_ROOM, 0, "all bytes used");
    for (i = 0; i < 4; i++)
        saving_refused(klaverdomp_session_append(buffer, 28, 28, counts[i], rows, 0, rows, 0), 28, KLAVERDOMP_LIMITS, 0, "too many");
    saving_refused(klaverdomp_session_append(buffer, 28, 28, 1, rows, 2, rows, 1), 28, KLAVERDOMP_INPUT_LENGTH, 0, "a key too many");
    saving_refused(klaverdomp_session_append(buffer, 28, 28, 1, rows, 1, NULL, 1), 28, KLAVERDOMP_INPUT_LENGTH, 0, "a value too few");
    saving_refused(klaverdomp_session_append(buffer, 28, 28, 0, rows, 1, rows, 0), 28, KLAVERDOMP_INPUT_LENGTH, 0, "a key of no position");
    for (i = 14; i <= 28; i++) { /* the room is counted from the last whole record on, and there is a byte too little */
        uint64_t whole = i == 28;
        saving_refused(klaverdomp_session_append(buffer, 41 + 14 * whole, i, 2, rows, 2, rows, 2), i, KLAVERDOMP_ROOM, 0, "a byte too few");
    }
    rows[1] = NAN;
    saving_refused(klaverdomp_session_append(buffer, 28, 28, 2, rows, 2, rows, 2), 28, KLAVERDOMP_ELEMENT, 2, "a NaN in the third position");
    rows[0] = 65536.0078125f;
    saving_refused(klaverdomp_session_append(buffer, 28, 28, 2, rows + 1, 2, rows, 2), 28, KLAVERDOMP_ELEMENT, 1, "a value above 65,536");
}

/* A session goes on after appends that are refused, each with the `used` that the one before gave back. */
static void sessions_that_go_on(void)
{
    const float no_number = NAN, key_row = 1, value_row = 2;
    klaverdomp_session_saving s = klaverdomp_session_begin(buffer, 42, 1, 1, 1, 1);
    s = klaverdomp_session_append(buffer, 42, s.used, 1, &no_number, 1, &value_row, 1);
    expect(s.refusal == KLAVERDOMP_ELEMENT && s.used == 14, "a NaN behind a begin");
    s = klaverdomp_session_append(buffer, 42, s.used, 1, &key_row, 1, &value_row, 1);
    expect(is_saving(s, 1), "a good position behind a refused one");
    s = klaverdomp_session_append(buffer, 42, s.used, 1, &key_row, 1, &no_number, 1);
    expect(s.refusal == KLAVERDOMP_ELEMENT && s.place == 1 && s.used == 28, "a NaN behind a position");
    s = klaverdomp_session_append(buffer, 42, s.used, 2048, NULL, 0, NULL, 0);
    expect(s.refusal == KLAVERDOMP_LIMITS && s.used == 28, "too many behind a refused one");
    s = klaverdomp_session_append(buffer, 42, s.used, 1, &key_row, 1, &value_row, 1);
    expect(is_saving(s, 2), "a good position behind two refused ones");
    s = klaverdomp_session_append(buffer, 42, s.used, 1, &key_row, 1, &value_row, 1);
    expect(s.refusal == KLAVERDOMP_ROOM && s.used == 42, "no room");
    expect(is_reading(klaverdomp_session_inspect(buffer, s.used), 2), "the file after all of them");
}

int main(void)
{
    sessions_that_are_saved();
    sessions_that_go_on();
    other_sizes();
    files_that_are_refused();
    savings_that_are_refused();
    return failures != 0;
}
