/* Saved sessions, as the change request has them: numbers in bytes, the reader's one walk, the caches, the writer. */

#include "session_file.h"

#include <string.h>

enum { FIRST = 14, HEAD = 6, MOST_POSITIONS = 2048 };

typedef struct reference_reading reading;
typedef struct reference_saving saving;

/* ---- Little-endian numbers ---- */

static uint32_t get16(const uint8_t *at) { return (uint32_t)at[0] | (uint32_t)at[1] << 8; }

static uint32_t get32(const uint8_t *at) { return get16(at) | get16(at + 2) << 16; }

static void put16(uint8_t *at, uint64_t n) {
    at[0] = (uint8_t)n;
    at[1] = (uint8_t)(n >> 8);
}

static void put32(uint8_t *at, uint64_t n) {
    put16(at, n);
    put16(at + 2, n >> 16);
}

static uint32_t bits_of(float x) {
    uint32_t bits;
    memcpy(&bits, &x, sizeof bits);
    return bits;
}

/* A record's head. */
static void put_head(uint8_t *at, uint64_t length, uint64_t kind) {
    put32(at, length);
    put16(at + 4, kind);
}

static int is_head(const uint8_t *at, uint64_t length, uint64_t kind) {
    return get32(at) == length && get16(at + 4) == kind;
}

/* ---- Limits ---- */

static int within(uint64_t n, uint64_t most) { return 1 <= n && n <= most; }

static int sizes_refused(uint64_t B, uint64_t Hkv, uint64_t D, uint64_t Dv) {
    return !within(B, 8) || !within(Hkv, 32) || !within(D, 256) || !within(Dv, 256);
}

/* A magnitude above that of 65,536, an infinity or a NaN: without their sign the bits are in the order of magnitudes. */
static int element_refused(uint32_t bits) { return (bits & 0x7FFFFFFF) > 0x47800000; }

/* ---- Reader ---- */

static uint64_t heads_of(const reading *r) { return r->B * r->Hkv; }

/* The payload of a position in bytes. */
static uint64_t payload_of(const reading *r) { return 4 * heads_of(r) * (r->D + r->Dv); }

static uint64_t end_of(const reading *r, uint64_t positions) { return FIRST + positions * (HEAD + payload_of(r)); }

static int payload_refused(const uint8_t *payload, uint64_t length) {
    int refused = 0;
    for (uint64_t at = 0; at < length; at += 4) refused |= element_refused(get32(payload + at));
    return refused;
}

/* The number of the first fault in byte order, 0 if there is none. */
static uint64_t walk(const uint8_t *file, size_t len, reading *r) {
    if (len < FIRST || !is_head(file, 8, 1)) return 11;
    r->B = get16(file + 6);
    r->Hkv = get16(file + 8);
    r->D = get16(file + 10);
    r->Dv = get16(file + 12);
    if (sizes_refused(r->B, r->Hkv, r->D, r->Dv)) return 1;
    const uint64_t payload = payload_of(r);
    r->used = FIRST;
    while (len - r->used >= HEAD) {
        const uint8_t *record = file + r->used;
        if (!is_head(record, payload, 2)) {
            r->place = r->used;
            return 11;
        }
        if (r->positions == MOST_POSITIONS) return 1;
        if (len - r->used - HEAD < payload) break;
        if (payload_refused(record + HEAD, payload)) {
            r->place = r->positions;
            return 9;
        }
        r->positions += 1;
        r->used += HEAD + payload;
    }
    return 0;
}

static void refuse_reading(reading *r, uint64_t refusal, uint64_t place) {
    *r = (reading){refusal, place, 0, 0, 0, 0, 0, 0};
}

void reference_session_inspect(const uint8_t *file, size_t file_len, reading *r) {
    *r = (reading){0, 0, 0, 0, 0, 0, 0, 0};
    const uint64_t refusal = walk(file, file_len, r);
    if (refusal != 0) refuse_reading(r, refusal, r->place);
}

/* ---- Caches ---- */

/* A row from its bytes; the place behind them. */
static const uint8_t *get_row(const uint8_t *from, float *row, uint64_t size) {
    for (uint64_t k = 0; k < size; k++) {
        const uint32_t bits = get32(from + 4 * k);
        memcpy(row + k, &bits, sizeof bits);
    }
    return from + 4 * size;
}

void reference_session_load(const uint8_t *file, size_t file_len, float *keys, size_t keys_len, float *values,
                            size_t values_len, reading *r) {
    reference_session_inspect(file, file_len, r);
    if (r->refusal != 0) return;
    const uint64_t n = r->positions, heads = heads_of(r);
    if (keys_len != heads * n * r->D || values_len != heads * n * r->Dv) {
        refuse_reading(r, 6, 0);
        return;
    }
    for (uint64_t j = 0; j < n; j++) {
        const uint8_t *from = file + end_of(r, j) + HEAD;
        for (uint64_t h = 0; h < heads; h++) {
            from = get_row(from, keys + (h * n + j) * r->D, r->D);
            from = get_row(from, values + (h * n + j) * r->Dv, r->Dv);
        }
    }
}

/* ---- Writer ---- */

static void refuse_saving(saving *s, uint64_t refusal, uint64_t place) { *s = (saving){refusal, place, 0, 0}; }

void reference_session_begin(uint8_t *buffer, size_t buffer_len, uint64_t B, uint64_t Hkv, uint64_t D, uint64_t Dv,
                             saving *s) {
    refuse_saving(s, 1, 0);
    if (sizes_refused(B, Hkv, D, Dv)) return;
    refuse_saving(s, 16, 0);
    if (buffer_len < FIRST) return;
    put_head(buffer, 8, 1);
    put16(buffer + 6, B);
    put16(buffer + 8, Hkv);
    put16(buffer + 10, D);
    put16(buffer + 12, Dv);
    *s = (saving){0, 0, 0, FIRST};
}

static int row_refused(const float *row, uint64_t size) {
    int refused = 0;
    for (uint64_t k = 0; k < size; k++) refused |= element_refused(bits_of(row[k]));
    return refused;
}

/* The first of the positions with an element at fault, or count. */
static uint64_t first_refused(const reading *r, uint64_t count, const float *keys, const float *values) {
    for (uint64_t j = 0; j < count; j++)
        for (uint64_t h = 0; h < heads_of(r); h++)
            if (row_refused(keys + (h * count + j) * r->D, r->D) || row_refused(values + (h * count + j) * r->Dv, r->Dv))
                return j;
    return count;
}

/* A row as bytes; the place behind them. */
static uint8_t *put_row(uint8_t *to, const float *row, uint64_t size) {
    for (uint64_t k = 0; k < size; k++) put32(to + 4 * k, bits_of(row[k]));
    return to + 4 * size;
}

void reference_session_append(uint8_t *buffer, size_t buffer_len, uint64_t used, uint64_t count, const float *keys,
                              size_t keys_len, const float *values, size_t values_len, saving *s) {
    reading r;
    refuse_saving(s, 16, 0);
    if (used > buffer_len) return;
    reference_session_inspect(buffer, used, &r);
    refuse_saving(s, r.refusal, r.place);
    if (r.refusal != 0) return;
    refuse_saving(s, 1, 0);
    if (count > MOST_POSITIONS - r.positions) return;
    refuse_saving(s, 5, 0);
    if (keys_len != heads_of(&r) * count * r.D || values_len != heads_of(&r) * count * r.Dv) return;
    const uint64_t good = first_refused(&r, count, keys, values);
    refuse_saving(s, 9, r.positions + good);
    if (good != count) return;
    const uint64_t end = end_of(&r, r.positions + count);
    refuse_saving(s, 16, 0);
    if (buffer_len < end) return;
    for (uint64_t j = 0; j < count; j++) {
        uint8_t *to = buffer + end_of(&r, r.positions + j);
        put_head(to, payload_of(&r), 2);
        to += HEAD;
        for (uint64_t h = 0; h < heads_of(&r); h++) {
            to = put_row(to, keys + (h * count + j) * r.D, r.D);
            to = put_row(to, values + (h * count + j) * r.Dv, r.Dv);
        }
    }
    *s = (saving){0, 0, r.positions + count, end};
}
