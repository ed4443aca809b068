/* Klaverdomp: the attention operator of ONNX Attention 24 in f32, with key and value caches, the saved form of those caches, and the house
 * exponential that the operator uses.
 *
 * This header is for C99 and C++. It declares the ten functions of libklaverdomp.a, which have a number at the end of their names, and
 * has a wrapper for each, without that number, which is the function to call.
 *
 * EDITION. The number at the end of a name is the edition of the binary interface. A change of a record, a parameter or a meaning gives
 * the function the next number, so a program compiled with an older header does not link; it never computes other bits.
 * Edition 3 of attention and step has the parameters of edition 2, and other bits: a dot product is (lane 0 + lane 1) + (lane 2 + lane 3),
 * where each lane starts at +0 and takes the products whose index has its number as the remainder by 4, the index rising.
 * Objects that hand structs of this header to each other are compiled with one header: a klaverdomp_call of edition 1 has the same size,
 * and any bytes at all where softcap stands.
 *
 * OWNERSHIP. The caller owns all memory and lends it for the length of a call. Nothing is allocated, kept or freed. The lengths count
 * elements, and those of files and buffers bytes, and they are true: that many stand at the pointer, which is aligned for its type. A null
 * pointer stands for an empty tensor, file or buffer, whatever length stands beside it.
 *
 * OVERLAP. What is written (output, present_key, present_value, scores, work; the caches of a load; the buffer of a begin or an append)
 * overlaps nothing else that its call is lent. So the past caches of a step are not its present caches: keep two of each, and exchange
 * them after a step. What is only read may overlap.
 *
 * THREADS. There is no state. Any number of threads may call at once, where nothing that one of them writes is lent to another.
 *
 * FLOATS. The calling thread has the floating-point environment that a C program starts with: rounding to nearest, subnormal numbers
 * kept. A program that is linked with -ffast-math may start with another one.
 *
 * A refused call leaves every element of every tensor and every byte of a buffer as it was. A call that is done has written every element
 * of output, present_key, present_value, scores and work, or of the caches of a load; none of them depends on what stood there before, and
 * none is a NaN. What a begin or an append writes stands beside it.
 */
#ifndef KLAVERDOMP_H
#define KLAVERDOMP_H

#include <stddef.h>
#include <stdint.h>

#if SIZE_MAX != UINT64_MAX
#error "klaverdomp.h: the library is for 64-bit targets"
#endif

#ifdef __cplusplus
extern "C" {
#endif

/* ---- the call record ---- */

/* Limits. The total length T is past_length + key_length. */
enum {
    KLAVERDOMP_MAX_BATCHES = 8,
    KLAVERDOMP_MAX_HEADS = 32,     /* query heads, and key heads; the query heads are a multiple of the key heads */
    KLAVERDOMP_MAX_LENGTH = 2048,  /* query length, incoming key length, and T */
    KLAVERDOMP_MAX_HEAD_SIZE = 256 /* head size, and value head size */
};

/* The largest given scale, the largest score cap, and the largest magnitude of an element of query, key, value and the past caches. */
#define KLAVERDOMP_MAX_SCALE 1024.0f
#define KLAVERDOMP_MAX_SOFTCAP 65536.0f
#define KLAVERDOMP_MAX_MAGNITUDE 65536.0f

/* The form of a call: how keys and values are kept. */
enum {
    KLAVERDOMP_PLAIN = 0,  /* all are in key and value */
    KLAVERDOMP_CACHED = 1, /* past_length of them are in the past caches, and key and value hold those that follow */
    KLAVERDOMP_COUNTED = 2 /* key and value are a cache that the caller keeps, of which live_counts[b] positions count in batch b */
};

enum {
    KLAVERDOMP_NO_MASK = 0,
    KLAVERDOMP_BOOLEAN_MASK = 1, /* 1: seen, 0: hidden */
    KLAVERDOMP_FLOAT_MASK = 2    /* added to the score; minus infinity: hidden */
};

enum {
    KLAVERDOMP_DEFAULT_SCALE = 0, /* the f32 nearest to 1 / sqrt(head_size) */
    KLAVERDOMP_GIVEN_SCALE = 1
};

/* What the scores tensor shows. */
enum {
    KLAVERDOMP_SCALED_SCORES = 0, /* scaled dot products; +0 at positions past the live count */
    KLAVERDOMP_MASKED_SCORES = 1, /* after the float mask is added and before the cap; minus infinity where a key is not seen */
    KLAVERDOMP_CAPPED_SCORES = 2, /* after the cap, and the same as 1 without one; minus infinity where a key is not seen */
    KLAVERDOMP_WEIGHTS = 3,       /* the weights; +0 where a key is not seen */
    KLAVERDOMP_NO_SCORES = 255
};

/* Any numbers may stand here: what is out of its limits is refused. In a record that is set to zeros score_mode shows scores, and there
 * is no cap.
 *
 * A cap c replaces each score s of a key that is seen, after the mask, by c * t: x = s / c; a is -x where x < 0, else x; g = E(a + a), the
 * value of klaverdomp_exp_neg; t = (1 - g) / (1 + g), negated where x < 0; each is one operation in f32. That is near c * tanh(s / c), and
 * never above c in magnitude. Keys that are not seen stay hidden. Weights and outputs go by the scores after the cap. */
typedef struct klaverdomp_call {
    uint64_t form;
    uint64_t mask;
    uint64_t scale_kind;
    uint64_t score_mode;
    uint64_t rank;         /* 3 or 4, of query, key, value and output alike */
    uint64_t causal;       /* 0, or 1: row i sees the positions up to past_length + i */
    uint64_t batches;      /* B, from 1 */
    uint64_t query_heads;  /* Hq, from 1 */
    uint64_t key_heads;    /* Hkv, from 1 */
    uint64_t query_length; /* Sq, from 1 */
    uint64_t key_length;   /* Sk, from 1 */
    uint64_t past_length;  /* P, which is 0 in a plain or counted call */
    uint64_t head_size;    /* D, from 1 */
    uint64_t value_size;   /* Dv, from 1 */
    uint64_t mask_dims[4]; /* each 1, or B, Hq, Sq and T in turn; not looked at without a mask */
    float scale;           /* looked at only where scale_kind is KLAVERDOMP_GIVEN_SCALE: above 0 */
    float softcap;         /* the score cap: 0 of either sign: none; else above 0, up to KLAVERDOMP_MAX_SOFTCAP */
} klaverdomp_call;

/* ---- the tensors ---- */

/* Each tensor has exactly the length that is given here, and one that the call does not use is empty.
 *
 * At rank 4, element k of row i of head h of batch b stands at ((b * H + h) * S + i) * size + k, and at rank 3 at
 * (b * S + i) * H * size + h * size + k. That holds of query, key, value and output. The caches have the order of rank 4 and the scores
 * are (B, Hq, Sq, T) in either rank. The mask has the order of its own four dimensions. */
typedef struct klaverdomp_tensors {
    /* read */
    const float *query;
    size_t query_len; /* B * Hq * Sq * D */
    const float *key;
    size_t key_len; /* B * Hkv * Sk * D */
    const float *value;
    size_t value_len; /* B * Hkv * Sk * Dv */
    const uint8_t *boolean_mask;
    size_t boolean_mask_len; /* the product of mask_dims with a boolean mask, else 0 */
    const float *float_mask;
    size_t float_mask_len; /* the product of mask_dims with a float mask, else 0 */
    const float *past_key;
    size_t past_key_len; /* B * Hkv * P * D in a cached call, else 0 */
    const float *past_value;
    size_t past_value_len; /* B * Hkv * P * Dv in a cached call, else 0 */
    const int64_t *live_counts;
    size_t live_counts_len; /* B in a counted call, else 0 */
    /* written */
    float *output;
    size_t output_len; /* B * Hq * Sq * Dv */
    float *present_key;
    size_t present_key_len; /* B * Hkv * T * D in a cached call, else 0: the past rows and then the incoming rows */
    float *present_value;
    size_t present_value_len; /* B * Hkv * T * Dv in a cached call, else 0 */
    float *scores;
    size_t scores_len; /* B * Hq * Sq * T, and 0 where the score mode is KLAVERDOMP_NO_SCORES */
    float *work;
    size_t work_len; /* T in every call: scratch, which holds the weights of the last row afterwards */
} klaverdomp_tensors;

/* The tensors of a step. The step profile: form is KLAVERDOMP_CACHED, mask KLAVERDOMP_NO_MASK, score_mode KLAVERDOMP_NO_SCORES and rank 4,
 * and causal, batches, query_length and key_length are 1; every other number of the record is free, scale and softcap too.
 * klaverdomp_step takes calls of that profile alone, which have no mask, live counts or scores. */
typedef struct klaverdomp_step_tensors {
    /* read */
    const float *query;
    size_t query_len; /* Hq * D */
    const float *key;
    size_t key_len; /* Hkv * D */
    const float *value;
    size_t value_len; /* Hkv * Dv */
    const float *past_key;
    size_t past_key_len; /* Hkv * P * D */
    const float *past_value;
    size_t past_value_len; /* Hkv * P * Dv */
    /* written */
    float *output;
    size_t output_len; /* Hq * Dv */
    float *present_key;
    size_t present_key_len; /* Hkv * T * D: the past rows of each head and then its incoming row */
    float *present_value;
    size_t present_value_len; /* Hkv * T * Dv */
    float *work;
    size_t work_len; /* T, which is P + 1 */
} klaverdomp_step_tensors;

/* ---- the answer ---- */

/* Of a call the lowest refusal that applies is the one that is given, but for 10: only klaverdomp_step gives it, and tests it before 1.
 * The order of those of saved sessions stands beside their functions. */
enum {
    KLAVERDOMP_DONE = 0,
    KLAVERDOMP_LIMITS = 1,        /* a dimension or T is out of its limits, or P is not 0 outside a cached call; a saved session has sizes
                                     out of their limits, or a 2,049th position */
    KLAVERDOMP_HEAD_GROUPS = 2,   /* the query heads are not a multiple of the key heads */
    KLAVERDOMP_SETTINGS = 3,      /* a rank, causal flag, score mode, given scale or softcap that is not allowed; a code that names no
                                     form, mask kind or scale kind */
    KLAVERDOMP_MASK_SHAPE = 4,    /* a mask dimension is neither 1 nor its full size */
    KLAVERDOMP_INPUT_LENGTH = 5,  /* a tensor that is read has the wrong length */
    KLAVERDOMP_OUTPUT_LENGTH = 6, /* a tensor that is written has the wrong length */
    KLAVERDOMP_LIVE_COUNT = 7,    /* a live count is below 0 or above T */
    KLAVERDOMP_MASK_CELL = 8,     /* a byte of the mask is above 1, or a cell of it is a NaN or plus infinity */
    KLAVERDOMP_ELEMENT = 9,       /* an element is not a number of magnitude at most 65,536; positions past the live count are not
                                     looked at */
    KLAVERDOMP_PROFILE = 10,      /* the record is not of the step profile, which stands at klaverdomp_step_tensors */
    KLAVERDOMP_FILE_RECORD = 11,  /* the first record of a saved session is missing, cut or of a wrong head, or a later one has a wrong
                                     head */
    KLAVERDOMP_ROOM = 16          /* a buffer is too small */
};

/* The tensors of refusal 9, in the order in which they are searched. */
enum {
    KLAVERDOMP_QUERY = 0,
    KLAVERDOMP_PAST_KEY = 1,
    KLAVERDOMP_KEY = 2,
    KLAVERDOMP_PAST_VALUE = 3,
    KLAVERDOMP_VALUE = 4
};

typedef struct klaverdomp_answer {
    uint32_t refusal;     /* KLAVERDOMP_DONE, or the number of the refusal */
    uint64_t tensor;      /* refusal 9: the tensor at fault; else 0 */
    uint64_t index;       /* refusals 7 to 9: the first index at fault in the tensor as it lies; else 0 */
    uint64_t total;       /* done: T; else 0 */
    uint64_t masked_rows; /* done: how many rows (b, h, i) see no key, and have zeros as their output; else 0 */
} klaverdomp_answer;

/* ---- saved sessions ---- */

/* The caches of a session as bytes, so that it can be taken up after a stop: a row of records, each a u32 payload length, a u16 kind and
 * the payload, all little-endian.
 *
 *   the first        kind 1, 8 bytes: B, Hkv, D and Dv as u16
 *   every position   kind 2, 4 * B * Hkv * (D + Dv) bytes: for each batch and key head the f32 bits of its key row, then of its value row
 *
 * So n positions take 14 + n * (6 + 4 * B * Hkv * (D + Dv)) bytes. Sizes have the limits of a call, n is at most KLAVERDOMP_MAX_LENGTH,
 * and elements are numbers of magnitude at most KLAVERDOMP_MAX_MAGNITUDE. One position with a key of 1 and a value of 2, all sizes 1, in
 * hex:
 *
 *   08000000 0100 0100 0100 0100 0100   08000000 0200 0000803F 00000040
 *
 * A file that is cut after any byte behind the first record has exactly the positions that are whole in it. A cut record is one of which
 * fewer than six bytes are there, whatever they hold, or the right head and not the whole payload, whose elements are not looked at.
 *
 * The library knows nothing of files on a disk. Who writes one holds flock(LOCK_EX) on it, as the Rust crate and the command line tool do,
 * so that no two write it at a time. */
enum {
    KLAVERDOMP_SESSION_FIRST_BYTES = 14, /* the first record */
    KLAVERDOMP_SESSION_HEAD_BYTES = 6    /* length and kind of a record */
};

/* What a file holds. The numbers behind place are 0 where it is refused. */
typedef struct klaverdomp_session_reading {
    uint32_t refusal;    /* KLAVERDOMP_DONE, or the number of the refusal */
    uint64_t place;      /* refusal 9: the position at fault, from 0; refusal 11: the byte at which the record begins; else 0 */
    uint64_t batches;    /* B */
    uint64_t key_heads;  /* Hkv */
    uint64_t head_size;  /* D */
    uint64_t value_size; /* Dv */
    uint64_t positions;  /* how many are whole in the file */
    uint64_t used;       /* the byte behind the last whole record; a cut record begins there */
} klaverdomp_session_reading;

/* What a buffer holds after a begin or an append. Where it is refused positions is 0, and used is what the append was lent, or 0 of a
 * begin: so `saved = klaverdomp_session_append(.., saved.used, ..)` goes on with the same file after a refusal too. */
typedef struct klaverdomp_session_saving {
    uint32_t refusal;   /* KLAVERDOMP_DONE, or the number of the refusal */
    uint64_t place;     /* refusal 9: the position at fault, counted as in the file; refusal 11: as in a reading; else 0 */
    uint64_t positions; /* how many stand whole in the buffer: these are saved */
    uint64_t used;      /* the byte behind the last of them: the file is what stands before it; the lent one where an append is refused */
} klaverdomp_session_saving;

/* ---- the functions of the library ---- */

/* Their pointers are never null, also where the length is 0. */

/* The numbers of the record, in their order: form, mask, scale_kind, score_mode, rank, causal, batches, query_heads, key_heads,
 * query_length, key_length, past_length, head_size, value_size and the four of mask_dims. Scale and softcap stand beside them. Any other
 * count than 18 is refusal 1 of klaverdomp_attention_3 and refusal 10 of klaverdomp_step_3. */
enum { KLAVERDOMP_RECORD_NUMBERS = 18 };

uint32_t klaverdomp_attention_3(
    const uint64_t *record, size_t record_len,
    float scale, float softcap,
    const float *query, size_t query_len,
    const float *key, size_t key_len,
    const float *value, size_t value_len,
    const uint8_t *boolean_mask, size_t boolean_mask_len,
    const float *float_mask, size_t float_mask_len,
    const float *past_key, size_t past_key_len,
    const float *past_value, size_t past_value_len,
    const int64_t *live_counts, size_t live_counts_len,
    float *output, size_t output_len,
    float *present_key, size_t present_key_len,
    float *present_value, size_t present_value_len,
    float *scores, size_t scores_len,
    float *work, size_t work_len,
    uint64_t *tensor, uint64_t *index, uint64_t *total, uint64_t *masked_rows);

uint32_t klaverdomp_step_3(
    const uint64_t *record, size_t record_len,
    float scale, float softcap,
    const float *query, size_t query_len,
    const float *key, size_t key_len,
    const float *value, size_t value_len,
    const float *past_key, size_t past_key_len,
    const float *past_value, size_t past_value_len,
    float *output, size_t output_len,
    float *present_key, size_t present_key_len,
    float *present_value, size_t present_value_len,
    float *work, size_t work_len,
    uint64_t *tensor, uint64_t *index, uint64_t *total, uint64_t *masked_rows);

/* Every number of an answer is written, whatever it is. Those behind place are 0 where it is refused, also used_after of an append. */

uint32_t klaverdomp_session_inspect_1(
    const uint8_t *file, size_t file_len,
    uint64_t *batches, uint64_t *key_heads, uint64_t *head_size, uint64_t *value_size,
    uint64_t *positions, uint64_t *used, uint64_t *place);

uint32_t klaverdomp_session_load_1(
    const uint8_t *file, size_t file_len,
    float *keys, size_t keys_len,
    float *values, size_t values_len,
    uint64_t *batches, uint64_t *key_heads, uint64_t *head_size, uint64_t *value_size,
    uint64_t *positions, uint64_t *used, uint64_t *place);

uint32_t klaverdomp_session_begin_1(
    uint8_t *buffer, size_t buffer_len,
    uint64_t batches, uint64_t key_heads, uint64_t head_size, uint64_t value_size,
    uint64_t *positions, uint64_t *used, uint64_t *place);

uint32_t klaverdomp_session_append_1(
    uint8_t *buffer, size_t buffer_len,
    uint64_t used, uint64_t count,
    const float *keys, size_t keys_len,
    const float *values, size_t values_len,
    uint64_t *positions, uint64_t *used_after, uint64_t *place);

uint32_t klaverdomp_exp_neg_1(float d, float *value);
void klaverdomp_exp_neg_row_1(float *row, size_t row_len, float largest);
uint32_t klaverdomp_power_entry_1(uint64_t index, float *value);
uint32_t klaverdomp_default_scale_1(uint64_t head_size, float *value);

/* ---- wrappers ---- */

typedef struct klaverdomp_record {
    uint64_t numbers[KLAVERDOMP_RECORD_NUMBERS];
} klaverdomp_record;

/* The numbers of a call's record in their order. */
static inline klaverdomp_record klaverdomp_record_of(const klaverdomp_call *call)
{
    const klaverdomp_record record = { {
        call->form, call->mask, call->scale_kind, call->score_mode, call->rank, call->causal,
        call->batches, call->query_heads, call->key_heads, call->query_length, call->key_length, call->past_length,
        call->head_size, call->value_size,
        call->mask_dims[0], call->mask_dims[1], call->mask_dims[2], call->mask_dims[3]
    } };
    return record;
}

/* Attention: does the call, or refuses it and leaves every tensor as it was. */
static inline klaverdomp_answer klaverdomp_attention(const klaverdomp_call *call, const klaverdomp_tensors *tensors)
{
    const klaverdomp_tensors t = *tensors;
    const klaverdomp_record record = klaverdomp_record_of(call);
    const uint8_t no_byte = 0;
    const int64_t no_count = 0;
    float no_float = 0.0f;
    klaverdomp_answer answer;
    answer.refusal = klaverdomp_attention_3(
        record.numbers, KLAVERDOMP_RECORD_NUMBERS,
        call->scale, call->softcap,
        t.query ? t.query : &no_float, t.query ? t.query_len : 0,
        t.key ? t.key : &no_float, t.key ? t.key_len : 0,
        t.value ? t.value : &no_float, t.value ? t.value_len : 0,
        t.boolean_mask ? t.boolean_mask : &no_byte, t.boolean_mask ? t.boolean_mask_len : 0,
        t.float_mask ? t.float_mask : &no_float, t.float_mask ? t.float_mask_len : 0,
        t.past_key ? t.past_key : &no_float, t.past_key ? t.past_key_len : 0,
        t.past_value ? t.past_value : &no_float, t.past_value ? t.past_value_len : 0,
        t.live_counts ? t.live_counts : &no_count, t.live_counts ? t.live_counts_len : 0,
        t.output ? t.output : &no_float, t.output ? t.output_len : 0,
        t.present_key ? t.present_key : &no_float, t.present_key ? t.present_key_len : 0,
        t.present_value ? t.present_value : &no_float, t.present_value ? t.present_value_len : 0,
        t.scores ? t.scores : &no_float, t.scores ? t.scores_len : 0,
        t.work ? t.work : &no_float, t.work ? t.work_len : 0,
        &answer.tensor, &answer.index, &answer.total, &answer.masked_rows);
    return answer;
}

/* A step: answers what klaverdomp_attention does with these tensors and no others, and writes the same, where the call is of the step
 * profile. Any other call is refusal 10. */
static inline klaverdomp_answer klaverdomp_step(const klaverdomp_call *call, const klaverdomp_step_tensors *tensors)
{
    const klaverdomp_step_tensors t = *tensors;
    const klaverdomp_record record = klaverdomp_record_of(call);
    float no_float = 0.0f;
    klaverdomp_answer answer;
    answer.refusal = klaverdomp_step_3(
        record.numbers, KLAVERDOMP_RECORD_NUMBERS,
        call->scale, call->softcap,
        t.query ? t.query : &no_float, t.query ? t.query_len : 0,
        t.key ? t.key : &no_float, t.key ? t.key_len : 0,
        t.value ? t.value : &no_float, t.value ? t.value_len : 0,
        t.past_key ? t.past_key : &no_float, t.past_key ? t.past_key_len : 0,
        t.past_value ? t.past_value : &no_float, t.past_value ? t.past_value_len : 0,
        t.output ? t.output : &no_float, t.output ? t.output_len : 0,
        t.present_key ? t.present_key : &no_float, t.present_key ? t.present_key_len : 0,
        t.present_value ? t.present_value : &no_float, t.present_value ? t.present_value_len : 0,
        t.work ? t.work : &no_float, t.work ? t.work_len : 0,
        &answer.tensor, &answer.index, &answer.total, &answer.masked_rows);
    return answer;
}

/* What a file holds, without its elements: the sizes, the whole positions, and the bytes that they use.
 *
 * The fault that comes first in byte order is the refusal: 11 for a first record that is missing, cut or of a wrong head, at byte 0, and
 * for a whole head of wrong kind or length, at the byte where that record begins; 1 for sizes out of their limits and for the right head
 * of a 2,049th position; 9 for an element of a whole record.
 *
 * What stands before the fault is sound: the first `place` bytes of a file that is refusal 11 behind byte 0 are a file by themselves, and so
 * are those of the first `place` positions at refusal 9. The first 14 bytes alone tell the sizes, and whether refusal 1 is for them. */
static inline klaverdomp_session_reading klaverdomp_session_inspect(const uint8_t *file, size_t file_len)
{
    const uint8_t no_byte = 0;
    klaverdomp_session_reading r;
    r.refusal = klaverdomp_session_inspect_1(
        file ? file : &no_byte, file ? file_len : 0,
        &r.batches, &r.key_heads, &r.head_size, &r.value_size, &r.positions, &r.used, &r.place);
    return r;
}

/* The same, and the caches: keys get B * Hkv * n * D elements and values B * Hkv * n * Dv for the n whole positions, in cache order, so
 * that they are the past caches of the next call. Any other length is refusal 6, after every refusal of the file. */
static inline klaverdomp_session_reading klaverdomp_session_load(
    const uint8_t *file, size_t file_len, float *keys, size_t keys_len, float *values, size_t values_len)
{
    const uint8_t no_byte = 0;
    float no_float = 0.0f;
    klaverdomp_session_reading r;
    r.refusal = klaverdomp_session_load_1(
        file ? file : &no_byte, file ? file_len : 0,
        keys ? keys : &no_float, keys ? keys_len : 0,
        values ? values : &no_float, values ? values_len : 0,
        &r.batches, &r.key_heads, &r.head_size, &r.value_size, &r.positions, &r.used, &r.place);
    return r;
}

/* Begins a file of these sizes: writes 14 bytes at the start of the buffer, of which nothing is looked at, and no others. Refusal 1 for
 * sizes out of their limits, then 16 for a buffer of fewer bytes. */
static inline klaverdomp_session_saving klaverdomp_session_begin(
    uint8_t *buffer, size_t buffer_len, uint64_t batches, uint64_t key_heads, uint64_t head_size, uint64_t value_size)
{
    uint8_t no_byte = 0;
    klaverdomp_session_saving s;
    s.refusal = klaverdomp_session_begin_1(
        buffer ? buffer : &no_byte, buffer ? buffer_len : 0,
        batches, key_heads, head_size, value_size, &s.positions, &s.used, &s.place);
    return s;
}

/* Adds `count` positions to the file in the first `used` bytes of the buffer, behind its last whole record: a cut record is written over.
 * Keys are (B, Hkv, count, D) and values (B, Hkv, count, Dv), as a call has them at rank 4. All of them are written or none; bytes behind
 * the new end stay as they were. A count of 0 changes no byte, and the answer is where the last whole record ends.
 *
 * The refusals, in this order: 16 where `used` is beyond the buffer; that of the file as klaverdomp_session_inspect gives it; 1 for more
 * than 2,048 positions in all; 5 where keys or values have another length; 9 for an element of theirs, with the least position at fault;
 * 16 where the buffer ends before the last of the records to be written does. A refused append leaves the file as it was, and answers the
 * `used` that it was lent.
 *
 * What it costs: any bytes may stand in the buffer, so every append reads the whole file in it, each element too. Adding n positions one
 * at a time to one buffer reads about n * n / 2 records. Where the file is on a disk there is a cheaper way, since a record does not depend
 * on what stands before it: keep a buffer of 14 + count * (6 + 4 * B * Hkv * (D + Dv)) bytes, begin a file of the same sizes there, add the
 * new positions to it, and write its bytes behind the first 14 to the place on the disk where the last whole record ends. Then the caller
 * sees to it that there are at most 2,048 in all. `SavedSession` of the Rust crate in host/klaverdomp does that. */
static inline klaverdomp_session_saving klaverdomp_session_append(
    uint8_t *buffer, size_t buffer_len, uint64_t used, uint64_t count,
    const float *keys, size_t keys_len, const float *values, size_t values_len)
{
    uint8_t no_byte = 0;
    const float no_float = 0.0f;
    klaverdomp_session_saving s;
    s.refusal = klaverdomp_session_append_1(
        buffer ? buffer : &no_byte, buffer ? buffer_len : 0,
        used, count,
        keys ? keys : &no_float, keys ? keys_len : 0,
        values ? values : &no_float, values ? values_len : 0,
        &s.positions, &s.used, &s.place);
    if (s.refusal != KLAVERDOMP_DONE)
        s.used = used;
    return s;
}

/* What a refusal means, in words. */
static inline const char *klaverdomp_refusal_text(uint32_t refusal)
{
    switch (refusal) {
    case KLAVERDOMP_DONE: return "done";
    case KLAVERDOMP_LIMITS: return "a dimension or the number of positions is out of its limits, or an uncached call has a past";
    case KLAVERDOMP_HEAD_GROUPS: return "the query heads are not a multiple of the key heads";
    case KLAVERDOMP_SETTINGS: return "a form, mask kind, scale, score cap, score mode, rank or causal flag is not allowed";
    case KLAVERDOMP_MASK_SHAPE: return "a mask dimension is neither 1 nor its full size";
    case KLAVERDOMP_INPUT_LENGTH: return "a tensor that is read has the wrong length";
    case KLAVERDOMP_OUTPUT_LENGTH: return "a tensor that is written has the wrong length";
    case KLAVERDOMP_LIVE_COUNT: return "a live count is below 0 or above the total length";
    case KLAVERDOMP_MASK_CELL: return "a mask byte is above 1, or a mask cell is a NaN or plus infinity";
    case KLAVERDOMP_ELEMENT: return "an element is not a number of magnitude at most 65,536";
    case KLAVERDOMP_PROFILE: return "the call is not a step: cached, causal, rank 4, one position of one batch, no mask and no scores";
    case KLAVERDOMP_FILE_RECORD: return "a record of a saved session has the wrong kind or length, or its first record is missing or cut";
    case KLAVERDOMP_ROOM: return "a buffer is too small";
    default: return "no refusal has this number";
    }
}

/* E(d), near e^-d: 1 with the value behind the pointer, or 0 with +0 where there is none, which is where d is below 0 or a NaN. */
static inline int klaverdomp_exp_neg(float d, float *value)
{
    return klaverdomp_exp_neg_1(d, value) != 0;
}

/* Each element s of the row becomes E(largest - s), and +0 where that has no value. */
static inline void klaverdomp_exp_neg_row(float *row, size_t row_len, float largest)
{
    float no_float = 0.0f;
    klaverdomp_exp_neg_row_1(row ? row : &no_float, row ? row_len : 0, largest);
}

/* The f32 nearest to 2^-(index / 256): 1 with the value behind the pointer for an index up to 255, or 0 with +0 for any other. */
static inline int klaverdomp_power_entry(uint64_t index, float *value)
{
    return klaverdomp_power_entry_1(index, value) != 0;
}

/* The f32 nearest to 1 / sqrt(head_size): 1 with the value behind the pointer for a size from 1 to 256, or 0 with +0 for any other. */
static inline int klaverdomp_default_scale(uint64_t head_size, float *value)
{
    return klaverdomp_default_scale_1(head_size, value) != 0;
}

#ifdef __cplusplus
}
#endif

#endif
