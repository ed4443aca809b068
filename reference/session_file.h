/* A plain reader and writer of saved sessions.
 *
 * It is written from the change request alone and shares nothing with the library; the differential tests hold the two
 * to the same answers and the same bytes, and the benchmark times the library against it.
 *
 * A file is a row of records, each a u32 payload length, a u16 kind and the payload, little-endian. The first is of kind
 * 1: B, Hkv, D, Dv as u16. Then comes one of kind 2 per position: for each batch and key head the f32 bits of the key row
 * and then of the value row.
 */
#ifndef KLAVERDOMP_REFERENCE_SESSION_FILE_H
#define KLAVERDOMP_REFERENCE_SESSION_FILE_H

#include <stddef.h>
#include <stdint.h>

/* refusal 0 is done. place is the byte of refusal 11 or the position of refusal 9. The rest is for done: the sizes, how
 * many positions are whole in the file, and the byte behind the last whole record. */
struct reference_reading {
    uint64_t refusal, place, B, Hkv, D, Dv, positions, used;
};

struct reference_saving {
    uint64_t refusal, place, positions, used;
};

void reference_session_inspect(const uint8_t *file, size_t file_len, struct reference_reading *);

/* The caches are (B, Hkv, positions, D) and (B, Hkv, positions, Dv). */
void reference_session_load(const uint8_t *file, size_t file_len, float *keys, size_t keys_len, float *values,
                            size_t values_len, struct reference_reading *);

void reference_session_begin(uint8_t *buffer, size_t buffer_len, uint64_t B, uint64_t Hkv, uint64_t D, uint64_t Dv,
                             struct reference_saving *);

/* The first used bytes of the buffer are the file; keys are (B, Hkv, count, D) and values (B, Hkv, count, Dv). */
void reference_session_append(uint8_t *buffer, size_t buffer_len, uint64_t used, uint64_t count, const float *keys,
                              size_t keys_len, const float *values, size_t values_len, struct reference_saving *);

#endif
