/* A plain f32 attention operator that does every operation in the order of the scope document and its changes.
 *
 * It is written from that document and the change requests alone and shares nothing with the library; the differential
 * tests hold the two to the same bits, and the benchmark times the library against it. Compile with
 *   gcc -O2 (or -O3) -ffp-contract=off -msse2 -mfpmath=sse
 * so that each f32 operation is rounded once and no product is fused with a sum.
 */
#ifndef KLAVERDOMP_REFERENCE_H
#define KLAVERDOMP_REFERENCE_H

#include <stddef.h>
#include <stdint.h>

enum { FORM_PLAIN = 0, FORM_CACHED = 1, FORM_COUNTED = 2 };
enum { MASK_NONE = 0, MASK_BOOLEAN = 1, MASK_FLOAT = 2 };
enum { SCALE_ABSENT = 0, SCALE_GIVEN = 1 };
enum { SCORES_DOT = 0, SCORES_MASKED = 1, SCORES_CAPPED = 2, SCORES_WEIGHTS = 3, SCORES_NONE = 255 };

/* The call record. Its numbers are what a caller hands over, so each may be anything at all. */
struct reference_call {
    uint64_t form, mask_kind, scale_kind, score_mode, rank, causal;
    uint64_t B, Hq, Hkv, Sq, Sk, P, D, Dv;
    uint64_t mask_dims[4];
    float scale;   /* looked at only when scale_kind is SCALE_GIVEN */
    float softcap; /* 0 of either sign: no cap */
};

struct floats { const float *at; size_t len; };
struct bytes { const uint8_t *at; size_t len; };
struct counts { const int64_t *at; size_t len; };
struct lent { float *at; size_t len; };

struct reference_inputs {
    struct floats query, key, value;
    struct bytes bool_mask;
    struct floats float_mask, past_key, past_value;
    struct counts live;
};

struct reference_outputs {
    struct lent output, present_key, present_value, scores, work;
};

/* refusal 0 is done; tensor and index are the place of refusals 7 to 9; total (T) and masked (blind rows) are for done. */
struct reference_answer {
    uint64_t refusal, tensor, index, total, masked;
};

void reference_attention(const struct reference_call *, const struct reference_inputs *, struct reference_outputs *,
                         struct reference_answer *);

/* What the step entry is lent: no mask, live counts or scores. */
struct reference_step_inputs {
    struct floats query, key, value, past_key, past_value;
};

struct reference_step_outputs {
    struct lent output, present_key, present_value, work;
};

/* The entry for a step alone: refusal 10 for a record of any other kind, tested before 1. */
void reference_step(const struct reference_call *, const struct reference_step_inputs *,
                    struct reference_step_outputs *, struct reference_answer *);

/* Each returns 1 and the value, or 0 and +0 where there is none. */
int reference_exp_neg(float d, float *value);
int reference_power_entry(uint64_t f, float *value);
int reference_default_scale(uint64_t size, float *value);

#endif
