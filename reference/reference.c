/* The attention operator of the scope document, section by section: the record and its refusals in their order, where
 * an element stands, which keys a row sees, steps 1 to 5, the score cap, the house exponential, the tables, the score
 * modes, the presents, the whole call, and the entry for a step. Plain loops, f32 throughout. */

#include "reference.h"

#include <math.h>
#include <string.h>

#include "tables.h"

typedef struct reference_call call;
typedef struct reference_inputs inputs;
typedef struct reference_outputs outputs;
typedef struct reference_answer answer;

/* ---- Nine refusals and their order ---- */

static int within(uint64_t n, uint64_t low, uint64_t high) { return low <= n && n <= high; }

/* 1: a dimension or T outside its limits, or P not 0 outside cached. P + Sk is not formed before both are known to be
 * small. A form without a name may have a past; it is refused by 3. */
static int sizes_refused(const call *c) {
    if (!within(c->B, 1, 8) || !within(c->Hq, 1, 32) || !within(c->Hkv, 1, 32)) return 1;
    if (!within(c->Sq, 1, 2048) || !within(c->Sk, 1, 2048)) return 1;
    if (!within(c->D, 1, 256) || !within(c->Dv, 1, 256)) return 1;
    if (c->P > 2048 || c->P + c->Sk > 2048) return 1;
    return (c->form == FORM_PLAIN || c->form == FORM_COUNTED) && c->P != 0;
}

/* 2 */
static int heads_refused(const call *c) { return c->Hq % c->Hkv != 0; }

/* 3: the settings, and codes that name no form, mask kind or scale kind. A scale or a cap that is not a number fails
 * both comparisons; a cap of -0 passes them. */
static int settings_refused(const call *c) {
    if (c->form > FORM_COUNTED || c->mask_kind > MASK_FLOAT || c->scale_kind > SCALE_GIVEN) return 1;
    if (c->rank != 3 && c->rank != 4) return 1;
    if (c->causal > 1) return 1;
    if (c->score_mode > SCORES_WEIGHTS && c->score_mode != SCORES_NONE) return 1;
    if (!(c->softcap >= 0.0f && c->softcap <= 65536.0f)) return 1;
    return c->scale_kind == SCALE_GIVEN && !(c->scale > 0.0f && c->scale <= 1024.0f);
}

/* 4 */
static int mask_dims_refused(const call *c) {
    const uint64_t full[4] = {c->B, c->Hq, c->Sq, c->P + c->Sk};
    if (c->mask_kind == MASK_NONE) return 0;
    for (int n = 0; n < 4; n++)
        if (c->mask_dims[n] != 1 && c->mask_dims[n] != full[n]) return 1;
    return 0;
}

/* 5 */
static int inputs_refused(const call *c, const inputs *in) {
    const uint64_t cells = c->mask_dims[0] * c->mask_dims[1] * c->mask_dims[2] * c->mask_dims[3];
    const int cached = c->form == FORM_CACHED;
    return in->query.len != c->B * c->Hq * c->Sq * c->D
        || in->key.len != c->B * c->Hkv * c->Sk * c->D
        || in->value.len != c->B * c->Hkv * c->Sk * c->Dv
        || in->bool_mask.len != (c->mask_kind == MASK_BOOLEAN ? cells : 0)
        || in->float_mask.len != (c->mask_kind == MASK_FLOAT ? cells : 0)
        || in->past_key.len != (cached ? c->B * c->Hkv * c->P * c->D : 0)
        || in->past_value.len != (cached ? c->B * c->Hkv * c->P * c->Dv : 0)
        || in->live.len != (c->form == FORM_COUNTED ? c->B : 0);
}

/* 6 */
static int outputs_refused(const call *c, const outputs *out) {
    const uint64_t T = c->P + c->Sk;
    const int cached = c->form == FORM_CACHED;
    return out->output.len != c->B * c->Hq * c->Sq * c->Dv
        || out->present_key.len != (cached ? c->B * c->Hkv * T * c->D : 0)
        || out->present_value.len != (cached ? c->B * c->Hkv * T * c->Dv : 0)
        || out->scores.len != (c->score_mode != SCORES_NONE ? c->B * c->Hq * c->Sq * T : 0)
        || out->work.len != T;
}

/* 7 */
static int live_refused(const call *c, const inputs *in, uint64_t *index) {
    const int64_t T = (int64_t)(c->P + c->Sk);
    for (size_t b = 0; b < in->live.len; b++)
        if (in->live.at[b] < 0 || in->live.at[b] > T) {
            *index = b;
            return 1;
        }
    return 0;
}

/* 8: every cell counts, also of hidden and padded positions. The tensor of a kind that is not in use is empty. */
static int mask_refused(const inputs *in, uint64_t *index) {
    for (size_t n = 0; n < in->bool_mask.len; n++)
        if (in->bool_mask.at[n] > 1) {
            *index = n;
            return 1;
        }
    for (size_t n = 0; n < in->float_mask.len; n++)
        if (!(in->float_mask.at[n] < INFINITY)) {
            *index = n;
            return 1;
        }
    return 0;
}

/* The first of the len elements from start on that isn't a number of magnitude at most 65,536. */
static int element_refused(const float *tensor, size_t start, size_t len, uint64_t *index) {
    for (size_t n = start; n < start + len; n++)
        if (!(fabsf(tensor[n]) <= 65536.0f)) {
            *index = n;
            return 1;
        }
    return 0;
}

/* The live count of batch b, T unless counted. */
static uint64_t live_count(const call *c, const inputs *in, uint64_t b) {
    return c->form == FORM_COUNTED ? (uint64_t)in->live.at[b] : c->P + c->Sk;
}

/* 9 in an incoming tensor (K or V, rows of the given size): in each batch, or each head of it, the positions that are
 * not padded come first. */
static int incoming_refused(const call *c, const inputs *in, const float *tensor, uint64_t size, uint64_t *index) {
    for (uint64_t b = 0; b < c->B; b++) {
        const uint64_t L = live_count(c, in, b);
        const uint64_t looked_at = L < c->Sk ? L : c->Sk;
        if (c->rank == 3) {
            if (element_refused(tensor, b * c->Sk * c->Hkv * size, looked_at * c->Hkv * size, index)) return 1;
        } else {
            for (uint64_t h = 0; h < c->Hkv; h++)
                if (element_refused(tensor, (b * c->Hkv + h) * c->Sk * size, looked_at * size, index)) return 1;
        }
    }
    return 0;
}

/* 9 */
static int elements_refused(const call *c, const inputs *in, uint64_t *tensor, uint64_t *index) {
    *tensor = 0;
    if (element_refused(in->query.at, 0, in->query.len, index)) return 1;
    *tensor = 1;
    if (element_refused(in->past_key.at, 0, in->past_key.len, index)) return 1;
    *tensor = 2;
    if (incoming_refused(c, in, in->key.at, c->D, index)) return 1;
    *tensor = 3;
    if (element_refused(in->past_value.at, 0, in->past_value.len, index)) return 1;
    *tensor = 4;
    if (incoming_refused(c, in, in->value.at, c->Dv, index)) return 1;
    *tensor = 0;
    return 0;
}

static uint64_t refusal_of(const call *c, const inputs *in, const outputs *out, uint64_t *tensor, uint64_t *index) {
    if (sizes_refused(c)) return 1;
    if (heads_refused(c)) return 2;
    if (settings_refused(c)) return 3;
    if (mask_dims_refused(c)) return 4;
    if (inputs_refused(c, in)) return 5;
    if (outputs_refused(c, out)) return 6;
    if (live_refused(c, in, index)) return 7;
    if (mask_refused(in, index)) return 8;
    if (elements_refused(c, in, tensor, index)) return 9;
    return 0;
}

/* ---- Where an element stands ---- */

/* One head of a tensor: the row of position j begins at first + j * step. */
struct rows { size_t first, step; };

/* Head h of batch b in Q, K, V or Y, which have the given heads, length and size. */
static struct rows rows_of(const call *c, uint64_t b, uint64_t h, uint64_t heads, uint64_t length, uint64_t size) {
    if (c->rank == 3) return (struct rows){b * length * heads * size + h * size, heads * size};
    return (struct rows){(b * heads + h) * length * size, size};
}

/* The keys or values of one key head: the past rows, then the incoming ones, each where it stands. */
struct cache {
    const float *past, *incoming;
    size_t P, size, step;
};

static struct cache cache_of(const call *c, const float *past, const float *incoming, uint64_t b, uint64_t h,
                             uint64_t size) {
    const struct rows in = rows_of(c, b, h, c->Hkv, c->Sk, size);
    const float *head = c->P == 0 ? past : past + (b * c->Hkv + h) * c->P * size;
    return (struct cache){head, incoming + in.first, c->P, size, in.step};
}

static const float *cache_row(const struct cache *cache, size_t j) {
    return j < cache->P ? cache->past + j * cache->size : cache->incoming + (j - cache->P) * cache->step;
}

/* ---- Which keys a row sees ---- */

/* What row (b, h, i) may see: the positions below last (live and, when causal, not past the diagonal) whose mask cell
 * does not hide them. The mask's cell for position j is at j * step; at most one of the two masks is there. */
struct view {
    size_t T, live, last, step;
    const uint8_t *bool_mask;
    const float *float_mask;
};

static struct view view_of(const call *c, const inputs *in, uint64_t b, uint64_t h, uint64_t i) {
    struct view view = {c->P + c->Sk, live_count(c, in, b), 0, 0, 0, 0};
    view.last = view.live;
    if (c->causal && c->P + i + 1 < view.last) view.last = c->P + i + 1;
    if (c->mask_kind != MASK_NONE) {
        const uint64_t *dims = c->mask_dims;
        const size_t at_b = dims[0] == 1 ? 0 : b, at_h = dims[1] == 1 ? 0 : h, at_i = dims[2] == 1 ? 0 : i;
        const size_t start = ((at_b * dims[1] + at_h) * dims[2] + at_i) * dims[3];
        view.step = dims[3] == 1 ? 0 : 1;
        if (c->mask_kind == MASK_BOOLEAN) view.bool_mask = in->bool_mask.at + start;
        if (c->mask_kind == MASK_FLOAT) view.float_mask = in->float_mask.at + start;
    }
    return view;
}

static int admits(const struct view *view, size_t j) {
    if (j >= view->last) return 0;
    if (view->bool_mask) return view->bool_mask[j * view->step] != 0;
    if (view->float_mask) return view->float_mask[j * view->step] != -INFINITY;
    return 1;
}

/* ---- Rounding order: one row ---- */

/* Step 1. Lane l takes the products whose k has remainder l by 4, k rising. A lane without a product is +0. */
static float score(const float *query, const float *key, size_t D, float scale) {
    float lane[4];
    for (size_t l = 0; l < 4; l++) {
        lane[l] = 0.0f;
        for (size_t k = l; k < D; k += 4) lane[l] += query[k] * key[k];
    }
    const float dot = (lane[0] + lane[1]) + (lane[2] + lane[3]);
    return dot * scale;
}

/* Steps 1 and 2 into the work row, minus infinity where not admitted. An admitted score is finite: its magnitude is at
 * most 2^50 before a finite mask cell is added. */
static void score_row(const struct view *view, const float *query, const struct cache *keys, float scale, float *work) {
    for (size_t j = 0; j < view->T; j++) {
        if (!admits(view, j)) {
            work[j] = -INFINITY;
            continue;
        }
        float s = score(query, cache_row(keys, j), keys->size, scale);
        if (view->float_mask) s += view->float_mask[j * view->step];
        work[j] = s;
    }
}

/* Steps 3 and 4: the scores in the work row become weights, +0 where not admitted. 1 if the row is blind. */
static int softmax_row(const struct view *view, float *work) {
    float m = 0.0f, sum = 0.0f;
    int blind = 1;
    for (size_t j = 0; j < view->last; j++) {
        if (!admits(view, j)) continue;
        if (blind || work[j] > m) m = work[j];
        blind = 0;
    }
    for (size_t j = 0; j < view->T; j++) {
        if (!admits(view, j)) {
            work[j] = 0.0f;
            continue;
        }
        reference_exp_neg(m - work[j], &work[j]);
        sum += work[j];
    }
    for (size_t j = 0; j < view->last; j++)
        if (admits(view, j)) work[j] = work[j] / sum;
    return blind;
}

/* Step 5. Each column is its own sum, j rising. */
static void output_row(const struct view *view, const float *work, const struct cache *values, float *restrict y) {
    for (size_t n = 0; n < values->size; n++) y[n] = 0.0f;
    for (size_t j = 0; j < view->last; j++) {
        if (!admits(view, j)) continue;
        const float weight = work[j];
        const float *restrict v = cache_row(values, j);
        for (size_t n = 0; n < values->size; n++) y[n] += weight * v[n];
    }
}

/* ---- Score cap ---- */

/* A score s under a cap c above 0. s / c may be infinite. */
static float capped(float s, float c) {
    const float x = s / c;
    const float a = x < 0.0f ? -x : x;
    float g;
    reference_exp_neg(a + a, &g);
    const float t = (1.0f - g) / (1.0f + g);
    return c * (x < 0.0f ? -t : t);
}

/* After step 2: each admitted score in the work row under the cap. */
static void cap_row(const struct view *view, float c, float *work) {
    for (size_t j = 0; j < view->last; j++)
        if (admits(view, j)) work[j] = capped(work[j], c);
}

/* ---- House exponential ---- */

static float from_bits(uint32_t bits) {
    float value;
    memcpy(&value, &bits, sizeof value);
    return value;
}

int reference_exp_neg(float d, float *value) {
    const float LOG2E = from_bits(0x3FB8AA3B), C1 = from_bits(0x3F317218), C2 = from_bits(0x3E75FDF0);
    *value = 0.0f;
    if (!(d >= 0.0f)) return 0;
    const float y = d * LOG2E;
    if (y >= 120.0f) return 1;
    const int n = (int)(256.0f * y); /* 256 y is exact and not below 0, so the cut is the floor */
    const int k = n / 256, f = n % 256;
    const float r = y - (float)n / 256.0f;
    const float p = 1.0f - r * (C1 - r * C2);
    const float power_of_two = from_bits((uint32_t)(127 - k) << 23); /* 2^-k, k at most 119 */
    *value = (from_bits(power_bits[f]) * p) * power_of_two;
    return 1;
}

/* ---- Power table, default scale ---- */

int reference_power_entry(uint64_t f, float *value) {
    *value = f < 256 ? from_bits(power_bits[f]) : 0.0f;
    return f < 256;
}

int reference_default_scale(uint64_t size, float *value) {
    const int there = within(size, 1, 256);
    *value = there ? from_bits(default_scale_bits[size - 1]) : 0.0f;
    return there;
}

/* ---- Score modes ---- */

/* Mode 0: step 1 at every position that is not padded, hidden ones too. */
static void show_scores(const struct view *view, const float *query, const struct cache *keys, float scale, float *shown) {
    for (size_t j = 0; j < view->T; j++)
        shown[j] = j < view->live ? score(query, cache_row(keys, j), keys->size, scale) : 0.0f;
}

/* ---- Presents ---- */

/* Per batch and key head, the past rows and then the incoming rows. */
static void write_present(const call *c, const float *past, const float *incoming, uint64_t size, float *present) {
    for (uint64_t b = 0; b < c->B; b++)
        for (uint64_t h = 0; h < c->Hkv; h++) {
            const struct cache rows = cache_of(c, past, incoming, b, h, size);
            for (uint64_t j = 0; j < c->P + c->Sk; j++) {
                memcpy(present, cache_row(&rows, j), size * sizeof *present);
                present += size;
            }
        }
}

/* ---- The whole call ---- */

/* Row (b, h, i); 1 if it is blind. The work row is left with its weights. */
static int attend_row(const call *c, const struct view *view, const float *query, const struct cache *keys,
                      const struct cache *values, float scale, float *y, float *shown, float *work) {
    const size_t row = view->T * sizeof *work;
    if (c->score_mode == SCORES_DOT) show_scores(view, query, keys, scale, shown);
    score_row(view, query, keys, scale, work);
    if (c->score_mode == SCORES_MASKED) memcpy(shown, work, row);
    if (c->softcap != 0.0f) cap_row(view, c->softcap, work);
    if (c->score_mode == SCORES_CAPPED) memcpy(shown, work, row);
    const int blind = softmax_row(view, work);
    if (c->score_mode == SCORES_WEIGHTS) memcpy(shown, work, row);
    output_row(view, work, values, y);
    return blind;
}

/* All rows in the order b, h, i; the number of blind ones. */
static uint64_t attend(const call *c, const inputs *in, outputs *out) {
    const uint64_t T = c->P + c->Sk;
    float scale = c->scale;
    uint64_t blind = 0;
    if (c->scale_kind == SCALE_ABSENT) reference_default_scale(c->D, &scale);
    for (uint64_t b = 0; b < c->B; b++)
        for (uint64_t h = 0; h < c->Hq; h++) {
            const uint64_t key_head = h / (c->Hq / c->Hkv);
            const struct rows q = rows_of(c, b, h, c->Hq, c->Sq, c->D);
            const struct rows y = rows_of(c, b, h, c->Hq, c->Sq, c->Dv);
            const struct cache keys = cache_of(c, in->past_key.at, in->key.at, b, key_head, c->D);
            const struct cache values = cache_of(c, in->past_value.at, in->value.at, b, key_head, c->Dv);
            for (uint64_t i = 0; i < c->Sq; i++) {
                const struct view view = view_of(c, in, b, h, i);
                float *shown = c->score_mode == SCORES_NONE ? 0 : out->scores.at + ((b * c->Hq + h) * c->Sq + i) * T;
                blind += (uint64_t)attend_row(c, &view, in->query.at + q.first + i * q.step, &keys, &values, scale,
                                              out->output.at + y.first + i * y.step, shown, out->work.at);
            }
        }
    return blind;
}

void reference_attention(const struct reference_call *c, const struct reference_inputs *in,
                         struct reference_outputs *out, struct reference_answer *done) {
    *done = (answer){0, 0, 0, 0, 0};
    done->refusal = refusal_of(c, in, out, &done->tensor, &done->index);
    if (done->refusal != 0) return;
    if (c->form == FORM_CACHED) {
        write_present(c, in->past_key.at, in->key.at, c->D, out->present_key.at);
        write_present(c, in->past_value.at, in->value.at, c->Dv, out->present_value.at);
    }
    done->total = c->P + c->Sk;
    done->masked = attend(c, in, out);
}

/* ---- A step ---- */

/* 10: the record has not B 1, Sq 1, Sk 1, cached, causal, rank 4, no mask and no scores. */
static int profile_refused(const call *c) {
    const int one_position = c->B == 1 && c->Sq == 1 && c->Sk == 1;
    const int cached_causal = c->form == FORM_CACHED && c->causal == 1 && c->rank == 4;
    return !(one_position && cached_causal && c->mask_kind == MASK_NONE && c->score_mode == SCORES_NONE);
}

void reference_step(const struct reference_call *c, const struct reference_step_inputs *read,
                    struct reference_step_outputs *written, struct reference_answer *done) {
    const inputs in = {read->query, read->key, read->value, {0, 0}, {0, 0}, read->past_key, read->past_value, {0, 0}};
    outputs out = {written->output, written->present_key, written->present_value, {0, 0}, written->work};
    *done = (answer){10, 0, 0, 0, 0};
    if (!profile_refused(c)) reference_attention(c, &in, &out, done);
}
