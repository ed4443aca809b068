/* A call of one shape with tensors of its own, for the programs that count and time calls. The call is cached and causal, rank 4, with S
 * positions after P past ones; the elements are from -2 to 2 by a fixed rule. */
#include <stdint.h>
#include <stdio.h>
#include <stdlib.h>
#include <string.h>
#include "../include/klaverdomp.h"

struct shape {
    uint64_t B, Hq, Hkv, P, S, D;
    float softcap;
};

/* What a call of the shape writes. */
struct written {
    float *output, *present_key, *present_value, *work;
    size_t output_len, present_len, work_len;
};

static uint64_t state = 0x2545F4914F6CDD1DULL;

/* xorshift */
static float *tensor(size_t len)
{
    float *t = malloc((len ? len : 1) * sizeof *t);
    if (!t) exit(2);
    for (size_t i = 0; i < len; i++) {
        state ^= state << 13;
        state ^= state >> 7;
        state ^= state << 17;
        t[i] = (float)(state >> 40) / 4194304.0f - 2.0f;
    }
    return t;
}

static klaverdomp_call call_of(const struct shape *s)
{
    return (klaverdomp_call){
        .form = KLAVERDOMP_CACHED, .score_mode = KLAVERDOMP_NO_SCORES, .rank = 4, .causal = 1,
        .batches = s->B, .query_heads = s->Hq, .key_heads = s->Hkv, .query_length = s->S, .key_length = s->S, .past_length = s->P,
        .head_size = s->D, .value_size = s->D, .softcap = s->softcap,
    };
}

/* The tensors that a call of the shape reads; what it writes is not lent yet. */
static klaverdomp_tensors inputs_of(const struct shape *s)
{
    size_t nq = s->B * s->Hq * s->S * s->D, nk = s->B * s->Hkv * s->S * s->D, np = s->B * s->Hkv * s->P * s->D;
    klaverdomp_tensors t = {.query_len = nq, .key_len = nk, .value_len = nk, .past_key_len = np, .past_value_len = np};
    t.query = tensor(nq), t.key = tensor(nk), t.value = tensor(nk), t.past_key = tensor(np), t.past_value = tensor(np);
    return t;
}

static struct written written_of(const struct shape *s)
{
    size_t T = s->P + s->S, ny = s->B * s->Hq * s->S * s->D, nc = s->B * s->Hkv * T * s->D;
    struct written w = {.output_len = ny, .present_len = nc, .work_len = T};
    w.output = tensor(ny), w.present_key = tensor(nc), w.present_value = tensor(nc), w.work = tensor(T);
    return w;
}

static void lend(klaverdomp_tensors *t, const struct written *w)
{
    t->output = w->output, t->output_len = w->output_len;
    t->present_key = w->present_key, t->present_key_len = w->present_len;
    t->present_value = w->present_value, t->present_value_len = w->present_len;
    t->work = w->work, t->work_len = w->work_len;
}

static int equal(const struct written *a, const struct written *b)
{
    return memcmp(a->output, b->output, a->output_len * sizeof(float)) == 0
        && memcmp(a->present_key, b->present_key, a->present_len * sizeof(float)) == 0
        && memcmp(a->present_value, b->present_value, a->present_len * sizeof(float)) == 0
        && memcmp(a->work, b->work, a->work_len * sizeof(float)) == 0;
}
