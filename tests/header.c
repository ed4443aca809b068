/* The functions of the header but those of saved sessions, called from C and from C++: the edges of the record, null pointers, and what
 * each function answers. The status is 0 exactly where all is as expected. */
#include <math.h>
#include <string.h>

#include "expect.h"
#include "klaverdomp.h"

/* One query against two keys, or one with a past of one, all sizes 1, scale 1. */
static float query[1], key[2], value[2], past_key[1], past_value[1], output[1], present_key[2], present_value[2], scores[2], work[2];
static uint8_t mask[2];
static klaverdomp_call call;
static klaverdomp_tensors t;
static klaverdomp_step_tensors step;

static void two_keys(void)
{
    memset(&call, 0, sizeof call);
    memset(&t, 0, sizeof t);
    query[0] = 1;
    key[0] = key[1] = 3;
    value[0] = 2;
    value[1] = 4;
    output[0] = -7;
    call.scale_kind = KLAVERDOMP_GIVEN_SCALE;
    call.scale = 1;
    call.score_mode = KLAVERDOMP_NO_SCORES;
    call.rank = 4;
    call.batches = call.query_heads = call.key_heads = call.query_length = call.head_size = call.value_size = 1;
    call.key_length = 2;
    t.query = query;
    t.query_len = 1;
    t.key = key;
    t.key_len = 2;
    t.value = value;
    t.value_len = 2;
    t.output = output;
    t.output_len = 1;
    t.work = work;
    t.work_len = 2;
}

static void one_past(void)
{
    two_keys();
    key[0] = past_key[0] = 1;
    past_value[0] = 6;
    value[0] = 12;
    call.form = KLAVERDOMP_CACHED;
    call.causal = 1;
    call.past_length = call.key_length = 1;
    t.key_len = t.value_len = t.past_key_len = t.past_value_len = 1;
    t.past_key = past_key;
    t.past_value = past_value;
    t.present_key = present_key;
    t.present_value = present_value;
    t.present_key_len = t.present_value_len = 2;
}

/* The call of one_past with the tensors of a step. */
static void one_step(void)
{
    one_past();
    memset(&step, 0, sizeof step);
    step.query = query;
    step.key = key;
    step.value = value;
    step.past_key = past_key;
    step.past_value = past_value;
    step.output = output;
    step.present_key = present_key;
    step.present_value = present_value;
    step.work = work;
    step.query_len = step.key_len = step.value_len = step.past_key_len = step.past_value_len = step.output_len = 1;
    step.present_key_len = step.present_value_len = step.work_len = 2;
    present_key[0] = present_key[1] = present_value[0] = present_value[1] = work[0] = work[1] = -7;
}

/* Whether the answer is that number without a place, and the output is as it was. */
static int is_refused(klaverdomp_answer a, uint32_t number)
{
    return a.refusal == number && a.tensor == 0 && a.index == 0 && a.total == 0 && a.masked_rows == 0 && output[0] == -7;
}

static void refused(uint32_t number, const char *what)
{
    expect(is_refused(klaverdomp_attention(&call, &t), number), what);
}

/* The step is refused with that number and no place, and what it lends is as it was. */
static void step_refused(uint32_t number, const char *what)
{
    expect(is_refused(klaverdomp_step(&call, &step), number), what);
    expect(present_key[0] == -7 && present_key[1] == -7 && present_value[0] == -7 && present_value[1] == -7 && work[0] == -7 &&
               work[1] == -7,
           what);
}

static void calls_that_are_done(void)
{
    klaverdomp_answer a;
    two_keys();
    a = klaverdomp_attention(&call, &t);
    expect(a.refusal == KLAVERDOMP_DONE && a.total == 2 && a.masked_rows == 0 && output[0] == 3 && work[0] == 0.5f, "two equal keys");
    call.score_mode = KLAVERDOMP_SCALED_SCORES;
    t.scores = scores;
    t.scores_len = 2;
    a = klaverdomp_attention(&call, &t);
    expect(a.refusal == KLAVERDOMP_DONE && scores[0] == 3 && scores[1] == 3, "scores");
    two_keys();
    call.mask = KLAVERDOMP_BOOLEAN_MASK;
    call.mask_dims[0] = call.mask_dims[1] = call.mask_dims[2] = 1;
    call.mask_dims[3] = 2;
    t.boolean_mask = mask;
    t.boolean_mask_len = 2;
    a = klaverdomp_attention(&call, &t);
    expect(a.refusal == KLAVERDOMP_DONE && a.masked_rows == 1 && bits(output[0]) == 0, "a fully masked row");
    one_past();
    a = klaverdomp_attention(&call, &t);
    expect(a.refusal == KLAVERDOMP_DONE && a.total == 2 && output[0] == 9 && present_value[0] == 6 && present_value[1] == 12, "a past");
}

static void calls_that_are_refused(void)
{
    klaverdomp_answer a;
    two_keys();
    call.past_length = UINT64_MAX;
    refused(KLAVERDOMP_LIMITS, "a past outside a cached call");
    call.form = KLAVERDOMP_CACHED;
    refused(KLAVERDOMP_LIMITS, "a total that does not fit 64 bits");
    one_past();
    call.form = 3;
    refused(KLAVERDOMP_SETTINGS, "no form, with a past");
    call.query_heads = 3;
    call.key_heads = 2;
    refused(KLAVERDOMP_HEAD_GROUPS, "no form, and heads in no groups");
    call.batches = 0;
    refused(KLAVERDOMP_LIMITS, "no form, and no batch");
    two_keys();
    call.mask = 3;
    refused(KLAVERDOMP_SETTINGS, "no mask kind");
    two_keys();
    call.scale_kind = 2;
    refused(KLAVERDOMP_SETTINGS, "no scale kind");
    call.scale_kind = UINT64_MAX;
    refused(KLAVERDOMP_SETTINGS, "no scale kind, a large code");
    two_keys();
    call.score_mode = 254;
    refused(KLAVERDOMP_SETTINGS, "no score mode");
    two_keys();
    call.scale = NAN;
    refused(KLAVERDOMP_SETTINGS, "a scale that is not a number");
    two_keys();
    t.key = NULL;
    refused(KLAVERDOMP_INPUT_LENGTH, "a null pointer stands for an empty tensor");
    two_keys();
    t.present_key = present_key;
    t.present_key_len = 1;
    refused(KLAVERDOMP_OUTPUT_LENGTH, "a present cache in a plain call");
    one_past();
    value[0] = INFINITY;
    a = klaverdomp_attention(&call, &t);
    expect(a.refusal == KLAVERDOMP_ELEMENT && a.tensor == KLAVERDOMP_VALUE && a.index == 0 && output[0] == -7, "an infinite value");
}

/* A step, each number of its profile one off, and the refusals that follow. */
static void steps(void)
{
    uint64_t *const profile[8] = { &call.form, &call.mask, &call.score_mode, &call.rank, &call.causal, &call.batches, &call.query_length,
                                   &call.key_length };
    klaverdomp_answer a;
    size_t i;
    one_step();
    a = klaverdomp_step(&call, &step);
    expect(a.refusal == KLAVERDOMP_DONE && a.total == 2 && a.masked_rows == 0 && output[0] == 9 && work[0] == 0.5f && work[1] == 0.5f,
           "a step");
    expect(present_key[0] == 1 && present_key[1] == 1 && present_value[0] == 6 && present_value[1] == 12, "the presents of a step");
    for (i = 0; i < 8; i++) {
        one_step();
        ++*profile[i];
        step_refused(KLAVERDOMP_PROFILE, "a number of the profile, one above");
        call.query_heads = 0;
        step_refused(KLAVERDOMP_PROFILE, "a number of the profile, and no query heads");
        one_step();
        --*profile[i];
        step_refused(KLAVERDOMP_PROFILE, "a number of the profile, one below");
    }
    one_step();
    call.head_size = 257;
    step_refused(KLAVERDOMP_LIMITS, "a step of head size 257");
    one_step();
    call.key_heads = 2;
    step_refused(KLAVERDOMP_HEAD_GROUPS, "a step with heads in no groups");
    one_step();
    call.scale_kind = 2;
    step_refused(KLAVERDOMP_SETTINGS, "a step of no scale kind");
    one_step();
    step.past_value = NULL;
    step_refused(KLAVERDOMP_INPUT_LENGTH, "a null pointer in a step stands for an empty tensor");
    one_step();
    step.work = NULL;
    step_refused(KLAVERDOMP_OUTPUT_LENGTH, "a step without a work row");
    one_step();
    past_value[0] = NAN;
    a = klaverdomp_step(&call, &step);
    expect(a.refusal == KLAVERDOMP_ELEMENT && a.tensor == KLAVERDOMP_PAST_VALUE && a.index == 0 && output[0] == -7, "a NaN in a step");
    one_step();
    call.mask_dims[0] = UINT64_MAX;
    expect(klaverdomp_step(&call, &step).refusal == KLAVERDOMP_DONE, "the mask's dimensions are not looked at");
}

/* Scores of 20 and -3 under a cap of 2, and caps at both sides of what is allowed. */
static void caps(void)
{
    const float bad[] = { -1.0f, -1e-45f, 65536.0078125f, INFINITY, -INFINITY, NAN };
    const float none[] = { 0.0f, -0.0f };
    klaverdomp_answer a;
    size_t i;
    expect(sizeof call == KLAVERDOMP_RECORD_NUMBERS * sizeof(uint64_t) + 2 * sizeof(float), "the size of a record");
    two_keys();
    key[0] = 20;
    key[1] = -3;
    call.softcap = 2;
    call.score_mode = KLAVERDOMP_CAPPED_SCORES;
    t.scores = scores;
    t.scores_len = 2;
    a = klaverdomp_attention(&call, &t);
    expect(a.refusal == KLAVERDOMP_DONE && scores[0] == 2 && bits(scores[1]) == 0xbfe7b7ccu, "scores after the cap");
    expect(bits(work[0]) == 0x3f7a745du && bits(work[1]) == 0x3cb17476u && bits(output[0]) == 0x4002c5d2u, "weights under a cap");
    call.score_mode = KLAVERDOMP_MASKED_SCORES;
    a = klaverdomp_attention(&call, &t);
    expect(a.refusal == KLAVERDOMP_DONE && scores[0] == 20 && scores[1] == -3, "scores before the cap");
    call.score_mode = KLAVERDOMP_CAPPED_SCORES;
    for (i = 0; i < 2; i++) {
        call.softcap = none[i];
        a = klaverdomp_attention(&call, &t);
        expect(a.refusal == KLAVERDOMP_DONE && scores[0] == 20 && scores[1] == -3 && output[0] == 2, "no cap");
    }
    call.softcap = KLAVERDOMP_MAX_SOFTCAP;
    expect(klaverdomp_attention(&call, &t).refusal == KLAVERDOMP_DONE, "the largest cap");
    call.softcap = 1e-45f;
    expect(klaverdomp_attention(&call, &t).refusal == KLAVERDOMP_DONE && bits(scores[0]) == 1 && bits(scores[1]) == 0x80000001u,
           "the least cap");
    one_step();
    past_key[0] = 20;
    key[0] = -3;
    call.softcap = 2;
    a = klaverdomp_step(&call, &step);
    expect(a.refusal == KLAVERDOMP_DONE && bits(work[0]) == 0x3f7a745du && bits(work[1]) == 0x3cb17476u, "a step under a cap");
    for (i = 0; i < sizeof bad / sizeof bad[0]; i++) {
        two_keys();
        call.softcap = bad[i];
        refused(KLAVERDOMP_SETTINGS, "a cap that is not allowed");
        one_step();
        call.softcap = bad[i];
        step_refused(KLAVERDOMP_SETTINGS, "a cap that is not allowed in a step");
    }
}

/* Five products whose order shows: 65536 + 1/256 is 65536. Their sum is 1/256, as that of the past key, so each weighs a half. */
static void dot_products(void)
{
    static float ones[5] = { 1, 1, 1, 1, 1 }, five[5] = { 65536.0f, 1.0f / 256, 0, 0, -65536.0f };
    static float past[5] = { 1.0f / 256, 0, 0, 0, 0 }, present[10];
    klaverdomp_answer a;
    two_keys();
    call.head_size = 5;
    call.key_length = 1;
    call.score_mode = KLAVERDOMP_SCALED_SCORES;
    t.query = ones;
    t.key = five;
    t.query_len = t.key_len = 5;
    t.value_len = t.work_len = t.scores_len = 1;
    t.scores = scores;
    a = klaverdomp_attention(&call, &t);
    expect(a.refusal == KLAVERDOMP_DONE && bits(scores[0]) == 0x3b800000u, "the order of a dot product");
    one_step();
    call.head_size = 5;
    step.query = ones;
    step.key = five;
    step.past_key = past;
    step.present_key = present;
    step.query_len = step.key_len = step.past_key_len = 5;
    step.present_key_len = 10;
    a = klaverdomp_step(&call, &step);
    expect(a.refusal == KLAVERDOMP_DONE && work[0] == 0.5f && work[1] == 0.5f && output[0] == 9, "the order of a dot product in a step");
}

/* A record with another count of numbers than 18. */
static void record_lengths(void)
{
    uint64_t record[KLAVERDOMP_RECORD_NUMBERS + 1];
    uint64_t tensor = 5, index = 5, total = 5, masked = 5;
    float none = 0;
    uint8_t no_byte = 0;
    int64_t no_count = 0;
    size_t i;
    for (i = 0; i <= KLAVERDOMP_RECORD_NUMBERS; i++)
        record[i] = 1;
    for (i = 0; i <= KLAVERDOMP_RECORD_NUMBERS + 1; i++) {
        uint32_t refusal = klaverdomp_attention_3(record, i, 1, 0, &none, 0, &none, 0, &none, 0, &no_byte, 0, &none, 0, &none, 0, &none, 0,
                                                  &no_count, 0, &none, 0, &none, 0, &none, 0, &none, 0, &none, 0, &tensor, &index, &total,
                                                  &masked);
        expect(refusal == (i == KLAVERDOMP_RECORD_NUMBERS ? 3u : 1u), "a record's length");
        expect(tensor == 0 && index == 0 && total == 0 && masked == 0, "the numbers are written");
        tensor = index = total = masked = 5;
    }
    record[1] = 0;
    record[3] = KLAVERDOMP_NO_SCORES;
    record[4] = 4;
    for (i = 0; i <= KLAVERDOMP_RECORD_NUMBERS + 1; i++) {
        uint32_t refusal = klaverdomp_step_3(record, i, 1, 0, &none, 0, &none, 0, &none, 0, &none, 0, &none, 0, &none, 0, &none, 0,
                                             &none, 0, &none, 0, &tensor, &index, &total, &masked);
        expect(refusal == (i == KLAVERDOMP_RECORD_NUMBERS ? 5u : 10u), "the length of a step's record");
        expect(tensor == 0 && index == 0 && total == 0 && masked == 0, "a step's numbers are written");
        tensor = index = total = masked = 5;
    }
}

static void values(void)
{
    float row[3] = { 0.0f, -100.0f, 1.0f };
    float x = -1;
    expect(klaverdomp_exp_neg(0.0f, &x) == 1 && x == 1, "E(0)");
    expect(klaverdomp_exp_neg(-1.0f, &x) == 0 && bits(x) == 0, "E below 0");
    expect(klaverdomp_exp_neg(NAN, &x) == 0 && bits(x) == 0, "E of a NaN");
    expect(klaverdomp_exp_neg(INFINITY, &x) == 1 && bits(x) == 0, "E of infinity");
    klaverdomp_exp_neg_row(row, 3, 0.0f);
    expect(row[0] == 1 && bits(row[1]) == 0 && bits(row[2]) == 0, "E over a row");
    klaverdomp_exp_neg_row(NULL, 0, 0.0f);
    expect(klaverdomp_power_entry(128, &x) == 1 && bits(x) == 0x3f3504f3u, "the middle of the power table");
    expect(klaverdomp_power_entry(256, &x) == 0 && bits(x) == 0, "past the power table");
    expect(klaverdomp_power_entry(UINT64_MAX, &x) == 0 && bits(x) == 0, "far past the power table");
    expect(klaverdomp_default_scale(64, &x) == 1 && x == 0.125f, "the scale of 64");
    expect(klaverdomp_default_scale(256, &x) == 1 && x == 0.0625f, "the scale of 256");
    expect(klaverdomp_default_scale(0, &x) == 0 && bits(x) == 0, "the scale of 0");
    expect(klaverdomp_default_scale(257, &x) == 0 && bits(x) == 0, "the scale of 257");
}

int main(void)
{
    const uint32_t named[] = { 0, 1, 2, 3, 4, 5, 6, 7, 8, 9, 10, KLAVERDOMP_FILE_RECORD, KLAVERDOMP_ROOM };
    size_t n;
    calls_that_are_done();
    calls_that_are_refused();
    steps();
    caps();
    dot_products();
    record_lengths();
    values();
    for (n = 0; n < sizeof named / sizeof named[0]; n++)
        expect(strcmp(klaverdomp_refusal_text(named[n]), klaverdomp_refusal_text(KLAVERDOMP_FILE_RECORD + 1)) != 0, "a refusal's text");
    return failures != 0;
}
