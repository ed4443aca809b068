/* One call of the library and one of the plain C program of reference/, for tools/instructions.sh to count their instructions; where
 * B and S are 1, one at the step entry too. Arguments: B Hq Hkv P S D and, where there is a score cap, the cap. The status is 1 where
 * what they write differs. */
#include "shape.h"
#include "../reference/reference.h"

static int step_is_done(const klaverdomp_call *call, const klaverdomp_tensors *t)
{
    klaverdomp_step_tensors st = {
        .query = t->query, .query_len = t->query_len, .key = t->key, .key_len = t->key_len, .value = t->value, .value_len = t->value_len,
        .past_key = t->past_key, .past_key_len = t->past_key_len, .past_value = t->past_value, .past_value_len = t->past_value_len,
        .output = t->output, .output_len = t->output_len, .present_key = t->present_key, .present_key_len = t->present_key_len,
        .present_value = t->present_value, .present_value_len = t->present_value_len, .work = t->work, .work_len = t->work_len,
    };
    return klaverdomp_step(call, &st).refusal == 0;
}

static int reference_is_done(const struct shape *s, const klaverdomp_tensors *t)
{
    struct reference_call rc = {
        FORM_CACHED, MASK_NONE, SCALE_ABSENT, SCORES_NONE, 4, 1, s->B, s->Hq, s->Hkv, s->S, s->S, s->P, s->D, s->D, {0}, 0.0f, s->softcap,
    };
    struct reference_inputs in = {
        {t->query, t->query_len}, {t->key, t->key_len}, {t->value, t->value_len}, {0, 0}, {0, 0},
        {t->past_key, t->past_key_len}, {t->past_value, t->past_value_len}, {0, 0},
    };
    struct reference_outputs out = {
        {t->output, t->output_len}, {t->present_key, t->present_key_len}, {t->present_value, t->present_value_len}, {0, 0},
        {t->work, t->work_len},
    };
    struct reference_answer answer;
    reference_attention(&rc, &in, &out, &answer);
    return answer.refusal == 0;
}

int main(int argc, char **argv)
{
    if (argc != 7 && argc != 8) return fprintf(stderr, "usage: instructions B Hq Hkv P S D [SOFTCAP]\n"), 2;
    uint64_t n[6];
    for (int i = 0; i < 6; i++) n[i] = strtoull(argv[i + 1], 0, 10);
    struct shape s = {n[0], n[1], n[2], n[3], n[4], n[5], argc == 8 ? strtof(argv[7], 0) : 0.0f};
    klaverdomp_call call = call_of(&s);
    klaverdomp_tensors t = inputs_of(&s);
    struct written ours = written_of(&s), theirs = written_of(&s);

    lend(&t, &ours);
    int same = klaverdomp_attention(&call, &t).refusal == 0;
    if (s.B == 1 && s.S == 1) {
        lend(&t, &theirs);
        same = same && step_is_done(&call, &t) && equal(&ours, &theirs);
        theirs = written_of(&s);
    }
    lend(&t, &theirs);
    same = same && reference_is_done(&s, &t) && equal(&ours, &theirs);
    if (!same) return fprintf(stderr, "they differ\n"), 1;
    return 0;
}
