// Refusals: their numbers, places and words, and that they change nothing.

mod common;

use common::{bits, refused};
use klaverdomp::{
    attention, explain, is_step, step, Buffers, Call, Form, Inputs, MaskKind, Outputs, Refusal, StepInputs, StepOutputs,
};

/// A call of two batches with every kind of tensor that a cached call can have, and its inputs.
fn call() -> Call {
    Call::cached(2, 1).with_batches(2).with_float_mask([1, 1, 1, 3]).with_scores(0)
}

const INPUTS: Inputs = Inputs {
    query: &[1.0, 2.0],
    key: &[1.0, 2.0],
    value: &[1.0, 2.0],
    boolean_mask: &[],
    float_mask: &[0.0, 0.5, f32::NEG_INFINITY],
    past_key: &[1.0, 2.0, 3.0, 4.0],
    past_value: &[1.0, 2.0, 3.0, 4.0],
    live: &[],
};

/// A step of two query heads over one key head after two positions, and its inputs.
fn step_call() -> Call {
    Call::cached(2, 1).with_heads(2, 1).with_causal()
}

const STEP_INPUTS: StepInputs =
    StepInputs { query: &[1.0, 2.0], key: &[1.0], value: &[1.0], past_key: &[1.0, 2.0], past_value: &[1.0, 2.0] };

/// Bits that differ from each other, payloads of NaNs among them.
fn pattern(len: usize) -> Vec<f32> {
    (0..len).map(|i| f32::from_bits(0x7FA0_0001 + i as u32 * 0x0101_0101)).collect()
}

/// The refusal of a step that lends outputs of the right lengths, each of which keeps its bits.
fn step_refused(call: &Call, inputs: &StepInputs) -> Refusal {
    let lengths = step_call().lengths();
    let lent = [lengths.output, lengths.present_key, lengths.present_value, lengths.work].map(pattern);
    let [mut output, mut present_key, mut present_value, mut work] = lent.clone();
    let mut outputs =
        StepOutputs { output: &mut output, present_key: &mut present_key, present_value: &mut present_value, work: &mut work };
    let refusal = step(call, inputs, &mut outputs).expect_err("the step is refused");
    for (after, lent) in [output, present_key, present_value, work].iter().zip(&lent) {
        assert_eq!(bits(after), bits(lent));
    }
    refusal
}

/// Calls of which one number is not of the step profile, and the words for it.
fn off_profile() -> Vec<(Call, String)> {
    let profile = step_call();
    let mut calls = Vec::new();
    for form in [Form::Plain, Form::Counted] {
        calls.push((Call { form, ..profile }, format!("the form is {form:?}, and a step is Cached")));
    }
    for mask in [MaskKind::Boolean, MaskKind::Float] {
        calls.push((Call { mask, ..profile }, format!("the mask is {mask:?}, and a step has None")));
    }
    for mode in [0, 3, 4, 255, u64::MAX] {
        calls.push((profile.with_scores(mode), format!("the score mode is {mode}, and a step has none")));
    }
    for rank in [0, 3, 5, 260, u64::MAX] {
        calls.push((profile.with_rank(rank), format!("the rank is {rank}, and a step has 4")));
    }
    for number in [0, 2, 3, 257, 3000, (1 << 32) + 1, u64::MAX] {
        calls.push((Call { causal: number, ..profile }, format!("the causal flag is {number}, and a step has 1")));
        calls.push((Call { batches: number, ..profile }, format!("the batch is {number}, and a step has 1")));
        calls.push((Call { q_len: number, ..profile }, format!("the query length is {number}, and a step has 1")));
        calls.push((Call { k_len: number, ..profile }, format!("the key length is {number}, and a step has 1")));
    }
    calls
}

#[test]
fn a_call_off_the_step_profile_is_refusal_10() {
    let ten = Refusal { number: 10, tensor: 0, index: 0 };
    for (call, words) in off_profile() {
        assert!(!is_step(&call), "{call:?}");
        assert_eq!(step_refused(&call, &STEP_INPUTS), ten, "{call:?}");
        let text = explain(&call, &STEP_INPUTS.into(), &Outputs::default(), &ten);
        assert_eq!(text, format!("{ten}\n  {words}"));
        // 10 comes before every other refusal that applies
        let others = [
            (call.with_heads(0, 33), STEP_INPUTS),
            (Call { past: u64::MAX, ..call.with_size(300) }, STEP_INPUTS),
            (call.with_heads(2, 3), STEP_INPUTS),
            (call.with_scale(f32::NAN), STEP_INPUTS),
            (call.with_softcap(f32::NAN), STEP_INPUTS),
            (call, StepInputs::default()),
            (call, StepInputs { query: &[1.0, f32::NAN], ..STEP_INPUTS }),
        ];
        for (call, inputs) in others {
            assert_eq!(step_refused(&call, &inputs), ten, "{call:?}");
        }
    }
}

#[test]
fn a_step_is_refused_as_the_general_entry_refuses() {
    let nan = &[1.0, f32::NAN];
    let cases = [
        (step_call().with_heads(0, 1), STEP_INPUTS, (1, 0, 0)),
        (step_call().with_size(257), STEP_INPUTS, (1, 0, 0)),
        (Call { past: 2048, ..step_call() }, STEP_INPUTS, (1, 0, 0)),
        (Call { past: u64::MAX, ..step_call() }, STEP_INPUTS, (1, 0, 0)),
        (step_call().with_heads(2, 3), STEP_INPUTS, (2, 0, 0)),
        (step_call().with_scale(0.0), STEP_INPUTS, (3, 0, 0)),
        (step_call().with_softcap(-1.0), StepInputs::default(), (3, 0, 0)),
        (step_call(), StepInputs { past_value: &[1.0], ..STEP_INPUTS }, (5, 0, 0)),
        (step_call().with_value_size(2), StepInputs { value: &[1.0; 2], past_value: &[1.0; 4], ..STEP_INPUTS }, (6, 0, 0)),
        (step_call(), StepInputs { query: nan, ..STEP_INPUTS }, (9, 0, 1)),
        (step_call(), StepInputs { past_key: nan, ..STEP_INPUTS }, (9, 1, 1)),
        (step_call(), StepInputs { key: &[65_537.0], past_value: nan, ..STEP_INPUTS }, (9, 2, 0)),
        (step_call(), StepInputs { past_value: nan, value: &[f32::NAN], ..STEP_INPUTS }, (9, 3, 1)),
        (step_call(), StepInputs { value: &[f32::NEG_INFINITY], ..STEP_INPUTS }, (9, 4, 0)),
    ];
    for (call, inputs, (number, tensor, index)) in cases {
        let wanted = Refusal { number, tensor, index };
        assert!(is_step(&call), "{call:?}");
        assert_eq!(step_refused(&call, &inputs), wanted, "{call:?}");
        assert_eq!(attention(&call, &inputs.into(), &mut Buffers::new(&step_call()).lend()), Err(wanted), "{call:?}");
    }
}

#[test]
fn each_refusal_in_words() {
    let cases: [(Call, Inputs, &str); 12] = [
        (call().with_batches(9), INPUTS, "refusal 1: a dimension or the total length is outside its limits"),
        (call().with_heads(1, 2), INPUTS, "refusal 2: the number of query heads is not a multiple"),
        (call().with_rank(5), INPUTS, "refusal 3: the rank is not 3 or 4"),
        (call().with_float_mask([1, 1, 1, 2]), INPUTS, "refusal 4: a mask dimension is neither 1 nor its full size"),
        (call(), Inputs { live: &[1, 1], ..INPUTS }, "refusal 5: an input tensor has the wrong length"),
        (
            Call { form: Form::Counted, past: 0, mask: MaskKind::None, ..call() },
            Inputs { float_mask: &[], past_key: &[], past_value: &[], live: &[1, 2], ..INPUTS },
            "refusal 7: live count 1 is below 0 or above the total length",
        ),
        (
            call(),
            Inputs { float_mask: &[0.0, f32::NAN, 0.0], ..INPUTS },
            "refusal 8: element 1 of the mask is a byte above 1, a NaN or plus",
        ),
        (call(), Inputs { query: &[1.0, f32::NAN], ..INPUTS }, "refusal 9: element 1 of the query is not a number of magnitude"),
        (call(), Inputs { past_key: &[1.0, 2.0, 3.0, 1e9], ..INPUTS }, "refusal 9: element 3 of the past key is not"),
        (call(), Inputs { key: &[-65_537.0, 0.0], ..INPUTS }, "refusal 9: element 0 of the key is not"),
        (
            call(),
            Inputs { past_value: &[1.0, 2.0, f32::INFINITY, 4.0], ..INPUTS },
            "refusal 9: element 2 of the past value is not",
        ),
        (call(), Inputs { value: &[1.0, f32::NEG_INFINITY], ..INPUTS }, "refusal 9: element 1 of the value is not"),
    ];
    for (call, inputs, words) in cases {
        let refusal = refused(&call, &inputs);
        assert!(refusal.to_string().starts_with(words), "{refusal} is not {words}");
    }
    let refusal = attention(&call(), &INPUTS, &mut Outputs::default()).unwrap_err();
    assert!(refusal.to_string().starts_with("refusal 6: the output, a present cache, the scores or the work row"));
    let profile = step_refused(&Call::plain(1, 1), &STEP_INPUTS);
    assert!(profile.to_string().starts_with("refusal 10: the call is not a step: cached, causal, rank 4, one batch"));
    let error: Box<dyn std::error::Error> = Box::new(refusal);
    assert_eq!(error.to_string(), refusal.to_string());
}

#[test]
fn explanations_name_what_is_wrong() {
    let cases: [(Call, Inputs, &str); 9] = [
        (Call::plain(0, 1).with_size(257), INPUTS, "the query length is 0, and 1 to 2048 is allowed\n  the head size is 257"),
        (Call { past: 4, ..Call::plain(1, 1) }, INPUTS, "the past length is 4, and the call is not cached"),
        (Call::cached(2048, 1), INPUTS, "past 2048 and key length 1 are more than 2048 together"),
        (call().with_heads(4, 3), INPUTS, "4 query heads, 3 key heads"),
        (
            call().with_scale(-1.0).with_softcap(70_000.0).with_scores(255),
            INPUTS,
            "the score mode is 255\n  the scale is -1\n  the softcap is 70000.0",
        ),
        (call().with_float_mask([1, 1, 4, 3]), INPUTS, "the mask is (1, 1, 4, 3), and the full size"),
        (call(), Inputs { key: &[1.0], ..INPUTS }, "key: 1 elements lent, 2 expected"),
        (call(), Inputs { float_mask: &[0.0, f32::INFINITY, 0.0], ..INPUTS }, "it is inf"),
        (call(), Inputs { value: &[0.0, 70_000.0], ..INPUTS }, "it is 70000.0"),
    ];
    for (call, inputs, words) in cases {
        let mut buffers = Buffers::new(&call);
        let mut outputs = buffers.lend();
        let refusal = attention(&call, &inputs, &mut outputs).unwrap_err();
        let text = explain(&call, &inputs, &outputs, &refusal);
        assert!(text.contains(words), "{text} has not {words}");
    }
    let refusal = attention(&call(), &INPUTS, &mut Outputs::default()).unwrap_err();
    let text = explain(&call(), &INPUTS, &Outputs::default(), &refusal);
    assert!(text.contains("present key: 0 elements lent, 6 expected"));
}

#[test]
fn a_refused_call_keeps_every_bit_of_the_outputs() {
    let lengths = call().lengths();
    let lent = [lengths.output, lengths.present_key, lengths.present_value, lengths.scores, lengths.work].map(pattern);
    let [mut output, mut present_key, mut present_value, mut scores, mut work] = lent.clone();
    let mut outputs = Outputs {
        output: &mut output,
        present_key: &mut present_key,
        present_value: &mut present_value,
        scores: &mut scores,
        work: &mut work,
    };
    let cases = [
        (call().with_batches(9), INPUTS),
        (call().with_heads(1, 2), INPUTS),
        (call().with_scale(0.0), INPUTS),
        (call().with_softcap(f32::NAN), INPUTS),
        (call().with_float_mask([2, 1, 2, 3]), INPUTS),
        (call(), Inputs { boolean_mask: &[0], ..INPUTS }),
        (call(), Inputs { float_mask: &[f32::INFINITY; 3], ..INPUTS }),
        (call(), Inputs { value: &[0.0, f32::NAN], ..INPUTS }),
    ];
    for (call, inputs) in cases {
        attention(&call, &inputs, &mut outputs).unwrap_err();
    }
    let after = [output, present_key, present_value, scores, work];
    for (after, lent) in after.iter().zip(&lent) {
        assert_eq!(bits(after), bits(lent));
    }
}

#[test]
fn any_mode_and_causal_flag_gets_an_answer() {
    for mode in 0..4 {
        assert_eq!(
            attention(&call().with_scores(mode), &INPUTS, &mut Buffers::new(&call().with_scores(mode)).lend()).unwrap().total,
            3
        );
    }
    for mode in [4, 255, 256, u64::MAX] {
        assert_eq!(refused(&call().with_scores(mode), &INPUTS).number, 3);
    }
    for causal in [2, 255, u64::MAX] {
        assert_eq!(refused(&Call { causal, ..call() }, &INPUTS).number, 3);
    }
    for scale in [0.0, -0.0, -1.0, f32::NAN, 1_024.000_1, f32::INFINITY] {
        assert_eq!(refused(&call().with_scale(scale), &INPUTS).number, 3);
    }
    for scale in [f32::from_bits(1), 1_024.0] {
        attention(&call().with_scale(scale), &INPUTS, &mut Buffers::new(&call()).lend()).unwrap();
    }
}
