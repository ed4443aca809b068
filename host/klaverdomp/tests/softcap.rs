// The score cap: worked examples with their bits, the score modes, hidden keys, the weights, and caps that are refused.

mod common;

use common::{accepted, bits, refused};
use klaverdomp::{attention, explain, step, Buffers, Call, Inputs, Outputs, Refusal, StepInputs};

const LEAST: f32 = f32::from_bits(1);
const ABOVE: f32 = f32::from_bits(0x4780_0001);

/// One query of 1, sizes 1, scale 1: the scores are the keys.
fn plain(keys: &[f32]) -> Call {
    Call::plain(1, keys.len() as u64).with_scale(1.0)
}

/// The scores that a mode shows of these keys under a cap.
fn shown(keys: &[f32], softcap: f32, mode: u64) -> Vec<u32> {
    let values = vec![1.0; keys.len()];
    let inputs = Inputs { query: &[1.0], key: keys, value: &values, ..Inputs::default() };
    bits(&accepted(&plain(keys).with_softcap(softcap).with_scores(mode), &inputs).1.scores)
}

#[test]
fn capped_scores_have_their_bits() {
    let cases = [
        (6.0, 2.0, 0x3FFE_BBE9),
        (6.0, 4.0, 0x4067_B7CC),
        (-3.0, 2.0, 0xBFE7_B7CC),
        (3.0, 30.0, 0x403F_5CCE),
        (100.0, 50.0, 0x4240_CE36),
        (-100.0, 50.0, 0xC240_CE36),
        (65_536.0, 65_536.0, 0x4742_F7D5),
        // far above the cap it is the cap
        (20.0, 2.0, 0x4000_0000),
        (-20.0, 2.0, 0xC000_0000),
        (0.0, 30.0, 0),
        // s / c is infinite
        (1.0, LEAST, 1),
        (-1.0, LEAST, 0x8000_0001),
        // E is 1, and s / c is below 0 in the second
        (1e-4, 65_536.0, 0),
        (-1e-4, 65_536.0, 0x8000_0000),
        // s is below 0, and s / c is -0, which is not
        (-LEAST, 65_536.0, 0),
        (-LEAST, LEAST, 0x8000_0001),
    ];
    for (score, softcap, capped) in cases {
        assert_eq!(shown(&[score], softcap, 2), [capped], "{score:e} under {softcap:e}");
        for mode in [0, 1] {
            assert_eq!(shown(&[score], softcap, mode), bits(&[score]), "{score:e} under {softcap:e} in mode {mode}");
        }
    }
}

#[test]
fn weights_and_outputs_go_by_capped_scores() {
    let inputs = Inputs { query: &[1.0], key: &[20.0, -3.0], value: &[2.0, 4.0], ..Inputs::default() };
    let call = plain(inputs.key).with_scores(3);
    let (_, without) = accepted(&call, &inputs);
    assert_eq!((bits(&without.scores), bits(&without.output)), (vec![0x3F80_0000, 0x2EE1_A954], bits(&[2.0])));
    let (_, capped) = accepted(&call.with_softcap(2.0), &inputs);
    assert_eq!((bits(&capped.scores), bits(&capped.output)), (vec![0x3F7A_745D, 0x3CB1_7476], vec![0x4002_C5D2]));
    assert_eq!(bits(&capped.work), bits(&capped.scores));
}

#[test]
fn the_mask_comes_first_and_hidden_keys_stay_hidden() {
    let minus_infinity = f32::NEG_INFINITY.to_bits();
    let inputs = Inputs { query: &[1.0], key: &[3.0, 3.0, -9.0], value: &[1.0; 3], ..Inputs::default() };
    let scores = |call: Call, inputs: &Inputs| [0, 1, 2, 3].map(|mode| bits(&accepted(&call.with_scores(mode), inputs).1.scores));
    let call = plain(inputs.key).with_softcap(2.0);

    let masked = Inputs { boolean_mask: &[1, 0, 0], ..inputs };
    let [dots, before, after, weights] = scores(call.with_boolean_mask([1, 1, 1, 3]), &masked);
    assert_eq!(dots, bits(&[3.0, 3.0, -9.0]));
    assert_eq!(before, [3f32.to_bits(), minus_infinity, minus_infinity]);
    assert_eq!(after, [0x3FE7_B7CC, minus_infinity, minus_infinity]);
    assert_eq!(weights, bits(&[1.0, 0.0, 0.0]));

    let masked = Inputs { float_mask: &[3.0, f32::NEG_INFINITY, f32::MIN], ..inputs };
    let [dots, before, after, _] = scores(call.with_float_mask([1, 1, 1, 3]), &masked);
    assert_eq!(dots, bits(&[3.0, 3.0, -9.0]));
    assert_eq!(before, [6f32.to_bits(), minus_infinity, f32::MIN.to_bits()]);
    assert_eq!(after, [0x3FFE_BBE9, minus_infinity, (-2f32).to_bits()]);

    let call = call.with_boolean_mask([1; 4]);
    let (done, buffers) = accepted(&call.with_scores(2), &Inputs { boolean_mask: &[0], ..inputs });
    assert_eq!((done.masked_rows, bits(&buffers.scores), bits(&buffers.output)), (1, vec![minus_infinity; 3], vec![0]));
}

#[test]
fn a_cap_of_zero_of_either_sign_is_none() {
    // a score of -0, which a cap makes +0
    let inputs = Inputs { query: &[-0.25], key: &[1.0, -8.0], value: &[1.0, 2.0], ..Inputs::default() };
    for mode in [0, 1, 2, 3] {
        let call = Call::plain(1, 2).with_scale(LEAST).with_scores(mode);
        let (_, without) = accepted(&call, &inputs);
        for softcap in [0.0, -0.0] {
            let (_, buffers) = accepted(&call.with_softcap(softcap), &inputs);
            assert_eq!((bits(&buffers.scores), bits(&buffers.output)), (bits(&without.scores), bits(&without.output)));
        }
        let (_, capped) = accepted(&call.with_softcap(30.0), &inputs);
        if mode < 3 {
            assert_eq!((without.scores[0].to_bits(), without.scores[1].to_bits()), (0x8000_0000, 2));
            assert_eq!(capped.scores[0].to_bits(), if mode == 2 { 0 } else { 0x8000_0000 });
        }
    }
}

#[test]
fn caps_that_are_allowed_at_both_entries() {
    let inputs = StepInputs { query: &[1.0], key: &[1.0], value: &[12.0], past_key: &[1.0], past_value: &[6.0] };
    for softcap in [0.0, -0.0, LEAST, f32::MIN_POSITIVE, 0.5, 30.0, 65_535.996, 65_536.0] {
        let call = Call::cached(1, 1).with_scale(1.0).with_causal().with_softcap(softcap);
        let (done, general) = accepted(&call, &inputs.into());
        let mut buffers = Buffers::new(&call);
        assert_eq!(step(&call, &inputs, &mut buffers.lend_step()), Ok(done));
        for output in [general.output, buffers.output] {
            assert_eq!(bits(&output), bits(&[9.0]));
        }
    }
}

#[test]
fn a_step_is_capped() {
    let inputs = StepInputs { query: &[1.0], key: &[-3.0], value: &[4.0], past_key: &[20.0], past_value: &[2.0] };
    let call = Call::cached(1, 1).with_scale(1.0).with_causal();
    for (softcap, work) in [(0.0, [0x3F80_0000, 0x2EE1_A954]), (2.0, [0x3F7A_745D, 0x3CB1_7476])] {
        let call = call.with_softcap(softcap);
        let mut buffers = Buffers::new(&call);
        step(&call, &inputs, &mut buffers.lend_step()).unwrap();
        assert_eq!(bits(&buffers.work), work);
        assert_eq!((bits(&buffers.present_key), bits(&buffers.present_value)), (bits(&[20.0, -3.0]), bits(&[2.0, 4.0])));
    }
}

#[test]
fn bad_caps_are_refusal_3_at_both_entries() {
    let three = Refusal { number: 3, tensor: 0, index: 0 };
    let inputs = StepInputs { query: &[1.0], key: &[1.0], value: &[12.0], past_key: &[1.0], past_value: &[6.0] };
    let nans = [0x7FC0_0000, 0xFFC0_0001, 0x7F80_0001, 0xFF81_2345].map(f32::from_bits);
    let bad = [-LEAST, -1.0, -65_536.0, ABOVE, f32::MAX, f32::MIN, f32::INFINITY, f32::NEG_INFINITY];
    for softcap in bad.into_iter().chain(nans) {
        let call = Call::cached(1, 1).with_causal().with_softcap(softcap);
        let mut buffers = Buffers::new(&call);
        assert_eq!(attention(&call, &inputs.into(), &mut buffers.lend()), Err(three), "{softcap:e}");
        assert_eq!(step(&call, &inputs, &mut buffers.lend_step()), Err(three), "{softcap:e}");
        assert!([buffers.output, buffers.present_key, buffers.present_value, buffers.work]
            .concat()
            .iter()
            .all(|x| x.to_bits() == 0));
        let words = explain(&call, &inputs.into(), &Outputs::default(), &three);
        assert!(words.ends_with(&format!("or the softcap not from 0 to 65,536\n  the softcap is {softcap:?}")), "{words}");

        // 1 and 2 come before it, and 4 to 9 after it
        assert_eq!(refused(&call.with_size(257), &inputs.into()).number, 1);
        assert_eq!(refused(&call.with_heads(1, 2), &inputs.into()).number, 2);
        assert_eq!(refused(&call.with_float_mask([1, 1, 1, 3]), &inputs.into()), three);
        assert_eq!(refused(&call, &Inputs::default()), three);
        assert_eq!(attention(&call, &inputs.into(), &mut Outputs::default()), Err(three));
        assert_eq!(refused(&call, &StepInputs { key: &[f32::NAN], ..inputs }.into()), three);
        let off_profile = Call { q_len: 2, k_len: 2, ..call };
        assert_eq!(step(&off_profile, &inputs, &mut Buffers::new(&call).lend_step()).unwrap_err().number, 10);
    }
}
