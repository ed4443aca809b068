// The order of a dot product: (lane 0 + lane 1) + (lane 2 + lane 3), where each lane starts at +0 and takes the products whose
// index has its number as the remainder by 4.

mod common;

use common::{accepted, bits};
use klaverdomp::{step, Buffers, Call, Inputs, StepInputs};

/// T + U is T, and T + 2 U is a number of its own.
const T: f32 = 65_536.0;
const U: f32 = 1.0 / 256.0;

/// Products and their sum.
const CASES: [(&[f32], f32); 14] = [
    (&[3.0], 3.0),
    (&[-0.0], 0.0),
    (&[-0.0, -0.0], 0.0),
    (&[T, U, -T], 0.0),
    (&[T, -T, U], U),
    (&[U, T, U, -T], U),
    (&[-0.0, -0.0, -0.0, -0.0], 0.0),
    (&[T, U, 0.0, 0.0, -T], U),
    (&[T, U, 0.0, 0.0, U], T),
    (&[U, T, 0.0, 0.0, U, -T], 2.0 * U),
    (&[0.0, 0.0, T, 0.0, U, U, -T], 2.0 * U),
    (&[T, U, 0.0, 0.0, -T, 0.0, 0.0, 0.0], U),
    (&[T, U, 0.0, 0.0, -T, U, 0.0, 0.0, U], 3.0 * U),
    (&[T, 0.0, 0.0, 0.0, U, 0.0, 0.0, 0.0, -T], 0.0),
];

fn shown(query: &[f32], key: &[f32], scale: f32) -> Vec<u32> {
    let call = Call::plain(1, 1).with_size(key.len() as u64).with_value_size(1).with_scale(scale).with_scores(0);
    bits(&accepted(&call, &Inputs { query, key, value: &[1.0], ..Inputs::default() }).1.scores)
}

#[test]
fn scores_have_the_order_of_four_sums() {
    for (key, dot) in CASES {
        let ones = vec![1.0; key.len()];
        assert_eq!(shown(&ones, key, 1.0), bits(&[dot]), "{key:?}");
        assert_eq!(shown(key, &ones, 1.0), bits(&[dot]), "{key:?}");
        // the scale comes after the sums
        assert_eq!(shown(&ones, key, 3.0), bits(&[dot * 3.0]), "{key:?}");
    }
}

#[test]
fn a_product_is_rounded_before_it_is_added() {
    // 4097 * 4097 is 16785409, and rounded 16785408
    assert_eq!(shown(&[-4096.0, 0.0, 0.0, 0.0, 4097.0], &[4098.0, 0.0, 0.0, 0.0, 4097.0], 1.0), bits(&[0.0]));
    // products of -0 by underflow
    assert_eq!(shown(&[-1e-30; 4], &[1e-30; 4], 1.0), bits(&[0.0]));
}

#[test]
fn a_step_has_the_same_order() {
    for (key, dot) in CASES {
        // a past key with the same dot product, so that each weighs a half
        let mut past_key = vec![0.0; key.len()];
        past_key[0] = dot;
        let query = vec![1.0; key.len()];
        let inputs = StepInputs { query: &query, key, value: &[12.0], past_key: &past_key, past_value: &[6.0] };
        let call = Call::cached(1, 1).with_size(key.len() as u64).with_value_size(1).with_scale(1.0).with_causal();
        let mut buffers = Buffers::new(&call);
        step(&call, &inputs, &mut buffers.lend_step()).unwrap();
        assert_eq!((bits(&buffers.work), bits(&buffers.output)), (bits(&[0.5, 0.5]), bits(&[9.0])), "{key:?}");
    }
}
