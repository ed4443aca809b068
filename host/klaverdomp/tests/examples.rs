// The examples A to F and I to M of the scope document, by their letters. One batch, one head, sizes 1, scale 1, rank 4 unless said.

mod common;

use common::{accepted, bits, refused};
use klaverdomp::{check, default_scale, exp_neg, step, Buffers, Call, Done, Inputs, StepInputs};

fn plain(q_len: u64, k_len: u64) -> Call {
    Call::plain(q_len, k_len).with_scale(1.0)
}

#[test]
fn a_one_key_has_weight_one() {
    let inputs = Inputs { query: &[2.0], key: &[3.0], value: &[5.0], ..Inputs::default() };
    for (mode, shown) in [(0, 6.0), (1, 6.0), (2, 6.0), (3, 1.0)] {
        let (done, buffers) = accepted(&plain(1, 1).with_scores(mode), &inputs);
        assert_eq!(done, Done { total: 1, masked_rows: 0 });
        assert_eq!(bits(&buffers.scores), bits(&[shown]));
        assert_eq!(bits(&buffers.output), bits(&[5.0]));
        assert_eq!(bits(&buffers.work), bits(&[1.0]));
    }
}

const TWO_ALIKE: Inputs = Inputs {
    query: &[1.0],
    key: &[3.0, 3.0],
    value: &[2.0, 4.0],
    boolean_mask: &[],
    float_mask: &[],
    past_key: &[],
    past_value: &[],
    live: &[],
};

#[test]
fn b_two_keys_alike() {
    let (_, buffers) = accepted(&plain(1, 2).with_scores(3), &TWO_ALIKE);
    assert_eq!(bits(&buffers.scores), bits(&[0.5, 0.5]));
    assert_eq!(bits(&buffers.output), bits(&[3.0]));
}

#[test]
fn c_boolean_mask() {
    let call = plain(1, 2).with_boolean_mask([1, 1, 1, 2]);
    let (done, buffers) = accepted(&call, &Inputs { boolean_mask: &[0, 0], ..TWO_ALIKE });
    assert_eq!(done, Done { total: 2, masked_rows: 1 });
    assert_eq!(bits(&buffers.output), bits(&[0.0]));
    assert_eq!(bits(&buffers.work), bits(&[0.0, 0.0]));
    let (done, buffers) = accepted(&call, &Inputs { boolean_mask: &[1, 0], ..TWO_ALIKE });
    assert_eq!(done, Done { total: 2, masked_rows: 0 });
    assert_eq!(bits(&buffers.output), bits(&[2.0]));
}

#[test]
fn d_plain_causal() {
    let inputs = Inputs { query: &[1.0, 1.0], key: &[1.0, 1.0], value: &[6.0, 12.0], ..Inputs::default() };
    let (_, buffers) = accepted(&plain(2, 2).with_causal(), &inputs);
    assert_eq!(bits(&buffers.output), bits(&[6.0, 9.0]));
}

#[test]
fn e_cached_causal() {
    let inputs = Inputs { query: &[1.0], key: &[1.0], value: &[12.0], past_key: &[1.0], past_value: &[6.0], ..Inputs::default() };
    let (done, buffers) = accepted(&Call::cached(1, 1).with_scale(1.0).with_causal(), &inputs);
    assert_eq!(done, Done { total: 2, masked_rows: 0 });
    assert_eq!(bits(&buffers.output), bits(&[9.0]));
    assert_eq!(bits(&buffers.present_key), bits(&[1.0, 1.0]));
    assert_eq!(bits(&buffers.present_value), bits(&[6.0, 12.0]));
}

#[test]
fn e_through_the_step_entry() {
    let inputs = StepInputs { query: &[1.0], key: &[1.0], value: &[12.0], past_key: &[1.0], past_value: &[6.0] };
    // the mask's dimensions are not looked at
    for mask_dims in [[1; 4], [0, 3, 2049, u64::MAX]] {
        let call = Call { mask_dims, ..Call::cached(1, 1).with_scale(1.0).with_causal() };
        let mut buffers = Buffers::new(&call);
        assert_eq!(step(&call, &inputs, &mut buffers.lend_step()), Ok(Done { total: 2, masked_rows: 0 }));
        assert_eq!(bits(&buffers.output), bits(&[9.0]));
        assert_eq!(bits(&buffers.present_key), bits(&[1.0, 1.0]));
        assert_eq!(bits(&buffers.present_value), bits(&[6.0, 12.0]));
        assert_eq!(bits(&buffers.work), bits(&[0.5, 0.5]));
    }
}

#[test]
fn f_far_and_near_scores() {
    let inputs = Inputs { query: &[1.0], key: &[100.0, 0.0], value: &[8.0, 9.0], ..Inputs::default() };
    let (_, buffers) = accepted(&plain(1, 2).with_scores(3), &inputs);
    assert_eq!(bits(&buffers.output), bits(&[8.0]));
    assert_eq!(bits(&buffers.scores), bits(&[1.0, 0.0]));
    let (_, buffers) = accepted(&plain(1, 2).with_scores(3), &Inputs { key: &[83.0, 0.0], ..inputs });
    assert!(buffers.scores[1] > 0.0);
    assert!(exp_neg(83.0).unwrap() > 0.0);
}

#[test]
fn g_and_h_exponential_and_default_scale() {
    let of_bits = |d: u32| exp_neg(f32::from_bits(d)).map(f32::to_bits);
    assert_eq!(exp_neg(0.0), Some(1.0));
    assert_eq!(exp_neg(-0.0), Some(1.0));
    assert_eq!(of_bits(0x3EB1_7218), Some(0x3F35_04F3));
    assert_eq!(of_bits(0x3F31_7218), Some(0.5f32.to_bits()));
    assert!(exp_neg(f32::from_bits(0x42A6_5AF6)).unwrap() > 0.0);
    assert_eq!(of_bits(0x42A6_5AF7), Some(0));
    assert_eq!(exp_neg(f32::from_bits(0x8000_0001)), None);
    assert_eq!(exp_neg(f32::NAN), None);
    let scales = [4, 16, 64, 256].map(|size| default_scale(size).unwrap());
    assert_eq!(scales, [0.5, 0.25, 0.125, 0.0625]);
    assert_eq!(default_scale(2).unwrap().to_bits(), 0x3F35_04F3);
    assert_eq!((default_scale(0), default_scale(257)), (None, None));
}

#[test]
fn i_four_query_heads_share_two_key_heads() {
    let call = plain(1, 1).with_heads(4, 2);
    let inputs = Inputs { query: &[1.0; 4], key: &[1.0; 2], value: &[3.0, 7.0], ..Inputs::default() };
    for rank in [3, 4] {
        let (_, buffers) = accepted(&call.with_rank(rank), &inputs);
        assert_eq!(bits(&buffers.output), bits(&[3.0, 3.0, 7.0, 7.0]));
    }
}

#[test]
fn j_float_mask_of_the_least_number() {
    let call = plain(1, 1).with_float_mask([1, 1, 1, 1]).with_scores(3);
    let inputs = Inputs { query: &[2.0], key: &[3.0], value: &[5.0], ..Inputs::default() };
    let (done, buffers) = accepted(&call, &Inputs { float_mask: &[f32::MIN], ..inputs });
    assert_eq!((done.masked_rows, bits(&buffers.scores)), (0, bits(&[1.0])));
    let (done, buffers) = accepted(&call, &Inputs { float_mask: &[f32::NEG_INFINITY], ..inputs });
    assert_eq!((done.masked_rows, bits(&buffers.output)), (1, bits(&[0.0])));
}

#[test]
fn k_largest_element_and_padded_nan() {
    let call = plain(1, 2);
    let inputs = Inputs { key: &[3.0, 65_536.0], ..TWO_ALIKE };
    accepted(&call, &inputs);
    // the next f32, 65536.0078125
    let refusal = refused(&call, &Inputs { key: &[3.0, f32::from_bits(0x4780_0001)], ..inputs });
    assert_eq!((refusal.number, refusal.tensor, refusal.index), (9, 2, 1));

    let counted = Call::counted(1, 2).with_scale(1.0);
    let padded = Inputs { key: &[3.0, f32::NAN], live: &[1], ..TWO_ALIKE };
    let (done, buffers) = accepted(&counted, &padded);
    assert_eq!((done.total, bits(&buffers.output)), (2, bits(&[2.0])));
    assert_eq!(refused(&counted, &Inputs { live: &[2], ..padded }).number, 9);
}

#[test]
fn l_total_length_before_head_groups() {
    let long = vec![0.0; 4 * 2048];
    let heads = plain(1, 2049).with_heads(4, 3);
    assert_eq!(refused(&heads, &Inputs::default()).number, 1);
    assert_eq!(refused(&plain(1, 2048).with_heads(4, 3), &Inputs::default()).number, 2);
    let call = plain(1, 2048).with_heads(4, 4);
    let (done, _) = accepted(&call, &Inputs { query: &long[..4], key: &long, value: &long, ..Inputs::default() });
    assert_eq!(done.total, 2048);
    assert_eq!(check(&Call::cached(u64::MAX, 1), &Inputs::default()).unwrap_err().number, 1);
}

#[test]
fn m_live_counts() {
    for causal in [0, 1] {
        let call = Call { causal, ..Call::counted(2, 2).with_scale(1.0).with_batches(2) };
        let ones = [1.0; 4];
        let inputs = Inputs { query: &ones, key: &ones, value: &ones, live: &[2, 0], ..Inputs::default() };
        let (done, buffers) = accepted(&call, &inputs);
        assert_eq!(done, Done { total: 2, masked_rows: 2 });
        assert_eq!(bits(&buffers.output), bits(&[1.0, 1.0, 0.0, 0.0]));
        let refusal = refused(&call, &Inputs { live: &[2, 3], ..inputs });
        assert_eq!((refusal.number, refusal.tensor, refusal.index), (7, 0, 1));
        assert_eq!(refused(&call, &Inputs { live: &[-1, 3], ..inputs }).index, 0);
    }
}
