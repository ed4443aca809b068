//! Decode steps of one position, through an entry for them alone.

use crate::{ffi, Call, Done, Inputs, Outputs, Refusal};

/// The tensors that a step reads.
#[derive(Clone, Copy, Debug, Default)]
pub struct StepInputs<'a> {
    /// (1, Hq, 1, D).
    pub query: &'a [f32],
    /// (1, Hkv, 1, D).
    pub key: &'a [f32],
    /// (1, Hkv, 1, Dv).
    pub value: &'a [f32],
    /// (1, Hkv, P, D).
    pub past_key: &'a [f32],
    /// (1, Hkv, P, Dv).
    pub past_value: &'a [f32],
}

/// The tensors that a step writes.
///
/// An accepted step overwrites every element of each; a refused one changes no bit.
#[derive(Debug, Default)]
pub struct StepOutputs<'a> {
    /// (1, Hq, 1, Dv).
    pub output: &'a mut [f32],
    /// (1, Hkv, P + 1, D): the past keys and then the incoming one.
    pub present_key: &'a mut [f32],
    /// (1, Hkv, P + 1, Dv): the past values and then the incoming one.
    pub present_value: &'a mut [f32],
    /// P + 1 elements; it holds the weights of the last query head afterwards.
    pub work: &'a mut [f32],
}

/// The same tensors for the general entry, which gets no mask and no live counts.
impl<'a> From<StepInputs<'a>> for Inputs<'a> {
    fn from(inputs: StepInputs<'a>) -> Inputs<'a> {
        let StepInputs { query, key, value, past_key, past_value } = inputs;
        Inputs { query, key, value, past_key, past_value, ..Inputs::default() }
    }
}

/// The same tensors for the general entry, which gets no scores.
impl<'a> From<StepOutputs<'a>> for Outputs<'a> {
    fn from(outputs: StepOutputs<'a>) -> Outputs<'a> {
        let StepOutputs { output, present_key, present_value, work } = outputs;
        Outputs { output, present_key, present_value, scores: &mut [], work }
    }
}

/// Does a decode step of one position, or answers the refusal that applies and changes nothing.
///
/// The call is of the step profile: cached, causal, rank 4, one batch, one query and one key, without a mask and without scores, at any
/// scale and softcap. Any other is refusal 10, whatever else is wrong with it. A call of the profile gets the answer of
/// [`crate::attention`], and leaves the same bits.
///
/// ```
/// use klaverdomp::{step, Buffers, Call, Done, StepInputs};
///
/// let call = Call::cached(1, 1).with_scale(1.0).with_causal();
/// let inputs = StepInputs { query: &[1.0], key: &[1.0], value: &[12.0], past_key: &[1.0], past_value: &[6.0] };
/// let mut buffers = Buffers::new(&call);
/// assert_eq!(step(&call, &inputs, &mut buffers.lend_step())?, Done { total: 2, masked_rows: 0 });
/// assert_eq!(buffers.output, [9.0]);
/// assert_eq!(buffers.present_value, [6.0, 12.0]);
///
/// let two_positions = Call { q_len: 2, k_len: 2, ..call };
/// assert_eq!(step(&two_positions, &inputs, &mut buffers.lend_step()).unwrap_err().number, 10);
/// # Ok::<(), klaverdomp::Refusal>(())
/// ```
pub fn step(call: &Call, inputs: &StepInputs, outputs: &mut StepOutputs) -> Result<Done, Refusal> {
    ffi::step(call, inputs, outputs).result()
}

/// Whether [`step`] takes the record: refusal 10 does not apply to it, though another one may.
///
/// ```
/// use klaverdomp::{is_step, Call};
///
/// assert!(is_step(&Call::cached(511, 1).with_heads(32, 8).with_size(128).with_causal()));
/// assert!(!is_step(&Call::cached(0, 512).with_causal()));
/// ```
pub fn is_step(call: &Call) -> bool {
    // without tensors the entry refuses every call
    let answer = step(call, &StepInputs::default(), &mut StepOutputs::default());
    answer.is_err_and(|refusal| refusal.number != 10)
}
