//! Attention for speech recognition: ONNX Attention 24 in f32 with KV caches, over a static library that is proved bit for bit.
//!
//! A call is a record ([`Call`]), borrowed tensors to read ([`Inputs`]) and borrowed tensors to write ([`Outputs`]).
//! [`attention`] either does the call or answers the first refusal that applies, and then leaves every tensor as it was.
//! [`step`] is the same for decode steps of one position alone, and takes neither masks nor live counts nor scores.
//! [`Session`] keeps the KV cache of a recording that comes in chunks, and [`SavedSession`] keeps it in a file too, from which it is
//! taken up after a stop. A call and a session may have a score cap ([`Call::with_softcap`], [`Settings::with_softcap`]).
//!
//! One query over two keys that are alike, so that each weighs a half:
//!
//! ```
//! use klaverdomp::{attention, Buffers, Call, Done, Inputs};
//!
//! let call = Call::plain(1, 2).with_scale(1.0).with_scores(3);
//! let inputs = Inputs { query: &[1.0], key: &[3.0, 3.0], value: &[2.0, 4.0], ..Inputs::default() };
//! let mut buffers = Buffers::new(&call);
//! let done = attention(&call, &inputs, &mut buffers.lend())?;
//! assert_eq!(done, Done { total: 2, masked_rows: 0 });
//! assert_eq!(buffers.scores, [0.5, 0.5]);
//! assert_eq!(buffers.output, [3.0]);
//! # Ok::<(), klaverdomp::Refusal>(())
//! ```
//!
//! A refusal says what is wrong and where:
//!
//! ```
//! # use klaverdomp::{attention, Buffers, Call, Inputs};
//! let call = Call::plain(1, 2);
//! let inputs = Inputs { query: &[1.0], key: &[3.0, 3.0], value: &[2.0, f32::NAN], ..Inputs::default() };
//! let refusal = attention(&call, &inputs, &mut Buffers::new(&call).lend()).unwrap_err();
//! assert_eq!((refusal.number, refusal.tensor_name(), refusal.index), (9, Some("value"), 1));
//! assert_eq!(refusal.to_string(), "refusal 9: element 1 of the value is not a number of magnitude at most 65,536");
//! ```
//!
//! Calls share nothing, so any number of threads may make them at the same time.

#![deny(unsafe_code)]

mod call;
mod contents;
mod damage;
mod explain;
mod ffi;
mod open_file;
mod refusal;
mod save_error;
mod saved;
mod session;
pub mod session_file;
mod step;

use std::collections::TryReserveError;

pub use call::{Call, Form, Lengths, MaskKind};
pub use explain::explain;
pub use refusal::Refusal;
pub use save_error::{SaveError, SaveFault};
pub use saved::{saved_in, SavedSession};
pub use session::{Session, Settings};
pub use step::{is_step, step, StepInputs, StepOutputs};

/// The tensors that a call reads. One that the call does not use is empty, as it is in `Inputs::default()`.
#[derive(Clone, Copy, Debug, Default)]
pub struct Inputs<'a> {
    /// (B, Hq, Sq, D), or (B, Sq, Hq·D) in rank 3.
    pub query: &'a [f32],
    /// (B, Hkv, Sk, D), or (B, Sk, Hkv·D) in rank 3.
    pub key: &'a [f32],
    /// (B, Hkv, Sk, Dv), or (B, Sk, Hkv·Dv) in rank 3.
    pub value: &'a [f32],
    /// The mask of [`MaskKind::Boolean`], bytes 0 and 1.
    pub boolean_mask: &'a [u8],
    /// The mask of [`MaskKind::Float`].
    pub float_mask: &'a [f32],
    /// (B, Hkv, P, D) in a cached call, in rank 3 too.
    pub past_key: &'a [f32],
    /// (B, Hkv, P, Dv) in a cached call, in rank 3 too.
    pub past_value: &'a [f32],
    /// For each batch of a counted call, how many of its keys are used.
    pub live: &'a [i64],
}

/// The tensors that a call writes. One that the call does not use is empty, as it is in `Outputs::default()`.
///
/// An accepted call overwrites every element of each; a refused call changes no bit.
#[derive(Debug, Default)]
pub struct Outputs<'a> {
    /// (B, Hq, Sq, Dv), or (B, Sq, Hq·Dv) in rank 3.
    pub output: &'a mut [f32],
    /// (B, Hkv, T, D) in a cached call: the past keys and then the incoming ones.
    pub present_key: &'a mut [f32],
    /// (B, Hkv, T, Dv) in a cached call: the past values and then the incoming ones.
    pub present_value: &'a mut [f32],
    /// (B, Hq, Sq, T) where the call has a score mode.
    pub scores: &'a mut [f32],
    /// T elements in every call; it holds the weights of the last row afterwards.
    pub work: &'a mut [f32],
}

/// Owned tensors of the right lengths for what a call writes.
#[derive(Clone, Debug, Default)]
pub struct Buffers {
    pub output: Vec<f32>,
    pub present_key: Vec<f32>,
    pub present_value: Vec<f32>,
    pub scores: Vec<f32>,
    pub work: Vec<f32>,
}

impl Buffers {
    /// Zeros of the right lengths. As any `Vec`, they end the process where there is not enough memory; see [`Buffers::try_new`].
    pub fn new(call: &Call) -> Buffers {
        let lengths = call.lengths();
        Buffers {
            output: vec![0.0; lengths.output],
            present_key: vec![0.0; lengths.present_key],
            present_value: vec![0.0; lengths.present_value],
            scores: vec![0.0; lengths.scores],
            work: vec![0.0; lengths.work],
        }
    }

    /// Zeros of the right lengths, or an error where there is not enough memory.
    pub fn try_new(call: &Call) -> Result<Buffers, TryReserveError> {
        let lengths = call.lengths();
        Ok(Buffers {
            output: zeros(lengths.output)?,
            present_key: zeros(lengths.present_key)?,
            present_value: zeros(lengths.present_value)?,
            scores: zeros(lengths.scores)?,
            work: zeros(lengths.work)?,
        })
    }

    /// All five, to be written.
    pub fn lend(&mut self) -> Outputs<'_> {
        Outputs {
            output: &mut self.output,
            present_key: &mut self.present_key,
            present_value: &mut self.present_value,
            scores: &mut self.scores,
            work: &mut self.work,
        }
    }

    /// The four that a step writes.
    pub fn lend_step(&mut self) -> StepOutputs<'_> {
        StepOutputs {
            output: &mut self.output,
            present_key: &mut self.present_key,
            present_value: &mut self.present_value,
            work: &mut self.work,
        }
    }
}

fn zeros(len: usize) -> Result<Vec<f32>, TryReserveError> {
    let mut zeros = Vec::new();
    zeros.try_reserve_exact(len)?;
    zeros.resize(len, 0.0);
    Ok(zeros)
}

/// The answer of an accepted call.
#[derive(Clone, Copy, Debug, PartialEq, Eq)]
pub struct Done {
    /// T, the positions of past and call together.
    pub total: u64,
    /// How many rows (batch, query head, query) see no key. Their outputs are +0.
    pub masked_rows: u64,
}

/// Does the call, or answers the refusal of the lowest number, 1 to 9, that applies and changes nothing.
///
/// A decode step after one past position, causal:
///
/// ```
/// use klaverdomp::{attention, Buffers, Call, Inputs};
///
/// let call = Call::cached(1, 1).with_scale(1.0).with_causal();
/// let inputs = Inputs {
///     query: &[1.0],
///     key: &[1.0],
///     value: &[12.0],
///     past_key: &[1.0],
///     past_value: &[6.0],
///     ..Inputs::default()
/// };
/// let mut buffers = Buffers::new(&call);
/// attention(&call, &inputs, &mut buffers.lend())?;
/// assert_eq!(buffers.output, [9.0]);
/// assert_eq!(buffers.present_value, [6.0, 12.0]);
/// # Ok::<(), klaverdomp::Refusal>(())
/// ```
pub fn attention(call: &Call, inputs: &Inputs, outputs: &mut Outputs) -> Result<Done, Refusal> {
    ffi::attention(call, inputs, outputs).result()
}

/// Asks the operator about the record and the lengths of the inputs, before there are outputs: the refusal of number 1 to 5 that
/// applies, if one does. What the tensors hold is not looked at.
///
/// ```
/// use klaverdomp::{check, Call, Inputs};
///
/// let call = Call::plain(1, 2_049).with_heads(4, 3);
/// assert_eq!(check(&call, &Inputs::default()).unwrap_err().number, 1);
/// ```
pub fn check(call: &Call, inputs: &Inputs) -> Result<(), Refusal> {
    before_outputs(attention(call, inputs, &mut Outputs::default()))
}

/// The refusal of a call without outputs, other than the 6 that is for their lack. No work row is empty, so such a call is always
/// refused, and by none that is tested after 6.
fn before_outputs(answer: Result<Done, Refusal>) -> Result<(), Refusal> {
    match answer {
        Err(refusal) if refusal.number != 6 => Err(refusal),
        _ => Ok(()),
    }
}

/// The house exponential E(d), near e^-d; none where d is below 0 or a NaN.
///
/// ```
/// use klaverdomp::exp_neg;
///
/// assert_eq!(exp_neg(0.0), Some(1.0));
/// assert_eq!(exp_neg(f32::INFINITY), Some(0.0));
/// assert_eq!(exp_neg(-1.0), None);
/// ```
pub fn exp_neg(d: f32) -> Option<f32> {
    ffi::exp_neg(d)
}

/// Each score s of the row becomes E(largest - s), and +0 where that has no value.
///
/// ```
/// let mut row = [3.0, f32::NEG_INFINITY];
/// klaverdomp::exp_neg_row(&mut row, 3.0);
/// assert_eq!(row, [1.0, 0.0]);
/// ```
pub fn exp_neg_row(row: &mut [f32], largest: f32) {
    ffi::exp_neg_row(row, largest);
}

/// The entry of the power table for f, 0 to 255: 2^(-f/256) as a multiple of 2^-24.
///
/// ```
/// assert_eq!(klaverdomp::power_entry(0), Some(1.0));
/// assert_eq!(klaverdomp::power_entry(256), None);
/// ```
pub fn power_entry(f: u64) -> Option<f32> {
    ffi::power_entry(f)
}

/// The scale of a call that gives none: the f32 nearest to 1/√size, for head sizes 1 to 256.
///
/// ```
/// assert_eq!(klaverdomp::default_scale(64), Some(0.125));
/// assert_eq!(klaverdomp::default_scale(257), None);
/// ```
pub fn default_scale(size: u64) -> Option<f32> {
    ffi::default_scale(size)
}
