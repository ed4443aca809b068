//! The static library's exported functions and the reference's, each behind a safe function; those of saved sessions are in
//! `session_ffi`. Apart from that and the guard pages this is the only file with `unsafe`: every pointer comes from a slice
//! that lives through the call.

use crate::call::{Answer, Record};

/// The lent inputs, wherever they lie.
#[derive(Clone, Copy)]
pub struct InputSlices<'a> {
    pub query: &'a [u32],
    pub key: &'a [u32],
    pub value: &'a [u32],
    pub bool_mask: &'a [u8],
    pub float_mask: &'a [u32],
    pub past_key: &'a [u32],
    pub past_value: &'a [u32],
    pub live: &'a [i64],
}

/// The lent outputs, wherever they lie.
pub struct OutputSlices<'a> {
    pub output: &'a mut [u32],
    pub present_key: &'a mut [u32],
    pub present_value: &'a mut [u32],
    pub scores: &'a mut [u32],
    pub work: &'a mut [u32],
}

/// The four numbers of the library's answer that it writes.
pub struct AnswerSlots<'a> {
    pub tensor: &'a mut u64,
    pub index: &'a mut u64,
    pub total: &'a mut u64,
    pub masked: &'a mut u64,
}

mod library {
    #[allow(improper_ctypes)]
    extern "C" {
        pub fn klaverdomp_attention_3(
            record: *const u64, record_len: usize, scale: f32, softcap: f32,
            query: *const f32, query_len: usize, key: *const f32, key_len: usize, value: *const f32, value_len: usize,
            bool_mask: *const u8, bool_mask_len: usize, float_mask: *const f32, float_mask_len: usize,
            past_key: *const f32, past_key_len: usize, past_value: *const f32, past_value_len: usize,
            live: *const i64, live_len: usize,
            output: *mut f32, output_len: usize, present_key: *mut f32, present_key_len: usize,
            present_value: *mut f32, present_value_len: usize, scores: *mut f32, scores_len: usize,
            work: *mut f32, work_len: usize,
            tensor: *mut u64, index: *mut u64, total: *mut u64, masked: *mut u64,
        ) -> u32;
        pub fn klaverdomp_step_3(
            record: *const u64, record_len: usize, scale: f32, softcap: f32,
            query: *const f32, query_len: usize, key: *const f32, key_len: usize, value: *const f32, value_len: usize,
            past_key: *const f32, past_key_len: usize, past_value: *const f32, past_value_len: usize,
            output: *mut f32, output_len: usize, present_key: *mut f32, present_key_len: usize,
            present_value: *mut f32, present_value_len: usize, work: *mut f32, work_len: usize,
            tensor: *mut u64, index: *mut u64, total: *mut u64, masked: *mut u64,
        ) -> u32;
        pub fn klaverdomp_exp_neg_1(d: f32, value: *mut f32) -> u32;
        pub fn klaverdomp_exp_neg_row_1(row: *mut f32, len: usize, largest: f32);
        pub fn klaverdomp_power_entry_1(f: u64, value: *mut f32) -> u32;
        pub fn klaverdomp_default_scale_1(size: u64, value: *mut f32) -> u32;
    }
}

mod reference {
    #[repr(C)]
    pub struct Call {
        pub numbers: [u64; 18],
        pub scale: f32,
        pub softcap: f32,
    }

    #[repr(C)]
    pub struct Lent<T> {
        pub at: *const T,
        pub len: usize,
    }

    #[repr(C)]
    pub struct LentMut {
        pub at: *mut f32,
        pub len: usize,
    }

    #[repr(C)]
    pub struct Inputs {
        pub query: Lent<f32>,
        pub key: Lent<f32>,
        pub value: Lent<f32>,
        pub bool_mask: Lent<u8>,
        pub float_mask: Lent<f32>,
        pub past_key: Lent<f32>,
        pub past_value: Lent<f32>,
        pub live: Lent<i64>,
    }

    #[repr(C)]
    pub struct Outputs {
        pub output: LentMut,
        pub present_key: LentMut,
        pub present_value: LentMut,
        pub scores: LentMut,
        pub work: LentMut,
    }

    #[repr(C)]
    pub struct StepInputs {
        pub query: Lent<f32>,
        pub key: Lent<f32>,
        pub value: Lent<f32>,
        pub past_key: Lent<f32>,
        pub past_value: Lent<f32>,
    }

    #[repr(C)]
    pub struct StepOutputs {
        pub output: LentMut,
        pub present_key: LentMut,
        pub present_value: LentMut,
        pub work: LentMut,
    }

    #[repr(C)]
    #[derive(Default)]
    pub struct Answer {
        pub refusal: u64,
        pub tensor: u64,
        pub index: u64,
        pub total: u64,
        pub masked: u64,
    }

    extern "C" {
        pub fn reference_attention(call: *const Call, inputs: *const Inputs, outputs: *mut Outputs, answer: *mut Answer);
        pub fn reference_step(call: *const Call, inputs: *const StepInputs, outputs: *mut StepOutputs, answer: *mut Answer);
        pub fn reference_exp_neg(d: f32, value: *mut f32) -> i32;
        pub fn reference_power_entry(f: u64, value: *mut f32) -> i32;
        pub fn reference_default_scale(size: u64, value: *mut f32) -> i32;
    }
}

fn floats(bits: &[u32]) -> *const f32 {
    bits.as_ptr().cast()
}

fn floats_mut(bits: &mut [u32]) -> *mut f32 {
    bits.as_mut_ptr().cast()
}

/// The library's attention; the result is the number of the refusal, 0 for done.
pub fn library_attention(
    record: &[u64], scale: u32, softcap: u32, i: &InputSlices, o: &mut OutputSlices, a: AnswerSlots,
) -> u32 {
    unsafe {
        library::klaverdomp_attention_3(
            record.as_ptr(), record.len(), f32::from_bits(scale), f32::from_bits(softcap),
            floats(i.query), i.query.len(), floats(i.key), i.key.len(), floats(i.value), i.value.len(),
            i.bool_mask.as_ptr(), i.bool_mask.len(), floats(i.float_mask), i.float_mask.len(),
            floats(i.past_key), i.past_key.len(), floats(i.past_value), i.past_value.len(),
            i.live.as_ptr(), i.live.len(),
            floats_mut(o.output), o.output.len(), floats_mut(o.present_key), o.present_key.len(),
            floats_mut(o.present_value), o.present_value.len(), floats_mut(o.scores), o.scores.len(),
            floats_mut(o.work), o.work.len(),
            a.tensor, a.index, a.total, a.masked,
        )
    }
}

/// The library's step; masks, live counts and scores are not lent to it.
pub fn library_step(
    record: &[u64], scale: u32, softcap: u32, i: &InputSlices, o: &mut OutputSlices, a: AnswerSlots,
) -> u32 {
    unsafe {
        library::klaverdomp_step_3(
            record.as_ptr(), record.len(), f32::from_bits(scale), f32::from_bits(softcap),
            floats(i.query), i.query.len(), floats(i.key), i.key.len(), floats(i.value), i.value.len(),
            floats(i.past_key), i.past_key.len(), floats(i.past_value), i.past_value.len(),
            floats_mut(o.output), o.output.len(), floats_mut(o.present_key), o.present_key.len(),
            floats_mut(o.present_value), o.present_value.len(), floats_mut(o.work), o.work.len(),
            a.tensor, a.index, a.total, a.masked,
        )
    }
}

fn lent(bits: &[u32]) -> reference::Lent<f32> {
    reference::Lent { at: floats(bits), len: bits.len() }
}

fn lent_mut(bits: &mut [u32]) -> reference::LentMut {
    reference::LentMut { at: floats_mut(bits), len: bits.len() }
}

/// What the reference answers to the record.
fn reference_answer(
    record: &Record, scale: u32, softcap: u32, make: impl FnOnce(&reference::Call, &mut reference::Answer),
) -> Answer {
    let (numbers, scale, softcap) = (record.numbers(), f32::from_bits(scale), f32::from_bits(softcap));
    let call = reference::Call { numbers, scale, softcap };
    let mut answer = reference::Answer::default();
    make(&call, &mut answer);
    Answer {
        refusal: answer.refusal,
        tensor: answer.tensor,
        index: answer.index,
        total: answer.total,
        masked: answer.masked,
    }
}

/// The reference's attention.
pub fn reference_attention(record: &Record, scale: u32, softcap: u32, i: &InputSlices, o: &mut OutputSlices) -> Answer {
    let inputs = reference::Inputs {
        query: lent(i.query),
        key: lent(i.key),
        value: lent(i.value),
        bool_mask: reference::Lent { at: i.bool_mask.as_ptr(), len: i.bool_mask.len() },
        float_mask: lent(i.float_mask),
        past_key: lent(i.past_key),
        past_value: lent(i.past_value),
        live: reference::Lent { at: i.live.as_ptr(), len: i.live.len() },
    };
    let mut outputs = reference::Outputs {
        output: lent_mut(o.output),
        present_key: lent_mut(o.present_key),
        present_value: lent_mut(o.present_value),
        scores: lent_mut(o.scores),
        work: lent_mut(o.work),
    };
    let make = |call: &_, answer: &mut _| unsafe { reference::reference_attention(call, &inputs, &mut outputs, answer) };
    reference_answer(record, scale, softcap, make)
}

/// The reference's step; masks, live counts and scores are not lent to it.
pub fn reference_step(record: &Record, scale: u32, softcap: u32, i: &InputSlices, o: &mut OutputSlices) -> Answer {
    let inputs = reference::StepInputs {
        query: lent(i.query),
        key: lent(i.key),
        value: lent(i.value),
        past_key: lent(i.past_key),
        past_value: lent(i.past_value),
    };
    let mut outputs = reference::StepOutputs {
        output: lent_mut(o.output),
        present_key: lent_mut(o.present_key),
        present_value: lent_mut(o.present_value),
        work: lent_mut(o.work),
    };
    let make = |call: &_, answer: &mut _| unsafe { reference::reference_step(call, &inputs, &mut outputs, answer) };
    reference_answer(record, scale, softcap, make)
}

/// What a function that writes one value gave: its result and the bits of the value, whatever they were before.
pub type Told = (u32, u32);

/// Bits that no function here writes, so that a value that is not written shows.
const UNWRITTEN: u32 = 0x7FA5_5A5A;

fn told(make: impl FnOnce(*mut f32) -> u32) -> Told {
    let mut bits = UNWRITTEN;
    let result = make((&mut bits as *mut u32).cast());
    (result, bits)
}

pub fn library_exp_neg(d: u32) -> Told {
    told(|value| unsafe { library::klaverdomp_exp_neg_1(f32::from_bits(d), value) })
}

pub fn reference_exp_neg(d: u32) -> Told {
    told(|value| unsafe { reference::reference_exp_neg(f32::from_bits(d), value) } as u32)
}

pub fn library_exp_neg_row(row: &mut [u32], largest: u32) {
    unsafe { library::klaverdomp_exp_neg_row_1(floats_mut(row), row.len(), f32::from_bits(largest)) }
}

pub fn library_power_entry(f: u64) -> Told {
    told(|value| unsafe { library::klaverdomp_power_entry_1(f, value) })
}

pub fn reference_power_entry(f: u64) -> Told {
    told(|value| unsafe { reference::reference_power_entry(f, value) } as u32)
}

pub fn library_default_scale(size: u64) -> Told {
    told(|value| unsafe { library::klaverdomp_default_scale_1(size, value) })
}

pub fn reference_default_scale(size: u64) -> Told {
    told(|value| unsafe { reference::reference_default_scale(size, value) } as u32)
}
