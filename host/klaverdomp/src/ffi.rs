// The symbols of libklaverdomp.a, and the only unsafe code of the crate. A slice is a pointer and then a length on the other side.
//
// Each block below is safe for the same reasons: a Rust slice has a pointer that is never null, also at length 0, and as many
// elements as it says; `&mut` slices overlap nothing else; the library is proved to stay inside the slices it is lent, whatever
// the numbers are, and keeps no pointer after it returns.

use crate::session_file::{self, Reading, Saving, Sizes};
use crate::{Call, Done, Inputs, Outputs, Refusal, StepInputs, StepOutputs};

#[allow(unsafe_code)]
extern "C" {
    fn klaverdomp_attention_3(
        record: *const u64,
        record_len: usize,
        scale: f32,
        softcap: f32,
        query: *const f32,
        query_len: usize,
        key: *const f32,
        key_len: usize,
        value: *const f32,
        value_len: usize,
        boolmask: *const u8,
        boolmask_len: usize,
        floatmask: *const f32,
        floatmask_len: usize,
        pastkey: *const f32,
        pastkey_len: usize,
        pastvalue: *const f32,
        pastvalue_len: usize,
        live: *const i64,
        live_len: usize,
        output: *mut f32,
        output_len: usize,
        presentkey: *mut f32,
        presentkey_len: usize,
        presentvalue: *mut f32,
        presentvalue_len: usize,
        scores: *mut f32,
        scores_len: usize,
        work: *mut f32,
        work_len: usize,
        tensor: *mut u64,
        index: *mut u64,
        total: *mut u64,
        masked: *mut u64,
    ) -> u32;
    fn klaverdomp_step_3(
        record: *const u64,
        record_len: usize,
        scale: f32,
        softcap: f32,
        query: *const f32,
        query_len: usize,
        key: *const f32,
        key_len: usize,
        value: *const f32,
        value_len: usize,
        pastkey: *const f32,
        pastkey_len: usize,
        pastvalue: *const f32,
        pastvalue_len: usize,
        output: *mut f32,
        output_len: usize,
        presentkey: *mut f32,
        presentkey_len: usize,
        presentvalue: *mut f32,
        presentvalue_len: usize,
        work: *mut f32,
        work_len: usize,
        tensor: *mut u64,
        index: *mut u64,
        total: *mut u64,
        masked: *mut u64,
    ) -> u32;
    fn klaverdomp_session_inspect_1(
        file: *const u8,
        file_len: usize,
        batches: *mut u64,
        key_heads: *mut u64,
        head_size: *mut u64,
        value_size: *mut u64,
        positions: *mut u64,
        used: *mut u64,
        place: *mut u64,
    ) -> u32;
    fn klaverdomp_session_load_1(
        file: *const u8,
        file_len: usize,
        keys: *mut f32,
        keys_len: usize,
        values: *mut f32,
        values_len: usize,
        batches: *mut u64,
        key_heads: *mut u64,
        head_size: *mut u64,
        value_size: *mut u64,
        positions: *mut u64,
        used: *mut u64,
        place: *mut u64,
    ) -> u32;
    fn klaverdomp_session_begin_1(
        buffer: *mut u8,
        buffer_len: usize,
        batches: u64,
        key_heads: u64,
        head_size: u64,
        value_size: u64,
        positions: *mut u64,
        used: *mut u64,
        place: *mut u64,
    ) -> u32;
    fn klaverdomp_session_append_1(
        buffer: *mut u8,
        buffer_len: usize,
        used: u64,
        count: u64,
        keys: *const f32,
        keys_len: usize,
        values: *const f32,
        values_len: usize,
        positions: *mut u64,
        used_after: *mut u64,
        place: *mut u64,
    ) -> u32;
    fn klaverdomp_exp_neg_1(d: f32, value: *mut f32) -> u32;
    fn klaverdomp_exp_neg_row_1(row: *mut f32, len: usize, largest: f32);
    fn klaverdomp_power_entry_1(f: u64, value: *mut f32) -> u32;
    fn klaverdomp_default_scale_1(size: u64, value: *mut f32) -> u32;
}

/// What the library answers: 0 or the number of the refusal, and the four numbers beside it.
pub(crate) struct Answer {
    pub number: u32,
    pub tensor: u64,
    pub index: u64,
    pub total: u64,
    pub masked: u64,
}

impl Answer {
    pub fn result(self) -> Result<Done, Refusal> {
        match self.number {
            0 => Ok(Done { total: self.total, masked_rows: self.masked }),
            number => Err(Refusal { number, tensor: self.tensor, index: self.index }),
        }
    }
}

#[allow(unsafe_code)]
pub(crate) fn attention(call: &Call, inputs: &Inputs, outputs: &mut Outputs) -> Answer {
    let record = call.record();
    let (mut tensor, mut index, mut total, mut masked) = (0, 0, 0, 0);
    // SAFETY: see the head of the file.
    let number = unsafe {
        klaverdomp_attention_3(
            record.as_ptr(),
            record.len(),
            call.scale.unwrap_or(0.0),
            call.softcap,
            inputs.query.as_ptr(),
            inputs.query.len(),
            inputs.key.as_ptr(),
            inputs.key.len(),
            inputs.value.as_ptr(),
            inputs.value.len(),
            inputs.boolean_mask.as_ptr(),
            inputs.boolean_mask.len(),
            inputs.float_mask.as_ptr(),
            inputs.float_mask.len(),
            inputs.past_key.as_ptr(),
            inputs.past_key.len(),
            inputs.past_value.as_ptr(),
            inputs.past_value.len(),
            inputs.live.as_ptr(),
            inputs.live.len(),
            outputs.output.as_mut_ptr(),
            outputs.output.len(),
            outputs.present_key.as_mut_ptr(),
            outputs.present_key.len(),
            outputs.present_value.as_mut_ptr(),
            outputs.present_value.len(),
            outputs.scores.as_mut_ptr(),
            outputs.scores.len(),
            outputs.work.as_mut_ptr(),
            outputs.work.len(),
            &mut tensor,
            &mut index,
            &mut total,
            &mut masked,
        )
    };
    Answer { number, tensor, index, total, masked }
}

#[allow(unsafe_code)]
pub(crate) fn step(call: &Call, inputs: &StepInputs, outputs: &mut StepOutputs) -> Answer {
    let record = call.record();
    let (mut tensor, mut index, mut total, mut masked) = (0, 0, 0, 0);
    // SAFETY: see the head of the file.
    let number = unsafe {
        klaverdomp_step_3(
            record.as_ptr(),
            record.len(),
            call.scale.unwrap_or(0.0),
            call.softcap,
            inputs.query.as_ptr(),
            inputs.query.len(),
            inputs.key.as_ptr(),
            inputs.key.len(),
            inputs.value.as_ptr(),
            inputs.value.len(),
            inputs.past_key.as_ptr(),
            inputs.past_key.len(),
            inputs.past_value.as_ptr(),
            inputs.past_value.len(),
            outputs.output.as_mut_ptr(),
            outputs.output.len(),
            outputs.present_key.as_mut_ptr(),
            outputs.present_key.len(),
            outputs.present_value.as_mut_ptr(),
            outputs.present_value.len(),
            outputs.work.as_mut_ptr(),
            outputs.work.len(),
            &mut tensor,
            &mut index,
            &mut total,
            &mut masked,
        )
    };
    Answer { number, tensor, index, total, masked }
}

/// What stands behind the pointers, or the refusal of that number.
fn answered<T>(number: u32, place: u64, done: T) -> Result<T, session_file::Refusal> {
    match number {
        0 => Ok(done),
        number => Err(session_file::Refusal { number, place }),
    }
}

#[allow(unsafe_code)]
pub(crate) fn session_inspect(file: &[u8]) -> Result<Reading, session_file::Refusal> {
    let (mut reading, mut place) = (Reading::default(), 0);
    // SAFETY: see the head of the file.
    let number = unsafe {
        klaverdomp_session_inspect_1(
            file.as_ptr(),
            file.len(),
            &mut reading.sizes.batches,
            &mut reading.sizes.kv_heads,
            &mut reading.sizes.size,
            &mut reading.sizes.v_size,
            &mut reading.positions,
            &mut reading.used,
            &mut place,
        )
    };
    answered(number, place, reading)
}

#[allow(unsafe_code)]
pub(crate) fn session_load(file: &[u8], keys: &mut [f32], values: &mut [f32]) -> Result<Reading, session_file::Refusal> {
    let (mut reading, mut place) = (Reading::default(), 0);
    // SAFETY: see the head of the file.
    let number = unsafe {
        klaverdomp_session_load_1(
            file.as_ptr(),
            file.len(),
            keys.as_mut_ptr(),
            keys.len(),
            values.as_mut_ptr(),
            values.len(),
            &mut reading.sizes.batches,
            &mut reading.sizes.kv_heads,
            &mut reading.sizes.size,
            &mut reading.sizes.v_size,
            &mut reading.positions,
            &mut reading.used,
            &mut place,
        )
    };
    answered(number, place, reading)
}

#[allow(unsafe_code)]
pub(crate) fn session_begin(buffer: &mut [u8], sizes: &Sizes) -> Result<Saving, session_file::Refusal> {
    let (mut saving, mut place) = (Saving::default(), 0);
    // SAFETY: see the head of the file.
    let number = unsafe {
        klaverdomp_session_begin_1(
            buffer.as_mut_ptr(),
            buffer.len(),
            sizes.batches,
            sizes.kv_heads,
            sizes.size,
            sizes.v_size,
            &mut saving.positions,
            &mut saving.used,
            &mut place,
        )
    };
    answered(number, place, saving)
}

#[allow(unsafe_code)]
pub(crate) fn session_append(
    buffer: &mut [u8],
    used: u64,
    count: u64,
    keys: &[f32],
    values: &[f32],
) -> Result<Saving, session_file::Refusal> {
    let (mut saving, mut place) = (Saving::default(), 0);
    // SAFETY: see the head of the file.
    let number = unsafe {
        klaverdomp_session_append_1(
            buffer.as_mut_ptr(),
            buffer.len(),
            used,
            count,
            keys.as_ptr(),
            keys.len(),
            values.as_ptr(),
            values.len(),
            &mut saving.positions,
            &mut saving.used,
            &mut place,
        )
    };
    answered(number, place, saving)
}

#[allow(unsafe_code)]
pub(crate) fn exp_neg(d: f32) -> Option<f32> {
    let mut value = 0.0;
    // SAFETY: see the head of the file.
    let found = unsafe { klaverdomp_exp_neg_1(d, &mut value) };
    (found == 1).then_some(value)
}

#[allow(unsafe_code)]
pub(crate) fn exp_neg_row(row: &mut [f32], largest: f32) {
    // SAFETY: see the head of the file.
    unsafe { klaverdomp_exp_neg_row_1(row.as_mut_ptr(), row.len(), largest) }
}

#[allow(unsafe_code)]
pub(crate) fn power_entry(f: u64) -> Option<f32> {
    let mut value = 0.0;
    // SAFETY: see the head of the file.
    let found = unsafe { klaverdomp_power_entry_1(f, &mut value) };
    (found == 1).then_some(value)
}

#[allow(unsafe_code)]
pub(crate) fn default_scale(size: u64) -> Option<f32> {
    let mut value = 0.0;
    // SAFETY: see the head of the file.
    let found = unsafe { klaverdomp_default_scale_1(size, &mut value) };
    (found == 1).then_some(value)
}
