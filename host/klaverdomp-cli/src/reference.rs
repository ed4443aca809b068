// The plain C program of the same rounding order (reference/reference.h), and that of saved sessions (reference/session_file.h).
#![allow(unsafe_code)]

use klaverdomp::{Call, Done, Form, Inputs, MaskKind, Outputs};

#[repr(C)]
struct ReferenceCall {
    form: u64,
    mask_kind: u64,
    scale_kind: u64,
    score_mode: u64,
    rank: u64,
    causal: u64,
    batches: u64,
    q_heads: u64,
    kv_heads: u64,
    q_len: u64,
    k_len: u64,
    past: u64,
    size: u64,
    v_size: u64,
    mask_dims: [u64; 4],
    scale: f32,
    softcap: f32,
}

#[repr(C)]
struct Part<T> {
    at: *const T,
    len: usize,
}

#[repr(C)]
struct Lent {
    at: *mut f32,
    len: usize,
}

#[repr(C)]
struct ReferenceInputs {
    query: Part<f32>,
    key: Part<f32>,
    value: Part<f32>,
    bool_mask: Part<u8>,
    float_mask: Part<f32>,
    past_key: Part<f32>,
    past_value: Part<f32>,
    live: Part<i64>,
}

#[repr(C)]
struct ReferenceOutputs {
    output: Lent,
    present_key: Lent,
    present_value: Lent,
    scores: Lent,
    work: Lent,
}

#[repr(C)]
#[derive(Default)]
struct ReferenceAnswer {
    refusal: u64,
    tensor: u64,
    index: u64,
    total: u64,
    masked: u64,
}

#[repr(C)]
#[derive(Default)]
struct ReferenceReading {
    refusal: u64,
    place: u64,
    sizes: [u64; 4],
    positions: u64,
    used: u64,
}

#[repr(C)]
#[derive(Default)]
struct ReferenceSaving {
    refusal: u64,
    place: u64,
    positions: u64,
    used: u64,
}

extern "C" {
    fn reference_attention(
        call: *const ReferenceCall,
        inputs: *const ReferenceInputs,
        outputs: *mut ReferenceOutputs,
        answer: *mut ReferenceAnswer,
    );
    fn reference_session_load(
        file: *const u8,
        file_len: usize,
        keys: *mut f32,
        keys_len: usize,
        values: *mut f32,
        values_len: usize,
        reading: *mut ReferenceReading,
    );
    fn reference_session_append(
        buffer: *mut u8,
        buffer_len: usize,
        used: u64,
        count: u64,
        keys: *const f32,
        keys_len: usize,
        values: *const f32,
        values_len: usize,
        saving: *mut ReferenceSaving,
    );
}

fn part<T>(slice: &[T]) -> Part<T> {
    Part { at: slice.as_ptr(), len: slice.len() }
}

fn lent(slice: &mut [f32]) -> Lent {
    Lent { at: slice.as_mut_ptr(), len: slice.len() }
}

/// The same call by the plain C program; none if it is refused.
pub fn attention(call: &Call, inputs: &Inputs, outputs: &mut Outputs) -> Option<Done> {
    let record = ReferenceCall {
        form: match call.form {
            Form::Plain => 0,
            Form::Cached => 1,
            Form::Counted => 2,
        },
        mask_kind: match call.mask {
            MaskKind::None => 0,
            MaskKind::Boolean => 1,
            MaskKind::Float => 2,
        },
        scale_kind: u64::from(call.scale.is_some()),
        score_mode: call.mode.map_or(255, |mode| mode.min(4)),
        rank: call.rank,
        causal: call.causal,
        batches: call.batches,
        q_heads: call.q_heads,
        kv_heads: call.kv_heads,
        q_len: call.q_len,
        k_len: call.k_len,
        past: call.past,
        size: call.size,
        v_size: call.v_size,
        mask_dims: call.mask_dims,
        scale: call.scale.unwrap_or(0.0),
        softcap: call.softcap,
    };
    let inputs = ReferenceInputs {
        query: part(inputs.query),
        key: part(inputs.key),
        value: part(inputs.value),
        bool_mask: part(inputs.boolean_mask),
        float_mask: part(inputs.float_mask),
        past_key: part(inputs.past_key),
        past_value: part(inputs.past_value),
        live: part(inputs.live),
    };
    let mut outputs = ReferenceOutputs {
        output: lent(outputs.output),
        present_key: lent(outputs.present_key),
        present_value: lent(outputs.present_value),
        scores: lent(outputs.scores),
        work: lent(outputs.work),
    };
    let mut answer = ReferenceAnswer::default();
    // SAFETY: every pointer comes from a slice with its length, and the program checks the lengths before it reads or writes.
    unsafe { reference_attention(&record, &inputs, &mut outputs, &mut answer) };
    (answer.refusal == 0).then_some(Done { total: answer.total, masked_rows: answer.masked })
}

/// Reads the caches from a file by the plain C program: how many positions it has; none if it is refused.
pub fn session_load(file: &[u8], keys: &mut [f32], values: &mut [f32]) -> Option<u64> {
    let mut reading = ReferenceReading::default();
    let (keys, values) = (lent(keys), lent(values));
    // SAFETY: each pointer is of a slice with its length, and the program checks the lengths before it reads or writes.
    unsafe { reference_session_load(file.as_ptr(), file.len(), keys.at, keys.len, values.at, values.len, &mut reading) };
    (reading.refusal == 0).then_some(reading.positions)
}

/// Adds positions to a file by the plain C program: how many it then has; none if that is refused.
pub fn session_append(buffer: &mut [u8], used: u64, count: u64, keys: &[f32], values: &[f32]) -> Option<u64> {
    let mut saving = ReferenceSaving::default();
    let (keys, values) = (part(keys), part(values));
    let (at, len) = (buffer.as_mut_ptr(), buffer.len());
    // SAFETY: as above.
    unsafe { reference_session_append(at, len, used, count, keys.at, keys.len, values.at, values.len, &mut saving) };
    (saving.refusal == 0).then_some(saving.positions)
}
