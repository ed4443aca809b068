//! The functions of saved sessions, the library's and the reference's, behind two safe functions. Every pointer comes from a slice
//! that lives through the call.

use crate::files::{Answer, Function};

mod library {
    extern "C" {
        pub fn klaverdomp_session_inspect_1(
            file: *const u8,
            file_len: usize,
            batches: *mut u64,
            key_heads: *mut u64,
            head_size: *mut u64,
            value_size: *mut u64,
            positions: *mut u64,
            used: *mut u64,
            place: *mut u64,
        ) -> u32;
        pub fn klaverdomp_session_load_1(
            file: *const u8,
            file_len: usize,
            keys: *mut f32,
            keys_len: usize,
            values: *mut f32,
            values_len: usize,
            batches: *mut u64,
            key_heads: *mut u64,
            head_size: *mut u64,
            value_size: *mut u64,
            positions: *mut u64,
            used: *mut u64,
            place: *mut u64,
        ) -> u32;
        pub fn klaverdomp_session_begin_1(
            buffer: *mut u8,
            buffer_len: usize,
            batches: u64,
            key_heads: u64,
            head_size: u64,
            value_size: u64,
            positions: *mut u64,
            used: *mut u64,
            place: *mut u64,
        ) -> u32;
        pub fn klaverdomp_session_append_1(
            buffer: *mut u8,
            buffer_len: usize,
            used: u64,
            count: u64,
            keys: *const f32,
            keys_len: usize,
            values: *const f32,
            values_len: usize,
            positions: *mut u64,
            used_after: *mut u64,
            place: *mut u64,
        ) -> u32;
    }
}

mod reference {
    /// `struct reference_reading`.
    #[repr(C)]
    #[derive(Default)]
    pub struct Reading {
        pub refusal: u64,
        pub place: u64,
        pub sizes: [u64; 4],
        pub positions: u64,
        pub used: u64,
    }

    /// `struct reference_saving`.
    #[repr(C)]
    #[derive(Default)]
    pub struct Saving {
        pub refusal: u64,
        pub place: u64,
        pub positions: u64,
        pub used: u64,
    }

    extern "C" {
        pub fn reference_session_inspect(file: *const u8, file_len: usize, answer: *mut Reading);
        pub fn reference_session_load(
            file: *const u8,
            file_len: usize,
            keys: *mut f32,
            keys_len: usize,
            values: *mut f32,
            values_len: usize,
            answer: *mut Reading,
        );
        pub fn reference_session_begin(
            buffer: *mut u8,
            buffer_len: usize,
            batches: u64,
            key_heads: u64,
            head_size: u64,
            value_size: u64,
            answer: *mut Saving,
        );
        pub fn reference_session_append(
            buffer: *mut u8,
            buffer_len: usize,
            used: u64,
            count: u64,
            keys: *const f32,
            keys_len: usize,
            values: *const f32,
            values_len: usize,
            answer: *mut Saving,
        );
    }
}

/// What is lent to any of the functions, wherever it lies. The numbers are the sizes of a begin, or `used` and `count` of an append.
pub struct Lent<'a> {
    pub bytes: &'a mut [u8],
    pub keys: &'a mut [u32],
    pub values: &'a mut [u32],
    pub numbers: [u64; 4],
}

fn floats(bits: &mut [u32]) -> (*mut f32, usize) {
    (bits.as_mut_ptr().cast(), bits.len())
}

/// The library's function. The slots, each of which stands where it is lent, are the four sizes, which only the readers write, the
/// positions, the bytes used and the place; the result is the number of the refusal, 0 for done.
pub fn library(function: Function, lent: Lent, slots: [&mut u64; 7]) -> u32 {
    use library::*;
    let [batches, key_heads, head_size, value_size, positions, used, place] = slots;
    let (bytes, len) = (lent.bytes.as_mut_ptr(), lent.bytes.len());
    let ((keys, keys_len), (values, values_len)) = (floats(lent.keys), floats(lent.values));
    let [first, second, third, fourth] = lent.numbers;
    unsafe {
        match function {
            Function::Inspect => {
                klaverdomp_session_inspect_1(bytes, len, batches, key_heads, head_size, value_size, positions, used, place)
            }
            Function::Load => klaverdomp_session_load_1(
                bytes, len, keys, keys_len, values, values_len, batches, key_heads, head_size, value_size, positions, used, place,
            ),
            Function::Begin => klaverdomp_session_begin_1(bytes, len, first, second, third, fourth, positions, used, place),
            Function::Append => {
                klaverdomp_session_append_1(bytes, len, first, second, keys, keys_len, values, values_len, positions, used, place)
            }
        }
    }
}

/// The reference's function.
pub fn reference(function: Function, lent: Lent) -> Answer {
    use reference::*;
    let (mut reading, mut saving) = (Reading::default(), Saving::default());
    let (bytes, len) = (lent.bytes.as_mut_ptr(), lent.bytes.len());
    let ((keys, keys_len), (values, values_len)) = (floats(lent.keys), floats(lent.values));
    let [first, second, third, fourth] = lent.numbers;
    unsafe {
        match function {
            Function::Inspect => reference_session_inspect(bytes, len, &mut reading),
            Function::Load => reference_session_load(bytes, len, keys, keys_len, values, values_len, &mut reading),
            Function::Begin => reference_session_begin(bytes, len, first, second, third, fourth, &mut saving),
            Function::Append => {
                reference_session_append(bytes, len, first, second, keys, keys_len, values, values_len, &mut saving)
            }
        }
    }
    match function {
        Function::Inspect | Function::Load => {
            let Reading { refusal, place, sizes, positions, used } = reading;
            Answer { refusal, place, sizes, positions, used }
        }
        Function::Begin | Function::Append => {
            let Saving { refusal, place, positions, used } = saving;
            Answer { refusal, place, sizes: [0; 4], positions, used }
        }
    }
}
