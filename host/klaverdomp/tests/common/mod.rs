// What the tests share: a call with buffers of its own, bits, a fixed generator, and a folder for files.
#![allow(dead_code)]

use klaverdomp::{attention, Buffers, Call, Done, Inputs, Refusal};
use std::fs;
use std::path::PathBuf;

/// The answer, and the output tensors afterwards.
pub fn run(call: &Call, inputs: &Inputs) -> (Result<Done, Refusal>, Buffers) {
    let mut buffers = Buffers::new(call);
    let answer = attention(call, inputs, &mut buffers.lend());
    (answer, buffers)
}

/// The tensors of a call that is accepted.
pub fn accepted(call: &Call, inputs: &Inputs) -> (Done, Buffers) {
    let (answer, buffers) = run(call, inputs);
    (answer.expect("the call is accepted"), buffers)
}

/// The number of the refusal.
pub fn refused(call: &Call, inputs: &Inputs) -> Refusal {
    run(call, inputs).0.expect_err("the call is refused")
}

pub fn bits(tensor: &[f32]) -> Vec<u32> {
    tensor.iter().map(|x| x.to_bits()).collect()
}

/// A fixed sequence of numbers (xorshift).
pub struct Generator(u64);

impl Generator {
    pub fn new(seed: u64) -> Generator {
        Generator(seed.wrapping_mul(0x9E37_79B9_7F4A_7C15) | 1)
    }

    pub fn below(&mut self, limit: u64) -> u64 {
        self.0 ^= self.0 << 13;
        self.0 ^= self.0 >> 7;
        self.0 ^= self.0 << 17;
        (self.0 >> 16) % limit
    }

    /// A number from -2 to 2 with a full significand.
    pub fn element(&mut self) -> f32 {
        (self.below(1 << 26) as f32 - (1 << 25) as f32) / (1 << 24) as f32
    }

    pub fn tensor(&mut self, len: usize) -> Vec<f32> {
        (0..len).map(|_| self.element()).collect()
    }
}

/// A path in a folder of its own, which is removed at the end.
pub struct Place(pub PathBuf);

impl Place {
    pub fn new(name: &str) -> Place {
        let folder = std::env::temp_dir().join(format!("klaverdomp-{name}-{}", std::process::id()));
        fs::create_dir_all(&folder).unwrap();
        Place(folder)
    }

    pub fn file(&self) -> PathBuf {
        self.0.join("session")
    }
}

impl Drop for Place {
    fn drop(&mut self) {
        let _ = fs::remove_dir_all(&self.0);
    }
}
