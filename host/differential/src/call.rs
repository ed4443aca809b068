//! A call as a caller has it: the record, the lent tensors and the answer. Floats are kept as their bits, so that a
//! NaN's payload is compared too.

pub const PLAIN: u64 = 0;
pub const CACHED: u64 = 1;
pub const COUNTED: u64 = 2;
pub const NO_MASK: u64 = 0;
pub const BOOLEAN: u64 = 1;
pub const FLOAT: u64 = 2;
pub const ABSENT: u64 = 0;
pub const GIVEN: u64 = 1;
pub const NO_SCORES: u64 = 255;

/// Where a call is made.
#[derive(Clone, Copy, Debug, PartialEq)]
pub enum Entry {
    General,
    /// Lends no masks, live counts and scores.
    Step,
}

/// The record's numbers by name, in the order in which they are handed over.
#[derive(Clone, Copy, Debug, Default, PartialEq)]
pub struct Record {
    pub form: u64,
    pub mask_kind: u64,
    pub scale_kind: u64,
    pub score_mode: u64,
    pub rank: u64,
    pub causal: u64,
    pub batches: u64,
    pub query_heads: u64,
    pub key_heads: u64,
    pub query_length: u64,
    pub key_length: u64,
    pub past: u64,
    pub size: u64,
    pub value_size: u64,
    pub mask_dims: [u64; 4],
}

pub const RECORD_LENGTH: usize = 18;

/// The step profile: where its numbers stand in the record, their names and what they are.
pub const PROFILE: [(usize, &str, u64); 8] = [
    (0, "form", CACHED), (1, "mask kind", NO_MASK), (3, "score mode", NO_SCORES), (4, "rank", 4), (5, "causal", 1), (6, "B", 1),
    (9, "Sq", 1), (10, "Sk", 1),
];

impl Record {
    pub fn numbers(&self) -> [u64; RECORD_LENGTH] {
        let m = self.mask_dims;
        [
            self.form, self.mask_kind, self.scale_kind, self.score_mode, self.rank, self.causal, self.batches,
            self.query_heads, self.key_heads, self.query_length, self.key_length, self.past, self.size,
            self.value_size, m[0], m[1], m[2], m[3],
        ]
    }

    pub fn from_numbers(n: &[u64; RECORD_LENGTH]) -> Record {
        Record {
            form: n[0], mask_kind: n[1], scale_kind: n[2], score_mode: n[3], rank: n[4], causal: n[5], batches: n[6],
            query_heads: n[7], key_heads: n[8], query_length: n[9], key_length: n[10], past: n[11], size: n[12],
            value_size: n[13], mask_dims: [n[14], n[15], n[16], n[17]],
        }
    }

    /// T, for a record whose numbers are within their limits.
    pub fn total(&self) -> u64 {
        self.past + self.key_length
    }

    /// The right lengths of the lent tensors, where every product is small; numbers beyond that count as 0.
    pub fn lengths(&self) -> Lengths {
        let product = |factors: &[u64]| -> usize {
            let full = factors.iter().try_fold(1u64, |whole, &factor| whole.checked_mul(factor));
            full.filter(|&n| n <= 1 << 24).unwrap_or(0) as usize
        };
        let only = |used: bool, length: usize| if used { length } else { 0 };
        let total = self.past.saturating_add(self.key_length);
        let cells = product(&self.mask_dims);
        let cached = self.form == CACHED;
        let (keys, values) = ([self.batches, self.key_heads, self.size], [self.batches, self.key_heads, self.value_size]);
        let cache = |heads: &[u64; 3], length: u64| product(&[heads[0], heads[1], heads[2], length]);
        Lengths {
            query: product(&[self.batches, self.query_heads, self.query_length, self.size]),
            key: cache(&keys, self.key_length),
            value: cache(&values, self.key_length),
            bool_mask: only(self.mask_kind == BOOLEAN, cells),
            float_mask: only(self.mask_kind == FLOAT, cells),
            past_key: only(cached, cache(&keys, self.past)),
            past_value: only(cached, cache(&values, self.past)),
            live: only(self.form == COUNTED, product(&[self.batches])),
            output: product(&[self.batches, self.query_heads, self.query_length, self.value_size]),
            present_key: only(cached, cache(&keys, total)),
            present_value: only(cached, cache(&values, total)),
            scores: only(self.score_mode != NO_SCORES, product(&[self.batches, self.query_heads, self.query_length, total])),
            work: product(&[total]),
        }
    }
}

pub struct Lengths {
    pub query: usize,
    pub key: usize,
    pub value: usize,
    pub bool_mask: usize,
    pub float_mask: usize,
    pub past_key: usize,
    pub past_value: usize,
    pub live: usize,
    pub output: usize,
    pub present_key: usize,
    pub present_value: usize,
    pub scores: usize,
    pub work: usize,
}

#[derive(Clone, Default, PartialEq)]
pub struct Inputs {
    pub query: Vec<u32>,
    pub key: Vec<u32>,
    pub value: Vec<u32>,
    pub bool_mask: Vec<u8>,
    pub float_mask: Vec<u32>,
    pub past_key: Vec<u32>,
    pub past_value: Vec<u32>,
    pub live: Vec<i64>,
}

#[derive(Clone, Default, PartialEq)]
pub struct Outputs {
    pub output: Vec<u32>,
    pub present_key: Vec<u32>,
    pub present_value: Vec<u32>,
    pub scores: Vec<u32>,
    pub work: Vec<u32>,
}

impl Outputs {
    pub fn named(&self) -> [(&'static str, &Vec<u32>); 5] {
        [
            ("output", &self.output),
            ("present key", &self.present_key),
            ("present value", &self.present_value),
            ("scores", &self.scores),
            ("work row", &self.work),
        ]
    }
}

/// One call before it is made. The record is a list, since a list of another length than 18 is a call too.
#[derive(Clone)]
pub struct Call {
    pub record: Vec<u64>,
    pub scale: u32,
    pub softcap: u32,
    pub inputs: Inputs,
    pub outputs: Outputs,
}

impl Call {
    /// The record that the numbers are; another number of numbers than 18 counts as 18 zeros.
    pub fn decoded(&self) -> Record {
        match <&[u64; RECORD_LENGTH]>::try_from(self.record.as_slice()) {
            Ok(numbers) => Record::from_numbers(numbers),
            Err(_) => Record::default(),
        }
    }

    /// Which numbers of the record are not those of the step profile, as places in `PROFILE`; all of them where there are not 18.
    pub fn off_profile(&self) -> Vec<usize> {
        let whole = self.record.len() == RECORD_LENGTH;
        (0..PROFILE.len()).filter(|&n| !whole || self.record[PROFILE[n].0] != PROFILE[n].2).collect()
    }

    /// The call's parameters and lengths, for a report.
    pub fn describe(&self) -> String {
        let (i, o) = (&self.inputs, &self.outputs);
        format!(
            "{:?}\n  numbers {:?}, scale bits {:08X} ({:e}), softcap bits {:08X} ({:e})\n  lengths: query {} key {} value {} \
             boolean mask {} float mask {} past key {} past value {} live {:?}; output {} present key {} present value {} \
             scores {} work {}",
            self.decoded(), self.record, self.scale, f32::from_bits(self.scale), self.softcap, f32::from_bits(self.softcap),
            i.query.len(), i.key.len(), i.value.len(), i.bool_mask.len(), i.float_mask.len(), i.past_key.len(),
            i.past_value.len(), i.live, o.output.len(), o.present_key.len(), o.present_value.len(), o.scores.len(), o.work.len()
        )
    }
}

#[derive(Clone, Copy, Debug, Default, PartialEq)]
pub struct Answer {
    pub refusal: u64,
    pub tensor: u64,
    pub index: u64,
    pub total: u64,
    pub masked: u64,
}
