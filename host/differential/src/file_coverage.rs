//! What the calls of the functions of saved sessions have reached, so that a run that misses something fails.

use crate::files::{by_reference, Answer, FileCall, Function, FUNCTIONS};
use crate::saved::{FIRST, HEAD, LIMITS};
use std::collections::BTreeMap;

/// What a reader meets; inspect, load and append reach each of these.
const FILES: [&str; 23] = [
    "no position",
    "2,048 positions",
    "sizes at their limits",
    "no tail",
    "a tail of fewer than six bytes",
    "such a tail that begins no head",
    "such a tail behind 2,048 positions",
    "a cut payload",
    "a cut payload with a bad element",
    "an empty file",
    "a cut first record",
    "a wrong first head",
    "sizes outside their limits",
    "a wrong length alone",
    "a length wrong above its lower half alone",
    "a wrong kind alone",
    "a kind wrong above its lower byte alone",
    "a record of kind 1",
    "a wrong head of a cut record",
    "a wrong head behind 2,048 positions",
    "a 2,049th position",
    "a bad element of the first position",
    "a bad element of a later position",
];

const LOADS: [&str; 4] =
    ["caches filled", "keys of another length", "values of another length", "another length and a fault of the file"];

const BEGINS: [&str; 4] = ["begun", "sizes refused", "sizes refused in too small a buffer", "a byte too few"];

const APPENDS: [&str; 20] = [
    "used beyond the buffer",
    "used beyond the buffer and a fault of the file",
    "nothing added",
    "nothing added behind a cut record",
    "added behind a cut record",
    "added to just enough room",
    "bytes behind the new end",
    "the 2,048th position",
    "a 2,049th position added",
    "a count that wraps around",
    "1 where 5 applies",
    "keys of another length",
    "values of another length",
    "5 where 9 applies",
    "9 in keys",
    "9 in values",
    "9 in a later one of the added",
    "9 where there is no room",
    "no room",
    "a byte too few",
];

type Is = fn(u32) -> bool;

/// Elements by their bits, in the files that are read and in the rows that are added. The first four are allowed; of the others the first
/// in a position is what refuses it.
const ELEMENTS: [(&str, Is); 10] = [
    ("-0", |bits| bits == 0x8000_0000),
    ("a subnormal", |bits| bits & 0x7F80_0000 == 0 && bits & 0x7F_FFFF != 0),
    ("65,536", |bits| bits == 0x4780_0000),
    ("-65,536", |bits| bits == 0xC780_0000),
    ("the next above 65,536", |bits| bits == 0x4780_0001),
    ("the next below -65,536", |bits| bits == 0xC780_0001),
    ("infinity", |bits| bits == 0x7F80_0000),
    ("minus infinity", |bits| bits == 0xFF80_0000),
    ("a quiet NaN", |bits| bits & 0x7FC0_0000 == 0x7FC0_0000),
    ("a signalling NaN", |bits| bits & 0x7FC0_0000 == 0x7F80_0000 && bits & 0x3F_FFFF != 0),
];

/// What stands among elements that are all allowed, or is the first that is not.
fn of_elements(elements: &[u32]) -> Vec<&'static str> {
    let named = |bits: u32| ELEMENTS.iter().filter(move |(_, is)| is(bits)).map(|(name, _)| *name);
    match elements.iter().find(|bits| bad(**bits)) {
        Some(bits) => named(*bits).collect(),
        None => elements.iter().flat_map(|bits| named(*bits)).collect(),
    }
}

#[derive(Default)]
pub struct Coverage {
    /// Answers by function and number.
    answers: [[u64; 17]; 4],
    cases: BTreeMap<(usize, &'static str), u64>,
    pub calls: u64,
}

fn bad(bits: u32) -> bool {
    let element = f32::from_bits(bits);
    element.is_nan() || element.abs() > 65536.0
}

fn number(bytes: &[u8]) -> u64 {
    bytes.iter().rev().fold(0, |all, byte| all << 8 | u64::from(*byte))
}

/// What a reader meets in a file of which it answers this.
fn of_file(file: &[u8], reading: &Answer) -> Vec<&'static str> {
    if file.len() < FIRST {
        return vec![if file.is_empty() { "an empty file" } else { "a cut first record" }];
    }
    let sizes: [u64; 4] = std::array::from_fn(|n| number(&file[6 + 2 * n..8 + 2 * n]));
    let payload = 4 * sizes[0] * sizes[1] * (sizes[2] + sizes[3]);
    let whole = |place: u64| file.len() as u64 - place >= HEAD as u64 + payload;
    match (reading.refusal, reading.place) {
        (11, 0) => vec!["a wrong first head"],
        (11, place) => {
            let head = &file[place as usize..];
            let (length, kind) = (number(&head[..4]), number(&head[4..6]));
            let positions = (place - FIRST as u64) / (HEAD as u64 + payload);
            let cases = [
                (kind == 2, "a wrong length alone"),
                (kind == 2 && length % 65536 == payload % 65536, "a length wrong above its lower half alone"),
                (length == payload, "a wrong kind alone"),
                (length == payload && kind % 256 == 2, "a kind wrong above its lower byte alone"),
                (kind == 1, "a record of kind 1"),
                (!whole(place), "a wrong head of a cut record"),
                (positions == 2048, "a wrong head behind 2,048 positions"),
            ];
            cases.iter().filter(|(met, _)| *met).map(|(_, case)| *case).collect()
        }
        (1, _) if sizes.iter().zip(LIMITS).any(|(&size, limit)| size == 0 || size > limit) => vec!["sizes outside their limits"],
        (1, _) => vec!["a 2,049th position"],
        (9, 0) => vec!["a bad element of the first position"],
        (9, _) => vec!["a bad element of a later position"],
        _ => {
            let tail = &file[reading.used as usize..];
            let begins = tail.iter().zip((payload as u32).to_le_bytes().iter().chain(&[2, 0])).all(|(a, b)| a == b);
            let short = (1..HEAD).contains(&tail.len());
            let cut = tail.len() >= HEAD;
            let elements = tail.get(HEAD..).unwrap_or(&[]).chunks_exact(4).map(|bytes| number(bytes) as u32);
            let cases = [
                (reading.positions == 0, "no position"),
                (reading.positions == 2048, "2,048 positions"),
                (sizes.iter().zip(LIMITS).any(|(&size, limit)| size == limit), "sizes at their limits"),
                (tail.is_empty(), "no tail"),
                (short, "a tail of fewer than six bytes"),
                (short && !begins, "such a tail that begins no head"),
                (short && reading.positions == 2048, "such a tail behind 2,048 positions"),
                (cut, "a cut payload"),
                (cut && elements.into_iter().any(bad), "a cut payload with a bad element"),
            ];
            cases.iter().filter(|(met, _)| *met).map(|(_, case)| *case).collect()
        }
    }
}

/// The elements of the last whole position of a sound file, or of the one that is refused by 9.
fn read_elements(file: &[u8], reading: &Answer) -> Vec<u32> {
    let position = match reading.refusal {
        0 if reading.positions > 0 => reading.positions - 1,
        9 => reading.place,
        _ => return Vec::new(),
    };
    let record = HEAD + number(&file[FIRST..FIRST + 4]) as usize;
    let payload = &file[FIRST + position as usize * record..][HEAD..record];
    payload.chunks_exact(4).map(|bytes| number(bytes) as u32).collect()
}

fn of_begin(call: &FileCall, answer: &Answer) -> Vec<&'static str> {
    match (answer.refusal, call.bytes.len()) {
        (0, _) => vec!["begun"],
        (1, 0..14) => vec!["sizes refused in too small a buffer"],
        (1, _) => vec!["sizes refused"],
        (_, 13) => vec!["a byte too few"],
        _ => vec![],
    }
}

/// What lends caches or rows of these sizes and so many positions meets in their lengths.
fn wrong_lengths(call: &FileCall, sizes: [u64; 4], positions: u64) -> [bool; 2] {
    let right = |size: u64| (sizes[0] * sizes[1]).wrapping_mul(positions).wrapping_mul(size);
    [call.keys.len() as u64 != right(sizes[2]), call.values.len() as u64 != right(sizes[3])]
}

fn of_load(call: &FileCall, answer: &Answer, reading: &Answer) -> Vec<&'static str> {
    let [keys, values] = wrong_lengths(call, reading.sizes, reading.positions);
    match answer.refusal {
        0 => vec!["caches filled"],
        6 if keys && !values => vec!["keys of another length"],
        6 if values && !keys => vec!["values of another length"],
        6 => vec![],
        _ if !call.keys.is_empty() => vec!["another length and a fault of the file"],
        _ => vec![],
    }
}

fn of_append(call: &FileCall, answer: &Answer, reading: &Answer) -> Vec<&'static str> {
    let ([used, count, ..], there, length) = (call.numbers, reading.positions, call.bytes.len() as u64);
    if used > length {
        let (whole, _) = by_reference(&FileCall::inspect(&call.bytes));
        let fault = (whole.refusal != 0).then_some("used beyond the buffer and a fault of the file");
        return ["used beyond the buffer"].into_iter().chain(fault).collect();
    }
    if reading.refusal != 0 {
        return vec![];
    }
    let [keys, values] = wrong_lengths(call, reading.sizes, count);
    let cut = reading.used < used;
    let [in_keys, in_values] = [&call.keys, &call.values].map(|rows| rows.iter().any(|bits| bad(*bits)));
    let record = HEAD as u64 + 4 * reading.sizes[0] * reading.sizes[1] * (reading.sizes[2] + reading.sizes[3]);
    let end = (reading.used as u128) + u128::from(count) * u128::from(record);
    let lacks = end.saturating_sub(length.into());
    let refusal = answer.refusal;
    let cases = [
        (refusal == 0 && count == 0, "nothing added"),
        (refusal == 0 && count == 0 && cut, "nothing added behind a cut record"),
        (refusal == 0 && count > 0 && cut, "added behind a cut record"),
        (refusal == 0 && count > 0 && end == length.into(), "added to just enough room"),
        (refusal == 0 && count > 0 && end < length.into(), "bytes behind the new end"),
        (refusal == 0 && count > 0 && there + count == 2048, "the 2,048th position"),
        (refusal == 1 && there + count.min(4096) == 2049, "a 2,049th position added"),
        (refusal == 1 && there.wrapping_add(count) <= 2048, "a count that wraps around"),
        (refusal == 1 && (keys || values), "1 where 5 applies"),
        (refusal == 5 && keys && !values, "keys of another length"),
        (refusal == 5 && values && !keys, "values of another length"),
        (refusal == 5 && (in_keys || in_values), "5 where 9 applies"),
        (refusal == 9 && in_keys && !in_values, "9 in keys"),
        (refusal == 9 && in_values && !in_keys, "9 in values"),
        (refusal == 9 && answer.place > there, "9 in a later one of the added"),
        (refusal == 9 && lacks > 0, "9 where there is no room"),
        (refusal == 16, "no room"),
        (refusal == 16 && lacks == 1, "a byte too few"),
    ];
    cases.iter().filter(|(met, _)| *met).map(|(_, case)| *case).collect()
}

impl Coverage {
    pub fn add(&mut self, call: &FileCall, answer: &Answer) {
        let function = call.function as usize;
        self.calls += 1;
        self.answers[function][answer.refusal as usize] += 1;
        let mut cases = Vec::new();
        if call.function == Function::Begin {
            cases = of_begin(call, answer);
        } else {
            let used = if call.function == Function::Append { call.numbers[0] } else { call.bytes.len() as u64 };
            let read = call.bytes.get(..used as usize);
            let file = read.unwrap_or(&[]);
            let (reading, _) = by_reference(&FileCall::inspect(file));
            if read.is_some() {
                cases = of_file(file, &reading);
            }
            match call.function {
                Function::Load => cases.extend(of_load(call, answer, &reading)),
                Function::Append => cases.extend(of_append(call, answer, &reading)),
                _ => {}
            }
            match call.function {
                Function::Append if [0, 9].contains(&answer.refusal) && reading.refusal == 0 => {
                    cases.extend(of_elements(&[&call.keys[..], &call.values].concat()));
                }
                Function::Inspect | Function::Load => cases.extend(of_elements(&read_elements(file, &reading))),
                _ => {}
            }
        }
        for case in cases {
            *self.cases.entry((function, case)).or_default() += 1;
        }
    }

    /// What was never reached.
    pub fn missing(&self) -> Vec<String> {
        let mut missing = Vec::new();
        for function in FUNCTIONS {
            let own: &[&str] = match function {
                Function::Inspect => &[],
                Function::Load => &LOADS,
                Function::Begin => &BEGINS,
                Function::Append => &APPENDS,
            };
            let (files, elements) = (FILES.iter().copied(), ELEMENTS.iter().map(|(name, _)| *name));
            let reads = files.chain(elements).filter(|_| function != Function::Begin);
            for case in reads.chain(own.iter().copied()) {
                if !self.cases.contains_key(&(function as usize, case)) {
                    missing.push(format!("{case} at {function:?}"));
                }
            }
        }
        missing
    }

    pub fn describe(&self) -> String {
        let of = |function: Function| {
            let answers = self.answers[function as usize];
            let refusals: Vec<String> = (1..17).filter(|&n| answers[n] > 0).map(|n| format!("{n}: {}", answers[n])).collect();
            format!("{function:?} {} done, refusals {}", answers[0], refusals.join(", "))
        };
        let least = self.cases.iter().min_by_key(|(_, &count)| count);
        let least = least.map_or(String::new(), |((_, case), count)| format!("; the rarest, '{case}', {count} times"));
        format!("{}; {} cases{least}", FUNCTIONS.map(of).join("; "), self.cases.len())
    }
}

#[cfg(test)]
mod tests {
    use super::*;

    #[test]
    fn every_case_is_missing_at_first() {
        let readers = 3 * (FILES.len() + ELEMENTS.len());
        assert_eq!(Coverage::default().missing().len(), readers + LOADS.len() + BEGINS.len() + APPENDS.len());
    }
}
