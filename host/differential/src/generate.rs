//! Random calls: every form, rank, grouping, mask, score mode, scale and kind of cap, elements at the limits, and faults,
//! several at once.

use crate::call::*;
use crate::caps::{odd_softcap, random_softcap};
use crate::random::Random;

const TOTAL_LIMIT: u64 = 2048;

/// One call. About half of them have faults.
pub fn random_call(random: &mut Random) -> Call {
    let record = random_record(random);
    let faults = random_faults(random);
    let late_only = random.once_in(2);
    let changed = change_record(random, &record, if late_only { 0 } else { faults });
    let mut call = call_of(random, &changed, &lengths_near(&changed, &record));
    for _ in 0..faults {
        add_fault(random, &mut call, late_only);
    }
    call
}

/// How many faults a call has: none in half of them.
pub fn random_faults(random: &mut Random) -> u64 {
    match random.below(10) {
        0..=4 => 0,
        5..=7 => 1,
        _ => random.between(2, 5),
    }
}

/// A call of this record with tensors of these lengths.
pub fn call_of(random: &mut Random, record: &Record, lengths: &Lengths) -> Call {
    Call {
        record: record.numbers().to_vec(),
        scale: random_scale(random),
        softcap: random_softcap(random),
        inputs: random_inputs(random, record, lengths),
        outputs: random_outputs(random, lengths),
    }
}

// ---- the record

pub fn random_size(random: &mut Random, limit: u64) -> u64 {
    match random.below(9) {
        0..=2 => 1,
        3 | 4 => random.between(1, limit.min(4)),
        5 => random.between(1, limit.min(17)),
        6 => random.between(1, limit),
        // At and beside a power of two, where a block of a loop ends.
        7 => (random.pick(&[4, 8, 16, 32, 64, 128, 256, 512, 1024]) + random.below(3) - 1).min(limit),
        _ => limit,
    }
}

/// How many products a call may cost. Most calls are tiny.
pub fn random_budget(random: &mut Random) -> u64 {
    match random.below(1000) {
        0..=899 => 2_000,
        900..=993 => 60_000,
        994..=998 => 1_000_000,
        _ => 8_000_000,
    }
}

fn random_record(random: &mut Random) -> Record {
    let budget = random_budget(random);
    let form = random.below(3);
    let mut sizes = [8, 32, 2048, 2048, 2048, 256, 256].map(|limit| random_size(random, limit));
    if form != CACHED || random.once_in(4) {
        sizes[4] = 0;
    }
    sized_record(random, form, sizes, budget)
}

/// A record of this form. B, Hq, Sq, Sk, P, D, Dv are halved one at a time until the call is within its budget.
pub fn sized_record(random: &mut Random, form: u64, mut sizes: [u64; 7], budget: u64) -> Record {
    loop {
        let [batches, heads, queries, keys, past, size, value_size] = sizes;
        let total = keys + past;
        let cost = batches * heads * (queries * total + queries + total) * (size + value_size);
        if cost <= budget && total <= TOTAL_LIMIT {
            break;
        }
        if total > TOTAL_LIMIT && random.once_in(2) {
            // Exactly at the limit, if the budget allows it.
            sizes[4] = TOTAL_LIMIT - keys.min(TOTAL_LIMIT);
            if form != CACHED {
                sizes[4] = 0;
            }
            continue;
        }
        let at = random.index(sizes.len());
        sizes[at] = (sizes[at] / 2).max(if at == 4 { 0 } else { 1 });
    }
    let [batches, query_heads, query_length, key_length, past, size, value_size] = sizes;
    let divisors: Vec<u64> = (1..=query_heads).filter(|n| query_heads % n == 0).collect();
    let full = [batches, query_heads, query_length, past + key_length];
    Record {
        form,
        mask_kind: random.below(3),
        scale_kind: random.below(2),
        score_mode: random.pick(&[0, 1, 2, 3, NO_SCORES]),
        rank: random.between(3, 4),
        causal: random.below(2),
        batches,
        query_heads,
        key_heads: random.pick(&divisors),
        query_length,
        key_length,
        past,
        size,
        value_size,
        mask_dims: full.map(|whole| if random.once_in(2) { 1 } else { whole }),
    }
}

fn random_scale(random: &mut Random) -> u32 {
    match random.below(8) {
        0 => 1,
        1 => 1024f32.to_bits(),
        2 => 1f32.to_bits(),
        3 => random.between(1, u64::from(1024f32.to_bits())) as u32,
        4 => (random.fraction() * 1024.0 + f32::MIN_POSITIVE).to_bits(),
        _ => (random.fraction() + 0.001).to_bits(),
    }
}

// ---- elements

/// How the elements of one tensor are chosen.
#[derive(Clone, Copy)]
enum Style {
    Unit,
    Wide,
    Whole,
    Same(u32),
    Limits,
    Zeros,
    Subnormal,
    AnyExponent,
    Mixed,
}

fn random_style(random: &mut Random) -> Style {
    match random.below(16) {
        0..=6 => Style::Unit,
        7 => Style::Wide,
        8 | 9 => Style::Whole,
        10 => Style::Same(element(random, Style::Whole)),
        11 => Style::Limits,
        12 => Style::Zeros,
        13 => Style::Subnormal,
        14 => Style::AnyExponent,
        _ => Style::Mixed,
    }
}

/// An element of magnitude at most 65,536.
fn element(random: &mut Random, style: Style) -> u32 {
    let sign = random.bits32() & 0x8000_0000;
    match style {
        Style::Unit => (random.fraction() * 2.0 - 1.0).to_bits(),
        Style::Wide => (random.fraction() * 60.0 - 30.0).to_bits(),
        Style::Whole => (random.below(4) as f32).to_bits() | sign,
        Style::Same(bits) => bits,
        Style::Limits => random.pick(&[65536f32, 65535.996, 32768.0]).to_bits() | sign,
        Style::Zeros => sign,
        Style::Subnormal => random.below(0x0080_0000) as u32 | sign,
        Style::AnyExponent => random.between(0, u64::from(65536f32.to_bits())) as u32 | sign,
        Style::Mixed => {
            let style = random.pick(&[
                Style::Unit, Style::Wide, Style::Whole, Style::Limits, Style::Zeros, Style::Subnormal, Style::AnyExponent,
            ]);
            element(random, style)
        }
    }
}

pub fn elements(random: &mut Random, length: usize) -> Vec<u32> {
    let style = random_style(random);
    (0..length).map(|_| element(random, style)).collect()
}

fn bool_mask(random: &mut Random, length: usize) -> Vec<u8> {
    let ones = random.pick(&[0, 1, 4, 7, 8]);
    (0..length).map(|_| u8::from(random.below(8) < ones)).collect()
}

fn float_mask(random: &mut Random, length: usize) -> Vec<u32> {
    let infinite = random.pick(&[0, 0, 1, 4, 7, 8]);
    let style = random.below(5);
    (0..length)
        .map(|_| {
            if random.below(8) < infinite {
                return f32::NEG_INFINITY.to_bits();
            }
            let extreme = [f32::MIN, f32::MAX, -0.0, 0.0, 1e-45, -1e-45, -1e30, 65536.0];
            match style {
                0 => element(random, Style::Zeros),
                1 => element(random, Style::Wide),
                2 => random.pick(&extreme).to_bits(),
                3 => random.pick(&[f32::MIN, f32::MAX, 0.0]).to_bits(),
                _ => random.below(0x7F80_0000) as u32 | (random.bits32() & 0x8000_0000),
            }
        })
        .collect()
}

fn live_counts(random: &mut Random, record: &Record, length: usize) -> Vec<i64> {
    let total = record.past.saturating_add(record.key_length).min(1 << 40);
    (0..length)
        .map(|_| match random.below(4) {
            0 => 0,
            1 => total as i64,
            _ => random.between(0, total) as i64,
        })
        .collect()
}

fn random_inputs(random: &mut Random, record: &Record, lengths: &Lengths) -> Inputs {
    let mut inputs = Inputs {
        query: elements(random, lengths.query),
        key: elements(random, lengths.key),
        value: elements(random, lengths.value),
        bool_mask: bool_mask(random, lengths.bool_mask),
        float_mask: float_mask(random, lengths.float_mask),
        past_key: elements(random, lengths.past_key),
        past_value: elements(random, lengths.past_value),
        live: live_counts(random, record, lengths.live),
    };
    if random.once_in(32) {
        products_of_minus_zero(random, &mut inputs);
    }
    if record.form == COUNTED && random.once_in(2) {
        for tensor in [true, false] {
            let (elements, size) =
                if tensor { (&mut inputs.key, record.size) } else { (&mut inputs.value, record.value_size) };
            fill_padded(random, record, &inputs.live, elements, size);
        }
    }
    inputs
}

/// Every product of a query and a key is -0: their signs differ, and the queries are zeros, or both are subnormal numbers.
fn products_of_minus_zero(random: &mut Random, inputs: &mut Inputs) {
    let (sign, zeros) = (random.bits32() & 0x8000_0000, random.once_in(2));
    let style = if zeros { Style::Zeros } else { Style::Subnormal };
    for bits in &mut inputs.query {
        *bits = element(random, style) & 0x7FFF_FFFF | sign;
    }
    for bits in inputs.key.iter_mut().chain(&mut inputs.past_key) {
        let key = if zeros { *bits } else { element(random, style) };
        *bits = key & 0x7FFF_FFFF | (sign ^ 0x8000_0000);
    }
}

/// Any bits at all at the padded positions.
fn fill_padded(random: &mut Random, record: &Record, live: &[i64], elements: &mut [u32], size: u64) {
    let (heads, length) = (record.key_heads, record.key_length);
    if elements.len() as u64 != [record.batches, heads, length, size].iter().fold(1, |n: u64, &m| n.saturating_mul(m)) {
        return;
    }
    for (at, bits) in elements.iter_mut().enumerate() {
        let at = at as u64;
        let batch = at / (heads * length * size);
        let position = if record.rank == 3 { at / (heads * size) % length } else { at / size % length };
        if live.get(batch as usize).is_some_and(|&count| position as i64 >= count) {
            *bits = match random.below(3) {
                0 => random.bits32(),
                1 => 0x7F80_0000 | random.bits32(),
                _ => f32::INFINITY.to_bits(),
            };
        }
    }
}

fn random_bits(random: &mut Random, length: usize) -> Vec<u32> {
    let often_nan = random.once_in(2);
    (0..length).map(|_| if often_nan { random.bits32() | 0x7F80_0000 } else { random.bits32() }).collect()
}

fn random_outputs(random: &mut Random, lengths: &Lengths) -> Outputs {
    Outputs {
        output: random_bits(random, lengths.output),
        present_key: random_bits(random, lengths.present_key),
        present_value: random_bits(random, lengths.present_value),
        scores: random_bits(random, lengths.scores),
        work: random_bits(random, lengths.work),
    }
}

// ---- faults

/// The lengths of the changed record where they are small, else those of the record before the change.
pub fn lengths_near(changed: &Record, before: &Record) -> Lengths {
    let small = |record: &Record| {
        let l = record.lengths();
        let all = l.query + l.key + l.value + l.bool_mask + l.float_mask + l.past_key + l.past_value + l.live;
        all + l.output + l.present_key + l.present_value + l.scores + l.work <= 1 << 15
    };
    if changed == before || small(changed) { changed.lengths() } else { before.lengths() }
}

pub fn odd_number(random: &mut Random, now: u64) -> u64 {
    match random.below(6) {
        0 => random.pick(&[0, 1, 2, 3, 4, 5, 6, 7, 8, 9]),
        1 => random.pick(&[32, 33, 254, 255, 256, 257, 2047, 2048, 2049, 65536]),
        2 => random.pick(&[1 << 31, 1 << 32, 1 << 48, 1 << 62, 1 << 63, u64::MAX, u64::MAX - 1]),
        3 => now.wrapping_add(random.pick(&[1 << 8, 1 << 16, 1 << 31, 1 << 32, 1 << 63])),
        4 => now.wrapping_add(random.pick(&[1, u64::MAX, 2])),
        _ => random.bits64(),
    }
}

/// The record with up to `faults` of its numbers changed. Some of the changes are not faults.
fn change_record(random: &mut Random, record: &Record, faults: u64) -> Record {
    let mut numbers = record.numbers();
    for _ in 0..faults {
        if random.once_in(2) {
            continue;
        }
        match random.below(6) {
            // P so large that P + Sk wraps around to a small number, or just past the limit.
            0 => numbers[11] = random.below(2048).wrapping_sub(numbers[10]),
            1 => numbers[11] = (TOTAL_LIMIT + 1).wrapping_sub(numbers[10]),
            2 => numbers[random.index(6)] = random.below(7),
            3 => numbers[14 + random.index(4)] = random.below(4),
            4 => numbers[8] = random.between(1, 33),
            _ => {
                let at = random.index(numbers.len());
                numbers[at] = odd_number(random, numbers[at]);
            }
        }
    }
    Record::from_numbers(&numbers)
}

fn resize<T: Copy>(random: &mut Random, tensor: &mut Vec<T>, fill: T) {
    match random.below(5) {
        0 | 1 => tensor.push(fill),
        2 => {
            tensor.pop();
        }
        3 => tensor.clear(),
        _ => {
            let more = random.between(1, 9) as usize;
            tensor.resize(tensor.len() + more, fill)
        }
    }
}

/// Another length for a tensor that is lent to the entry.
pub fn change_length(random: &mut Random, call: &mut Call, entry: Entry) {
    let fill = random.pick(&[0, 1f32.to_bits(), 0x7FC0_1234]);
    let (i, o) = (&mut call.inputs, &mut call.outputs);
    let tensor = match entry {
        Entry::General => random.below(13),
        // No mask, live counts or scores.
        Entry::Step => random.pick(&[0, 1, 2, 5, 6, 8, 9, 10, 12]),
    };
    match tensor {
        0 => resize(random, &mut i.query, fill),
        1 => resize(random, &mut i.key, fill),
        2 => resize(random, &mut i.value, fill),
        3 => resize(random, &mut i.bool_mask, 1),
        4 => resize(random, &mut i.float_mask, fill),
        5 => resize(random, &mut i.past_key, fill),
        6 => resize(random, &mut i.past_value, fill),
        7 => resize(random, &mut i.live, 1),
        8 => resize(random, &mut o.output, fill),
        9 => resize(random, &mut o.present_key, fill),
        10 => resize(random, &mut o.present_value, fill),
        11 => resize(random, &mut o.scores, fill),
        _ => resize(random, &mut o.work, fill),
    }
}

fn odd_element(random: &mut Random) -> u32 {
    let sign = random.bits32() & 0x8000_0000;
    match random.below(6) {
        0 => sign | 0x7F80_0001 | (random.bits32() & 0x007F_FFFF),
        1 => sign | 0x7F80_0000,
        2 | 3 => sign | (65536.0078125f32).to_bits(),
        4 => sign | f32::MAX.to_bits(),
        _ => random.bits32(),
    }
}

fn put<T: Copy>(random: &mut Random, tensor: &mut [T], cell: T) {
    if !tensor.is_empty() {
        let at = match random.below(4) {
            0 => 0,
            1 => tensor.len() - 1,
            _ => random.index(tensor.len()),
        };
        tensor[at] = cell;
    }
}

/// A fault in what refusals 7 to 9, or at the step entry refusal 9, look at.
pub fn add_late_fault(random: &mut Random, call: &mut Call, entry: Entry) {
    let total = call.decoded().past.saturating_add(call.decoded().key_length).min(1 << 40) as i64;
    let bits = odd_element(random);
    let i = &mut call.inputs;
    let tensor = match entry {
        Entry::General => random.below(9),
        // No mask or live counts.
        Entry::Step => random.between(4, 8),
    };
    match tensor {
        0 | 1 => {
            let count = random.pick(&[-1, total + 1, i64::MIN, i64::MAX, total + (1 << 32), -total, total]);
            put(random, &mut i.live, count);
        }
        2 => {
            let byte = random.between(2, 255) as u8;
            put(random, &mut i.bool_mask, byte);
        }
        3 => {
            let cell = random.pick(&[f32::INFINITY.to_bits(), 0x7F80_0001 | (bits & 0x807F_FFFF), bits]);
            put(random, &mut i.float_mask, cell);
        }
        4 => put(random, &mut i.query, bits),
        5 => put(random, &mut i.key, bits),
        6 => put(random, &mut i.value, bits),
        7 => put(random, &mut i.past_key, bits),
        _ => put(random, &mut i.past_value, bits),
    }
}

/// A scale that is not allowed.
pub fn odd_scale(random: &mut Random) -> u32 {
    let nan = 0x7F80_0001 | random.bits32();
    random.pick(&[
        0, 0x8000_0000, 0x8000_0001, (-1f32).to_bits(), nan, f32::INFINITY.to_bits(), 1024f32.to_bits() + 1,
        f32::MAX.to_bits(), f32::NEG_INFINITY.to_bits(),
    ])
}

/// A record of another length than 18.
pub fn change_record_length(random: &mut Random, call: &mut Call) {
    let length = random.pick(&[0, 1, 17, 19, 36]);
    call.record.resize(length, 1);
}

fn add_fault(random: &mut Random, call: &mut Call, late_only: bool) {
    if late_only {
        return add_late_fault(random, call, Entry::General);
    }
    match random.below(11) {
        0..=2 => change_length(random, call, Entry::General),
        3..=6 => add_late_fault(random, call, Entry::General),
        7 => call.scale = odd_scale(random),
        8 => call.softcap = odd_softcap(random),
        9 if random.once_in(4) => change_record_length(random, call),
        9 => {}
        _ => {
            let at = random.index(call.record.len().max(1));
            if let Some(number) = call.record.get_mut(at) {
                *number = odd_number(random, *number);
            }
        }
    }
}
