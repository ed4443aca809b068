//! The scope document's examples A to M and examples of the dot product and the score cap, made by the library and by the
//! reference.

use crate::call::*;
use crate::compare::{compare, Memory};
use crate::ffi;
use crate::random::Random;

/// One batch, one head, D = Dv = 1, scale 1, rank 4, plain, no mask, weights shown.
fn small(query: &[f32], key: &[f32], value: &[f32]) -> (Record, Inputs) {
    let bits = |floats: &[f32]| floats.iter().map(|x| x.to_bits()).collect::<Vec<_>>();
    let record = Record {
        scale_kind: GIVEN,
        score_mode: 3,
        rank: 4,
        batches: 1,
        query_heads: 1,
        key_heads: 1,
        query_length: query.len() as u64,
        key_length: key.len() as u64,
        size: 1,
        value_size: 1,
        ..Record::default()
    };
    (record, Inputs { query: bits(query), key: bits(key), value: bits(value), ..Inputs::default() })
}

struct Examples {
    memory: Memory,
    random: Random,
    made: u64,
}

struct Shown {
    answer: Answer,
    output: Vec<f32>,
    present_key: Vec<f32>,
    present_value: Vec<f32>,
    scores: Vec<f32>,
    work: Vec<f32>,
}

impl Examples {
    fn make(&mut self, record: Record, inputs: Inputs) -> Result<Shown, String> {
        self.make_lending(Entry::General, record, inputs, &record.lengths())
    }

    /// What is lent for writing has these lengths.
    fn make_lending(&mut self, entry: Entry, record: Record, inputs: Inputs, lengths: &Lengths) -> Result<Shown, String> {
        self.make_capped(entry, record, 0, inputs, lengths)
    }

    /// The same with a cap.
    fn make_capped(
        &mut self, entry: Entry, record: Record, softcap: u32, inputs: Inputs, lengths: &Lengths,
    ) -> Result<Shown, String> {
        let mut noise = |length: usize| (0..length).map(|_| self.random.bits32()).collect::<Vec<_>>();
        let outputs = Outputs {
            output: noise(lengths.output),
            present_key: noise(lengths.present_key),
            present_value: noise(lengths.present_value),
            scores: noise(lengths.scores),
            work: noise(lengths.work),
        };
        let call = Call { record: record.numbers().to_vec(), scale: 1f32.to_bits(), softcap, inputs, outputs };
        let left = compare(&mut self.memory, &call, entry, &mut self.random);
        let left = left.map_err(|text| format!("{text}\n  {}", call.describe()))?;
        let floats = |bits: &[u32]| bits.iter().map(|&b| f32::from_bits(b)).collect();
        self.made += 1;
        Ok(Shown {
            answer: left.answer,
            output: floats(&left.outputs.output),
            present_key: floats(&left.outputs.present_key),
            present_value: floats(&left.outputs.present_value),
            scores: floats(&left.outputs.scores),
            work: floats(&left.outputs.work),
        })
    }
}

fn expect(name: &str, holds: bool) -> Result<(), String> {
    if holds { Ok(()) } else { Err(format!("example {name} does not come out as the documents have it")) }
}

/// The same bits, so that -0 differs from +0.
fn same(shown: &[f32], wanted: &[f32]) -> bool {
    shown.iter().map(|x| x.to_bits()).eq(wanted.iter().map(|x| x.to_bits()))
}

fn done(total: u64, masked: u64) -> Answer {
    Answer { total, masked, ..Answer::default() }
}

fn refused(refusal: u64, tensor: u64, index: u64) -> Answer {
    Answer { refusal, tensor, index, ..Answer::default() }
}

fn masked(form: (Record, Inputs), cells: &[u8]) -> (Record, Inputs) {
    let (record, inputs) = form;
    let record = Record { mask_kind: BOOLEAN, mask_dims: [1, 1, 1, cells.len() as u64], ..record };
    (record, Inputs { bool_mask: cells.to_vec(), ..inputs })
}

/// A to F.
fn values(e: &mut Examples) -> Result<(), String> {
    let (record, inputs) = small(&[2.0], &[3.0], &[5.0]);
    for (score_mode, score) in [(0, 6.0), (1, 6.0), (2, 6.0), (3, 1.0)] {
        let a = e.make(Record { score_mode, ..record }, inputs.clone())?;
        let right = same(&a.output, &[5.0]) && same(&a.scores, &[score]) && same(&a.work, &[1.0]);
        expect("A", right && a.answer == done(1, 0))?;
    }
    let two = || small(&[1.0], &[3.0, 3.0], &[2.0, 4.0]);
    let (record, inputs) = two();
    let b = e.make(record, inputs)?;
    expect("B", same(&b.output, &[3.0]) && same(&b.work, &[0.5, 0.5]) && b.answer == done(2, 0))?;
    for (cells, output, rows) in [([0, 0], 0.0, 1), ([1, 0], 2.0, 0)] {
        let (record, inputs) = masked(two(), &cells);
        let c = e.make(record, inputs)?;
        expect("C", same(&c.output, &[output]) && c.answer == done(2, rows))?;
    }
    let (record, inputs) = small(&[1.0, 1.0], &[1.0, 1.0], &[6.0, 12.0]);
    let d = e.make(Record { causal: 1, ..record }, inputs)?;
    expect("D", same(&d.output, &[6.0, 9.0]) && d.answer == done(2, 0))?;
    let (record, mut inputs) = small(&[1.0], &[1.0], &[12.0]);
    inputs.past_key = vec![1f32.to_bits()];
    inputs.past_value = vec![6f32.to_bits()];
    let record = Record { causal: 1, form: CACHED, past: 1, ..record };
    let step = e.make(record, inputs.clone())?;
    let presents = same(&step.present_key, &[1.0, 1.0]) && same(&step.present_value, &[6.0, 12.0]);
    expect("E", same(&step.output, &[9.0]) && presents && step.answer == done(2, 0))?;
    step_entry(e, Record { score_mode: NO_SCORES, ..record }, inputs)?;
    let (record, inputs) = small(&[1.0], &[100.0, 0.0], &[8.0, 9.0]);
    let f = e.make(record, inputs)?;
    expect("F", same(&f.output, &[8.0]) && same(&f.work, &[1.0, 0.0]))?;
    let (record, inputs) = small(&[1.0], &[83.0, 0.0], &[8.0, 9.0]);
    expect("F", e.make(record, inputs)?.work[1] > 0.0)
}

/// E at the step entry, and with each number of the profile another one.
fn step_entry(e: &mut Examples, record: Record, inputs: Inputs) -> Result<(), String> {
    let step = e.make_lending(Entry::Step, record, inputs.clone(), &record.lengths())?;
    let presents = same(&step.present_key, &[1.0, 1.0]) && same(&step.present_value, &[6.0, 12.0]);
    expect("E as a step", same(&step.output, &[9.0]) && same(&step.work, &[0.5, 0.5]) && presents && step.answer == done(2, 0))?;
    for (at, name, right) in PROFILE {
        for other in [right.wrapping_sub(1), right + 1, right + (1 << 32), u64::MAX] {
            let mut numbers = record.numbers();
            numbers[at] = other;
            let off = e.make_lending(Entry::Step, Record::from_numbers(&numbers), inputs.clone(), &record.lengths())?;
            expect(&format!("E as a step of another {name}"), off.answer == refused(10, 0, 0))?;
        }
    }
    Ok(())
}

/// A row with keys on both sides of the d from which on E is 0, all of them seen, and with every third one hidden.
fn near_limit(e: &mut Examples) -> Result<(), String> {
    let keys: Vec<f32> = (0..100).map(|n| if n == 0 { 0.0 } else { -83.0 - (n % 64) as f32 / 128.0 }).collect();
    for hides in [false, true] {
        let cells: Vec<u8> = (0..keys.len()).map(|n| u8::from(!hides || n % 3 != 2)).collect();
        let (record, inputs) = masked(small(&[1.0], &keys, &[65536.0; 100]), &cells);
        let work = e.make(record, inputs)?.work;
        let above_zero = |n: usize| cells[n] == 1 && -keys[n] <= f32::from_bits(0x42A6_5AF6);
        let right = |n: usize| if above_zero(n) { work[n] > 0.0 } else { work[n].to_bits() == 0 };
        expect("F, as a row", work[0] == 1.0 && (0..keys.len()).all(right))?;
    }
    Ok(())
}

/// G and H.
fn functions() -> Result<(), String> {
    for (d, value) in [(0, 0x3F80_0000), (0x8000_0000, 0x3F80_0000), (0x3EB1_7218, 0x3F35_04F3), (0x3F31_7218, 0x3F00_0000)] {
        expect("G", ffi::library_exp_neg(d) == (1, value))?;
    }
    for d in [0x42A6_5AF7, 0x7F80_0000] {
        expect("G", ffi::library_exp_neg(d) == (1, 0))?;
    }
    let (there, value) = ffi::library_exp_neg(0x42A6_5AF6);
    expect("G", there == 1 && f32::from_bits(value) > 0.0)?;
    for d in [f32::NAN, -1.0, f32::NEG_INFINITY] {
        expect("G", ffi::library_exp_neg(d.to_bits()) == (0, 0))?;
    }
    for (size, value) in [(4, 0.5f32), (16, 0.25), (64, 0.125), (256, 0.0625), (2, f32::from_bits(0x3F35_04F3))] {
        expect("H", ffi::library_default_scale(size) == (1, value.to_bits()))?;
    }
    Ok(())
}

/// One query and one key of the same size.
fn sized(query: &[f32], key: &[f32]) -> (Record, Inputs) {
    let (record, inputs) = small(query, key, &[5.0]);
    (Record { query_length: 1, key_length: 1, size: query.len() as u64, ..record }, inputs)
}

/// The dot product of ones and a key, as a score of mode 0, and at the step entry as a weight of a half beside a past key with the
/// same dot product.
fn dot(e: &mut Examples, key: &[f32], dot: f32) -> Result<(), String> {
    let name = format!("the dot product of {key:?}");
    let (record, inputs) = sized(&vec![1.0; key.len()], key);
    expect(&name, same(&e.make(Record { score_mode: 0, ..record }, inputs.clone())?.scores, &[dot]))?;
    let mut past_key = vec![0; key.len()];
    past_key[0] = dot.to_bits();
    let inputs = Inputs { past_key, past_value: vec![9f32.to_bits()], ..inputs };
    let record = Record { causal: 1, form: CACHED, past: 1, score_mode: NO_SCORES, ..record };
    let step = e.make_lending(Entry::Step, record, inputs, &record.lengths())?;
    expect(&name, same(&step.work, &[0.5, 0.5]) && same(&step.output, &[7.0]))
}

/// Dot products whose order shows: t + u is t, and t + 2 u is a number of its own.
fn dots(e: &mut Examples) -> Result<(), String> {
    let (t, u) = (65536.0, 1.0 / 256.0);
    let cases: [(&[f32], f32); 13] = [
        (&[3.0], 3.0),
        (&[-0.0], 0.0),
        (&[-0.0, -0.0], 0.0),
        (&[t, -t, u], u),
        (&[u, t, u, -t], u),
        (&[-0.0; 4], 0.0),
        (&[t, u, 0.0, 0.0, -t], u),
        (&[u, t, 0.0, 0.0, u, -t], 2.0 * u),
        (&[0.0, 0.0, t, 0.0, u, u, -t], 2.0 * u),
        (&[t, u, 0.0, 0.0, -t, 0.0, 0.0, 0.0], u),
        (&[t, u, 0.0, 0.0, -t, u, 0.0, 0.0, u], 3.0 * u),
        (&[t, 0.0, 0.0, 0.0, u, 0.0, 0.0, 0.0, -t], 0.0),
        (&[-0.0; 256], 0.0),
    ];
    for (key, sum) in cases {
        dot(e, key, sum)?;
    }
    // t and then u in a lane, and u in the next: one lane on, the first u would be seen.
    for size in 5..=12 {
        for k in 4..size {
            let mut key = vec![0.0; size];
            (key[k - 4], key[k - 3], key[k]) = (t, u, u);
            dot(e, &key, t)?;
        }
    }
    // 4097 * 4097 is 16785409, and rounded 16785408; products of -0 by underflow.
    let (squares, roots) = ([-4096.0, 0.0, 0.0, 0.0, 4097.0], [4098.0, 0.0, 0.0, 0.0, 4097.0]);
    for (query, key) in [(&squares[..], &roots[..]), (&[-1e-30; 4], &[1e-30; 4])] {
        let (record, inputs) = sized(query, key);
        expect("a product and its sum", same(&e.make(Record { score_mode: 0, ..record }, inputs)?.scores, &[0.0]))?;
    }
    Ok(())
}

/// Scores after a cap, as modes 1 and 2 show them and as the step entry weighs them; caps that are not allowed.
fn caps(e: &mut Examples) -> Result<(), String> {
    let least = f32::from_bits(1);
    let cases = [
        (6.0, 2.0, 0x3FFE_BBE9), (6.0, 4.0, 0x4067_B7CC), (-3.0, 2.0, 0xBFE7_B7CC), (3.0, 30.0, 0x403F_5CCE),
        (-100.0, 50.0, 0xC240_CE36), (65536.0, 65536.0, 0x4742_F7D5), (20.0, 2.0, 0x4000_0000), (-20.0, 2.0, 0xC000_0000),
        (0.0, 30.0, 0), (1.0, least, 1), (-1.0, least, 0x8000_0001), (1e-4, 65536.0, 0), (-1e-4, 65536.0, 0x8000_0000),
        (-least, 65536.0, 0), (-least, least, 0x8000_0001), (-0.25, 0.0, 0xBE80_0000), (-0.25, -0.0, 0xBE80_0000),
    ];
    for (score, softcap, after) in cases {
        let (record, inputs) = small(&[1.0], &[score], &[5.0]);
        for (score_mode, shown) in [(0, score), (1, score), (2, f32::from_bits(after)), (3, 1.0)] {
            let record = Record { score_mode, ..record };
            let made = e.make_capped(Entry::General, record, f32::to_bits(softcap), inputs.clone(), &record.lengths())?;
            expect(&format!("{score:e} under {softcap:e}"), same(&made.scores, &[shown]) && same(&made.output, &[5.0]))?;
        }
    }
    let (record, mut inputs) = small(&[1.0], &[-3.0], &[4.0]);
    inputs.past_key = vec![20f32.to_bits()];
    inputs.past_value = vec![2f32.to_bits()];
    let record = Record { causal: 1, form: CACHED, past: 1, score_mode: NO_SCORES, ..record };
    for entry in [Entry::General, Entry::Step] {
        let made = e.make_capped(entry, record, 2f32.to_bits(), inputs.clone(), &record.lengths())?;
        let weights = [0x3F7A_745D, 0x3CB1_7476].map(f32::from_bits);
        expect("20 and -3 under 2", same(&made.work, &weights) && same(&made.output, &[f32::from_bits(0x4002_C5D2)]))?;
        for bad in [0x8000_0001, 0xBF80_0000, 0x4780_0001, 0x7F80_0000, 0xFF80_0000, 0x7F80_0001, 0xFFC0_1234] {
            let made = e.make_capped(entry, record, bad, inputs.clone(), &record.lengths())?;
            expect(&format!("a cap of {bad:08X}"), made.answer == refused(3, 0, 0))?;
        }
    }
    Ok(())
}

/// I to M.
fn edges(e: &mut Examples) -> Result<(), String> {
    let (record, inputs) = small(&[1.0; 4], &[1.0; 2], &[3.0, 5.0]);
    let record = Record { query_heads: 4, key_heads: 2, query_length: 1, key_length: 1, ..record };
    let i = e.make(record, inputs)?;
    expect("I", same(&i.output, &[3.0, 3.0, 5.0, 5.0]) && i.answer == done(1, 0))?;
    let (record, mut inputs) = small(&[2.0], &[3.0], &[5.0]);
    let record = Record { mask_kind: FLOAT, mask_dims: [1; 4], ..record };
    for (cell, weight, rows) in [(f32::MIN, 1.0, 0), (f32::NEG_INFINITY, 0.0, 1)] {
        inputs.float_mask = vec![cell.to_bits()];
        let j = e.make(record, inputs.clone())?;
        expect("J", same(&j.work, &[weight]) && j.answer == done(1, rows))?;
    }
    elements(e)?;
    lengths(e)?;
    for causal in 0..2 {
        let (record, mut inputs) = small(&[1.0, 1.0], &[1.0, 1.0], &[6.0, 12.0]);
        for (count, answer) in [(0, done(2, 2)), (2, done(2, 0)), (3, refused(7, 0, 0)), (-1, refused(7, 0, 0))] {
            inputs.live = vec![count];
            expect("M", e.make(Record { form: COUNTED, causal, ..record }, inputs.clone())?.answer == answer)?;
        }
    }
    Ok(())
}

fn elements(e: &mut Examples) -> Result<(), String> {
    for x in [65536.0, -65536.0] {
        let (record, inputs) = small(&[x], &[x], &[x]);
        expect("K", e.make(record, inputs)?.answer == done(1, 0))?;
    }
    for x in [65536.0078125, -65536.0078125, f32::INFINITY, f32::NEG_INFINITY, f32::NAN] {
        for (tensor, [q, k, v]) in [(0, [x, 3.0, 5.0]), (2, [2.0, x, 5.0]), (4, [2.0, 3.0, x])] {
            let (record, inputs) = small(&[q], &[k], &[v]);
            expect("K", e.make(record, inputs)?.answer == refused(9, tensor, 0))?;
        }
    }
    for (count, answer) in [(1, done(2, 0)), (2, refused(9, 2, 1))] {
        let (record, mut inputs) = small(&[1.0], &[1.0, f32::NAN], &[3.0, f32::NAN]);
        inputs.live = vec![count];
        expect("K", e.make(Record { form: COUNTED, ..record }, inputs)?.answer == answer)?;
    }
    Ok(())
}

fn lengths(e: &mut Examples) -> Result<(), String> {
    let (record, mut inputs) = small(&[1.0], &[1.0], &[12.0]);
    let record = Record { form: CACHED, causal: 1, ..record };
    for (past, refusal) in [(2048, 1), (2047, 2)] {
        let uneven = Record { past, query_heads: 4, key_heads: 3, ..record };
        expect("L", e.make(uneven, inputs.clone())?.answer == refused(refusal, 0, 0))?;
    }
    inputs.past_key = vec![1f32.to_bits(); 2047];
    inputs.past_value = vec![1f32.to_bits(); 2047];
    expect("L", e.make(Record { past: 2047, ..record }, inputs)?.answer == done(2048, 0))?;
    let (record, inputs) = small(&[1.0; 4], &[1.0; 3], &[1.0; 3]);
    let record = Record { query_heads: 4, key_heads: 3, query_length: 1, key_length: 2049, ..record };
    expect("L", e.make(record, inputs.clone())?.answer.refusal == 1)?;
    expect("L", e.make(Record { key_length: 2048, ..record }, inputs)?.answer.refusal == 2)?;
    let (record, inputs) = small(&[1.0], &[1.0; 2048], &[1.0; 2048]);
    expect("L", e.make(record, inputs)?.answer.total == 2048)?;
    let (record, inputs) = small(&[2.0], &[3.0], &[5.0]);
    let short = Lengths { work: 0, ..record.lengths() };
    expect("refusal 6", e.make_lending(Entry::General, record, inputs, &short)?.answer == refused(6, 0, 0))
}

/// All of them; how many calls that was.
pub fn check() -> Result<u64, String> {
    let mut e = Examples { memory: Memory::new(), random: Random::new(0, 0), made: 0 };
    values(&mut e)?;
    near_limit(&mut e)?;
    functions()?;
    dots(&mut e)?;
    caps(&mut e)?;
    edges(&mut e)?;
    Ok(e.made)
}
