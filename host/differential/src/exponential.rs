//! The house exponential and the two tables through their exported functions.

use crate::exact;
use crate::ffi;
use crate::guard::{Region, Side};
use crate::random::Random;
use std::hint::black_box;

/// What was compared. Of the patterns, `pattern_elements` went through the pass over a row too, and `pattern_exact` were held
/// to exact arithmetic.
#[derive(Default)]
pub struct Counts {
    pub patterns: u64,
    pub pattern_elements: u64,
    pub pattern_exact: u64,
    pub special: u64,
    pub special_elements: u64,
    pub exact: u64,
    pub row_elements: u64,
    pub entries: u64,
}

fn same(what: &str, at: u64, library: ffi::Told, reference: ffi::Told) -> Result<(), String> {
    if library == reference {
        return Ok(());
    }
    Err(format!("{what} of {at} ({at:08X}): the library has {library:08X?}, the reference {reference:08X?}"))
}

/// All entries of both tables, and arguments outside them.
fn tables(random: &mut Random, counts: &mut Counts) -> Result<[u32; 256], String> {
    let mut powers = [0; 256];
    let outside = [257, 258, 300, 511, 512, 1 << 16, 1 << 31, 1 << 32, (1 << 32) + 4, 1 << 63, (1 << 63) + 1, u64::MAX];
    let arguments = (0..=256).chain(outside).chain((0..1000).map(|_| random.bits64()));
    for at in arguments {
        let (power, scale) = (ffi::library_power_entry(at), ffi::library_default_scale(at));
        same("power entry", at, power, ffi::reference_power_entry(at))?;
        same("default scale", at, scale, ffi::reference_default_scale(at))?;
        if power != (0, 0) || at < 256 {
            if power.0 != 1 || !exact::is_power_entry(at, power.1) {
                return Err(format!("power entry {at} breaks its rule: {power:08X?}"));
            }
            powers[at as usize] = power.1;
        }
        if scale != (0, 0) || (1..=256).contains(&at) {
            if scale.0 != 1 || !exact::is_default_scale(at, scale.1) {
                return Err(format!("default scale {at} breaks its rule: {scale:08X?}"));
            }
        }
        counts.entries += 2;
    }
    Ok(powers)
}

/// Bits of d that matter most: small ones, those around y = 120 and around the steps of 256 y.
fn likely(random: &mut Random) -> u32 {
    match random.below(8) {
        0 => random.bits32(),
        1 => 0x42A6_5AF6u32.wrapping_add(random.below(64) as u32).wrapping_sub(32),
        2 => {
            let step = random.between(0, 30_720) as f64 / 256.0 * std::f64::consts::LN_2;
            (step as f32).to_bits().wrapping_add(random.below(9) as u32).wrapping_sub(4)
        }
        3 => random.pick(&[0, 0x8000_0000, 0x7F80_0000, 0xFF80_0000, 1, 0x8000_0001, 0x7FC0_0000, 0x3EB1_7218, 0x3F31_7218]),
        _ => (random.fraction() * 90.0).to_bits(),
    }
}

/// The library and the reference have what exact arithmetic has.
fn as_exact(d: u32, powers: &[u32; 256]) -> Result<(), String> {
    let (library, reference) = (ffi::library_exp_neg(d), ffi::reference_exp_neg(d));
    let want = exact::exp_neg(d, powers).map_or((0, 0), |bits| (1, bits));
    if library == want && reference == want {
        return Ok(());
    }
    Err(format!("E of {d} ({d:08X}): the library has {library:08X?}, the reference {reference:08X?}, whole numbers {want:08X?}"))
}

fn against_exact(random: &mut Random, powers: &[u32; 256], number: u64, counts: &mut Counts) -> Result<(), String> {
    for _ in 0..number {
        as_exact(likely(random), powers)?;
    }
    counts.exact += number;
    Ok(())
}

/// Patterns of d through the pass over a row; each becomes the wanted bits. The largest is -0 and s is d with its sign flipped,
/// so that largest - s is exactly d where d is a number: -0 - s is -s for every s but a zero, and -0 - 0 is -0 and -0 - (-0)
/// is +0. Where d is a NaN, so is largest - s. Each subtraction is made here too, with a largest that the compiler cannot see.
fn through_row(memory: &mut Region, side: Side, patterns: &[u32], wanted: &[u32]) -> Result<(), String> {
    let largest = black_box(-0f32);
    let before: Vec<u32> = patterns.iter().map(|d| d ^ 0x8000_0000).collect();
    for (&d, &s) in patterns.iter().zip(&before) {
        let made = largest - f32::from_bits(s);
        if made.to_bits() != d && !(made.is_nan() && f32::from_bits(d).is_nan()) {
            return Err(format!("-0 - {s:08X} is {:08X}, so the row has another d than {d:08X}", made.to_bits()));
        }
    }
    let row = memory.place(&before, side);
    ffi::library_exp_neg_row(row, largest.to_bits());
    if let Some(n) = (0..row.len()).find(|&n| row[n] != wanted[n]) {
        let (d, got, want, length) = (patterns[n], row[n], wanted[n], row.len());
        return Err(format!("E of {d} ({d:08X}), element {n} of a row of {length}: the library has {got:08X}, not {want:08X}"));
    }
    Ok(())
}

/// What a row has where a function of one number tells this: the value, or +0 where there is none.
fn in_row(told: ffi::Told) -> u32 {
    if told.0 == 0 { 0 } else { told.1 }
}

/// Lengths of rows: whole blocks of 64, rests alone, and both.
const LENGTHS: [usize; 8] = [1, 3, 63, 64, 65, 127, 500, 2048];

/// Of each nine rows of patterns eight have these lengths. The ninth is two blocks and a rest of 0 to 63, one more each time.
fn length_of(row: usize) -> usize {
    LENGTHS.get(row % 9).copied().unwrap_or(128 + row / 9 % 64)
}

/// One of so many patterns is held to exact arithmetic. The number is odd, so that with an odd stride those have any last bits.
const EXACT_STEP: u64 = 3;

/// Every stride-th of the 2^32 patterns, from a random first one, by itself and in a row.
fn patterns(random: &mut Random, powers: &[u32; 256], stride: u64, counts: &mut Counts) -> Result<(), String> {
    let (mut d, exact_at) = (random.below(stride), random.below(EXACT_STEP));
    let (mut memory, mut taken, mut wanted, mut row) = (Region::new(), Vec::new(), Vec::new(), 0);
    while d < 1 << 32 {
        let length = length_of(row);
        taken.clear();
        wanted.clear();
        while d < 1 << 32 && taken.len() < length {
            let reference = ffi::reference_exp_neg(d as u32);
            same("E", d, ffi::library_exp_neg(d as u32), reference)?;
            if counts.patterns % EXACT_STEP == exact_at {
                as_exact(d as u32, powers)?;
                counts.pattern_exact += 1;
            }
            taken.push(d as u32);
            wanted.push(in_row(reference));
            counts.patterns += 1;
            d += stride;
        }
        let side = if row % 2 == 0 { Side::BeforeUnreadable } else { Side::AfterUnreadable };
        through_row(&mut memory, side, &taken, &wanted)?;
        counts.pattern_elements += taken.len() as u64;
        row += 1;
    }
    Ok(())
}

/// Patterns that are tried whatever the stride: the zeros, the least and the largest subnormal, the least normal number, 1, the
/// last d with y = d * LOG2E below 120 and the next, whose y is above (no d has 120 itself), the largest number, infinity;
/// below 0 the ends again, and -1; NaNs of either sign.
const SPECIAL: [u32; 22] = [
    0x0000_0000, 0x8000_0000, 0x0000_0001, 0x007F_FFFF, 0x0080_0000, 0x3F80_0000, 0x42A6_5AF6, 0x42A6_5AF7, 0x7F7F_FFFF,
    0x7F80_0000, 0x8000_0001, 0x807F_FFFF, 0x8080_0000, 0xBF80_0000, 0xFF7F_FFFF, 0xFF80_0000,
    0x7F80_0001, 0x7FC0_0000, 0x7FFF_FFFF, 0xFF80_0001, 0xFFC0_0000, 0xFFFF_FFFF,
];

/// Each of them by itself, and rows that begin with each, of each length and at either side of unreadable memory.
fn special(powers: &[u32; 256], counts: &mut Counts) -> Result<(), String> {
    let mut memory = Region::new();
    for (first, &d) in SPECIAL.iter().enumerate() {
        as_exact(d, powers)?;
        counts.special += 1;
        for length in LENGTHS {
            let taken: Vec<u32> = SPECIAL.iter().copied().cycle().skip(first).take(length).collect();
            let wanted: Vec<u32> = taken.iter().map(|&d| in_row(ffi::reference_exp_neg(d))).collect();
            for side in [Side::BeforeUnreadable, Side::AfterUnreadable] {
                through_row(&mut memory, side, &taken, &wanted)?;
                counts.special_elements += length as u64;
            }
        }
    }
    Ok(())
}

fn rows(random: &mut Random, number: u64, counts: &mut Counts) -> Result<(), String> {
    let mut memory = Region::new();
    for at in 0..number {
        let length = if random.once_in(20) { random.index(2049) } else { random.index(150) };
        let largest = match random.below(4) {
            0 => random.bits32(),
            1 => random.pick(&[0f32, -0.0, f32::INFINITY, f32::NEG_INFINITY, f32::NAN, f32::MAX, f32::MIN]).to_bits(),
            _ => (random.fraction() * 200.0 - 100.0).to_bits(),
        };
        let before: Vec<u32> = (0..length)
            .map(|_| match random.below(8) {
                0 => random.bits32(),
                1 => largest,
                2 => f32::NEG_INFINITY.to_bits(),
                3 => (f32::from_bits(largest) + 1.0).to_bits(),
                _ => (f32::from_bits(largest) - random.fraction() * 100.0).to_bits(),
            })
            .collect();
        let row = memory.place(&before, if at % 2 == 0 { Side::BeforeUnreadable } else { Side::AfterUnreadable });
        ffi::library_exp_neg_row(row, largest);
        for (n, (&s, &got)) in before.iter().zip(row.iter()).enumerate() {
            let d = f32::from_bits(largest) - f32::from_bits(s);
            let want = ffi::reference_exp_neg(d.to_bits()).1;
            if got != want {
                return Err(format!("row {at} (length {length}, largest {largest:08X}): element {n}, {s:08X}, became {got:08X}, not {want:08X}"));
            }
        }
        counts.row_elements += length as u64;
    }
    Ok(())
}

/// Both tables, E against exact arithmetic and against the reference, and E over rows.
pub fn check(seed: u64, stride: u64, exact_calls: u64, row_calls: u64) -> Result<Counts, String> {
    let mut random = Random::new(seed, u64::MAX);
    let mut counts = Counts::default();
    let powers = tables(&mut random, &mut counts)?;
    against_exact(&mut random, &powers, exact_calls, &mut counts)?;
    rows(&mut random, row_calls, &mut counts)?;
    special(&powers, &mut counts)?;
    patterns(&mut random, &powers, stride, &mut counts)?;
    Ok(counts)
}

#[cfg(test)]
mod tests {
    use super::*;

    #[test]
    fn a_wrong_element_of_a_row_is_noticed() {
        let (mut memory, taken) = (Region::new(), [SPECIAL; 4].concat());
        let right: Vec<u32> = taken.iter().map(|&d| in_row(ffi::reference_exp_neg(d))).collect();
        through_row(&mut memory, Side::BeforeUnreadable, &taken, &right).unwrap();
        for n in 0..taken.len() {
            let mut wrong = right.clone();
            wrong[n] ^= 1;
            let text = through_row(&mut memory, Side::BeforeUnreadable, &taken, &wrong).unwrap_err();
            assert!(text.contains(&format!("({:08X}), element {n} of a row of 88:", taken[n])), "{text}");
        }
    }

    #[test]
    fn rows_of_patterns_have_every_rest() {
        let lengths: Vec<usize> = (0..9 * 64).map(length_of).collect();
        assert!(LENGTHS.into_iter().chain(128..192).all(|length| lengths.contains(&length)));
    }
}
