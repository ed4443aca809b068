//! The score cap: random caps, allowed and not, and each call that has one beside the same call without it. The rule of a
//! capped score stands here a second time.

use crate::call::*;
use crate::compare::{by_library, difference, random_side, Left, Memory};
use crate::ffi;
use crate::random::Random;

const LEAST: u32 = 1;
const LARGEST: u32 = 0x4780_0000;
const MINUS_ZERO: u32 = 0x8000_0000;
const INFINITY: u32 = 0x7F80_0000;
const MINUS_INFINITY: u32 = 0xFF80_0000;

/// What is wrong with a cap that is not allowed.
const FAULTS: [&str; 8] = [
    "the next above 65,536", "above that", "infinity", "a NaN", "the next below 0", "below that", "minus infinity",
    "a negative NaN",
];

/// The place in `FAULTS`; none for a cap that is allowed.
pub fn fault(softcap: u32) -> Option<usize> {
    match softcap {
        0..=LARGEST | MINUS_ZERO => None,
        0x4780_0001 => Some(0),
        0x4780_0002..INFINITY => Some(1),
        INFINITY => Some(2),
        0x7F80_0001..MINUS_ZERO => Some(3),
        0x8000_0001 => Some(4),
        0x8000_0002..MINUS_INFINITY => Some(5),
        MINUS_INFINITY => Some(6),
        0xFF80_0001.. => Some(7),
    }
}

/// What an allowed cap is.
const KINDS: [&str; 6] = ["+0", "-0", "the least", "subnormal", "65,536", "any other"];

fn kind(softcap: u32) -> usize {
    match softcap {
        0 => 0,
        MINUS_ZERO => 1,
        LEAST => 2,
        2..0x0080_0000 => 3,
        LARGEST => 4,
        _ => 5,
    }
}

/// An allowed cap above 0.
pub fn random_cap(random: &mut Random) -> u32 {
    match random.below(8) {
        0 => random.pick(&[LEAST, 0x007F_FFFF, 0x0080_0000]),
        1 => random.pick(&[LARGEST, LARGEST - 1]),
        2 => random.between(LEAST.into(), LARGEST.into()) as u32,
        3 => random.pick(&[1.0 / 1_048_576.0, 0.5f32, 1.0, 2.0]).to_bits(),
        4 => random.pick(&[30f32, 50.0]).to_bits(),
        5 => (random.fraction() * 100.0 + 0.01).to_bits(),
        _ => (random.fraction() * 4.0 + 0.01).to_bits(),
    }
}

/// An allowed cap, most often none.
pub fn random_softcap(random: &mut Random) -> u32 {
    match random.below(16) {
        0..=9 => 0,
        10 => MINUS_ZERO,
        _ => random_cap(random),
    }
}

/// A cap that is not allowed.
pub fn odd_softcap(random: &mut Random) -> u32 {
    let nan = INFINITY | 1 | random.bits32();
    let (above, below) = (random.between(0x4780_0001, INFINITY.into()), random.between(0x8000_0001, MINUS_INFINITY.into()));
    random.pick(&[0x4780_0001, above as u32, INFINITY, 0x8000_0001, below as u32, (-30f32).to_bits(), MINUS_INFINITY, nan, nan])
}

/// What may happen to a score s, x being s / c.
const CASES: [&str; 10] = [
    "a hidden key", "x infinite", "x minus infinity", "s of -0", "s below 0 and x -0", "x below 0 and E 1", "the cap itself",
    "minus the cap", "x below 0", "x not below 0",
];

/// The bits of a score under a cap, and the place in `CASES`. A sum, product or quotient of two f32 is made in f64 and rounded
/// again, which gives the f32 nearest to the exact one; E is the library's.
fn capped(s: u32, softcap: u32) -> (u32, usize) {
    if s == MINUS_INFINITY {
        return (s, 0);
    }
    let nearest = |x: f64| x as f32;
    let (score, cap) = (f64::from(f32::from_bits(s)), f64::from(f32::from_bits(softcap)));
    let x = nearest(score / cap);
    let g = f64::from(f32::from_bits(ffi::library_exp_neg((2.0 * x.abs()).to_bits()).1));
    let t = nearest(f64::from(nearest(1.0 - g)) / f64::from(nearest(1.0 + g)));
    let case = match () {
        _ if x.is_infinite() => 1 + usize::from(x < 0.0),
        _ if s == MINUS_ZERO => 3,
        _ if score < 0.0 && x == 0.0 => 4,
        _ if x < 0.0 && g == 1.0 => 5,
        _ if t == 1.0 => 6 + usize::from(x < 0.0),
        _ => 8 + usize::from(x >= 0.0),
    };
    let signed = if x < 0.0 { -t } else { t };
    (nearest(cap * f64::from(signed)).to_bits(), case)
}

/// What the calls at one entry have reached. Only the general one shows scores.
#[derive(Default)]
pub struct Reached {
    /// Calls refused by 3 whose cap is not allowed, by `FAULTS`, where without the cap 3 does not apply.
    faults: [u64; FAULTS.len()],
    /// What the calls whose cap is not allowed answer without it.
    beside: [u64; 11],
    /// Accepted calls by `KINDS`.
    kinds: [u64; KINDS.len()],
    /// Accepted calls with an output that the cap changes.
    outputs: u64,
    /// The scores of accepted calls with a cap, by mode 0 to 2 and by `CASES`, and those that the cap changes.
    cases: [[u64; CASES.len()]; 3],
    changed: [u64; 3],
}

impl Reached {
    /// Makes the call without its cap too. A cap that is not allowed is refusal 3 where neither 10 nor 1 nor 2 applies; an
    /// allowed one leaves the answer, the presents and the scores of modes 0 and 1, and caps those of mode 2; -0 leaves
    /// everything.
    pub fn add(
        &mut self, memory: &mut Memory, call: &Call, entry: Entry, left: &Left, random: &mut Random,
    ) -> Result<(), String> {
        self.kinds[kind(call.softcap)] += u64::from(left.answer.refusal == 0);
        if call.softcap == 0 {
            return Ok(());
        }
        let without = Call { softcap: 0, ..call.clone() };
        let without = by_library(memory, &without, entry, random_side(random), random.bits64());
        if let Some(fault) = fault(call.softcap) {
            return self.refused(fault, left, &without);
        }
        if left.answer != without.answer {
            return Err(format!("the library answered {:?}, and without the cap {:?}", left.answer, without.answer));
        }
        if left.answer.refusal != 0 || call.softcap == MINUS_ZERO {
            return difference(&left.outputs, &without.outputs).map_or(Ok(()), |text| Err(format!("beside no cap {text}")));
        }
        self.accepted(call, &left.outputs, &without.outputs)
    }

    fn refused(&mut self, fault: usize, left: &Left, without: &Left) -> Result<(), String> {
        let wanted = match without.answer.refusal {
            1 | 2 | 10 => without.answer,
            _ => Answer { refusal: 3, ..Answer::default() },
        };
        if left.answer != wanted {
            return Err(format!("the library answered {:?}, and without the cap {:?}", left.answer, without.answer));
        }
        self.beside[without.answer.refusal as usize] += 1;
        self.faults[fault] += u64::from(left.answer != without.answer);
        Ok(())
    }

    fn accepted(&mut self, call: &Call, left: &Outputs, without: &Outputs) -> Result<(), String> {
        if left.present_key != without.present_key || left.present_value != without.present_value {
            return Err("the presents are not those without the cap".to_string());
        }
        self.outputs += u64::from(left.output != without.output);
        let mode = call.decoded().score_mode as usize;
        if mode > 2 {
            return Ok(());
        }
        for (at, (&shown, &before)) in left.scores.iter().zip(&without.scores).enumerate() {
            let (after, case) = capped(before, call.softcap);
            let within = before == MINUS_INFINITY || after & 0x7FFF_FFFF <= call.softcap;
            if !within || shown != if mode == 2 { after } else { before } {
                return Err(format!("score {at} is {shown:08X}; it was {before:08X}, and {after:08X} after the cap"));
            }
            self.cases[mode][case] += 1;
            self.changed[mode] += u64::from(before != after);
        }
        Ok(())
    }

    /// What was never reached at this entry.
    pub fn missing(&self, entry: Entry) -> Vec<String> {
        let mut missing = Vec::new();
        let mut want = |count: u64, what: String| if count == 0 { missing.push(format!("{what} at the {entry:?} entry")) };
        for (&count, name) in self.faults.iter().zip(FAULTS) {
            want(count, format!("a cap that is refused alone, {name},"));
        }
        for (&count, name) in self.kinds.iter().zip(KINDS) {
            want(count, format!("an accepted cap, {name},"));
        }
        want(self.outputs, "an output that a cap changes".to_string());
        let general = entry == Entry::General;
        let answers: &[usize] = if general { &[0, 1, 2, 3, 4, 5, 6, 7, 8, 9] } else { &[0, 1, 2, 3, 5, 6, 9, 10] };
        for &number in answers {
            want(self.beside[number], format!("a cap that is not allowed beside answer {number}"));
        }
        for mode in 0..if general { 3 } else { 0 } {
            want(self.changed[mode], format!("a score that a cap changes in mode {mode}"));
            // Mode 0 shows hidden keys too.
            for (case, name) in CASES.iter().enumerate().skip(usize::from(mode == 0)) {
                want(self.cases[mode][case], format!("under a cap {name} in mode {mode}"));
            }
        }
        missing
    }

    pub fn describe(&self, entry: Entry) -> String {
        let named = |counts: &[u64], names: &[&str]| {
            let each: Vec<String> = counts.iter().zip(names).map(|(count, name)| format!("{name} {count}")).collect();
            each.join(", ")
        };
        let beside: Vec<String> = self.beside.iter().map(u64::to_string).collect();
        let mut words = format!(
            "accepted {}, {} with another output; refused alone {}; what is not allowed beside answers 0 to 10: {}",
            named(&self.kinds, &KINDS), self.outputs, named(&self.faults, &FAULTS), beside.join(" ")
        );
        if entry == Entry::General {
            words += &format!("; in mode 2 {}", named(&self.cases[2], &CASES));
        }
        words
    }
}

#[cfg(test)]
mod tests {
    use super::*;

    #[test]
    fn caps_from_0_to_65_536_are_allowed() {
        let mut random = Random::new(1, 1);
        let edges = [0, LEAST, LARGEST, LARGEST + 1, INFINITY - 1, INFINITY, INFINITY + 1];
        let bits = edges.into_iter().chain((0..10_000).map(|_| random.bits32()));
        for bits in bits.flat_map(|bits| [bits, bits ^ MINUS_ZERO]) {
            assert_eq!(fault(bits).is_none(), (0.0..=65536.0).contains(&f32::from_bits(bits)), "{bits:08X}");
        }
        for _ in 0..10_000 {
            assert_eq!((fault(random_softcap(&mut random)), fault(odd_softcap(&mut random)).is_some()), (None, true));
        }
    }

    #[test]
    fn the_rule_has_these_bits_and_cases() {
        let bits = f32::to_bits;
        assert_eq!(capped(MINUS_INFINITY, bits(2.0)), (MINUS_INFINITY, 0));
        assert_eq!(capped(bits(1.0), LEAST), (LEAST, 1));
        assert_eq!(capped(bits(-1.0), LEAST), (0x8000_0001, 2));
        assert_eq!(capped(MINUS_ZERO, bits(30.0)), (0, 3));
        assert_eq!(capped(0x8000_0001, LARGEST), (0, 4));
        assert_eq!(capped(bits(-1e-4), LARGEST), (MINUS_ZERO, 5));
        assert_eq!(capped(bits(20.0), bits(2.0)), (bits(2.0), 6));
        assert_eq!(capped(bits(-20.0), bits(2.0)), (bits(-2.0), 7));
        assert_eq!(capped(bits(-3.0), bits(2.0)), (0xBFE7_B7CC, 8));
        assert_eq!(capped(bits(6.0), bits(4.0)), (0x4067_B7CC, 9));
    }

    #[test]
    fn what_is_never_reached_is_missing() {
        let full = || Reached {
            faults: [1; FAULTS.len()],
            beside: [1; 11],
            kinds: [1; KINDS.len()],
            outputs: 1,
            cases: [[1; CASES.len()]; 3],
            changed: [1; 3],
        };
        assert!(full().missing(Entry::General).is_empty() && full().missing(Entry::Step).is_empty());
        let left_out = |change: &dyn Fn(&mut Reached)| {
            let mut reached = full();
            change(&mut reached);
            [Entry::General, Entry::Step].map(|entry| reached.missing(entry).len())
        };
        assert_eq!(left_out(&|reached| reached.faults[7] = 0), [1, 1]);
        assert_eq!(left_out(&|reached| reached.beside[4] = 0), [1, 0]);
        assert_eq!(left_out(&|reached| reached.beside[10] = 0), [0, 1]);
        assert_eq!(left_out(&|reached| reached.kinds[0] = 0), [1, 1]);
        assert_eq!(left_out(&|reached| reached.outputs = 0), [1, 1]);
        assert_eq!(left_out(&|reached| reached.cases[0][0] = 0), [0, 0]);
        assert_eq!(left_out(&|reached| reached.cases[1][0] = 0), [1, 0]);
        assert_eq!(left_out(&|reached| reached.changed[1] = 0), [1, 0]);
    }
}
