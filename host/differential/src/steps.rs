//! Random calls at the step entry: records of its profile with and without faults, records of which a number of the profile is
//! another or that have another length, and the records of the general calls.

use crate::call::*;
use crate::caps::odd_softcap;
use crate::generate::*;
use crate::random::Random;

/// One call, of which masks, live counts and scores are empty, since the step entry is not lent them.
pub fn random_step(random: &mut Random, general: &Call) -> Call {
    let mut call = match random.below(16) {
        0..=3 => general.clone(),
        4..=9 => step_call(random, false),
        10..=14 => step_call(random, true),
        _ => {
            let mut call = step_call(random, false);
            change_record_length(random, &mut call);
            call
        }
    };
    call.inputs.bool_mask.clear();
    call.inputs.float_mask.clear();
    call.inputs.live.clear();
    call.outputs.scores.clear();
    call
}

/// A call whose record is of the profile, or `off` it. Half of either have no other fault.
fn step_call(random: &mut Random, off: bool) -> Call {
    let profile = profile_record(random);
    let faults = random_faults(random);
    let in_record = (0..faults).filter(|_| random.once_in(3)).count() as u64;
    let mut numbers = profile.numbers();
    for _ in 0..in_record {
        change_free_number(random, &mut numbers);
    }
    let fitting = Record::from_numbers(&numbers);
    if off {
        leave_profile(random, &mut numbers);
    }
    let record = Record::from_numbers(&numbers);
    // Off the profile, tensors of the record as it is, or as it was before it left.
    let fitted = if random.once_in(2) { &fitting } else { &record };
    let mut call = call_of(random, &record, &lengths_near(fitted, &profile));
    for _ in in_record..faults {
        match random.below(9) {
            0..=2 => change_length(random, &mut call, Entry::Step),
            3..=6 => add_late_fault(random, &mut call, Entry::Step),
            7 => call.scale = odd_scale(random),
            _ => call.softcap = odd_softcap(random),
        }
    }
    call
}

/// A record of the profile without a fault. Its mask dimensions are any numbers.
fn profile_record(random: &mut Random) -> Record {
    let budget = random_budget(random);
    let [heads, past, size, value_size] = [32, 2048, 256, 256].map(|limit| random_size(random, limit));
    let past = if random.once_in(8) { 0 } else { past };
    let sized = sized_record(random, CACHED, [1, heads, 1, 1, past, size, value_size], budget);
    let mask_dims = [1; 4].map(|dim| odd_number(random, dim));
    Record { mask_kind: NO_MASK, score_mode: NO_SCORES, rank: 4, causal: 1, mask_dims, ..sized }
}

/// Another number where the profile asks for none. Some of the changes are not faults.
fn change_free_number(random: &mut Random, numbers: &mut [u64; RECORD_LENGTH]) {
    match random.below(5) {
        // P just past the limit, or so large that P + 1 wraps around.
        0 => numbers[11] = random.pick(&[2047, 2048, 2049, 1 << 32, 1 << 63, u64::MAX - 1, u64::MAX]),
        1 => numbers[8] = random.between(0, 33),
        2 => numbers[2] = random.pick(&[2, 3, 255, 256, 1 << 32, 1 << 63, u64::MAX]),
        3 => numbers[random.pick(&[7, 12, 13])] = random.pick(&[0, 33, 257, 300, 1 << 32, u64::MAX]),
        _ => {
            let at = random.pick(&[2, 7, 8, 11, 12, 13, 14, 15, 16, 17]);
            numbers[at] = odd_number(random, numbers[at]);
        }
    }
}

/// Another number in one place of the profile, and once in four times in more.
fn leave_profile(random: &mut Random, numbers: &mut [u64; RECORD_LENGTH]) {
    let places = if random.once_in(4) { random.between(2, 8) } else { 1 };
    for _ in 0..places {
        let (at, _, right) = random.pick(&PROFILE);
        numbers[at] = right;
        while numbers[at] == right {
            numbers[at] = match random.below(2) {
                0 => random.pick(&[0, 1, 2, 3, 4, 5, 254, 255, 256, 3000, u64::MAX]),
                _ => odd_number(random, right),
            };
        }
    }
}
