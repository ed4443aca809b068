//! One call made by the library and by the reference: the answer and every bit of every lent tensor must be the same,
//! inputs must stay as they are, and a refused call must leave its outputs as they were.

use crate::call::*;
use crate::ffi::{self, AnswerSlots, InputSlices, OutputSlices};
use crate::guard::{Region, Side};
use crate::random::Random;

/// Memory for everything a call lends, each between its own unreadable pages.
pub struct Memory {
    floats: [Region; 5],
    bytes: Region,
    float_mask: Region,
    live: Region,
    outputs: [Region; 5],
    record: Region,
    answer: [Region; 4],
}

impl Memory {
    pub fn new() -> Memory {
        let region = |_| Region::new();
        Memory {
            floats: std::array::from_fn(region),
            bytes: Region::new(),
            float_mask: Region::new(),
            live: Region::new(),
            outputs: std::array::from_fn(region),
            record: Region::new(),
            answer: std::array::from_fn(region),
        }
    }
}

/// What a call left: the answer, the outputs, and whether the record and the inputs kept their bits.
pub struct Left {
    pub answer: Answer,
    pub outputs: Outputs,
    pub inputs_kept: bool,
}

/// Makes the call by the library, everything lent lying at one side of unreadable pages.
pub fn by_library(memory: &mut Memory, call: &Call, entry: Entry, side: Side, unwritten: u64) -> Left {
    let [query, key, value, past_key, past_value] = &mut memory.floats;
    let i = &call.inputs;
    let record: &[u64] = memory.record.place(&call.record, side);
    let inputs = InputSlices {
        query: query.place(&i.query, side),
        key: key.place(&i.key, side),
        value: value.place(&i.value, side),
        bool_mask: memory.bytes.place(&i.bool_mask, side),
        float_mask: memory.float_mask.place(&i.float_mask, side),
        past_key: past_key.place(&i.past_key, side),
        past_value: past_value.place(&i.past_value, side),
        live: memory.live.place(&i.live, side),
    };
    let [output, present_key, present_value, scores, work] = &mut memory.outputs;
    let o = &call.outputs;
    let mut outputs = OutputSlices {
        output: output.place(&o.output, side),
        present_key: present_key.place(&o.present_key, side),
        present_value: present_value.place(&o.present_value, side),
        scores: scores.place(&o.scores, side),
        work: work.place(&o.work, side),
    };
    let mut slots = memory.answer.each_mut().map(|region| &mut region.place(&[unwritten], side)[0]);
    let [tensor, index, total, masked] = &mut slots;
    let attend = if entry == Entry::Step { ffi::library_step } else { ffi::library_attention };
    let refusal = attend(record, call.scale, call.softcap, &inputs, &mut outputs, AnswerSlots { tensor, index, total, masked });
    let kept = record == call.record
        && inputs.query == i.query
        && inputs.key == i.key
        && inputs.value == i.value
        && inputs.bool_mask == i.bool_mask
        && inputs.float_mask == i.float_mask
        && inputs.past_key == i.past_key
        && inputs.past_value == i.past_value
        && inputs.live == i.live;
    let [tensor, index, total, masked] = slots.map(|slot| *slot);
    Left {
        answer: Answer { refusal: refusal.into(), tensor, index, total, masked },
        outputs: Outputs {
            output: outputs.output.to_vec(),
            present_key: outputs.present_key.to_vec(),
            present_value: outputs.present_value.to_vec(),
            scores: outputs.scores.to_vec(),
            work: outputs.work.to_vec(),
        },
        inputs_kept: kept,
    }
}

/// Makes the call by the reference, on copies.
pub fn by_reference(call: &Call, entry: Entry) -> (Answer, Outputs) {
    let i = &call.inputs;
    let inputs = InputSlices {
        query: &i.query,
        key: &i.key,
        value: &i.value,
        bool_mask: &i.bool_mask,
        float_mask: &i.float_mask,
        past_key: &i.past_key,
        past_value: &i.past_value,
        live: &i.live,
    };
    let mut o = call.outputs.clone();
    let mut outputs = OutputSlices {
        output: &mut o.output,
        present_key: &mut o.present_key,
        present_value: &mut o.present_value,
        scores: &mut o.scores,
        work: &mut o.work,
    };
    let attend = if entry == Entry::Step { ffi::reference_step } else { ffi::reference_attention };
    let answer = attend(&call.decoded(), call.scale, call.softcap, &inputs, &mut outputs);
    (answer, o)
}

/// The first place where two sets of outputs differ.
pub fn difference(library: &Outputs, other: &Outputs) -> Option<String> {
    for ((name, mine), (_, theirs)) in library.named().into_iter().zip(other.named()) {
        if let Some(at) = (0..mine.len()).find(|&at| mine[at] != theirs[at]) {
            let places = (0..mine.len()).filter(|&n| mine[n] != theirs[n]).count();
            return Some(format!("{name}[{at}] is {:08X}, not {:08X} ({places} of {} differ)", mine[at], theirs[at], mine.len()));
        }
    }
    None
}

pub fn random_side(random: &mut Random) -> Side {
    if random.once_in(2) { Side::BeforeUnreadable } else { Side::AfterUnreadable }
}

/// Makes the call by both and compares, and at the step entry also with the general one. The outcome is what the library left.
pub fn compare(memory: &mut Memory, call: &Call, entry: Entry, random: &mut Random) -> Result<Left, String> {
    let left = against_reference(memory, call, entry, random)?;
    if entry == Entry::Step {
        against_general_entry(memory, call, &left, random)?;
    }
    Ok(left)
}

fn against_reference(memory: &mut Memory, call: &Call, entry: Entry, random: &mut Random) -> Result<Left, String> {
    let left = by_library(memory, call, entry, random_side(random), random.bits64());
    let (answer, outputs) = by_reference(call, entry);
    if left.answer != answer {
        return Err(format!("the library answered {:?}, the reference {answer:?}", left.answer));
    }
    if !left.inputs_kept {
        return Err("an input or the record was changed".to_string());
    }
    if let Some(text) = difference(&left.outputs, &outputs) {
        return Err(text);
    }
    if answer.refusal != 0 {
        if let Some(text) = difference(&left.outputs, &call.outputs) {
            return Err(format!("a refused call wrote: {text}"));
        }
    }
    Ok(left)
}

/// The step entry answers 10 without a place exactly where the record is not of its profile. Where it is, the library's general
/// entry answers and leaves the same; the tensors that only that one is lent are empty then.
fn against_general_entry(memory: &mut Memory, call: &Call, left: &Left, random: &mut Random) -> Result<(), String> {
    let of_profile = call.off_profile().is_empty();
    if of_profile == (left.answer == Answer { refusal: 10, ..Answer::default() }) {
        return Err(format!("of the profile is {of_profile}, but the library answered {:?}", left.answer));
    }
    if !of_profile {
        return Ok(());
    }
    let general = by_library(memory, call, Entry::General, random_side(random), random.bits64());
    if left.answer != general.answer {
        return Err(format!("the library answered {:?}, its general entry {:?}", left.answer, general.answer));
    }
    difference(&left.outputs, &general.outputs).map_or(Ok(()), |text| Err(format!("beside the general entry {text}")))
}
