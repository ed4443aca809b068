//! What exactly makes a call refused, in words for a person. The operator decides; this only looks for the numbers to show.

use crate::{Call, Form, Inputs, MaskKind, Outputs, Refusal};

/// The refusal with the numbers and elements at fault, one sentence a line. The tensors of a step are handed over by `Inputs::from`
/// and `Outputs::from`.
///
/// ```
/// use klaverdomp::{attention, explain, Call, Inputs, Outputs};
///
/// let call = Call::plain(1, 3_000).with_batches(9);
/// let (inputs, mut outputs) = (Inputs::default(), Outputs::default());
/// let refusal = attention(&call, &inputs, &mut outputs).unwrap_err();
/// let words = explain(&call, &inputs, &outputs, &refusal);
/// assert!(words.contains("batch is 9, and 1 to 8 is allowed"));
/// assert!(words.contains("key length is 3000, and 1 to 2048 is allowed"));
/// ```
pub fn explain(call: &Call, inputs: &Inputs, outputs: &Outputs, refusal: &Refusal) -> String {
    let faults = match refusal.number {
        1 => limits(call),
        2 => vec![format!("{} query heads, {} key heads", call.q_heads, call.kv_heads)],
        3 => settings(call),
        4 => mask_shape(call),
        5 => input_lengths(call, inputs),
        6 => output_lengths(call, outputs),
        7 => place(refusal, inputs.live),
        8 if call.mask == MaskKind::Boolean => place(refusal, inputs.boolean_mask),
        8 => place(refusal, inputs.float_mask),
        9 => match refusal.tensor {
            0 => place(refusal, inputs.query),
            1 => place(refusal, inputs.past_key),
            2 => place(refusal, inputs.key),
            3 => place(refusal, inputs.past_value),
            _ => place(refusal, inputs.value),
        },
        10 => profile(call),
        _ => Vec::new(),
    };
    let mut words = refusal.to_string();
    for fault in faults {
        words.push_str("\n  ");
        words.push_str(&fault);
    }
    words
}

fn limits(call: &Call) -> Vec<String> {
    let dimensions = [
        ("batch", call.batches, 8),
        ("number of query heads", call.q_heads, 32),
        ("number of key heads", call.kv_heads, 32),
        ("query length", call.q_len, 2048),
        ("key length", call.k_len, 2048),
        ("head size", call.size, 256),
        ("value head size", call.v_size, 256),
    ];
    let mut faults = Vec::new();
    for (name, number, most) in dimensions {
        if number < 1 || number > most {
            faults.push(format!("the {name} is {number}, and 1 to {most} is allowed"));
        }
    }
    if call.form == Form::Cached && call.total() > 2048 {
        faults.push(format!("past {} and key length {} are more than 2048 together", call.past, call.k_len));
    }
    if call.form != Form::Cached && call.past != 0 {
        faults.push(format!("the past length is {}, and the call is not cached", call.past));
    }
    faults
}

fn settings(call: &Call) -> Vec<String> {
    let mut faults = Vec::new();
    if call.rank != 3 && call.rank != 4 {
        faults.push(format!("the rank is {}", call.rank));
    }
    if call.causal > 1 {
        faults.push(format!("the causal flag is {}", call.causal));
    }
    if let Some(mode) = call.mode.filter(|mode| *mode > 3) {
        faults.push(format!("the score mode is {mode}"));
    }
    if let Some(scale) = call.scale.filter(|scale| !(*scale > 0.0 && *scale <= 1024.0)) {
        faults.push(format!("the scale is {scale}"));
    }
    if !(0.0..=65_536.0).contains(&call.softcap) {
        faults.push(format!("the softcap is {:?}", call.softcap));
    }
    faults
}

fn profile(call: &Call) -> Vec<String> {
    let mut faults = Vec::new();
    if call.form != Form::Cached {
        faults.push(format!("the form is {:?}, and a step is Cached", call.form));
    }
    if call.mask != MaskKind::None {
        faults.push(format!("the mask is {:?}, and a step has None", call.mask));
    }
    if let Some(mode) = call.mode {
        faults.push(format!("the score mode is {mode}, and a step has none"));
    }
    let numbers = [
        ("rank", call.rank, 4),
        ("causal flag", call.causal, 1),
        ("batch", call.batches, 1),
        ("query length", call.q_len, 1),
        ("key length", call.k_len, 1),
    ];
    for (name, number, right) in numbers {
        if number != right {
            faults.push(format!("the {name} is {number}, and a step has {right}"));
        }
    }
    faults
}

fn mask_shape(call: &Call) -> Vec<String> {
    let [b, h, q, k] = call.mask_dims;
    let full = [call.batches, call.q_heads, call.q_len, call.total()];
    vec![format!(
        "the mask is ({b}, {h}, {q}, {k}), and the full size (batch, query heads, query length, total length) is ({}, {}, {}, {})",
        full[0], full[1], full[2], full[3]
    )]
}

fn input_lengths(call: &Call, inputs: &Inputs) -> Vec<String> {
    let right = call.lengths();
    wrong_lengths(&[
        ("query", inputs.query.len(), right.query),
        ("key", inputs.key.len(), right.key),
        ("value", inputs.value.len(), right.value),
        ("boolean mask", inputs.boolean_mask.len(), right.boolean_mask),
        ("float mask", inputs.float_mask.len(), right.float_mask),
        ("past key", inputs.past_key.len(), right.past_key),
        ("past value", inputs.past_value.len(), right.past_value),
        ("live counts", inputs.live.len(), right.live),
    ])
}

fn output_lengths(call: &Call, outputs: &Outputs) -> Vec<String> {
    let right = call.lengths();
    wrong_lengths(&[
        ("output", outputs.output.len(), right.output),
        ("present key", outputs.present_key.len(), right.present_key),
        ("present value", outputs.present_value.len(), right.present_value),
        ("scores", outputs.scores.len(), right.scores),
        ("work row", outputs.work.len(), right.work),
    ])
}

fn wrong_lengths(tensors: &[(&str, usize, usize)]) -> Vec<String> {
    let wrong = tensors.iter().filter(|(_, lent, right)| lent != right);
    wrong.map(|(name, lent, right)| format!("{name}: {lent} elements lent, {right} expected")).collect()
}

fn place<T: std::fmt::Debug>(refusal: &Refusal, tensor: &[T]) -> Vec<String> {
    let element = usize::try_from(refusal.index).ok().and_then(|index| tensor.get(index));
    element.map(|element| format!("it is {element:?}")).into_iter().collect()
}
