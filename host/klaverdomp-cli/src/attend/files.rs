// The tensors of a call from .npy files, and the record that their shapes and the options give.

use super::usage;
use crate::args::Args;
use crate::npy::{self, shape_text, Data, Kind, NpyError, Tensor};
use crate::Failure;
use klaverdomp::{Call, Form, Inputs, Refusal};
use std::path::{Path, PathBuf};

/// The tensor of a file, and the option that names it.
struct Input {
    option: &'static str,
    path: PathBuf,
    tensor: Tensor,
}

impl Input {
    fn read(option: &'static str, path: &Path, kinds: &[Kind]) -> Result<Input, Failure> {
        let failed = |error: NpyError| Failure::File(format!("{option} {}: {}", path.display(), error.words(kinds)));
        Ok(Input { option, path: path.to_path_buf(), tensor: npy::read(path, kinds).map_err(failed)? })
    }

    fn shape(&self) -> &[u64] {
        &self.tensor.shape
    }

    /// The option, the file and its shape in words.
    fn with_shape(&self) -> String {
        format!("{} has shape {}", self.name(), shape_text(self.shape()))
    }

    /// The shape does not fit what the other files and the options say.
    fn misfit(&self, words: &str) -> Failure {
        Failure::File(format!("{}; {words}", self.with_shape()))
    }

    fn floats(&self) -> &[f32] {
        match &self.tensor.data {
            Data::F32(elements) => elements,
            _ => &[],
        }
    }

    /// Where an element stands.
    fn place(&self, index: u64) -> String {
        let mut rest = index;
        let mut indices = Vec::new();
        for dim in self.shape().iter().rev() {
            indices.push((rest % dim.max(&1)).to_string());
            rest /= dim.max(&1);
        }
        indices.reverse();
        format!("at [{}] of {}, shape {}", indices.join(", "), self.name(), shape_text(self.shape()))
    }

    /// The option and the file in words.
    fn name(&self) -> String {
        format!("{} {}", self.option, self.path.display())
    }
}

/// The tensors of the files that are named.
pub struct Files {
    query: Input,
    key: Input,
    value: Input,
    mask: Option<Input>,
    past_key: Option<Input>,
    past_value: Option<Input>,
    live: Option<Input>,
}

impl Files {
    pub fn read(args: &Args) -> Result<Files, Failure> {
        let required = |option| Input::read(option, args.required(option).map_err(usage)?, &[Kind::F4]);
        let optional = |option, kinds| args.path(option).map(|path| Input::read(option, path, kinds)).transpose();
        Ok(Files {
            query: required("--query")?,
            key: required("--key")?,
            value: required("--value")?,
            mask: optional("--mask", &[Kind::Bytes, Kind::F4])?,
            past_key: optional("--past-key", &[Kind::F4])?,
            past_value: optional("--past-value", &[Kind::F4])?,
            live: optional("--live", &[Kind::I8])?,
        })
    }

    /// The record that the shapes and the options give. Shapes that do not fit each other are bad files; whether the numbers
    /// are within the limits is for the operator to say.
    pub fn call(&self, args: &Args) -> Result<Call, Failure> {
        let heads = |name| args.number::<u64>(name, "a whole number").map_err(usage);
        let shape = match self.query.shape().len() {
            4 if heads("--q-heads")?.is_some() || heads("--kv-heads")?.is_some() => {
                let words = "--q-heads and --kv-heads are for tensors of 3 dimensions; with 4 the shapes give them";
                return Err(usage(format!("{words}, and {}", self.query.with_shape())));
            }
            4 => self.rank_four()?,
            3 => match (heads("--q-heads")?, heads("--kv-heads")?) {
                (Some(q_heads), Some(kv_heads)) => self.rank_three(q_heads, kv_heads)?,
                _ => return Err(usage(format!("{}: 3 dimensions need --q-heads and --kv-heads", self.query.with_shape()))),
            },
            _ => return Err(self.query.misfit("3 or 4 dimensions are needed")),
        };
        let cached = ["--past-key", "--past-value", "--present-key", "--present-value"];
        let form = match (args.path("--live").is_some(), cached.iter().any(|name| args.path(name).is_some())) {
            (true, true) => return Err(usage("--live stands for an outside cache, so there is no past or present beside it")),
            (true, false) => Form::Counted,
            (false, true) => Form::Cached,
            (false, false) => Form::Plain,
        };
        let call = Call {
            form,
            causal: u64::from(args.flag("--causal")),
            scale: args.number("--scale", "a number").map_err(usage)?,
            softcap: args.number("--softcap", "a number").map_err(usage)?.unwrap_or(0.0),
            mode: args.number("--mode", "a whole number").map_err(usage)?,
            ..shape
        };
        self.with_mask(self.with_past(call)?)
    }

    fn rank_four(&self) -> Result<Call, Failure> {
        let (q, k, v) = (self.query.shape(), self.key.shape(), self.value.shape());
        if k.len() != 4 || k[0] != q[0] || k[3] != q[3] {
            return Err(self.key.misfit(&format!("({}, key heads, positions, {}) fits the query", q[0], q[3])));
        }
        if v.len() != 4 || v[..3] != k[..3] {
            return Err(self.value.misfit(&format!("({}, {}, {}, value size) fits the key", k[0], k[1], k[2])));
        }
        let call = Call::plain(q[2], k[2]).with_batches(q[0]).with_heads(q[1], k[1]);
        Ok(call.with_size(q[3]).with_value_size(v[3]))
    }

    fn rank_three(&self, q_heads: u64, kv_heads: u64) -> Result<Call, Failure> {
        let (q, k, v) = (self.query.shape(), self.key.shape(), self.value.shape());
        if q_heads == 0 || kv_heads == 0 {
            return Err(usage("--q-heads and --kv-heads are at least 1"));
        }
        if q[2] % q_heads != 0 {
            return Err(self.query.misfit(&format!("{} is no multiple of {q_heads} heads", q[2])));
        }
        let size = q[2] / q_heads;
        let width = size.checked_mul(kv_heads);
        if k.len() != 3 || k[0] != q[0] || Some(k[2]) != width {
            let words = format!("({}, positions, {kv_heads} heads of size {size}) fits the query", q[0]);
            return Err(self.key.misfit(&words));
        }
        if v.len() != 3 || v[..2] != k[..2] || v[2] % kv_heads != 0 {
            let words = format!("({}, {}, {kv_heads} heads of value size) fits the key", k[0], k[1]);
            return Err(self.value.misfit(&words));
        }
        let call = Call::plain(q[1], k[1]).with_batches(q[0]).with_heads(q_heads, kv_heads);
        Ok(call.with_size(size).with_value_size(v[2] / kv_heads).with_rank(3))
    }

    /// The call with its past length and live counts.
    fn with_past(&self, call: Call) -> Result<Call, Failure> {
        if let Some(live) = self.live.as_ref().filter(|live| live.shape() != [call.batches]) {
            return Err(live.misfit(&format!("({},), one count for each batch, is needed", call.batches)));
        }
        let (past_key, past_value) = match (&self.past_key, &self.past_value) {
            (None, None) => return Ok(call),
            (Some(past_key), Some(past_value)) => (past_key, past_value),
            _ => return Err(usage("--past-key and --past-value go together")),
        };
        for (past, size) in [(past_key, call.size), (past_value, call.v_size)] {
            // how many positions a past has is for the operator to say: refusal 5 where keys and values are of two calls
            let positions = past.shape().get(2).copied().unwrap_or(0);
            if past.shape() != [call.batches, call.kv_heads, positions, size] {
                let fits = format!("({}, {}, past, {size})", call.batches, call.kv_heads);
                return Err(past.misfit(&format!("{fits} (batch, key heads, past, size) fits")));
            }
        }
        Ok(Call { past: past_key.shape()[2], ..call })
    }

    /// The call with its mask; dimensions that are left out are 1.
    fn with_mask(&self, call: Call) -> Result<Call, Failure> {
        let Some(mask) = &self.mask else {
            return Ok(call);
        };
        if mask.shape().len() > 4 {
            return Err(mask.misfit("at most 4 dimensions are needed"));
        }
        let mut dims = [1; 4];
        dims[4 - mask.shape().len()..].copy_from_slice(mask.shape());
        Ok(match mask.tensor.data {
            Data::F32(_) => call.with_float_mask(dims),
            _ => call.with_boolean_mask(dims),
        })
    }

    /// What a refusal has to do with the files: the shapes that give the numbers at fault, or where the element at fault stands.
    pub fn place(&self, refusal: &Refusal) -> String {
        let (query, key, value) = (Some(&self.query), Some(&self.key), Some(&self.value));
        let (past_key, past_value) = (self.past_key.as_ref(), self.past_value.as_ref());
        let shapes = match refusal.number {
            1 | 5 => vec![query, key, value, past_key, past_value],
            2 => vec![query, key],
            4 => vec![self.mask.as_ref()],
            _ => Vec::new(),
        };
        let element = match (refusal.number, refusal.tensor) {
            (7, _) => self.live.as_ref(),
            (8, _) => self.mask.as_ref(),
            (9, 0) => query,
            (9, 1) => past_key,
            (9, 2) => key,
            (9, 3) => past_value,
            (9, 4) => value,
            _ => None,
        };
        let shapes = shapes.into_iter().flatten().map(Input::with_shape);
        let element = element.map(|input| input.place(refusal.index));
        let words = shapes.chain(element).chain(self.two_calls().filter(|_| refusal.number == 5));
        words.map(|words| format!("\n  {words}")).collect()
    }

    /// That keys and values of the past are not of one call, where their lengths show it.
    fn two_calls(&self) -> Option<String> {
        let (key, value) = (self.past_key.as_ref()?.shape()[2], self.past_value.as_ref()?.shape()[2]);
        (key != value).then(|| format!("the past has {key} keys and {value} values: they are of two calls"))
    }

    pub fn inputs(&self) -> Inputs<'_> {
        let (boolean_mask, float_mask): (&[u8], &[f32]) = match self.mask.as_ref().map(|mask| &mask.tensor.data) {
            Some(Data::Bytes(mask)) => (mask, &[]),
            Some(Data::F32(mask)) => (&[], mask),
            _ => (&[], &[]),
        };
        let live: &[i64] = match self.live.as_ref().map(|live| &live.tensor.data) {
            Some(Data::I64(live)) => live,
            _ => &[],
        };
        Inputs {
            query: self.query.floats(),
            key: self.key.floats(),
            value: self.value.floats(),
            boolean_mask,
            float_mask,
            past_key: self.past_key.as_ref().map_or(&[], Input::floats),
            past_value: self.past_value.as_ref().map_or(&[], Input::floats),
            live,
        }
    }
}
