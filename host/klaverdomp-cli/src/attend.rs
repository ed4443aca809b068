// One call on .npy files.

mod files;

use crate::args::Args;
use crate::npy;
use crate::outputs::Outputs;
use crate::{progress, say, Failure};
use files::Files;
use klaverdomp::{attention, check, explain, Buffers, Call, Refusal};
use std::ffi::OsString;
use std::io::{self, Write};

pub const HELP: &str = "\
klaverdomp attend - one attention call on .npy files

  klaverdomp attend --query Q.npy --key K.npy --value V.npy --output Y.npy [OPTIONS]

Q, K and V have 4 dimensions (batch, heads, positions, head size), or 3 (batch, positions, heads and
head size together). Elements are f4, little-endian, in C order. Y gets the layout of Q.

  --q-heads N, --kv-heads N   the numbers of query heads and key heads, for 3 dimensions
  --causal                    a query sees keys up to its own position, counted from the end of the past
  --scale X                   factor of the dot products, above 0 and at most 1024 (default 1/sqrt(head size))
  --softcap C                 caps the scores after the mask, near C * tanh(score / C), C at most 65536 (default 0: no cap)
  --mask M.npy                bool or u1 (1 shows a key, 0 hides it) or f4 (added; -inf hides); its dimensions
                              are 1 or those of (batch, query heads, queries, total), the first ones may be left out
  --past-key F, --past-value F        KV cache of the past: (batch, key heads, past, head size)
  --present-key F, --present-value F  where the KV cache of past and call together is written
  --live L.npy                i8, one for each batch: how many keys of an outside cache are used
  --mode N --scores F         writes scores (batch, query heads, queries, total): 0 scaled dot products,
                              1 those after the mask, 2 those after the cap too, 3 the weights

The call is cached if a past or a present file is named, counted if --live is, and plain otherwise.

Files are written only when done. Each is written beside its place, and when all are on the disk they are put in their places,
the caches last; if one of them can't be, all are as they were. A link is followed. A pipe or a device is written directly,
when the others are ready and before they are put in their places.
A call that is killed between two files leaves each of them whole, the old or the new one, but the present key and value may
then be of two calls. Where a call writes over its own past, their lengths differ, and the next call gets refusal 5. It may
also leave files named .klaverdomp-*.tmp, which can be removed.

Exit status: 0 done; 1 refused by the operator; 2 bad usage or a bad file.
";

const VALUED: [&str; 16] = [
    "--query",
    "--key",
    "--value",
    "--output",
    "--q-heads",
    "--kv-heads",
    "--scale",
    "--softcap",
    "--mask",
    "--past-key",
    "--past-value",
    "--present-key",
    "--present-value",
    "--live",
    "--mode",
    "--scores",
];

fn usage(words: impl Into<String>) -> Failure {
    Failure::Usage(words.into(), "attend")
}

pub fn run(words: Vec<OsString>) -> Result<(), Failure> {
    let args = Args::parse(words, &VALUED, &["--causal"]).map_err(usage)?;
    let outputs = outputs(&args)?;
    let files = Files::read(&args)?;
    let call = files.call(&args)?;
    let inputs = files.inputs();
    let refused = |refusal: Refusal| {
        let words = explain(&call, &inputs, &klaverdomp::Outputs::default(), &refusal);
        Failure::Refused(words + &files.place(&refusal))
    };
    check(&call, &inputs).map_err(refused)?;
    let mut buffers = Buffers::try_new(&call).map_err(|error| Failure::File(format!("the outputs: {error}")))?;
    progress(&format!("{} rows over {} positions ...", call.batches * call.q_heads * call.q_len, call.total()));
    let answer = attention(&call, &inputs, &mut buffers.lend());
    progress("");
    let done = answer.map_err(refused)?;
    write(&outputs, &call, &buffers)?;
    let words = format!("done: total length {}, fully masked rows {}\n", done.total, done.masked_rows);
    if outputs.have_stdout() {
        // a tensor goes there, and nothing else
        let _ = io::stderr().write_all(words.as_bytes());
        return Ok(());
    }
    say(&words)
}

/// The options that name outputs, in the order in which their files are put in place.
const WRITTEN: [&str; 4] = ["--output", "--scores", "--present-key", "--present-value"];

/// Where the outputs go.
fn outputs(args: &Args) -> Result<Outputs, Failure> {
    args.required("--output").map_err(usage)?;
    if args.path("--mode").is_some() != args.path("--scores").is_some() {
        return Err(usage("--mode and --scores go together"));
    }
    let named = |option: &'static str| args.path(option).map(|path| (option, format!("{option} {}", path.display()), path));
    Outputs::find("attend", WRITTEN.into_iter().filter_map(named))
}

/// Writes the files that are named.
fn write(outputs: &Outputs, call: &Call, buffers: &Buffers) -> Result<(), Failure> {
    let total = call.total();
    let output = match call.rank {
        4 => vec![call.batches, call.q_heads, call.q_len, call.v_size],
        _ => vec![call.batches, call.q_len, call.q_heads * call.v_size],
    };
    let cache = |size| vec![call.batches, call.kv_heads, total, size];
    let scores = vec![call.batches, call.q_heads, call.q_len, total];
    outputs.write(|option, target| match option {
        "--output" => npy::write_to(target, &output, &buffers.output),
        "--scores" => npy::write_to(target, &scores, &buffers.scores),
        "--present-key" => npy::write_to(target, &cache(call.size), &buffers.present_key),
        _ => npy::write_to(target, &cache(call.v_size), &buffers.present_value),
    })
}
