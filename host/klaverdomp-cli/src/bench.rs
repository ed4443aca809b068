// How long calls and saved sessions take: the library beside a plain C program of the same rounding order, and where the library's time
// goes.

mod sessions;

use crate::args::Args;
use crate::clock::seconds;
use crate::{progress, say, Failure};
use klaverdomp::{attention, is_step, step, Buffers, Call, Done, Form, Inputs, StepInputs};
use std::cell::RefCell;
use std::ffi::OsString;
use std::hint::black_box;
use std::time::{Duration, Instant};

pub const HELP: &str = "\
klaverdomp bench - how long calls and saved sessions take

  klaverdomp bench [--seconds S] [--shape N | --sessions] [--no-shares]

  --seconds S    time for each measurement, at least 5 rounds each (default 3)
  --shape N      only this one of the five shapes, 1 to 5, and no saved sessions
  --sessions     only saved sessions
  --no-shares    only the ratios

First the library's general entry beside a plain C program that does every operation in the same order
(reference/reference.c, gcc -O3 -ffp-contract=off for baseline x86-64; the library is built for the same), both on one
thread. Their outputs are compared bit for bit. Then the library, the C program and a refused call take turns, one call each
a round. The times are medians of the thread's processor time over the rounds, and 'ratio' is library / plain C; in brackets
stand the ratios of single rounds from the 10th to the 90th in a hundred. The buffers are warm: all calls of a shape read and
write the same ones, again and again, so the caches of the processor hold what fits. A decode step is a cached call of one
position after P past ones; a prefill is a cached call without a past.

'refused' is the same call with a NaN as the last element of V: the whole check and nothing else.

Then, on the shapes that the step entry takes, which are the decode steps of one batch, its outputs are compared with those of
the general entry bit for bit, and the step entry, the general entry and the C program take turns in the same way.
'step / general' and 'step / C' are ratios of medians, and in brackets stand those of single rounds.

Then, on the two shapes of 512 positions, the general entry and the C program with a score cap of 30, compared bit for bit,
and the general entry without a cap take turns. 'ratio' is library / plain C, both with the cap, and 'with / without' is the
library with the cap / without it.

Then saved sessions, in memory: a load of 2,048 positions into caches, an append of 512 to a file that is begun, and an append
of one position behind 2,047, which reads the whole file first. The library and a plain C program that does the same checks
(reference/session_file.c) are compared byte for byte and take turns with a memcpy of as many bytes as the whole file has.

The shares are differences between medians of library calls that take turns, since a call cannot be looked into from outside:
  check          the refused call
  caches         the cached call less the plain one over the same positions, each less its own refused call
  dot            the plain call less the one with D = 1, each less its own refused call
  weighted sum   the plain call less the one with Dv = 1, each less its own refused call
  softmax, rest  what is left of the plain call, a dot product of one term and one column included
They are estimates: a part may overlap the memory traffic of another, and a small one may come out below 0.
";

const SHAPES: [Shape; 5] = [
    Shape { name: "decode step B1 Hq8 Hkv8 P511 D64", batches: 1, q_heads: 8, kv_heads: 8, past: 511, len: 1, size: 64 },
    Shape { name: "decode step B1 Hq32 Hkv8 P2047 D128", batches: 1, q_heads: 32, kv_heads: 8, past: 2047, len: 1, size: 128 },
    Shape { name: "decode step B8 Hq8 Hkv8 P255 D64", batches: 8, q_heads: 8, kv_heads: 8, past: 255, len: 1, size: 64 },
    Shape { name: "causal prefill B1 Hq8 Hkv8 S512 D64", batches: 1, q_heads: 8, kv_heads: 8, past: 0, len: 512, size: 64 },
    Shape { name: "causal prefill B1 Hq8 Hkv2 S2048 D64", batches: 1, q_heads: 8, kv_heads: 2, past: 0, len: 2048, size: 64 },
];

/// The cap of the rows that have one.
const SOFTCAP: f32 = 30.0;

struct Shape {
    name: &'static str,
    batches: u64,
    q_heads: u64,
    kv_heads: u64,
    past: u64,
    len: u64,
    size: u64,
}

impl Shape {
    fn cached(&self) -> Call {
        let call = Call::cached(self.past, self.len).with_batches(self.batches).with_heads(self.q_heads, self.kv_heads);
        call.with_size(self.size).with_causal()
    }

    /// The plain call whose rows see the same keys. A single query of a decode step sees all, so there it is not causal.
    fn plain(&self) -> Call {
        let cached = self.cached();
        let causal = u64::from(self.past == 0);
        Call { form: Form::Plain, k_len: cached.total(), past: 0, causal, ..cached }
    }
}

pub fn run(words: Vec<OsString>) -> Result<(), Failure> {
    let usage = |words: String| Failure::Usage(words, "bench");
    let args = Args::parse(words, &["--seconds", "--shape"], &["--sessions", "--no-shares"]).map_err(usage)?;
    let budget: f64 = args.number("--seconds", "a number").map_err(usage)?.unwrap_or(3.0);
    if !(0.0..=3600.0).contains(&budget) {
        return Err(usage(format!("--seconds {budget} is not from 0 to 3600")));
    }
    let chosen: Option<usize> = args.number("--shape", "a whole number").map_err(usage)?;
    if chosen.is_some_and(|n| !(1..=SHAPES.len()).contains(&n)) {
        return Err(usage(format!("--shape: there are shapes 1 to {}", SHAPES.len())));
    }
    let shapes: Vec<&Shape> =
        SHAPES.iter().enumerate().filter(|(n, _)| chosen.is_none_or(|one| one == n + 1)).map(|(_, s)| s).collect();
    let time = Duration::from_secs_f64(budget);
    if args.flag("--sessions") {
        return match chosen {
            Some(_) => Err(usage("--sessions leaves out the shapes, so --shape does not go with it".to_string())),
            None => sessions::run(time),
        };
    }
    ratios(&shapes, time)?;
    steps(&shapes, time)?;
    caps(&shapes, time)?;
    if chosen.is_none() {
        sessions::run(time)?;
    }
    if args.flag("--no-shares") {
        return Ok(());
    }
    shares(&shapes, time)
}

fn ratios(shapes: &[&Shape], time: Duration) -> Result<(), Failure> {
    say("Medians of processor time over interleaved rounds, one thread, buffers warm. Ratio: library / plain C.\n\n")?;
    say(&format!(
        "{:<38}{:>12}{:>12}{:>8}{:>16}{:>12}{:>8}\n",
        "shape", "library", "plain C", "ratio", "[10% - 90%]", "refused", "rounds"
    ))?;
    for shape in shapes {
        let work = RefCell::new(Work::new(shape.cached()));
        let mut runs: Vec<Run> = vec![Box::new(|| work.borrow_mut().library()), Box::new(|| work.borrow_mut().refused())];
        if cfg!(reference) {
            work.borrow().compare_with_plain_c()?;
            runs.push(Box::new(|| work.borrow_mut().plain_c()));
        }
        let times = interleave(shape.name, &mut runs, time);
        let (c, (ratio, spread)) = beside_plain_c(&times[0], times.get(2));
        say(&format!(
            "{:<38}{:>12}{c:>12}{ratio:>8}{spread:>16}{:>12}{:>8}\n",
            shape.name,
            duration(median(&times[0])),
            duration(median(&times[1])),
            times[0].len()
        ))?;
    }
    if cfg!(not(reference)) {
        say("\nreference/ was not there when this tool was built, so there is no plain C program to compare with.\n")?;
    }
    Ok(())
}

/// The step entry beside the general entry and the plain C program, on the shapes that it takes.
fn steps(shapes: &[&Shape], time: Duration) -> Result<(), Failure> {
    let shapes: Vec<&Shape> = shapes.iter().copied().filter(|shape| is_step(&shape.cached())).collect();
    if shapes.is_empty() {
        return Ok(());
    }
    say("\nThe step entry beside the general entry and the plain C program, each taking its turn in a round.\n\n")?;
    say(&format!(
        "{:<38}{:>12}{:>12}{:>12}{:>16}{:>16}{:>10}{:>16}{:>8}\n",
        "shape", "step", "general", "plain C", "step / general", "[10% - 90%]", "step / C", "[10% - 90%]", "rounds"
    ))?;
    for shape in shapes {
        let work = RefCell::new(Work::new(shape.cached()));
        work.borrow().compare_with_step()?;
        let mut runs: Vec<Run> = vec![Box::new(|| work.borrow_mut().step()), Box::new(|| work.borrow_mut().library())];
        if cfg!(reference) {
            runs.push(Box::new(|| work.borrow_mut().plain_c()));
        }
        let times = interleave(shape.name, &mut runs, time);
        let (general, general_spread) = ratio(&times[0], &times[1]);
        let (c, (c_ratio, c_spread)) = beside_plain_c(&times[0], times.get(2));
        say(&format!(
            "{:<38}{:>12}{:>12}{c:>12}{general:>16}{general_spread:>16}{c_ratio:>10}{c_spread:>16}{:>8}\n",
            shape.name,
            duration(median(&times[0])),
            duration(median(&times[1])),
            times[0].len()
        ))?;
    }
    Ok(())
}

/// The general entry with a cap beside the plain C program with it, and beside itself without one, on the shapes of 512 positions.
fn caps(shapes: &[&Shape], time: Duration) -> Result<(), Failure> {
    let shapes: Vec<&Shape> = shapes.iter().copied().filter(|shape| shape.cached().total() == 512).collect();
    if shapes.is_empty() {
        return Ok(());
    }
    say(&format!(
        "\nWith a score cap of {SOFTCAP}: the library beside the plain C program, and beside itself without a cap.\n\n"
    ))?;
    say(&format!(
        "{:<38}{:>12}{:>12}{:>8}{:>16}{:>12}{:>16}{:>16}{:>8}\n",
        "shape", "library", "plain C", "ratio", "[10% - 90%]", "without", "with / without", "[10% - 90%]", "rounds"
    ))?;
    for shape in shapes {
        let work = RefCell::new(Work::new(shape.cached().with_softcap(SOFTCAP)));
        if cfg!(reference) {
            work.borrow().compare_with_plain_c()?;
        }
        let mut runs: Vec<Run> = vec![
            Box::new(|| work.borrow_mut().at(SOFTCAP, Work::library)),
            Box::new(|| work.borrow_mut().at(0.0, Work::library)),
        ];
        if cfg!(reference) {
            runs.push(Box::new(|| work.borrow_mut().at(SOFTCAP, Work::plain_c)));
        }
        let times = interleave(shape.name, &mut runs, time);
        let (more, more_spread) = ratio(&times[0], &times[1]);
        let (c, (c_ratio, c_spread)) = beside_plain_c(&times[0], times.get(2));
        say(&format!(
            "{:<38}{:>12}{c:>12}{c_ratio:>8}{c_spread:>16}{:>12}{more:>16}{more_spread:>16}{:>8}\n",
            shape.name,
            duration(median(&times[0])),
            duration(median(&times[1])),
            times[0].len()
        ))?;
    }
    Ok(())
}

fn shares(shapes: &[&Shape], time: Duration) -> Result<(), Failure> {
    say("\nWhere the library's time goes, by differences ('klaverdomp bench --help' says how each is measured):\n\n")?;
    say(&format!(
        "{:<38}{:>12}{:>14}{:>14}{:>14}{:>14}{:>14}\n",
        "shape", "call", "check", "caches", "dot", "softmax, rest", "weighted sum"
    ))?;
    for shape in shapes {
        let plain = shape.plain();
        let calls = [shape.cached(), plain, Call { size: 1, ..plain }, plain.with_value_size(1)];
        let works = calls.map(|call| RefCell::new(Work::new(call)));
        let mut runs: Vec<Run> = Vec::new();
        for work in &works {
            runs.push(Box::new(|| work.borrow_mut().library()));
        }
        for work in &works {
            runs.push(Box::new(|| work.borrow_mut().refused()));
        }
        let times: Vec<f64> = interleave(shape.name, &mut runs, time).iter().map(|times| median(times)).collect();
        let (cached, plain, small_key, small_value) = (times[0], times[1], times[2], times[3]);
        let checks = &times[4..];
        let rows = plain - checks[1];
        let dot = rows - (small_key - checks[2]);
        let sum = rows - (small_value - checks[3]);
        let parts = [checks[0], cached - checks[0] - rows, dot, rows - dot - sum, sum];
        let mut line = format!("{:<38}{:>12}", shape.name, duration(cached));
        for part in parts {
            line.push_str(&format!("{:>14}", format!("{:.1} %", 100.0 * part / cached)));
        }
        say(&format!("{line}\n"))?;
    }
    Ok(())
}

/// A call with tensors of its own.
struct Work {
    call: Call,
    query: Vec<f32>,
    key: Vec<f32>,
    value: Vec<f32>,
    past_key: Vec<f32>,
    past_value: Vec<f32>,
    buffers: Buffers,
}

impl Work {
    fn new(call: Call) -> Work {
        let lengths = call.lengths();
        let mut numbers = Numbers(0x2545_F491_4F6C_DD1D);
        let mut tensor = |len| (0..len).map(|_| numbers.next()).collect();
        Work {
            call,
            query: tensor(lengths.query),
            key: tensor(lengths.key),
            value: tensor(lengths.value),
            past_key: tensor(lengths.past_key),
            past_value: tensor(lengths.past_value),
            buffers: Buffers::new(&call),
        }
    }

    fn step_inputs(&self) -> StepInputs<'_> {
        StepInputs {
            query: &self.query,
            key: &self.key,
            value: &self.value,
            past_key: &self.past_key,
            past_value: &self.past_value,
        }
    }

    fn inputs(&self) -> Inputs<'_> {
        self.step_inputs().into()
    }

    fn library(&mut self) {
        let mut buffers = std::mem::take(&mut self.buffers);
        let _ = black_box(attention(&self.call, &self.inputs(), &mut buffers.lend()));
        self.buffers = buffers;
    }

    /// A run on the same tensors with this cap.
    fn at(&mut self, softcap: f32, run: fn(&mut Work)) {
        self.call.softcap = softcap;
        run(self);
    }

    fn step(&mut self) {
        let mut buffers = std::mem::take(&mut self.buffers);
        let _ = black_box(step(&self.call, &self.step_inputs(), &mut buffers.lend_step()));
        self.buffers = buffers;
    }

    /// The call with a NaN as the last element that the check looks at.
    fn refused(&mut self) {
        let last = self.value.len() - 1;
        let kept = std::mem::replace(&mut self.value[last], f32::NAN);
        self.library();
        self.value[last] = kept;
    }

    fn plain_c(&mut self) {
        let mut buffers = std::mem::take(&mut self.buffers);
        let _ = black_box(plain_c(&self.call, &self.inputs(), &mut buffers.lend()));
        self.buffers = buffers;
    }

    fn compare_with_plain_c(&self) -> Result<(), Failure> {
        self.compare("the plain C program", |theirs| plain_c(&self.call, &self.inputs(), &mut theirs.lend()))
    }

    fn compare_with_step(&self) -> Result<(), Failure> {
        self.compare("the step entry", |theirs| step(&self.call, &self.step_inputs(), &mut theirs.lend_step()).ok())
    }

    /// The general entry's answer and bits are those of the other.
    fn compare(&self, name: &str, other: impl Fn(&mut Buffers) -> Option<Done>) -> Result<(), Failure> {
        let (mut ours, mut theirs) = (Buffers::new(&self.call), Buffers::new(&self.call));
        let done = attention(&self.call, &self.inputs(), &mut ours.lend());
        let done = done.map_err(|refusal| Failure::Refused(refusal.to_string()))?;
        let same = other(&mut theirs) == Some(done);
        let bits = |buffers: &Buffers| {
            let tensors = [&buffers.output, &buffers.present_key, &buffers.present_value, &buffers.work];
            tensors.map(|tensor| tensor.iter().map(|x| x.to_bits()).collect::<Vec<u32>>())
        };
        if same && bits(&ours) == bits(&theirs) {
            return Ok(());
        }
        Err(Failure::Differs(format!("the general entry and {name} differ")))
    }
}

#[cfg(reference)]
use crate::reference::attention as plain_c;

/// Stands where there is no plain C program, and is never called there.
#[cfg(not(reference))]
fn plain_c(_: &Call, _: &Inputs, _: &mut klaverdomp::Outputs) -> Option<Done> {
    None
}

type Run<'a> = Box<dyn FnMut() + 'a>;

/// Rounds in which each takes its turn, until the time is over and there are at least 5; the seconds of each.
fn interleave(name: &str, runs: &mut [Run], time: Duration) -> Vec<Vec<f64>> {
    // once without a clock, so that buffers are warm
    runs.iter_mut().for_each(|run| run());
    let mut times = vec![Vec::new(); runs.len()];
    let start = Instant::now();
    let mut shown = start;
    let mut rounds = 0;
    while rounds < 5 || start.elapsed() < time {
        for (run, times) in runs.iter_mut().zip(&mut times) {
            let before = seconds();
            run();
            times.push(seconds() - before);
        }
        rounds += 1;
        if shown.elapsed() > Duration::from_millis(200) {
            shown = Instant::now();
            progress(&format!("{name}: round {rounds}, {:.0} s", start.elapsed().as_secs_f64()));
        }
    }
    progress("");
    times
}

fn median(times: &[f64]) -> f64 {
    let mut sorted = times.to_vec();
    sorted.sort_by(f64::total_cmp);
    let middle = sorted.len() / 2;
    match sorted.len() % 2 {
        1 => sorted[middle],
        _ => (sorted[middle - 1] + sorted[middle]) / 2.0,
    }
}

/// The ratio of two medians, and the ratios of single rounds from the 10th to the 90th in a hundred.
fn ratio(times: &[f64], others: &[f64]) -> (String, String) {
    let mut each: Vec<f64> = times.iter().zip(others).map(|(time, other)| time / other).collect();
    each.sort_by(f64::total_cmp);
    let spread = format!("[{:.2} - {:.2}]", each[each.len() / 10], each[each.len() - 1 - each.len() / 10]);
    (format!("{:.2}", median(times) / median(others)), spread)
}

/// The median of the plain C program and the ratio to it; dashes where there is none.
fn beside_plain_c(times: &[f64], c: Option<&Vec<f64>>) -> (String, (String, String)) {
    match c {
        Some(c) => (duration(median(c)), ratio(times, c)),
        None => ("-".to_string(), ("-".to_string(), "-".to_string())),
    }
}

fn duration(seconds: f64) -> String {
    match seconds {
        s if s >= 1.0 => format!("{s:.2} s"),
        s if s >= 0.001 => format!("{:.2} ms", s * 1e3),
        s => format!("{:.1} us", s * 1e6),
    }
}

/// Numbers from -2 to 2 by a fixed rule (xorshift).
struct Numbers(u64);

impl Numbers {
    fn next(&mut self) -> f32 {
        self.0 ^= self.0 << 13;
        self.0 ^= self.0 >> 7;
        self.0 ^= self.0 << 17;
        (self.0 >> 40) as f32 / (1 << 22) as f32 - 2.0
    }
}

#[cfg(test)]
mod tests {
    use super::*;

    #[test]
    fn medians_and_durations() {
        assert_eq!(median(&[3.0, 1.0, 2.0]), 2.0);
        assert_eq!(median(&[4.0, 1.0, 2.0, 3.0]), 2.5);
        assert_eq!([2.5, 0.0025, 0.000_025].map(duration), ["2.50 s", "2.50 ms", "25.0 us"]);
    }

    #[test]
    fn ratios_and_their_spread() {
        let words = |ratio: &str, spread: &str| (ratio.to_string(), spread.to_string());
        assert_eq!(ratio(&[1.0, 2.0, 6.0], &[4.0, 4.0, 4.0]), words("0.50", "[0.25 - 1.50]"));
        let times: Vec<f64> = (0..20).map(f64::from).collect();
        assert_eq!(ratio(&times, &[1.0; 20]), words("9.50", "[2.00 - 17.00]"));
        assert_eq!(beside_plain_c(&[1.0], Some(&vec![2.0])), ("2.00 s".to_string(), words("0.50", "[0.50 - 0.50]")));
        assert_eq!(beside_plain_c(&[1.0], None), ("-".to_string(), words("-", "-")));
    }

    #[test]
    fn the_first_two_shapes_are_steps() {
        assert_eq!(SHAPES.map(|shape| is_step(&shape.cached())), [true, true, false, false, false]);
        for shape in &SHAPES[..2] {
            let mut work = Work::new(shape.cached());
            assert!(work.compare_with_step().is_ok());
            // bits that differ are noticed
            let other = |theirs: &mut Buffers| {
                let done = step(&work.call, &work.step_inputs(), &mut theirs.lend_step()).ok();
                theirs.present_value[0] = -theirs.present_value[0];
                done
            };
            assert!(matches!(work.compare("", other), Err(Failure::Differs(_))));
            assert!(matches!(work.compare("", |_| None), Err(Failure::Differs(_))));
            *work.value.last_mut().unwrap() = f32::NAN;
            let refusal = step(&work.call, &work.step_inputs(), &mut Buffers::new(&work.call).lend_step()).unwrap_err();
            assert_eq!((refusal.number, refusal.tensor, refusal.index), (9, 4, work.value.len() as u64 - 1));
        }
    }

    #[test]
    fn the_cap_is_at_work_on_two_shapes() {
        let capped = SHAPES.map(|shape| shape.cached().total() == 512);
        assert_eq!(capped, [true, false, false, true, false]);
        let call = SHAPES[0].cached();
        let works = [call, call.with_softcap(SOFTCAP)].map(|call| {
            let mut work = Work::new(call);
            work.library();
            work.buffers.work.iter().map(|x| x.to_bits()).collect::<Vec<u32>>()
        });
        assert_ne!(works[0], works[1]);
    }

    #[test]
    fn every_shape_is_accepted_and_refused_as_meant() {
        for shape in &SHAPES[..4] {
            for call in [shape.cached(), shape.plain(), Call { size: 1, ..shape.plain() }, shape.plain().with_value_size(1)] {
                let mut work = Work::new(call);
                let mut buffers = Buffers::new(&call);
                let done = attention(&call, &work.inputs(), &mut buffers.lend()).unwrap();
                assert_eq!((done.total, done.masked_rows), (shape.past + shape.len, 0));
                *work.value.last_mut().unwrap() = f32::NAN;
                let refusal = attention(&call, &work.inputs(), &mut buffers.lend()).unwrap_err();
                assert_eq!((refusal.number, refusal.tensor, refusal.index), (9, 4, work.value.len() as u64 - 1));
            }
        }
    }
}
