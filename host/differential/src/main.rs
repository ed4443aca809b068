//! Differential tests of the static library: the scope document's examples, the exponential and the tables, random
//! sequences, and random calls against the plain f32 reference (bit for bit) and the f64 program (within a bound). Beside
//! each random call stands one at the step entry, and beside each of either that has a score cap the same one without it.
//! Dot products that are shown are held to their rule a second time. Saved sessions: every cut of some files, every other
//! value of every byte of small ones, random calls of their functions against the reference's reader and writer, and random
//! sessions that are saved, stopped and taken up.
//!
//!   klaverdomp-differential [--calls N] [--seed S] [--sessions N] [--files N] [--saved N] [--exp-stride N] [--exact FILE]
//!   klaverdomp-differential --seed S --only K        one random call and its step again, with their parameters
//!   klaverdomp-differential --seed S --only-session K
//!   klaverdomp-differential --seed S --only-file K
//!   klaverdomp-differential --seed S --only-saved K
//!
//! The file has the lines that `tools/exponential_vectors.py lines` prints.
//! The last line begins with `differential:`. The exit status is 0 exactly if nothing differs.

mod accuracy;
mod call;
mod caps;
mod compare;
mod coverage;
mod damage;
mod dots;
mod exact;
mod examples;
mod exponential;
mod ffi;
mod file_coverage;
mod files;
mod generate;
mod guard;
mod lines;
mod random;
mod resumed;
mod saved;
mod sequences;
mod session_ffi;
mod steps;
mod textbook;

use accuracy::Accuracy;
use call::{Call, Entry};
use compare::Memory;
use coverage::{Coverage, StepCoverage};
use random::Random;
use std::process::ExitCode;
use std::time::Instant;

struct Options {
    calls: u64,
    seed: u64,
    sessions: u64,
    files: u64,
    saved: u64,
    exp_stride: u64,
    exact: Option<String>,
    only: Option<u64>,
    only_session: Option<u64>,
    only_file: Option<u64>,
    only_saved: Option<u64>,
}

impl Options {
    fn read(words: impl Iterator<Item = String>) -> Result<Options, String> {
        let mut options = Options {
            calls: 300_000,
            seed: 1,
            sessions: 3_000,
            files: 400_000,
            saved: 1_500,
            exp_stride: 61,
            exact: None,
            only: None,
            only_session: None,
            only_file: None,
            only_saved: None,
        };
        let mut words = words;
        while let Some(word) = words.next() {
            let value = words.next().ok_or(format!("{word} wants a value"))?;
            if word == "--exact" {
                options.exact = Some(value);
                continue;
            }
            let number = value.parse::<u64>().map_err(|_| format!("{word} wants a number"))?;
            match word.as_str() {
                "--calls" => options.calls = number,
                "--seed" => options.seed = number,
                "--sessions" => options.sessions = number,
                "--files" => options.files = number,
                "--saved" => options.saved = number,
                "--exp-stride" => options.exp_stride = number.max(1),
                "--only" => options.only = Some(number),
                "--only-session" => options.only_session = Some(number),
                "--only-file" => options.only_file = Some(number),
                "--only-saved" => options.only_saved = Some(number),
                _ => return Err(format!("no option {word}")),
            }
        }
        Ok(options)
    }
}

/// What the random calls came to.
#[derive(Default)]
struct Tally {
    coverage: Coverage,
    steps: StepCoverage,
    caps: caps::Reached,
    step_caps: caps::Reached,
    dots: dots::Reached,
    step_dots: dots::Reached,
    accuracy: Accuracy,
}

/// The step of a call has the numbers from 2^62 on, so that it has nothing in common with a random call.
const STEPS: u64 = 1 << 62;

fn random_call(seed: u64, number: u64, memory: &mut Memory, tally: &mut Tally) -> Result<(), String> {
    let (mut random, mut step_random) = (Random::new(seed, number), Random::new(seed, STEPS + number));
    let call = generate::random_call(&mut random);
    guard::note(guard::Part::Call, seed, number);
    let at = |name: &str, call: &Call, text: String| {
        format!("{name} {number}: {text}\n  {}\n  replay with --seed {seed} --only {number}", call.describe())
    };
    let left = compare::compare(memory, &call, Entry::General, &mut random).map_err(|text| at("call", &call, text))?;
    tally.coverage.add(&call, &left.answer);
    let capped = tally.caps.add(memory, &call, Entry::General, &left, &mut random);
    capped.map_err(|text| at("call", &call, text))?;
    tally.dots.add(&call, Entry::General, &left).map_err(|text| at("call", &call, text))?;
    if left.answer.refusal == 0 {
        let accuracy = accuracy::check(&call, &left.outputs, &left.answer, number).map_err(|text| at("call", &call, text))?;
        tally.accuracy.join(&accuracy);
    }
    let step = steps::random_step(&mut step_random, &call);
    let left = compare::compare(memory, &step, Entry::Step, &mut step_random).map_err(|text| at("step", &step, text))?;
    tally.steps.add(&step, &left.answer);
    let capped = tally.step_caps.add(memory, &step, Entry::Step, &left, &mut step_random);
    capped.map_err(|text| at("step", &step, text))?;
    tally.step_dots.add(&step, Entry::Step, &left).map_err(|text| at("step", &step, text))?;
    Ok(())
}

/// A session has the numbers from 2^63 on, so that it has nothing in common with a random call.
fn session(seed: u64, number: u64, memory: &mut Memory, counts: &mut sequences::Counts) -> Result<(), String> {
    let mut random = Random::new(seed, (1 << 63) + number);
    guard::note(guard::Part::Session, seed, number);
    sequences::session(&mut random, memory, counts)
        .map_err(|text| format!("session {number}: {text}\n  replay with --seed {seed} --only-session {number}"))
}

/// A call of a function of saved sessions has the numbers from 2^61 on.
fn random_file_call(
    seed: u64, number: u64, memory: &mut files::Memory, coverage: &mut file_coverage::Coverage,
) -> Result<(), String> {
    let mut random = Random::new(seed, (1 << 61) + number);
    guard::note(guard::Part::File, seed, number);
    let call = damage::random_file_call(&mut random);
    let (answer, _) = files::compare(memory, &call, &mut random)
        .map_err(|text| format!("file call {number}: {text}\n  replay with --seed {seed} --only-file {number}"))?;
    coverage.add(&call, &answer);
    Ok(())
}

/// A saved session has the numbers from 2^60 on.
fn saved_session(
    seed: u64, number: u64, memory: (&mut Memory, &mut files::Memory), counts: &mut resumed::Counts,
) -> Result<(), String> {
    let mut random = Random::new(seed, (1 << 60) + number);
    guard::note(guard::Part::Saved, seed, number);
    resumed::session(&mut random, memory, counts)
        .map_err(|text| format!("saved session {number}: {text}\n  replay with --seed {seed} --only-saved {number}"))
}

/// Saved sessions: files that are known, random calls, and sessions that are stopped and taken up. The calls that were compared.
fn saved_sessions(options: &Options) -> Result<String, String> {
    let (seed, start, mut memory) = (options.seed, Instant::now(), files::Memory::new());
    guard::note(guard::Part::Other, seed, 1);
    let mut random = Random::new(seed, 1 << 59);
    let known = saved::Known { memory: &mut memory, random: &mut random, counts: saved::Counts::default() };
    let known = known.check().map_err(|text| format!("files: {text}"))?;
    println!(
        "files: {} cuts, {} damages of one byte, {} calls; {:.1} s",
        known.cuts, known.damages, known.calls, start.elapsed().as_secs_f64()
    );
    let (start, mut coverage) = (Instant::now(), file_coverage::Coverage::default());
    for number in 0..options.files {
        random_file_call(seed, number, &mut memory, &mut coverage)?;
    }
    println!("file calls: {}; {:.1} s", coverage.describe(), start.elapsed().as_secs_f64());
    reached(options.files >= 200_000, coverage.missing())?;
    let (start, mut calls, mut counts) = (Instant::now(), Memory::new(), resumed::Counts::default());
    for number in 0..options.saved {
        saved_session(seed, number, (&mut calls, &mut memory), &mut counts)?;
    }
    println!("saved sessions: {}; {:.1} s", counts.describe(), start.elapsed().as_secs_f64());
    reached(options.saved >= 1_000, counts.missing())?;
    Ok(format!("{} calls on saved sessions, {} sessions saved and taken up", known.calls + coverage.calls, counts.sessions))
}

fn replay_call(seed: u64, number: u64) -> Result<String, String> {
    let mut tally = Tally::default();
    let call = generate::random_call(&mut Random::new(seed, number));
    println!("call {number}: {}", call.describe());
    println!("  the reference answers {:?}", compare::by_reference(&call, Entry::General).0);
    let step = steps::random_step(&mut Random::new(seed, STEPS + number), &call);
    println!("step {number}: {}", step.describe());
    println!("  the reference answers {:?}", compare::by_reference(&step, Entry::Step).0);
    random_call(seed, number, &mut Memory::new(), &mut tally)?;
    Ok("differential: 1 call and 1 step compared, no difference".to_string())
}

fn replay_session(seed: u64, number: u64) -> Result<String, String> {
    let mut counts = sequences::Counts::default();
    session(seed, number, &mut Memory::new(), &mut counts)?;
    Ok(format!("differential: 1 session of {} chunks compared, no difference", counts.accepted + counts.refused))
}

fn replay_file(seed: u64, number: u64) -> Result<String, String> {
    let call = damage::random_file_call(&mut Random::new(seed, (1 << 61) + number));
    println!("file call {number}: {}", call.describe());
    println!("  the reference answers {:?}", files::by_reference(&call).0);
    random_file_call(seed, number, &mut files::Memory::new(), &mut file_coverage::Coverage::default())?;
    Ok("differential: 1 call on a saved session compared, no difference".to_string())
}

fn replay_saved(seed: u64, number: u64) -> Result<String, String> {
    let mut counts = resumed::Counts::default();
    saved_session(seed, number, (&mut Memory::new(), &mut files::Memory::new()), &mut counts)?;
    Ok(format!("differential: 1 saved session compared, taken up {} times, no difference", counts.taken_up))
}

fn say_tally(tally: &Tally, seconds: f64) {
    let accuracy = &tally.accuracy;
    println!("calls: {}; {seconds:.1} s with the steps", tally.coverage.describe());
    println!("steps: {}", tally.steps.describe());
    println!("caps: {}", tally.caps.describe(Entry::General));
    println!("caps of steps: {}", tally.step_caps.describe(Entry::Step));
    println!("dots: {}", tally.dots.describe(Entry::General));
    println!("dots of steps: {}", tally.step_dots.describe(Entry::Step));
    println!(
        "f64 program: {} rows, {} of them loose; largest output error {:.3e} of its sum of |weight * value| (call {}), \
         {:.3e} where scores are at most 16 without a cap (call {}), largest weight error {:.3e} (call {}), largest error of a \
         capped score {:.3e} of its cap (call {}), largest part of the bound {:.3} (call {})",
        accuracy.rows, accuracy.loose_rows, accuracy.output_error, accuracy.output_error_call, accuracy.ordinary_error,
        accuracy.ordinary_error_call, accuracy.weight_error, accuracy.weight_error_call, accuracy.capped_error,
        accuracy.capped_error_call, accuracy.bound_used, accuracy.bound_used_call
    );
}

fn exact_lines(path: &str) -> Result<lines::Counts, String> {
    let text = std::fs::read_to_string(path).map_err(|error| format!("{path}: {error}"))?;
    let counts = lines::check(&text).map_err(|error| format!("{path}: {error}"))?;
    println!(
        "exact lines: {} values of E, {} row elements, {} power entries, {} default scales",
        counts.values, counts.row_elements, counts.powers, counts.scales
    );
    Ok(counts)
}

fn run(options: &Options) -> Result<String, String> {
    let seed = options.seed;
    if let Some(number) = options.only {
        return replay_call(seed, number);
    }
    if let Some(number) = options.only_session {
        return replay_session(seed, number);
    }
    if let Some(number) = options.only_file {
        return replay_file(seed, number);
    }
    if let Some(number) = options.only_saved {
        return replay_saved(seed, number);
    }
    guard::note(guard::Part::Other, seed, 0);
    let examples = examples::check().map_err(|text| format!("examples: {text}"))?;
    println!("examples: {examples} calls");

    let start = Instant::now();
    let exp = exponential::check(seed, options.exp_stride, 300_000, 3_000).map_err(|text| format!("exponential: {text}"))?;
    println!(
        "exponential: {} of 2^32 patterns, {} of them as row elements, {} of them in whole numbers, {} special patterns, {} row \
         elements of them, {} more values in whole numbers, {} more row elements, {} table arguments; {:.1} s",
        exp.patterns, exp.pattern_elements, exp.pattern_exact, exp.special, exp.special_elements, exp.exact, exp.row_elements,
        exp.entries, start.elapsed().as_secs_f64()
    );

    let lines = options.exact.as_deref().map_or(Ok(lines::Counts::default()), exact_lines)?;

    let (start, mut memory) = (Instant::now(), Memory::new());
    let mut sessions = sequences::Counts::default();
    for number in 0..options.sessions {
        session(seed, number, &mut memory, &mut sessions)?;
    }
    println!("sequences: {}; {:.1} s", sessions.describe(), start.elapsed().as_secs_f64());
    reached(options.sessions >= 2_000, sessions.missing())?;
    let saved = saved_sessions(options)?;

    let (start, mut tally) = (Instant::now(), Tally::default());
    for number in 0..options.calls {
        random_call(seed, number, &mut memory, &mut tally)?;
    }
    say_tally(&tally, start.elapsed().as_secs_f64());
    let caps = [tally.caps.missing(Entry::General), tally.step_caps.missing(Entry::Step)].concat();
    let dots = [tally.dots.missing(Entry::General), tally.step_dots.missing(Entry::Step)].concat();
    reached(options.calls >= 200_000, [tally.coverage.missing(), tally.steps.missing(), caps, dots].concat())?;
    Ok(format!(
        "differential: {} calls compared, {} accepted, {} steps compared, {} accepted, {} chunks of {} sessions, {saved}, {} values of E, \
         0 differences",
        options.calls, tally.coverage.answers[0], tally.steps.answers.iter().sum::<u64>(), tally.steps.answers[0],
        sessions.accepted + sessions.refused, sessions.sessions, exp.patterns + exp.exact + lines.values
    ))
}

/// A full run that misses something fails.
fn reached(full: bool, missing: Vec<String>) -> Result<(), String> {
    if full && !missing.is_empty() {
        return Err(format!("the run did not reach {}", missing.join(", ")));
    }
    Ok(())
}

fn main() -> ExitCode {
    guard::report_touches();
    match Options::read(std::env::args().skip(1)).and_then(|options| run(&options)) {
        Ok(text) => {
            println!("{text}");
            ExitCode::SUCCESS
        }
        Err(text) => {
            println!("{text}\ndifferential: failed, stopped at what is said above");
            ExitCode::FAILURE
        }
    }
}

#[cfg(test)]
mod tests {
    use super::*;

    #[test]
    fn a_short_run_finds_no_difference() {
        let words = "--calls 3000 --seed 7 --sessions 50 --files 3000 --saved 50 --exp-stride 100003".split(' ').map(String::from);
        run(&Options::read(words).unwrap()).unwrap();
    }
}
