//! Whole sequences: random sessions of causal cached chunks at either entry, refused ones among them, against one plain
//! call over the positions that were accepted.

use crate::call::*;
use crate::caps::{fault, odd_softcap, random_cap};
use crate::compare::{compare, Memory};
use crate::random::Random;

/// The rows of one position, each [batch][head][size].
#[derive(Clone)]
struct Position {
    query: Vec<u32>,
    key: Vec<u32>,
    value: Vec<u32>,
}

/// What stays the same through a session.
pub struct Session {
    settings: Record,
    scale: u32,
    softcap: u32,
    /// Elements are whole numbers.
    whole: bool,
    /// Of eight chunks so many have one position on purpose, and so many are given at the step entry.
    single: u64,
    stepped: u64,
}

#[derive(Default)]
pub struct Counts {
    pub sessions: u64,
    pub accepted: u64,
    pub refused: u64,
    pub positions: u64,
    pub longest: u64,
    /// Accepted chunks at the step entry.
    pub steps: u64,
    /// Chunks that the step entry refused by 10, and those of them that the general entry then accepted.
    pub off_profile: u64,
    pub given_again: u64,
    /// Sessions with accepted chunks at both entries, and those with more than one and all at the step entry.
    pub mixed: u64,
    pub wholly_steps: u64,
    /// Sessions with a cap, those of them at both entries, and those wholly at the step entry.
    pub capped: u64,
    pub capped_mixed: u64,
    pub capped_steps: u64,
    /// Sessions with a cap that is not allowed, in which every chunk is refused.
    pub wholly_refused: u64,
}

impl Counts {
    /// A session of these accepted chunks.
    fn add(&mut self, session: &Session, chunks: &[Chunk], positions: u64) {
        let steps = chunks.iter().filter(|chunk| chunk.entry == Entry::Step).count();
        let mixed = u64::from(steps > 0 && steps < chunks.len());
        let wholly_steps = u64::from(steps > 1 && steps == chunks.len());
        let capped = u64::from(f32::from_bits(session.softcap) != 0.0);
        self.sessions += 1;
        self.positions += positions;
        self.longest = self.longest.max(positions);
        self.mixed += mixed;
        self.wholly_steps += wholly_steps;
        self.capped += capped;
        self.capped_mixed += capped * mixed;
        self.capped_steps += capped * wholly_steps;
    }

    /// What was never reached.
    pub fn missing(&self) -> Vec<String> {
        let reached = [
            (self.steps, "a chunk accepted at the step entry"),
            (self.off_profile, "a chunk refused by 10"),
            (self.given_again, "a chunk given again at the general entry"),
            (self.mixed, "a session at both entries"),
            (self.wholly_steps, "a session wholly at the step entry"),
            (self.capped, "a session with a cap"),
            (self.capped_mixed, "a session with a cap at both entries"),
            (self.capped_steps, "a session with a cap wholly at the step entry"),
            (self.wholly_refused, "a session with a cap that is not allowed"),
        ];
        reached.iter().filter(|(count, _)| *count == 0).map(|(_, what)| what.to_string()).collect()
    }

    pub fn describe(&self) -> String {
        format!(
            "{} sessions, {} chunks accepted and {} refused, {} positions, {} at most; at the step entry {} chunks accepted \
             and {} refused by 10, {} of them then accepted at the general entry; {} sessions at both entries, {} wholly at the \
             step entry; with a cap {} sessions, {} at both entries, {} wholly at the step entry, and {} with one that is not \
             allowed",
            self.sessions, self.accepted, self.refused, self.positions, self.longest, self.steps, self.off_profile,
            self.given_again, self.mixed, self.wholly_steps, self.capped, self.capped_mixed, self.capped_steps,
            self.wholly_refused
        )
    }
}

/// An accepted chunk: where it began, where it was given and the output it left.
struct Chunk {
    past: usize,
    length: usize,
    /// How many of its positions are in the book: all, unless a stop has lost the others.
    kept: usize,
    entry: Entry,
    output: Vec<u32>,
}

fn bits(random: &mut Random, length: u64, whole: bool) -> Vec<u32> {
    (0..length)
        .map(|_| match whole {
            true => (random.below(5) as f32 - 2.0).to_bits(),
            false => (random.fraction() * 4.0 - 2.0).to_bits(),
        })
        .collect()
}

/// The row of (batch, head, position) in a tensor of rank 3 or 4, counted in rows.
fn row_at(rank: u64, heads: usize, length: usize, batch: usize, head: usize, position: usize) -> usize {
    match rank {
        3 => (batch * length + position) * heads + head,
        _ => (batch * heads + head) * length + position,
    }
}

/// A tensor of the given rank from the positions' rows.
fn tensor<'a>(rank: u64, batches: u64, heads: u64, size: u64, rows: &[&'a [u32]]) -> Vec<u32> {
    let (batches, heads, size, length) = (batches as usize, heads as usize, size as usize, rows.len());
    let mut out = vec![0; batches * heads * size * length];
    for (position, row) in rows.iter().enumerate() {
        for batch in 0..batches {
            for head in 0..heads {
                let to = row_at(rank, heads, length, batch, head, position) * size;
                let from = (batch * heads + head) * size;
                out[to..to + size].copy_from_slice(&row[from..from + size]);
            }
        }
    }
    out
}

impl Session {
    pub fn new(random: &mut Random) -> (Session, usize) {
        let long = random.once_in(100);
        let profile = random.once_in(3);
        let (single, stepped) = if profile { random.pick(&[(6, 4), (7, 6), (8, 8)]) } else { (0, 1) };
        let limit = |small: u64, long_limit: u64| if long { long_limit } else { small };
        let key_heads = random.between(1, limit(3, 1));
        let settings = Record {
            form: CACHED,
            mask_kind: NO_MASK,
            scale_kind: random.below(2),
            score_mode: if long || profile { NO_SCORES } else { random.pick(&[0, 1, 2, 3, NO_SCORES]) },
            rank: if profile { 4 } else { random.between(3, 4) },
            causal: 1,
            batches: if profile { 1 } else { random.between(1, limit(3, 2)) },
            query_heads: key_heads * random.between(1, limit(3, 2)),
            key_heads,
            size: random.between(1, limit(20, 4)),
            value_size: random.between(1, limit(20, 4)),
            mask_dims: [random.below(3), 1, 1, 1],
            ..Record::default()
        };
        let target = if long { 2048 } else if random.once_in(10) { random.between(1, 120) } else { random.between(1, 14) };
        let scale = random.pick(&[1f32, 0.25, 1024.0, f32::from_bits(1), 0.7]).to_bits();
        let softcap = match random.below(32) {
            0 => odd_softcap(random),
            1 => (-0f32).to_bits(),
            2..=12 => random_cap(random),
            _ => 0,
        };
        (Session { settings, scale, softcap, whole: random.once_in(3), single, stepped }, target as usize)
    }

    /// Whether the settings are such that a chunk may be accepted at all.
    pub fn allowed(&self) -> bool {
        fault(self.softcap).is_none()
    }

    pub fn settings(&self) -> &Record {
        &self.settings
    }

    /// Where a chunk is given: one that is not of the step profile often at the step entry first and then at the general one.
    fn entries(&self, random: &mut Random, call: &Call) -> &'static [Entry] {
        match random.below(8) < self.stepped {
            true if call.off_profile().is_empty() || random.once_in(2) => &[Entry::Step],
            true => &[Entry::Step, Entry::General],
            false => &[Entry::General],
        }
    }

    fn position(&self, random: &mut Random) -> Position {
        let s = &self.settings;
        Position {
            query: bits(random, s.batches * s.query_heads * s.size, self.whole),
            key: bits(random, s.batches * s.key_heads * s.size, self.whole),
            value: bits(random, s.batches * s.key_heads * s.value_size, self.whole),
        }
    }

    /// The call over these positions with this past, its outputs holding random bits.
    fn call(&self, random: &mut Random, form: u64, positions: &[Position], past: (usize, &Outputs)) -> Call {
        let (length, s) = (positions.len() as u64, &self.settings);
        let record = Record { form, query_length: length, key_length: length, past: past.0 as u64, ..*s };
        let lengths = record.lengths();
        let rows = |part: fn(&Position) -> &[u32]| positions.iter().map(part).collect::<Vec<_>>();
        let mut noise = |length: usize| (0..length).map(|_| random.bits32()).collect::<Vec<_>>();
        Call {
            record: record.numbers().to_vec(),
            scale: self.scale,
            softcap: self.softcap,
            inputs: Inputs {
                query: tensor(s.rank, s.batches, s.query_heads, s.size, &rows(|p| &p.query)),
                key: tensor(s.rank, s.batches, s.key_heads, s.size, &rows(|p| &p.key)),
                value: tensor(s.rank, s.batches, s.key_heads, s.value_size, &rows(|p| &p.value)),
                past_key: past.1.present_key.clone(),
                past_value: past.1.present_value.clone(),
                ..Inputs::default()
            },
            outputs: Outputs {
                output: noise(lengths.output),
                present_key: noise(lengths.present_key),
                present_value: noise(lengths.present_value),
                scores: noise(lengths.scores),
                work: noise(lengths.work),
            },
        }
    }
}

/// Another length for a tensor that is lent to the entry.
fn spoil_length(random: &mut Random, call: &mut Call, entry: Entry) {
    let (i, o) = (&mut call.inputs, &mut call.outputs);
    let tensors = [
        &mut i.query, &mut i.key, &mut i.value, &mut o.output, &mut o.present_key, &mut o.present_value, &mut o.work,
        &mut i.float_mask, &mut o.scores,
    ];
    let at = random.index(if entry == Entry::Step { 7 } else { tensors.len() });
    let tensor = tensors.into_iter().nth(at).expect("one of them");
    if tensor.is_empty() || random.once_in(2) {
        tensor.push(1f32.to_bits());
    } else {
        tensor.pop();
    }
}

fn spoil_element(random: &mut Random, positions: &mut [Position]) {
    let at = random.index(positions.len());
    let position = &mut positions[at];
    let rows = match random.below(3) {
        0 => &mut position.query,
        1 => &mut position.key,
        _ => &mut position.value,
    };
    let at = random.index(rows.len());
    rows[at] = random.pick(&[0x7FC0_0001, 0xFF80_0001, 0x7F80_0000, 0xFF80_0000, (65536.0078125f32).to_bits()]);
}

/// What has been accepted so far: the positions (the book), the chunks and the outputs of the last one.
#[derive(Default)]
pub struct History {
    book: Vec<Position>,
    chunks: Vec<Chunk>,
    last: Outputs,
}

/// A chunk that is given.
struct Given {
    positions: Vec<Position>,
    call: Call,
    /// 0: an element is spoilt, 1: a length is; else nothing.
    fault: u64,
    entries: &'static [Entry],
}

impl Given {
    fn new(random: &mut Random, session: &Session, history: &History, length: usize) -> Given {
        let fault = random.below(8);
        let mut positions: Vec<Position> = (0..length).map(|_| session.position(random)).collect();
        if fault == 0 {
            spoil_element(random, &mut positions);
        }
        let mut call = session.call(random, CACHED, &positions, (history.book.len(), &history.last));
        let entries = session.entries(random, &call);
        if fault == 1 {
            spoil_length(random, &mut call, entries[0]);
        }
        Given { positions, call, fault, entries }
    }
}

impl History {
    pub fn len(&self) -> usize {
        self.book.len()
    }

    /// Key and value rows of some positions, in the order of the caches.
    pub fn rows(&self, session: &Session, first: usize, end: usize) -> [Vec<u32>; 2] {
        let s = &session.settings;
        let rows = |part: fn(&Position) -> &[u32]| self.book[first..end].iter().map(part).collect::<Vec<_>>();
        [
            tensor(4, s.batches, s.key_heads, s.size, &rows(|p| &p.key)),
            tensor(4, s.batches, s.key_heads, s.value_size, &rows(|p| &p.value)),
        ]
    }

    /// Keeps the first positions alone, whose caches these outputs have.
    pub fn keep(&mut self, positions: usize, last: Outputs) {
        self.book.truncate(positions);
        self.chunks.retain(|chunk| chunk.past < positions);
        for chunk in &mut self.chunks {
            chunk.kept = chunk.kept.min(positions - chunk.past);
        }
        self.last = last;
    }

    /// Gives the chunk at an entry and enters it where it is accepted. Where it is refused, but neither by 10 nor for its
    /// lengths, the plain call over the book and the chunk is refused too.
    fn give(
        &mut self, random: &mut Random, memory: &mut Memory, session: &Session, given: &Given, entry: Entry,
    ) -> Result<Answer, String> {
        let (call, length) = (&given.call, given.positions.len());
        let left = compare(memory, call, entry, random)?;
        let off_profile = entry == Entry::Step && !call.off_profile().is_empty();
        let entered = session.allowed() && !off_profile && given.fault > 1 && self.book.len() + length <= 2048;
        if entered != (left.answer.refusal == 0) || off_profile != (left.answer.refusal == 10) {
            return Err(format!("entered {entered}, but answered {:?}", left.answer));
        }
        if entered {
            if left.answer.total as usize != self.book.len() + length || left.answer.masked != 0 {
                return Err(format!("answered {:?}", left.answer));
            }
            let (past, output) = (self.book.len(), left.outputs.output.clone());
            self.chunks.push(Chunk { past, length, kept: length, entry, output });
            self.book.extend(given.positions.iter().cloned());
            self.last = left.outputs;
        } else if !off_profile && given.fault != 1 {
            let all: Vec<Position> = self.book.iter().chain(&given.positions).cloned().collect();
            let plain = session.call(random, PLAIN, &all, (0, &Outputs::default()));
            if compare(memory, &plain, Entry::General, random)?.answer.refusal == 0 {
                return Err(format!("the plain call over the book and the chunk is accepted\n  {}", plain.describe()));
            }
        }
        Ok(left.answer)
    }
}

/// Output rows and presents of the chunks have the bits of the plain call over the whole book.
fn against_plain(session: &Session, history: &History, plain: &[u32]) -> Result<(), String> {
    let (s, History { book, chunks, last }) = (&session.settings, history);
    let (heads, size) = (s.query_heads as usize, s.value_size as usize);
    for chunk in chunks {
        for batch in 0..s.batches as usize {
            for head in 0..heads {
                for i in 0..chunk.kept {
                    let mine = row_at(s.rank, heads, chunk.length, batch, head, i) * size;
                    let whole = row_at(s.rank, heads, book.len(), batch, head, chunk.past + i) * size;
                    if chunk.output[mine..mine + size] != plain[whole..whole + size] {
                        return Err(format!("row ({batch}, {head}, {i}) of the chunk at {} is not the plain call's", chunk.past));
                    }
                }
            }
        }
    }
    let [keys, values] = history.rows(session, 0, book.len());
    if last.present_key != keys || last.present_value != values {
        return Err("the last presents are not the book's rows".to_string());
    }
    Ok(())
}

/// Makes the plain call over the whole book and compares with it.
pub fn against_whole(
    random: &mut Random, memory: &mut Memory, session: &Session, history: &History,
) -> Result<(), String> {
    let plain = session.call(random, PLAIN, &history.book, (0, &Outputs::default()));
    let left = compare(memory, &plain, Entry::General, random);
    let left = left.map_err(|text| format!("the plain call: {text}\n  {}", plain.describe()))?;
    if left.answer.refusal != 0 {
        return Err(format!("the plain call over the book answered {:?}\n  {}", left.answer, plain.describe()));
    }
    against_plain(session, history, &left.outputs.output).map_err(|text| format!("{text}\n  {}", plain.describe()))
}

/// Makes the next chunk and gives it.
pub fn next_chunk(
    random: &mut Random, memory: &mut Memory, session: &Session, history: &mut History, length: usize, counts: &mut Counts,
) -> Result<(), String> {
    let given = Given::new(random, session, history, length);
    let past = history.book.len();
    for (at, &entry) in given.entries.iter().enumerate() {
        let answer = history
            .give(random, memory, session, &given, entry)
            .map_err(|text| format!("chunk of {length} at {past}, {entry:?} entry: {text}\n  {}", given.call.describe()))?;
        let accepted = answer.refusal == 0;
        counts.accepted += u64::from(accepted);
        counts.refused += u64::from(!accepted);
        counts.steps += u64::from(accepted && entry == Entry::Step);
        counts.off_profile += u64::from(answer.refusal == 10);
        counts.given_again += u64::from(accepted && at > 0);
    }
    Ok(())
}

/// A session whose cap is not allowed. Whatever is given, nothing is entered.
fn wholly_refused(
    random: &mut Random, memory: &mut Memory, session: &Session, target: usize, counts: &mut Counts,
) -> Result<(), String> {
    for _ in 0..4 {
        let most = if random.below(8) < session.single { 1 } else { target.min(9) };
        let length = random.between(1, most as u64) as usize;
        next_chunk(random, memory, session, &mut History::default(), length, counts)?;
    }
    counts.sessions += 1;
    counts.wholly_refused += 1;
    Ok(())
}

/// One session.
pub fn session(random: &mut Random, memory: &mut Memory, counts: &mut Counts) -> Result<(), String> {
    let (session, target) = Session::new(random);
    if !session.allowed() {
        return wholly_refused(random, memory, &session, target, counts);
    }
    let mut history = History::default();
    let most = if target > 200 { 400 } else { 1 + target as u64 / 2 };
    let mut past_limit = target == 2048;
    while history.book.len() < target {
        let positions = history.book.len();
        let most = if random.below(8) < session.single { 1 } else { most };
        let mut length = (random.between(1, most) as usize).min(target - positions);
        if past_limit && positions > 1500 {
            length = 2049 - positions;
            past_limit = false;
        }
        next_chunk(random, memory, &session, &mut history, length, counts)?;
    }
    if target == 2048 {
        // A 2,049th position, which is refused.
        next_chunk(random, memory, &session, &mut history, 1, counts)?;
    }
    counts.add(&session, &history.chunks, history.book.len() as u64);
    against_whole(random, memory, &session, &history)
}
