//! Sessions that are saved as they go, stopped and taken up from their file, which a stop may have cut anywhere behind what was said to be
//! saved. Their outputs have the bits of one plain call, as those of a session that was never stopped have.

use crate::call::Outputs;
use crate::compare;
use crate::files::{self, Answer, FileCall};
use crate::random::Random;
use crate::saved::{Caches, FIRST};
use crate::sequences::{self, History, Session};

#[derive(Default)]
pub struct Counts {
    pub sessions: u64,
    saves: u64,
    pub taken_up: u64,
    /// Stops that left a cut record, that lost positions, and that left none.
    cut: u64,
    lost: u64,
    empty: u64,
    /// Sessions that were taken up more than once, and those of 2,048 positions.
    again: u64,
    longest: u64,
    chunks: sequences::Counts,
}

impl Counts {
    /// What was never reached.
    pub fn missing(&self) -> Vec<String> {
        let reached = [
            (self.cut, "a stop that cuts a record"),
            (self.lost, "a stop that loses positions"),
            (self.empty, "a stop before the first position is saved"),
            (self.again, "a session taken up more than once"),
            (self.longest, "a saved session of 2,048 positions"),
            (self.chunks.steps, "a step of a saved session"),
        ];
        reached.iter().filter(|(count, _)| *count == 0).map(|(_, what)| what.to_string()).collect()
    }

    pub fn describe(&self) -> String {
        format!(
            "{} sessions, {} chunks accepted and {} refused, {} saves, taken up {} times, {} of them from a cut record, {} after a loss, \
             {} without a position; {} more than once; {} of 2,048 positions",
            self.sessions,
            self.chunks.accepted,
            self.chunks.refused,
            self.saves,
            self.taken_up,
            self.cut,
            self.lost,
            self.empty,
            self.again,
            self.longest
        )
    }
}

/// The file in memory: its buffer, how many bytes of it are the file, and how many positions were said to be saved.
struct File {
    buffer: Vec<u8>,
    used: u64,
    saved: usize,
}

/// Compares, and gives what the library left where it is done.
fn done(memory: &mut files::Memory, call: &FileCall, random: &mut Random) -> Result<(Answer, FileCall), String> {
    match files::compare(memory, call, random)? {
        (answer, after) if answer.refusal == 0 => Ok((answer, after)),
        (answer, _) => Err(format!("answered {answer:?}\n  {}", call.describe())),
    }
}

impl File {
    fn begin(
        random: &mut Random,
        memory: &mut files::Memory,
        session: &Session,
        history: &History,
        target: usize,
    ) -> Result<File, String> {
        let none = history.caches(session, 0, 0);
        let buffer: Vec<u8> = (0..FIRST + target * none.record() + 9).map(|_| random.bits32() as u8).collect();
        let (answer, after) = done(memory, &FileCall::begin(&buffer, none.sizes), random)?;
        Ok(File { buffer: after.bytes, used: answer.used, saved: 0 })
    }

    /// The buffer with all positions of the history in it, and the answer to that.
    fn with_all(
        &self,
        random: &mut Random,
        memory: &mut files::Memory,
        session: &Session,
        history: &History,
    ) -> Result<(Answer, Vec<u8>), String> {
        let Caches { keys, values, positions, .. } = history.caches(session, self.saved, history.len());
        let call = FileCall::append(&self.buffer, self.used, positions as u64, keys, values);
        let (answer, after) = done(memory, &call, random)?;
        if answer.positions as usize != history.len() {
            return Err(format!("answered {answer:?} where there are {} positions", history.len()));
        }
        Ok((answer, after.bytes))
    }

    /// Says that all positions are saved.
    fn save(&mut self, answer: Answer, buffer: Vec<u8>) {
        *self = File { buffer, used: answer.used, saved: answer.positions as usize };
    }

    /// A stop in the middle of a save: what was saved is there, and of the rest any number of bytes. Reads it back.
    fn stop(
        &mut self,
        random: &mut Random,
        memory: &mut files::Memory,
        session: &Session,
        history: &History,
    ) -> Result<Caches, String> {
        let (answer, buffer) = self.with_all(random, memory, session, history)?;
        let saved_end = FIRST + self.saved * history.caches(session, 0, 0).record();
        let file = &buffer[..random.between(saved_end as u64, answer.used) as usize];
        let (reading, _) = done(memory, &FileCall::inspect(file), random)?;
        let expected = history.caches(session, 0, reading.positions as usize);
        let [keys, values] =
            [&expected.keys, &expected.values].map(|rows| rows.iter().map(|_| random.bits32()).collect::<Vec<u32>>());
        let (_, loaded) = done(memory, &FileCall::load(file, keys, values), random)?;
        if loaded.keys != expected.keys || loaded.values != expected.values || expected.positions < self.saved {
            return Err(format!("{} positions read back are not the session's\n  {}", reading.positions, loaded.describe()));
        }
        // what stands behind the file is lost with it
        let mut left = file.to_vec();
        left.resize_with(buffer.len(), || random.bits32() as u8);
        *self = File { used: file.len() as u64, saved: expected.positions, buffer: left };
        Ok(expected)
    }
}

impl History {
    /// The rows of some positions of the book, as caches.
    fn caches(&self, session: &Session, first: usize, end: usize) -> Caches {
        let record = session.settings();
        let sizes = [record.batches, record.key_heads, record.size, record.value_size];
        let [keys, values] = self.rows(session, first, end);
        Caches { sizes, positions: end - first, keys, values }
    }

    /// Goes back to what was read from a file.
    fn take_up(&mut self, read: Caches) {
        let outputs = Outputs { present_key: read.keys, present_value: read.values, ..Outputs::default() };
        self.keep(read.positions, outputs);
    }
}

/// One session: chunks, saves and one to three stops.
pub fn session(
    random: &mut Random,
    (calls, memory): (&mut compare::Memory, &mut files::Memory),
    counts: &mut Counts,
) -> Result<(), String> {
    let (session, target) = loop {
        let (session, target) = Session::new(random);
        if session.allowed() {
            break (session, target);
        }
    };
    let mut history = History::default();
    let mut file = File::begin(random, memory, &session, &history, target)?;
    let stops = random.between(1, 3);
    let mut left = stops;
    while history.len() < target || left > 0 {
        if history.len() < target {
            let most = random.pick(&[1, 1 + target / 4, 1 + target / 2]).min(target - history.len());
            let length = random.between(1, most as u64) as usize;
            sequences::next_chunk(random, calls, &session, &mut history, length, &mut counts.chunks)?;
        }
        if random.once_in(2) {
            let (answer, buffer) = file.with_all(random, memory, &session, &history)?;
            file.save(answer, buffer);
            counts.saves += 1;
        }
        if left > 0 && (random.once_in(4) || history.len() == target) {
            let before = history.len();
            let read = file.stop(random, memory, &session, &history)?;
            let whole = FIRST + read.positions * read.record();
            counts.cut += u64::from(file.used as usize > whole);
            counts.lost += u64::from(read.positions < before);
            counts.empty += u64::from(read.positions == 0);
            counts.taken_up += 1;
            history.take_up(read);
            left -= 1;
        }
    }
    counts.sessions += 1;
    counts.again += u64::from(stops > 1);
    counts.longest += u64::from(target == 2048);
    sequences::against_whole(random, calls, &session, &history)
}
