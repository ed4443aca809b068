// How long saved sessions take: reading caches from a file in memory, and adding positions to one.

use super::{beside_plain_c, duration, interleave, median, ratio, Numbers, Run};
use crate::{say, Failure};
use klaverdomp::session_file::{append, begin, load, Sizes};
use std::cell::RefCell;
use std::hint::black_box;
use std::time::Duration;

const SIZES: Sizes = Sizes { batches: 1, kv_heads: 8, size: 64, v_size: 64 };

/// What is measured, with its name. An append adds so many positions behind so many.
const TASKS: [(&str, Task); 3] = [
    ("load 2048, B1 Hkv8 D64", Task::Load { positions: 2048 }),
    ("append 512 to a new file", Task::Append { there: 0, count: 512 }),
    ("append 1 behind 2047", Task::Append { there: 2047, count: 1 }),
];

#[derive(Clone, Copy)]
enum Task {
    Load { positions: u64 },
    Append { there: u64, count: u64 },
}

/// A task with a file of its own, and the rows that are read or added.
struct Work {
    task: Task,
    file: Vec<u8>,
    keys: Vec<f32>,
    values: Vec<f32>,
}

impl Work {
    fn new(task: Task) -> Work {
        let mut numbers = Numbers(0x2545_F491_4F6C_DD1D);
        let mut rows = |positions: u64| -> [Vec<f32>; 2] {
            [SIZES.keys_len(positions), SIZES.values_len(positions)].map(|len| (0..len).map(|_| numbers.next()).collect())
        };
        let (there, count) = match task {
            Task::Load { positions } => (positions, 0),
            Task::Append { there, count } => (there, count),
        };
        let mut file = vec![0; SIZES.file_len(there + count)];
        let begun = begin(&mut file, &SIZES).expect("the sizes are allowed");
        let [before_keys, before_values] = rows(there);
        append(&mut file, begun.used, there, &before_keys, &before_values).expect("there is room");
        let [keys, values] = if count == 0 { [before_keys, before_values] } else { rows(count) };
        Work { task, file, keys, values }
    }

    fn used(there: u64) -> u64 {
        SIZES.file_len(there) as u64
    }

    /// The task by the library; how many positions are in the file then, none if it is refused.
    fn library(&mut self) -> Option<u64> {
        match self.task {
            Task::Load { .. } => load(&self.file, &mut self.keys, &mut self.values).ok().map(|reading| reading.positions),
            Task::Append { there, count } => {
                let saving = append(&mut self.file, Work::used(there), count, &self.keys, &self.values);
                saving.ok().map(|saving| saving.positions)
            }
        }
    }

    /// The same by the plain C program.
    #[cfg(reference)]
    fn plain_c(&mut self) -> Option<u64> {
        use crate::reference::{session_append, session_load};
        match self.task {
            Task::Load { .. } => session_load(&self.file, &mut self.keys, &mut self.values),
            Task::Append { there, count } => session_append(&mut self.file, Work::used(there), count, &self.keys, &self.values),
        }
    }

    /// Stands where there is no plain C program, and is never called there.
    #[cfg(not(reference))]
    fn plain_c(&mut self) -> Option<u64> {
        None
    }

    fn measured(&mut self, run: fn(&mut Work) -> Option<u64>) {
        black_box(run(self));
    }

    /// Both leave the same, from files and caches that are spoilt before.
    fn compare(task: Task) -> Result<(), Failure> {
        let left = |run: fn(&mut Work) -> Option<u64>| {
            let mut work = Work::new(task);
            match task {
                Task::Load { .. } => [&mut work.keys, &mut work.values].iter_mut().for_each(|rows| rows.fill(f32::NAN)),
                Task::Append { there, .. } => work.file[Work::used(there) as usize..].fill(0xA5),
            }
            let positions = run(&mut work);
            let bits = [work.keys, work.values].map(|rows| rows.iter().map(|x| x.to_bits()).collect::<Vec<u32>>());
            (positions, work.file, bits)
        };
        match left(Work::library) == left(Work::plain_c) {
            true => Ok(()),
            false => Err(Failure::Differs("the library and the plain C program differ on a saved session".to_string())),
        }
    }
}

pub fn run(time: Duration) -> Result<(), Failure> {
    say(
        "\nSaved sessions in memory: the library beside the plain C program, and beside a memcpy of the whole file's bytes.\n\n",
    )?;
    say(&format!(
        "{:<38}{:>12}{:>12}{:>8}{:>16}{:>12}{:>18}{:>16}{:>8}\n",
        "task", "library", "plain C", "ratio", "[10% - 90%]", "memcpy", "library / memcpy", "[10% - 90%]", "rounds"
    ))?;
    for (name, task) in TASKS {
        let work = RefCell::new(Work::new(task));
        let bytes = work.borrow().file.clone();
        let mut copy = vec![0; bytes.len()];
        let mut runs: Vec<Run> = vec![
            Box::new(|| work.borrow_mut().measured(Work::library)),
            Box::new(|| black_box(&mut copy).copy_from_slice(black_box(&bytes))),
        ];
        if cfg!(reference) {
            Work::compare(task)?;
            runs.push(Box::new(|| work.borrow_mut().measured(Work::plain_c)));
        }
        let times = interleave(name, &mut runs, time);
        let (copied, copied_spread) = ratio(&times[0], &times[1]);
        let (c, (c_ratio, c_spread)) = beside_plain_c(&times[0], times.get(2));
        say(&format!(
            "{name:<38}{:>12}{c:>12}{c_ratio:>8}{c_spread:>16}{:>12}{copied:>18}{copied_spread:>16}{:>8}\n",
            duration(median(&times[0])),
            duration(median(&times[1])),
            times[0].len()
        ))?;
    }
    Ok(())
}

#[cfg(test)]
mod tests {
    use super::*;

    #[test]
    fn every_task_is_done() {
        for (_, task) in TASKS {
            let expected = match task {
                Task::Load { positions } => positions,
                Task::Append { there, count } => there + count,
            };
            let mut work = Work::new(task);
            let file = work.file.clone();
            assert_eq!((work.library(), work.library()), (Some(expected), Some(expected)));
            assert_eq!(file.len(), SIZES.file_len(expected));
            if cfg!(reference) {
                assert_eq!(work.plain_c(), Some(expected));
                assert!(Work::compare(task).is_ok());
            }
        }
    }
}
