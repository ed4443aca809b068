//! Files of saved sessions that are written here byte by byte, and what is known of them without a reader: every cut of a file, and
//! every other value of every byte of small ones.

use crate::files::{by_reference, compare, Answer, FileCall, Memory};
use crate::generate::elements;
use crate::random::Random;

pub const LIMITS: [u64; 4] = [8, 32, 256, 256];
pub const FIRST: usize = 14;
pub const HEAD: usize = 6;

/// Bits that are no number of magnitude at most 65,536: infinities, NaNs and the neighbours of the limit.
pub const BAD: [u32; 9] =
    [0x7F80_0000, 0xFF80_0000, 0x7F80_0001, 0xFF80_0001, 0x7FC0_0000, 0xFFFF_FFFF, 0x4780_0001, 0xC780_0001, 0x7F7F_FFFF];

/// Caches of so many positions, (B, Hkv, positions, D) and (B, Hkv, positions, Dv).
#[derive(Clone)]
pub struct Caches {
    pub sizes: [u64; 4],
    pub positions: usize,
    pub keys: Vec<u32>,
    pub values: Vec<u32>,
}

impl Caches {
    pub fn new(random: &mut Random, sizes: [u64; 4], positions: usize) -> Caches {
        let [heads, size, value_size] = [sizes[0] * sizes[1], sizes[2], sizes[3]].map(|n| n as usize);
        let keys = elements(random, heads * positions * size);
        Caches { sizes, positions, keys, values: elements(random, heads * positions * value_size) }
    }

    pub fn payload(&self) -> usize {
        let [batches, heads, size, value_size] = self.sizes;
        (4 * batches * heads * (size + value_size)) as usize
    }

    pub fn record(&self) -> usize {
        HEAD + self.payload()
    }

    /// The bytes of the file.
    pub fn file(&self) -> Vec<u8> {
        let mut file = vec![8, 0, 0, 0, 1, 0];
        for size in self.sizes {
            file.extend((size as u16).to_le_bytes());
        }
        let row = |cache: &[u32], size: u64, head: usize, position: usize| -> Vec<u8> {
            let at = (head * self.positions + position) * size as usize;
            cache[at..at + size as usize].iter().flat_map(|bits| bits.to_le_bytes()).collect()
        };
        for position in 0..self.positions {
            file.extend((self.payload() as u32).to_le_bytes());
            file.extend([2, 0]);
            for head in 0..(self.sizes[0] * self.sizes[1]) as usize {
                file.extend(row(&self.keys, self.sizes[2], head, position));
                file.extend(row(&self.values, self.sizes[3], head, position));
            }
        }
        file
    }

    /// The positions from `first` to before `end`.
    pub fn part(&self, first: usize, end: usize) -> Caches {
        let rows = |cache: &[u32], size: u64| {
            let size = size as usize;
            let heads = cache.chunks((self.positions * size).max(1));
            heads.flat_map(|head| &head[first * size..end * size]).copied().collect()
        };
        let (keys, values) = (rows(&self.keys, self.sizes[2]), rows(&self.values, self.sizes[3]));
        Caches { sizes: self.sizes, positions: end - first, keys, values }
    }
}

/// How many calls were compared.
#[derive(Default)]
pub struct Counts {
    pub cuts: u64,
    pub damages: u64,
    pub calls: u64,
}

pub struct Known<'a> {
    pub memory: &'a mut Memory,
    pub random: &'a mut Random,
    pub counts: Counts,
}

impl Known<'_> {
    fn compare(&mut self, call: &FileCall) -> Result<(Answer, FileCall), String> {
        self.counts.calls += 1;
        compare(self.memory, call, self.random)
    }

    /// As `compare`, with an answer and a state afterwards that are known.
    fn expect(&mut self, call: &FileCall, answer: Answer, after: &FileCall) -> Result<(), String> {
        let found = self.compare(call)?;
        match found.0 == answer && found.1 == *after {
            true => Ok(()),
            false => Err(format!("answered {:?}, known is {answer:?}\n  {}", found.0, call.describe())),
        }
    }

    fn refused(&mut self, call: &FileCall, refusal: u64) -> Result<(), String> {
        self.expect(call, Answer { refusal, ..Answer::default() }, call)
    }

    fn noise(&mut self, length: usize) -> Vec<u32> {
        (0..length).map(|_| self.random.bits32()).collect()
    }

    /// The file cut after so many bytes gives back exactly the positions that are whole in it, and adding the others makes it whole.
    fn cut(&mut self, caches: &Caches, file: &[u8], cut: usize) -> Result<(), String> {
        self.counts.cuts += 1;
        let short = &file[..cut];
        let lent = (self.noise(caches.keys.len()), self.noise(caches.values.len()));
        if cut < FIRST {
            for call in [
                FileCall::inspect(short),
                FileCall::load(short, lent.0, lent.1),
                FileCall::append(file, cut as u64, 0, Vec::new(), Vec::new()),
            ] {
                self.refused(&call, 11)?;
            }
            return Ok(());
        }
        let whole = (cut - FIRST) / caches.record();
        let there = caches.part(0, whole);
        let used = (FIRST + whole * caches.record()) as u64;
        let read = Answer { sizes: caches.sizes, positions: whole as u64, used, ..Answer::default() };
        self.expect(&FileCall::inspect(short), read, &FileCall::inspect(short))?;
        let (keys, values) = (lent.0[..there.keys.len()].to_vec(), lent.1[..there.values.len()].to_vec());
        self.refused(&FileCall::load(short, [&keys[..], &[0]].concat(), values.clone()), 6)?;
        self.refused(&FileCall::load(short, keys.clone(), [&values[..], &[0]].concat()), 6)?;
        self.expect(&FileCall::load(short, keys, values), read, &FileCall::load(short, there.keys, there.values))?;
        let rest = caches.part(whole, caches.positions);
        let mut buffer = short.to_vec();
        buffer.resize_with(file.len() + 3, || self.random.bits32() as u8);
        let add =
            |buffer: &[u8]| FileCall::append(buffer, cut as u64, rest.positions as u64, rest.keys.clone(), rest.values.clone());
        if whole < caches.positions {
            self.refused(&add(&buffer[..file.len() - 1]), 16)?;
        }
        let added = Answer { positions: caches.positions as u64, used: file.len() as u64, ..Answer::default() };
        for length in [file.len(), buffer.len()] {
            let mut after = buffer[..length].to_vec();
            if whole < caches.positions {
                after[..file.len()].copy_from_slice(file);
            }
            self.expect(&add(&buffer[..length]), added, &add(&after))?;
        }
        Ok(())
    }

    /// The file with one byte changed, by each function that reads it: compared with the reference.
    fn damage(&mut self, caches: &Caches, file: &[u8]) -> Result<(), String> {
        self.counts.damages += 1;
        let (reading, _) = by_reference(&FileCall::inspect(file));
        let there = caches.part(0, (reading.positions as usize).min(caches.positions));
        let rows = caches.part(0, 1);
        self.compare(&FileCall::inspect(file))?;
        self.compare(&FileCall::load(file, there.keys, there.values))?;
        let buffer = [file, &[0xA5; 64]].concat();
        self.compare(&FileCall::append(&buffer, file.len() as u64, 1, rows.keys, rows.values))?;
        Ok(())
    }

    /// The example of the request.
    fn example(&mut self) -> Result<(), String> {
        let sizes = [1; 4];
        let (keys, values) = (vec![1f32.to_bits()], vec![2f32.to_bits()]);
        let file = [8, 0, 0, 0, 1, 0, 1, 0, 1, 0, 1, 0, 1, 0, 8, 0, 0, 0, 2, 0, 0, 0, 0x80, 0x3F, 0, 0, 0, 0x40];
        let begun = Answer { used: 14, ..Answer::default() };
        let after = FileCall::begin(&[&file[..FIRST], &[7; 14]].concat(), sizes);
        self.expect(&FileCall::begin(&[7; 28], sizes), begun, &after)?;
        let added = Answer { positions: 1, used: 28, ..Answer::default() };
        let append = |buffer: &[u8]| FileCall::append(buffer, 14, 1, keys.clone(), values.clone());
        self.expect(&append(&after.bytes), added, &append(&file))
    }

    /// All of it.
    pub fn check(mut self) -> Result<Counts, String> {
        self.example()?;
        for (sizes, positions) in [
            ([1, 1, 1, 1], 0),
            ([1, 1, 1, 1], 4),
            ([2, 3, 2, 1], 3),
            ([1, 1, 3, 5], 5),
            ([8, 32, 1, 1], 2),
            ([3, 1, 17, 256], 1),
            ([1, 2, 64, 64], 3),
        ] {
            let caches = Caches::new(self.random, sizes, positions);
            let file = caches.file();
            for cut in 0..=file.len() {
                self.cut(&caches, &file, cut)?;
            }
        }
        for (sizes, positions) in [([1, 1, 1, 1], 1), ([1, 1, 1, 1], 3), ([2, 1, 1, 2], 2), ([1, 2, 2, 1], 1)] {
            let caches = Caches::new(self.random, sizes, positions);
            let file = caches.file();
            for at in 0..file.len() {
                for value in 1..=255 {
                    let mut damaged = file.clone();
                    damaged[at] ^= value;
                    self.damage(&caches, &damaged)?;
                }
            }
        }
        Ok(self.counts)
    }
}
