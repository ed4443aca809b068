//! Random calls of the functions of saved sessions: sound files and damaged ones, cut tails, rows with and without faults, and buffers
//! that have room, have just enough or lack a byte.

use crate::files::{by_reference, FileCall};
use crate::generate::random_size;
use crate::random::Random;
use crate::saved::{Caches, BAD, FIRST, HEAD, LIMITS};

pub fn random_file_call(random: &mut Random) -> FileCall {
    match random.below(8) {
        0 => random_begin(random),
        1 | 2 => FileCall::inspect(&random_file(random)),
        3 | 4 => random_load(random),
        _ => random_append(random),
    }
}

/// Sizes within their limits; a position takes at most so many bytes.
fn random_sizes(random: &mut Random, most: u64) -> [u64; 4] {
    let mut sizes = LIMITS.map(|limit| random_size(random, limit));
    while 4 * sizes[0] * sizes[1] * (sizes[2] + sizes[3]) > most {
        let at = random.index(4);
        sizes[at] = sizes[at].div_ceil(2);
    }
    sizes
}

/// A few positions, none, or as many as there may be.
fn random_caches(random: &mut Random) -> Caches {
    let (most, positions) = match random.below(64) {
        0 => (16, random.between(2046, 2048)),
        1 => (1 << 14, random.between(1, 3)),
        2 if random.once_in(100) => (1 << 19, random.between(1, 2)),
        3..=12 => (400, 0),
        _ => (400, random.between(1, 4)),
    };
    let sizes = random_sizes(random, most);
    Caches::new(random, sizes, positions as usize)
}

fn noise(random: &mut Random, length: usize) -> Vec<u8> {
    (0..length).map(|_| random.bits32() as u8).collect()
}

/// What stands behind the last whole record: nothing, a cut record, or a whole one that is right or wrong.
fn random_tail(random: &mut Random, caches: &Caches) -> Vec<u8> {
    let next = Caches::new(random, caches.sizes, 1).file();
    let mut tail = next[FIRST..].to_vec();
    match random.below(12) {
        0..=4 => tail.clear(),
        5 => {
            let length = random.index(HEAD);
            tail = noise(random, length);
        }
        6 => tail.truncate(random.between(1, 5) as usize),
        7 => tail.truncate(random.between(6, caches.record() as u64 - 1) as usize),
        8 => {
            let at = random.index(caches.payload() / 4);
            put_element(random, &mut tail, at);
            tail.truncate(random.between(6, caches.record() as u64 - 1) as usize);
        }
        9 => tail = next[..FIRST].to_vec(),
        10 => {
            change_head(random, &mut tail);
            tail.truncate(random.between(6, caches.record() as u64) as usize);
        }
        _ => {}
    }
    tail
}

/// Bad bits as an element of a record.
fn put_element(random: &mut Random, record: &mut [u8], at: usize) {
    record[HEAD + 4 * at..][..4].copy_from_slice(&bad_bits(random).to_le_bytes());
}

fn bad_bits(random: &mut Random) -> u32 {
    match random.below(3) {
        0 => random.between(0x4780_0001, 0x7FFF_FFFF) as u32 | (random.bits32() & 0x8000_0000),
        _ => random.pick(&BAD),
    }
}

/// Another length or another kind in a record's head, most often a near one.
fn change_head(random: &mut Random, record: &mut [u8]) {
    let length = u32::from_le_bytes([record[0], record[1], record[2], record[3]]);
    let kind = u16::from_le_bytes([record[4], record[5]]);
    let bit = random.below(32);
    if random.once_in(2) {
        let other = random.pick(&[
            length ^ 1,
            length.wrapping_add(4),
            length.wrapping_sub(4),
            length ^ (1 << bit),
            length.wrapping_add(1 << 16),
            length.swap_bytes(),
            0,
            u32::MAX,
        ]);
        record[..4].copy_from_slice(&other.to_le_bytes());
    } else {
        let other = random.pick(&[0, 1, 3, kind ^ (1 << (bit % 16)), kind | 0x100, kind.swap_bytes(), 16, 17]);
        record[4..6].copy_from_slice(&other.to_le_bytes());
    }
}

/// One damage of a file, which may leave it sound.
fn damage(random: &mut Random, caches: &Caches, file: &mut Vec<u8>) {
    let records = file.len().saturating_sub(FIRST) / caches.record();
    let any_record = |random: &mut Random| FIRST + random.index(records) * caches.record();
    match random.below(10) {
        0 | 1 if !file.is_empty() => {
            let at = random.index(file.len());
            file[at] = random.bits32() as u8;
        }
        2 => file.truncate(random.index(file.len() + 1)),
        3 if file.len() >= HEAD => change_head(random, file),
        4 if file.len() >= FIRST => {
            let at = random.index(4);
            let limit = LIMITS[at] as u16;
            let size = random.pick(&[0, limit, limit + 1, limit << 8, 256, 257, 1 << 15, u16::MAX]);
            file[6 + 2 * at..][..2].copy_from_slice(&size.to_le_bytes());
        }
        5 | 6 if records > 0 => {
            let at = any_record(random);
            change_head(random, &mut file[at..]);
        }
        7 | 8 if records > 0 => {
            let (at, element) = (any_record(random), random.index(caches.payload() / 4));
            put_element(random, &mut file[at..], element);
        }
        9 if records > 0 => {
            let (at, length) = (any_record(random), random.between(1, 8) as usize);
            match random.once_in(2) {
                true => drop(file.splice(at..at, noise(random, length))),
                false => drop(file.drain(at..at + length)),
            }
        }
        _ => {}
    }
}

/// A file with any tail, as often sound as not.
fn random_file(random: &mut Random) -> Vec<u8> {
    let caches = random_caches(random);
    let mut file = [caches.file(), random_tail(random, &caches)].concat();
    let damages = match random.below(8) {
        0..=3 => 0,
        4..=6 => 1,
        _ => random.between(2, 4),
    };
    for _ in 0..damages {
        damage(random, &caches, &mut file);
    }
    file
}

fn random_begin(random: &mut Random) -> FileCall {
    let mut sizes = random_sizes(random, u64::MAX);
    if random.once_in(3) {
        let at = random.index(4);
        sizes[at] = random.pick(&[0, LIMITS[at] + 1, 257, (1 << 16) + 1, (1 << 32) + 1, 1 << 63, u64::MAX]);
    }
    let length = random.pick(&[0, 1, 13, 14, 15, 28, 60]);
    FileCall::begin(&noise(random, length), sizes)
}

/// A length beside the right one.
fn other_length(random: &mut Random, length: usize) -> usize {
    random.pick(&[length + 1, length.saturating_sub(1), 0, length * 2, length + 4, length / 2])
}

fn bits(random: &mut Random, length: usize) -> Vec<u32> {
    (0..length).map(|_| random.bits32()).collect()
}

/// Caches of the right lengths for what the file holds, or of others.
fn random_load(random: &mut Random) -> FileCall {
    let file = random_file(random);
    let (reading, _) = by_reference(&FileCall::inspect(&file));
    let [batches, heads, size, value_size] = reading.sizes;
    let mut lengths = [size, value_size].map(|size| (batches * heads * reading.positions * size) as usize);
    if random.once_in(3) {
        match random.below(5) {
            0 => lengths.swap(0, 1),
            at => lengths[at as usize % 2] = other_length(random, lengths[at as usize % 2]),
        }
    }
    let [keys, values] = lengths.map(|length| bits(random, length));
    FileCall::load(&file, keys, values)
}

/// How many positions to add to `there` of them.
fn random_count(random: &mut Random, there: u64, payload: u64) -> u64 {
    let small = (2048 - there) * payload <= 1 << 16;
    match random.below(16) {
        0 | 1 => 0,
        2 if small => 2048 - there,
        3 if small => 2049 - there,
        // So large that the sum or a product wraps around.
        4 => random.pick(&[
            u64::MAX,
            0u64.wrapping_sub(there),
            0u64.wrapping_sub(there).wrapping_add(1),
            1 << 32,
            1 << 61,
            1 << 62,
            1 << 63,
        ]),
        _ => random.between(1, 3),
    }
}

fn random_append(random: &mut Random) -> FileCall {
    let file = random_file(random);
    let (reading, _) = by_reference(&FileCall::inspect(&file));
    // Rows for a file that is refused are of some sizes, since nothing looks at them.
    let sizes = if reading.refusal == 0 { reading.sizes } else { random_sizes(random, 64) };
    let [batches, heads, size, value_size] = sizes;
    let payload = 4 * batches * heads * (size + value_size);
    let count = random_count(random, reading.positions, payload);
    let rows = if count <= 2049 { count as usize } else { 0 };
    let Caches { mut keys, mut values, .. } = Caches::new(random, sizes, rows);
    if random.once_in(4) {
        for _ in 0..random.between(1, 3) {
            let part = if random.once_in(2) { &mut keys } else { &mut values };
            if !part.is_empty() {
                let at = random.index(part.len());
                part[at] = bad_bits(random);
            }
        }
    }
    if random.once_in(6) {
        match random.below(5) {
            0 => std::mem::swap(&mut keys, &mut values),
            at => {
                let part = if at % 2 == 0 { &mut keys } else { &mut values };
                let length = other_length(random, part.len());
                part.resize(length, random.bits32());
            }
        }
    }
    let end = reading.used.max(FIRST as u64) as usize + rows * (HEAD + payload as usize);
    let mut length = match random.below(8) {
        0 => end - 1,
        1 => file.len(),
        2 | 3 => end,
        _ => end + random.index(60),
    };
    if !random.once_in(16) {
        length = length.max(file.len());
    }
    let used = match random.below(16) {
        0 => random.pick(&[length as u64 + 1, length as u64 + 14, 1 << 32, 1 << 63, u64::MAX]),
        1 => random.between(0, length as u64),
        _ => file.len() as u64,
    };
    let mut buffer = file;
    buffer.resize_with(length, || random.bits32() as u8);
    FileCall::append(&buffer, used, count, keys, values)
}
