//! The lines that `tools/exponential_vectors.py lines` prints from exact whole numbers: the library and the reference
//! have their bits.

use crate::ffi::{self, Told};
use crate::guard::{Region, Side};

/// How many lines of each kind there are.
#[derive(Debug, Default)]
pub struct Counts {
    pub powers: u64,
    pub scales: u64,
    pub values: u64,
    pub row_elements: u64,
}

/// A row as its lines give it.
#[derive(Default)]
struct Row {
    largest: u32,
    before: Vec<u32>,
    after: Vec<u32>,
}

fn bits(word: &str) -> Result<u32, String> {
    u32::from_str_radix(word, 16).map_err(|_| format!("{word} is not a number of bits"))
}

/// What a function gives for this word: a value's bits, or no value.
fn told(word: &str) -> Result<Told, String> {
    if word == "-" { Ok((0, 0)) } else { Ok((1, bits(word)?)) }
}

fn same(library: Told, reference: Told, wanted: Told) -> Result<(), String> {
    if library == wanted && reference == wanted {
        return Ok(());
    }
    Err(format!("the library has {library:08X?}, the reference {reference:08X?}"))
}

/// Both tables stand in their order, so that none of their entries is missing.
fn next(word: &str, wanted: u64) -> Result<u64, String> {
    if word == wanted.to_string() { Ok(wanted) } else { Err(format!("entry {wanted} is missing")) }
}

fn line(words: &[&str], row: &mut Row, counts: &mut Counts) -> Result<(), String> {
    match words {
        ["power", at, value] => {
            let at = next(at, counts.powers)?;
            counts.powers += 1;
            same(ffi::library_power_entry(at), ffi::reference_power_entry(at), told(value)?)
        }
        ["scale", size, value] => {
            counts.scales += 1;
            let size = next(size, counts.scales)?;
            same(ffi::library_default_scale(size), ffi::reference_default_scale(size), told(value)?)
        }
        ["exp", d, value] => {
            let d = bits(d)?;
            counts.values += 1;
            same(ffi::library_exp_neg(d), ffi::reference_exp_neg(d), told(value)?)
        }
        ["row", largest, before, after] => {
            let largest = bits(largest)?;
            if row.largest != largest {
                std::mem::replace(row, Row { largest, ..Row::default() }).check()?;
            }
            row.before.push(bits(before)?);
            row.after.push(bits(after)?);
            counts.row_elements += 1;
            Ok(())
        }
        _ => Err("no such line is known".to_string()),
    }
}

impl Row {
    /// The row form makes `after` of `before`, at either side of unreadable memory.
    fn check(&self) -> Result<(), String> {
        let mut memory = Region::new();
        for side in [Side::BeforeUnreadable, Side::AfterUnreadable] {
            let row = memory.place(&self.before, side);
            ffi::library_exp_neg_row(row, self.largest);
            if let Some(n) = (0..row.len()).find(|&n| row[n] != self.after[n]) {
                let (before, after, got) = (self.before[n], self.after[n], row[n]);
                return Err(format!("row of {:08X}: element {n}, {before:08X}, became {got:08X}, not {after:08X}", self.largest));
            }
        }
        Ok(())
    }
}

/// Compares every line. Both tables must be whole, and there must be values and a row.
pub fn check(text: &str) -> Result<Counts, String> {
    let (mut row, mut counts) = (Row::default(), Counts::default());
    for (at, words) in text.lines().enumerate() {
        let words_of = words.split(' ').collect::<Vec<_>>();
        line(&words_of, &mut row, &mut counts).map_err(|error| format!("line {}, `{words}`: {error}", at + 1))?;
    }
    row.check()?;
    if counts.powers != 256 || counts.scales != 256 || counts.values == 0 || counts.row_elements == 0 {
        return Err(format!("the lines are not whole: {counts:?}"));
    }
    Ok(counts)
}

#[cfg(test)]
mod tests {
    use super::*;

    /// Lines as the library has them: both tables, a value, no value, and a row.
    fn right() -> String {
        let mut text = String::new();
        for at in 0..256 {
            text += &format!("power {at} {:08x}\n", ffi::library_power_entry(at).1);
        }
        for size in 1..=256 {
            text += &format!("scale {size} {:08x}\n", ffi::library_default_scale(size).1);
        }
        text + "exp 3eb17218 3f3504f3\nexp bf800000 -\nrow 3f317218 3f317218 3f800000\nrow 3f317218 00000000 3f000000\n"
    }

    #[test]
    fn right_lines_pass() {
        let counts = check(&right()).unwrap();
        assert_eq!((counts.values, counts.row_elements), (2, 2));
    }

    #[test]
    fn a_wrong_or_missing_line_is_noticed() {
        let changes = [
            ("power 1 3f7f4ecb", "power 1 3f7f4ecc"),
            ("power 255 3f0058d8\n", ""),
            ("scale 4 3f000000", "scale 4 -"),
            ("scale 3 ", "scale 4 "),
            ("3eb17218 3f3504f3", "3eb17218 3f3504f2"),
            ("exp bf800000 -", "exp bf800000 00000000"),
            ("00000000 3f000000", "00000000 3f000001"),
            ("exp 3eb", "expo 3eb"),
            ("row 3f317218 3f317218 3f800000\nrow 3f317218 00000000 3f000000\n", ""),
        ];
        for (line, wrong) in changes {
            assert!(right().contains(line), "{line}");
            assert!(check(&right().replace(line, wrong)).is_err(), "{wrong}");
        }
        assert!(check("").is_err());
    }
}
