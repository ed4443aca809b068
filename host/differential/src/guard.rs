//! Memory between two unreadable pages. A tensor laid at its end has the second page right behind it, one laid at its
//! start has the first page right before it, so a read or a write outside the tensor stops the program; the handler
//! then says which call it was. mmap, mprotect, munmap, signal, write and _exit are declared by hand, for Linux on x86-64.

use std::ffi::{c_int, c_void};
use std::sync::atomic::{AtomicU64, Ordering};

extern "C" {
    fn mmap(address: *mut c_void, length: usize, protection: c_int, flags: c_int, file: c_int, offset: i64) -> *mut c_void;
    fn mprotect(address: *mut c_void, length: usize, protection: c_int) -> c_int;
    fn munmap(address: *mut c_void, length: usize) -> c_int;
    fn signal(number: c_int, handler: usize) -> usize;
    fn write(file: c_int, bytes: *const u8, length: usize) -> isize;
    fn _exit(status: c_int) -> !;
}

const PAGE: usize = 4096;
const PROT_NONE: c_int = 0;
const PROT_READ_WRITE: c_int = 3;
const MAP_PRIVATE_ANONYMOUS: c_int = 0x22;
const SIGBUS: c_int = 7;
const SIGSEGV: c_int = 11;

/// Which end of its memory a tensor is laid at.
#[derive(Clone, Copy, PartialEq)]
pub enum Side {
    BeforeUnreadable,
    AfterUnreadable,
}

/// The types whose every pattern of bits is a value.
pub trait Plain: Copy {}
impl Plain for u8 {}
impl Plain for u32 {}
impl Plain for u64 {}
impl Plain for i64 {}

/// Writable pages between two unreadable ones; they grow when a longer tensor comes.
pub struct Region {
    base: *mut u8,
    pages: usize,
}

impl Region {
    pub fn new() -> Region {
        Region { base: std::ptr::null_mut(), pages: 0 }
    }

    fn release(&mut self) {
        if self.pages != 0 {
            let status = unsafe { munmap(self.base.cast(), (self.pages + 2) * PAGE) };
            assert_eq!(status, 0, "munmap");
            self.pages = 0;
        }
    }

    fn grow(&mut self, pages: usize) {
        self.release();
        let length = (pages + 2) * PAGE;
        unsafe {
            let base = mmap(std::ptr::null_mut(), length, PROT_NONE, MAP_PRIVATE_ANONYMOUS, -1, 0);
            assert!(base as isize != -1, "mmap of {length} bytes");
            self.base = base.cast();
            let status = mprotect(self.base.add(PAGE).cast(), pages * PAGE, PROT_READ_WRITE);
            assert_eq!(status, 0, "mprotect");
        }
        self.pages = pages;
    }

    /// A copy of the data in this memory. An empty one is laid at the end, so that its pointer is to the unreadable page.
    pub fn place<T: Plain>(&mut self, data: &[T], side: Side) -> &mut [T] {
        let bytes = std::mem::size_of_val(data);
        let needed = bytes.div_ceil(PAGE).max(1);
        if self.pages < needed {
            self.grow(needed.next_power_of_two());
        }
        let start = match side {
            Side::AfterUnreadable if bytes != 0 => PAGE,
            _ => PAGE + self.pages * PAGE - bytes,
        };
        unsafe {
            let at: *mut T = self.base.add(start).cast();
            assert!(at.is_aligned());
            std::ptr::copy_nonoverlapping(data.as_ptr(), at, data.len());
            std::slice::from_raw_parts_mut(at, data.len())
        }
    }
}

impl Drop for Region {
    fn drop(&mut self) {
        self.release();
    }
}

/// Which part of a run is under way.
#[derive(Clone, Copy)]
pub enum Part {
    Other,
    Session,
    Call,
    File,
    Saved,
}

static PART: AtomicU64 = AtomicU64::new(Part::Other as u64);
static SEED: AtomicU64 = AtomicU64::new(0);
static NUMBER: AtomicU64 = AtomicU64::new(0);

/// Notes what is being run, for the handler.
pub fn note(part: Part, seed: u64, number: u64) {
    PART.store(part as u64, Ordering::Relaxed);
    SEED.store(seed, Ordering::Relaxed);
    NUMBER.store(number, Ordering::Relaxed);
}

fn say(bytes: &[u8]) {
    unsafe { write(2, bytes.as_ptr(), bytes.len()) };
}

fn say_number(mut number: u64) {
    let mut digits = [0u8; 20];
    let mut first = digits.len();
    loop {
        first -= 1;
        digits[first] = b'0' + (number % 10) as u8;
        number /= 10;
        if number == 0 {
            break;
        }
    }
    say(&digits[first..]);
}

extern "C" fn stopped(_: c_int) {
    say(b"differential: memory outside a lent tensor was touched; --seed ");
    say_number(SEED.load(Ordering::Relaxed));
    match PART.load(Ordering::Relaxed) {
        part if part == Part::Call as u64 => say(b", replay with --only "),
        part if part == Part::Session as u64 => say(b", replay with --only-session "),
        part if part == Part::File as u64 => say(b", replay with --only-file "),
        part if part == Part::Saved as u64 => say(b", replay with --only-saved "),
        _ => say(b", in the examples or the exponential (0) or in the known files (1), number "),
    }
    say_number(NUMBER.load(Ordering::Relaxed));
    say(b"\n");
    unsafe { _exit(1) }
}

/// From here on a touch of an unreadable page ends the program with the seed and the number of the call.
pub fn report_touches() {
    let handler: extern "C" fn(c_int) = stopped;
    unsafe {
        signal(SIGSEGV, handler as usize);
        signal(SIGBUS, handler as usize);
    }
}

#[cfg(test)]
mod tests {
    use super::*;

    #[test]
    fn a_tensor_lies_at_either_end() {
        let mut region = Region::new();
        let data: Vec<u32> = (0..3000).collect();
        assert_eq!(region.place(&data, Side::BeforeUnreadable), &data[..]);
        let end = region.place(&data, Side::BeforeUnreadable).as_ptr_range().end as usize;
        assert_eq!(end % PAGE, 0);
        assert_eq!(region.place(&data, Side::AfterUnreadable).as_ptr() as usize % PAGE, 0);
    }
}
