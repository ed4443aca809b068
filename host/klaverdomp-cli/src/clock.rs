// The processor time of the calling thread, so that other programs on the machine do not count.
#![allow(unsafe_code)]

#[repr(C)]
struct Timespec {
    seconds: i64,
    nanoseconds: i64,
}

extern "C" {
    fn clock_gettime(clock: i32, time: *mut Timespec) -> i32;
}

/// CLOCK_THREAD_CPUTIME_ID of Linux.
const THREAD: i32 = 3;

/// Seconds of processor time since the thread began.
pub fn seconds() -> f64 {
    let mut time = Timespec { seconds: 0, nanoseconds: 0 };
    // SAFETY: on x86-64 Linux a timespec is two i64, and the function writes no more than that.
    unsafe { clock_gettime(THREAD, &mut time) };
    time.seconds as f64 + time.nanoseconds as f64 * 1e-9
}

#[cfg(test)]
mod tests {
    #[test]
    fn work_takes_time() {
        let before = super::seconds();
        let sum = (0..3_000_000u64).fold(0, |all, n| std::hint::black_box(all ^ n));
        assert!(super::seconds() > before, "{sum}");
    }
}
