//! The processor time of programs that were run. That of the clock is no use where other work is done: a run of some
//! milliseconds is rarely left alone.

/// Linux's `struct rusage` on x86-64.
#[repr(C)]
#[derive(Default)]
struct Usage {
    /// Seconds and microseconds.
    user: [i64; 2],
    system: [i64; 2],
    rest: [i64; 14],
}

const CHILDREN: i32 = -1;

extern "C" {
    fn getrusage(who: i32, usage: *mut Usage) -> i32;
}

/// Nanoseconds, of user and system together, of all programs that have ended.
pub fn of_programs() -> f64 {
    let mut usage = Usage::default();
    // SAFETY: the structure is lent for the call alone, and has the system's layout.
    let status = unsafe { getrusage(CHILDREN, &mut usage) };
    assert_eq!(status, 0, "the system tells times");
    let nanoseconds = |[seconds, micros]: [i64; 2]| seconds as f64 * 1e9 + micros as f64 * 1e3;
    nanoseconds(usage.user) + nanoseconds(usage.system)
}
