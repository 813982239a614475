//! The clock: processor time. Other work on the machine lengthens it a little, by the caches and
//! cores that both use, but not by the time that a process waits for its turn.

use std::os::raw::{c_int, c_long};

const PROCESS_TIME: c_int = 2;

#[repr(C)]
struct Time {
    seconds: c_long,
    nanoseconds: c_long,
}

/// The C library's `struct rusage` of Linux on x86-64: two times in seconds and microseconds, then
/// fourteen counts.
#[repr(C)]
struct Usage {
    user: [c_long; 2],
    system: [c_long; 2],
    counts: [c_long; 14],
}

extern "C" {
    fn clock_gettime(clock: c_int, time: *mut Time) -> c_int;
    fn wait4(child: c_int, status: *mut c_int, options: c_int, usage: *mut Usage) -> c_int;
}

/// The seconds that this process has used.
pub fn now() -> f64 {
    let mut time = Time {
        seconds: 0,
        nanoseconds: 0,
    };
    // SAFETY: the time lives through the call.
    let failed = unsafe { clock_gettime(PROCESS_TIME, &mut time) };
    assert_eq!(failed, 0, "the clock of the process cannot be read");
    time.seconds as f64 + time.nanoseconds as f64 / 1e9
}

/// Waits for a child that nobody else waits for, and answers the seconds that it has used from its
/// start to its end.
pub fn ended(child: u32) -> f64 {
    let mut status = 0;
    let mut usage = Usage {
        user: [0; 2],
        system: [0; 2],
        counts: [0; 14],
    };
    // SAFETY: both answers live through the call, and `Usage` has the layout of the C library's.
    let waited = unsafe { wait4(child as c_int, &mut status, 0, &mut usage) };
    assert_eq!(waited, child as c_int, "a child process is lost");
    let seconds = |time: [c_long; 2]| time[0] as f64 + time[1] as f64 / 1e6;
    seconds(usage.user) + seconds(usage.system)
}

/// The seconds that one call takes: the mean of so many calls that they last a fifth of a
/// millisecond, and at most 200.
pub fn timed<T>(mut call: impl FnMut() -> T) -> f64 {
    let mut once = |count: u32| {
        let start = now();
        for _ in 0..count {
            call();
        }
        (now() - start) / f64::from(count)
    };
    // The first call only says how many are to be timed, and warms the processor's caches.
    let first = once(1);
    let count = (2e-4 / first.max(1e-7)).ceil().clamp(1.0, 200.0);
    once(count as u32)
}
