//! CPU time, by the C library.

#[repr(C)]
struct Timespec {
    seconds: i64,
    nanoseconds: i64,
}

const CLOCK_THREAD_CPUTIME_ID: i32 = 3;

extern "C" {
    fn clock_gettime(clock: i32, time: *mut Timespec) -> i32;
}

/// The CPU time of this thread so far, in microseconds.
pub fn cpu_microseconds() -> f64 {
    let mut time = Timespec {
        seconds: 0,
        nanoseconds: 0,
    };
    // SAFETY: the struct is C's timespec on 64-bit Linux, and it is written before it is read.
    let status = unsafe { clock_gettime(CLOCK_THREAD_CPUTIME_ID, &mut time) };
    assert_eq!(status, 0, "no clock of CPU time");
    time.seconds as f64 * 1e6 + time.nanoseconds as f64 / 1e3
}

#[repr(C)]
struct Timeval {
    seconds: i64,
    microseconds: i64,
}

#[repr(C)]
struct Rusage {
    user: Timeval,
    system: Timeval,
    others: [i64; 14],
}

const RUSAGE_CHILDREN: i32 = -1;

extern "C" {
    fn getrusage(who: i32, usage: *mut Rusage) -> i32;
}

/// The CPU time, user's and system's, of all children that have ended, in microseconds.
pub fn children_microseconds() -> f64 {
    let none = || Timeval {
        seconds: 0,
        microseconds: 0,
    };
    let mut usage = Rusage {
        user: none(),
        system: none(),
        others: [0; 14],
    };
    // SAFETY: the struct is C's rusage on 64-bit Linux, and it is written before it is read.
    let status = unsafe { getrusage(RUSAGE_CHILDREN, &mut usage) };
    assert_eq!(status, 0, "no CPU time of children");
    let microseconds = |time: Timeval| time.seconds as f64 * 1e6 + time.microseconds as f64;
    microseconds(usage.user) + microseconds(usage.system)
}
