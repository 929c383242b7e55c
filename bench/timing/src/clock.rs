//! Processor time, which other work on the machine disturbs less than the time of day. The numbers and structures are those of Linux on 64 bits.

#[repr(C)]
#[derive(Default)]
struct Time {
    seconds: i64,
    /// Nanoseconds of a clock, microseconds of a usage.
    parts: i64,
}

/// What getrusage fills in: the time in the program, and that in the system for it.
#[repr(C)]
#[derive(Default)]
struct Usage {
    program: Time,
    system: Time,
    rest: [i64; 14],
}

const THREAD_CLOCK: i32 = 3;
const ENDED_CHILDREN: i32 = -1;

extern "C" {
    fn clock_gettime(clock: i32, time: *mut Time) -> i32;
    fn getrusage(who: i32, usage: *mut Usage) -> i32;
}

/// The seconds that this thread has used.
pub fn own_seconds() -> f64 {
    let mut time = Time::default();
    // The structure has the size that the call fills in, and lives until it returns.
    assert_eq!(unsafe { clock_gettime(THREAD_CLOCK, &mut time) }, 0);
    time.seconds as f64 + time.parts as f64 / 1e9
}

/// The seconds that ended child processes have used.
pub fn children_seconds() -> f64 {
    let mut usage = Usage::default();
    // As above.
    assert_eq!(unsafe { getrusage(ENDED_CHILDREN, &mut usage) }, 0);
    let seconds = |time: Time| time.seconds as f64 + time.parts as f64 / 1e6;
    seconds(usage.program) + seconds(usage.system)
}
