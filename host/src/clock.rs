//! Processor time, which other work on the machine does not lengthen.

/// C's struct timespec on x86-64 Linux.
#[repr(C)]
struct Timespec {
    seconds: i64,
    nanoseconds: i64,
}

extern "C" {
    fn clock_gettime(clock: i32, time: *mut Timespec) -> i32;
}

/// Seconds that this thread has run on a processor.
pub fn processor_seconds() -> f64 {
    const CLOCK_THREAD_CPUTIME_ID: i32 = 3;
    let mut time = Timespec {
        seconds: 0,
        nanoseconds: 0,
    };
    let failed = unsafe { clock_gettime(CLOCK_THREAD_CPUTIME_ID, &mut time) };
    assert_eq!(failed, 0, "the thread's clock");
    time.seconds as f64 + 1e-9 * time.nanoseconds as f64
}

/// How long it takes.
pub fn seconds(run: impl FnOnce()) -> f64 {
    let start = processor_seconds();
    run();
    processor_seconds() - start
}
