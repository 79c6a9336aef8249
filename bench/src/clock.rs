// The time that this thread has had a processor, so that what else the machine does meanwhile is not counted. The standard library
// has only the time of day.
use std::time::Duration;

#[repr(C)]
struct Timespec {
    seconds: i64,
    nanoseconds: i64,
}

extern "C" {
    fn clock_gettime(clock: i32, time: *mut Timespec) -> i32;
}

// Linux's number on every 64-bit machine.
const CLOCK_THREAD_CPUTIME_ID: i32 = 3;

pub fn thread_time() -> Duration {
    let mut time = Timespec { seconds: 0, nanoseconds: 0 };
    // SAFETY: the call writes one such struct, and this is C's on 64-bit Linux.
    let failed = unsafe { clock_gettime(CLOCK_THREAD_CPUTIME_ID, &mut time) };
    assert!(failed == 0, "no clock of the thread");
    Duration::new(time.seconds as u64, time.nanoseconds as u32)
}
