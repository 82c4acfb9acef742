//! The clock of the timed calls: the time on the wall, or the processor's time of this thread.

use std::sync::OnceLock;
use std::sync::atomic::{AtomicBool, Ordering};
use std::time::{Duration, Instant};

static PROCESSOR: AtomicBool = AtomicBool::new(false);
static BEGIN: OnceLock<Instant> = OnceLock::new();

/// From here on the processor's time is taken.
pub fn take_processor_time() {
    PROCESSOR.store(true, Ordering::Relaxed);
}

/// The time since some fixed moment.
pub fn now() -> Duration {
    if PROCESSOR.load(Ordering::Relaxed) {
        return thread_time();
    }
    BEGIN.get_or_init(Instant::now).elapsed()
}

#[repr(C)]
struct TimeSpec {
    seconds: i64,
    nanoseconds: i64,
}

unsafe extern "C" {
    fn clock_gettime(clock: i32, time: *mut TimeSpec) -> i32;
}

/// CLOCK_THREAD_CPUTIME_ID of x86-64 Linux, where the static library runs.
fn thread_time() -> Duration {
    let mut time = TimeSpec {
        seconds: 0,
        nanoseconds: 0,
    };
    // The pointer is to a structure of the form that the call writes.
    let answer = unsafe { clock_gettime(3, &mut time) };
    assert_eq!(answer, 0, "the thread's clock");
    Duration::new(time.seconds as u64, time.nanoseconds as u32)
}
