//! Stand-in for the crate `web-time`, which cannot be had here.
//!
//! Why it cannot change the field: the source reads the clock for its log lines alone. This clock is the time that the
//! process has worked, of all its threads together, and not the wall's: on one thread and an idle machine they are the
//! same, and what else runs on the machine does not count.

use std::time::Duration;

#[derive(Clone, Copy)]
pub struct Instant(Duration);

impl Instant {
    pub fn now() -> Instant {
        let mut time = Time { seconds: 0, nanoseconds: 0 };
        // SAFETY: the C library writes one record, of two 64-bit numbers on the machines that we know.
        let failed = unsafe { clock_gettime(PROCESS_CPU_TIME, &mut time) };
        assert_eq!(failed, 0, "no clock of the process");
        Instant(Duration::new(time.seconds as u64, time.nanoseconds as u32))
    }

    pub fn elapsed(&self) -> Duration {
        Instant::now().0 - self.0
    }
}

/// CLOCK_PROCESS_CPUTIME_ID of Linux.
const PROCESS_CPU_TIME: i32 = 2;

#[repr(C)]
struct Time {
    seconds: i64,
    nanoseconds: i64,
}

extern "C" {
    fn clock_gettime(clock: i32, time: *mut Time) -> i32;
}
