//! The processor time of this process: other work on the machine does not count.

use std::time::Duration;

#[repr(C)]
struct Timespec {
    seconds: i64,
    nanoseconds: i64,
}

extern "C" {
    fn clock_gettime(clock: i32, time: *mut Timespec) -> i32;
}

/// CLOCK_PROCESS_CPUTIME_ID of Linux
const PROCESS_CLOCK: i32 = 2;

pub fn processor_time() -> Duration {
    let mut time = Timespec { seconds: 0, nanoseconds: 0 };
    // Safety: C's clock_gettime writes one timespec, which has this layout on every 64-bit Linux.
    let failed = unsafe { clock_gettime(PROCESS_CLOCK, &mut time) };
    assert_eq!(failed, 0, "no processor clock");
    Duration::new(time.seconds as u64, time.nanoseconds as u32)
}
