//! The processor time of this thread, for which std has no clock.

use std::ffi::{c_int, c_long};
use std::io;
use std::time::Duration;

/// The C library's `struct timespec`.
#[repr(C)]
struct Timespec {
    seconds: c_long,
    nanos: c_long,
}

unsafe extern "C" {
    fn clock_gettime(clock: c_int, time: *mut Timespec) -> c_int;
}

/// CLOCK_THREAD_CPUTIME_ID of Linux.
const THREAD: c_int = 3;

/// The processor time that this thread has taken.
pub fn thread_time() -> io::Result<Duration> {
    let mut time = Timespec {
        seconds: 0,
        nanos: 0,
    };
    // SAFETY: the C library writes one timespec, to which the pointer leads.
    if unsafe { clock_gettime(THREAD, &mut time) } != 0 {
        return Err(io::Error::last_os_error());
    }
    Ok(Duration::new(time.seconds as u64, time.nanos as u32))
}

/// What a call answers, with its processor time added to a sum.
pub fn timed<T>(sum: &mut Duration, call: impl FnOnce() -> T) -> io::Result<T> {
    let start = thread_time()?;
    let answer = call();
    *sum += thread_time()?.saturating_sub(start);
    Ok(answer)
}
