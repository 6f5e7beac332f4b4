//! What the kernel of Linux says of its clock: `adjtimex`, asked without changing anything.
//!
//! The one call of the system that the recorder's service needs, and that no packaged crate has. The service itself has one line of `unsafe`, where it maps its medium.
use std::ffi::{c_int, c_long, c_uint};
use std::io;

/// As `struct timex` of `<sys/timex.h>`: see adjtimex(2).
#[repr(C)]
#[derive(Default)]
struct Timex {
    modes: c_uint,
    offset: c_long,
    freq: c_long,
    maxerror: c_long,
    esterror: c_long,
    status: c_int,
    constant: c_long,
    precision: c_long,
    tolerance: c_long,
    time: [c_long; 2],
    tick: c_long,
    ppsfreq: c_long,
    jitter: c_long,
    shift: c_int,
    stabil: c_long,
    jitcnt: c_long,
    calcnt: c_long,
    errcnt: c_long,
    stbcnt: c_long,
    tai: c_int,
    unused: [c_int; 11],
}

unsafe extern "C" {
    fn adjtimex(timex: *mut Timex) -> c_int;
}

const STA_PPSSIGNAL: c_int = 0x0100;
const STA_INS: c_int = 0x0010;
const STA_DEL: c_int = 0x0020;
const STA_UNSYNC: c_int = 0x0040;
const TIME_ERROR: c_int = 5;

/// What the kernel says of its clock.
#[derive(Clone, Copy, Debug, Default, PartialEq, Eq)]
pub struct KernelClock {
    /// a program has set it by a source, and the kernel does not hold that for too long ago
    pub is_synchronised: bool,
    /// the most that it is off, in microseconds, by the program that set it; it grows by 500 a second
    pub most_error: i64,
    /// how much it is off, estimated by that program, in microseconds
    pub estimated_error: i64,
    /// a signal each second comes to the kernel, and is used
    pub has_pps: bool,
    /// a leap second comes at the end of the day: one is put in (1) or taken out (-1)
    pub leap: i8,
    /// seconds from UTC to TAI; 0 where nobody said
    pub tai: i32,
}

/// Asks the kernel. An error where the system does not let this program ask, as by a filter of its calls.
#[allow(clippy::unnecessary_cast, reason = "a long of the system may have 32 bits")]
pub fn ask() -> io::Result<KernelClock> {
    // (no modes: nothing is set)
    let mut found = Timex::default();
    // SAFETY: the call writes within this value, which is as the system declares it
    let state = unsafe { adjtimex(&mut found) };
    if state == -1 {
        return Err(io::Error::last_os_error());
    }
    let has = |bit: c_int| found.status & bit != 0;
    Ok(KernelClock {
        is_synchronised: state != TIME_ERROR && !has(STA_UNSYNC),
        most_error: found.maxerror as i64,
        estimated_error: found.esterror as i64,
        has_pps: has(STA_PPSSIGNAL),
        leap: i8::from(has(STA_INS)) - i8::from(has(STA_DEL)),
        tai: found.tai,
    })
}

#[cfg(test)]
mod tests {
    use super::*;

    #[test]
    fn the_value_is_as_long_as_the_systems() {
        // (of a system of 64 bits)
        assert!(size_of::<c_long>() != 8 || size_of::<Timex>() == 208);
    }

    #[test]
    fn it_answers_or_says_why_not() {
        match ask() {
            Ok(it) => assert!(it.most_error >= 0 && it.estimated_error >= 0 && (-1..=1).contains(&it.leap), "{it:?}"),
            Err(error) => assert!(matches!(error.kind(), io::ErrorKind::PermissionDenied | io::ErrorKind::Unsupported), "{error}"),
        }
    }
}
