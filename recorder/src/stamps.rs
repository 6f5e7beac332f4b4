//! Stamps of another clock, as counts: the kernel's time of a datagram's arrival, or a card's.
//!
//! A clock is tied to the counter by a pair, which is looked at once a second, and sooner where it no longer holds. A stamp is
//! taken if its count lies between the time at which nothing was left to be read, and now. Where the clock stepped between the two,
//! the pair from before the step may be the right one. How far a count may be off, where that cannot be known, goes with it.
use std::convert::Infallible;
use std::fs::File;
use std::io;
use std::ops::RangeInclusive;
use std::os::fd::AsRawFd;
use std::path::Path;

use nix::sys::time::TimeSpec;
use nix::time::{ClockId, clock_gettime};

use crate::clock::{self, Counter, Pair};

/// How long a pair with the system's clock is kept: both are steered as one, so that only a step parts them.
const SYSTEM: i128 = 1_000_000_000;
/// How long one with a card's clock is kept, which runs by itself: at 100 millionths it is 10 microseconds off then.
const CARD: i128 = 100_000_000;
/// A pair that is off by so much no longer holds.
const HOLDS: i128 = 100_000;
/// How far a stamp may lie outside of when it must have been made.
const SLACK: i128 = 1_000_000;

/// The clock that makes stamps.
enum Clock {
    /// `CLOCK_REALTIME`
    System,
    /// a card's, as /dev/ptp0
    Card(File),
}

impl Clock {
    fn now(&self) -> io::Result<i128> {
        match self {
            Clock::System => Ok(clock::now()),
            // (the system has a number for the clock of an open file)
            Clock::Card(file) => Ok(nanos(clock_gettime(ClockId::from_raw((!file.as_raw_fd() << 3) | 3))?)),
        }
    }
}

/// Nanoseconds of the system's form of a time.
pub fn nanos(it: TimeSpec) -> i128 {
    i128::from(it.tv_sec()) * 1_000_000_000 + i128::from(it.tv_nsec())
}

/// When something came: a count, and how far that may be off, in nanoseconds, where it is not known better.
#[derive(Clone, Copy, Debug, PartialEq, Eq)]
pub struct Stamped {
    pub count: u64,
    pub off: i128,
}

/// Stamps of a clock, carried to the counter.
pub struct Stamps {
    counter: Counter,
    clock: Clock,
    pair: Option<Pair>,
    /// when that pair was last seen to hold, in nanoseconds of the counter
    held: i128,
    /// from before the last step, and between which times of the counter that was
    before: Option<(Pair, RangeInclusive<i128>)>,
    /// the last stamp was carried at this time of the counter, in nanoseconds
    read: i128,
    /// what is read from now on came later than this
    drained: i128,
}

impl Stamps {
    /// Of the kernel's stamps, which are times of `CLOCK_REALTIME`.
    pub fn of_system(counter: Counter) -> Stamps {
        Stamps { counter, clock: Clock::System, pair: None, held: 0, before: None, read: 0, drained: 0 }
    }

    /// Of a card's own stamps, by its clock's device.
    pub fn of_card(counter: Counter, device: &Path) -> io::Result<Stamps> {
        let clock = Clock::Card(File::open(device)?);
        clock.now()?;
        Ok(Stamps { clock, ..Stamps::of_system(counter) })
    }

    /// Nothing was left to be read after the last stamp: what comes from now on has a later one.
    pub fn drained(&mut self) {
        self.drained = self.read;
    }

    fn now(&self) -> i128 {
        self.counter.nanos_at(std::time::Instant::now())
    }

    /// Looks at the clock, where that is due, before stamps are carried.
    pub fn look(&mut self) {
        let (age, kept) = (self.now(), if matches!(self.clock, Clock::System) { SYSTEM } else { CARD });
        let Ok(other) = self.clock.now() else { return };
        if let Some(it) = self.pair
            && age - it.counter < kept
            && (other - age - it.ahead()).abs() < HOLDS
        {
            self.held = age;
            return;
        }
        let Ok(fresh) = Pair::take(self.counter, || self.clock.now()) else { return };
        if let Some(old) = self.pair.replace(fresh)
            && (old.ahead() - fresh.ahead()).abs() >= HOLDS
        {
            self.before = Some((old, self.held..=fresh.counter));
        }
        self.held = fresh.counter;
    }

    /// Something is read now, and has a stamp in nanoseconds of the clock: its count. None where it can't be that of what is read.
    pub fn count_of(&mut self, stamp: i128) -> Option<Stamped> {
        // (a step since the last look would put the stamp of what came after it wrong; of a card that look takes too long)
        if matches!(self.clock, Clock::System) {
            self.look();
        }
        self.read = self.now();
        let span = self.drained.saturating_sub(SLACK)..=self.read + SLACK;
        let by = |it: &Pair| Some((stamp - it.ahead(), it.uncertainty)).filter(|(at, _)| span.contains(at));
        let (mut after, mut before) = (self.pair.as_ref().and_then(by), None);
        if let Some((old, step)) = &self.before {
            // what came before the step has a stamp from before it
            before = by(old).filter(|(at, off)| *at <= step.end() + HOLDS + off);
            after = after.filter(|(at, off)| at + HOLDS + off >= *step.start());
        }
        // where both may be, it is the earlier one: so nothing that came later is put before it
        let (at, other) = match (after, before) {
            (Some(one), Some(two)) => (one.min(two), one.max(two)),
            (one, two) => (one.or(two)?, one.or(two)?),
        };
        let off = other.0 - at.0 + at.1.max(other.1);
        Some(Stamped { count: self.counter.count_of(at.0), off: if off < HOLDS { 0 } else { off } })
    }

    /// Something is read now, and has no stamp: it came since nothing was left to be read.
    pub fn unstamped(&mut self) -> Stamped {
        self.read = self.now();
        Stamped { count: self.counter.count_of(self.read), off: (self.read - self.drained).max(0) }
    }
}

/// A source's own counter, tied to the recorder's by the pairs that it sends. It goes round after 48 bits.
#[derive(Clone, Copy, Debug, Default)]
pub struct Source {
    /// a count of the source's counter, and the recorder's then
    pair: Option<(u64, u64)>,
}

impl Source {
    /// The source's counter had this value at this count.
    pub fn tie(&mut self, count: u64, at: u64) {
        self.pair = Some((count & (clock::COUNTS - 1), at));
    }

    /// The count at which the source's counter had a value: the one within half a round of the last pair. None before the first.
    pub fn count_of(&self, count: u64) -> Option<u64> {
        let (tied, at) = self.pair?;
        let round = i128::from(clock::COUNTS);
        let past = (i128::from(count & (clock::COUNTS - 1)) - i128::from(tied)).rem_euclid(round);
        let past = if past >= round / 2 { past - round } else { past };
        Some((i128::from(at) + past).clamp(0, round - 1) as u64)
    }
}

/// Takes times of the system's clock to counts, for stamps that a source gives: at any time, since they say when they were made.
pub struct Civil {
    counter: Counter,
    pair: Pair,
    /// nanoseconds from UTC to TAI
    tai: i128,
}

/// Seconds from UTC to TAI, as the kernel was told; else those since 2017.
fn tai() -> i128 {
    let told = kernel_clock::ask().map_or(0, |it| it.tai);
    i128::from(if told == 0 { TAI } else { told }) * 1_000_000_000
}

const TAI: i32 = 37;

impl Civil {
    pub fn new(counter: Counter) -> Civil {
        Civil { counter, pair: Pair::with_system(counter), tai: tai() }
    }

    /// Looks at the system's clock, where that is due.
    pub fn look(&mut self) {
        let now = self.counter.nanos_at(std::time::Instant::now());
        if now - self.pair.counter >= SYSTEM || (clock::now() - now - self.pair.ahead()).abs() >= HOLDS {
            self.pair = match Pair::take(self.counter, || Ok::<_, Infallible>(clock::now())) {
                Ok(it) => it,
            };
            self.tai = tai();
        }
    }

    /// The count at a time, in nanoseconds since 1970.
    pub fn count_at(&self, nanos: i128) -> u64 {
        self.counter.count_of(nanos - self.pair.ahead())
    }

    /// The count at a time in TAI, in nanoseconds since 1970.
    pub fn count_at_tai(&self, nanos: i128) -> u64 {
        self.count_at(nanos - self.tai)
    }
}

#[cfg(test)]
mod tests {
    use super::*;

    /// A stamp from before a step, or after it, has the count of its time; one from another hour has none.
    #[test]
    fn stamps_are_carried_over_a_step() {
        let counter = Counter::new();
        let mut it = Stamps::of_system(counter);
        it.look();
        let now = || counter.nanos_at(std::time::Instant::now());
        let off = |it: Option<Stamped>, wanted: i128| (i128::from(it.unwrap().count) - i128::from(counter.count_of(wanted))).abs();
        let (stamp, at) = (clock::now(), now());
        assert!(off(it.count_of(stamp), at) < 10_000, "{:?}", it.count_of(stamp));
        const HOUR: i128 = 3_600_000_000_000;
        assert_eq!((it.count_of(stamp + HOUR), it.count_of(stamp - HOUR)), (None, None));
        // as if the clock had been an hour behind before
        let pair = it.pair.unwrap();
        it.pair = Some(Pair { other: pair.other - HOUR, ..pair });
        it.look();
        assert!(it.before.is_some());
        assert!(off(it.count_of(stamp), at) < 10_000 && off(it.count_of(stamp - HOUR), at) < 10_000);
        // once all that came before is read, no stamp is older
        std::thread::sleep(std::time::Duration::from_millis(5));
        assert!(it.count_of(clock::now()).is_some());
        it.drained();
        assert_eq!((it.count_of(stamp), it.count_of(stamp - HOUR)), (None, None));
    }

    /// A stamp that may be from before a small step or after it has the earlier count, and says how far that may be off. One that lies
    /// before the step's span, or after it, has one count.
    #[test]
    fn a_stamp_amid_a_step_says_how_far_it_may_be_off() {
        const MILLI: i128 = 1_000_000;
        let counter = Counter::new();
        let mut it = Stamps::of_system(counter);
        let now = || counter.nanos_at(std::time::Instant::now());
        for step in [10 * MILLI, -10 * MILLI] {
            it.look();
            // as if the clock stepped so by now, within the last 50 ms, and nothing was read for longer
            let (at, pair) = (now(), it.pair.unwrap());
            (it.held, it.drained) = (at - 50 * MILLI, at - 100 * MILLI);
            it.pair = Some(Pair { other: pair.other - step, ..pair });
            it.look();
            let ahead = it.pair.unwrap().ahead();
            for (past, is_known) in [(20, false), (70, true), (-12, true)] {
                // (the last one comes after the look)
                std::thread::sleep(std::time::Duration::from_millis(5));
                let came = at - past * MILLI;
                let found = it.count_of(came + ahead - if past == 70 { step } else { 0 }).unwrap();
                let wanted = if is_known { came } else { came.min(came + step) };
                let far = (i128::from(found.count) - i128::from(counter.count_of(wanted))).abs();
                assert!(far < 5000, "{step} {past}: {found:?}, {far} off");
                let off = if is_known { 0 } else { 10 * MILLI };
                assert!((off..=off + MILLI).contains(&found.off), "{step} {past}: {found:?}");
            }
        }
        std::thread::sleep(std::time::Duration::from_millis(3));
        let found = it.unstamped();
        assert!(found.off >= 3 * MILLI, "{found:?}");
        it.drained();
        assert!(it.unstamped().off < found.off, "{found:?}");
    }

    #[test]
    fn a_counter_of_a_source_goes_round() {
        let mut it = Source::default();
        assert_eq!(it.count_of(5), None);
        it.tie(clock::COUNTS - 10, 1_000_000);
        assert_eq!(it.count_of(clock::COUNTS - 10), Some(1_000_000));
        assert_eq!(it.count_of(10), Some(1_000_000 + 20));
        assert_eq!(it.count_of(clock::COUNTS - 30), Some(1_000_000 - 20));
        it.tie(5, 3);
        assert_eq!(it.count_of(1), Some(0));
    }

    #[test]
    fn a_card_that_has_no_clock_is_refused() {
        assert!(Stamps::of_card(Counter::new(), Path::new("/dev/null")).is_err());
        assert!(Stamps::of_card(Counter::new(), Path::new("/nonexistent")).is_err());
    }
}
