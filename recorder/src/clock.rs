//! The two clocks: counts of 100 ns since the service was started, which never step, and civil time, which may.
use std::collections::VecDeque;
use std::time::{Duration, Instant};

use time::OffsetDateTime;

/// Counts are below this.
pub const COUNTS: u64 = 1 << 48;

/// The counter begins here, a tenth of a second: so the count at which a hundredth of a second began is none below 0.
pub const FIRST: u64 = 1_000_000;

/// A step of the system's clock of so much is an event, and so is one of smaller ones that come to it together.
pub const STEP: Duration = Duration::from_millis(10);

/// A time packet's civil time is told to so many nanoseconds.
const HUNDREDTH: i128 = 10_000_000;

#[derive(Clone, Copy, Debug)]
pub struct Counter {
    start: Instant,
}

impl Counter {
    pub fn new() -> Counter {
        Counter { start: Instant::now() }
    }

    pub fn count(self) -> u64 {
        self.count_at(Instant::now())
    }

    pub fn count_at(self, at: Instant) -> u64 {
        self.count_of(self.nanos_at(at))
    }

    /// The nanoseconds from the counter's start to a time, which may lie before it.
    pub fn nanos_at(self, at: Instant) -> i128 {
        match at.checked_duration_since(self.start) {
            Some(it) => it.as_nanos() as i128,
            None => -(self.start.duration_since(at).as_nanos() as i128),
        }
    }

    /// The count so many nanoseconds after the counter's start. What is before all counts has the least.
    pub fn count_of(self, nanos: i128) -> u64 {
        (nanos + i128::from(FIRST) * 100).max(0) as u64 / 100
    }
}

impl Default for Counter {
    fn default() -> Counter {
        Counter::new()
    }
}

/// A time of the counter and of another clock, which were one.
#[derive(Clone, Copy, Debug, PartialEq, Eq)]
pub struct Pair {
    /// in nanoseconds from the counter's start
    pub counter: i128,
    /// the other clock's, in nanoseconds
    pub other: i128,
    /// how far they may be off, in nanoseconds
    pub uncertainty: i128,
}

impl Pair {
    /// Looks at the other clock between two looks at the counter. Of three such pairs it is the one with the smallest
    /// uncertainty, which is half of the time between the looks. Where even that had to wait for a processor there are more tries.
    pub fn take<E>(counter: Counter, mut other: impl FnMut() -> Result<i128, E>) -> Result<Pair, E> {
        const PATIENCE: i128 = 50_000;
        let mut best = Pair::once(counter, &mut other)?;
        for tried in 1..20 {
            if tried >= 3 && best.uncertainty <= PATIENCE {
                break;
            }
            let it = Pair::once(counter, &mut other)?;
            if it.uncertainty < best.uncertainty {
                best = it;
            }
        }
        Ok(best)
    }

    fn once<E>(counter: Counter, other: &mut impl FnMut() -> Result<i128, E>) -> Result<Pair, E> {
        let before = Instant::now();
        let other = other()?;
        let (before, after) = (counter.nanos_at(before), counter.nanos_at(Instant::now()));
        Ok(Pair { counter: i128::midpoint(before, after), other, uncertainty: (after - before + 1) / 2 })
    }

    /// One with the system's clock, in nanoseconds since 1970 in UTC.
    pub fn with_system(counter: Counter) -> Pair {
        match Pair::take(counter, || Ok::<_, std::convert::Infallible>(now())) {
            Ok(it) => it,
        }
    }

    /// How far the other clock is ahead of the counter.
    pub fn ahead(&self) -> i128 {
        self.other - self.counter
    }

    /// The count at which the hundredth of a second of this pair began, and the civil time then.
    pub fn hundredth(&self, counter: Counter) -> (u64, r10::Civil) {
        let past = self.other.rem_euclid(HUNDREDTH);
        (counter.count_of(self.counter - past), civil(at(self.other - past)))
    }
}

/// The system's clock, in nanoseconds since 1970.
pub fn now() -> i128 {
    OffsetDateTime::now_utc().unix_timestamp_nanos()
}

/// The civil time so many nanoseconds after 1970. What no date has is the first of that year.
pub fn at(nanos: i128) -> OffsetDateTime {
    OffsetDateTime::from_unix_timestamp_nanos(nanos).unwrap_or(OffsetDateTime::UNIX_EPOCH)
}

pub fn civil(at: OffsetDateTime) -> r10::Civil {
    let (hour, minute, second) = at.to_hms();
    r10::Civil {
        year: at.year().clamp(1, 3999) as u16,
        month: u8::from(at.month()).into(),
        day: at.day().into(),
        hour: hour.into(),
        minute: minute.into(),
        second: second.into(),
        centi: at.millisecond() / 10,
    }
}

/// A civil time as a text, as `r10` prints it.
pub fn text(it: &r10::Civil) -> String {
    format!("{:04}-{:02}-{:02} {:02}:{:02}:{:02}.{:02}", it.year, it.month, it.day, it.hour, it.minute, it.second, it.centi)
}

/// The civil time of such a text: `YYYY-MM-DD hh:mm:ss.cc`, or with a `T` for the space, or without the hundredths.
pub fn parse(text: &str) -> Option<r10::Civil> {
    let (date, time) = text.split_once([' ', 'T'])?;
    let (time, centi) = time.split_once('.').unwrap_or((time, "00"));
    let numbers = |text: &str, by: char, digits: [usize; 3]| -> Option<[u16; 3]> {
        let mut parts = text.split(by);
        let mut part =
            |count: usize| parts.next().filter(|it| it.len() == count && it.bytes().all(|b| b.is_ascii_digit()))?.parse().ok();
        let found = [part(digits[0])?, part(digits[1])?, part(digits[2])?];
        parts.next().is_none().then_some(found)
    };
    let [year, month, day] = numbers(date, '-', [4, 2, 2])?;
    let [hour, minute, second] = numbers(time, ':', [2, 2, 2])?;
    let centi = Some(centi).filter(|it| it.len() == 2 && it.bytes().all(|b| b.is_ascii_digit()))?.parse().ok()?;
    Some(r10::Civil { year, month, day, hour, minute, second, centi })
}

/// A civil time in nanoseconds since 1970, if it is one.
pub fn of_civil(it: &r10::Civil) -> Option<i128> {
    let small = |it: u16| u8::try_from(it).ok();
    let month = time::Month::try_from(small(it.month)?).ok()?;
    let date = time::Date::from_calendar_date(it.year.into(), month, small(it.day)?).ok()?;
    let at = date.with_hms_milli(small(it.hour)?, small(it.minute)?, small(it.second)?, 10 * it.centi).ok()?;
    Some(at.assume_utc().unix_timestamp_nanos())
}

/// Notices steps of the system's clock: what it went beside the counts.
#[derive(Debug, Default)]
pub struct Steps {
    /// how far it was ahead of the counter when it was last told
    ahead: Option<i128>,
}

impl Steps {
    /// How far the clock stepped since the last step that was told, in seconds, where that is [`STEP`] or more: so small ones that
    /// come to it together are one.
    pub fn look(&mut self, pair: &Pair) -> Option<f64> {
        let ahead = *self.ahead.get_or_insert(pair.ahead());
        let step = pair.ahead() - ahead;
        // (a pair that had to wait is no measure: the next one is)
        if pair.uncertainty > 1_000_000 || step.abs() + 50_000 < STEP.as_nanos() as i128 {
            return None;
        }
        self.ahead = Some(pair.ahead());
        Some(step as f64 / 1e9)
    }
}

/// Notices that the system's clock is steered: how fast the counter goes beside the machine's own oscillator, which nobody steers.
#[derive(Debug, Default)]
pub struct Drift {
    looks: VecDeque<(i128, i128)>,
    is_told: bool,
}

impl Drift {
    /// So many looks are kept, one a second.
    const LOOKS: usize = 60;
    /// An oscillator is off by less than so many millionths; who steers more than that has an error to take away.
    pub const TOLD: f64 = 100.0;

    /// The counter and the oscillator were at these nanoseconds. Whether there is something new to be told.
    pub fn look(&mut self, pair: &Pair) -> bool {
        self.looks.push_back((pair.counter, pair.other));
        if self.looks.len() > Drift::LOOKS {
            self.looks.pop_front();
        }
        let is_steered = self.looks.len() > 10 && self.rate().abs() > Drift::TOLD;
        std::mem::replace(&mut self.is_told, is_steered) != is_steered
    }

    /// How many millionths the counter is faster, over the last minute.
    pub fn rate(&self) -> f64 {
        match (self.looks.front(), self.looks.back()) {
            (Some(first), Some(last)) if last.1 > first.1 => {
                let (counter, other) = (last.0 - first.0, last.1 - first.1);
                (counter - other) as f64 / other as f64 * 1e6
            }
            _ => 0.0,
        }
    }
}

#[cfg(test)]
mod tests {
    use super::*;

    #[test]
    fn texts_of_times_are_read_back() {
        let at = OffsetDateTime::from_unix_timestamp(1_709_210_096).unwrap() + time::Duration::milliseconds(789);
        assert_eq!(text(&civil(at)), "2024-02-29 12:34:56.78");
        assert_eq!(of_civil(&civil(at)), Some(1_709_210_096_780_000_000));
        assert_eq!(of_civil(&r10::Civil { month: 13, ..civil(at) }), None);
        for text_of_it in ["2024-02-29 12:34:56.78", "2024-02-29T12:34:56.78"] {
            assert_eq!(parse(text_of_it).map(|it| text(&it)), Some("2024-02-29 12:34:56.78".to_string()));
        }
        assert_eq!(parse("2024-02-29 12:34:56").map(|it| it.centi), Some(0));
        for wrong in [
            "",
            "2024-02-29",
            "2024-2-29 12:34:56",
            "2024-02-29 12:34",
            "2024-02-29 12:34:56.7",
            "2024-02-29-01 12:34:56",
            "+024-02-29 12:34:56",
        ] {
            assert_eq!(parse(wrong), None, "{wrong}");
        }
    }

    fn pair(counter: i128, other: i128) -> Pair {
        Pair { counter, other, uncertainty: 40 }
    }

    #[test]
    fn a_step_is_noticed_once() {
        const SECOND: i128 = 1_000_000_000;
        const MILLI: i128 = 1_000_000;
        let start = 1_709_210_096 * SECOND;
        let mut steps = Steps::default();
        assert_eq!(steps.look(&pair(0, start)), None);
        assert_eq!(steps.look(&pair(SECOND, start + SECOND + 9 * MILLI)), None);
        // small ones come together
        let found = steps.look(&pair(2 * SECOND, start + 2 * SECOND + 18 * MILLI)).unwrap();
        assert!((found - 0.018).abs() < 1e-9, "{found}");
        assert_eq!(steps.look(&pair(3 * SECOND, start + 3 * SECOND + 18 * MILLI)), None);
        let found = steps.look(&pair(4 * SECOND, start + 4 * SECOND + 8 * MILLI)).unwrap();
        assert!((found + 0.010).abs() < 1e-9, "{found}");
        assert_eq!(steps.look(&pair(5 * SECOND, start + 3605 * SECOND)).map(f64::round), Some(3600.0));
        assert!(steps.look(&pair(6 * SECOND, start)).unwrap() < -3605.0);
    }

    /// The count of a time packet is the one at which its hundredth began, and the counter has it.
    #[test]
    fn a_hundredth_begins_at_its_count() {
        let counter = Counter::new();
        let start = 1_709_210_096_000_000_000;
        for (past, centi) in [(0, 0), (1, 0), (9_999_999, 0), (10_000_000, 1), (789_123_456, 78), (999_999_999, 99)] {
            let (count, civil) = pair(50, start + past).hundredth(counter);
            assert_eq!(civil.centi, centi);
            let off = i128::from(count) * 100 - (i128::from(FIRST) * 100 + 50 - past % 10_000_000);
            assert!((-100..=0).contains(&off), "{past}: {off}");
        }
        // a clock before 1970
        assert_eq!(text(&pair(0, -1).hundredth(counter).1), "1969-12-31 23:59:59.99");
    }

    #[test]
    fn a_pair_has_its_uncertainty() {
        let (counter, mut calls) = (Counter::new(), 0);
        let it = Pair::take(counter, || {
            calls += 1;
            std::thread::sleep(Duration::from_micros(if calls == 2 { 100 } else { 3000 }));
            Ok::<_, ()>(calls)
        });
        // (a test may have to wait for a processor)
        assert!(calls >= 3 && it.unwrap().uncertainty >= 50_000, "{calls} {it:?}");
        let (one, other) = (Pair::with_system(counter), Pair::with_system(counter));
        assert!((one.ahead() - other.ahead()).abs() <= one.uncertainty + other.uncertainty + 1000, "{one:?} {other:?}");
    }

    #[test]
    fn steering_is_told_when_it_begins_and_ends() {
        const SECOND: i128 = 1_000_000_000;
        let (mut drift, mut told, mut counter) = (Drift::default(), Vec::new(), 0);
        for second in 0..300 {
            counter += SECOND + if (100..200).contains(&second) { 500_000 } else { 20_000 };
            if drift.look(&pair(counter, second * SECOND)) {
                told.push(second);
            }
        }
        assert_eq!(told.len(), 2);
        assert!((100..130).contains(&told[0]) && (200..260).contains(&told[1]), "{told:?}");
        assert!((drift.rate() - 20.0).abs() < 0.1, "{}", drift.rate());
    }
}
