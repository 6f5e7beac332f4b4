//! Whether the system's clock is right: what the kernel says of it, the program that sets it, and a pulse each second.
//!
//! The kernel is asked with each look at the clock. Programs and the pulse are asked by a thread of their own: one that does not
//! answer holds up nothing.
use std::path::{Path, PathBuf};
use std::sync::atomic::{AtomicBool, Ordering::SeqCst};
use std::sync::{Arc, Mutex};
use std::thread;
use std::time::{Duration, Instant};

use kernel_clock::KernelClock;
use nix::time::{ClockId, clock_gettime};
use serde_json::{Value, json};

use crate::clock::{self, Counter, Drift, Pair, Steps};
use crate::clock_programs::{self, Program};
use crate::settings::Settings;
use crate::stamps::nanos;

/// How often programs are asked, in seconds: where one says that the clock is in sync, and else.
const ASKED: (u64, u64) = (10, 2);
/// What was said longer ago than this no longer counts.
const OLD: Duration = Duration::from_secs(30);
/// A pulse is there if the last one is no older.
const PULSE: i128 = 2_500_000_000;
/// A count is cut to 100 ns, twice: the message's and the time packet's.
const ROUNDED: i128 = 200;
/// The kernel lets an error grow by so much, in millionths, until a program sets the clock again; so does this service until the next look.
const GROWS: i128 = 500;
/// What a program said grows by so much, as an error does in NTP (RFC 5905), until it is asked again.
const SAID_GROWS: i128 = 15;

/// A pulse each second, as the kernel saw the last one.
#[derive(Clone, Copy, Debug, PartialEq, Eq)]
pub struct Pulse {
    /// how far the clock was off the whole second, in nanoseconds; within half a second
    pub offset: i128,
    /// the system's time of it, in nanoseconds since 1970
    pub at: i128,
}

impl Pulse {
    /// Of the text that the kernel has for one: `SECONDS.NANOSECONDS#NUMBER`.
    fn of(text: &str) -> Option<Pulse> {
        let (seconds, rest) = text.trim().split_once('.')?;
        let (part, _) = rest.split_once('#')?;
        let at = seconds.parse::<i128>().ok()? * 1_000_000_000 + part.parse::<i128>().ok().filter(|_| part.len() == 9)?;
        let past = at.rem_euclid(1_000_000_000);
        (at > 0).then_some(Pulse { offset: if past >= 500_000_000 { past - 1_000_000_000 } else { past }, at })
    }
}

/// What the thread heard last.
#[derive(Clone, Debug, Default)]
struct Heard {
    program: Option<(Program, Instant)>,
    pulse: Option<Pulse>,
}

/// What is known of the clock at a look.
#[derive(Clone, Debug)]
pub struct Known {
    at: Instant,
    kernel: Result<KernelClock, String>,
    /// and when it was asked
    program: Option<(Program, Instant)>,
    pulse: Option<Pulse>,
    wants_pulse: bool,
    uncertainty: i128,
    /// the system's time of the look, in nanoseconds since 1970
    time: i128,
}

impl Known {
    /// Whether the clock is in sync; none where nobody can say. A program that sets it knows better than the kernel, which hears of it
    /// from that. `ptp4l` has a card's clock, so there the kernel has to agree that another program carries it on.
    pub fn is_synchronised(&self) -> Option<bool> {
        let kernel = self.kernel.as_ref().ok().map(|it| it.is_synchronised);
        match &self.program {
            Some((it, _)) if it.is_of_card => Some(it.is_synchronised && kernel.unwrap_or(false)),
            Some((it, _)) => Some(it.is_synchronised),
            None => kernel,
        }
    }

    /// The most that a time is off, in nanoseconds, at a moment after the look. None where nobody says it, and where the clock is not in
    /// sync.
    pub fn error(&self, now: Instant) -> Option<i128> {
        if self.is_synchronised() != Some(true) {
            return None;
        }
        let kernel = self.kernel.as_ref().ok().filter(|it| it.is_synchronised).map(|it| i128::from(it.most_error) * 1000);
        let grown = |since: Instant, by: i128| now.saturating_duration_since(since).as_nanos() as i128 * by / 1_000_000;
        let said = match &self.program {
            Some((it, asked)) if it.is_of_card => it.error + grown(*asked, SAID_GROWS) + kernel? + grown(self.at, GROWS),
            Some((it, asked)) => it.error + grown(*asked, SAID_GROWS),
            None => kernel? + grown(self.at, GROWS),
        };
        let off = self.pulse().map_or(0, |it| it.offset.abs());
        let past = now.saturating_duration_since(self.at).as_nanos() as i128;
        Some(said.max(off) + self.uncertainty + ROUNDED + self.leap(past))
    }

    /// A second, where a leap second may come before the next look: what is read back by the time packet before it is off by that.
    fn leap(&self, past: i128) -> i128 {
        const SECOND: i128 = 1_000_000_000;
        const DAY: i128 = 86_400 * SECOND;
        let coming = self.kernel.as_ref().is_ok_and(|it| it.leap != 0);
        // (a second that is taken out is the last one of the day; looks come once a second, a little later on a busy machine)
        let left = DAY - self.time.rem_euclid(DAY);
        if coming && left <= past + 3 * SECOND { SECOND } else { 0 }
    }

    /// The pulse, while it comes.
    fn pulse(&self) -> Option<Pulse> {
        self.pulse.filter(|it| (clock::now() - it.at).abs() < PULSE)
    }

    /// Who says so.
    pub fn source(&self) -> String {
        match (&self.program, &self.kernel) {
            (Some((it, _)), _) => it.text(),
            (None, Ok(it)) if it.is_synchronised => "the kernel, set by a program that was not asked".to_string(),
            (None, Ok(_)) => "the kernel".to_string(),
            (None, Err(why)) => format!("nobody: the kernel cannot be asked, {why}"),
        }
    }

    /// In a word.
    pub fn word(&self) -> &'static str {
        match self.is_synchronised() {
            Some(true) => "yes",
            Some(false) => "no",
            None => "unknown",
        }
    }

    /// What of it is told when it changes: whether it is in sync, by whom, and whether the pulse comes.
    fn news(&self) -> (Option<bool>, String, Option<bool>) {
        let by = self.program.as_ref().map_or_else(|| self.source(), |it| it.0.name.to_string());
        (self.is_synchronised(), by, self.wants_pulse.then(|| self.pulse().is_some()))
    }

    /// One line for people.
    pub fn line(&self) -> String {
        let is = match self.is_synchronised() {
            Some(true) => "is in sync",
            Some(false) => "is not in sync",
            None => "may be in sync or not",
        };
        let error = self
            .error(Instant::now())
            .map_or("its error is not known".to_string(), |it| format!("its error is at most {:.3} ms", it as f64 / 1e6));
        let pulse = match (self.wants_pulse, self.pulse()) {
            (false, _) => String::new(),
            (true, None) => "; no pulse comes".to_string(),
            (true, Some(it)) => format!("; the pulse is {:+.3} ms off", it.offset as f64 / 1e6),
        };
        format!("the system's clock {is}, says {}; {error}{pulse}", self.source())
    }
}

/// What the kernel said before and after a look, so that it holds of the look: the clock may have been set between the two.
fn worse(before: &Result<KernelClock, String>, after: Result<KernelClock, String>) -> Result<KernelClock, String> {
    let (Ok(one), Ok(two)) = (before, &after) else { return after };
    Ok(KernelClock {
        is_synchronised: one.is_synchronised && two.is_synchronised,
        most_error: one.most_error.max(two.most_error),
        estimated_error: one.estimated_error.max(two.estimated_error),
        leap: if two.leap == 0 { one.leap } else { two.leap },
        ..*two
    })
}

/// A time for the recorder: a count, its civil time, and the pair that they are from.
pub struct Look {
    pub count: u64,
    pub civil: r10::Civil,
    pub pair: Pair,
}

/// What a look found out.
pub struct Found {
    /// the clock stepped by so many seconds
    pub step: Option<f64>,
    /// lines for the log, and whether each is a warning
    pub notes: Vec<(bool, String)>,
}

/// Keeps the clock for the recorder's thread.
pub struct Keeper {
    counter: Counter,
    heard: Arc<Mutex<Heard>>,
    asks: Arc<AtomicBool>,
    wants_pulse: bool,
    steps: Steps,
    drift: Drift,
    /// the count of the last tick
    last: u64,
    stepped: Option<Instant>,
    /// what the kernel said right before the last look
    asked: Result<KernelClock, String>,
    pub last_step: f64,
    /// steps of the system's clock since the start
    pub steps_seen: u64,
    pub known: Known,
    told: Option<(Option<bool>, String, Option<bool>)>,
}

impl Keeper {
    pub fn new(settings: &Settings, counter: Counter) -> Keeper {
        let (heard, asks) = (Arc::new(Mutex::new(Heard::default())), Arc::new(AtomicBool::new(false)));
        let known = Known {
            at: Instant::now(),
            kernel: Err("it was not asked yet".to_string()),
            program: None,
            pulse: None,
            wants_pulse: settings.pps.is_some(),
            uncertainty: 0,
            time: 0,
        };
        Keeper {
            counter,
            heard,
            asks,
            wants_pulse: settings.pps.is_some(),
            steps: Steps::default(),
            drift: Drift::default(),
            last: 0,
            stepped: None,
            asked: Err("it was not asked yet".to_string()),
            last_step: 0.0,
            steps_seen: 0,
            known,
            told: None,
        }
    }

    /// Starts the thread that asks programs and looks at the pulse.
    pub fn start(&self, settings: &Settings) -> std::io::Result<()> {
        let (heard, asks, pps) = (self.heard.clone(), self.asks.clone(), settings.pps.clone());
        let programs = settings.ask_for_time.clone();
        let folder = settings.socket.parent().map(Path::to_path_buf).unwrap_or_default();
        // (where nobody is to be asked there is nothing to do)
        if programs.is_empty() && pps.is_none() {
            return Ok(());
        }
        thread::Builder::new()
            .name("clock".to_string())
            .spawn(move || ask_on(&heard, &asks, &programs, pps.as_deref(), &folder))?;
        Ok(())
    }

    /// The time now, as a tick has it: the count at which its hundredth of a second began. It is never below the last one's; after a step
    /// back that may take some milliseconds.
    pub fn look(&mut self) -> Look {
        loop {
            self.asked = kernel_clock::ask().map_err(|it| it.to_string());
            let pair = Pair::with_system(self.counter);
            let (count, civil) = pair.hundredth(self.counter);
            let short = self.last.saturating_sub(count);
            // (two pairs of one clock differ by their uncertainties)
            if short <= 100 {
                self.last = self.last.max(count);
                return Look { count: self.last, civil, pair };
            }
            // (no hundredth is longer than this)
            thread::sleep(Duration::from_nanos(100 * short.min(100_000)));
        }
    }

    /// What a look says of the clock, beside the looks before it.
    pub fn judge(&mut self, pair: &Pair) -> Found {
        let step = self.steps.look(pair);
        let mut notes = Vec::new();
        if let Some(step) = step {
            (self.stepped, self.last_step) = (Some(Instant::now()), step);
            self.asks.store(true, SeqCst);
            notes.push((true, format!("the system's clock stepped by {step:+.3} s; recordings have times before and after it")));
        }
        let raw = Pair::take(self.counter, || clock_gettime(ClockId::CLOCK_MONOTONIC_RAW).map(nanos));
        if raw.is_ok_and(|it| self.drift.look(&it)) {
            let rate = self.drift.rate();
            let text = if rate.abs() > Drift::TOLD { "is steered" } else { "is steered no more than an oscillator needs" };
            notes.push((
                rate.abs() > Drift::TOLD,
                format!("the system's clock {text}: by {rate:+.1} millionths, and counts with it"),
            ));
        }
        let heard = self.heard.lock().map(|it| it.clone()).unwrap_or_default();
        let now = Instant::now();
        // what was said before a step is not said of the clock as it is
        let counts = |at: Instant| now.duration_since(at) < OLD && self.stepped.is_none_or(|it| at > it);
        self.known = Known {
            at: now,
            // (of a thread that had to wait between the look and here: it has to hold of the look)
            kernel: worse(&self.asked, kernel_clock::ask().map_err(|it| it.to_string())),
            program: heard.program.filter(|it| counts(it.1)),
            pulse: heard.pulse,
            wants_pulse: self.wants_pulse,
            uncertainty: pair.uncertainty,
            time: pair.other,
        };
        let news = self.known.news();
        if self.told.as_ref() != Some(&news) {
            notes.push((news.0 != Some(true) || news.2 == Some(false), self.known.line()));
            self.told = Some(news);
        }
        Found { step, notes }
    }

    pub fn drift(&self) -> f64 {
        self.drift.rate()
    }

    /// As a value, for who draws it.
    pub fn value(&self) -> Value {
        let (it, now) = (&self.known, Instant::now());
        json!({
            "synchronised": it.is_synchronised(), "source": it.source(), "error_ns": it.error(now).map(|it| it as i64),
            "drift_ppm": (self.drift() * 1e3).round() / 1e3, "last_step_s": self.last_step,
            "pps": self.wants_pulse.then(|| it.pulse().is_some()), "pps_offset_ns": it.pulse().map(|it| it.offset as i64),
        })
    }

    /// The lines of `.TIME`. The first is the standard's.
    pub fn lines(&self) -> String {
        let (pair, now, it) = (Pair::with_system(self.counter), Instant::now(), &self.known);
        let at = clock::at(pair.other);
        let mut out =
            format!("TIME {:03}-{:02}:{:02}:{:02}.{:03}\n", at.ordinal(), at.hour(), at.minute(), at.second(), at.millisecond());
        let mut line = |key: &str, value: String| out += &format!("{key} {value}\n");
        let (year, month, day) = (at.year(), u8::from(at.month()), at.day());
        line("DATE", format!("{year:04}-{month:02}-{day:02}"));
        line("LOOK", self.last.to_string());
        line("COUNT", self.counter.count_of(pair.counter).to_string());
        line("UNIX_NS", pair.other.to_string());
        line("SYNC", it.word().to_string());
        line("SOURCE", it.source());
        line("ERROR_NS", it.error(now).map_or("unknown".to_string(), |it| it.to_string()));
        match &it.kernel {
            Ok(kernel) => line(
                "KERNEL",
                format!(
                    "{} most_error_us={} estimated_error_us={} leap={:+} tai={}",
                    if kernel.is_synchronised { "synchronised" } else { "unsynchronised" },
                    kernel.most_error,
                    kernel.estimated_error,
                    kernel.leap,
                    kernel.tai
                ),
            ),
            Err(why) => line("KERNEL", format!("not asked: {why}")),
        }
        if let Some((it, _)) = &it.program {
            line("PROGRAM", it.text());
        }
        if self.wants_pulse {
            line("PPS", it.pulse().map_or("none".to_string(), |it| format!("offset_ns={}", it.offset)));
        }
        line("DRIFT_PPM", format!("{:+.3}", self.drift()));
        line("LAST_STEP_S", format!("{:+.6}", self.last_step));
        out
    }
}

fn ask_on(heard: &Mutex<Heard>, asks: &AtomicBool, programs: &[String], pps: Option<&Path>, folder: &Path) {
    let path: Option<PathBuf> = pps.map(|it| if it.is_dir() { it.join("assert") } else { it.to_path_buf() });
    let mut left = 0;
    loop {
        let is_asked = asks.swap(false, SeqCst);
        if left == 0 || is_asked {
            // (it is said of the clock as it was when it was asked)
            let at = Instant::now();
            let found = clock_programs::ask(programs, folder);
            left = if found.as_ref().is_some_and(|it| it.is_synchronised) { ASKED.0 } else { ASKED.1 };
            if let Ok(mut it) = heard.lock() {
                it.program = found.map(|it| (it, at));
            }
        }
        let pulse = path.as_ref().and_then(|it| Pulse::of(&std::fs::read_to_string(it).ok()?));
        if let Ok(mut it) = heard.lock() {
            it.pulse = pulse;
        }
        left -= 1;
        thread::sleep(Duration::from_secs(1));
    }
}

#[cfg(test)]
mod tests {
    use super::*;

    fn known(kernel: Option<bool>, program: Option<Program>) -> Known {
        let kernel = kernel.map(|it| KernelClock { is_synchronised: it, most_error: 1500, ..KernelClock::default() });
        let (kernel, at) = (kernel.ok_or("no".to_string()), Instant::now());
        Known { at, kernel, program: program.map(|it| (it, at)), pulse: None, wants_pulse: false, uncertainty: 40, time: 0 }
    }

    fn program(is_synchronised: bool, is_of_card: bool) -> Option<Program> {
        Some(Program { name: "chrony", is_synchronised, is_of_card, source: "10.0.0.1".to_string(), error: 20_000 })
    }

    /// A program knows better than the kernel; of a card's clock the kernel has to agree; where nobody says it, it is not known.
    #[test]
    fn whether_it_is_right() {
        for (kernel, said, wanted, error) in [
            (None, None, None, None),
            (Some(true), None, Some(true), Some(1_500_000)),
            (Some(false), None, Some(false), None),
            (Some(false), program(true, false), Some(true), Some(20_000)),
            (Some(true), program(false, false), Some(false), None),
            (None, program(true, false), Some(true), Some(20_000)),
            (Some(false), program(true, true), Some(false), None),
            (Some(true), program(true, true), Some(true), Some(1_520_000)),
            (Some(true), program(false, true), Some(false), None),
        ] {
            let it = known(kernel, said);
            assert_eq!(it.is_synchronised(), wanted, "{it:?}");
            assert_eq!(it.error(it.at), error.map(|it| it + 40 + ROUNDED), "{it:?}");
        }
        // a leap second may come before the next look
        let mut it = known(Some(true), None);
        let error = it.error(it.at).unwrap();
        for (left, leap, more) in [(5, 1, 0), (2, 1, 1), (2, -1, 1), (2, 0, 0)] {
            it.time = (86_400 - left) * 1_000_000_000;
            it.kernel = it.kernel.map(|kernel| KernelClock { leap, ..kernel });
            assert_eq!(it.error(it.at), Some(error + more * 1_000_000_000), "{left} s before, {leap}");
        }
        // it grows until the next look
        let it = known(Some(true), None);
        assert_eq!(it.error(it.at + Duration::from_secs(2)), Some(1_500_000 + 40 + ROUNDED + 1_000_000));
        let it = known(None, program(true, false));
        assert_eq!(it.error(it.at + Duration::from_secs(2)), Some(20_000 + 40 + ROUNDED + 30_000));
    }

    #[test]
    fn pulses_are_read() {
        assert_eq!(Pulse::of("1709210096.000001500#77\n"), Some(Pulse { offset: 1500, at: 1_709_210_096_000_001_500 }));
        assert_eq!(Pulse::of("1709210096.999999000#77").map(|it| it.offset), Some(-1000));
        for wrong in ["", "0.000000000#0", "17.5#1", "17", "x.000000000#1", "17.000000000"] {
            assert_eq!(Pulse::of(wrong), None, "{wrong}");
        }
        // a clock is not better than the pulse says
        let mut it = known(Some(true), None);
        it.pulse = Some(Pulse { offset: -3_000_000, at: clock::now() });
        assert_eq!(it.error(it.at), Some(3_000_000 + 40 + ROUNDED));
        it.pulse = Some(Pulse { offset: -3_000_000, at: clock::now() - 2 * PULSE });
        assert_eq!(it.error(it.at), Some(1_500_000 + 40 + ROUNDED));
    }
}
