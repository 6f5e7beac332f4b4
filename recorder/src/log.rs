//! The log: one line an event on standard error, with no message bodies.
//!
//! A thread of its own writes the lines: a terminal that is held, or a program that does not read them, holds up nothing else. What
//! does not fit the queue is left out, and counted.
//!
//! (The crate `tracing` was looked at: it hands events on, and has no writer. Form, levels of the journal, queue and count would be here
//! all the same, below a subscriber of this crate's own.)
use std::collections::VecDeque;
use std::io::Write;
use std::sync::atomic::{AtomicU64, Ordering::SeqCst};
use std::sync::mpsc::{Receiver, SyncSender, sync_channel};
use std::sync::{Mutex, OnceLock, PoisonError};
use std::time::{Duration, Instant};

use nix::sys::stat::fstat;

use crate::clock;

/// How many lines may wait to be written.
const LINES: usize = 256;
/// How long the end of the service waits for them.
const PATIENCE: Duration = Duration::from_millis(500);

/// Lines that wait, and lines that had no place.
static WAITING: AtomicU64 = AtomicU64::new(0);
static LEFT_OUT: AtomicU64 = AtomicU64::new(0);

/// The last lines, for a page.
static LAST: Mutex<VecDeque<String>> = Mutex::new(VecDeque::new());
const KEPT: usize = 100;

/// The last lines of the log, so many of them, the last one last.
pub fn last(count: usize) -> Vec<String> {
    let lines = LAST.lock().unwrap_or_else(PoisonError::into_inner);
    lines.iter().skip(lines.len().saturating_sub(count)).cloned().collect()
}

/// How many lines nobody took, and that are not made known yet.
pub fn left_out() -> u64 {
    LEFT_OUT.load(SeqCst)
}

fn keep(line: String) {
    let mut lines = LAST.lock().unwrap_or_else(PoisonError::into_inner);
    if lines.len() >= KEPT {
        lines.pop_front();
    }
    lines.push_back(line);
}

#[derive(Clone, Copy, Debug, PartialEq, Eq)]
pub enum Level {
    Error,
    Warning,
    Info,
}

/// Whether standard error goes to the system's journal, which puts times to lines itself and reads a level in front of them. The
/// variable names the file that is the journal: a shell below a service has it too.
fn is_journal() -> bool {
    static FOUND: OnceLock<bool> = OnceLock::new();
    let look = || fstat(2).ok().zip(std::env::var("JOURNAL_STREAM").ok());
    *FOUND.get_or_init(|| look().is_some_and(|(it, name)| name == format!("{}:{}", it.st_dev, it.st_ino)))
}

pub fn write(level: Level, text: &str) {
    // (a test of a part has no log: what goes wrong in it is meant to)
    if cfg!(test) {
        return;
    }
    let (number, name) = match level {
        Level::Error => (3, "error"),
        Level::Warning => (4, "warning"),
        Level::Info => (6, "info"),
    };
    // a line has no ends of lines in it
    let text: String = text.chars().map(|it| if it.is_control() { ' ' } else { it }).collect();
    let plain = format!("{}Z {name}: {text}", clock::text(&clock::civil(time::OffsetDateTime::now_utc())));
    let line = if is_journal() { format!("<{number}>{text}\n") } else { format!("{plain}\n") };
    keep(plain);
    WAITING.fetch_add(1, SeqCst);
    if queue().is_none_or(|it| it.try_send(line).is_err()) {
        WAITING.fetch_sub(1, SeqCst);
        LEFT_OUT.fetch_add(1, SeqCst);
    }
}

/// Where lines wait. None where no thread could be had.
fn queue() -> Option<&'static SyncSender<String>> {
    static QUEUE: OnceLock<Option<SyncSender<String>>> = OnceLock::new();
    let start = || {
        let (to, from) = sync_channel(LINES);
        std::thread::Builder::new().name("log".to_string()).spawn(move || write_down(&from)).ok().map(|_| to)
    };
    QUEUE.get_or_init(start).as_ref()
}

fn write_down(from: &Receiver<String>) {
    let mut is_cut = false;
    for mut line in from {
        let left_out = LEFT_OUT.swap(0, SeqCst);
        if left_out > 0 {
            let more =
                format!("{left_out} lines of the log were left out before this one: nobody read them, or they had no room\n");
            line.insert_str(0, &if is_journal() { format!("<4>{more}") } else { more });
        }
        // one write for a line, so that those of threads and of other programs do not mix
        if std::mem::take(&mut is_cut) {
            line.insert(0, '\n');
        }
        if std::io::stderr().write_all(line.as_bytes()).is_err() {
            LEFT_OUT.fetch_add(left_out + 1, SeqCst);
            is_cut = true;
        }
        WAITING.fetch_sub(1, SeqCst);
    }
}

/// Waits until all lines are written, but not for long.
pub fn flush() {
    let start = Instant::now();
    while WAITING.load(SeqCst) > 0 && start.elapsed() < PATIENCE {
        std::thread::sleep(Duration::from_millis(1));
    }
}

#[macro_export]
macro_rules! error { ($($word:tt)*) => { $crate::log::write($crate::log::Level::Error, &format!($($word)*)) } }
#[macro_export]
macro_rules! warning { ($($word:tt)*) => { $crate::log::write($crate::log::Level::Warning, &format!($($word)*)) } }
#[macro_export]
macro_rules! info { ($($word:tt)*) => { $crate::log::write($crate::log::Level::Info, &format!($($word)*)) } }
