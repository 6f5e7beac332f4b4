//! The log channel: what became of a recording, in lines that are messages of it. docs/RECORDER.md has their form.
//!
//! `Owner::log` takes a line of now, and `Board` one of another thread. Lines wait until a file is recorded; they begin none.
use std::collections::VecDeque;
use std::fmt::{Display, Write};
use std::sync::{Arc, Mutex};
use std::time::Instant;

use crate::clock::{self, Counter};
use crate::clock_state::Found;
use crate::kinds::Head;
use crate::owner::{Owner, Pending, State, Trouble};
use crate::{info, warning};

/// What each line begins with.
pub const LETTERS: &str = "r10log";
/// Its name in the setup text.
pub const NAME: &str = "RECORDER-LOG";
/// How many lines wait for a file.
pub const MOST: usize = 1000;
/// A longer value of a key is cut here.
const LONGEST: usize = 1000;
const HEAD: Head = Head::Message { data_error: false, format: false, sub: 0 };

/// A line: the letters, a word, the time of the system's clock, and keys with values.
#[derive(Clone, Debug, PartialEq, Eq)]
pub struct Line(String);

impl Line {
    /// One of now.
    pub fn new(word: &str) -> Line {
        Line::at(word, clock::now())
    }

    /// One of a time, in nanoseconds since 1970.
    fn at(word: &str, time: i128) -> Line {
        Line(format!("{LETTERS} {word} at={}", time_text(time)))
    }

    /// With a key and its value: as it is where it is a plain word, else in quotes as JSON has them.
    #[must_use]
    pub fn with(mut self, key: &str, value: impl Display) -> Line {
        let mut text = value.to_string();
        if text.len() > LONGEST {
            let end = (0..=LONGEST).rev().find(|at| text.is_char_boundary(*at)).unwrap_or(0);
            text.truncate(end);
            text += "..";
        }
        let is_plain = |it: u8| it.is_ascii_alphanumeric() || b"._:+/,-".contains(&it);
        if text.is_empty() || !text.bytes().all(is_plain) {
            text = serde_json::Value::from(text).to_string();
        }
        let _ = write!(self.0, " {key}={text}");
        self
    }

    pub fn text(&self) -> &str {
        &self.0
    }
}

/// A time, in nanoseconds since 1970, as lines have it.
pub(crate) fn time_text(time: i128) -> String {
    let it = clock::at(time);
    let (year, month, day) = (it.year(), u8::from(it.month()), it.day());
    let (hour, minute, second, micro) = it.to_hms_micro();
    format!("{year:04}-{month:02}-{day:02}T{hour:02}:{minute:02}:{second:02}.{micro:06}Z")
}

/// A line that is not durable yet.
#[derive(Debug)]
pub(crate) struct Note {
    count: u64,
    line: Line,
    /// lines that were left out before it
    lost: u64,
    /// it is left out after all others
    stays: bool,
}

/// Takes lines of threads that are not the recorder's.
#[derive(Clone, Debug)]
pub struct Board {
    counter: Counter,
    lines: Arc<Mutex<VecDeque<Note>>>,
}

impl Board {
    pub fn new(counter: Counter) -> Board {
        Board { counter, lines: Arc::default() }
    }

    /// Takes a line of now.
    pub fn put(&self, line: Line) {
        if let Ok(mut it) = self.lines.lock() {
            push(&mut it, Note { count: self.counter.count(), line, lost: 0, stays: false });
        }
    }

    fn take(&self) -> VecDeque<Note> {
        self.lines.lock().map(|mut it| std::mem::take(&mut *it)).unwrap_or_default()
    }
}

/// Puts a line after the others. Where too many wait the oldest one is left out, and counted before the one that followed it.
fn push(to: &mut VecDeque<Note>, note: Note) {
    to.push_back(note);
    if to.len() > MOST
        && let Some(at) = to.iter().position(|it| !it.stays).or(Some(0))
        && let Some(gone) = to.remove(at)
        && let Some(next) = to.get_mut(at)
    {
        next.lost += gone.lost + 1;
    }
}

/// The lines of the log channel on their way.
pub(crate) struct Notes {
    /// its place among the lanes, the last one
    pub(crate) place: usize,
    pub(crate) board: Board,
    waiting: VecDeque<Note>,
    /// lines that the recorder accepted, and that are not durable
    taken: VecDeque<Note>,
    last: u64,
}

impl Notes {
    pub(crate) fn new(place: usize, board: Board) -> Notes {
        Notes { place, board, waiting: VecDeque::new(), taken: VecDeque::new(), last: 0 }
    }

    /// How many lines are in no file yet.
    pub(crate) fn waiting(&self) -> usize {
        self.waiting.len() + self.taken.len()
    }

    /// So many of the lines that were accepted are durable.
    pub(crate) fn are_durable(&mut self, count: usize) {
        self.taken.drain(..count.min(self.taken.len()));
    }

    /// The recorder failed, and what is durable was taken out: the other lines wait again.
    pub(crate) fn wait_again(&mut self) {
        while let Some(note) = self.taken.pop_back() {
            self.waiting.push_front(note);
        }
    }
}

impl Owner {
    /// Notes a thing of now, in the system's log and in the log channel.
    pub(crate) fn note(&mut self, is_warning: bool, text: &str) {
        if is_warning {
            warning!("{text}");
        } else {
            info!("{text}");
        }
        self.log(Line::new(if is_warning { "warning" } else { "info" }).with("text", text));
    }

    /// Notes what a look at the clock found: its state where that changed, and a step.
    pub(crate) fn log_clock(&mut self, found: &Found) {
        for (is_warning, text) in &found.notes {
            if *is_warning {
                warning!("{text}");
            } else {
                info!("{text}");
            }
        }
        if let Some(step) = found.step {
            self.log(Line::new("step").with("by_s", format!("{step:+.6}")));
        }
        if found.notes.is_empty() {
            return;
        }
        let line = self.with_clock(Line::new("clock")).with("drift_ppm", format!("{:+.3}", self.clock.drift()));
        self.log(line);
    }

    /// A line with the state of the clock.
    pub(crate) fn with_clock(&self, line: Line) -> Line {
        let it = &self.clock.known;
        let error = it.error(Instant::now()).map_or("unknown".to_string(), |it| it.to_string());
        line.with("sync", it.word()).with("source", it.source()).with("error_ns", error)
    }

    /// Puts a line of now into the log channel. Where no file is recorded it waits for one.
    pub(crate) fn log(&mut self, line: Line) {
        self.log_note(line, false);
    }

    /// The same of a line that is not left out for others.
    pub(crate) fn log_for_sure(&mut self, line: Line) {
        self.log_note(line, true);
    }

    fn log_note(&mut self, line: Line, stays: bool) {
        let count = self.count();
        if let Some(it) = &mut self.notes {
            push(&mut it.waiting, Note { count, line, lost: 0, stays });
        }
    }

    /// Offers the lines that wait to the recorder, while a file is recorded.
    pub(crate) fn write_lines(&mut self) -> Result<(), Trouble> {
        let Some(notes) = &mut self.notes else { return Ok(()) };
        for note in notes.board.take() {
            push(&mut notes.waiting, note);
        }
        let place = notes.place;
        while self.state == State::Recording && self.notes.as_ref().is_some_and(|it| !it.waiting.is_empty()) {
            if self.lanes[place].waiting >= self.lanes[place].channel.capacity {
                self.pump(place)?;
            }
            let (Some(notes), Some(recorder)) = (&mut self.notes, &mut self.recorder) else { break };
            let Some(mut note) = notes.waiting.pop_front() else { break };
            let lane = &mut self.lanes[place];
            // a line that waited has the time at which its file begins: so the recording has no time before that
            let first = self.file.as_ref().map_or(0, |it| it.first);
            note.count = note.count.max(first).max(notes.last + 1);
            let lost = std::mem::take(&mut note.lost);
            lane.lost += lost;
            lane.untold += lost;
            crate::owner::tell_lost(recorder, lane);
            let bytes = note.line.text().as_bytes();
            match HEAD.offer(recorder, lane.channel.id, note.count, bytes) {
                Ok(()) => {
                    notes.last = note.count;
                    lane.longest = lane.longest.max(bytes.len());
                    lane.waiting += 1;
                    lane.pending.push_back(Pending { count: note.count, lost: std::mem::take(&mut lane.told), kept: None });
                    notes.taken.push_back(note);
                    self.commits.has_more();
                }
                Err(error) => {
                    let id = lane.channel.id;
                    lane.refused += 1;
                    lane.lost += 1;
                    lane.untold += 1;
                    lane.seldom.warn(|| format!("channel {id}: a line of the log is refused: {error}"));
                }
            }
        }
        Ok(())
    }
}

impl Owner {
    /// Writes the lines that wait into the file that ends, as far as it has room: the others come first in the next one.
    pub(crate) fn write_last_lines(&mut self) -> Result<(), Trouble> {
        let Some(place) = self.notes.as_ref().map(|it| it.place) else { return Ok(()) };
        for done in [self.write_lines(), self.pump(place)] {
            match done {
                Err(Trouble::Full(_)) => (),
                other => other?,
            }
        }
        Ok(())
    }
}

#[cfg(test)]
mod tests {
    use super::*;

    #[test]
    fn a_line_has_letters_word_time_and_keys() {
        let line = Line::at("lost", 1_709_210_096_000_001_500).with("channel", 5).with("why", "a \"b\" c").with("empty", "");
        assert_eq!(line.text(), r#"r10log lost at=2024-02-29T12:34:56.000001Z channel=5 why="a \"b\" c" empty="""#);
        let long = Line::at("x", 0).with("text", "é".repeat(LONGEST));
        assert!(long.text().ends_with("é..\"") && long.text().len() < LONGEST + 60, "{}", long.text().len());
        // an end of a line is none in a line
        assert!(!Line::at("x", 0).with("text", "a\nb").text().contains('\n'));
    }

    /// The oldest line that may go is left out, and the one after it says so.
    #[test]
    fn of_too_many_lines_the_oldest_are_left_out() {
        let mut all = VecDeque::new();
        let note = |count: usize, stays| Note { count: count as u64, line: Line::at("x", 0), lost: 0, stays };
        push(&mut all, note(0, true));
        for count in 1..MOST + 5 {
            push(&mut all, note(count, false));
        }
        assert_eq!(all.len(), MOST);
        let found: Vec<_> = all.iter().take(3).map(|it| (it.count, it.lost)).collect();
        assert_eq!(found, [(0, 0), (6, 5), (7, 0)]);
        // where all are to stay, the oldest goes
        let mut all = VecDeque::new();
        for count in 0..MOST + 3 {
            push(&mut all, note(count, true));
        }
        assert_eq!((all.len(), all[0].count, all[0].lost), (MOST, 3, 3));
    }
}
