//! What the recorder's thread keeps beside the recorder, each with what has to hold of it.
use std::collections::VecDeque;
use std::time::{Duration, Instant};

use crate::chapter6::Noted;
use crate::feed::{Batch, Item, Outlet};
use crate::figures::Times;
use crate::losses::Causes;

/// How many events of a file are listed.
const MOST: usize = 1000;

/// The file that is or was recorded.
pub struct Current {
    /// its place in the directory, from 0
    pub number: usize,
    pub name: String,
    /// it is closed, with all that it can have
    pub is_ended: bool,
    /// the count of its first time
    pub first: u64,
    began: Instant,
    events: u64,
    noted: VecDeque<Noted>,
}

impl Current {
    pub fn new(number: usize, name: String, first: u64) -> Current {
        Current { number, name, is_ended: false, first, began: Instant::now(), events: 0, noted: VecDeque::new() }
    }

    /// How long ago it was begun.
    pub fn age(&self) -> Duration {
        self.began.elapsed()
    }

    /// Whether it has an event.
    pub fn has_events(&self) -> bool {
        self.events > 0
    }

    /// The events that it has, the last [`MOST`] of them.
    pub fn events(&self) -> impl Iterator<Item = &Noted> {
        self.noted.iter()
    }

    /// How many events were recorded in it.
    pub fn event_count(&self) -> u64 {
        self.events
    }

    pub fn add_event(&mut self, event: Noted) {
        self.events += 1;
        if self.noted.len() >= MOST {
            self.noted.pop_front();
        }
        self.noted.push_back(event);
    }

    /// Number, time and text of the last ones.
    pub fn last_events(&self, count: usize) -> Vec<(u16, String, String)> {
        let from = self.noted.len().saturating_sub(count);
        self.noted.iter().skip(from).map(Noted::shown).collect()
    }

    pub fn last_event(&mut self) -> Option<&mut Noted> {
        self.noted.back_mut()
    }
}

/// Commits: how many there were, when the last one was, and whether another one would make anything durable.
pub struct Commits {
    last: Instant,
    count: u64,
    has_news: bool,
    /// of the messages that were accepted since the last one
    bytes: usize,
    /// from a message's coming to its being durable
    pub times: Times,
}

impl Default for Commits {
    fn default() -> Commits {
        Commits { last: Instant::now(), count: 0, has_news: false, bytes: 0, times: Times::default() }
    }
}

impl Commits {
    /// Something was taken into the file that is not durable.
    pub fn has_more(&mut self) {
        self.has_news = true;
    }

    /// So does a message of so many bytes.
    pub fn has_message(&mut self, bytes: usize) {
        self.has_news = true;
        self.bytes += bytes;
    }

    /// The bytes of the messages that were accepted since the last one.
    pub fn bytes(&self) -> usize {
        self.bytes
    }

    /// When the next one is due, if one is.
    pub fn due(&self, each: Duration) -> Option<Instant> {
        self.has_news.then(|| self.last + each)
    }

    /// How long ago the last one was.
    pub fn age(&self) -> Duration {
        self.last.elapsed()
    }

    /// When the last one was.
    pub fn last(&self) -> Instant {
        self.last
    }

    pub fn count(&self) -> u64 {
        self.count
    }

    /// All that was taken is durable.
    pub fn done(&mut self) {
        self.count += 1;
        self.has_news = false;
        self.bytes = 0;
        self.last = Instant::now();
    }
}

/// Failures of the disk: how many there were, how many since the last commit that went through, and why the last one was.
#[derive(Default)]
pub struct Failures {
    count: u32,
    tries: u32,
    /// a medium was opened, since the service was started
    pub was_opened: bool,
    /// why recording failed last, or is down
    pub why: String,
}

impl Failures {
    pub fn count(&self) -> u32 {
        self.count
    }

    pub fn tries(&self) -> u32 {
        self.tries
    }

    /// It failed once more.
    pub fn failed(&mut self, why: &str) {
        self.count += 1;
        self.tries += 1;
        self.why = why.to_string();
    }

    /// It goes well again, or is to be tried anew.
    pub fn over(&mut self) {
        self.tries = 0;
    }
}

/// Whether a recording is to go on after a failure, whether it has to wait for the clock, and for what its file begins.
#[derive(Default)]
pub struct Wish {
    pub wants: bool,
    /// a file is to begin now: messages were lost since the last one began, or the disk failed as one was begun
    pub begins: bool,
    /// lines wait that tell of a file that was cut off: a stop begins a file for them
    pub owes: bool,
    /// it begins by itself once the clock is in sync, at this moment at the latest
    pub waits: Option<Instant>,
}

/// The ends of the inputs' queues, and what came out of one and was not offered yet.
#[derive(Default)]
pub struct Intake {
    pub outlets: Vec<Outlet>,
    taken: Taken,
}

/// What a batch tells beside its messages: by place, how many were lost after them, and how many came after a stop and had no room.
pub struct Rest {
    pub lost: Vec<(usize, u64)>,
    pub after: Vec<(usize, u64)>,
}

#[derive(Default)]
struct Taken {
    batch: Batch,
    item: usize,
    byte: usize,
}

impl Intake {
    /// Takes the next batch of a queue in hand, where there is one. The one before has to be used up.
    pub fn take(&mut self, at: usize) -> bool {
        let batch = self.outlets[at].take();
        let is_there = batch.is_some();
        if let Some(batch) = batch {
            self.taken = Taken { batch, item: 0, byte: 0 };
        }
        is_there
    }

    /// The message in hand, if there is one.
    pub fn item(&self) -> Option<Item> {
        self.taken.batch.items.get(self.taken.item).copied()
    }

    /// The bytes of the message in hand.
    pub fn bytes(&self) -> &[u8] {
        let length = self.item().map_or(0, |it| it.length as usize);
        &self.taken.batch.bytes[self.taken.byte..self.taken.byte + length]
    }

    /// The message in hand was offered: the next one is.
    pub fn next(&mut self) {
        self.taken.byte += self.item().map_or(0, |it| it.length as usize);
        self.taken.item += 1;
    }

    /// The batch is used up: what was lost after its messages, and what came after a stop and had no room.
    pub fn rest(&mut self) -> Rest {
        let batch = std::mem::take(&mut self.taken).batch;
        Rest { lost: batch.lost, after: batch.after }
    }

    /// Why messages of the batch in hand were lost, which is asked once.
    pub fn causes(&mut self) -> Vec<(usize, Causes)> {
        std::mem::take(&mut self.taken.batch.causes)
    }

    /// Whether the batch in hand has a message that arrived after a count.
    pub fn has_after(&self, count: u64) -> bool {
        self.taken.batch.items.iter().any(|it| it.arrived > count)
    }

    /// The bytes that wait.
    pub fn queued(&self) -> usize {
        self.outlets.iter().map(Outlet::queued).sum()
    }
}

#[cfg(test)]
mod tests {
    use super::*;

    #[test]
    fn a_commit_is_due_where_there_is_news() {
        let mut it = Commits::default();
        assert_eq!(it.due(Duration::ZERO), None);
        it.has_more();
        assert_eq!(it.due(Duration::from_secs(1)), Some(it.last() + Duration::from_secs(1)));
        it.done();
        assert_eq!((it.due(Duration::ZERO), it.count()), (None, 1));
    }

    #[test]
    fn failures_in_a_row_are_counted_apart() {
        let mut it = Failures::default();
        it.failed("a");
        it.failed("b");
        assert_eq!((it.count(), it.tries(), it.why.as_str()), (2, 2, "b"));
        it.over();
        it.failed("c");
        assert_eq!((it.count(), it.tries()), (3, 1));
    }
}
