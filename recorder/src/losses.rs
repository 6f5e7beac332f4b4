//! Why messages were lost, and the moment up to which a stop takes what came.
use std::fmt;
use std::ops::{AddAssign, Sub};
use std::sync::Arc;
use std::sync::atomic::{AtomicU64, Ordering::SeqCst};

/// Why a message is in no file.
#[derive(Clone, Copy, Debug, PartialEq, Eq)]
pub enum Cause {
    /// the system had no room for it
    System,
    /// the queue between input and recorder had none
    Queue,
    /// its source's next number says that it is missing, or it was no message of its channel
    Line,
    /// the disk failed, was full, or was too slow for a stop
    Disk,
}

/// How many messages were lost, by the cause.
#[derive(Clone, Copy, Debug, Default, PartialEq, Eq)]
pub struct Causes {
    pub system: u64,
    pub queue: u64,
    pub line: u64,
    pub disk: u64,
}

impl Causes {
    fn each(&mut self) -> [&mut u64; 4] {
        [&mut self.system, &mut self.queue, &mut self.line, &mut self.disk]
    }

    pub fn add(&mut self, cause: Cause, count: u64) {
        *self.each()[cause as usize] += count;
    }

    pub fn all(&self) -> u64 {
        self.system + self.queue + self.line + self.disk
    }

    /// Takes so many out, in the order of the causes.
    #[must_use]
    pub fn take(&mut self, mut count: u64) -> Causes {
        let mut taken = Causes::default();
        for (from, to) in self.each().into_iter().zip(taken.each()) {
            *to = count.min(*from);
            *from -= *to;
            count -= *to;
        }
        taken
    }
}

impl AddAssign for Causes {
    fn add_assign(&mut self, mut other: Causes) {
        self.each().into_iter().zip(other.each()).for_each(|(it, more)| *it += *more);
    }
}

impl Sub for Causes {
    type Output = Causes;
    fn sub(mut self, mut other: Causes) -> Causes {
        self.each().into_iter().zip(other.each()).for_each(|(it, less)| *it -= *less);
        self
    }
}

impl fmt::Display for Causes {
    fn fmt(&self, f: &mut fmt::Formatter) -> fmt::Result {
        write!(f, "system {}, queue {}, line {}, disk {}", self.system, self.queue, self.line, self.disk)
    }
}

/// The moment up to which a stop takes what came, as a count. There is none while nobody asked for a stop.
#[derive(Clone, Debug)]
pub struct Moment(Arc<AtomicU64>);

impl Default for Moment {
    fn default() -> Moment {
        Moment(Arc::new(AtomicU64::new(u64::MAX)))
    }
}

impl Moment {
    /// A stop was asked for at a count. An earlier one that is not done yet stays.
    pub fn set(&self, count: u64) {
        self.0.fetch_min(count, SeqCst);
    }

    pub fn clear(&self) {
        self.0.store(u64::MAX, SeqCst);
    }

    /// The first one, if a stop was asked for.
    pub fn get(&self) -> Option<u64> {
        Some(self.0.load(SeqCst)).filter(|it| *it != u64::MAX)
    }

    /// Whether a count is after it.
    pub fn is_before(&self, count: u64) -> bool {
        self.0.load(SeqCst) < count
    }
}

#[cfg(test)]
mod tests {
    use super::*;

    #[test]
    fn causes_are_taken_out_in_their_order() {
        let mut it = Causes { system: 3, queue: 2, line: 1, disk: 0 };
        assert_eq!(it.take(4), Causes { system: 3, queue: 1, line: 0, disk: 0 });
        assert_eq!((it.all(), it.take(9).all(), it.all()), (2, 2, 0));
        it.add(Cause::Line, 2);
        it.add(Cause::Disk, 1);
        assert_eq!(it.to_string(), "system 0, queue 0, line 2, disk 1");
    }

    #[test]
    fn the_first_moment_stays_until_it_is_cleared() {
        let it = Moment::default();
        assert_eq!((it.get(), it.is_before(u64::MAX - 1)), (None, false));
        it.set(7);
        it.set(9);
        assert_eq!((it.get(), it.is_before(7), it.is_before(8)), (Some(7), false, true));
        it.clear();
        assert_eq!(it.get(), None);
    }
}
