//! Those who read while it records: they get what became durable, or what a file has, as text. One that reads too slowly is left
//! out, and hears so.
use std::sync::Arc;
use std::sync::atomic::{AtomicUsize, Ordering::Relaxed};
use std::sync::mpsc::{Sender, channel};
use std::time::Instant;

use r10::{Cursor, Refusal as Refused};

use crate::clock::COUNTS;
use crate::control::Reply;
use crate::entries;
use crate::keeps::Current;
use crate::owner::{Owner, State, TURN, Trouble};
use crate::words;

/// The bytes of text that may wait for a client.
const WAITING: usize = 1 << 20;
/// How many counts a replay reads at first: a second.
const SECOND: u64 = 10_000_000;
/// Entries that a step of a replay is to have about, while a file is recorded and else: each step of a closed file judges it anew.
const STEPS: (usize, usize) = (5_000, 20_000);
/// How many may read at a time.
pub const MOST: usize = 16;

#[derive(Debug)]
enum What {
    /// what becomes durable from now on
    Follow { file: usize, cursor: Option<Cursor>, from: u64, skipped: bool },
    /// what a file has, by counts
    Replay { file: usize, from: u64, to: u64, span: u64 },
}

pub struct Reader {
    what: What,
    channels: Vec<u16>,
    to: Sender<String>,
    queued: Arc<AtomicUsize>,
}

fn reader(what: What, channels: Vec<u16>) -> (Reader, Reply) {
    let (to, from) = channel();
    let queued = Arc::new(AtomicUsize::new(0));
    (Reader { what, channels, to, queued: queued.clone() }, Reply::Stream(from, queued))
}

pub fn follow(file: usize, from: u64, channels: Vec<u16>) -> (Reader, Reply) {
    reader(What::Follow { file, cursor: None, from, skipped: false }, channels)
}

pub fn replay(file: usize, from: u64, to: u64, channels: Vec<u16>) -> (Reader, Reply) {
    reader(What::Replay { file, from, to, span: SECOND }, channels)
}

impl Reader {
    fn is_replay(&self) -> bool {
        matches!(self.what, What::Replay { .. })
    }

    /// False where the client is gone.
    fn give(&self, text: String) -> bool {
        self.queued.fetch_add(text.len(), Relaxed);
        text.is_empty() || self.to.send(text).is_ok()
    }

    /// Whether nobody has the other end any more.
    fn is_gone(&self) -> bool {
        Arc::strong_count(&self.queued) == 1
    }

    fn has_room(&self) -> bool {
        self.queued.load(Relaxed) < WAITING
    }
}

impl Owner {
    /// Something became durable: who follows gets it, and it goes out.
    pub fn show(&mut self) -> Result<(), Trouble> {
        if self.live.is_on()
            && let (Some(recorder), Some(Current { number, .. })) = (&mut self.recorder, &self.file)
        {
            if self.live.setup.is_empty() {
                self.live.keep_setup(recorder.shown(self.settings.directory, *number, 0)?);
            }
            let bytes = recorder.shown(self.settings.directory, *number, self.live.shown)?;
            self.live.send(bytes);
        }
        self.drop_gone();
        for _ in 0..self.readers.iter().filter(|it| !it.is_replay()).count() {
            self.turn_of_next(|it| !it.is_replay())?;
        }
        Ok(())
    }

    /// Goes on with replays. Whether one has more that can be given now.
    pub fn read_on(&mut self) -> Result<bool, Trouble> {
        self.drop_gone();
        let (mut more, begin) = (false, Instant::now());
        for _ in 0..self.readers.iter().filter(|it| it.is_replay()).count() {
            more |= self.turn_of_next(Reader::is_replay)?;
            // what comes has its turn between two of them
            if self.state == State::Recording && begin.elapsed() > TURN {
                return Ok(true);
            }
        }
        Ok(more)
    }

    /// A step of the next reader of a kind, which stands at the end then. Whether it has more that can be given now. One that the
    /// recorder refuses ends.
    fn turn_of_next(&mut self, wanted: impl Fn(&Reader) -> bool) -> Result<bool, Trouble> {
        let Some(at) = self.readers.iter().position(wanted) else { return Ok(false) };
        let mut it = self.readers.remove(at);
        let done = match it.what {
            What::Follow { .. } => self.follow_on(&mut it).map(|goes_on| (goes_on, false)),
            What::Replay { .. } => self.replay_on(&mut it),
        };
        match done {
            Ok((true, has_more)) => {
                self.readers.push(it);
                return Ok(has_more);
            }
            Ok((false, _)) => (),
            Err(Trouble::Refused(error)) => {
                it.give(format!("E 05 COMMAND FAILED: {error}\n"));
            }
            Err(trouble) => return Err(trouble),
        }
        Ok(false)
    }

    /// The disk failed, or the recording goes on on another medium: who follows goes on with the next file, and hears why; a replay ends.
    pub(crate) fn interrupt_readers(&mut self, why: &str) {
        self.readers.retain_mut(|it| match &mut it.what {
            What::Follow { cursor, .. } => {
                // (the recorder is gone, and its cursors with it)
                *cursor = None;
                it.give(format!("skipped: {why}; what became durable meanwhile is in the files, and the next one follows\n"))
            }
            What::Replay { .. } => {
                it.give(words::No::Failed(format!("{why}; give .FIND and .REPLAY again")).line());
                false
            }
        });
    }

    /// All who read hear why that ends.
    pub(crate) fn end_readers(&mut self, why: &str) {
        for it in std::mem::take(&mut self.readers) {
            it.give(words::No::Mode(why.to_string()).line());
        }
    }

    /// Gives up the readers whose clients are gone.
    pub fn drop_gone(&mut self) {
        self.readers.retain(|it| !it.is_gone());
    }

    /// What became durable since the last time. False where the client is gone.
    fn follow_on(&mut self, it: &mut Reader) -> Result<bool, Trouble> {
        let now = self.count();
        let Some(current) = self.file.as_ref().map(|it| it.number) else { return Ok(true) };
        let has_room = it.has_room();
        let What::Follow { file, cursor, from, skipped } = &mut it.what else { return Ok(true) };
        let recorder = self.recorder.as_mut().ok_or_else(|| Trouble::Failed("no medium is mounted".to_string()))?;
        if !has_room {
            // its place is given up, so that nothing waits for it in memory
            if let Some(it) = cursor.take() {
                recorder.close_cursor(it)?;
            }
            (*from, *skipped) = (now, true);
            return Ok(true);
        }
        if *file != current {
            if let Some(it) = cursor.take() {
                recorder.close_cursor(it)?;
            }
            (*file, *from) = (current, 0);
        }
        let place = match cursor.take() {
            Some(it) => it,
            None => recorder.cursor(*file, &it.channels, *from..=COUNTS - 1)?,
        };
        let mut text = if std::mem::take(skipped) {
            format!("skipped: it was read too slowly; what came before count {from} is in the file\n")
        } else {
            String::new()
        };
        recorder.advance(&place)?;
        while let Some(entry) = recorder.next(&place)? {
            entries::print(&mut text, &entry);
            if text.len() >= 1 << 16 && !it.give(std::mem::take(&mut text)) {
                return Ok(false);
            }
        }
        if let What::Follow { cursor, .. } = &mut it.what {
            *cursor = Some(place);
        }
        Ok(it.give(text))
    }

    /// The next counts of a replay, where the client has room: whether it goes on, and whether there is more now.
    fn replay_on(&mut self, it: &mut Reader) -> Result<(bool, bool), Trouble> {
        if !it.has_room() {
            return Ok((true, false));
        }
        let What::Replay { file, mut from, to, mut span } = it.what else { return Ok((false, false)) };
        // a recording may have begun since
        if !self.may_read(file)? {
            it.give(words::too_long().line());
            return Ok((false, false));
        }
        let end = from.saturating_add(span - 1).min(to);
        let step = if self.state == State::Recording { STEPS.0 } else { STEPS.1 };
        let recorder = self.recorder.as_mut().ok_or_else(|| Trouble::Failed("no medium is mounted".to_string()))?;
        let place = recorder.cursor(file, &it.channels, from..=end)?;
        let count = recorder.advance(&place)?;
        let mut text = String::new();
        while let Some(entry) = recorder.next(&place)? {
            entries::print(&mut text, &entry);
            if text.len() >= 1 << 16 && !it.give(std::mem::take(&mut text)) {
                return Ok((false, false));
            }
        }
        recorder.close_cursor(place)?;
        span = if count > 2 * step {
            (span / 2).max(1)
        } else if count < step / 2 {
            span.saturating_mul(2).min(COUNTS)
        } else {
            span
        };
        let is_last = end >= to;
        from = end + 1;
        it.what = What::Replay { file, from, to, span };
        let goes_on = it.give(text) && !is_last;
        Ok((goes_on, goes_on && it.has_room()))
    }

    /// Whether files are read just now.
    pub fn is_read(&self) -> bool {
        self.readers.iter().any(Reader::is_replay)
    }

    /// Whether a file may be read now: while one is recorded, another one that is long would hold up what comes.
    pub fn may_read(&mut self, file: usize) -> Result<bool, Refused> {
        const LONG: u64 = 64 << 20;
        if self.state != State::Recording || self.file.as_ref().is_some_and(|it| it.number == file) {
            return Ok(true);
        }
        let files = self.recorder.as_mut().map_or(Ok(Vec::new()), r10::Recorder::files)?;
        Ok(files.get(file).is_none_or(|it| it.size <= LONG))
    }

    /// Reads a file that is closed plainly, before it is read through the mapping, and says what is wrong with it.
    pub fn read_file_plainly(&mut self, file: usize) -> Result<Option<String>, Refused> {
        let Some(recorder) = &mut self.recorder else { return Ok(None) };
        let files = recorder.files()?;
        let Some(found) = files.get(file).filter(|it| it.closed) else { return Ok(None) };
        let first = self.medium.first_block(&files[..file]);
        Ok(self.medium.read_plainly(recorder, first..first + found.blocks).err().map(|it| it.text().to_string()))
    }
}
