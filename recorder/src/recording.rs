//! What is recorded: lanes go into the file, commits make it durable, files begin and end.
use std::fmt;
use std::ops::Range;
use std::time::Instant;

use r10::{Queue, Refusal as Refused};
use time::OffsetDateTime;

use crate::clock;
use crate::keeps::Current;
use crate::notes::Line;
use crate::owner::{Owner, State, Trouble};
use crate::{error, info, warning};

/// Bytes that are pumped before the disk does what waits.
const PUMPED: usize = 4 << 20;
/// Operations that may wait before the disk does them.
const OPERATIONS: usize = 8192;
/// Blocks that are read plainly at a time before they are written: a mapped one that cannot be read would end the process.
pub(crate) const AHEAD: u64 = 8 << 11;

/// What an entry may need in a file beside its bytes, at most.
const ENTRY: u64 = 128;
/// Bytes that are kept in a file for the totals of a channel, and for what else its end has to say.
const TOTAL: u64 = 512;
/// Where a medium has less room than this beside the setup text, a file is begun at once: so a full one is known before a message comes.
const FRONT: u64 = 64 << 10;
/// Files of a block of the directory.
const ENTRIES: usize = 4;

/// Why a file ends, or is to.
#[derive(Clone, Copy, Debug, PartialEq, Eq)]
pub enum Ended {
    /// it has no room for what waits
    Full,
    /// it has been recorded for as long as the settings say
    Old,
    ByCommand,
    WithService,
}

impl fmt::Display for Ended {
    fn fmt(&self, f: &mut fmt::Formatter) -> fmt::Result {
        f.write_str(match self {
            Ended::Full => "is full",
            Ended::Old => "has been recorded for as long as the settings say",
            Ended::ByCommand => "was stopped by a command",
            Ended::WithService => "was stopped by the end of the service",
        })
    }
}

/// Whether so many operations wait that the disk does them before more come. A queue counts those of the ring in hand, and how many
/// rings stand after it: there is one only where the first is full.
fn are_many(queue: Queue) -> bool {
    queue.rings > 0 || queue.waiting > OPERATIONS
}

impl Owner {
    /// Takes a channel's messages from its lane into the file.
    pub(crate) fn pump(&mut self, place: usize) -> Result<(), Trouble> {
        loop {
            self.give_again(place)?;
            if self.lanes[place].waiting == 0 {
                return Ok(());
            }
            self.read_ahead()?;
            let (free, kept) = (self.recorder()?.status()?.free, self.kept_for_lines(place));
            let lane = &self.lanes[place];
            // (a message that has no room is refused by the recorder; what is kept for lines it does not know)
            let room = free.saturating_sub(kept) / (lane.longest as u64 + ENTRY);
            if kept > 0 && room == 0 {
                return Err(Trouble::Full(Refused::MediumFull));
            }
            let most = (PUMPED / (lane.longest + 64)).max(1).min(if kept > 0 { room as usize } else { usize::MAX });
            let id = lane.channel.id;
            let moved = self.recorder()?.pump(id, most)?;
            if moved == 0 {
                return Err(Trouble::Failed(format!("channel {id}: the recorder takes none of what waits")));
            }
            self.lanes[place].waiting -= moved;
            if are_many(self.recorder()?.queue()?) {
                self.settle()?;
            }
        }
    }

    fn read_plainly(&self, blocks: Range<u64>) -> Result<(), Trouble> {
        let Some(recorder) = &self.recorder else { return Ok(()) };
        self.medium.read_plainly(recorder, blocks).map_err(|it| Trouble::Failed(it.text().to_string()))
    }

    /// How many bytes the messages of a channel leave in a file, so that its end has room in the log channel.
    fn kept_for_lines(&self, place: usize) -> u64 {
        match &self.notes {
            Some(it) if it.place != place => TOTAL * (self.listed().len() as u64 + 8),
            _ => 0,
        }
    }

    /// Reads plainly what the next step of a pump may write: it has to be within three quarters of [`AHEAD`].
    fn read_ahead(&mut self) -> Result<(), Trouble> {
        let blocks = self.settings.blocks as u64;
        let end = blocks.saturating_sub(self.recorder()?.status()?.free / 512);
        while self.medium.ahead < blocks && end + AHEAD / 4 * 3 > self.medium.ahead {
            let to = self.medium.ahead + AHEAD;
            self.read_plainly(self.medium.ahead..to)?;
            self.medium.ahead = to;
        }
        Ok(())
    }

    /// Makes all durable that was accepted.
    pub(crate) fn commit(&mut self) -> Result<(), Trouble> {
        for place in 0..self.lanes.len() {
            self.pump(place)?;
        }
        self.recorder()?.commit()?;
        self.settle()?;
        self.is_durable();
        self.failures.over();
        self.show()
    }

    /// What was taken into the file is durable now.
    pub(crate) fn is_durable(&mut self) {
        let now = self.counter.count();
        self.commits.done();
        for (place, lane) in self.lanes.iter_mut().enumerate() {
            let count = lane.pending.len() - lane.waiting.min(lane.pending.len());
            let durable = lane.are_durable(count);
            lane.durable += count as u64;
            lane.durable_in_file += count as u64;
            // (lines of the log did not come in: how long one waited says nothing of messages)
            if let Some(notes) = self.notes.as_mut().filter(|it| it.place == place) {
                notes.are_durable(count);
                continue;
            }
            durable.iter().for_each(|it| self.commits.times.add(now.saturating_sub(*it)));
            if count > 0
                && let (Some(to), Some(Current { number, .. })) = (&mut self.acknowledge, &self.file)
            {
                to.line(*number, lane.channel.id, lane.durable_in_file);
            }
        }
        if let Some(to) = &mut self.acknowledge {
            to.flush();
        }
    }

    pub(crate) fn tick(&mut self) -> Result<(), Trouble> {
        let look = self.clock.look();
        self.ticked.count = look.count;
        self.ticked.at = Instant::now();
        self.recorder()?.tick(look.count, &look.civil)?;
        // (a time that has no room in the file comes again at the begin of the next one: so it is looked at for a step after it)
        let found = self.clock.judge(&look.pair);
        self.log_clock(&found);
        if found.step.is_some() {
            self.clock.steps_seen += 1;
            if self.state == State::Recording {
                match self.note_event(self.settings.clock_event) {
                    Err(Trouble::Full(_)) => (),
                    other => other?,
                }
            }
        }
        if self.state == State::Recording {
            self.commits.has_more();
        } else {
            self.settle()?;
        }
        self.medium.warn_if_gone();
        Ok(())
    }

    /// Begins the recording that begins by itself, if there is one: once the clock is in sync, where the settings say so. One that waits
    /// for the disk waits for the clock too.
    pub(crate) fn begin_in_time(&mut self, records: bool) {
        match self.settings.wait_for_time {
            Some(patience) if records || self.wish.wants => {
                self.wish.wants = true;
                self.wish.waits = Some(Instant::now() + patience);
                self.note(false, &format!("the recording waits until the clock is in sync, {} s at most", patience.as_secs()));
            }
            _ if records => self.resume(),
            _ => (),
        }
    }

    /// Whether the clock lets a recording begin, where one has to wait for it.
    pub(crate) fn wait_for_time(&mut self) {
        let Some(until) = self.wish.waits else { return };
        let is_synchronised = self.clock.known.is_synchronised() == Some(true);
        if self.recorder.is_none() || !is_synchronised && Instant::now() < until {
            return;
        }
        self.wish.waits = None;
        let what = if is_synchronised { "the clock is in sync" } else { "the clock is not in sync, and the wait for it is over" };
        self.note(!is_synchronised, &format!("{what}: the recording begins"));
        self.resume();
    }

    /// Records an event. One that has no room in the file comes into the next one.
    pub(crate) fn note_event(&mut self, number: u16) -> Result<(), Trouble> {
        let mut count = self.count();
        let mut done = self.recorder()?.event(number, count);
        if done == Err(Refused::MediumFull) {
            self.next_file(Ended::Full)?;
            self.begin_file()?;
            if self.state == State::Recording {
                count = self.count();
                done = self.recorder()?.event(number, count);
            }
        }
        if done == Err(Refused::MediumFull) {
            warning!("event {number} had no room, and is in no file");
        }
        done?;
        self.list_event(number, count);
        self.commits.has_more();
        Ok(())
    }

    /// Records from now on. The file begins with the first message, event or note, so that a start without one takes no place in the
    /// directory: at once where messages wait, or some were lost, or where there is little room.
    pub(crate) fn record_on(&mut self) -> Result<(), Trouble> {
        let files = self.recorder()?.files()?.len();
        let has_room = files < ENTRIES * self.settings.directory
            && self.recorder()?.status()?.free >= self.settings.setup.len() as u64 + FRONT;
        if self.waiting() > 0 || self.wish.begins || !has_room {
            return self.start(None);
        }
        self.tick()?;
        self.medium.keep(true);
        (self.state, self.wish.wants) = (State::Ready, true);
        if let Some(it) = &mut self.file {
            it.is_ended = true;
        }
        let text = format!("file {}: recording, from the first message, event or note on", files + 1);
        info!("{text}");
        let _ = sd_notify::notify(false, &[sd_notify::NotifyState::Status(&text)]);
        self.open_ahead();
        Ok(())
    }

    /// Begins the file for which something is there now. Where there is no room for one, nothing is recorded until an erase.
    pub(crate) fn begin_file(&mut self) -> Result<(), Trouble> {
        while self.state == State::Ready {
            match self.start(None) {
                Err(Trouble::Full(error)) => self.has_no_room(error)?,
                other => other?,
            }
        }
        Ok(())
    }

    /// Begins a file. One without a name gets the settings' and the time.
    pub fn start(&mut self, name: Option<&str>) -> Result<(), Trouble> {
        let done = self.start_by(name);
        // where the disk fails in it, it is begun again
        self.wish.wants = matches!(done, Ok(()) | Err(Trouble::Failed(_)));
        self.wish.begins = matches!(done, Err(Trouble::Failed(_)));
        if !self.wish.wants {
            self.medium.keep(false);
        }
        done
    }

    pub(crate) fn start_by(&mut self, name: Option<&str>) -> Result<(), Trouble> {
        // (what came just now is not before the file's first time, where that is known)
        if self.state != State::Ready {
            self.tick()?;
        }
        let files = self.recorder()?.files()?;
        let first = self.medium.first_block(&files);
        self.read_plainly(first..first + AHEAD)?;
        self.medium.ahead = first + AHEAD;
        let name = name.map_or_else(|| fresh_name(&self.settings.prefix, &files), str::to_string);
        self.medium.keep(true);
        let setup = std::mem::take(&mut self.settings.setup);
        let started = self.recorder()?.start(&name, &setup);
        self.settings.setup = setup;
        started?;
        self.settle()?;
        let text = format!("file {} {name}: recording", files.len() + 1);
        info!("{text}");
        let (number, id) = (files.len() + 1, self.settings.log.id().unwrap_or(0));
        let line = Line::new("file").with("number", number).with("name", &name).with("log", id);
        let is_row = self.settings.media.len() > 1;
        let line = if is_row { line.with("volume", &self.medium.volume).with("path", self.medium.name()) } else { line };
        let line = self.with_clock(line);
        self.log(line);
        let _ = sd_notify::notify(false, &[sd_notify::NotifyState::Status(&text)]);
        self.file = Some(Current::new(files.len(), name, self.ticked.count));
        self.live.begin();
        if let Some(to) = &mut self.acknowledge {
            to.begin();
            if is_row {
                to.medium(self.medium.place, &self.medium.volume);
            }
        }
        self.state = State::Recording;
        self.wish.owes = false;
        self.commits.has_more();
        self.lanes.iter_mut().for_each(|it| it.durable_in_file = 0);
        self.log_before();
        self.open_ahead();
        Ok(())
    }

    /// Ends the file, with all that waits, as far as there is room.
    pub fn stop(&mut self, why: Ended) -> Result<(), Trouble> {
        let mut is_full = false;
        for place in 0..self.lanes.len() {
            match self.pump(place) {
                Err(Trouble::Full(_)) => is_full = true,
                other => other?,
            }
        }
        self.log_totals();
        self.write_last_lines()?;
        let stopped = self.recorder()?.stop()?;
        self.settle()?;
        for place in 0..self.lanes.len() {
            self.lanes[place].waiting = self.recorder()?.channel_at(place)?.waiting + self.lanes[place].again;
        }
        self.is_durable();
        // (where the file took more at its end)
        self.log_totals();
        self.show()?;
        self.state = State::Idle;
        self.wish.wants = false;
        if let Some(it) = &mut self.file {
            it.is_ended = true;
        }
        let (number, name) = self.file.as_ref().map(|it| (it.number, it.name.clone())).unwrap_or_default();
        info!("file {} {name}: ended, it {why}", number + 1);
        if stopped.left > 0 || is_full {
            warning!("file {} {name}: {} messages had no room in it, and come first in the next one", number + 1, stopped.left);
        }
        Ok(())
    }

    /// Ends the recording. What waits and has no room in the file comes into another one, if the medium has room for one.
    pub(crate) fn end_recording(&mut self, why: Ended) -> Result<(), Trouble> {
        loop {
            // one that is cut off before it is stopped goes on
            self.medium.keep(false);
            self.stop(why)?;
            let left = self.waiting();
            if left == 0 {
                return Ok(());
            }
            let begun = if self.has_taken() { self.start(None) } else { Err(Trouble::Full(Refused::MediumFull)) };
            if matches!(begun, Err(Trouble::Full(_))) && self.next_medium(None)? {
                continue;
            }
            if let Err(Trouble::Full(error)) = begun {
                warning!("{error}: {left} messages wait in memory; .ERASE and .RECORD take them into a file");
                return Ok(());
            }
            begun?;
        }
    }

    /// Ends the file, and records on in the next. Where there is no room for one, nothing is recorded until an erase.
    pub(crate) fn next_file(&mut self, why: Ended) -> Result<(), Trouble> {
        if self.state == State::Recording {
            self.stop(why)?;
        }
        let is_all = !self.has_taken() && self.file.is_some() && why == Ended::Full;
        let begun = if is_all { Err(Trouble::Full(Refused::MediumFull)) } else { self.record_on() };
        match begun {
            Err(Trouble::Full(error)) => self.has_no_room(error),
            other => other,
        }
    }

    /// The medium has no room for a file: it goes on on the next one, or nothing is recorded until an erase.
    pub(crate) fn has_no_room(&mut self, error: Refused) -> Result<(), Trouble> {
        if !self.next_medium(None)? {
            self.state = State::Full;
            self.medium.keep(true);
            let what = "nothing is recorded, and what comes is counted as lost";
            if self.settings.overwrite {
                let why = "no medium may be overwritten: each is marked to be kept, has an open file, or is damaged";
                self.note(true, &format!("{error}, and {why}; {what}; take a mark off (.KEEP NUMBER OFF), then give .RECORD"));
            } else {
                error!("{error}: {what}; copy the files, then give .ERASE and .RECORD");
            }
        }
        Ok(())
    }
}

/// A name that no file has: the prefix, the time in UTC, and where that is taken a number.
fn fresh_name(prefix: &str, files: &[r10::File]) -> String {
    let it = clock::civil(OffsetDateTime::now_utc());
    let base = format!("{prefix}{:04}{:02}{:02}-{:02}{:02}{:02}", it.year, it.month, it.day, it.hour, it.minute, it.second);
    let is_taken = |name: &str| files.iter().any(|it| it.name == name);
    (1..=1 + files.len())
        .map(|number| if number == 1 { base.clone() } else { format!("{base}_{number}") })
        .find(|it| !is_taken(it))
        .unwrap_or(base)
}

#[cfg(test)]
mod tests {
    use super::*;
    use crate::medium::ROOM;

    /// The queue's own number counts the ring in hand alone, and never exceeds its places: what a pump leaves is more.
    #[test]
    fn what_one_pump_leaves_is_many_operations() {
        let text =
            "medium = \"m\"\nblocks = 40000\nvolume = \"V\"\n[control]\nsocket = \"c\"\n[[channel]]\nid = 5\nkind = \"message\"\n";
        let script = crate::settings::read(text, std::path::Path::new("/")).unwrap().script;
        let Ok(mut recorder) = r10::Recorder::format(r10::Region::memory(40_000), ROOM, &script) else { panic!("no recorder") };
        recorder.mount().unwrap();
        recorder.tick(0, &clock::civil(OffsetDateTime::from_unix_timestamp(1_709_210_096).unwrap())).unwrap();
        recorder.start("FLT1", b"").unwrap();
        recorder.settle().unwrap();
        assert!(!are_many(recorder.queue().unwrap()));
        for count in 0..4000 {
            let message = r10::Message::Message { data_error: false, format: false, sub: 0, bytes: &[7; 1000] };
            recorder.offer(5, count, message).unwrap();
        }
        assert_eq!(recorder.pump(5, PUMPED / 1064), Ok(PUMPED / 1064));
        let queue = recorder.queue().unwrap();
        assert!(are_many(queue), "{queue:?}");
        recorder.settle().unwrap();
        assert!(!are_many(recorder.queue().unwrap()));
    }
}
