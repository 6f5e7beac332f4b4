//! When the disk fails: the recorder and the mapping go, all is opened again, a file that was cut off is closed, and what is lost
//! is counted.
use std::ops::Range;
use std::time::{Duration, Instant};

use r10::{Content, Recorder, Refusal as Refused};

use crate::clock::{self, COUNTS};
use crate::keeps::Current;
use crate::medium::{Refusal, printed};
use crate::notes::{self, Line};
use crate::owner::{Owner, State, Trouble};
use crate::recording::Ended;
use crate::settings::Begin;
use crate::{error, info, warning};

/// How many bytes of a file are judged in a millisecond, on a slow machine under load.
const JUDGED: u128 = 400_000;

/// Of a channel in a file the count of its last message, and how many it has.
fn last_of(recorder: &mut Recorder, file: usize, channel: u16) -> Result<Option<(u64, usize)>, Refused> {
    let (mut there, mut not, mut found) = (0, COUNTS, None);
    while there < not {
        let middle = u64::midpoint(there, not);
        match recorder.find(file, channel, middle)? {
            Some((number, entry)) => {
                found = Some((entry.count, number + 1));
                there = entry.count + 1;
            }
            None => not = middle,
        }
    }
    Ok(found)
}

/// The last time of a file: its count, and the time in nanoseconds since 1970.
fn last_time(recorder: &mut Recorder, file: usize, channel: u16) -> Result<Option<(u64, i128)>, Refused> {
    let Some((count, _)) = last_of(recorder, file, channel)? else { return Ok(None) };
    let Some((_, entry)) = recorder.find(file, channel, count)? else { return Ok(None) };
    let Content::Time { civil } = entry.content else { return Ok(None) };
    Ok(clock::of_civil(&civil).map(|it| (count, it)))
}

impl Owner {
    /// Mounts the medium, and closes a file that was cut off, or sets it aside. Whether there was one.
    pub(crate) fn open(&mut self) -> Result<bool, Refusal> {
        let failed = |it: Refused| Refusal::Failed(it.to_string());
        let mut recorder = self.medium.mount()?;
        self.medium.is_opened();
        self.tick_now(&mut recorder)?;
        let files = recorder.files().map_err(failed)?;
        let cut = files.last().filter(|it| !it.closed);
        let was_cut = cut.is_some();
        self.wish.owes |= was_cut;
        let mut reads = true;
        if let Some(file) = cut {
            (recorder, reads) = self.close_cut(recorder, &files, file)?;
        } else if let Some(file) = files.last()
            && self.lanes.iter().any(|it| !it.pending.is_empty())
        {
            // what is looked into for messages that were not committed is read plainly first
            let first = self.medium.first_block(&files[..files.len() - 1]);
            if let Err(refusal) = self.medium.read_plainly(&recorder, first..first + file.blocks) {
                warning!("{}; what was not committed is recorded again, and may be there too", refusal.text());
                reads = false;
            }
        }
        // (after a failure of the disk the totals say it)
        let is_known = |it: &r10::File| self.file.as_ref().is_some_and(|own| own.number + 1 == files.len() && own.name == it.name);
        let was_kept = self.file.is_none() && !self.failures.was_opened && self.medium.goes_on();
        if cut.map_or(was_kept, |it| !is_known(it)) {
            self.log_cut(&mut recorder, &files, was_cut, reads).map_err(failed)?;
        }
        if self.failures.tries() > 0 {
            self.log_disk("well", "");
        }
        self.account(&mut recorder, &files, reads).map_err(failed)?;
        self.recorder = Some(recorder);
        self.state = State::Idle;
        self.failures.was_opened = true;
        Ok(was_cut)
    }

    fn tick_now(&mut self, recorder: &mut Recorder) -> Result<(), Refusal> {
        let look = self.clock.look();
        recorder.tick(look.count, &look.civil).map_err(|it| Refusal::Failed(it.to_string()))
    }

    /// Closes a file that was cut off; where that cannot be, it is set aside: its bytes stay, and the next file can begin. Whether it
    /// can be read.
    fn close_cut(&mut self, mut recorder: Recorder, files: &[r10::File], file: &r10::File) -> Result<(Recorder, bool), Refusal> {
        let (start, first) = (Instant::now(), self.medium.first_block(&files[..files.len() - 1]));
        let (number, name) = (files.len(), printed(&file.name));
        let Some(why) = self.seal(&mut recorder, first..first + file.blocks)? else {
            let took = start.elapsed().as_millis();
            info!("file {number} {name}: it was cut off, and is closed now, {} bytes in {took} ms", file.size);
            return Ok((recorder, true));
        };
        drop(recorder);
        let mut recorder = self.medium.set_aside()?;
        self.tick_now(&mut recorder)?;
        warning!(
            "file {number} {name}: it was cut off, and cannot be closed: {why}; it is set aside, with its {} bytes from block {first} on as \
             they are, and recording goes on after it; `ch10 mend` reads them",
            file.size
        );
        self.log_for_sure(Line::new("aside").with("file", number).with("name", name).with("why", why));
        if self.settings.overwrite {
            self.keep_damaged();
        }
        Ok((recorder, false))
    }

    /// Closes the last file, whose blocks these are, with its index; or why that cannot be. Where a write fails it is tried again, as the
    /// disk is, before the file is given up.
    fn seal(&self, recorder: &mut Recorder, blocks: Range<u64>) -> Result<Option<String>, Refusal> {
        // half of the time is for reading, and half for judging
        let half = self.settings.seal_for.map(|it| it / 2);
        let bytes = 512 * (blocks.end - blocks.start);
        if half.is_some_and(|it| u128::from(bytes) > JUDGED * it.as_millis()) {
            return Ok(Some(format!("with {bytes} bytes it would take longer than `seal_seconds`")));
        }
        // a block of the mapping that cannot be read would end the service
        if let Err(refusal) = self.medium.read_until(recorder, blocks, half.map(|it| Instant::now() + it)) {
            return Ok(Some(refusal.text().to_string()));
        }
        match recorder.seal() {
            Ok(()) => (),
            Err(Refused::BadFile) => {
                let at = recorder.fault().ok().flatten().map_or(String::new(), |it| format!(", {it}"));
                return Ok(Some(format!("it is not as this recorder writes it{at}")));
            }
            Err(error @ Refused::MediumFull) => return Ok(Some(error.to_string())),
            Err(Refused::Medium) => return self.is_last_try("the medium cannot be written".to_string()),
            Err(error) => return Err(Refusal::Failed(error.to_string())),
        }
        match recorder.settle() {
            Ok(()) => Ok(None),
            Err(it) => self.is_last_try(format!("the medium cannot be written: {it}")),
        }
    }

    /// A failure of the disk: the file is given up for it once there is no other try.
    fn is_last_try(&self, why: String) -> Result<Option<String>, Refusal> {
        if self.failures.tries() < self.settings.tries { Err(Refusal::Failed(why)) } else { Ok(Some(why)) }
    }

    /// What of the messages that waited for a commit, when the recorder failed, is in its file after all: the rest is offered again. A
    /// file that cannot be read may have some of it too.
    pub(crate) fn account(&mut self, recorder: &mut Recorder, files: &[r10::File], reads: bool) -> Result<(), Refused> {
        let is_its = |it: &&Current| files.get(it.number).is_some_and(|file| file.name == it.name);
        let mut file = self.file.as_ref().filter(is_its).filter(|_| reads).map(|it| it.number);
        for place in 0..self.lanes.len() {
            let lane = &self.lanes[place];
            let mut is_there = |count: u64| -> Result<bool, Refused> {
                let Some(number) = file else { return Ok(false) };
                match recorder.find(number, lane.channel.id, count) {
                    // it is damaged: what was not committed is found nowhere
                    Err(Refused::BadFile) => {
                        file = None;
                        Ok(false)
                    }
                    other => Ok(other?.is_some()),
                }
            };
            // what is in the file is a front of what was accepted, and counts rise: so the first that is not there is found by
            // halves
            let (mut there, mut not) = (0, lane.pending.len());
            while there < not {
                let middle = usize::midpoint(there, not);
                if is_there(lane.pending[middle].count)? { there = middle + 1 } else { not = middle }
            }
            let lane = &mut self.lanes[place];
            lane.durable += there as u64;
            lane.durable_in_file += there as u64;
            lane.are_durable(there);
            if let Some(notes) = self.notes.as_mut().filter(|it| it.place == place) {
                notes.are_durable(there);
            }
            self.offer_again_of(place);
        }
        let again = self.waiting();
        if again > 0 {
            self.note(false, &format!("{again} messages that were not durable are recorded again"));
        }
        // (a file that was closed has said so at its end)
        if self.file.as_ref().is_some_and(|it| !it.is_ended) {
            self.log_totals();
        }
        Ok(())
    }

    /// What is kept of a channel, and in no file, is offered again; so are lines of the log, which are kept elsewhere. (What the recorder
    /// was given of losses is in no file either, where the message is not that was to carry it.)
    pub(crate) fn offer_again_of(&mut self, place: usize) {
        let lane = &mut self.lanes[place];
        if let Some(notes) = self.notes.as_mut().filter(|it| it.place == place) {
            lane.untold += lane.pending.drain(..).map(|it| it.lost).sum::<u64>();
            notes.wait_again();
        }
        lane.offer_all_again();
    }

    /// The disk failed: as after a loss of power. The recorder and the mapping go, with what the system kept, and all is opened
    /// again.
    pub(crate) fn fail(&mut self, why: &str) {
        self.failures.failed(why);
        let tries = self.failures.tries();
        error!(
            "{why}; the medium is opened again, and what was not committed is recorded again (try {} of {})",
            tries, self.settings.tries
        );
        self.log_disk("failed", why);
        self.recorder = None;
        self.interrupt_readers("the disk failed");
        self.state = State::Failed((tries <= self.settings.tries).then(Instant::now));
        if tries > self.settings.tries {
            self.down(&Refusal::Failed(why.to_string()));
        }
    }

    /// Puts into the log channel how the disk is.
    fn log_disk(&mut self, state: &str, why: &str) {
        let (tries, of) = (self.failures.tries(), self.settings.tries);
        let line = Line::new("disk").with("state", state).with("try", tries).with("of", of);
        self.log_for_sure(if why.is_empty() { line } else { line.with("why", why) });
    }

    /// Puts into the log channel that a file was cut off by a kill or a loss of power: what each channel has of it, and how long
    /// nothing was recorded. Of one that cannot be read it is not known.
    fn log_cut(&mut self, recorder: &mut Recorder, files: &[r10::File], was_open: bool, reads: bool) -> Result<(), Refused> {
        let Some((number, file)) = files.len().checked_sub(1).and_then(|at| Some((at, files.get(at)?))) else { return Ok(()) };
        let mut found = Vec::new();
        let ids: Vec<u16> = self.lanes.iter().filter(|_| reads).map(|it| it.channel.id).collect();
        for id in ids {
            found.extend(last_of(recorder, number, id)?.map(|(count, messages)| (id, count, messages)));
        }
        let time = if reads { last_time(recorder, number, self.settings.time)? } else { None };
        let newest = found.iter().map(|it| it.1).chain(time.map(|it| it.0)).max();
        let at = |count: u64| time.map(|(base, at)| at + 100 * (i128::from(count) - i128::from(base)));
        let without = newest.and_then(at).map(|it| (clock::now() - it) as f64 / 1e9);
        let line = Line::new("cut").with("file", number + 1).with("name", printed(&file.name)).with("open", was_open);
        self.log_for_sure(line.with("without_s", without.map_or("unknown".to_string(), |it| format!("{it:.3}"))));
        for (id, count, messages) in found {
            let line = Line::new("durable").with("file", number + 1).with("channel", id).with("messages", messages);
            let time = at(count).map_or("unknown".to_string(), notes::time_text);
            self.log_for_sure(line.with("count", count).with("time", time));
        }
        Ok(())
    }

    pub(crate) fn down(&mut self, refusal: &Refusal) {
        self.recorder = None;
        if self.wish.wants && self.leave_failed(refusal.text()) {
            return;
        }
        self.state = State::Failed(None);
        self.failures.why = refusal.text().to_string();
        self.log_disk("down", refusal.text());
        error!("recording is down: {}; once that is mended, give .RECORD", refusal.text());
        let _ = sd_notify::notify(false, &[sd_notify::NotifyState::Status("FAIL: recording is down; see the log")]);
    }

    /// Opens the medium again, where that is due, and goes on in a new file.
    pub(crate) fn retry(&mut self) {
        let State::Failed(Some(at)) = self.state else { return };
        if Instant::now() < at {
            return;
        }
        match self.open() {
            Ok(was_cut) if self.wish.wants || was_cut && self.settings.begin != Begin::Wait => self.resume(),
            Ok(_) => info!("the medium is mounted again"),
            Err(Refusal::Failed(why)) if self.failures.tries() < self.settings.tries => {
                self.failures.failed(&why);
                let tries = self.failures.tries();
                warning!("{why}; it is tried again (try {tries} of {})", self.settings.tries);
                self.log_disk("failed", &why);
                self.state = State::Failed(Some(Instant::now() + Duration::from_millis(100 << tries.min(6))));
            }
            Err(refusal) => self.down(&refusal),
        }
    }

    /// Opens a medium that is down, by a command.
    pub fn open_again(&mut self) -> Result<(), Refusal> {
        self.failures.over();
        self.open().map(|_| ())
    }

    pub(crate) fn resume(&mut self) {
        // (it waits for the clock, and begins then)
        if self.wish.waits.is_some() {
            return;
        }
        let begun = self.record_on();
        match begun {
            Err(Trouble::Full(_)) => {
                let done = self.next_file(Ended::Full);
                self.mind(done);
            }
            other => self.mind(other),
        }
    }
}
