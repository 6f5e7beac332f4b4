//! Media in a row: where one is full the recording goes on on the next one that has no file. That one is opened ahead, on a
//! thread of its own, so that neither its make nor its disk holds up what comes. Where all have files, and the settings say so, the
//! oldest closed one is overwritten: it is opened ahead too, and its files go at the seam alone.
use std::collections::BTreeSet;
use std::sync::mpsc::{Receiver, RecvTimeoutError, channel};
use std::thread;
use std::time::{Duration, Instant};

use r10::Recorder;

use crate::dates::Dates;
use crate::medium::{Medium, Refusal, printed};
use crate::notes::Line;
use crate::owner::{Owner, State, Trouble};
use crate::recording::AHEAD;
use crate::settings::Settings;
use crate::words::{No, Point};
use crate::{info, warning, watchdog};

/// How long the recorder's thread waits for a medium that is not open yet. What comes waits in the queues meanwhile.
const WAITS: Duration = Duration::from_secs(2);
const PAUSE: Duration = Duration::from_millis(20);

/// What a medium holds that may be overwritten.
#[derive(Clone, Debug, PartialEq, Eq)]
struct Held {
    files: usize,
    names: String,
    /// date and time of the first file's begin, and of the last one's
    from: String,
    to: String,
    /// the time of the last one's end
    end: String,
}

impl Held {
    fn of(files: &[r10::File], dates: &Dates) -> Held {
        let names: Vec<String> = files.iter().map(|it| printed(&it.name)).collect();
        let last = files.len().saturating_sub(1);
        let (from, to, end) = (dates.begin(0), dates.begin(last), dates.end(last).to_string());
        Held { files: files.len(), names: names.join(","), from, to, end }
    }
}

/// The next medium, open and mounted.
struct Next {
    medium: Medium,
    recorder: Recorder,
    /// its files, which go when the recording goes on there
    held: Option<Held>,
}

/// What a look at the media found.
#[derive(Default)]
struct Found {
    next: Option<Next>,
    /// how many may be recorded on, that one among them
    left: usize,
    /// why others cannot be used
    refused: Vec<String>,
    /// those that are marked to be kept, in words
    kept: Vec<String>,
    /// which file or device had each path
    places: Vec<Option<(u64, u64)>>,
}

/// The media after the one in use.
#[derive(Default)]
pub struct Row {
    looks: Option<Receiver<Found>>,
    found: Option<Found>,
    left: usize,
    /// those that were left since the start of the service, the last one last
    left_behind: Vec<usize>,
    /// those that cannot be recorded on, as it was found at the seam in hand
    given_up: BTreeSet<usize>,
}

impl Row {
    /// How many media after the one in use may be recorded on, as they were looked at last: they have no file, or may be overwritten.
    pub fn left(&self) -> usize {
        self.left
    }

    /// The medium that is open ahead, if there is one.
    pub fn next(&self) -> Option<&Medium> {
        self.found.as_ref()?.next.as_ref().map(|it| &it.medium)
    }

    /// Gives up the one that is open ahead: it can be taken away then.
    pub fn let_go(&mut self) {
        (self.looks, self.found) = (None, None);
    }

    /// Waits until the media are looked at, where they are.
    #[cfg(test)]
    pub(crate) fn wait_for_look(&mut self) {
        self.wait(Duration::from_mins(4));
    }

    #[cfg(test)]
    pub(crate) fn is_looking(&self) -> bool {
        self.looks.is_some()
    }

    /// Waits until the next medium is open.
    #[cfg(test)]
    pub(crate) fn wait_for_next(&mut self) {
        self.wait_for_look();
        assert!(self.next().is_some());
    }

    /// Has the next medium fail where it is written to.
    #[cfg(test)]
    pub(crate) fn fail_next(&mut self) {
        self.found.as_mut().unwrap().next.as_mut().unwrap().recorder.disk_failed().unwrap();
    }

    /// Takes what a look found, and waits so long for it. A look that ended without a word found nothing.
    fn wait(&mut self, most: Duration) {
        let Some(looks) = &self.looks else { return };
        let found = match looks.recv_timeout(most) {
            Ok(found) => found,
            Err(RecvTimeoutError::Timeout) => return,
            Err(RecvTimeoutError::Disconnected) => Found::default(),
        };
        self.left = found.left;
        (self.looks, self.found) = (None, Some(found));
    }
}

/// What a service begins with.
pub struct First {
    /// whether a file of its medium was cut off, or of one that was passed over; or why there is none
    pub opened: Result<bool, Refusal>,
    /// a recording was to go on
    pub goes_on: bool,
}

/// The media with which a service may begin, in the order in which they are tried: those whose last file is not closed, those
/// with a file, of both the last one of the list first (where media are overwritten, the newest), and those without. How many media are
/// left after the first of them; and whether a recording was to go on on one that cannot be used.
fn choices(settings: &Settings) -> (Vec<usize>, usize, bool) {
    let count = settings.media.len();
    let (mut open, mut closed, mut free, mut goes_on) = (Vec::new(), Vec::<(String, usize)>::new(), Vec::new(), false);
    for place in (0..count).rev().filter(|_| count > 1) {
        let medium = Medium::at(settings, place);
        match medium.look() {
            Ok((files, _)) if files.is_empty() => free.insert(0, place),
            Ok((files, dates)) if files.iter().all(|it| it.closed) => closed.push((dates.begin(files.len() - 1), place)),
            Ok(_) => open.push(place),
            Err(refusal) => {
                warning!("{}", refusal.text());
                goes_on |= medium.goes_on();
            }
        }
    }
    let mut left = free.len();
    if settings.overwrite {
        // (in a ring the newest one is anywhere)
        closed.sort_by(|one, other| other.cmp(one));
        left += closed.len();
    }
    open.extend(closed.into_iter().map(|it| it.1).chain(free));
    if open.is_empty() {
        open.push(0);
    }
    (open, left, goes_on)
}

/// Opens a medium that has no file. Its first blocks are read plainly, so that a bad one is found now, and the rest are in the
/// system's cache when a file begins.
fn open(medium: &Medium) -> Result<Recorder, Refusal> {
    medium.make()?;
    let recorder = medium.mount()?;
    let first = medium.first_block(&[]);
    medium.read_plainly(&recorder, first..first + AHEAD)?;
    Ok(recorder)
}

/// Which file or device has the path of each medium.
fn places(settings: &Settings) -> Vec<Option<(u64, u64)>> {
    (0..settings.media.len()).map(|it| Medium::at(settings, it).place()).collect()
}

/// Why a medium with these files may not be overwritten, if it may not.
fn is_not_old(medium: &Medium, files: &[r10::File]) -> Option<String> {
    let what = if files.iter().any(|it| !it.closed) {
        "has a file that is not closed"
    } else if medium.is_kept() {
        "is marked to be kept"
    } else {
        return None;
    };
    Some(format!("medium {} ({}) {what}", medium.name(), medium.volume))
}

/// Opens the next medium after a place that has no file: that is looked at from there on, and from the first one on after the
/// last. Where none is, and the settings say so, it is the oldest one that may be overwritten: those that were left since the start of
/// the service are newer than others, and of others the dates of their last files tell.
fn find(settings: &Settings, after: usize, left_behind: &[usize], given_up: &BTreeSet<usize>) -> Found {
    let (count, mut olds) = (settings.media.len(), Vec::new());
    let mut found = Found { places: places(settings), ..Found::default() };
    for place in (1..count).map(|it| (after + it) % count).filter(|it| !given_up.contains(it)) {
        let mut medium = Medium::at(settings, place);
        let opened = match medium.look() {
            Ok((files, dates)) if !files.is_empty() => {
                match is_not_old(&medium, &files).filter(|_| settings.overwrite) {
                    Some(why) => found.kept.push(why),
                    None if settings.overwrite => {
                        let left = left_behind.iter().rposition(|it| *it == place);
                        olds.push((left, dates.begin(files.len() - 1), olds.len(), medium));
                        found.left += 1;
                    }
                    None => (),
                }
                continue;
            }
            Ok(_) if found.next.is_some() => Ok(None),
            Ok(_) => open(&medium).map(Some),
            Err(refusal) => Err(refusal),
        };
        match opened {
            Ok(recorder) => {
                found.left += 1;
                if let Some(recorder) = recorder {
                    medium.is_opened();
                    found.next = Some(Next { medium, recorder, held: None });
                }
            }
            Err(refusal) => found.refused.push(refusal.text().to_string()),
        }
    }
    if found.next.is_none() {
        olds.sort_by(|one, other| (&one.0, &one.1, one.2).cmp(&(&other.0, &other.1, other.2)));
        for (.., mut medium) in olds {
            match medium.open_old(AHEAD) {
                Ok((recorder, files, dates)) => {
                    medium.is_opened();
                    found.next = Some(Next { medium, recorder, held: Some(Held::of(&files, &dates)) });
                    break;
                }
                Err(refusal) => {
                    found.left -= 1;
                    found.refused.push(refusal.text().to_string());
                }
            }
        }
    }
    found
}

impl Owner {
    /// Opens the medium that the service begins with. Of a row it is the first one that can be used. Only one that cannot be
    /// made is no start.
    pub(crate) fn open_first(&mut self) -> Result<First, Refusal> {
        let (places, left, goes_on) = choices(&self.settings);
        let mut first = First { opened: Ok(false), goes_on };
        let mut is_cut = false;
        for (number, place) in places.iter().copied().enumerate() {
            self.medium = Medium::at(&self.settings, place);
            self.row.left = left.min(places.len() - number - 1);
            self.medium.make()?;
            self.medium.describe();
            first.goes_on |= self.medium.goes_on();
            first.opened = self.open().map(|it| it || is_cut);
            match &first.opened {
                Err(Refusal::Wrong(why) | Refusal::Failed(why)) if number + 1 < places.len() => {
                    let (name, volume) = (self.medium.name(), &self.medium.volume);
                    self.note(true, &format!("medium {name} ({volume}) is given up: {why}"));
                    is_cut = true;
                }
                _ => break,
            }
        }
        // (a kill amid a seam leaves a mark on the full one)
        for place in (0..self.settings.media.len()).filter(|it| *it != self.medium.place) {
            let other = Medium::at(&self.settings, place);
            // (or on one on which no file had begun)
            first.goes_on |= other.goes_on();
            other.keep(false);
        }
        Ok(first)
    }

    /// Has the next medium opened on a thread of its own, where that is not done.
    pub(crate) fn open_ahead(&mut self) {
        if self.settings.media.len() < 2 || self.row.looks.is_some() || self.row.found.is_some() {
            return;
        }
        let (to, from) = channel();
        let (settings, place) = (self.settings.clone(), self.medium.place);
        let (left_behind, given_up) = (self.row.left_behind.clone(), self.row.given_up.clone());
        let look = move || {
            let _ = to.send(find(&settings, place, &left_behind, &given_up));
        };
        // (where no thread can be had it is tried again at the end of the medium)
        if thread::Builder::new().name("next medium".to_string()).spawn(look).is_ok() {
            self.row.looks = Some(from);
        }
    }

    /// Whether the medium that is open ahead may be recorded on still. One that is to be overwritten may have been marked meanwhile, or
    /// one without a file may have been put in.
    fn may_go_on_there(&self, next: &Next, seen: &[Option<(u64, u64)>]) -> bool {
        next.medium.is_at_its_path() && (next.held.is_none() || !next.medium.is_kept() && places(&self.settings) == seen)
    }

    /// The next medium, open. Where there was none the media are looked at once more: one may have been put in meanwhile.
    fn next_open(&mut self) -> Option<Next> {
        let mut kept = Vec::new();
        for _ in 0..2 {
            self.open_ahead();
            let until = Instant::now() + WAITS;
            while self.row.looks.is_some() && Instant::now() < until {
                watchdog::beat();
                self.row.wait(PAUSE);
            }
            let Some(found) = self.row.found.take() else { continue };
            for why in found.refused {
                self.note(true, &format!("{why}; it is passed over"));
            }
            if let Some(next) = found.next
                && self.may_go_on_there(&next, &found.places)
            {
                self.row.left = found.left.saturating_sub(1);
                return Some(next);
            }
            kept = found.kept;
        }
        for why in kept {
            self.note(true, &format!("{why}; it is not overwritten"));
        }
        None
    }

    /// Takes the files from a medium, if it has some, before it is recorded on. The log and the log channel say what it held. Whether
    /// that went well: by a kill amid it the medium has all its files, or none.
    fn overwrite(&mut self, next: &mut Next) -> bool {
        let Some(held) = next.held.take() else { return true };
        let (name, volume) = (next.medium.name(), next.medium.volume.clone());
        let erased = next.recorder.erase().map_err(|it| it.to_string());
        if let Err(why) = erased.and_then(|()| next.recorder.settle().map_err(|it| it.to_string())) {
            self.note(true, &format!("medium {name} ({volume}) cannot be overwritten: {why}; it is passed over"));
            return false;
        }
        let Held { files, names, from, to, end } = held;
        info!("medium {name} ({volume}) is overwritten: it held {files} files, {names}, from {from} to {to}, ended {end}");
        let line = Line::new("medium").with("state", "overwritten").with("volume", volume).with("path", name);
        self.log_for_sure(line.with("files", files).with("from", from).with("to", to).with("end", end).with("names", names));
        true
    }

    /// Goes on on the next medium of the row, in a file of this name. Whether there is one. No file is recorded when this is
    /// called: what waits goes along.
    pub(crate) fn next_medium(&mut self, name: Option<&str>) -> Result<bool, Trouble> {
        let done = self.go_to_next(name);
        self.row.given_up.clear();
        done
    }

    fn go_to_next(&mut self, name: Option<&str>) -> Result<bool, Trouble> {
        let mut full: Option<(Medium, Recorder)> = None;
        while self.settings.media.len() > 1
            && let Some(mut next) = self.next_open()
        {
            // (one on which nothing can be recorded is tried once)
            self.row.given_up.insert(next.medium.place);
            let is_overwritten = next.held.is_some();
            if !self.overwrite(&mut next) {
                continue;
            }
            let Next { medium, recorder, .. } = next;
            self.interrupt_readers("the medium is full");
            let before = (std::mem::replace(&mut self.medium, medium), self.recorder.replace(recorder));
            if full.is_none()
                && let (medium, Some(recorder)) = before
            {
                // (the next look, which a file's begin starts, has to know it)
                self.row.left_behind.retain(|it| *it != medium.place);
                self.row.left_behind.push(medium.place);
                full = Some((medium, recorder));
            }
            (self.file, self.point) = (None, Point::default());
            if full.is_none() {
                self.account_for_gone()?;
            }
            // (what waits goes along, and has to have a file)
            let waits = self.lanes.iter().any(|it| it.waiting > 0);
            match if waits || name.is_some() { self.start(name) } else { self.record_on() } {
                // (one that was empty tells that another one would be too small as well: none is overwritten for it)
                Err(Trouble::Full(_)) if is_overwritten => break,
                Err(Trouble::Full(_)) => continue,
                other => other?,
            }
            if let Some((medium, recorder)) = full {
                for place in 0..self.lanes.len() {
                    self.offer_again_of(place);
                }
                self.leave_medium(&medium, recorder);
            }
            return Ok(true);
        }
        if let Some((medium, recorder)) = full {
            (self.medium, self.recorder) = (medium, Some(recorder));
        }
        Ok(false)
    }

    /// The recorder before is gone, as its disk failed: what was not committed is for the next one.
    fn account_for_gone(&mut self) -> Result<(), Trouble> {
        if let Some(mut recorder) = self.recorder.take() {
            let done = self.account(&mut recorder, &[], false);
            self.recorder = Some(recorder);
            done?;
        }
        Ok(())
    }

    /// The medium in use failed for good: goes on on the next one, with what was not committed. Whether there is one.
    pub(crate) fn leave_failed(&mut self, why: &str) -> bool {
        let (name, volume) = (self.medium.name(), self.medium.volume.clone());
        match self.next_medium(None) {
            Ok(true) => {
                let (next, its) = (self.medium.name(), &self.medium.volume);
                warning!("medium {name} ({volume}) is given up: {why}; recording goes on on {next} ({its})");
                self.log(Line::new("medium").with("state", "failed").with("volume", volume).with("path", name).with("why", why));
                // (the next one has all its tries)
                self.failures.over();
                true
            }
            Ok(false) => false,
            Err(trouble) => {
                self.note(true, &format!("medium {}: {trouble}", self.medium.name()));
                self.recorder = None;
                false
            }
        }
    }

    /// A medium is full, and the recording goes on on another one.
    fn leave_medium(&mut self, medium: &Medium, mut recorder: Recorder) {
        let closed = recorder.dismount().map_err(|it| it.to_string()).and_then(|()| recorder.settle().map_err(|it| it.to_string()));
        drop(recorder);
        medium.keep(false);
        let (name, volume, next) = (medium.name(), &medium.volume, self.medium.name());
        // (its files are closed before, and nothing of them hangs on this)
        if let Err(error) = closed {
            warning!("medium {name} ({volume}): {error}, after its last file was closed");
        }
        info!("medium {name} ({volume}) is full, and can be taken away; recording goes on on {next} ({})", self.medium.volume);
        self.log(Line::new("medium").with("state", "full").with("volume", volume).with("path", name));
    }

    /// Where the medium was full before the next one was open: goes on there now.
    pub(crate) fn go_on_next(&mut self) -> Result<(), Trouble> {
        self.row.wait(Duration::ZERO);
        if self.state == State::Full && self.row.next().is_some() {
            self.next_medium(None)?;
        }
        Ok(())
    }

    /// The bytes of the media after the one in use that have no file.
    pub(crate) fn free_after(&self) -> u64 {
        let files = self.settings.blocks.saturating_sub(1 + self.settings.directory) as u64;
        512 * files * self.row.left() as u64
    }

    /// The bytes of all media.
    pub(crate) fn all_bytes(&self) -> u64 {
        512 * self.settings.blocks as u64 * self.settings.media.len() as u64
    }

    /// A medium on which a file was set aside is marked to be kept, as that file is not whole, and somebody may mend it.
    pub(crate) fn keep_damaged(&mut self) {
        let (name, volume) = (self.medium.name(), self.medium.volume.clone());
        let text = match self.medium.mark_kept(true) {
            Ok(()) => format!("medium {name} ({volume}) has a file that was set aside: it is marked to be kept"),
            Err(error) => {
                format!("medium {name} ({volume}) has a file that was set aside, and cannot be marked to be kept: {error}")
            }
        };
        self.note(true, &text);
    }

    /// `.KEEP`: marks a medium of the row as one that is not overwritten, takes the mark off, or lists them.
    pub(crate) fn keep_word(&mut self, words: &[&str]) -> Result<String, No> {
        if self.settings.media.len() < 2 {
            return Err(No::Mode("there is one medium, and nothing overwrites it but .ERASE".to_string()));
        }
        let is_kept = match words {
            [] => return Ok(self.media_lines().concat()),
            [_] => true,
            [_, word] if word.eq_ignore_ascii_case("ON") => true,
            [_, word] if word.eq_ignore_ascii_case("OFF") => false,
            _ => return Err(No::Parameter("give the number of a medium, and ON or OFF".to_string())),
        };
        let of_words = |place: usize| Some(words[0]) == Some(self.settings.volume_at(place).as_str());
        let number = words[0].parse::<usize>().ok().and_then(|it| it.checked_sub(1));
        let count = self.settings.media.len();
        let Some(place) = (0..count).find(|it| Some(*it) == number || of_words(*it)) else {
            return Err(No::Parameter(format!("there is no medium {}; .MEDIA lists them", words[0])));
        };
        let medium = Medium::at(&self.settings, place);
        medium.mark_kept(is_kept).map_err(|it| No::Failed(format!("medium {} cannot be marked: {it}", medium.name())))?;
        // (the next one is looked for anew)
        self.row.let_go();
        if matches!(self.state, State::Ready | State::Recording) {
            self.open_ahead();
        }
        Ok(String::new())
    }

    /// A line for each medium of a row: number, volume, whether it is in use or the next one and whether it is marked to be kept, and
    /// path.
    pub(crate) fn media_lines(&self) -> Vec<String> {
        let next = self.row.next().map(|it| it.place);
        let line = |place: usize| {
            let it = Medium::at(&self.settings, place);
            let state = match (place, it.is_kept()) {
                (_, false) if place == self.medium.place => "in_use",
                (_, true) if place == self.medium.place => "in_use,kept",
                (_, false) if Some(place) == next => "next",
                (_, true) => "kept",
                _ => "-",
            };
            format!("MEDIUM {} {} {state} {}\n", place + 1, it.volume, it.name())
        };
        (0..self.settings.media.len()).filter(|_| self.settings.media.len() > 1).map(line).collect()
    }
}
