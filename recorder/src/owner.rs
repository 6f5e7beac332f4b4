//! The thread that owns the recorder: it takes in what the inputs hand over, keeps the clock, commits, ends files and begins the
//! next, and goes on after failures.
use std::collections::VecDeque;
use std::fmt;
use std::sync::Arc;
use std::sync::atomic::{AtomicBool, Ordering::Relaxed};
use std::sync::mpsc::Receiver;
use std::time::{Duration, Instant};

use r10::{Recorder, Refusal as Refused};

use crate::acknowledge::Acknowledge;
use crate::chapter6::CRITICAL;
use crate::clock::Counter;
use crate::clock_state::Keeper;
use crate::control::Command;
use crate::feed::{Came, Item, Outlet};
use crate::inputs::Seldom;
use crate::keeps::{Commits, Current, Failures, Intake, Wish};
use crate::kinds::{Head, Kind};
use crate::live::Live;
use crate::losses::{Causes, Moment};
use crate::medium::{Medium, Refusal};
use crate::notes::{self, Board, Line, Notes};
use crate::readers::Reader;
use crate::recording::Ended;
use crate::row::{First, Row};
use crate::settings::{self, Begin, Log, Settings};
use crate::standing::Shared;
use crate::stop::{Base, End};
use crate::words::Point;
use crate::{room, warning, watchdog};

/// What stops the thread in what it does.
#[derive(Debug)]
pub enum Trouble {
    /// the file's area, or the directory, has no room
    Full(Refused),
    /// the recorder refused a call, and nothing has changed
    Refused(Refused),
    /// the disk failed, or the recorder did
    Failed(String),
}

impl From<Refused> for Trouble {
    fn from(error: Refused) -> Trouble {
        match error {
            Refused::MediumFull | Refused::DirectoryFull => Trouble::Full(error),
            Refused::Medium | Refused::Failed | Refused::NoMemory => {
                Trouble::Failed(format!("the recorder failed: {error} ({})", error.number()))
            }
            _ => Trouble::Refused(error),
        }
    }
}

impl fmt::Display for Trouble {
    fn fmt(&self, f: &mut fmt::Formatter) -> fmt::Result {
        match self {
            Trouble::Full(error) => write!(f, "{error}"),
            Trouble::Refused(error) => write!(f, "the recorder refused a call: {error} ({})", error.number()),
            Trouble::Failed(why) => f.write_str(why),
        }
    }
}

impl State {
    /// In a word.
    pub fn word(self) -> &'static str {
        match self {
            State::Idle => "idle",
            State::Ready | State::Recording => "recording",
            State::Full => "full",
            State::Failed(Some(_)) => "retrying",
            State::Failed(None) => "failed",
            State::Dismounted => "dismounted",
        }
    }
}

#[derive(Clone, Copy, Debug, PartialEq, Eq)]
pub enum State {
    Idle,
    /// it records, and its file begins with the first message, event or note
    Ready,
    Recording,
    /// it recorded, and there is no room for more
    Full,
    /// the disk failed: at this moment it is tried again, if at all
    Failed(Option<Instant>),
    /// the medium was given up by a command
    Dismounted,
}

/// A message that was accepted and is not durable.
pub(crate) struct Pending {
    pub(crate) count: u64,
    /// how many lost messages the recorder was given before it
    pub(crate) lost: u64,
    /// what is kept of it, and how many bytes; none of a line of the log
    pub(crate) kept: Option<(Head, usize)>,
}

impl Pending {
    pub(crate) fn length(&self) -> usize {
        self.kept.map_or(0, |it| it.1)
    }
}

/// A channel on its way.
pub struct Lane {
    pub channel: settings::Channel,
    pub came: Arc<Came>,
    /// messages in the recorder's lane, and those that are to be offered again
    pub(crate) waiting: usize,
    /// the messages that were accepted and are not durable: those that wait last, and of these those that are to be offered again
    pub(crate) pending: VecDeque<Pending>,
    /// their bytes
    pub(crate) kept: VecDeque<u8>,
    /// how many are to be offered again, and how many bytes they have
    pub(crate) again: usize,
    pub(crate) again_bytes: usize,
    pub durable: u64,
    /// durable ones in the file that is recorded
    pub durable_in_file: u64,
    pub lost: u64,
    /// what of the lost the recorder was not given yet
    pub(crate) untold: u64,
    /// what of them it was given, and no message was accepted after
    pub(crate) told: u64,
    /// all that this recorder was given, which counts them with what overflowed
    pub(crate) given: u64,
    pub refused: u64,
    /// messages that came while nothing was recorded
    pub passed: u64,
    /// messages that came, those that were lost on their way taken in: they are durable, pending, lost or passed
    pub(crate) came_in: u64,
    /// why they were lost
    pub(crate) causes: Causes,
    pub(crate) causes_logged: Causes,
    /// why those were lost that the batch in hand tells of
    pub(crate) pool: Causes,
    /// how it stood when the file began
    pub(crate) base: Base,
    /// what the last total of a file said was lost after its last message
    pub(crate) after: u64,
    pub(crate) total_logged: Option<(usize, u64, u64)>,
    pub(crate) longest: usize,
    /// count, length and first bytes of the last message
    pub last: Option<(u64, usize, Vec<u8>)>,
    pub(crate) seldom: Seldom,
}

impl Lane {
    fn new(channel: settings::Channel, came: Arc<Came>) -> Lane {
        Lane {
            channel,
            came,
            waiting: 0,
            pending: VecDeque::new(),
            kept: VecDeque::new(),
            again: 0,
            again_bytes: 0,
            durable: 0,
            durable_in_file: 0,
            lost: 0,
            untold: 0,
            told: 0,
            given: 0,
            refused: 0,
            passed: 0,
            came_in: 0,
            causes: Causes::default(),
            causes_logged: Causes::default(),
            pool: Causes::default(),
            base: Base::default(),
            after: 0,
            total_logged: None,
            longest: 1,
            last: None,
            seldom: Seldom::default(),
        }
    }
}

/// The log channel, as one of the settings would be.
fn log_channel(id: u16) -> settings::Channel {
    let (kind, name) = (Kind::Message, notes::NAME.to_string());
    settings::Channel { id, kind, name, capacity: settings::LOG_CAPACITY, input: None, queue: 0, sub: 0, source: id, silent: None }
}

pub struct Owner {
    pub settings: Settings,
    pub(crate) counter: Counter,
    pub medium: Medium,
    pub(crate) row: Row,
    pub recorder: Option<Recorder>,
    pub state: State,
    /// those of the settings' channels, and then that of the log channel where there is one
    pub lanes: Vec<Lane>,
    pub(crate) notes: Option<Notes>,
    pub(crate) intake: Intake,
    pub(crate) commands: Receiver<Command>,
    pub(crate) stop: Stopping,
    pub(crate) losses_logged: Instant,
    pub point: Point,
    pub readers: Vec<Reader>,
    pub live: Live,
    pub(crate) acknowledge: Option<Acknowledge>,
    pub file: Option<Current>,
    pub(crate) ticked: Ticked,
    /// by feature, which bits of its health are critical
    pub(crate) critical: Vec<u32>,
    pub(crate) wish: Wish,
    pub clock: Keeper,
    pub failures: Failures,
    pub commits: Commits,
    pub(crate) shared: Arc<Shared>,
}

/// How far a stop is, and whether the service is to end.
pub(crate) struct Stopping {
    /// the service is to end
    pub(crate) ending: Arc<AtomicBool>,
    /// up to when a stop takes what came, as the inputs know it
    pub(crate) moment: Moment,
    /// while a stop drains the queues: what arrived after this count has passed
    pub(crate) limit: Option<u64>,
    /// what comes out of the queues is left out, as a stop's time is over
    pub(crate) leaves: bool,
    /// while a stop goes on: how many that came before it are in no file
    pub(crate) missed: Option<u64>,
}

/// The last tick: when, and its count.
pub(crate) struct Ticked {
    pub(crate) at: Instant,
    pub(crate) count: u64,
}

/// What ties the recorder's thread to the others.
pub struct Ties {
    pub commands: Receiver<Command>,
    /// the service is to end
    pub ending: Arc<AtomicBool>,
    pub board: Board,
    pub moment: Moment,
    pub shared: Arc<Shared>,
}

/// How long batches are taken in before something else has its turn.
pub(crate) const TURN: Duration = Duration::from_millis(20);

/// Whether a file is as old as it may become. One without a message may become a day old, as each takes a place in the directory.
fn is_old(age: Duration, file_for: Duration, has_messages: bool) -> bool {
    const DAY: Duration = Duration::from_hours(24);
    age >= if has_messages { file_for } else { file_for.max(DAY) }
}

impl Owner {
    pub fn new(settings: Settings, counter: Counter, came: Vec<Arc<Came>>, ties: Ties) -> std::io::Result<Owner> {
        let Ties { commands, ending, board, moment, shared } = ties;
        let mut lanes: Vec<Lane> = settings.channels.iter().zip(came).map(|(it, came)| Lane::new(it.clone(), came)).collect();
        let notes = settings.log.id().map(|id| {
            lanes.push(Lane::new(log_channel(id), Arc::default()));
            Notes::new(lanes.len() - 1, board)
        });
        if settings.log == Log::NoRoom {
            warning!("64 channels leave no room for the log channel: it is left out");
        }
        let critical = std::iter::once(CRITICAL).chain(settings.channels.iter().map(|_| 0)).collect();
        let clock = Keeper::new(&settings, counter);
        clock.start(&settings)?;
        Ok(Owner {
            clock,
            medium: Medium::at(&settings, 0),
            row: Row::default(),
            lanes,
            notes,
            live: Live::new(settings.publish)?,
            acknowledge: {
                let most = settings.acknowledge_most;
                settings.acknowledge.as_deref().map(|it| Acknowledge::open(it, most)).transpose()?
            },
            settings,
            counter,
            recorder: None,
            state: State::Failed(None),
            intake: Intake::default(),
            commands,
            stop: Stopping { ending, moment, limit: None, leaves: false, missed: None },
            losses_logged: Instant::now(),
            point: Point::default(),
            readers: Vec::new(),
            file: None,
            ticked: Ticked { at: Instant::now(), count: 0 },
            critical,
            wish: Wish::default(),
            failures: Failures::default(),
            commits: Commits::default(),
            shared,
        })
    }

    /// Takes up the medium at the start of the service, and says whether a recording begins by itself. Only a medium that another
    /// program has, or that cannot be made, is no start.
    pub fn begin(&mut self) -> Result<bool, Refusal> {
        let look = self.clock.look();
        let found = self.clock.judge(&look.pair);
        let First { opened, goes_on } = self.open_first()?;
        room::say(&self.settings);
        let begins = |was_cut: bool, begin: Begin| begin == Begin::Record || begin == Begin::Resume && (was_cut || goes_on);
        let (version, sum) = (crate::VERSION, self.settings.sum.clone());
        let id = self.settings.log.id().unwrap_or(0);
        self.log_for_sure(Line::new("start").with("version", version).with("settings", sum).with("log", id));
        self.log_clock(&found);
        match opened {
            Ok(was_cut) => Ok(begins(was_cut, self.settings.begin)),
            Err(refusal @ Refusal::Taken(_)) => Err(refusal),
            Err(Refusal::Failed(why)) => {
                self.wish.wants = begins(false, self.settings.begin);
                self.fail(&why);
                Ok(false)
            }
            Err(refusal) => {
                self.down(&refusal);
                Ok(false)
            }
        }
    }

    /// Works until it is asked to end, and ends the file then.
    pub fn run(&mut self, outlets: Vec<Outlet>, records: bool) -> End {
        self.intake.outlets = outlets;
        self.begin_in_time(records);
        loop {
            let done = self.turn();
            self.mind(done);
            self.put_up();
            if self.stop.ending.load(Relaxed) {
                return self.end();
            }
        }
    }

    /// What is done about trouble.
    pub(crate) fn mind(&mut self, done: Result<(), Trouble>) {
        match done {
            Ok(()) => (),
            Err(Trouble::Full(_)) => {
                if let Err(trouble) = self.next_file(Ended::Full) {
                    self.fail(&trouble.to_string());
                }
            }
            Err(trouble) => self.fail(&trouble.to_string()),
        }
    }

    /// One turn: what came, what is asked, what is due.
    fn turn(&mut self) -> Result<(), Trouble> {
        watchdog::beat();
        self.retry();
        self.wait_for_time();
        let mut has_more = self.take_in()?;
        // who asks without an end has a turn too, and what comes has the next one
        let until = Instant::now() + TURN;
        while let Ok(command) = self.commands.try_recv() {
            self.answer(command)?;
            if Instant::now() > until {
                has_more = true;
                break;
            }
        }
        if self.losses_logged.elapsed() >= Duration::from_secs(1) {
            self.log_losses();
        }
        self.go_on_next()?;
        if self.wish.begins || self.waiting() > 0 {
            self.begin_file()?;
        }
        self.write_lines()?;
        let now = Instant::now();
        if self.recorder.is_some() && now >= self.ticked.at + Duration::from_secs(1) {
            self.tick()?;
        }
        if self.state == State::Recording {
            if self.commits.due(self.settings.commit).is_some_and(|it| now >= it) {
                self.commit()?;
            }
            let has_messages = self.listed().iter().any(|it| it.durable_in_file > 0);
            let age = self.file.as_ref().map_or(Duration::ZERO, Current::age);
            if is_old(age, self.settings.file_for, has_messages) {
                self.next_file(Ended::Old)?;
            }
        }
        let is_reading = self.read_on()?;
        if !has_more && !is_reading {
            self.wait();
        }
        Ok(())
    }

    /// Waits until an input or a command wakes the thread, or something is due.
    fn wait(&self) {
        let now = Instant::now();
        let mut until = now + Duration::from_millis(250);
        if self.recorder.is_some() {
            until = until.min(self.ticked.at + Duration::from_secs(1));
        }
        if self.state == State::Recording
            && let Some(due) = self.commits.due(self.settings.commit)
        {
            until = until.min(due);
        }
        if let State::Failed(Some(at)) = self.state {
            until = until.min(at);
        }
        std::thread::park_timeout(until.saturating_duration_since(now));
        // messages that come one by one are taken in together: what the thread does at once is what a commit needs
        if self.state == State::Recording && self.settings.commit >= Duration::from_millis(5) {
            let due = (self.commits.last() + self.settings.commit).saturating_duration_since(Instant::now());
            std::thread::sleep(due.min(Duration::from_millis(2)));
        }
    }

    pub fn recorder(&mut self) -> Result<&mut Recorder, Trouble> {
        self.recorder.as_mut().ok_or_else(|| Trouble::Failed("no medium is mounted".to_string()))
    }

    /// Does on the disk what waits.
    pub fn settle(&mut self) -> Result<(), Trouble> {
        self.recorder()?.settle().map_err(|it| Trouble::Failed(format!("a write or a sync failed: {it}")))
    }

    pub fn count(&self) -> u64 {
        self.counter.count()
    }

    /// The channels of the settings, without the log channel.
    pub(crate) fn listed(&self) -> &[Lane] {
        &self.lanes[..self.settings.channels.len()]
    }

    /// Messages that were accepted, and wait for room in a file. (Lines of the log begin no file.)
    pub(crate) fn waiting(&self) -> usize {
        self.listed().iter().map(|it| it.waiting).sum()
    }

    /// Whether the file that is or was recorded has a message or an event. Where one has neither, and no room for one, the medium is
    /// full.
    pub(crate) fn has_taken(&self) -> bool {
        self.file.as_ref().is_some_and(Current::has_events) || self.listed().iter().any(|it| it.durable_in_file > 0)
    }

    /// Takes in what the inputs handed over, for a turn at most. Whether there may be more.
    pub fn take_in(&mut self) -> Result<bool, Trouble> {
        let until = Instant::now() + TURN;
        loop {
            // while the disk is tried again what comes stays in the queues, which count what does not fit
            if matches!(self.state, State::Failed(Some(_))) {
                return Ok(false);
            }
            self.offer_taken()?;
            let mut is_empty = true;
            for at in 0..self.intake.outlets.len() {
                if self.intake.take(at) {
                    is_empty = false;
                    self.offer_taken()?;
                }
            }
            if is_empty {
                return Ok(false);
            }
            if Instant::now() > until {
                return Ok(true);
            }
        }
    }

    /// Offers what was taken. After trouble it goes on with the message that met it.
    pub(crate) fn offer_taken(&mut self) -> Result<(), Trouble> {
        for (place, causes) in self.intake.causes() {
            self.lanes[place].pool += causes;
        }
        while let Some(item) = self.intake.item() {
            if self.stop.limit.is_some_and(|it| item.arrived > it) {
                self.pass(item);
            } else {
                self.offer(item)?;
            }
            self.intake.next();
        }
        let rest = self.intake.rest();
        for (place, count) in rest.lost {
            self.never_came(place, count);
        }
        for (place, count) in rest.after {
            let lane = &mut self.lanes[place];
            lane.came_in += count;
            lane.passed += count;
        }
        Ok(())
    }

    /// A message came after the moment of a stop.
    fn pass(&mut self, item: Item) {
        let place = item.place as usize;
        self.never_came(place, item.lost);
        self.lanes[place].came_in += 1;
        self.lanes[place].passed += 1;
    }

    fn offer(&mut self, item: Item) -> Result<(), Trouble> {
        let place = item.place as usize;
        // a file is begun for it, and a lane that is full is pumped first. Both may meet trouble: until then nothing is changed, so that
        // the message can be offered again
        if !self.stop.leaves {
            self.begin_file()?;
        }
        let is_recording = self.state == State::Recording && !self.stop.leaves;
        // (what is kept until it is durable has its bound too)
        if is_recording && self.commits.bytes() >= self.settings.kept {
            self.commit()?;
        }
        if is_recording && self.lanes[place].again > 0 {
            self.pump(place)?;
        }
        if is_recording && self.lanes[place].waiting >= self.lanes[place].channel.capacity {
            self.pump(place)?;
            // (a stop commits once, at its end)
            if self.stop.limit.is_none() && self.commits.age() >= self.settings.commit / 4 {
                self.commit()?;
            }
        }
        self.never_came(place, item.lost);
        self.lanes[place].came_in += 1;
        if self.stop.leaves && self.loses() {
            self.stop.missed = self.stop.missed.map(|it| it + 1);
        }
        let bytes = self.intake.bytes();
        let lane = &mut self.lanes[place];
        lane.last = Some((item.count, bytes.len(), bytes[..bytes.len().min(16)].to_vec()));
        match (self.state, &mut self.recorder) {
            (State::Recording, Some(recorder)) if is_recording => {
                lane.longest = lane.longest.max(bytes.len());
                tell_lost(recorder, lane);
                match item.head.offer(recorder, lane.channel.id, item.count, bytes) {
                    Ok(()) => {
                        lane.accepted(item.count, item.head, bytes);
                        self.commits.has_message(bytes.len());
                    }
                    Err(error) => {
                        let id = lane.channel.id;
                        lane.refused += 1;
                        lane.seldom.warn(|| format!("channel {id}: a message of {} bytes is refused: {error}", item.length));
                        self.note_lost(place, Causes { line: 1, ..Causes::default() });
                    }
                }
            }
            _ => self.missed(place, Causes { disk: 1, ..Causes::default() }),
        }
        Ok(())
    }

    /// So many messages of a channel came, or would have come, and are in no file. Where none is recorded, and none is to be,
    /// they only pass.
    fn missed(&mut self, place: usize, causes: Causes) {
        if self.loses() {
            self.note_lost(place, causes);
        } else {
            self.lanes[place].passed += causes.all();
        }
    }

    /// Whether what is in no file is lost: a file is recorded, or is to be.
    fn loses(&self) -> bool {
        matches!(self.state, State::Ready | State::Recording | State::Full) || self.wish.wants
    }

    /// So many messages of a channel were lost before they came to this thread.
    fn never_came(&mut self, place: usize, count: u64) {
        if count > 0 {
            let lane = &mut self.lanes[place];
            lane.came_in += count;
            let causes = lane.pool.take(count);
            self.missed(place, causes);
        }
    }

    /// So many messages of a channel were lost before the next one that is offered. They are counted, logged and shown.
    pub(crate) fn note_lost(&mut self, place: usize, causes: Causes) {
        let (lane, count) = (&mut self.lanes[place], causes.all());
        lane.causes += causes;
        lane.lost += count;
        lane.untold += count;
        // (a file that is recorded says so itself)
        self.wish.begins |= self.state != State::Recording;
        let (id, lost) = (lane.channel.id, lane.lost);
        lane.seldom.warn(|| format!("channel {id}: {count} messages were lost, {lost} since the start"));
    }
}

/// Gives the recorder the number of messages that were lost before the channel's next one, so that its file has it.
pub(crate) fn tell_lost(recorder: &mut Recorder, lane: &mut Lane) {
    if lane.untold > 0 && recorder.lose(lane.channel.id, lane.untold).is_ok() {
        lane.told += lane.untold;
        lane.given += std::mem::take(&mut lane.untold);
    }
}

#[cfg(test)]
mod tests {
    use std::path::PathBuf;
    use std::sync::mpsc::channel;

    use r10::ALL_COUNTS;

    use super::*;
    use crate::control::{Origin, Reply};
    use crate::feed::{Feed, feed};
    use crate::kinds::Head;
    use crate::losses::Cause;

    const HEAD: Head = Head::Message { data_error: false, format: false, sub: 0 };

    /// A recorder's thread without a thread: it does what a test asks of it, and nothing else. Its medium is a file.
    struct Alone {
        owner: Owner,
        feed: Feed,
        folder: PathBuf,
    }

    impl Alone {
        /// One with a message channel whose lane holds so many, while a file is recorded.
        fn recording(name: &str, blocks: usize, capacity: usize) -> Alone {
            Alone::with_media(name, "[\"medium\"]", blocks, capacity)
        }

        /// The same with several media in a row.
        fn with_media(name: &str, media: &str, blocks: usize, capacity: usize) -> Alone {
            let folder = std::env::temp_dir().join(format!("r10d-{name}-{capacity}-{}", std::process::id()));
            let _ = std::fs::remove_dir_all(&folder);
            std::fs::create_dir(&folder).unwrap();
            let text = format!(
                "media = {media}\nblocks = {blocks}\ndirectory = 8\nvolume = \"V\"\nstart = \"wait\"\n[control]\nsocket = \"c\"\n\
                 [[channel]]\nid = 5\nkind = \"message\"\ncapacity = {capacity}\nbytes = 4096\nnumber = 50\n"
            );
            let (counter, came) = (Counter::new(), Arc::new(Came::default()));
            let settings = settings::read(&text, &folder).unwrap();
            let shared = Shared::new(&settings, std::slice::from_ref(&came));
            let (commands, board, moment) = (channel().1, Board::new(counter), Moment::default());
            let ties = Ties { commands, ending: Arc::default(), board, moment, shared };
            let mut owner = Owner::new(settings, counter, vec![came.clone()], ties).unwrap();
            assert!(!owner.begin().unwrap());
            let (feed, outlet) = feed(std::thread::current(), counter, 1 << 26, &[(0, came)]);
            owner.intake.outlets = vec![outlet];
            let mut it = Alone { owner, feed, folder };
            assert_eq!(it.ask(".RECORD"), "");
            it
        }

        /// One that records by itself, and has no file yet. Its lane holds 64.
        fn ready(name: &str, media: &str, blocks: usize) -> Alone {
            let mut it = Alone::with_media(name, media, blocks, 64);
            assert_eq!((it.ask(".STOP"), it.ask(".ERASE")), (String::new(), String::new()));
            it.owner.settings.begin = Begin::Record;
            it.owner.resume();
            it
        }

        /// The counts of the entries of a channel, in the first file.
        fn counts_of(&mut self, channel: u16) -> Vec<u64> {
            let recorder = self.owner.recorder().unwrap();
            let cursor = recorder.cursor(0, &[channel], ALL_COUNTS).unwrap();
            recorder.advance(&cursor).unwrap();
            let mut found = Vec::new();
            while let Some(entry) = recorder.next(&cursor).unwrap() {
                found.push(entry.count);
            }
            recorder.close_cursor(cursor).unwrap();
            found
        }

        /// So many messages come, and are not taken in yet.
        fn comes(&mut self, count: usize) {
            for _ in 0..count {
                self.feed.message(0, 0, HEAD, &[7; 60]);
            }
            self.feed.flush();
        }

        /// Messages come with numbers in them.
        fn comes_numbered(&mut self, first: u32, count: u32) {
            for number in first..first + count {
                self.feed.message(0, 0, HEAD, &[&number.to_le_bytes()[..], &vec![7; number as usize % 90]].concat());
            }
            self.feed.flush();
        }

        /// The numbers of the messages of all files, each with the losses before it. Their bytes and the order of their counts are compared.
        fn numbers(&mut self) -> Vec<(u32, u64)> {
            let recorder = self.owner.recorder().unwrap();
            let (mut found, mut last) = (Vec::new(), 0);
            for file in 0..recorder.files().unwrap().len() {
                let cursor = recorder.cursor(file, &[5], ALL_COUNTS).unwrap();
                recorder.advance(&cursor).unwrap();
                while let Some(entry) = recorder.next(&cursor).unwrap() {
                    let r10::Content::Message { bytes, .. } = &entry.content else { panic!("no message") };
                    let number = u32::from_le_bytes(bytes[..4].try_into().unwrap());
                    assert!(entry.count > last && bytes[4..] == vec![7; number as usize % 90], "message {number}");
                    last = entry.count;
                    found.push((number, if let r10::Gap::Lost(lost) = entry.gap { lost } else { 0 }));
                }
                recorder.close_cursor(cursor).unwrap();
            }
            found
        }

        /// Takes in what came, into the next file where one is full.
        fn takes_in(&mut self) {
            loop {
                match self.owner.take_in() {
                    Ok(false) => return,
                    Ok(true) => (),
                    Err(trouble) => self.owner.mind(Err(trouble)),
                }
            }
        }

        /// The words of the lines of the log channel that are of a kind, in all files.
        fn lines(&mut self, word: &str) -> Vec<String> {
            let id = self.owner.settings.log.id().unwrap();
            let recorder = self.owner.recorder().unwrap();
            let mut found = Vec::new();
            for file in 0..recorder.files().unwrap().len() {
                let cursor = recorder.cursor(file, &[id], ALL_COUNTS).unwrap();
                recorder.advance(&cursor).unwrap();
                while let Some(entry) = recorder.next(&cursor).unwrap() {
                    if let r10::Content::Message { bytes, .. } = entry.content {
                        let text = String::from_utf8(bytes.clone()).unwrap();
                        let words: Vec<&str> = text.splitn(4, ' ').collect();
                        found.extend((words[1] == word).then(|| words[3].to_string()));
                    }
                }
                recorder.close_cursor(cursor).unwrap();
            }
            found
        }

        fn ask(&mut self, line: &str) -> String {
            let (reply, answer) = channel();
            self.owner
                .answer(Command {
                    line: line.to_string(),
                    origin: Origin::Socket,
                    by: "a test".to_string(),
                    count: self.owner.count(),
                    reply,
                })
                .unwrap();
            match answer.recv() {
                Ok(Reply::Text(text)) => text,
                _ => panic!("{line} has no answer"),
            }
        }

        /// How many messages are durable, lost, waiting for room, and passed.
        fn counts(&self) -> (u64, u64, usize, u64) {
            let it = &self.owner.lanes[0];
            (it.durable, it.lost, it.waiting, it.passed)
        }

        /// Of each file, which has to be closed, how many entries it has of a channel.
        fn entries(&mut self, channel: u16) -> Vec<usize> {
            let recorder = self.owner.recorder().unwrap();
            let files = recorder.files().unwrap();
            assert!(files.iter().all(|it| it.closed), "{files:?}");
            let mut found = Vec::new();
            for file in 0..files.len() {
                let cursor = recorder.cursor(file, &[channel], ALL_COUNTS).unwrap();
                found.push(recorder.advance(&cursor).unwrap());
                recorder.close_cursor(cursor).unwrap();
            }
            found
        }
    }

    impl Drop for Alone {
        fn drop(&mut self) {
            let _ = std::fs::remove_dir_all(&self.folder);
        }
    }

    /// What came before a stop has no room in the file, whether it is found while it is taken in (a lane is full) or after that: it
    /// comes into other files, and nothing is recorded any more.
    #[test]
    fn a_stop_takes_in_what_fills_the_file() {
        for capacity in [5_000, 16_384] {
            let mut it = Alone::recording("stop", 1500, capacity);
            it.comes(6_000);
            assert_eq!((it.ask(".STOP"), it.owner.state, it.owner.medium.goes_on()), (String::new(), State::Idle, false));
            assert_eq!(it.counts(), (6_000, 0, 0, 0));
            let found = it.entries(5);
            assert!(found.len() > 1 && found.iter().sum::<usize>() == 6_000, "{found:?}");
            assert_eq!(it.ask(".STATUS").split(' ').nth(1), Some("01"));
        }
    }

    /// What came before a stop is recorded, though the order comes to the thread later; what came after it has passed. The file says so
    /// at its end.
    #[test]
    fn a_stop_takes_what_came_up_to_its_moment() {
        let mut it = Alone::recording("moment", 1500, 64);
        it.comes(600);
        let moment = it.owner.count();
        while it.owner.count() == moment {}
        it.comes(700);
        assert_eq!(it.owner.finish(Ended::ByCommand, moment).unwrap(), 0);
        // (what is still in the queue passes too)
        it.takes_in();
        assert_eq!((it.counts(), it.entries(5), it.owner.lanes[0].came_in), ((600, 0, 0, 700), vec![600], 1300));
        let total = it.lines("total").pop().unwrap();
        // (a batch is taken whole)
        assert!(
            total.ends_with("channel=5 kind=message came=1112 recorded=600 lost=0 after=0 waiting=0 carried=0 passed=512"),
            "{total}"
        );
    }

    /// Where the time of a stop is over, what is still in the queues is lost, counted, and in the file's last lines; what came after the
    /// stop is not among it.
    #[test]
    fn what_a_stop_leaves_is_lost_and_told() {
        let mut it = Alone::recording("leaves", 3000, 64);
        it.owner.settings.stop_for = Duration::ZERO;
        it.comes(3_000);
        let moment = it.owner.count();
        while it.owner.count() == moment {}
        it.comes(100);
        let left = it.owner.finish(Ended::ByCommand, moment).unwrap();
        it.takes_in();
        let (durable, lost, waiting, passed) = it.counts();
        assert!(durable > 0 && left > 0, "{durable} {left}");
        assert_eq!((lost, durable + lost, waiting, passed), (left, 3_000, 0, 100));
        assert_eq!(it.entries(5).iter().sum::<usize>() as u64, durable);
        let wanted =
            format!("channel=5 kind=message came=3100 recorded={durable} lost={lost} after={lost} waiting=0 carried=0 passed=100");
        let total = it.lines("total").pop().unwrap();
        assert!(total.ends_with(&wanted), "{total}, wanted {wanted}");
        assert_eq!(it.lines("lost"), [format!("channel=5 all={lost} system=0 queue=0 line=0 disk={lost}")]);
        assert_eq!(it.owner.lanes[0].causes, Causes { disk: lost, ..Causes::default() });
    }

    /// Losses that no message follows are in the file's last lines, and the next file tells that it was said.
    #[test]
    fn losses_after_the_last_message_are_told() {
        let mut it = Alone::recording("after", 3000, 64);
        it.comes(10);
        it.takes_in();
        it.feed.lost(0, Cause::System, 7);
        it.feed.lost(0, Cause::Line, 2);
        it.feed.flush();
        assert_eq!((it.ask(".STOP"), it.counts()), (String::new(), (10, 9, 0, 0)));
        assert!(
            it.lines("total")[0]
                .ends_with("channel=5 kind=message came=19 recorded=10 lost=9 after=9 waiting=0 carried=0 passed=0")
        );
        assert_eq!(it.lines("lost"), ["channel=5 all=9 system=7 queue=0 line=2 disk=0"]);
        assert_eq!(it.ask(".RECORD"), "");
        it.comes(1);
        assert_eq!((it.ask(".STOP"), it.lines("before")), (String::new(), vec!["channel=5 waiting=0 lost=9 told=9".to_string()]));
        assert!(
            it.lines("total")[1].ends_with("channel=5 kind=message came=1 recorded=1 lost=0 after=0 waiting=0 carried=0 passed=0")
        );
    }

    /// The recorder was given the number of the lost, and the message that was to carry it is refused: they are all after the last one.
    #[test]
    fn losses_before_a_message_that_is_refused_are_told() {
        let mut it = Alone::recording("refused", 3000, 64);
        it.comes(2);
        it.feed.lost(0, Cause::System, 4);
        it.feed.message(0, 0, HEAD, &[7; 5000]);
        it.feed.flush();
        assert_eq!((it.ask(".STOP"), it.counts(), it.entries(5)), (String::new(), (2, 5, 0, 0), vec![2]));
        let total = it.lines("total").pop().unwrap();
        assert!(total.ends_with("came=7 recorded=2 lost=5 after=5 waiting=0 carried=0 passed=0"), "{total}");
        assert_eq!(it.lines("lost"), ["channel=5 all=5 system=4 queue=0 line=1 disk=0"]);
    }

    /// What was not committed when the disk failed is looked for: what is there counts as recorded in the totals of that file, and the
    /// rest waits for the next one. No message is in both, and none is lost.
    #[test]
    fn what_is_found_after_a_failure_is_in_the_totals() {
        let mut it = Alone::recording("found", 3000, 64);
        it.comes(10);
        it.takes_in();
        it.owner.pump(0).unwrap();
        it.owner.recorder().unwrap().commit().unwrap();
        it.owner.settle().unwrap();
        it.comes(5);
        it.takes_in();
        it.owner.fail("it was made to");
        it.owner.retry();
        it.comes(3);
        assert_eq!((it.ask(".STOP"), it.counts(), it.entries(5)), (String::new(), (18, 0, 0, 0), vec![10, 8]));
        let (totals, before) = (it.lines("total"), it.lines("before"));
        assert!(totals[0].starts_with("file=1 ") && totals[1].starts_with("file=2 "), "{totals:?}");
        assert!(totals[0].ends_with("came=15 recorded=10 lost=0 after=0 waiting=5 carried=0 passed=0"), "{totals:?}");
        assert!(totals[1].ends_with("came=3 recorded=8 lost=0 after=0 waiting=0 carried=0 passed=0"), "{totals:?}");
        assert_eq!(before, ["channel=5 waiting=5 lost=0 told=0"]);
        let states: Vec<_> = it.lines("disk").iter().map(|it| it.split(' ').next().unwrap().to_string()).collect();
        assert_eq!(states, ["state=failed", "state=well"]);
    }

    /// What was not committed is offered again after a failure, though it is more than a lane has room for, and once more where the disk
    /// fails in that too: each message is there once, in its order, with its bytes and the losses before it.
    #[test]
    fn what_was_not_committed_is_recorded_again() {
        let mut it = Alone::with_media("again", "[\"medium\"]", 6000, 64);
        it.owner.settings.commit = Duration::from_hours(1);
        it.comes_numbered(0, 40);
        it.takes_in();
        it.owner.commit().unwrap();
        it.feed.lost(0, Cause::System, 3);
        it.comes_numbered(40, 500);
        it.feed.lost(0, Cause::Line, 4);
        it.feed.flush();
        it.takes_in();
        it.owner.fail("it was made to");
        it.owner.retry();
        // (some of it is with the new recorder, and some not yet)
        it.owner.give_again(0).unwrap();
        assert_eq!((it.owner.lanes[0].waiting, it.owner.lanes[0].again), (500, 436));
        it.owner.fail("it was made to");
        it.owner.retry();
        it.comes_numbered(540, 60);
        assert_eq!((it.ask(".STOP"), it.counts()), (String::new(), (600, 7, 0, 0)));
        assert_eq!(it.entries(5), [40, 0, 560]);
        let found = it.numbers();
        let wanted = (0..600).map(|it| {
            (
                it,
                match it {
                    40 => 3,
                    540 => 4,
                    _ => 0,
                },
            )
        });
        assert_eq!(found, wanted.collect::<Vec<_>>());
        assert!(it.owner.lanes[0].kept.is_empty() && it.owner.lanes[0].pending.is_empty());
    }

    /// What is kept of messages has a bound: then it is made durable.
    #[test]
    fn what_is_kept_has_a_bound() {
        let mut it = Alone::with_media("bound", "[\"medium\"]", 6000, 5000);
        it.owner.settings.commit = Duration::from_hours(1);
        it.owner.settings.kept = 6000;
        for _ in 0..10 {
            it.comes(100);
            it.takes_in();
            assert!(it.owner.lanes[0].kept.len() <= 6060, "{}", it.owner.lanes[0].kept.len());
        }
        assert_eq!((it.ask(".STOP"), it.counts(), it.entries(5)), (String::new(), (1000, 0, 0, 0), vec![1000]));
    }

    /// A medium that fails for good: what it had not acknowledged goes to the next one, after the losses before it, and is not lost.
    #[test]
    fn what_a_failed_medium_did_not_acknowledge_goes_to_the_next() {
        let mut it = Alone::with_media("fails", "[\"one\", \"two\"]", 3000, 64);
        it.owner.settings.commit = Duration::from_hours(1);
        it.comes_numbered(0, 10);
        it.takes_in();
        it.owner.commit().unwrap();
        it.feed.lost(0, Cause::System, 2);
        it.comes_numbered(10, 100);
        it.takes_in();
        assert!(it.owner.leave_failed("it was made to"));
        assert_eq!((it.owner.state, it.owner.medium.place, it.owner.row.left()), (State::Recording, 1, 0));
        it.comes_numbered(110, 3);
        assert_eq!((it.ask(".STOP"), it.counts(), it.entries(5)), (String::new(), (113, 2, 0, 0), vec![103]));
        let wanted: Vec<_> = (10..113).map(|it| (it, if it == 10 { 2 } else { 0 })).collect();
        assert_eq!(it.numbers(), wanted);
        let line = it.lines("medium").pop().unwrap();
        assert!(line.starts_with("state=failed volume=V-001 path=") && line.ends_with("why=\"it was made to\""), "{line}");
    }

    /// Fills the medium in use, until the recording goes on on another one, or ends. The name of a file that the one before has.
    fn fills(it: &mut Alone) -> String {
        let before = it.owner.medium.place;
        let mut name = String::new();
        it.owner.row.wait_for_look();
        while it.owner.medium.place == before && (it.owner.state != State::Full || it.owner.row.is_looking()) {
            name = it.owner.file.as_ref().map_or(name, |it| it.name.clone());
            it.comes(200);
            it.takes_in();
            if it.owner.state == State::Recording {
                let done = it.owner.commit();
                it.owner.mind(done);
            }
            let done = it.owner.turn();
            it.owner.mind(done);
        }
        if it.owner.state == State::Recording {
            let done = it.owner.commit();
            it.owner.mind(done);
        }
        name
    }

    /// Where the settings say so the oldest closed medium is overwritten, and none that is marked, open or damaged. What it held is in
    /// the log channel.
    #[test]
    fn the_oldest_medium_is_overwritten() {
        let media = "[\"one\", \"two\", \"three\", \"four\"]\noverwrite = true";
        let mut it = Alone::with_media("ring", media, 700, 5_000);
        let path = |it: &Alone, place: usize| Medium::at(&it.owner.settings, place);
        let first = fills(&mut it);
        fills(&mut it);
        fills(&mut it);
        assert_eq!((it.owner.medium.place, it.lines("medium").len()), (3, 1));
        // the first one is the oldest; the second one is marked, and the third one damaged, before the next seams
        std::fs::write(path(&it, 1).path().with_file_name("two.keep"), "").unwrap();
        let two = std::fs::read(path(&it, 1).path()).unwrap();
        fills(&mut it);
        let lines = it.lines("medium");
        assert_eq!((it.owner.state == State::Full, it.owner.medium.place), (false, 0), "{lines:?}");
        let line = lines.iter().find(|it| it.starts_with("state=overwritten volume=V-001 ")).unwrap();
        assert!(line.contains(" files=") && line.contains(&first), "{line}, {first}");
        it.owner.row.wait_for_next();
        it.owner.row.let_go();
        let three = path(&it, 2).path().to_path_buf();
        let file = std::fs::OpenOptions::new().write(true).open(&three).unwrap();
        std::os::unix::fs::FileExt::write_all_at(&file, &[0, 9], 512 + 10).unwrap();
        let bytes = std::fs::read(&three).unwrap();
        fills(&mut it);
        assert_eq!((it.owner.state == State::Full, it.owner.medium.place), (false, 3));
        assert!(std::fs::read(&three).unwrap() == bytes, "the damaged one was written to");
        assert!(std::fs::read(path(&it, 1).path()).unwrap() == two, "the marked one was written to");
        // now the first one is marked too, by a word, and is the next one that is open ahead: the recording ends
        assert_eq!(it.ask(".KEEP 1"), "");
        assert!(it.ask(".MEDIA").contains("MEDIUM 1 V-001 kept ") && it.ask(".KEEP").contains("MEDIUM 4 V-004 in_use "));
        fills(&mut it);
        assert_eq!((it.owner.state, it.owner.medium.place), (State::Full, 3));
        let lost = it.counts().1;
        it.comes(5);
        it.takes_in();
        assert_eq!(it.counts().1, lost + 5);
        assert!(it.ask(".RECORD").starts_with("E 04"));
        // and goes on once a mark is off
        assert_eq!((it.ask(".KEEP V-001 off"), it.ask(".RECORD")), (String::new(), String::new()));
        assert_eq!((it.owner.state, it.owner.medium.place), (State::Recording, 0));
        assert_eq!(it.ask(".STOP"), "");
        let notes = it.lines("warning");
        assert!(notes.iter().any(|it| it.contains("(V-001) is marked to be kept; it is not overwritten")), "{notes:?}");
        assert!(notes.iter().any(|it| it.contains("no medium may be overwritten")), "{notes:?}");
        assert!(it.ask(".KEEP 9").starts_with("E 01") && it.ask(".KEEP 1 never").starts_with("E 01"));
    }

    /// A medium whose files cannot be taken off is passed over; one without a file that is put in meanwhile is taken before the oldest.
    #[test]
    fn a_medium_that_cannot_be_overwritten_is_passed_over() {
        let media = "[\"one\", \"two\", \"three\", \"four\"]\noverwrite = true";
        let mut it = Alone::with_media("passed", media, 700, 5_000);
        for _ in 0..3 {
            fills(&mut it);
        }
        it.owner.row.wait_for_next();
        it.owner.row.fail_next();
        let one = Medium::at(&it.owner.settings, 0).path().to_path_buf();
        let bytes = std::fs::read(&one).unwrap();
        fills(&mut it);
        assert_eq!((it.owner.state == State::Full, it.owner.medium.place), (false, 1), "{:?}", it.lines("warning"));
        assert_eq!(it.owner.failures.count(), 0);
        assert!(std::fs::read(&one).unwrap() == bytes, "the first one was written to");
        it.owner.row.wait_for_next();
        let three = Medium::at(&it.owner.settings, 2).path().to_path_buf();
        std::fs::rename(&three, three.with_file_name("away")).unwrap();
        fills(&mut it);
        assert_eq!((it.owner.state == State::Full, it.owner.medium.place), (false, 2));
        assert!(std::fs::read(&one).unwrap() == bytes, "the first one was written to");
    }

    /// Starts and stops without a message take no place in the directory, which has 32 here; nor do failures of the disk.
    #[test]
    fn what_is_silent_takes_no_file() {
        let mut it = Alone::ready("silent", "[\"medium\"]", 3000);
        it.owner.settings.tries = 1000;
        let files = |it: &mut Alone| it.owner.recorder().unwrap().files().unwrap().len();
        for _ in 0..300 {
            assert_eq!((it.owner.state, it.owner.wish.wants, it.owner.medium.goes_on()), (State::Ready, true, true));
            assert!(it.ask(".STATUS").starts_with("S 05 ") && it.ask(".ERASE").starts_with("E 02"));
            assert_eq!((it.ask(".STOP"), it.owner.state, it.owner.medium.goes_on()), (String::new(), State::Idle, false));
            it.owner.resume();
        }
        for _ in 0..300 {
            it.owner.fail("it was made to");
            it.owner.retry();
            assert_eq!(it.owner.state, State::Ready);
        }
        assert_eq!(files(&mut it), 0);
        // one that was cut off by a failure is told of, once: at the stop
        it.comes(2);
        it.takes_in();
        it.owner.commit().unwrap();
        for _ in 0..300 {
            it.owner.fail("it was made to");
            it.owner.retry();
        }
        assert_eq!((it.owner.state, files(&mut it), it.lines("total").len()), (State::Ready, 1, 0));
        assert_eq!((it.ask(".STOP"), files(&mut it)), (String::new(), 2));
        assert!(it.lines("total")[0].ends_with("came=2 recorded=2 lost=0 after=0 waiting=0 carried=0 passed=0"));
        assert_eq!((it.counts(), it.entries(5)), ((2, 0, 0, 0), vec![2, 0]));
    }

    /// A message, an event, a note and a loss begin a file each, and so does `.RECORD`, with its name; a clock and a command do not.
    #[test]
    fn what_comes_first_begins_the_file() {
        type First = fn(&mut Alone) -> String;
        let message: First = |it| {
            it.comes(1);
            it.takes_in();
            String::new()
        };
        let loss: First = |it| {
            it.feed.lost(0, Cause::System, 7);
            it.feed.flush();
            it.takes_in();
            String::new()
        };
        let all: [(&str, First, &str); 5] = [
            ("message", message, "came=1 recorded=1 lost=0"),
            ("loss", loss, "came=0 recorded=0 lost=0 after=7"),
            ("event", |it| it.ask(".EVENT 7"), "came=0 recorded=0 lost=0"),
            ("note", |it| it.ask(".NOTE all well"), "came=0 recorded=0 lost=0"),
            ("record", |it| it.ask(".RECORD FLT9"), "came=0 recorded=0 lost=0"),
        ];
        for (name, first, wanted) in all {
            let mut it = Alone::ready(name, "[\"medium\"]", 3000);
            assert!(it.ask(".EVENT 4096").starts_with("E 01") && it.ask(".NOTE").starts_with("E 01"));
            assert!(it.ask(".RECORD A/B").starts_with("E 01") && it.ask(".DISMOUNT").starts_with("E 02"));
            it.owner.log(Line::new("info").with("text", "a line"));
            it.owner.tick().unwrap();
            it.owner.turn().unwrap();
            assert_eq!((it.owner.state, it.owner.wish.wants, it.owner.medium.goes_on()), (State::Ready, true, true), "{name}");
            assert_eq!((first(&mut it), it.owner.recorder().unwrap().files().unwrap().len() < 2), (String::new(), true), "{name}");
            it.owner.turn().unwrap();
            assert_eq!(it.owner.state, State::Recording, "{name}");
            let file = it.owner.recorder().unwrap().files().unwrap().pop().unwrap();
            assert_eq!((file.name == "FLT9", it.ask(".STOP")), (name == "record", String::new()));
            let total = it.lines("total").pop().unwrap();
            assert!(total.contains(wanted), "{name}: {total}, wanted {wanted}");
            assert_eq!((it.lines("note").len(), it.entries(2)[0]), (usize::from(name == "note"), usize::from(name == "event")));
            // what waited for the file has the count at which it begins, and a message its own, after that of its first time
            let (times, first_of) = (it.counts_of(1), it.counts_of(5));
            assert!(first_of.iter().all(|it| *it >= times[0]), "{name}: {times:?} {first_of:?}");
        }
    }

    /// After a medium that failed the next one has no file before something comes.
    #[test]
    fn a_next_medium_has_no_file_before_a_message() {
        let mut it = Alone::ready("row", "[\"one\", \"two\", \"three\"]", 3000);
        it.comes(1);
        it.takes_in();
        // (the first medium fails for good)
        it.owner.commit().unwrap();
        assert!(it.owner.leave_failed("it was made to"));
        assert_eq!((it.owner.state, it.owner.medium.place), (State::Ready, 1));
        assert_eq!((it.owner.recorder().unwrap().files().unwrap().len(), it.owner.medium.goes_on()), (0, true));
        it.comes(3);
        it.takes_in();
        assert_eq!((it.owner.state, it.ask(".STOP"), it.entries(5)), (State::Recording, String::new(), vec![3]));
        assert_eq!((it.counts(), it.owner.medium.place), ((4, 0, 0, 0), 1));
    }

    /// A medium that has no room for a file is full at once, and not when a message comes.
    #[test]
    fn a_full_medium_is_found_without_a_message() {
        let mut it = Alone::ready("no-room", "[\"medium\"]", 3000);
        for _ in 0..32 {
            assert_eq!((it.ask(".RECORD"), it.ask(".STOP")), (String::new(), String::new()));
        }
        it.owner.resume();
        assert_eq!((it.owner.state, it.owner.medium.goes_on()), (State::Full, true));
    }

    /// Lines of the log are nothing for which a file is begun or ended.
    #[test]
    fn lines_are_no_messages() {
        let mut it = Alone::recording("lines", 3000, 64);
        let place = it.owner.notes.as_ref().unwrap().place;
        it.owner.lanes[place].waiting = 3;
        it.owner.lanes[place].durable_in_file = 3;
        assert_eq!((it.owner.waiting(), it.owner.has_taken()), (0, false));
        it.owner.lanes[0].waiting = 2;
        it.owner.lanes[0].durable_in_file = 1;
        assert_eq!((it.owner.waiting(), it.owner.has_taken()), (2, true));
        it.owner.lanes[0].waiting = 0;
        it.owner.lanes[place].waiting = 0;
    }

    /// A file that is full has the totals of its channels all the same.
    #[test]
    fn a_full_file_has_its_totals() {
        let mut it = Alone::recording("totals", 1500, 5_000);
        it.comes(30_000);
        assert_eq!(it.ask(".STOP"), "");
        let found = it.entries(5);
        assert!(found.len() > 3, "{found:?}");
        let id = it.owner.settings.log.id().unwrap();
        let recorder = it.owner.recorder().unwrap();
        // (the last one of a full medium may have room for nothing)
        for (file, entries) in found[..found.len() - 1].iter().copied().enumerate() {
            let cursor = recorder.cursor(file, &[id], ALL_COUNTS).unwrap();
            recorder.advance(&cursor).unwrap();
            let mut last = String::new();
            while let Some(entry) = recorder.next(&cursor).unwrap() {
                if let r10::Content::Message { bytes, .. } = entry.content {
                    last = String::from_utf8(bytes.clone()).unwrap();
                }
            }
            recorder.close_cursor(cursor).unwrap();
            assert!(last.contains(" total at=") && last.contains(&format!(" file={} ", file + 1)), "{file}: {last}");
            // (its end may have room for some messages more, of which the next file tells)
            let number = |key: &str| last.split(key).nth(1).unwrap().split(' ').next().unwrap().parse::<usize>().unwrap();
            assert!((entries.saturating_sub(50)..=entries).contains(&number(" recorded=")), "{entries}: {last}");
        }
    }

    /// A note of the crew, and who gave a command, are in the recording. A line alone begins no file.
    #[test]
    fn notes_wait_for_a_file() {
        let mut it = Alone::recording("notes", 3000, 64);
        assert_eq!((it.ask(".STOP"), it.ask(".NOTE the gate is open")), (String::new(), String::new()));
        it.owner.write_lines().unwrap();
        assert_eq!((it.owner.recorder().unwrap().files().unwrap().len(), it.lines("note").len()), (1, 0));
        assert!(it.ask(".NOTE").starts_with("E 01") && it.ask(&format!(".NOTE {}", "x".repeat(201))).starts_with("E 01"));
        assert_eq!((it.ask(".RECORD"), it.ask(".STOP")), (String::new(), String::new()));
        assert_eq!(it.lines("note"), [r#"by="a test" text="the gate is open""#]);
        assert_eq!(it.lines("command").iter().filter(|it| it.ends_with("line=.STOP")).count(), 2);
        assert!(it.ask(".STOP").starts_with("E 02"));
        assert_eq!((it.ask(".RECORD"), it.ask(".STOP")), (String::new(), String::new()));
        assert!(it.lines("refused")[0].starts_with(r#"line=.STOP answer="E 02 INVALID MODE: no file"#));
    }

    /// A stop on a full medium ends the recording too, and says so. What has no room is counted, and later commands do their work.
    #[test]
    fn a_stop_ends_a_recording_on_a_full_medium() {
        let mut it = Alone::recording("full", 1500, 5_000);
        it.comes(30_000);
        assert_eq!((it.ask(".STOP"), it.owner.state, it.owner.medium.goes_on()), (String::new(), State::Idle, false));
        let (durable, lost, waiting, passed) = it.counts();
        assert!(durable > 5_000 && lost > 0 && waiting > 0 && passed == 0, "{durable} {lost} {waiting} {passed}");
        assert_eq!(durable + lost + waiting as u64, 30_000);
        assert_eq!(it.entries(5).iter().sum::<usize>() as u64, durable);
        // what comes now only passes
        it.comes(3);
        it.takes_in();
        assert_eq!(it.counts(), (durable, lost, waiting, 3));
        assert!(it.ask(".STOP").starts_with("E 02") && it.ask(".EVENT 1").starts_with("E 02"));
        // after an erase what waited comes first
        assert_eq!((it.ask(".ERASE"), it.ask(".RECORD"), it.ask(".STOP")), (String::new(), String::new(), String::new()));
        assert_eq!(it.counts(), (durable + waiting as u64, lost, 0, 3));
        assert_eq!(it.entries(5).iter().sum::<usize>(), waiting);
    }

    /// A medium that was found to be full says so to whoever gives an event; a stop ends the recording there too.
    #[test]
    fn a_full_medium_takes_no_event_and_is_stopped() {
        let mut it = Alone::recording("no-event", 1500, 5_000);
        it.comes(30_000);
        it.takes_in();
        assert_eq!((it.owner.state, it.owner.medium.goes_on()), (State::Full, true));
        assert!(it.ask(".EVENT 1").starts_with("E 04 MEMORY FULL: there is no room for another file, and the event is in none"));
        // (a clock that is not in sync is a warning)
        let warnings = 1 + u32::from(it.owner.clock.known.is_synchronised() != Some(true));
        assert!(it.ask(".STATUS").starts_with(&format!("S 01 {warnings} 1 ")));
        assert_eq!((it.ask(".STOP"), it.owner.state, it.owner.medium.goes_on()), (String::new(), State::Idle, false));
        assert!(it.ask(".STATUS").starts_with(&format!("S 01 {warnings} 0 ")));
        assert_eq!((it.ask(".ERASE"), it.ask(".RECORD"), it.ask(".EVENT 1")), (String::new(), String::new(), String::new()));
    }

    /// At the end of a medium what waits goes on to the next one, each message after the losses before it; and so do losses that no
    /// message follows yet. Nothing of it is counted twice.
    #[test]
    fn a_seam_hands_on_what_waits_and_what_was_lost() {
        let mut it = Alone::with_media("seam", "[\"one\", \"two\"]", 1500, 5_000);
        let (mut came, mut lost) = (0, 0);
        while it.owner.medium.place == 0 {
            it.comes(40);
            // (one that is refused: the recorder was given the losses before it, and has no message for them)
            it.feed.lost(0, Cause::Line, 3);
            it.feed.message(0, 0, HEAD, &[7; 5000]);
            (came, lost) = (came + 40, lost + 4);
            it.feed.flush();
            it.takes_in();
            if came % 400 == 0 {
                let done = it.owner.commit();
                it.owner.mind(done);
            }
        }
        assert_eq!((it.owner.state, it.owner.medium.volume.as_str(), it.owner.row.left()), (State::Recording, "V-002", 0));
        // those that were lost last stand before the next one that comes
        it.comes(1);
        assert_eq!((it.ask(".STOP"), it.counts()), (String::new(), (came + 1, lost, 0, 0)));
        let mut found = Vec::new();
        let (two, one) = (it.owner.recorder.take(), Medium::at(&it.owner.settings, 0).mount());
        for mut recorder in one.into_iter().chain(two) {
            for file in 0..recorder.files().unwrap().len() {
                let cursor = recorder.cursor(file, &[5], ALL_COUNTS).unwrap();
                recorder.advance(&cursor).unwrap();
                while let Some(entry) = recorder.next(&cursor).unwrap() {
                    found.push((entry.count, entry.gap));
                }
                recorder.close_cursor(cursor).unwrap();
            }
        }
        assert!(found.windows(2).all(|it| it[0].0 < it[1].0), "{} messages are not in order", found.len());
        let of_gaps = found.iter().map(|it| if let r10::Gap::Lost(lost) = it.1 { lost } else { 0 });
        assert_eq!((found.len() as u64, of_gaps.clone().sum::<u64>(), of_gaps.max()), (came + 1, lost, Some(4)));
    }

    /// A medium takes about as many messages as a line says at the start: so many are in a packet as come for a commit.
    #[test]
    fn a_medium_takes_what_is_said() {
        for (blocks, number, length) in [(3000, 50, 60), (1000, 4, 60), (3000, 50, 300)] {
            let mut it = Alone::recording("room", blocks, 5_000 + length);
            it.owner.settings.commit = Duration::from_hours(1);
            let takes = room::takes(Kind::Message, length as u64);
            while matches!(it.owner.state, State::Ready | State::Recording) {
                for _ in 0..number {
                    it.feed.message(0, 0, HEAD, &vec![7; length]);
                }
                it.feed.flush();
                it.takes_in();
                let done = it.owner.commit();
                it.owner.mind(done);
            }
            let (durable, said) = (it.owner.lanes[0].durable, room::room(blocks, 8, &takes));
            assert!(said.contains(&durable), "{durable} messages of {length}, and {said:?}");
            let each = takes.start() + (takes.end() - takes.start()) / number;
            let wanted = *room::room(blocks, 8, &(each..=each)).end();
            assert!((wanted * 9 / 10..=wanted * 11 / 10).contains(&durable), "{durable} messages of {length}, and {wanted}");
        }
    }

    /// An event that has no room in the file comes into the next one, until the medium is full.
    #[test]
    fn events_go_on_in_the_next_file() {
        let mut it = Alone::recording("events", 200, 64);
        let (mut count, mut refused) = (0, String::new());
        while refused.is_empty() {
            refused = it.ask(".EVENT 7");
            count += usize::from(refused.is_empty());
        }
        assert!(refused.starts_with("E 04 MEMORY FULL: the medium is full"), "{refused}");
        assert_eq!(it.ask(".STOP"), "");
        let found = it.entries(2);
        assert!(found.len() > 2 && found.iter().sum::<usize>() == count, "{count} events, in the files {found:?}");
    }

    /// A recorder to which nothing comes would fill its directory with empty files.
    #[test]
    fn a_file_without_a_message_is_not_ended_for_its_age() {
        let minutes = |it: u64| Duration::from_secs(60 * it);
        for (age, has_messages, wanted) in [(59, true, false), (60, true, true), (60, false, false), (1440, false, true)] {
            assert_eq!(is_old(minutes(age), minutes(60), has_messages), wanted, "{age} minutes");
        }
    }
}
