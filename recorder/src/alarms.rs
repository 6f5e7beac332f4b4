//! Alarms: what a crew has to hear of at once. A thread of its own looks four times a second, so that a disk that stalls holds up no
//! alarm. Each is on the page, in `.HEALTH`, in the log and the metrics, and is given to a command where the settings have one.
use std::collections::BTreeMap;
use std::io;
use std::os::unix::process::CommandExt;
use std::process::{Child, Command, Stdio};
use std::sync::Arc;
use std::sync::atomic::Ordering::Relaxed;
use std::sync::mpsc::{Receiver, SyncSender, sync_channel};
use std::thread;
use std::time::{Duration, Instant};

use nix::sys::signal::{Signal, killpg};
use nix::unistd::Pid;
use serde_json::{Value, json};

use crate::clock;
use crate::notes::{Board, Line};
use crate::owner::State;
use crate::standing::{APART, EACH, Names, Shared, Standing};
use crate::{info, warning};

/// How long an alarm of the disk stays on after it goes well again: one that nobody could see is none.
const SEEN: Duration = Duration::from_secs(5);
/// Over so long the rate is taken at which the medium fills up, and so long it is looked at before anything is said.
const WINDOW: Duration = Duration::from_mins(1);
const FIRST: Duration = Duration::from_secs(5);
/// So much of the room is used, in percent: each is a warning once.
const MARKS: [u64; 2] = [80, 95];
/// How long a command for alarms may run, and how many changes may wait for it.
pub const RUNS: Duration = Duration::from_secs(10);
const WAITING: usize = 64;

/// What an alarm is of.
#[derive(Clone, Copy, Debug, PartialEq, Eq, PartialOrd, Ord)]
pub enum Kind {
    /// a channel that was heard, and is silent
    Silent,
    /// messages of a channel were lost
    Loss,
    /// the disk failed, and is tried again, or recording is down
    Disk,
    /// the medium is full, or soon will be
    Full,
    /// the clock was in sync, and is not any more
    Clock,
    /// nothing became durable for too long
    Commit,
}

impl Kind {
    pub const ALL: [Kind; 6] = [Kind::Silent, Kind::Loss, Kind::Disk, Kind::Full, Kind::Clock, Kind::Commit];

    pub fn name(self) -> &'static str {
        match self {
            Kind::Silent => "silent",
            Kind::Loss => "loss",
            Kind::Disk => "disk",
            Kind::Full => "full",
            Kind::Clock => "clock",
            Kind::Commit => "commit",
        }
    }

    /// Its bit in `.HEALTH`, of the recorder or of a channel.
    pub fn bit(self) -> u32 {
        match self {
            Kind::Silent => 0x100,
            Kind::Loss => 0x200,
            Kind::Disk => 0x400,
            Kind::Full => 0x800,
            Kind::Clock => 0x1000,
            Kind::Commit => 0x2000,
        }
    }

    /// Whether it is of a channel, and not of the recorder as a whole.
    pub fn is_of_channel(self) -> bool {
        matches!(self, Kind::Silent | Kind::Loss)
    }
}

/// An alarm that is on.
#[derive(Clone, Debug, PartialEq, Eq)]
pub struct Alarm {
    pub kind: Kind,
    /// the channel's place in the settings
    pub place: Option<usize>,
    pub text: String,
    /// since when, in nanoseconds since 1970 by the system's clock
    pub since: i128,
}

impl Alarm {
    /// As a value, for a page.
    pub fn value(&self, names: &Names) -> Value {
        let id = self.place.and_then(|it| names.channels.get(it)).map(|it| it.0);
        json!({ "alarm": self.kind.name(), "channel": id, "text": self.text, "since_ms": (self.since / 1_000_000) as i64 })
    }
}

/// An alarm that began, or ended.
#[derive(Clone, Debug, PartialEq, Eq)]
pub struct Change {
    pub alarm: Alarm,
    pub is_on: bool,
    /// the channel's ID, where it is of one
    pub id: Option<u16>,
}

impl Change {
    /// A line for the log channel.
    fn note(&self) -> Line {
        let line = Line::new("alarm").with("is", if self.is_on { "on" } else { "off" }).with("kind", self.alarm.kind.name());
        let line = self.id.map_or(line.clone(), |it| line.with("channel", it));
        line.with("text", &self.alarm.text)
    }

    /// A line for the log.
    pub fn line(&self) -> String {
        let (name, text) = (self.alarm.kind.name(), &self.alarm.text);
        if self.is_on { format!("alarm {name}: {text}") } else { format!("alarm {name} is over: {text}") }
    }
}

/// What a channel did last.
#[derive(Clone, Debug, Default)]
struct Heard {
    messages: u64,
    at: Option<Instant>,
    lost: (u64, u64),
    lost_at: Option<Instant>,
}

/// Judges which alarms are on.
#[derive(Default)]
pub struct Judge {
    heard: Vec<Heard>,
    failures: (u32, Option<Instant>),
    /// bytes that are free, once a second
    room: Vec<(Instant, u64)>,
    /// in how many seconds all is full at this rate, where that is known
    left: Option<f64>,
    /// how many of [`MARKS`] were said
    marks: usize,
    was_synchronised: bool,
    on: BTreeMap<(Kind, Option<usize>), Alarm>,
}

/// What is judged: how the recorder stands, and by channel how many messages came, and how many the input lost.
pub struct Seen<'a> {
    pub now: Instant,
    pub standing: &'a Standing,
    pub came: Vec<(u64, u64)>,
}

/// A time for people.
fn seconds(it: Duration) -> String {
    format!("{} s", it.as_secs())
}

impl Judge {
    /// The alarms that are on.
    pub fn on(&self) -> Vec<Alarm> {
        self.on.values().cloned().collect()
    }

    /// Looks, and says what changed.
    pub fn look(&mut self, names: &Names, seen: &Seen) -> Vec<Change> {
        let mut wanted: BTreeMap<(Kind, Option<usize>), String> = BTreeMap::new();
        self.look_at_channels(names, seen, &mut wanted);
        let (it, now) = (seen.standing, seen.now);
        if it.failures > self.failures.0 {
            self.failures = (it.failures, Some(now));
        }
        let is_down = matches!(it.state, State::Failed(_));
        if is_down || self.failures.1.is_some_and(|at| now.saturating_duration_since(at) < SEEN) {
            let what = match it.state {
                State::Failed(Some(_)) => "the disk is tried again",
                State::Failed(None) => "recording is down",
                _ => "the disk failed, and goes on",
            };
            wanted.insert((Kind::Disk, None), format!("{what}: {}", it.why));
        }
        if let Some(text) = self.look_at_room(names, seen) {
            wanted.insert((Kind::Full, None), text);
        }
        let is_synchronised = it.synchronised == Some(true);
        self.was_synchronised |= is_synchronised;
        if self.was_synchronised && !is_synchronised {
            wanted.insert((Kind::Clock, None), "the system's clock is not in sync any more; .TIME says who says so".to_string());
        }
        let age = now.saturating_duration_since(it.committed);
        if it.state == State::Recording && age >= names.limits.commit {
            wanted.insert((Kind::Commit, None), format!("nothing became durable for {}: the disk is slow", seconds(age)));
        }
        self.change(names, wanted)
    }

    fn look_at_channels(&mut self, names: &Names, seen: &Seen, wanted: &mut BTreeMap<(Kind, Option<usize>), String>) {
        self.heard.resize(seen.came.len(), Heard::default());
        let (it, now) = (seen.standing, seen.now);
        let counts = it.wants || matches!(it.state, State::Recording | State::Full | State::Failed(_));
        for (place, ((heard, (messages, input_lost)), (id, name, _, silent))) in
            self.heard.iter_mut().zip(&seen.came).zip(&names.channels).enumerate()
        {
            if *messages != heard.messages {
                (heard.messages, heard.at) = (*messages, Some(now));
            }
            if let (Some(at), Some(limit)) = (heard.at, silent)
                && now.saturating_duration_since(at) >= *limit
            {
                wanted.insert((Kind::Silent, Some(place)), format!("channel {id} {name}: nothing came for {}", seconds(*limit)));
            }
            let lost = it.lanes.get(place).map_or(0, |it| it.lost);
            // (what an input loses is counted before the recorder's thread has it)
            if counts && (lost > heard.lost.0 || *input_lost > heard.lost.1) {
                heard.lost_at = Some(now);
            }
            heard.lost = (lost, *input_lost);
            if heard.lost_at.is_some_and(|at| now.saturating_duration_since(at) < names.limits.loss) {
                let all = lost.max(*input_lost);
                wanted.insert((Kind::Loss, Some(place)), format!("channel {id} {name}: messages are lost, {all} since the start"));
            }
        }
    }

    /// How much of the room is used, where that is a mark more than was said. It is said once the rate is known.
    pub fn look_at_marks(&mut self, standing: &Standing) -> Option<String> {
        let used = 100 * standing.medium_bytes.saturating_sub(standing.free) / standing.medium_bytes.max(1);
        let marks = MARKS.iter().filter(|it| used >= **it).count();
        if marks < self.marks {
            // (there was an erase, or another medium was put in)
            self.marks = marks;
        }
        let is_known = self.room.first().zip(self.room.last()).is_some_and(|(first, last)| last.0 - first.0 >= FIRST);
        if standing.state != State::Recording || marks == self.marks || !is_known {
            return None;
        }
        self.marks = marks;
        let when = self.left.map_or(String::new(), |it| format!(": full in {:.0} minutes at this rate", (it / 60.0).ceil()));
        Some(format!("{used} % of the room is used{when}"))
    }

    /// Whether the medium is full, or will be at the rate of the last minute.
    fn look_at_room(&mut self, names: &Names, seen: &Seen) -> Option<String> {
        let (it, now) = (seen.standing, seen.now);
        self.left = None;
        if it.state == State::Full {
            self.room.clear();
            return Some("the medium is full, and nothing is recorded; copy the files, then give .ERASE and .RECORD".to_string());
        }
        // what is free jumps up at an erase, and is counted otherwise while nothing is recorded
        if it.state != State::Recording || self.room.last().is_some_and(|(_, free)| it.free > *free) {
            self.room.clear();
        }
        if it.state != State::Recording {
            return None;
        }
        if self.room.last().is_none_or(|(at, _)| now.saturating_duration_since(*at) >= Duration::from_secs(1)) {
            self.room.push((now, it.free));
        }
        self.room.retain(|(at, _)| now.saturating_duration_since(*at) <= WINDOW);
        let (at, before) = *self.room.first()?;
        let (past, used) = (now.saturating_duration_since(at), before.saturating_sub(it.free));
        let on = self.on.get(&(Kind::Full, None)).map(|it| it.text.clone());
        if past < FIRST {
            // (where a file ends and the next begins it is counted anew, and an alarm stays meanwhile)
            return on;
        }
        if used == 0 {
            return None;
        }
        let left = past.as_secs_f64() * it.free as f64 / used as f64;
        self.left = Some(left);
        // (one that is on ends a little later than it began, so that it does not come and go)
        let is_on = on.is_some();
        let limit = names.limits.full.as_secs_f64() * if is_on { 1.2 } else { 1.0 };
        (left < limit).then(|| format!("the medium will be full in {:.0} minutes at this rate", (left / 60.0).ceil()))
    }

    /// Which began, and which ended. The text of one that is on goes with the time.
    fn change(&mut self, names: &Names, wanted: BTreeMap<(Kind, Option<usize>), String>) -> Vec<Change> {
        let id = |place: Option<usize>| place.and_then(|it| names.channels.get(it)).map(|it| it.0);
        let mut changes = Vec::new();
        let over: Vec<_> = self.on.keys().filter(|it| !wanted.contains_key(it)).copied().collect();
        for key in over {
            if let Some(alarm) = self.on.remove(&key) {
                changes.push(Change { id: id(alarm.place), alarm, is_on: false });
            }
        }
        for ((kind, place), text) in wanted {
            if let Some(it) = self.on.get_mut(&(kind, place)) {
                it.text = text;
                continue;
            }
            let alarm = Alarm { kind, place, text, since: clock::now() };
            changes.push(Change { id: id(place), alarm: alarm.clone(), is_on: true });
            self.on.insert((kind, place), alarm);
        }
        changes
    }
}

/// Starts the thread that looks, and the one that gives alarms to a command.
pub fn start(shared: &Arc<Shared>, board: Board) -> io::Result<()> {
    let (to, from) = sync_channel(WAITING);
    thread::Builder::new().name("alarm command".to_string()).spawn(move || run_commands(&from))?;
    let shared = shared.clone();
    thread::Builder::new().name("alarms".to_string()).spawn(move || look_on(&shared, &board, &to))?;
    Ok(())
}

fn look_on(shared: &Shared, board: &Board, to: &SyncSender<(Vec<String>, Change)>) {
    let mut judge = Judge::default();
    let (mut before, mut at): (Vec<u64>, _) = (Vec::new(), Instant::now());
    loop {
        let (standing, names) = (shared.standing(), shared.names());
        let came: Vec<(u64, u64)> = shared.came.iter().map(|it| (it.messages.load(Relaxed), it.lost.load(Relaxed))).collect();
        if before.is_empty() || at.elapsed() >= APART {
            if !before.is_empty() {
                shared.add_points(&came.iter().zip(&before).map(|(it, before)| it.0 - before).collect::<Vec<_>>());
            }
            (before, at) = (came.iter().map(|it| it.0).collect(), Instant::now());
        }
        let changes = judge.look(&names, &Seen { now: Instant::now(), standing: &standing, came });
        if let Some(text) = judge.look_at_marks(&standing) {
            warning!("{text}");
            board.put(Line::new("warning").with("text", text));
        }
        for it in &changes {
            if it.is_on {
                warning!("{}", it.line());
            } else {
                info!("{}", it.line());
            }
            board.put(it.note());
            if !names.alarm.is_empty() && to.try_send((names.alarm.clone(), it.clone())).is_err() {
                warning!("alarm {}: the command is not given it, as it is still at work with others", it.alarm.kind.name());
            }
        }
        shared.put_alarms(judge.on());
        thread::sleep(EACH);
    }
}

/// Gives one change after another to the command. One that hangs is ended, with all that it started.
fn run_commands(from: &Receiver<(Vec<String>, Change)>) {
    for (command, it) in from {
        if let Err(error) = run_command(&command, &it, RUNS) {
            warning!("alarm {}: the command {:?} {error}", it.alarm.kind.name(), command[0]);
        }
    }
}

/// Runs the command with the alarm's name, the channel or `-`, `on` or `off`, and the text after its own words.
fn run_command(command: &[String], it: &Change, limit: Duration) -> Result<(), String> {
    let channel = it.id.map_or("-".to_string(), |it| it.to_string());
    let words = [it.alarm.kind.name(), channel.as_str(), if it.is_on { "on" } else { "off" }, it.alarm.text.as_str()];
    let mut child = Command::new(&command[0])
        .args(&command[1..])
        .args(words)
        .stdin(Stdio::null())
        .stdout(Stdio::null())
        .stderr(Stdio::null())
        .process_group(0)
        .spawn()
        .map_err(|it| format!("cannot be started: {it}"))?;
    let end = Instant::now() + limit;
    loop {
        match child.try_wait() {
            Ok(Some(status)) if status.success() => return Ok(()),
            Ok(Some(status)) => return Err(format!("failed: {status}")),
            Ok(None) if Instant::now() < end => thread::sleep(Duration::from_millis(20)),
            other => {
                end_group(&mut child);
                return Err(other.map_or_else(|it| it.to_string(), |_| format!("was ended after {}", seconds(limit))));
            }
        }
    }
}

fn end_group(child: &mut Child) {
    if let Ok(group) = i32::try_from(child.id()) {
        let _ = killpg(Pid::from_raw(group), Signal::SIGKILL);
    }
    let _ = child.wait();
}

#[cfg(test)]
mod tests {
    use super::*;
    use crate::standing::LaneStanding;

    fn names() -> Names {
        let second = Duration::from_secs;
        Names {
            limits: crate::settings::Alarms { silent: Some(second(10)), loss: second(60), full: second(600), commit: second(2) },
            channels: vec![(5, "GPS".to_string(), "message", Some(second(10))), (6, "BUS".to_string(), "1553", None)],
            alarm: Vec::new(),
            commit: Duration::from_millis(100),
            file_for: second(3600),
            tries: 5,
        }
    }

    /// A recorder that stands still, and is looked at by a made clock.
    struct Made {
        judge: Judge,
        names: Names,
        standing: Standing,
        came: Vec<(u64, u64)>,
        start: Instant,
    }

    impl Made {
        fn new() -> Made {
            let mut standing = Standing::new(2);
            (standing.state, standing.free, standing.synchronised) = (State::Recording, 1 << 40, Some(true));
            standing.lanes = vec![LaneStanding::default(); 2];
            Made { judge: Judge::default(), names: names(), standing, came: vec![(0, 0); 2], start: Instant::now() }
        }

        /// What changes at so many seconds, in short.
        fn at(&mut self, seconds: u64) -> Vec<String> {
            let now = self.start + Duration::from_secs(seconds);
            if self.standing.commits != 1 {
                self.standing.committed = now;
            }
            let seen = Seen { now, standing: &self.standing, came: self.came.clone() };
            let short = |it: &Change| format!("{} {:?} {}", it.alarm.kind.name(), it.id, it.is_on);
            self.judge.look(&self.names, &seen).iter().map(short).collect()
        }
    }

    const NONE: [&str; 0] = [];

    #[test]
    fn a_channel_that_was_heard_and_is_silent() {
        let mut it = Made::new();
        assert_eq!(it.at(0), NONE);
        // one that was never heard is not silent
        assert_eq!(it.at(60), NONE);
        it.came = vec![(1, 0), (1, 0)];
        assert_eq!(it.at(61), NONE);
        assert_eq!(it.at(70), NONE);
        // the other one has no limit
        assert_eq!(it.at(71), ["silent Some(5) true"]);
        assert_eq!(it.at(72), NONE);
        it.came[0].0 = 2;
        assert_eq!(it.at(73), ["silent Some(5) false"]);
    }

    #[test]
    fn losses_of_the_recorder_and_of_an_input() {
        let mut it = Made::new();
        assert_eq!(it.at(0), NONE);
        it.standing.lanes[1].lost = 3;
        assert_eq!(it.at(1), ["loss Some(6) true"]);
        assert_eq!(it.at(60), NONE);
        it.came[1].1 = 4;
        assert_eq!(it.at(60), NONE);
        assert_eq!(it.at(119), NONE);
        assert_eq!(it.at(120), ["loss Some(6) false"]);
        // what is lost while nothing is recorded, and none is to be, only passes
        it.standing.state = State::Idle;
        it.came[1].1 = 9;
        assert_eq!(it.at(121), NONE);
    }

    #[test]
    fn a_disk_that_is_tried_again() {
        let mut it = Made::new();
        assert_eq!(it.at(0), NONE);
        // it failed and went on between two looks
        it.standing.failures = 1;
        assert_eq!(it.at(1), ["disk None true"]);
        assert_eq!(it.at(5), NONE);
        assert_eq!(it.at(6), ["disk None false"]);
        it.standing.state = State::Failed(None);
        assert_eq!(it.at(7), ["disk None true"]);
        assert_eq!(it.at(100), NONE);
        it.standing.state = State::Idle;
        assert_eq!(it.at(101), ["disk None false"]);
    }

    #[test]
    fn a_medium_that_fills_up() {
        let mut it = Made::new();
        let megabyte = 1u64 << 20;
        it.standing.free = 1000 * megabyte;
        // a MiB a second: 1,000 s are more than ten minutes
        for second in 0..=100 {
            it.standing.free = (1000 - second) * megabyte;
            assert_eq!(it.at(second), NONE, "{second}");
        }
        let mut changes = Vec::new();
        for second in 101..=500 {
            it.standing.free = (1000 - second) * megabyte;
            changes.extend(it.at(second).into_iter().map(|it| (second, it)));
        }
        assert_eq!(changes, [(401, "full None true".to_string())]);
        // the next file begins with a little more room: it is counted anew, and the alarm stays
        it.standing.free += 3 * megabyte;
        assert_eq!(it.at(500), NONE);
        // where nothing more comes it ends
        assert_eq!(it.at(504), NONE);
        assert_eq!(it.at(506), ["full None false"]);
        it.standing.free -= 100 * megabyte;
        assert_eq!(it.at(507), ["full None true"]);
        it.standing.state = State::Full;
        assert_eq!(it.at(508), NONE);
        // after an erase
        (it.standing.state, it.standing.free) = (State::Idle, 1000 * megabyte);
        assert_eq!(it.at(509), ["full None false"]);
    }

    /// Each mark is said once, with the time that is left, once the rate is known; and again after an erase.
    #[test]
    fn room_that_is_used_up() {
        let mut it = Made::new();
        let (megabyte, mut said) = (1u64 << 20, Vec::new());
        it.standing.medium_bytes = 1000 * megabyte;
        let mut step = |it: &mut Made, second: u64, used: u64| {
            it.standing.free = (1000 - used) * megabyte;
            it.at(second);
            said.extend(it.judge.look_at_marks(&it.standing).map(|text| (second, text)));
        };
        (0..=960).for_each(|second| step(&mut it, second, second));
        step(&mut it, 961, 0);
        (962..=970).for_each(|second| step(&mut it, second, 900 + second - 962));
        it.standing.state = State::Idle;
        step(&mut it, 971, 999);
        let wanted = [
            (800, "80 % of the room is used: full in 4 minutes at this rate"),
            (950, "95 % of the room is used: full in 1 minutes at this rate"),
            (966, "90 % of the room is used: full in 1 minutes at this rate"),
        ];
        assert_eq!(said.iter().map(|it| (it.0, it.1.as_str())).collect::<Vec<_>>(), wanted);
    }

    #[test]
    fn a_clock_that_was_right_and_a_commit_that_does_not_come() {
        let mut it = Made::new();
        it.standing.synchronised = None;
        assert_eq!(it.at(0), NONE);
        it.standing.synchronised = Some(true);
        assert_eq!(it.at(1), NONE);
        it.standing.synchronised = Some(false);
        assert_eq!(it.at(2), ["clock None true"]);
        it.standing.synchronised = Some(true);
        assert_eq!(it.at(3), ["clock None false"]);
        it.standing.commits = 1;
        assert_eq!(it.at(4), NONE);
        assert_eq!(it.at(5), ["commit None true"]);
        it.standing.commits = 2;
        assert_eq!(it.at(6), ["commit None false"]);
        // where nothing is recorded none is due
        (it.standing.commits, it.standing.state) = (1, State::Idle);
        assert_eq!(it.at(60), NONE);
    }

    /// A command that hangs is ended with what it started, and one that is not there is said.
    #[test]
    fn a_command_that_hangs() {
        let alarm = Alarm { kind: Kind::Loss, place: Some(0), text: "a b".to_string(), since: 0 };
        let it = Change { alarm, is_on: true, id: Some(5) };
        let words = |text: &str| vec!["/bin/sh".to_string(), "-c".to_string(), text.to_string(), "sh".to_string()];
        let start = Instant::now();
        let found = run_command(&words("sleep 1000 & sleep 1000"), &it, Duration::from_millis(200));
        assert!(found.clone().is_err_and(|it| it == "was ended after 0 s"), "{found:?}");
        assert!(start.elapsed() < Duration::from_secs(30));
        let right = "test \"$1 $2 $3 $4\" = 'loss 5 on a b'";
        assert_eq!(run_command(&words(right), &it, Duration::from_secs(30)), Ok(()));
        assert!(run_command(&words("exit 3"), &it, Duration::from_secs(30)).is_err_and(|it| it.contains("exit status: 3")));
        assert!(run_command(&["/nothing/there".to_string()], &it, RUNS).is_err_and(|it| it.starts_with("cannot be started")));
    }
}
