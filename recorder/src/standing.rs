//! How the recorder stands, for those who look without asking it: its thread puts it up four times a second, so that whoever looks
//! never waits for the disk. A stall of the disk shows as a standing that grows old.
use std::sync::atomic::{AtomicUsize, Ordering::Relaxed};
use std::sync::{Arc, Mutex, MutexGuard};
use std::time::{Duration, Instant};

use serde_json::{Value, json};

use crate::alarms::Alarm;
use crate::entries;
use crate::feed::Came;
use crate::keeps::Current;
use crate::losses::{Cause, Causes};
use crate::owner::{Owner, State};
use crate::settings::Settings;

/// How often the recorder's thread puts up how it stands.
pub const EACH: Duration = Duration::from_millis(250);
/// How many points the history of a channel has, and how far apart they are: ten minutes.
pub const POINTS: usize = 120;
pub const APART: Duration = Duration::from_secs(5);
/// The last events that are shown.
const EVENTS: usize = 8;

/// A channel's own part.
#[derive(Clone, Debug, Default)]
pub struct LaneStanding {
    pub durable: u64,
    pub in_file: u64,
    pub lost: u64,
    pub causes: Causes,
    pub refused: u64,
    pub passed: u64,
    /// when the last message came, its length and its first bytes
    pub last: Option<(Instant, usize, Vec<u8>)>,
}

/// How the recorder stood at a moment.
#[derive(Clone, Debug)]
pub struct Standing {
    pub at: Instant,
    pub state: State,
    /// whether a recording is to go on, or waits for the clock
    pub wants: bool,
    pub why: String,
    /// number from 1, name, bytes, and since when
    pub file: Option<(usize, String, u64, Instant)>,
    pub files: usize,
    /// of all media: what no file has, and what they have in all
    pub free: u64,
    pub medium_bytes: u64,
    /// the medium in use: place from 0, volume and path
    pub medium: (usize, String, String),
    /// how many media there are, and how many after that one have no file
    pub media: (usize, usize),
    pub commits: u64,
    pub committed: Instant,
    pub failures: u32,
    pub clock: Value,
    pub synchronised: Option<bool>,
    pub clock_steps: u64,
    pub queued: usize,
    pub datagrams: (u64, u64),
    /// number, time and text of the last events
    pub events: Vec<(u16, String, String)>,
    pub lanes: Vec<LaneStanding>,
}

impl Standing {
    /// One of a recorder that has not begun.
    pub fn new(channels: usize) -> Standing {
        let now = Instant::now();
        Standing {
            at: now,
            state: State::Idle,
            wants: false,
            why: String::new(),
            file: None,
            files: 0,
            free: 0,
            medium_bytes: 0,
            medium: Default::default(),
            media: (0, 0),
            commits: 0,
            committed: now,
            failures: 0,
            clock: Value::Null,
            synchronised: None,
            clock_steps: 0,
            queued: 0,
            datagrams: (0, 0),
            events: Vec::new(),
            lanes: vec![LaneStanding::default(); channels],
        }
    }
}

/// What of the settings may change while the service runs.
#[derive(Clone, Debug, PartialEq, Eq)]
pub struct Names {
    pub limits: crate::settings::Alarms,
    /// by place: ID, name, kind, and after how long it is silent
    pub channels: Vec<(u16, String, &'static str, Option<Duration>)>,
    pub alarm: Vec<String>,
    pub commit: Duration,
    pub file_for: Duration,
    pub tries: u32,
}

impl Names {
    pub fn of(settings: &Settings) -> Names {
        let channel = |it: &crate::settings::Channel| {
            let silent = it.input.as_ref().and(it.silent.or(settings.alarms.silent)).filter(|it| !it.is_zero());
            (it.id, it.name.clone(), it.kind.name(), silent)
        };
        Names {
            limits: settings.alarms.clone(),
            channels: settings.channels.iter().map(channel).collect(),
            alarm: settings.alarm.clone(),
            commit: settings.commit,
            file_for: settings.file_for,
            tries: settings.tries,
        }
    }
}

/// What the recorder's thread, the alarms' thread and pages share.
pub struct Shared {
    standing: Mutex<Arc<Standing>>,
    names: Mutex<Arc<Names>>,
    alarms: Mutex<Vec<Alarm>>,
    /// by channel, how many messages came in each of the last ten minutes' parts
    history: Mutex<Vec<Vec<u64>>>,
    pub came: Vec<Arc<Came>>,
    /// how many pages are open
    pub pages: AtomicUsize,
}

/// What a thread that failed had in hand is whole all the same: each is put in by one assignment.
fn held<T>(it: &Mutex<T>) -> MutexGuard<'_, T> {
    it.lock().unwrap_or_else(std::sync::PoisonError::into_inner)
}

impl Shared {
    pub fn new(settings: &Settings, came: &[Arc<Came>]) -> Arc<Shared> {
        Arc::new(Shared {
            standing: Mutex::new(Arc::new(Standing::new(came.len()))),
            names: Mutex::new(Arc::new(Names::of(settings))),
            alarms: Mutex::default(),
            history: Mutex::new(vec![Vec::new(); came.len()]),
            came: came.to_vec(),
            pages: AtomicUsize::new(0),
        })
    }

    pub fn standing(&self) -> Arc<Standing> {
        held(&self.standing).clone()
    }

    pub fn put_up(&self, standing: Standing) {
        *held(&self.standing) = Arc::new(standing);
    }

    pub fn names(&self) -> Arc<Names> {
        held(&self.names).clone()
    }

    /// Takes names, limits and alarms of settings that were read anew.
    pub fn rename(&self, settings: &Settings) {
        *held(&self.names) = Arc::new(Names::of(settings));
    }

    /// The alarms that are on.
    pub fn alarms(&self) -> Vec<Alarm> {
        held(&self.alarms).clone()
    }

    /// Puts up the alarms that are on.
    pub fn put_alarms(&self, on: Vec<Alarm>) {
        *held(&self.alarms) = on;
    }

    /// Adds a point of each channel's history.
    pub fn add_points(&self, points: &[u64]) {
        for (history, point) in held(&self.history).iter_mut().zip(points) {
            if history.len() >= POINTS {
                history.remove(0);
            }
            history.push(*point);
        }
    }

    /// The history of each channel, for a page that begins.
    pub fn history(&self) -> Value {
        json!({ "apart_s": APART.as_secs(), "points": POINTS, "channels": *held(&self.history) })
    }

    /// All that a page shows, as a value. Ages are of now, however old what the recorder's thread put up is.
    pub fn value(&self) -> Value {
        let (standing, names, now) = (self.standing(), self.names(), Instant::now());
        let age = |it: Instant| now.saturating_duration_since(it).as_millis() as u64;
        let channels: Vec<Value> = names
            .channels
            .iter()
            .zip(&self.came)
            .zip(&standing.lanes)
            .map(|(((id, name, kind, _), came), lane)| {
                let last = lane.last.as_ref().map(|(at, length, bytes)| {
                    let mut hex = String::new();
                    entries::to_hex(&mut hex, bytes);
                    json!({ "age_ms": age(*at), "length": length, "bytes": hex })
                });
                let it = lane.causes;
                let by = json!({ "system": it.system, "queue": it.queue, "line": it.line, "disk": it.disk });
                json!({
                    "id": id, "name": name, "kind": kind, "came": came.messages.load(Relaxed), "bytes": came.bytes.load(Relaxed),
                    "bad": came.bad.load(Relaxed), "moved": came.moved.load(Relaxed), "unstamped": came.unstamped.load(Relaxed),
                    "late": came.late.load(Relaxed), "others": came.others.load(Relaxed), "durable": lane.durable,
                    "in_file": lane.in_file, "lost": lane.lost, "lost_by": by, "refused": lane.refused, "passed": lane.passed,
                    "last": last,
                })
            })
            .collect();
        let alarms: Vec<Value> = self.alarms().iter().map(|it| it.value(&names)).collect();
        let file = standing
            .file
            .as_ref()
            .map(|(number, name, bytes, began)| json!({ "number": number, "name": name, "bytes": bytes, "age_ms": age(*began) }));
        let events: Vec<Value> =
            standing.events.iter().map(|(number, time, text)| json!({ "number": number, "time": time, "text": text })).collect();
        json!({
            "state": standing.state.word(), "wants": standing.wants, "why": standing.why, "file": file, "files": standing.files,
            "free": standing.free, "medium_bytes": standing.medium_bytes,
            "medium": { "number": standing.medium.0 + 1, "of": standing.media.0, "volume": standing.medium.1,
            "path": standing.medium.2, "left": standing.media.1 }, "commits": standing.commits,
            "commit_age_ms": age(standing.committed), "standing_age_ms": age(standing.at), "failures": standing.failures,
            "clock": standing.clock, "clock_steps": standing.clock_steps, "queued_bytes": standing.queued,
            "datagrams_out": standing.datagrams.0, "datagrams_dropped": standing.datagrams.1, "events": events,
            "alarms": alarms, "channels": channels,
        })
    }
}

impl Owner {
    /// Puts up how it stands, where that is due.
    pub(crate) fn put_up(&mut self) {
        if self.shared.standing().at.elapsed() < EACH {
            return;
        }
        self.put_up_now();
        // what is taken at once of settings that were read anew
        let names = self.shared.names();
        (self.settings.commit, self.settings.file_for, self.settings.tries) = (names.commit, names.file_for, names.tries);
        for (lane, (_, name, ..)) in self.lanes.iter_mut().zip(&names.channels) {
            if lane.channel.name != *name {
                lane.channel.name.clone_from(name);
            }
        }
    }

    pub(crate) fn put_up_now(&mut self) {
        let files = self.recorder.as_mut().and_then(|it| it.files().ok()).unwrap_or_default();
        let left = self.recorder.as_mut().and_then(|it| it.status().ok()).map_or(0, |it| it.free);
        let after = (self.settings.blocks as u64).saturating_sub(self.medium.first_block(&files)) * 512;
        let now = Instant::now();
        let count = self.count();
        let mut lanes = Vec::with_capacity(self.lanes.len());
        let channels = self.settings.channels.len();
        for (place, lane) in self.lanes.iter().enumerate().take(channels) {
            // what the recorder itself had no room for
            let of = |it: &mut r10::Recorder| it.channel_at(place).map_or(0, |it| it.lost.saturating_sub(lane.given));
            let overflow = self.recorder.as_mut().map_or(0, of);
            let mut causes = lane.causes;
            causes.add(Cause::Queue, overflow);
            let at = |it: u64| now.checked_sub(Duration::from_nanos(100 * count.saturating_sub(it))).unwrap_or(now);
            lanes.push(LaneStanding {
                durable: lane.durable,
                in_file: lane.durable_in_file,
                lost: lane.lost + overflow,
                causes,
                refused: lane.refused,
                passed: lane.passed,
                last: lane.last.as_ref().map(|it| (at(it.0), it.1, it.2.clone())),
            });
        }
        let began = |it: &Current| now.checked_sub(it.age()).unwrap_or(now);
        let standing = Standing {
            at: now,
            state: self.state,
            wants: self.wish.wants || self.wish.waits.is_some(),
            why: self.failures.why.clone(),
            file: self.file.as_ref().filter(|_| self.state != State::Ready).map(|it| {
                let size = files.get(it.number).map_or(0, |it| it.size);
                (it.number + 1, it.name.clone(), size, began(it))
            }),
            files: files.len(),
            free: if self.state == State::Recording { left } else { after } + self.free_after(),
            medium_bytes: self.all_bytes(),
            medium: (self.medium.place, self.medium.volume.clone(), self.medium.name()),
            media: (self.settings.media.len(), self.row.left()),
            commits: self.commits.count(),
            committed: self.commits.last(),
            failures: self.failures.count(),
            clock: self.clock.value(),
            synchronised: self.clock.known.is_synchronised(),
            clock_steps: self.clock.steps_seen,
            queued: self.intake.queued(),
            datagrams: (self.live.datagrams, self.live.dropped),
            events: self.file.as_ref().map(|it| it.last_events(EVENTS)).unwrap_or_default(),
            lanes,
        };
        self.shared.put_up(standing);
    }
}
