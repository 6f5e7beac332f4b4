//! The commands, as chapter 6 of the standard names them, and some of this recorder's own: what each does, and what is answered.
use std::fmt::Write;
use std::net::{IpAddr, SocketAddr};
use std::sync::atomic::Ordering::Relaxed;
use std::time::Duration;

use r10::Refusal as Refused;
use serde_json::json;

use crate::clock::{self, COUNTS};
use crate::control::{self, Command, Origin, Reply};
use crate::keeps::Current;
use crate::notes::Line;
use crate::owner::{Lane, Owner, State, Trouble};
use crate::readers::{self, MOST};
use crate::recording::Ended;
use crate::{entries, figures, info};

/// Why a command is not done, by the numbers of the standard, with what to do.
#[derive(Clone, Debug, PartialEq, Eq)]
pub enum No {
    Invalid(String),
    Parameter(String),
    Mode(String),
    NoMedia(String),
    Full(String),
    Failed(String),
}

impl No {
    pub(crate) fn line(&self) -> String {
        let (number, name, text) = match self {
            No::Invalid(text) => (0, "INVALID COMMAND", text),
            No::Parameter(text) => (1, "INVALID PARAMETER", text),
            No::Mode(text) => (2, "INVALID MODE", text),
            No::NoMedia(text) => (3, "NO MEDIA", text),
            No::Full(text) => (4, "MEMORY FULL", text),
            No::Failed(text) => (5, "COMMAND FAILED", text),
        };
        format!("E {number:02} {name}: {text}\n")
    }
}

/// The words, what follows them, and what they do: `.HELP` prints them.
pub const WORDS: [(&str, &str, &str); 29] = [
    (".STATUS", "", "state, warnings, and how much of the medium is used"),
    (".RECORD", "[NAME]", "begins a file"),
    (".STOP", "", "ends the recording"),
    (".ERASE", "", "takes all files from the medium; over the UNIX socket alone"),
    (".EVENT", "[NUMBER [TEXT]]", "records an event, 0 to 4095, or lists those of the file"),
    (".NOTE", "TEXT", "puts a text into the log channel"),
    (".FILES", "", "number, name, first block, bytes, closed or open, date, begin and end of each file"),
    (".HEALTH", "[FEATURE]", "the recorder and each channel, with bits for what is wrong"),
    (".FIND", "[FILE [COUNT|TIME]]", "where it records and where a replay begins, or sets that"),
    (".REPLAY", "[CHANNEL..]", "prints the file of the last .FIND from there on"),
    (".PUBLISH", "[START|STOP ADDRESS PORT | LIST]", "sends what became durable by UDP"),
    (".FOLLOW", "[CHANNEL..]", "prints entries as they become durable"),
    (".FIGURES", "", "all figures in one line of JSON"),
    (".TIME", "", "the clock: time, whether it is in sync, by whom, and how far it may be off"),
    (".SETUP", "[0]", "which setup is used: there is one"),
    (".TMATS", "READ | VERSION", "the setup text, or its release of the standard"),
    (".MEDIA", "", "bytes of a block, blocks used, blocks left"),
    (".KEEP", "[MEDIUM [ON|OFF]]", "marks a medium of a row as one that is not overwritten, or takes the mark off"),
    (".MOUNT", "", "takes the medium up again"),
    (".DISMOUNT", "", "gives the medium up, so that it can be taken away; over the UNIX socket alone"),
    (".BIT", "", "tries settings, medium, clock, channels and log, without touching what is recorded"),
    (".CRITICAL", "[FEATURE [MASK]]", "which bits of .HEALTH are critical, or sets that"),
    (".IRIG106", "", "the release of the standard"),
    (".VERSION", "", "of the service, and of the library below it"),
    (".MEDIUM", "", "what the medium is, and where"),
    (".SHUTDOWN", "", "ends the service; over the UNIX socket alone"),
    (".STANDING", "", "how it stands, with alarms and the last lines of the log, in one line of JSON; it never waits for the disk"),
    (".TOKEN", "TEXT", "over TCP: the token that a change wants, first on the connection"),
    (".HELP", "", "these lines"),
];

/// Bits of `.HEALTH`.
const BITS: [(u32, &str); 13] = [
    (1, "messages were lost"),
    (2, "messages were refused, or could not be read"),
    (4, "nothing came in the last ten seconds"),
    (8, "the system's clock stepped"),
    (0x10, "the system's clock is not in sync, or nobody can say"),
    (0x100, "alarm: it was heard, and is silent"),
    (0x200, "alarm: messages are lost"),
    (0x400, "alarm: the disk failed, or is tried again"),
    (0x800, "alarm: the medium is full, or soon will be"),
    (0x1000, "alarm: the clock was in sync, and is not any more"),
    (0x2000, "alarm: nothing becomes durable"),
    (0x4000_0000, "the medium is full"),
    (0x8000_0000, "the disk failed"),
];

/// The bit of a channel that is silent, which is no warning.
const SILENT: u32 = 4;

/// What bits of `.HEALTH` say.
pub(crate) fn in_words(bits: u32) -> String {
    let said: Vec<&str> = BITS.iter().filter(|it| bits & it.0 != 0).map(|it| it.1).collect();
    if said.is_empty() { "nothing is wrong".to_string() } else { said.join("; ") }
}

/// Where a replay begins: it is kept for all who ask, as the standard's recorder has one place to play from.
#[derive(Clone, Copy, Debug, Default)]
pub struct Point {
    pub file: usize,
    pub count: u64,
}

/// Why a command is not done: it is refused and nothing else changes, or the disk failed in it, which the recorder's thread minds.
#[derive(Debug)]
pub enum Undone {
    No(No),
    Failed(Trouble),
}

/// What a command gets.
pub type Answer = Result<Reply, Undone>;

impl From<No> for Undone {
    fn from(no: No) -> Undone {
        Undone::No(no)
    }
}

impl From<Trouble> for Undone {
    fn from(trouble: Trouble) -> Undone {
        match trouble {
            Trouble::Full(error) => No::Full(format!("{error}; copy the files, then give .ERASE")).into(),
            Trouble::Refused(error @ (Refused::BadName | Refused::NameTaken | Refused::BadEvent)) => {
                No::Parameter(format!("{error}; give another one")).into()
            }
            Trouble::Refused(error @ (Refused::NoFile | Refused::Place | Refused::NoChannel)) => {
                No::Parameter(format!("{error}; .FILES and .HEALTH list what there is")).into()
            }
            Trouble::Refused(error) => No::Failed(error.to_string()).into(),
            failed @ Trouble::Failed(_) => Undone::Failed(failed),
        }
    }
}

impl From<Refused> for Undone {
    fn from(error: Refused) -> Undone {
        Trouble::from(error).into()
    }
}

/// Whether a word with these after it changes something.
fn changes(word: &str, words: &[&str]) -> bool {
    match word {
        ".RECORD" | ".STOP" | ".ERASE" | ".MOUNT" | ".DISMOUNT" | ".SHUTDOWN" | ".NOTE" => true,
        ".EVENT" | ".FIND" | ".KEEP" => !words.is_empty(),
        ".PUBLISH" => words.first().is_some_and(|it| !it.eq_ignore_ascii_case("LIST")),
        ".CRITICAL" => words.len() > 1,
        _ => false,
    }
}

impl Owner {
    /// Answers a command.
    pub fn answer(&mut self, command: Command) -> Result<(), Trouble> {
        let is_order = self.log_command(&command);
        let (reply, done) = match self.command(&command) {
            Ok(reply) => (reply, Ok(())),
            Err(Undone::No(no)) => (Reply::Text(no.line()), Ok(())),
            Err(Undone::Failed(trouble)) => (Reply::Text(No::Failed(format!("{trouble}; see the log")).line()), Err(trouble)),
        };
        if let Reply::Text(text) = &reply
            && is_order
            && text.starts_with("E ")
        {
            self.log(Line::new("refused").with("line", &command.line).with("answer", text.trim_end()));
        }
        // (a stop that was refused is none for the inputs)
        if control::is_stop(&command.line) && !self.stop.ending.load(Relaxed) {
            self.stop.moment.clear();
        }
        // who is gone wants no answer
        let _ = command.reply.send(reply);
        done
    }

    /// Puts a command into the log channel, if it changes something. Whether it does.
    fn log_command(&mut self, command: &Command) -> bool {
        let words: Vec<&str> = command.line.split_whitespace().collect();
        let word = words.first().map_or(String::new(), |it| it.to_ascii_uppercase());
        // (a note has a line of its own, which says who gave it)
        let is_order = word != ".NOTE" && changes(&word, words.get(1..).unwrap_or_default());
        if is_order {
            info!("{} by {}", command.line.trim(), command.by);
            self.log(Line::new("command").with("by", &command.by).with("line", command.line.trim()));
        }
        is_order
    }

    fn command(&mut self, command: &Command) -> Answer {
        let (line, origin) = (command.line.as_str(), command.origin);
        let mut words = line.split_whitespace();
        let word = words.next().unwrap_or("").to_ascii_uppercase();
        let words: Vec<&str> = words.collect();
        let Some((_, wanted, _)) = WORDS.iter().find(|it| it.0 == word) else {
            return Err(No::Invalid(format!(
                "there is no command {:?}; .HELP lists them",
                word.chars().take(40).collect::<String>()
            ))
            .into());
        };
        if wanted.is_empty() && !words.is_empty() {
            return Err(No::Parameter(format!("{word} has nothing after it")).into());
        }
        if origin != Origin::Socket && matches!(word.as_str(), ".ERASE" | ".SHUTDOWN" | ".DISMOUNT") {
            return Err(No::Mode(format!("{word} is for the UNIX socket of the recorder's own machine")).into());
        }
        if origin == (Origin::Tcp { has_token: false }) && changes(&word, &words) {
            return Err(No::Mode(format!(
                "over TCP {word} wants the token first: `.TOKEN TEXT`, of the file that control.token names"
            ))
            .into());
        }
        let text = match word.as_str() {
            ".STATUS" => self.status_line(),
            ".HEALTH" => self.health(&words)?,
            ".FIGURES" => self.figures()?,
            ".HELP" => WORDS.iter().fold(String::new(), |mut out, it| {
                let _ = writeln!(out, "{:36} {}", format!("{} {}", it.0, it.1), it.2);
                out
            }),
            ".TIME" => self.clock.lines(),
            ".IRIG106" => Owner::irig106(),
            ".VERSION" => Owner::version(),
            ".BIT" => self.bit()?,
            ".SETUP" => Owner::setup_word(&words)?,
            ".TMATS" => self.tmats(&words)?,
            ".CRITICAL" => self.critical(&words)?,
            ".MOUNT" => return Ok(self.mount()?),
            ".MEDIUM" => format!("{} {} {}\n", self.medium.name(), self.settings.blocks, self.settings.directory),
            ".SHUTDOWN" => {
                info!("the service was asked to end");
                self.stop.moment.set(command.count);
                self.stop.ending.store(true, Relaxed);
                String::new()
            }
            ".PUBLISH" => self.publish(&words)?,
            ".KEEP" => self.keep_word(&words)?,
            ".NOTE" => {
                let text = self.note_of_crew(&words.join(" "), &command.by)?;
                self.begin_file()?;
                text
            }
            _ if self.state == State::Dismounted => return Err(No::NoMedia(self.failures.why.clone()).into()),
            _ if self.recorder.is_none() && word != ".RECORD" => {
                return Err(
                    No::NoMedia(format!("recording is down: {}; once that is mended, give .RECORD", self.failures.why)).into()
                );
            }
            ".RECORD" => return self.record(&words),
            ".STOP" if matches!(self.state, State::Ready | State::Recording | State::Full) => {
                let lost = self.finish(Ended::ByCommand, command.count)?;
                if self.recorder.is_none() {
                    return Err(No::Failed("the disk failed, and the file may not be closed; see the log".to_string()).into());
                }
                if lost > 0 {
                    let text =
                        format!("the recording is stopped, and {lost} messages that came before are in no file; see the log");
                    return Err(No::Failed(text).into());
                }
                String::new()
            }
            ".STOP" if self.wish.waits.take().is_some() => {
                self.wish.wants = false;
                self.note(false, "the recording that waits for the clock was stopped by a command");
                String::new()
            }
            ".STOP" => return Err(No::Mode("no file is recorded; .RECORD begins one".to_string()).into()),
            ".ERASE" if matches!(self.state, State::Ready | State::Recording) => {
                return Err(No::Mode("it is recording; give .STOP first".to_string()).into());
            }
            ".ERASE" => {
                self.medium.keep(false);
                self.end_readers("the medium was erased");
                self.recorder()?.erase()?;
                self.settle()?;
                self.state = State::Idle;
                self.file = None;
                self.point = Point::default();
                info!("the medium was erased by a command");
                String::new()
            }
            ".EVENT" => return self.event(&words),
            ".FILES" => self.files()?,
            ".MEDIA" => self.media()?,
            ".DISMOUNT" => return self.dismount(),
            ".FIND" => return self.find(&words),
            ".REPLAY" => return self.replay(&words),
            ".FOLLOW" => return self.follow(&words),
            // (`control` answers the others before they come here)
            _ => return Err(No::Mode(format!("{word} is for a connection over the socket or TCP")).into()),
        };
        Ok(Reply::Text(text))
    }

    fn record(&mut self, words: &[&str]) -> Answer {
        // (where the medium is down it is opened first, and what waits begins then)
        if let Some(until) = self.wish.waits
            && self.recorder.is_some()
        {
            let left = until.saturating_duration_since(std::time::Instant::now()).as_secs() + 1;
            return Err(No::Mode(format!(
                "the clock is not in sync; a recording begins once it is, within {left} s (wait_for_time)"
            ))
            .into());
        }
        if self.state == State::Recording {
            return Err(No::Mode("a file is recorded already; .STOP ends it".to_string()).into());
        }
        if words.len() > 1 {
            return Err(No::Parameter("give one name, or none".to_string()).into());
        }
        if self.recorder.is_none()
            && let Err(refusal) = self.open_again()
        {
            self.failures.why = refusal.text().to_string();
            return Err(No::NoMedia(self.failures.why.clone()).into());
        }
        if self.wish.waits.is_some() {
            return Ok(Reply::Text(String::new()));
        }
        let (name, was_ready) = (words.first().copied(), self.state == State::Ready);
        let begun = match self.start(name) {
            Err(Trouble::Full(_)) if self.next_medium(name)? => self.begin_file(),
            other => other,
        };
        // where a name is refused it records on as it did
        if was_ready && matches!(begun, Err(Trouble::Refused(_))) {
            self.wish.wants = true;
            self.medium.keep(true);
        }
        if was_ready && matches!(begun, Err(Trouble::Full(_))) {
            self.next_file(Ended::Full)?;
        }
        begun?;
        Ok(Reply::Text(String::new()))
    }

    /// The used part of the medium, in percent.
    fn used(&mut self) -> u64 {
        let files = self.recorder.as_mut().and_then(|it| it.files().ok()).unwrap_or_default();
        100 * self.medium.first_block(&files).min(self.settings.blocks as u64) / self.settings.blocks as u64
    }

    fn status_line(&mut self) -> String {
        let state = match self.state {
            State::Failed(None) => "00",
            State::Failed(Some(_)) => "09",
            State::Ready | State::Recording if self.is_read() => "07",
            State::Ready | State::Recording => "05",
            _ if self.is_read() => "06",
            _ => "01",
        };
        let all = self.all_health();
        let warnings = all.iter().zip(&self.critical).filter(|((bits, _), mask)| bits & !(**mask) & !SILENT != 0).count();
        let critical: u32 = all.iter().zip(&self.critical).map(|((bits, _), mask)| (bits & mask).count_ones()).sum();
        let critical = critical + u32::from(self.state == State::Failed(None));
        format!("S {state} {warnings} {critical} {}%\n", self.used())
    }

    /// The bits of the recorder and of each channel, with their names.
    fn all_health(&self) -> Vec<(u32, String)> {
        let mut whole = self.clock_bits();
        whole |= if self.state == State::Full { 0x4000_0000 } else { 0 };
        whole |= if self.failures.count() > 0 || matches!(self.state, State::Failed(_)) { 0x8000_0000 } else { 0 };
        let of = |it: &Lane| (self.silence(it) | health_of(it), it.channel.name.clone());
        let mut all: Vec<_> = std::iter::once((whole, "RECORDER".to_string())).chain(self.listed().iter().map(of)).collect();
        for alarm in self.shared.alarms() {
            if let Some(it) = all.get_mut(alarm.place.map_or(0, |it| it + 1)) {
                it.0 |= alarm.kind.bit();
            }
        }
        all
    }

    fn health(&mut self, words: &[&str]) -> Result<String, No> {
        let all = self.all_health();
        let mut text = String::new();
        match words {
            [] => {
                for (number, (bits, name)) in all.iter().enumerate() {
                    let _ = writeln!(text, "{number} {bits:08X} {name}");
                }
            }
            [number] => {
                let Some((number, (bits, _))) = number.parse::<usize>().ok().and_then(|it| Some((it, all.get(it)?))) else {
                    return Err(No::Parameter(format!("there is no feature {number}; .HEALTH lists them")));
                };
                for (bit, what) in BITS.iter().filter(|it| bits & it.0 != 0) {
                    let _ = writeln!(text, "{number} {bit:08X} {what}");
                }
                if *bits & 0x8000_0000 != 0 {
                    let _ = writeln!(text, "{number} {bits:08X} {}", self.failures.why);
                }
            }
            _ => return Err(No::Parameter("give the number of one feature, or nothing".to_string())),
        }
        Ok(text)
    }

    fn clock_bits(&self) -> u32 {
        let is_right = self.clock.known.is_synchronised() == Some(true);
        u32::from(self.clock.steps_seen > 0) << 3 | u32::from(!is_right) << 4
    }

    pub(crate) fn silence(&self, lane: &Lane) -> u32 {
        let since = lane.last.as_ref().map(|it| self.count().saturating_sub(it.0));
        if lane.channel.input.is_some() && since.is_none_or(|it| it > 10 * 10_000_000) { 4 } else { 0 }
    }

    fn find(&mut self, words: &[&str]) -> Answer {
        let files = self.recorder()?.files()?;
        if let Some(file) = words.first() {
            let Some(file) = file.parse::<usize>().ok().filter(|it| (1..=files.len()).contains(it)) else {
                return Err(No::Parameter(format!("there is no file {file}; .FILES lists them")).into());
            };
            let rest = words[1..].join(" ");
            let count = match (rest.parse::<u64>(), clock::parse(&rest)) {
                _ if rest.is_empty() => Some(0),
                (Ok(count), _) => Some(count).filter(|it| *it < COUNTS),
                (_, Some(civil)) => {
                    self.readable(file - 1)?;
                    match self.recorder()?.count_at(file - 1, &civil) {
                        Err(error @ (Refused::BadCivil | Refused::BadFile)) => return Err(No::Parameter(error.to_string()).into()),
                        other => Some(other?.unwrap_or(0)),
                    }
                }
                _ => None,
            };
            let Some(count) = count else {
                return Err(No::Parameter(format!(
                    "{rest:?} is no count and no time; give a number below 2^48, or as 2026-05-17 09:00:04.00"
                ))
                .into());
            };
            self.point = Point { file: file - 1, count };
        }
        let record = if self.state == State::Recording { self.medium.first_block(&files) } else { 0 };
        Ok(Reply::Text(format!("F {record} {} {}\n", self.point.file + 1, self.point.count)))
    }

    fn channels(&self, words: &[&str]) -> Result<Vec<u16>, No> {
        let is_there = |id: u16| self.lanes.iter().any(|it| it.channel.id == id);
        let found: Option<Vec<u16>> = words.iter().map(|it| it.parse().ok().filter(|id| is_there(*id))).collect();
        found.ok_or_else(|| No::Parameter("give IDs of channels of the settings, or none for all".to_string()))
    }

    fn replay(&mut self, words: &[&str]) -> Answer {
        let channels = self.channels(words)?;
        let Point { file, count } = self.point;
        if file >= self.recorder()?.files()?.len() {
            return Err(No::Parameter("there is no such file; .FILES lists them, .FIND chooses one".to_string()).into());
        }
        self.readable(file)?;
        // what stands behind this count comes later than now
        let to = if self.file.as_ref().is_some_and(|it| it.number == file) { self.count() } else { COUNTS - 1 };
        Ok(self.add(readers::replay(file, count, to.max(count), channels))?)
    }

    fn follow(&mut self, words: &[&str]) -> Answer {
        let channels = self.channels(words)?;
        let (file, from) = (self.file.as_ref().map_or(0, |it| it.number), self.count());
        Ok(self.add(readers::follow(file, from, channels))?)
    }

    /// Whether a file may be read now, and can be; else why not.
    fn readable(&mut self, file: usize) -> Result<(), Undone> {
        if !self.may_read(file)? {
            return Err(too_long().into());
        }
        self.read_file_plainly(file)?.map_or(Ok(()), |why| Err(No::Failed(why).into()))
    }

    fn add(&mut self, (reader, reply): (readers::Reader, Reply)) -> Result<Reply, No> {
        self.drop_gone();
        if self.readers.len() >= MOST {
            return Err(No::Failed(format!("{MOST} read already; end one of them first")));
        }
        self.readers.push(reader);
        Ok(reply)
    }

    fn publish(&mut self, words: &[&str]) -> Result<String, No> {
        let usage =
            || No::Parameter("give .PUBLISH START ADDRESS PORT, .PUBLISH STOP [ADDRESS PORT], or .PUBLISH LIST".to_string());
        let address = |host: &str, port: &str| {
            let port = port.parse().ok().filter(|it| *it != 0)?;
            Some(SocketAddr::from((host.parse::<IpAddr>().ok()?, port)))
        };
        let upper: Vec<String> = words.iter().map(|it| it.to_ascii_uppercase()).collect();
        match upper.iter().map(String::as_str).collect::<Vec<_>>().as_slice() {
            [] | ["LIST"] => Ok(self.live.addresses().fold(String::new(), |mut out, it| {
                let _ = writeln!(out, "{} {} ALL", it.ip(), it.port());
                out
            })),
            ["START", host, port] | ["START", host, port, "ALL"] => {
                let address = address(host, port).ok_or_else(usage)?;
                if let Some(lane) = self.lanes.iter().find(|it| it.channel.hears(address)) {
                    let id = lane.channel.id;
                    return Err(No::Parameter(format!("channel {id} listens there, so that what goes out would come in again")));
                }
                // what the file has up to now does not go out
                if !self.live.is_on()
                    && let (Some(recorder), Some(Current { number, .. })) = (&mut self.recorder, &self.file)
                {
                    let size = recorder.files().ok().and_then(|it| Some(it.get(*number)?.size));
                    self.live.shown = size.unwrap_or(0);
                }
                match self.live.add(address) {
                    Ok(true) => {
                        info!("what becomes durable goes to UDP {address}");
                        Ok(String::new())
                    }
                    Ok(false) => Err(No::Mode("it goes there already, or to too many; .PUBLISH LIST lists them".to_string())),
                    Err(error) => Err(No::Failed(format!("UDP {address}: {error}"))),
                }
            }
            ["STOP"] if self.live.remove(None) => Ok(String::new()),
            ["STOP", host, port] if self.live.remove(Some(address(host, port).ok_or_else(usage)?)) => Ok(String::new()),
            ["STOP", ..] => Err(No::Mode("nothing goes there; .PUBLISH LIST lists where to".to_string())),
            _ => Err(usage()),
        }
    }

    /// All figures, as `r10ctl watch` takes them.
    fn figures(&mut self) -> Result<String, Trouble> {
        let files = self.recorder.as_mut().map_or(Ok(Vec::new()), r10::Recorder::files)?;
        let left = self.recorder.as_mut().map(r10::Recorder::status).transpose()?.map_or(0, |it| it.free);
        let free = (self.settings.blocks as u64).saturating_sub(self.medium.first_block(&files)) * 512 + self.free_after();
        let state = self.state.word();
        self.drop_gone();
        let mut channels = Vec::new();
        for (place, lane) in self.lanes.iter().enumerate().take(self.settings.channels.len()) {
            let overflow = match &mut self.recorder {
                Some(recorder) => recorder.channel_at(place)?.lost.saturating_sub(lane.given),
                None => 0,
            };
            let (count, length, bytes) = lane.last.clone().unwrap_or_default();
            let mut hex = String::new();
            entries::to_hex(&mut hex, &bytes);
            let input = match &lane.channel.input {
                None => String::new(),
                Some(crate::settings::Input::Udp(it)) => format!("udp {}", it.address),
                Some(crate::settings::Input::Serial { path, .. }) => format!("serial {}", path.display()),
                Some(crate::settings::Input::Lines { path }) => {
                    path.as_ref().map_or("standard input".to_string(), |it| format!("lines {}", it.display()))
                }
            };
            channels.push(json!({
                "id": lane.channel.id, "name": lane.channel.name, "kind": lane.channel.kind.name(), "input": input,
                "came": lane.came.messages.load(Relaxed), "bytes": lane.came.bytes.load(Relaxed),
                "bad": lane.came.bad.load(Relaxed), "moved": lane.came.moved.load(Relaxed),
                "unstamped": lane.came.unstamped.load(Relaxed), "late": lane.came.late.load(Relaxed),
                "others": lane.came.others.load(Relaxed),
                "durable": lane.durable, "in_file": lane.durable_in_file, "lost": lane.lost + overflow,
                "refused": lane.refused, "passed": lane.passed, "waiting": lane.waiting,
                "last_count": count, "last_length": length, "last_bytes": hex,
            }));
        }
        let log = self.notes.as_ref().map(|it| {
            let lane = &self.lanes[it.place];
            json!({ "id": lane.channel.id, "durable": lane.durable, "waiting": it.waiting(), "left_out": lane.lost })
        });
        // times are those since the last question
        let times = std::mem::take(&mut self.commits.times);
        let file =
            self.file.as_ref().filter(|_| self.state != State::Ready).map(
                |it| json!({ "number": it.number + 1, "name": it.name, "bytes": files.get(it.number).map_or(0, |it| it.size) }),
            );
        let all = json!({
            "state": state, "why": self.failures.why, "count": self.count(), "file": file, "files": files.len(), "free": free,
            "left_in_file": left,
            "medium": { "number": self.medium.place + 1, "of": self.settings.media.len(), "volume": self.medium.volume,
            "path": self.medium.name(), "left": self.row.left() },
            "medium_bytes": self.all_bytes(), "commits": self.commits.count(), "failures": self.failures.count(),
            "clock_steps": self.clock.steps_seen, "clock": self.clock.value(),
            "queued_bytes": self.intake.queued(), "readers": self.readers.len(), "datagrams_out": self.live.datagrams,
            "datagrams_dropped": self.live.dropped,
            "memory_kib": figures::own_memory(), "commit_us": self.settings.commit.as_micros() as u64,
            "durable_after_us": { "half": times.below(500), "of_100_99": times.below(990), "most": times.most(),
            "messages": times.count() },
            "channels": channels, "log": log,
        });
        Ok(format!("{all}\n"))
    }
}

pub(crate) fn too_long() -> No {
    No::Mode(
        "that file is long, and reading it would hold up what is recorded; give .STOP first, or read a copy with r10 play"
            .to_string(),
    )
}

pub(crate) fn health_of(lane: &Lane) -> u32 {
    let lost = lane.lost + lane.came.lost.load(Relaxed);
    let wrong = lane.refused + lane.came.bad.load(Relaxed);
    u32::from(lost > 0) | u32::from(wrong > 0) << 1
}

/// How long a client waits for the service at most, before it says so.
pub const PATIENCE: Duration = Duration::from_mins(2);
