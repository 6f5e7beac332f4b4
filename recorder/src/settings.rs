//! The settings file: what may stand in it, and what is wrong with one, by line, key, value and limit.
use std::collections::{BTreeMap, BTreeSet};
use std::fmt;
use std::net::{IpAddr, SocketAddr};
use std::ops::RangeInclusive;
use std::path::{Path, PathBuf};
use std::time::Duration;

use serde::Deserialize;
use sha2::{Digest, Sha256};
use toml::Spanned;

use crate::clock_programs::PROGRAMS;
use crate::kinds::{self, Kind};
use crate::{setup_text, udp};

impl Channel {
    /// Whether it has the socket at this address.
    pub fn has(&self, at: SocketAddr) -> bool {
        matches!(&self.input, Some(Input::Udp(it)) if it.address == at)
    }

    /// Whether its socket hears what is sent to this address of this machine.
    pub fn hears(&self, to: SocketAddr) -> bool {
        match &self.input {
            // (a group is one address of many machines: its socket may have no other)
            Some(Input::Udp(Udp { address, group, .. })) if address.port() == to.port() => {
                let is_here = || to.ip() == address.ip() || to.ip().is_unspecified() || udp::comes_here(to.ip());
                *group == Some(to.ip()) || !to.ip().is_multicast() && has(address.ip(), to.ip()) && is_here()
            }
            _ => false,
        }
    }
}

/// Whether a socket at the one address has the other: one without an address has all of this machine.
fn has(one: IpAddr, other: IpAddr) -> bool {
    one == other || one.is_unspecified() && (one.is_ipv6() || other.is_ipv4())
}

/// Whether two sockets cannot be had together.
fn are_one(one: SocketAddr, other: SocketAddr) -> bool {
    one.port() == other.port() && (has(one.ip(), other.ip()) || has(other.ip(), one.ip()))
}

/// What a datagram begins with.
#[derive(Clone, Copy, Debug, PartialEq, Eq)]
pub enum Header {
    /// it is the message
    None,
    /// this recorder's own header: channel, stamp, number
    R10,
    /// a transfer header of chapter 10, and packets
    Chapter10,
}

/// A socket, which several channels may have where a datagram says of which it is.
#[derive(Clone, Debug, PartialEq, Eq)]
pub struct Udp {
    pub address: SocketAddr,
    pub group: Option<IpAddr>,
    pub receive_mib: u64,
    pub header: Header,
    /// how far a source's stamp may be from its arrival
    pub stamp_limit: Duration,
    /// the clock of a card that stamps datagrams
    pub card: Option<PathBuf>,
}

/// Where a channel's messages come from.
#[derive(Clone, Debug, PartialEq, Eq)]
pub enum Input {
    /// A datagram is a message, or has some.
    Udp(Udp),
    /// A message ends at a byte, a length or a pause.
    Serial { path: PathBuf, baud: Option<u32>, end: Option<u8>, length: usize, pause: Option<Duration> },
    /// A line is an entry, in the form of a script's offers. None is standard input.
    Lines { path: Option<PathBuf> },
}

/// Whether a recording begins by itself at the start of the service.
#[derive(Clone, Copy, Debug, PartialEq, Eq)]
pub enum Begin {
    Record,
    /// where the last file was cut off: by a loss of power, or a kill
    Resume,
    Wait,
}

#[derive(Clone, Debug)]
pub struct Channel {
    pub id: u16,
    pub kind: Kind,
    pub name: String,
    pub capacity: usize,
    pub input: Option<Input>,
    /// bytes that may wait between the input's thread and the recorder
    pub queue: usize,
    pub sub: u16,
    /// its channel in packets of chapter 10 that come
    pub source: u16,
    /// after how long it is silent, once it was heard; none is that of [`Alarms`], and zero never
    pub silent: Option<Duration>,
}

/// When an alarm begins.
#[derive(Clone, Debug, PartialEq, Eq)]
pub struct Alarms {
    /// a channel that was heard is silent for so long
    pub silent: Option<Duration>,
    /// it ends where no message was lost for so long
    pub loss: Duration,
    /// the medium is full in so long
    pub full: Duration,
    /// nothing became durable for so long
    pub commit: Duration,
}

#[derive(Clone, Debug)]
pub struct Settings {
    /// the file that they are of
    pub file: PathBuf,
    /// the medium, or several in a row
    pub media: Vec<PathBuf>,
    /// the oldest medium of a row is overwritten where none is without a file
    pub overwrite: bool,
    /// a folder for the marks of media that are to be kept; without it a mark is beside the medium
    pub marks: Option<PathBuf>,
    /// so many bytes of messages that are not durable are kept, to be recorded again where the disk fails
    pub kept: usize,
    /// of each medium
    pub blocks: usize,
    pub directory: usize,
    /// the settings as the text of a script, which the library takes
    pub script: String,
    pub setup: Vec<u8>,
    pub begin: Begin,
    pub prefix: String,
    pub commit: Duration,
    pub file_for: Duration,
    pub tries: u32,
    /// how long a stop takes in what came before it
    pub stop_for: Duration,
    /// how long the closing of a file that was cut off may take, before that is set aside
    pub seal_for: Option<Duration>,
    /// the channel of times
    pub time: u16,
    pub clock_event: u16,
    /// how long a recording that begins by itself waits for the clock to be in sync
    pub wait_for_time: Option<Duration>,
    /// the programs that are asked about the clock
    pub ask_for_time: Vec<String>,
    /// where the kernel has the times of a pulse each second
    pub pps: Option<PathBuf>,
    pub socket: PathBuf,
    pub tcp: Option<SocketAddr>,
    pub peers: Vec<IpAddr>,
    /// a text that a change over TCP or by a page wants
    pub token: Option<String>,
    pub metrics: Option<SocketAddr>,
    pub page: Option<SocketAddr>,
    /// whether a page may give commands
    pub page_control: bool,
    /// a file that names the recorders of a group
    pub group: Option<PathBuf>,
    /// a command that gets each alarm, with its words
    pub alarm: Vec<String>,
    pub alarms: Alarms,
    pub volume: String,
    /// `acknowledge` is begun anew at so many bytes
    pub acknowledge_most: u64,
    pub publish: Option<SocketAddr>,
    pub acknowledge: Option<PathBuf>,
    pub channels: Vec<Channel>,
    pub log: Log,
    /// the SHA-256 sum of the text, in hex digits
    pub sum: String,
}

/// The log channel, in which the service says what became of the recording.
#[derive(Clone, Copy, Debug, PartialEq, Eq)]
pub enum Log {
    Channel(u16),
    /// it is left out by `log = 0`
    Off,
    /// 64 channels are all that there may be
    NoRoom,
}

impl Log {
    pub fn id(self) -> Option<u16> {
        if let Log::Channel(id) = self { Some(id) } else { None }
    }
}

/// How many lines the log channel's lane has room for.
pub const LOG_CAPACITY: usize = 1024;

/// The name of a medium of a row, by its place from 0: its volume's, and its file's in a folder.
fn volume_of(volume: &str, place: usize) -> String {
    format!("{volume}-{:0DIGITS$}", place + 1)
}

/// How many blocks a size is, as "8 GiB" or "512 MiB".
fn blocks_of(size: &str) -> Option<u64> {
    let (number, unit) = size.trim().split_once(' ')?;
    let shift = match unit.trim() {
        "MiB" => 11,
        "GiB" => 21,
        _ => return None,
    };
    number.parse::<u64>().ok()?.checked_mul(1 << shift)
}

impl Settings {
    /// The name of a medium's volume, by its place. The volumes of a row have numbers.
    pub fn volume_at(&self, place: usize) -> String {
        if self.media.len() > 1 { volume_of(&self.volume, place) } else { self.volume.clone() }
    }

    /// The text of a script for a medium, by its place: they differ in the volume alone.
    pub fn script_at(&self, place: usize) -> String {
        let line = |it: &str| format!("\nvolume = \"{it}\"\n");
        self.script.replacen(&line(&self.volume), &line(&self.volume_at(place)), 1)
    }

    /// The keys in which other settings differ that are taken at the start of the service alone. Names of channels, limits of the
    /// recording and all about alarms are taken at once.
    pub fn differ_for_good(&self, other: &Settings) -> Vec<&'static str> {
        let channel = |it: &Channel| (it.id, it.kind.name(), it.capacity, it.input.clone(), it.queue, it.sub, it.source);
        let channels = |it: &Settings| it.channels.iter().map(channel).collect::<Vec<_>>();
        [
            ("medium or media", self.media != other.media),
            ("overwrite or marks", (self.overwrite, &self.marks) != (other.overwrite, &other.marks)),
            ("blocks, directory, volume, nodes, time, event or a channel's form", self.script != other.script),
            ("setup", self.setup != other.setup),
            ("start", self.begin != other.begin),
            ("prefix", self.prefix != other.prefix),
            ("stop_seconds", self.stop_for != other.stop_for),
            ("kept_mib", self.kept != other.kept),
            ("seal_seconds", self.seal_for != other.seal_for),
            ("log", self.log != other.log),
            ("clock_event", self.clock_event != other.clock_event),
            ("wait_for_time", self.wait_for_time != other.wait_for_time),
            ("ask_for_time", self.ask_for_time != other.ask_for_time),
            ("pps", self.pps != other.pps),
            ("control.socket", self.socket != other.socket),
            ("control.tcp", self.tcp != other.tcp),
            ("control.peers", self.peers != other.peers),
            ("control.token", self.token != other.token),
            ("metrics", self.metrics != other.metrics),
            ("page or page_control", (self.page, self.page_control) != (other.page, other.page_control)),
            ("group", self.group != other.group),
            ("publish", self.publish != other.publish),
            ("acknowledge", (&self.acknowledge, self.acknowledge_most) != (&other.acknowledge, other.acknowledge_most)),
            ("[[channel]]", channels(self) != channels(other)),
        ]
        .into_iter()
        .filter_map(|(key, differs)| differs.then_some(key))
        .collect()
    }
}

/// What is wrong, and on which line.
#[derive(Clone, Debug, PartialEq, Eq)]
pub struct Fault {
    pub line: usize,
    pub text: String,
}

impl fmt::Display for Fault {
    fn fmt(&self, f: &mut fmt::Formatter) -> fmt::Result {
        write!(f, "line {}: {}", self.line, self.text)
    }
}

#[derive(Deserialize)]
#[serde(deny_unknown_fields)]
struct Document {
    medium: Option<Spanned<PathBuf>>,
    media: Option<Spanned<MediaKey>>,
    overwrite: Option<Spanned<bool>>,
    marks: Option<Spanned<PathBuf>>,
    kept_mib: Option<Spanned<u64>>,
    blocks: Option<Spanned<u64>>,
    directory: Option<Spanned<u64>>,
    volume: Spanned<String>,
    nodes: Option<Spanned<u64>>,
    time: Option<Spanned<u64>>,
    event: Option<Spanned<u64>>,
    setup: Option<Spanned<PathBuf>>,
    start: Option<Spanned<String>>,
    prefix: Option<Spanned<String>>,
    commit_ms: Option<Spanned<u64>>,
    file_minutes: Option<Spanned<u64>>,
    tries: Option<Spanned<u64>>,
    stop_seconds: Option<Spanned<u64>>,
    seal_seconds: Option<Spanned<u64>>,
    clock_event: Option<Spanned<u64>>,
    wait_for_time: Option<Spanned<u64>>,
    ask_for_time: Option<Vec<Spanned<String>>>,
    pps: Option<Spanned<PathBuf>>,
    acknowledge: Option<Spanned<PathBuf>>,
    acknowledge_mib: Option<Spanned<u64>>,
    control: ControlTable,
    metrics: Option<Spanned<String>>,
    page: Option<Spanned<String>>,
    page_control: Option<Spanned<bool>>,
    group: Option<Spanned<PathBuf>>,
    alarm: Option<Spanned<Vec<String>>>,
    #[serde(default)]
    alarms: AlarmTable,
    publish: Option<Spanned<String>>,
    log: Option<Spanned<u64>>,
    channel: Vec<ChannelTable>,
}

#[derive(Deserialize)]
#[serde(untagged, deny_unknown_fields, expecting = "media: give a list of paths, or { folder = PATH, each = SIZE, keep = NUMBER }")]
enum MediaKey {
    List(Vec<PathBuf>),
    Folder { folder: PathBuf, each: String, keep: u64 },
}

#[derive(Deserialize)]
#[serde(deny_unknown_fields, expecting = "a table")]
struct ControlTable {
    socket: Spanned<PathBuf>,
    tcp: Option<Spanned<String>>,
    #[serde(default)]
    peers: Vec<Spanned<String>>,
    token: Option<Spanned<PathBuf>>,
}

#[derive(Default, Deserialize)]
#[serde(deny_unknown_fields, expecting = "a table")]
struct AlarmTable {
    silent_s: Option<Spanned<u64>>,
    loss_s: Option<Spanned<u64>>,
    full_minutes: Option<Spanned<u64>>,
    commit_s: Option<Spanned<u64>>,
}

#[derive(Deserialize)]
#[serde(deny_unknown_fields, expecting = "a table")]
struct ChannelTable {
    id: Spanned<u64>,
    kind: Spanned<String>,
    name: Option<Spanned<String>>,
    capacity: Option<Spanned<u64>>,
    check: Option<Spanned<u64>>,
    bytes: Option<Spanned<u64>>,
    number: Option<Spanned<u64>>,
    bits: Option<Spanned<u64>>,
    queue_mib: Option<Spanned<u64>>,
    sub: Option<Spanned<u64>>,
    silent_s: Option<Spanned<u64>>,
    input: Option<Spanned<InputTable>>,
}

#[derive(Deserialize)]
#[serde(deny_unknown_fields, expecting = "a table")]
struct InputTable {
    udp: Option<Spanned<String>>,
    group: Option<Spanned<String>>,
    receive_mib: Option<Spanned<u64>>,
    header: Option<Spanned<String>>,
    stamp_limit_ms: Option<Spanned<u64>>,
    card: Option<Spanned<PathBuf>>,
    source: Option<Spanned<u64>>,
    serial: Option<Spanned<PathBuf>>,
    baud: Option<Spanned<u64>>,
    end: Option<Spanned<u64>>,
    length: Option<Spanned<u64>>,
    pause_ms: Option<Spanned<u64>>,
    lines: Option<Spanned<PathBuf>>,
}

/// A recorder has no more channels.
const MOST_CHANNELS: usize = 64;

/// A row has no more media, and so many digits number them.
const MOST_MEDIA: usize = 999;
const DIGITS: usize = 3;
const MOST_BLOCKS: u64 = 16_777_216;

/// The system takes no longer path of a socket.
const LONGEST_SOCKET: usize = 107;

/// The rates that a serial line may have.
pub const RATES: [u32; 13] =
    [1200, 2400, 4800, 9600, 19_200, 38_400, 57_600, 115_200, 230_400, 460_800, 500_000, 921_600, 1_000_000];

/// Whether a path is one of a device, which is there or not, and is never made.
pub fn is_of_devices(path: &Path) -> bool {
    path.starts_with("/dev") && !path.starts_with("/dev/shm")
}

/// Reads a settings file, or says what is wrong with it, a line each.
pub fn of_file(path: &Path) -> Result<Settings, Vec<String>> {
    let text =
        std::fs::read_to_string(path).map_err(|it| vec![format!("{}: {it}; give the file with the settings", path.display())])?;
    let folder = path.parent().map(Path::to_path_buf).unwrap_or_default();
    let folder = std::path::absolute(if folder.as_os_str().is_empty() { Path::new(".") } else { &folder }).unwrap_or(folder);
    let settings =
        read(&text, &folder).map_err(|faults| faults.iter().map(|it| format!("{}: {it}", path.display())).collect::<Vec<_>>())?;
    Ok(Settings { file: path.to_path_buf(), ..settings })
}

/// Reads the text of a settings file. Paths that are not absolute are taken from the folder of the file.
pub fn read(text: &str, folder: &Path) -> Result<Settings, Vec<Fault>> {
    // each level is read one call deeper: a long row of brackets would use up the stack
    if let Some(line) = line_too_deep(text) {
        return Err(vec![Fault {
            line,
            text: "brackets or dots are nested too deep: settings have tables and lists of one level".to_string(),
        }]);
    }
    let document: Document = toml::from_str(text).map_err(|error| {
        let said = error.to_string();
        let said = said.rsplit_once(" at line").map_or(said.as_str(), |it| it.0);
        // of an unknown key the crate says where its table ends
        let key = said.strip_prefix("unknown field `").and_then(|it| it.split('`').next());
        let twice = said.strip_prefix("duplicate field `").and_then(|it| it.split('`').next());
        let line = key.and_then(|it| line_of_key(text, it)).or(twice.and_then(|it| line_of_second(text, it)));
        let line = line.or(error.line_col().map(|it| it.0 + 1)).unwrap_or(1);
        vec![Fault { line, text: in_words(said) }]
    })?;
    let mut reader = Reader { text, folder, faults: Vec::new(), sockets: BTreeMap::new() };
    let settings = reader.settings(document);
    // whatever the limits here let through, the library has the last word
    if reader.faults.is_empty() && !is_taken(&settings.script) {
        let text = "the recorder does not take these settings: compare them with the limits in docs/FORMAT.md".to_string();
        reader.faults.push(Fault { line: 1, text });
    }
    reader.faults.sort_by_key(|it| it.line);
    if reader.faults.is_empty() { Ok(settings) } else { Err(reader.faults) }
}

/// The first line on which more brackets are open, or more dots stand, than any settings have. Those in texts count too.
fn line_too_deep(text: &str) -> Option<usize> {
    const MOST: usize = 500;
    let mut open = 0usize;
    let is_too_deep = |line: &str| {
        let mut dots = 0;
        line.bytes().any(|it| {
            match it {
                b'[' | b'{' => open += 1,
                b']' | b'}' => open = open.saturating_sub(1),
                b'.' => dots += 1,
                _ => (),
            }
            open > MOST || dots > MOST
        })
    };
    text.lines().position(is_too_deep).map(|it| it + 1)
}

/// Whether the library takes the settings of a script: of a region of one block it then says that this is another number of blocks.
fn is_taken(script: &str) -> bool {
    r10::Recorder::open(r10::Region::memory(1), 1, script).err().map(|it| it.refusal) == Some(r10::Refusal::Blocks)
}

/// What the crate says of types, in the words of who writes settings.
fn in_words(said: &str) -> String {
    [
        ("expected u64", "expected a whole number"),
        ("expected a sequence", "expected a list"),
        ("invalid type: map", "invalid type: table"),
    ]
    .iter()
    .fold(said.to_string(), |text, (theirs, ours)| text.replace(theirs, ours))
}

/// The first line on which a key is given a value.
fn line_of_key(text: &str, key: &str) -> Option<usize> {
    text.lines().position(|it| gives(it, key)).map(|it| it + 1)
}

/// The first line on which a key is given a value that its table has already.
fn line_of_second(text: &str, key: &str) -> Option<usize> {
    let mut has_it = false;
    let is_second = |line: &str| {
        has_it &= !line.trim_start().starts_with('[');
        gives(line, key) && std::mem::replace(&mut has_it, true)
    };
    text.lines().position(is_second).map(|it| it + 1)
}

/// Whether a line gives a key a value.
fn gives(line: &str, key: &str) -> bool {
    line.match_indices(key).any(|(at, _)| {
        let is_word = line[..at].chars().next_back().is_none_or(|it| it.is_whitespace() || ",{.\"".contains(it));
        is_word && line[at + key.len()..].trim_start_matches(['"', ' ', '\t']).starts_with('=')
    })
}

struct Reader<'a> {
    text: &'a str,
    folder: &'a Path,
    faults: Vec<Fault>,
    /// sockets that several channels may have, and of which channels of packets they are
    sockets: BTreeMap<SocketAddr, (Udp, BTreeSet<u64>)>,
}

impl Reader<'_> {
    fn fault<T>(&mut self, at: &Spanned<T>, text: String) {
        let line = 1 + self.text.as_bytes()[..at.start().min(self.text.len())].iter().filter(|it| **it == b'\n').count();
        self.faults.push(Fault { line, text });
    }

    /// A number that has to be within a limit.
    fn number(&mut self, key: &str, value: &Spanned<u64>, limit: RangeInclusive<u64>) -> u64 {
        let it = *value.get_ref();
        if !limit.contains(&it) {
            self.fault(value, format!("{key} = {it}: give a number from {} to {}", limit.start(), limit.end()));
        }
        it
    }

    fn number_or(&mut self, key: &str, value: &Option<Spanned<u64>>, other: u64, limit: RangeInclusive<u64>) -> u64 {
        value.as_ref().map_or(other, |it| self.number(key, it, limit))
    }

    fn word(&mut self, key: &str, value: &Spanned<String>, longest: usize) -> String {
        let it = value.get_ref();
        if it.is_empty() || it.len() > longest || !it.bytes().all(|b| b.is_ascii_alphanumeric() || b"._-".contains(&b)) {
            self.fault(value, format!("{key} = {it:?}: give 1 to {longest} letters, digits, '.', '_' or '-'"));
        }
        it.clone()
    }

    fn address(&mut self, key: &str, value: &Spanned<String>) -> Option<SocketAddr> {
        let found = value.get_ref().parse::<SocketAddr>().ok().filter(|it| it.port() != 0);
        if found.is_none() {
            self.fault(value, format!("{key} = {:?}: give an address and a port, as \"127.0.0.1:20005\"", value.get_ref()));
        }
        found
    }

    fn host(&mut self, key: &str, value: &Spanned<String>) -> Option<IpAddr> {
        let found = value.get_ref().parse().ok();
        if found.is_none() {
            self.fault(value, format!("{key} = {:?}: give an address, as \"10.0.0.5\"", value.get_ref()));
        }
        found
    }

    fn path(&self, it: &Path) -> PathBuf {
        self.folder.join(it)
    }

    fn settings(&mut self, it: Document) -> Settings {
        let directory = self.number_or("directory", &it.directory, 63, 1..=64);
        let (media, blocks) = self.media(&it, directory);
        let overwrite = self.overwrite(&it, &media);
        // (the number of a medium of a row has room after it)
        let volume = self.word("volume", &it.volume, if media.len() > 1 { 31 - DIGITS } else { 32 });
        let nodes = self.number_or("nodes", &it.nodes, 1000, 1..=32_765);
        let time = self.number_or("time", &it.time, 1, 1..=65_535);
        let event = self.number_or("event", &it.event, 2, 1..=65_535);
        let mut script = format!(
            "blocks = {blocks}\ndirectory = {directory}\nvolume = \"{volume}\"\nnodes = {nodes}\ntime = {time}\nevent = {event}\n"
        );
        let mut taken = BTreeSet::from([time]);
        if !taken.insert(event) {
            let text = format!("event = {event}: the channel of times has this ID; give another one");
            match (&it.event, &it.time) {
                (Some(at), _) | (None, Some(at)) => self.fault(at, text),
                _ => (),
            }
        }
        if !(1..=MOST_CHANNELS).contains(&it.channel.len()) {
            self.faults.push(Fault { line: 1, text: format!("{} channels: give 1 to 64 tables [[channel]]", it.channel.len()) });
        }
        let mut inputs = BTreeMap::new();
        let channels: Vec<Channel> = it.channel.iter().map(|it| self.channel(it, &mut taken, &mut inputs, &mut script)).collect();
        let log = self.log(&it, &taken, &mut script);
        self.paths(&it, &media);
        let setup = self.setup(&it, log);
        let begin = it.start.as_ref().map_or(Begin::Resume, |at| match at.get_ref().as_str() {
            "record" => Begin::Record,
            "resume" => Begin::Resume,
            "wait" => Begin::Wait,
            other => {
                self.fault(at, format!("start = {other:?}: give \"record\", \"resume\" or \"wait\""));
                Begin::Wait
            }
        });
        let tcp = it.control.tcp.as_ref().and_then(|at| self.address("control.tcp", at));
        let peers: Vec<IpAddr> = it.control.peers.iter().filter_map(|at| self.host("control.peers", at)).collect();
        let metrics = it.metrics.as_ref().and_then(|at| self.address("metrics", at));
        let page = it.page.as_ref().and_then(|at| self.address("page", at));
        let listens = [("control.tcp", tcp, &it.control.tcp), ("metrics", metrics, &it.metrics), ("page", page, &it.page)];
        for (number, (key, address, at)) in listens.iter().enumerate() {
            let (Some(address), Some(at)) = (address, at) else { continue };
            if !address.ip().is_loopback() && peers.is_empty() {
                self.fault(
                    at,
                    format!(
                        "{key} = \"{address}\": beyond this machine it wants a list of peers; \
                         give control.peers = [\"ADDRESS\", ..]"
                    ),
                );
            }
            for (other, its, _) in &listens[..number] {
                if its.is_some_and(|it| are_one(*address, it)) {
                    self.fault(at, format!("{key} = \"{address}\": {other} has this port; give another one"));
                }
            }
        }
        let token = it.control.token.as_ref().and_then(|at| self.token(at));
        let page_control = it.page_control.as_ref().is_some_and(|at| *at.get_ref());
        if let (true, None, Some(at)) = (page_control, &it.control.token, &it.page_control) {
            self.fault(at, "page_control = true: it wants control.token, a file with the text that a command needs".to_string());
        }
        if let Some(at) = &it.alarm
            && at.get_ref().first().is_none_or(|it| !it.starts_with('/'))
        {
            self.fault(at, "alarm: give the whole path of a command, and its words, as [\"/usr/bin/beep\"]".to_string());
        }
        let publish = it.publish.as_ref().and_then(|at| self.address("publish", at));
        if let (Some(to), Some(at)) = (publish, &it.publish)
            && let Some(channel) = channels.iter().find(|it| it.hears(to))
        {
            self.fault(at, format!("publish = \"{to}\": channel {} listens there; give another address", channel.id));
        }
        Settings {
            file: PathBuf::new(),
            media,
            overwrite,
            marks: it.marks.as_ref().map(|it| self.path(it.get_ref())),
            kept: (self.number_or("kept_mib", &it.kept_mib, 32, 1..=4096) << 20) as usize,
            blocks: blocks as usize,
            directory: directory as usize,
            script,
            setup,
            begin,
            prefix: it.prefix.as_ref().map_or("R".to_string(), |at| self.word("prefix", at, 24)),
            commit: Duration::from_millis(self.number_or("commit_ms", &it.commit_ms, 100, 1..=10_000)),
            file_for: Duration::from_secs(60 * self.number_or("file_minutes", &it.file_minutes, 60, 1..=1440)),
            tries: self.number_or("tries", &it.tries, 5, 1..=100) as u32,
            stop_for: Duration::from_secs(self.number_or("stop_seconds", &it.stop_seconds, 30, 1..=600)),
            seal_for: it.seal_seconds.as_ref().map(|at| Duration::from_secs(self.number("seal_seconds", at, 1..=3600))),
            time: time as u16,
            clock_event: self.number_or("clock_event", &it.clock_event, 4095, 0..=4095) as u16,
            wait_for_time: it.wait_for_time.as_ref().map(|at| Duration::from_secs(self.number("wait_for_time", at, 1..=86_400))),
            ask_for_time: self.ask_for_time(&it),
            pps: it.pps.as_ref().map(|it| self.path(it.get_ref())),
            socket: self.path(it.control.socket.get_ref()),
            tcp,
            peers,
            token,
            metrics,
            page,
            page_control,
            group: it.group.as_ref().map(|it| self.path(it.get_ref())),
            alarm: it.alarm.as_ref().map(|it| it.get_ref().clone()).unwrap_or_default(),
            alarms: self.alarms(&it),
            volume,
            acknowledge_most: self.number_or("acknowledge_mib", &it.acknowledge_mib, 64, 1..=1_000_000) << 20,
            publish,
            acknowledge: it.acknowledge.as_ref().map(|it| self.path(it.get_ref())),
            channels,
            log,
            sum: Sha256::digest(self.text).iter().fold(String::new(), |out, it| out + &format!("{it:02x}")),
        }
    }

    /// The log channel: the one that is given, or the highest ID that nothing has.
    fn log(&mut self, it: &Document, taken: &BTreeSet<u64>, script: &mut String) -> Log {
        let given = it.log.as_ref().map(|at| (at, self.number("log", at, 0..=65_535)));
        let id = match given {
            Some((_, 0)) => return Log::Off,
            Some((at, id)) if taken.contains(&id) => {
                self.fault(at, format!("log = {id}: another channel has this ID; give one of its own, or 0 for none"));
                return Log::Off;
            }
            Some((at, id)) if it.channel.len() >= MOST_CHANNELS => {
                self.fault(
                    at,
                    format!("log = {id}: with {MOST_CHANNELS} channels there is no room for it; give 0, or leave the key out"),
                );
                return Log::Off;
            }
            None if it.channel.len() >= MOST_CHANNELS => return Log::NoRoom,
            Some((_, id)) => id,
            // (of so many IDs some are free)
            None => (1..=65_535).rev().find(|id| !taken.contains(id)).unwrap_or(65_535),
        };
        *script += &format!(
            "[[channel]]\nid = {id}\nkind = \"message\"\ncapacity = {LOG_CAPACITY}\ncheck = 16\nbytes = 16384\nnumber = 1000\n"
        );
        Log::Channel(id as u16)
    }

    /// When alarms begin. Nothing is late that has its time by `commit_ms`.
    fn alarms(&mut self, it: &Document) -> Alarms {
        let (all, second) = (&it.alarms, Duration::from_secs);
        let commit = Duration::from_millis(it.commit_ms.as_ref().map_or(100, |at| *at.get_ref()));
        Alarms {
            silent: Some(second(self.number_or("alarms.silent_s", &all.silent_s, 10, 0..=86_400))),
            loss: second(self.number_or("alarms.loss_s", &all.loss_s, 60, 1..=86_400)),
            full: second(60 * self.number_or("alarms.full_minutes", &all.full_minutes, 10, 1..=1440)),
            commit: second(self.number_or("alarms.commit_s", &all.commit_s, 2, 1..=3600)).max(commit + second(1)),
        }
    }

    /// The text of a file that a change wants, over TCP or by a page.
    fn token(&mut self, at: &Spanned<PathBuf>) -> Option<String> {
        let path = self.path(at.get_ref());
        let what = format!("control.token = {path:?}");
        match std::fs::read_to_string(&path) {
            Ok(text) if (16..=200).contains(&text.trim().len()) && text.trim().bytes().all(|it| it.is_ascii_graphic()) => {
                return Some(text.trim().to_string());
            }
            Ok(_) => {
                self.fault(at, format!("{what}: give 16 to 200 letters, digits and signs in one line, as `openssl rand -hex 16`"));
            }
            Err(error) => {
                self.fault(at, format!("{what}: {error}; make it: `openssl rand -hex 16 > FILE`, for the service's user alone"));
            }
        }
        None
    }

    fn ask_for_time(&mut self, it: &Document) -> Vec<String> {
        let Some(names) = &it.ask_for_time else { return PROGRAMS.map(str::to_string).to_vec() };
        for at in names {
            if !PROGRAMS.contains(&at.get_ref().as_str()) {
                self.fault(at, format!("ask_for_time has {:?}: give some of {PROGRAMS:?}, or []", at.get_ref()));
            }
        }
        names.iter().map(|it| it.get_ref().clone()).collect()
    }

    /// The media in their order, and how many blocks each has.
    fn media(&mut self, it: &Document, directory: u64) -> (Vec<PathBuf>, u64) {
        let limit = directory + 2..=MOST_BLOCKS;
        let blocks = it.blocks.as_ref().map(|at| self.number("blocks", at, limit.clone()));
        let missing = |key: &str, what: &str| Fault { line: 1, text: format!("{key} is missing: give {what}") };
        let (media, of_each) = match (&it.medium, it.media.as_ref().map(|at| (at, at.get_ref()))) {
            (Some(at), None) => (vec![self.path(at.get_ref())], None),
            (None, Some((at, MediaKey::List(paths)))) => {
                if !(1..=MOST_MEDIA).contains(&paths.len()) {
                    self.fault(at, format!("media has {} paths: give 1 to {MOST_MEDIA}", paths.len()));
                }
                (paths.iter().map(|it| self.path(it)).collect(), None)
            }
            (None, Some((at, MediaKey::Folder { folder, each, keep }))) => {
                if !(1..=MOST_MEDIA as u64).contains(keep) {
                    self.fault(at, format!("keep = {keep}: give a number from 1 to {MOST_MEDIA}"));
                }
                let size = blocks_of(each).filter(|it| limit.contains(it));
                if size.is_none() {
                    self.fault(at, format!("each = {each:?}: give a size up to \"8 GiB\", as \"512 MiB\""));
                }
                if let Some(at) = &it.blocks {
                    self.fault(at, "blocks: `each` says how large a medium is; take the key out".to_string());
                }
                let name = |place| self.path(folder).join(volume_of(it.volume.get_ref(), place) + ".r10");
                ((0..(*keep as usize).min(MOST_MEDIA)).map(name).collect(), Some(size.unwrap_or(MOST_BLOCKS)))
            }
            (Some(at), Some(_)) => {
                self.fault(at, "medium: `media` is there too; take one of them out".to_string());
                (Vec::new(), None)
            }
            (None, None) => {
                self.faults.push(missing("medium", "a path, or `media` for several in a row"));
                (Vec::new(), None)
            }
        };
        let blocks = of_each.or(blocks).unwrap_or_else(|| {
            self.faults.push(missing("blocks", "how many of 512 bytes the medium has"));
            MOST_BLOCKS
        });
        (media, blocks)
    }

    /// Whether the oldest medium is overwritten. A device has nothing beside it that could be a mark.
    fn overwrite(&mut self, it: &Document, media: &[PathBuf]) -> bool {
        let Some(at) = it.overwrite.as_ref().filter(|at| *at.get_ref()) else { return false };
        if media.len() < 2 {
            self.fault(at, "overwrite = true: it wants `media` with two or more; without it nothing is overwritten".to_string());
        }
        if it.marks.is_none()
            && let Some(path) = media.iter().find(|it| is_of_devices(it))
        {
            let what = "nothing beside it can mark that it is to be kept; give a folder for marks, as marks = \"/var/lib/r10\"";
            self.fault(at, format!("overwrite = true: {path:?} is a device, and {what}"));
        }
        true
    }

    /// No two things have one path: what one writes the other would read, or take away.
    fn paths(&mut self, it: &Document, media: &[PathBuf]) {
        let mut named: Vec<_> = it.medium.iter().map(|at| ("medium", at)).collect();
        named.push(("control.socket", &it.control.socket));
        named.extend(it.setup.iter().map(|at| ("setup", at)));
        named.extend(it.acknowledge.iter().map(|at| ("acknowledge", at)));
        named.extend(it.control.token.iter().map(|at| ("control.token", at)));
        named.extend(it.group.iter().map(|at| ("group", at)));
        named.extend(it.marks.iter().map(|at| ("marks", at)));
        for input in it.channel.iter().filter_map(|it| it.input.as_ref()).map(Spanned::get_ref) {
            named.extend(input.serial.iter().map(|at| ("serial", at)));
            named.extend(input.lines.iter().filter(|at| at.get_ref() != Path::new("-")).map(|at| ("lines", at)));
        }
        let mut taken = BTreeMap::new();
        if let Some(at) = &it.media {
            for path in media {
                if taken.insert(path.clone(), "media").is_some() {
                    self.fault(at, format!("media has {path:?} twice; give each a path of its own"));
                }
            }
        }
        for (key, at) in named {
            let path = self.path(at.get_ref());
            if at.get_ref().as_os_str().is_empty() {
                self.fault(at, format!("{key} = \"\": give a path"));
            }
            let length = path.as_os_str().len();
            if key == "control.socket" && length > LONGEST_SOCKET {
                self.fault(
                    at,
                    format!("{key} = {path:?}: it has {length} bytes; the path of a socket has at most {LONGEST_SOCKET}"),
                );
            }
            // of two serial lines more is said elsewhere, and a pipe may have several channels
            if let Some(other) = taken.insert(path.clone(), key)
                && other != key
            {
                self.fault(at, format!("{key} = {path:?}: {other} has this path; give each a path of its own"));
            }
        }
    }

    fn setup(&mut self, it: &Document, log: Log) -> Vec<u8> {
        let Some(at) = &it.setup else {
            // a file describes itself all the same
            let mut channels = Vec::new();
            for it in &it.channel {
                let name = it.name.as_ref().map(|it| it.get_ref().as_str());
                channels.extend(Kind::of(it.kind.get_ref()).map(|kind| (*it.id.get_ref(), kind, name)));
            }
            channels.extend(log.id().map(|id| (u64::from(id), Kind::Message, Some(crate::notes::NAME))));
            let time = it.time.as_ref().map_or(1, |it| *it.get_ref());
            return setup_text::of(it.volume.get_ref(), time, &channels).into_bytes();
        };
        let path = self.path(at.get_ref());
        match std::fs::read(&path) {
            Ok(bytes) if bytes.len() > 524_260 => {
                self.fault(at, format!("setup = {path:?}: the file has {} bytes; a setup text has at most 524260", bytes.len()));
                Vec::new()
            }
            Ok(bytes) => bytes,
            Err(error) => {
                self.fault(at, format!("setup = {path:?}: {error}; give a file with the setup text (TMATS)"));
                Vec::new()
            }
        }
    }

    fn channel(
        &mut self,
        it: &ChannelTable,
        taken: &mut BTreeSet<u64>,
        inputs: &mut BTreeMap<String, u64>,
        script: &mut String,
    ) -> Channel {
        let id = self.number("id", &it.id, 1..=65_535);
        if !taken.insert(id) {
            self.fault(
                &it.id,
                format!("id = {id}: another channel has this ID; give each channel, time and event an ID of its own"),
            );
        }
        // it stands in lines of answers
        if let Some(at) = &it.name
            && at.get_ref().contains(char::is_control)
        {
            self.fault(at, format!("name = {:?}: give a text without control characters", at.get_ref()));
        }
        let kind = Kind::of(it.kind.get_ref()).unwrap_or_else(|| {
            self.fault(&it.kind, format!("kind = {:?}: give {}", it.kind.get_ref(), kinds::names(|_| true, "\"")));
            Kind::Message
        });
        let capacity = self.number_or("capacity", &it.capacity, 16_384, 1..=65_536);
        let check = self.number_or("check", &it.check, 16, 0..=32);
        if let Some(at) = &it.check
            && ![0, 8, 16, 32].contains(&check)
        {
            self.fault(at, format!("check = {check}: give 0, 8, 16 or 32 (bits)"));
        }
        let bytes = self.number_or("bytes", &it.bytes, 131_072, 128..=524_288);
        if let Some(at) = &it.bytes
            && !bytes.is_multiple_of(4)
        {
            self.fault(at, format!("bytes = {bytes}: give a multiple of 4"));
        }
        let number = self.number_or("number", &it.number, 4096, 1..=65_535);
        *script += &format!(
            "[[channel]]\nid = {id}\nkind = \"{}\"\ncapacity = {capacity}\ncheck = {check}\nbytes = {bytes}\nnumber = {number}\n",
            kind.name()
        );
        match (&it.bits, kind.bits()) {
            (Some(at), Some(limit)) => *script += &format!("bits = {}\n", self.number("bits", at, limit)),
            (Some(at), None) => {
                let with_bits = kinds::names(|it| it.bits().is_some(), "");
                self.fault(at, format!("bits = {}: only a {with_bits} channel has bits; take the key out", at.get_ref()));
            }
            (None, Some(limit)) => {
                let (least, most) = (limit.start(), limit.end());
                self.fault(&it.kind, format!("bits is missing: give {} channel bits = {least} to {most}", kind.with_article()));
            }
            (None, None) => (),
        }
        let sub = self.number_or("sub", &it.sub, 0, kinds::SUBS);
        if let Some(at) = &it.sub
            && !kind.is_bytes()
        {
            let with_subs = kinds::names(Kind::is_bytes, "");
            self.fault(at, format!("sub = {sub}: only a channel of kind {with_subs} has subchannels; take the key out"));
        }
        let queue_mib = self.number_or("queue_mib", &it.queue_mib, 16, 1..=1024);
        let input = it.input.as_ref().and_then(|at| self.input(at, kind, id, inputs));
        Channel {
            id: id as u16,
            kind,
            name: it.name.as_ref().map_or_else(|| format!("CH{id}"), |it| it.get_ref().clone()),
            capacity: capacity as usize,
            input,
            queue: (queue_mib as usize) << 20,
            sub: sub as u16,
            source: it.input.as_ref().and_then(|it| it.get_ref().source.as_ref()).map_or(id, |it| *it.get_ref()) as u16,
            silent: it.silent_s.as_ref().map(|at| Duration::from_secs(self.number("silent_s", at, 0..=86_400))),
        }
    }

    fn input(&mut self, at: &Spanned<InputTable>, kind: Kind, id: u64, inputs: &mut BTreeMap<String, u64>) -> Option<Input> {
        let it = at.get_ref();
        let count = usize::from(it.udp.is_some()) + usize::from(it.serial.is_some()) + usize::from(it.lines.is_some());
        if count != 1 {
            self.fault(at, format!("input of channel {id} has {count} of udp, serial and lines: give one of them"));
            return None;
        }
        for (key, is_there, needs, needed) in [
            ("group", it.group.is_some(), "udp", it.udp.is_some()),
            ("receive_mib", it.receive_mib.is_some(), "udp", it.udp.is_some()),
            ("header", it.header.is_some(), "udp", it.udp.is_some()),
            ("stamp_limit_ms", it.stamp_limit_ms.is_some(), "udp", it.udp.is_some()),
            ("card", it.card.is_some(), "udp", it.udp.is_some()),
            ("source", it.source.is_some(), "udp", it.udp.is_some()),
            ("baud", it.baud.is_some(), "serial", it.serial.is_some()),
            ("end", it.end.is_some(), "serial", it.serial.is_some()),
            ("length", it.length.is_some(), "serial", it.serial.is_some()),
            ("pause_ms", it.pause_ms.is_some(), "serial", it.serial.is_some()),
        ] {
            if is_there && !needed {
                self.fault(at, format!("input of channel {id} has the key {key}, which is one of {needs} inputs: take it out"));
            }
        }
        let (found, what) = if let Some(at) = &it.udp {
            let address = self.address("udp", at)?;
            if address.ip().is_multicast() {
                self.fault(
                    at,
                    format!("udp = \"{address}\": a multicast address is given by the key group; here give one of this machine"),
                );
            }
            let group = it.group.as_ref().and_then(|at| self.host("group", at));
            if let (Some(group), Some(at)) = (group, &it.group)
                && !group.is_multicast()
            {
                self.fault(at, format!("group = \"{group}\": give a multicast address"));
            } else if let (Some(group), Some(at)) = (group, &it.group)
                && group.is_ipv4() != address.is_ipv4()
            {
                self.fault(at, format!("group = \"{group}\": give one of the kind of {address}, version 4 or version 6"));
            } else if let (Some(group), Some(at)) = (group, &it.group)
                && group.is_ipv6()
                && !address.ip().is_unspecified()
            {
                self.fault(at, format!("group = \"{group}\": with a group of version 6 give udp = \"[::]:{}\"", address.port()));
            }
            // one socket would have what the other is to get
            let other = inputs.iter().find(|it| {
                it.0.strip_prefix("udp ").and_then(|it| it.parse().ok()).is_some_and(|it| it != address && are_one(it, address))
            });
            if let Some((what, other)) = other {
                let text = format!("input udp {address}: channel {other} has {what} already; give each channel a port of its own");
                self.fault(at, text);
            }
            let udp = self.udp(it, address, group);
            let source = it.source.as_ref().map_or(id, |at| self.number("source", at, 1..=65_535));
            if udp.header != Header::None {
                if let Some((other, sources)) = self.sockets.get_mut(&address) {
                    let (is_one, is_new) = (*other == udp, sources.insert(source));
                    if !is_one {
                        let text = format!("input udp {address}: another channel has it with other keys; give both the same");
                        self.fault(at, text);
                    }
                    if !is_new {
                        self.fault(
                            at,
                            format!("input udp {address}: another channel takes channel {source} of it; give another source"),
                        );
                    }
                    return Some(Input::Udp(udp));
                }
                self.sockets.insert(address, (udp.clone(), BTreeSet::from([source])));
            }
            (Input::Udp(udp), format!("udp {address}"))
        } else if let Some(at) = &it.serial {
            if !kind.is_bytes() {
                self.fault(
                    at,
                    format!("a serial line gives bytes: channel {id} of kind {} wants an input udp or lines", kind.name()),
                );
            }
            (self.serial(at, it, id), format!("serial {}", at.get_ref().display()))
        } else {
            let path = it.lines.as_ref()?.get_ref();
            let path = (path != Path::new("-")).then(|| self.path(path));
            return Some(Input::Lines { path });
        };
        if let Some(other) = inputs.insert(what.clone(), id) {
            self.fault(at, format!("input {what}: channel {other} has it already; give each channel an input of its own"));
        }
        Some(found)
    }

    fn udp(&mut self, it: &InputTable, address: SocketAddr, group: Option<IpAddr>) -> Udp {
        let header = it.header.as_ref().map_or(Header::None, |at| match at.get_ref().as_str() {
            "r10" => Header::R10,
            "ch10" => Header::Chapter10,
            other => {
                self.fault(at, format!("header = {other:?}: give \"r10\" or \"ch10\""));
                Header::None
            }
        });
        if let Some(at) = &it.stamp_limit_ms
            && header == Header::None
        {
            self.fault(at, format!("stamp_limit_ms = {}: only datagrams with a header have stamps; take it out", at.get_ref()));
        }
        if let Some(at) = &it.source
            && header != Header::Chapter10
        {
            self.fault(at, format!("source = {}: only with header = \"ch10\"; take it out", at.get_ref()));
        }
        Udp {
            address,
            group,
            receive_mib: self.number_or("receive_mib", &it.receive_mib, 32, 1..=1024),
            header,
            stamp_limit: Duration::from_millis(self.number_or("stamp_limit_ms", &it.stamp_limit_ms, 1000, 1..=60_000)),
            card: it.card.as_ref().map(|it| self.path(it.get_ref())),
        }
    }

    fn serial(&mut self, at: &Spanned<PathBuf>, it: &InputTable, id: u64) -> Input {
        let baud = it.baud.as_ref().map(|at| {
            let rate = self.number("baud", at, 1200..=1_000_000) as u32;
            if !RATES.contains(&rate) {
                self.fault(at, format!("baud = {rate}: give one of {RATES:?}"));
            }
            rate
        });
        let end = it.end.as_ref().map(|at| self.number("end", at, 0..=255) as u8);
        let length = self.number_or("length", &it.length, 65_535, 1..=65_535) as usize;
        let pause = it.pause_ms.as_ref().map(|at| Duration::from_millis(self.number("pause_ms", at, 1..=60_000)));
        if end.is_none() && it.length.is_none() && pause.is_none() {
            self.fault(
                at,
                format!("the serial line of channel {id} has no end of a message: give end (a byte), length or pause_ms"),
            );
        }
        Input::Serial { path: self.path(at.get_ref()), baud, end, length, pause }
    }
}

#[cfg(test)]
mod tests {
    use super::*;

    const GOOD: &str = "medium = \"m\"
blocks = 4096
volume = \"VOL\"
[control]
socket = \"c\"
[[channel]]
id = 5
kind = \"message\"
input = { udp = \"127.0.0.1:20005\" }
";

    fn faults(text: &str) -> Vec<String> {
        read(text, Path::new("/f")).err().unwrap_or_default().iter().map(ToString::to_string).collect()
    }

    #[test]
    fn a_short_file_is_taken() {
        let it = read(GOOD, Path::new("/f")).unwrap();
        assert_eq!((it.media, it.socket), (vec![PathBuf::from("/f/m")], PathBuf::from("/f/c")));
        assert_eq!((it.commit, it.begin, it.channels.len()), (Duration::from_millis(100), Begin::Resume, 1));
        assert!(it.script.contains("blocks = 4096\ndirectory = 63\n"));
        assert!(it.setup.starts_with(b"G\\PN:VOL;\r\n"));
    }

    /// A list of media, or a folder that has so many: each has a number in its volume's name.
    #[test]
    fn media_in_a_row() {
        let paths = |it: &[&str]| it.iter().map(PathBuf::from).collect::<Vec<_>>();
        let with = |line: &str| GOOD.replace("medium = \"m\"", line);
        let read = |text: &str| read(text, Path::new("/f"));
        let list = read(&with("media = [\"a\", \"/dev/sdb\"]")).unwrap();
        assert_eq!(list.media, paths(&["/f/a", "/dev/sdb"]));
        assert_eq!((list.volume_at(1).as_str(), read(GOOD).unwrap().volume_at(0).as_str()), ("VOL-002", "VOL"));
        assert!(list.script_at(1).contains("\nvolume = \"VOL-002\"\n") && is_taken(&list.script_at(1)));
        let folder = "media = { folder = \"d\", each = \"3 MiB\", keep = 2 }";
        let kept = read(&with(folder).replace("blocks = 4096\n", "")).unwrap();
        assert_eq!((kept.media, kept.blocks), (paths(&["/f/d/VOL-001.r10", "/f/d/VOL-002.r10"]), 6144));
        for (line, wanted) in [
            ("media = []", "line 1: media has 0 paths: give 1 to 999"),
            ("media = [\"a\", \"a\"]", "line 1: media has \"/f/a\" twice; give each a path of its own"),
            ("media = [\"c\"]", "line 5: control.socket = \"/f/c\": media has this path; give each a path of its own"),
            ("medium = \"m\"\nmedia = [\"a\"]", "line 1: medium: `media` is there too; take one of them out"),
            ("", "line 1: medium is missing: give a path, or `media` for several in a row"),
            (
                "medium = \"m\"\noverwrite = true",
                "line 2: overwrite = true: it wants `media` with two or more; without it nothing is overwritten",
            ),
            (
                "media = [\"a\", \"/dev/sdb\"]\noverwrite = true",
                "line 2: overwrite = true: \"/dev/sdb\" is a device, and nothing beside it can mark that it is to be kept; \
                 give a folder for marks, as marks = \"/var/lib/r10\"",
            ),
            (folder, "line 2: blocks: `each` says how large a medium is; take the key out"),
        ] {
            assert_eq!(faults(&with(line))[..], [wanted.to_string()], "{line}");
        }
        for each in ["9 GiB", "3", "3 KiB", "0 MiB", "-1 GiB", "99999999999999999999 GiB"] {
            let text = with(&folder.replace("3 MiB", each)).replace("blocks = 4096\n", "");
            assert_eq!(faults(&text), [format!("line 1: each = {each:?}: give a size up to \"8 GiB\", as \"512 MiB\"")]);
        }
        for line in [
            "media = 5",
            "media = { folder = \"d\", keep = 2 }",
            "media = { folder = \"d\", each = \"3 MiB\", keep = 2, more = 1 }",
        ] {
            assert!(faults(&with(line))[0].contains("give a list of paths, or { folder"), "{:?}", faults(&with(line)));
        }
        assert!(faults(&GOOD.replace("blocks = 4096\n", ""))[0].contains("blocks is missing"));
    }

    /// The log channel has the highest ID that is free, or the one that is given, or is left out; and where there are 64 channels it has
    /// no room.
    #[test]
    fn the_log_channel() {
        let log = |text: &str| read(text, Path::new("/f")).map(|it| (it.log, it.script.matches("[[channel]]").count()));
        let with = |line: &str| log(&GOOD.replace("volume", &format!("{line}\nvolume")));
        assert_eq!(log(GOOD), Ok((Log::Channel(65_535), 2)));
        assert_eq!(with("time = 65535\nevent = 65534"), Ok((Log::Channel(65_533), 2)));
        assert_eq!((with("log = 7"), with("log = 0")), (Ok((Log::Channel(7), 2)), Ok((Log::Off, 1))));
        for (line, wanted) in [
            ("log = 5", "line 3: log = 5: another channel has this ID; give one of its own, or 0 for none"),
            ("log = 2", "line 3: log = 2: another channel has this ID; give one of its own, or 0 for none"),
            ("log = 65536", "line 3: log = 65536: give a number from 0 to 65535"),
        ] {
            assert_eq!(with(line).unwrap_err()[0].to_string(), wanted);
        }
        let many = |count: u64| {
            (6..5 + count).fold(GOOD.to_string(), |out, id| out + &format!("[[channel]]\nid = {id}\nkind = \"message\"\n"))
        };
        assert_eq!((log(&many(63)), log(&many(64))), (Ok((Log::Channel(65_535), 64)), Ok((Log::NoRoom, 64))));
        let found = log(&many(64).replace("volume", "log = 9999\nvolume")).unwrap_err()[0].to_string();
        assert_eq!(found, "line 3: log = 9999: with 64 channels there is no room for it; give 0, or leave the key out");
        // the setup text has it too
        let text = read(GOOD, Path::new("/f")).unwrap().setup;
        assert!(String::from_utf8(text).unwrap().contains("R-1\\TK1-3:65535;\r\n"));
    }

    /// Each level is read one call deeper, and the stack has an end.
    #[test]
    fn what_is_nested_deep_is_refused_before_it_is_read() {
        let rows = ["[".repeat(100_000), "{a=".repeat(100_000), "a.".repeat(100_000), "[\n".repeat(100_000)];
        for row in rows {
            for text in [format!("x = {row}"), format!("{GOOD}\n{row}"), format!("{GOOD}\n[{row}]")] {
                let found = faults(&text);
                assert!(found.len() == 1 && found[0].contains("nested too deep: settings have"), "{found:?}");
            }
        }
        assert_eq!(faults(&format!("{GOOD}# {}\n", "[1. ".repeat(400))), [""; 0]);
    }

    /// What is sent to an address of this machine's own comes in where no address is given.
    #[test]
    fn what_goes_out_is_not_heard() {
        let hears = |here: &str, to: &str| {
            let text = GOOD.replace("127.0.0.1:20005", here);
            read(&text, Path::new("/f")).unwrap().channels[0].hears(to.parse().unwrap())
        };
        assert!(hears("0.0.0.0:20005", "127.0.0.1:20005") && hears("0.0.0.0:20005", "255.255.255.255:20005"));
        assert!(hears("[::]:20005", "127.0.0.1:20005") && hears("10.1.2.3:20005", "10.1.2.3:20005"));
        assert!(!hears("0.0.0.0:20005", "127.0.0.1:20006") && !hears("10.1.2.3:20005", "127.0.0.1:20005"));
        assert!(!hears("0.0.0.0:20005", "198.51.100.7:20005") && !hears("0.0.0.0:20005", "239.1.1.1:20005"));
        // the address with which this machine would send to another one, where it has a network
        let socket = std::net::UdpSocket::bind("0.0.0.0:0").unwrap();
        if socket.connect("198.51.100.7:9").is_ok() {
            let own = socket.local_addr().unwrap().ip();
            assert!(hears("0.0.0.0:20005", &format!("{own}:20005")), "{own}");
        }
    }

    #[test]
    fn each_fault_has_line_key_value_and_limit() {
        for (old, new, wanted) in [
            ("blocks = 4096", "blocks = 64", "line 2: blocks = 64: give a number from 65 to 16777216"),
            ("blocks = 4096", "blocks = 16777217", "line 2: blocks = 16777217: give a number from 65 to 16777216"),
            ("\"VOL\"", "\"A B\"", "line 3: volume = \"A B\": give 1 to 32 letters, digits, '.', '_' or '-'"),
            ("id = 5", "id = 0", "line 7: id = 0: give a number from 1 to 65535"),
            ("id = 5", "id = 2", "line 7: id = 2: another channel has this ID; give each channel, time and event an ID of its own"),
            ("id = 5", "id = 5\ncapacity = 65537", "line 8: capacity = 65537: give a number from 1 to 65536"),
            ("id = 5", "id = 5\ncheck = 7", "line 8: check = 7: give 0, 8, 16 or 32 (bits)"),
            ("id = 5", "id = 5\nbytes = 130", "line 8: bytes = 130: give a multiple of 4"),
            ("id = 5", "id = 5\nbytes = 124", "line 8: bytes = 124: give a number from 128 to 524288"),
            ("id = 5", "id = 5\nsub = 16384", "line 8: sub = 16384: give a number from 0 to 16383"),
            ("127.0.0.1:20005", "127.0.0.1", "line 9: udp = \"127.0.0.1\": give an address and a port, as \"127.0.0.1:20005\""),
            (
                "udp = \"127.0.0.1:20005\"",
                "serial = \"/dev/x\"",
                "line 9: the serial line of channel 5 has no end of a message: give end (a byte), length or pause_ms",
            ),
            (
                "udp = \"127.0.0.1:20005\"",
                "serial = \"/dev/x\", end = 10, baud = 9601",
                "line 9: baud = 9601: give one of [1200, 2400, 4800, 9600, 19200, 38400, 57600, \
                 115200, 230400, 460800, 500000, 921600, 1000000]",
            ),
            (
                "udp = \"127.0.0.1:20005\"",
                "lines = \"-\", end = 10",
                "line 9: input of channel 5 has the key end, which is one of serial inputs: take it out",
            ),
            (
                "udp = \"127.0.0.1:20005\"",
                "udp = \"127.0.0.1:1\", lines = \"-\"",
                "line 9: input of channel 5 has 2 of udp, serial and lines: give one of them",
            ),
            (
                "socket = \"c\"",
                "socket = \"c\"\ntcp = \"0.0.0.0:7\"",
                "line 6: control.tcp = \"0.0.0.0:7\": beyond this machine it wants a list of peers; \
                 give control.peers = [\"ADDRESS\", ..]",
            ),
            ("127.0.0.1:20005", "127.0.0.1:0", "line 9: udp = \"127.0.0.1:0\": give an address and a port, as \"127.0.0.1:20005\""),
            (
                "127.0.0.1:20005\"",
                "0.0.0.0:20005\", group = \"ff02::1\"",
                "line 9: group = \"ff02::1\": give one of the kind of 0.0.0.0:20005, version 4 or version 6",
            ),
            (
                "127.0.0.1:20005\"",
                "[::1]:20005\", group = \"ff02::1\"",
                "line 9: group = \"ff02::1\": with a group of version 6 give udp = \"[::]:20005\"",
            ),
            (
                "socket = \"c\"",
                "socket = \"m\"",
                "line 5: control.socket = \"/f/m\": medium has this path; give each a path of its own",
            ),
            (
                "volume",
                "acknowledge = \"/f/m\"\nvolume",
                "line 3: acknowledge = \"/f/m\": medium has this path; give each a path of its own",
            ),
            (
                "volume",
                "publish = \"127.0.0.1:20005\"\nvolume",
                "line 3: publish = \"127.0.0.1:20005\": channel 5 listens there; give another address",
            ),
            (
                "volume = \"VOL\"\n[control]",
                "volume = \"VOL\"\nmetrics = \"127.0.0.1:9\"\n[control]\ntcp = \"127.0.0.1:9\"",
                "line 4: metrics = \"127.0.0.1:9\": control.tcp has this port; give another one",
            ),
            (
                "volume",
                "metrics = \"0.0.0.0:9\"\nvolume",
                "line 3: metrics = \"0.0.0.0:9\": beyond this machine it wants a list of peers; give control.peers = [\"ADDRESS\", ..]",
            ),
            (
                "volume",
                "page = \"10.0.0.5:9\"\nvolume",
                "line 3: page = \"10.0.0.5:9\": beyond this machine it wants a list of peers; give control.peers = [\"ADDRESS\", ..]",
            ),
            (
                "volume",
                "metrics = \"127.0.0.1:9\"\npage = \"127.0.0.1:9\"\nvolume",
                "line 4: page = \"127.0.0.1:9\": metrics has this port; give another one",
            ),
            (
                "volume",
                "page_control = true\nvolume",
                "line 3: page_control = true: it wants control.token, a file with the text that a command needs",
            ),
            (
                "volume",
                "alarm = [\"beep\"]\nvolume",
                "line 3: alarm: give the whole path of a command, and its words, as [\"/usr/bin/beep\"]",
            ),
            (
                "volume",
                "alarm = []\nvolume",
                "line 3: alarm: give the whole path of a command, and its words, as [\"/usr/bin/beep\"]",
            ),
            ("[control]", "[alarms]\nfull_minutes = 0\n[control]", "line 5: alarms.full_minutes = 0: give a number from 1 to 1440"),
            (
                "socket = \"c\"",
                "socket = \"c\"\ntoken = \"nothing-there\"",
                "line 6: control.token = \"/f/nothing-there\": No such file or directory (os error 2); \
                 make it: `openssl rand -hex 16 > FILE`, for the service's user alone",
            ),
            (
                "\"127.0.0.1:20005\"",
                "\"239.0.0.1:20005\"",
                "line 9: udp = \"239.0.0.1:20005\": a multicast address is given by the key group; here give one of this machine",
            ),
            ("id = 5", "id = 5\nname = \"a\\n*\"", "line 8: name = \"a\\n*\": give a text without control characters"),
            ("20005\" }", "20005\", header = \"ptp\" }", "line 9: header = \"ptp\": give \"r10\" or \"ch10\""),
            (
                "20005\" }",
                "20005\", stamp_limit_ms = 5 }",
                "line 9: stamp_limit_ms = 5: only datagrams with a header have stamps; take it out",
            ),
            ("20005\" }", "20005\", source = 5 }", "line 9: source = 5: only with header = \"ch10\"; take it out"),
            (
                "volume",
                "ask_for_time = [\"chrony\", \"sundial\"]\nvolume",
                "line 3: ask_for_time has \"sundial\": give some of [\"chrony\", \"ntpd\", \"ptp4l\"], or []",
            ),
            ("volume", "wait_for_time = 0\nvolume", "line 3: wait_for_time = 0: give a number from 1 to 86400"),
            ("\"m\"", "\"\"", "line 1: medium = \"\": give a path"),
            ("volume", "start = \"now\"\nvolume", "line 3: start = \"now\": give \"record\", \"resume\" or \"wait\""),
            ("volume", "commit_ms = 0\nvolume", "line 3: commit_ms = 0: give a number from 1 to 10000"),
        ] {
            assert!(GOOD.contains(old), "{old}");
            assert_eq!(faults(&GOOD.replacen(old, new, 1)), [wanted]);
        }
        assert!(faults(&GOOD.replace("volume", "colour = 1\nvolume"))[0].starts_with("line 3: unknown field `colour`"));
        let within = GOOD.replace("{ udp", "{ colour = 1, udp");
        assert!(faults(&within)[0].starts_with("line 9: unknown field `colour`"), "{:?}", faults(&within));
        for (old, new, wanted) in [
            ("4096", "\"many\"", "line 2: invalid type: string \"many\", expected a whole number for key `blocks`"),
            ("4096", "-1", "line 2: invalid value: integer `-1`, expected a whole number for key `blocks`"),
            (
                "[control]\nsocket = \"c\"",
                "control = \"c\"",
                "line 4: invalid type: string \"c\", expected a table for key `control`",
            ),
            ("[[channel]]", "[channel]", "line 6: invalid type: table, expected a list for key `channel`"),
            ("{ udp = \"127.0.0.1:20005\" }", "5", "line 9: invalid type: integer `5`, expected a table for key `channel.input`"),
            ("blocks = 4096", "blocks = 4096\nblocks = 4097", "line 3: duplicate field `blocks`"),
            ("id = 5", "id = 4\nkind = \"uart\"\n[[channel]]\nid = 5\nid = 6", "line 11: duplicate field `id`"),
        ] {
            assert!(faults(&GOOD.replacen(old, new, 1))[0].starts_with(wanted), "{:?}", faults(&GOOD.replacen(old, new, 1)));
        }
        assert!(faults(&GOOD.replace("blocks = 4096", "blocks = "))[0].starts_with("line 2: "));
        let twice = format!("{GOOD}[[channel]]\nid = 6\nkind = \"uart\"\ninput = {{ udp = \"127.0.0.1:20005\" }}\n");
        assert_eq!(
            faults(&twice),
            ["line 13: input udp 127.0.0.1:20005: channel 5 has it already; give each channel an input of its own"]
        );
        // with a header several channels may have one socket
        let with = |one: &str, other: &str| {
            let [one, other] = [one, other].map(|it| format!("20005\"{it} }}"));
            let (first, second) = twice.split_at(GOOD.len());
            faults(&format!("{}{}", first.replace("20005\" }", &one), second.replace("20005\" }", &other)))
        };
        assert_eq!(with(", header = \"r10\"", ", header = \"r10\""), [""; 0]);
        assert_eq!(with(", header = \"ch10\"", ", header = \"ch10\", source = 7"), [""; 0]);
        assert_eq!(
            with(", header = \"r10\"", ", header = \"r10\", stamp_limit_ms = 5"),
            ["line 13: input udp 127.0.0.1:20005: another channel has it with other keys; give both the same"]
        );
        assert_eq!(
            with(", header = \"ch10\"", ", header = \"ch10\", source = 5"),
            ["line 13: input udp 127.0.0.1:20005: another channel takes channel 5 of it; give another source"]
        );
        assert_eq!(with(", header = \"r10\"", "").len(), 1);
        // the system takes this one, and one byte more would be too many
        let socket = |length: usize| GOOD.replace("\"c\"", &format!("\"/{}\"", "x".repeat(length - 1)));
        assert!(faults(&socket(107)).is_empty());
        let found = faults(&socket(108));
        assert!(found[0].starts_with("line 5: control.socket") && found[0].contains("it has 108 bytes"), "{found:?}");
        let to_its_group =
            GOOD.replace("volume", "publish = \"239.0.0.1:20005\"\nvolume").replace("5\" }", "5\", group = \"239.0.0.1\" }");
        assert_eq!(faults(&to_its_group), ["line 3: publish = \"239.0.0.1:20005\": channel 5 listens there; give another address"]);
        // one port of this machine, by another name
        assert_eq!(
            faults(&twice.replacen("127.0.0.1:20005", "0.0.0.0:20005", 1)),
            ["line 13: input udp 127.0.0.1:20005: channel 5 has udp 0.0.0.0:20005 already; give each channel a port of its own"]
        );
        assert!(faults(&twice.replacen("127.0.0.1:20005", "127.0.0.2:20005", 1)).is_empty());
    }

    /// A token is a line of visible letters that is long enough; the file's own end of a line is none of it.
    #[test]
    fn tokens_are_read() {
        let folder = std::env::temp_dir().join(format!("r10d-token-{}", std::process::id()));
        let _ = std::fs::remove_dir_all(&folder);
        std::fs::create_dir(&folder).unwrap();
        let text = GOOD.replace("socket = \"c\"", "socket = \"c\"\ntoken = \"t\"");
        for (token, wanted) in [
            ("0123456789abcdef\n", Some("0123456789abcdef")),
            ("0123456789abcde\n", None),
            ("0123456789 abcdef", None),
            ("", None),
            ("0123456789abcdef\n0123456789abcdef\n", None),
        ] {
            std::fs::write(folder.join("t"), token).unwrap();
            let found = read(&text, &folder);
            assert_eq!(found.as_ref().ok().and_then(|it| it.token.as_deref()), wanted, "{token:?}");
            assert_eq!(found.is_ok(), wanted.is_some(), "{token:?}");
        }
        std::fs::remove_dir_all(&folder).unwrap();
    }

    /// What may be taken at once is not said to want a restart, and all else is.
    #[test]
    fn settings_that_want_a_restart() {
        let one = read(GOOD, Path::new("/f")).unwrap();
        let differ = |old: &str, new: &str| one.differ_for_good(&read(&GOOD.replacen(old, new, 1), Path::new("/f")).unwrap());
        assert_eq!(differ("x", "x"), [""; 0]);
        assert_eq!(differ("id = 5", "id = 5\nsilent_s = 3"), [""; 0]);
        assert_eq!(differ("[control]", "[alarms]\nloss_s = 9\n[control]"), [""; 0]);
        assert_eq!(differ("volume", "alarm = [\"/bin/true\"]\nvolume"), [""; 0]);
        // (the setup text of a file has the names)
        assert_eq!(differ("id = 5", "id = 5\nname = \"GPS\""), ["setup"]);
        for limit in ["commit_ms = 50", "file_minutes = 7", "tries = 9"] {
            assert_eq!(differ("volume", &format!("{limit}\nvolume")), [""; 0]);
        }
        assert_eq!(differ("volume", "prefix = \"X\"\nvolume"), ["prefix"]);
        assert_eq!(differ("20005", "20006"), ["[[channel]]"]);
        assert_eq!(differ("volume", "page = \"127.0.0.1:9\"\nvolume"), ["page or page_control"]);
    }

    /// The library takes what stands at the limits here, and refuses what is one beyond: the limits are its own.
    #[test]
    fn the_limits_are_those_of_the_library() {
        let script = read(&GOOD.replace("volume", "log = 0\nvolume"), Path::new("/f")).unwrap().script;
        assert!(is_taken(&script));
        for (line, least, most) in [
            ("blocks = 4096", 65, 16_777_216),
            ("directory = 63", 1, 64),
            ("nodes = 1000", 1, 32_765),
            ("time = 1", 1, 65_535),
            ("id = 5", 1, 65_535),
            ("capacity = 16384", 1, 65_536),
            ("bytes = 131072", 128, 524_288),
            ("number = 4096", 1, 65_535),
        ] {
            let key = line.split(' ').next().unwrap();
            let with =
                |value: u64| is_taken(&script.replace("event = 2", "event = 77").replacen(line, &format!("{key} = {value}"), 1));
            let step = if key == "bytes" { 4 } else { 1 };
            // a time of 1 is there already, so the least ID is another one's
            assert!(with(if key == "id" { 2 } else { least }) && with(most), "{key}");
            assert!(!with(least - step) && !with(most + step), "{key}");
        }
    }
}
