//! Control over a UNIX socket, and over TCP where the settings say so: lines in, answers out. What the words mean is in `words`.
use std::io::{self, BufRead, BufReader, ErrorKind, Read, Write};
use std::net::{IpAddr, Shutdown, SocketAddr, TcpListener, TcpStream};
use std::os::fd::AsRawFd;
use std::os::unix::fs::FileTypeExt;
use std::os::unix::net::{UnixListener, UnixStream};
use std::path::Path;
use std::sync::atomic::{AtomicUsize, Ordering::Relaxed};
use std::sync::mpsc::{Receiver, RecvTimeoutError, Sender, channel};
use std::sync::{Arc, Mutex, MutexGuard, PoisonError};
use std::thread::{self, Thread};
use std::time::{Duration, Instant};

use nix::sys::socket::{getsockopt, setsockopt, sockopt};
use nix::sys::stat::{Mode, umask};

use crate::clock::Counter;
use crate::http::are_one;
use crate::inputs::{AGAIN, Seldom};
use crate::losses::Moment;
use crate::settings::Settings;
use crate::standing::Shared;
use crate::{info, udp, warning};

/// Where a command came from: some are for the socket alone.
#[derive(Clone, Copy, Debug, PartialEq, Eq)]
pub enum Origin {
    Socket,
    /// over TCP, and whether the token was given there
    Tcp {
        has_token: bool,
    },
    /// a page, which gives the token with each command
    Page,
}

pub struct Command {
    pub line: String,
    pub origin: Origin,
    /// who gave it
    pub by: String,
    /// when it came
    pub count: u64,
    pub reply: Sender<Reply>,
}

pub enum Reply {
    /// lines, each with its end
    Text(String),
    /// lines as they come, until either end goes
    Stream(Receiver<String>, Arc<AtomicUsize>),
}

/// Asks the recorder's thread.
#[derive(Clone)]
pub struct Asking {
    to: Sender<Command>,
    owner: Thread,
    counter: Counter,
    moment: Moment,
    shared: Arc<Shared>,
}

impl Asking {
    pub fn new(to: Sender<Command>, owner: Thread, counter: Counter, moment: Moment, shared: Arc<Shared>) -> Asking {
        Asking { to, owner, counter, moment, shared }
    }

    pub fn ask(&self, line: &str, origin: Origin, by: &str) -> Option<Reply> {
        let ((reply, answer), count) = (channel(), self.counter.count());
        // the recorder's thread may be busy with the disk: what comes meanwhile is after the stop
        let may_stop = origin != (Origin::Tcp { has_token: false });
        if is_stop(line) && may_stop {
            self.moment.set(count);
        }
        self.to.send(Command { line: line.to_string(), origin, by: by.to_string(), count, reply }).ok()?;
        self.owner.unpark();
        answer.recv().ok()
    }

    /// A client has read: there is room for more.
    fn wake(&self) {
        self.owner.unpark();
    }
}

/// Whether a command is one to stop.
pub fn is_stop(line: &str) -> bool {
    let word = line.split_whitespace().next().unwrap_or("");
    word.eq_ignore_ascii_case(".STOP") || word.eq_ignore_ascii_case(".SHUTDOWN")
}

/// How many may be connected at a time to the socket, and as many over TCP: so these cannot shut out those.
const MOST: usize = 32;
/// Who follows nothing and gave no whole line for so long gives its place to the next one, where all are taken.
const SILENT: Duration = Duration::from_secs(10);
/// How many may follow or replay on one of them: one place is always left for a command.
const FOLLOWERS: usize = MOST - 1;
/// Who gives a wrong token waits so long.
const WRONG: Duration = Duration::from_millis(500);
/// After so many seconds of silence the other side of a TCP connection is asked whether it is still there.
const KEEPALIVE: u32 = 60;
/// Until it answers it is asked again after so many seconds, and so many times in all. Then the connection fails.
const ASKED_AGAIN: (u32, u32) = (10, 6);
/// A command of more bytes is none.
const LONGEST: u64 = 4096;

trait Connection: Read + Write + Send + Sized + 'static {
    fn copy(&self) -> io::Result<Self>;
    fn limit(&self, read: Option<Duration>, write: Option<Duration>) -> io::Result<()>;
    /// Ends it, whoever reads or writes.
    fn end(&self);
    /// Who is at the other side: a process of this machine, or an address.
    fn who(&self) -> String;
}

impl Connection for UnixStream {
    fn copy(&self) -> io::Result<UnixStream> {
        self.try_clone()
    }
    fn limit(&self, read: Option<Duration>, write: Option<Duration>) -> io::Result<()> {
        self.set_read_timeout(read)?;
        self.set_write_timeout(write)
    }
    fn end(&self) {
        let _ = self.shutdown(Shutdown::Both);
    }
    fn who(&self) -> String {
        match getsockopt(self.as_raw_fd(), sockopt::PeerCredentials) {
            Ok(it) => format!("uid {} pid {}", it.uid(), it.pid()),
            Err(error) => format!("nobody knows: {error}"),
        }
    }
}

impl Connection for TcpStream {
    fn copy(&self) -> io::Result<TcpStream> {
        self.try_clone()
    }
    fn limit(&self, read: Option<Duration>, write: Option<Duration>) -> io::Result<()> {
        self.set_read_timeout(read)?;
        self.set_write_timeout(write)
    }
    fn end(&self) {
        let _ = self.shutdown(Shutdown::Both);
    }
    fn who(&self) -> String {
        self.peer_addr().map_or_else(|it| format!("nobody knows: {it}"), |it| it.to_string())
    }
}

/// Makes the socket anew where nobody listens on it, for its owner and group. What is there and is no socket stays.
fn bind(path: &Path) -> io::Result<UnixListener> {
    if let Ok(found) = path.symlink_metadata() {
        if !found.file_type().is_socket() {
            return Err(io::Error::new(ErrorKind::AlreadyExists, "another file is there; give a path of its own"));
        }
        match UnixStream::connect(path) {
            Ok(_) => return Err(io::Error::new(ErrorKind::AddrInUse, "another service listens there")),
            // nobody listens on it any more
            Err(error) if error.kind() == ErrorKind::ConnectionRefused => std::fs::remove_file(path)?,
            Err(error) => return Err(error),
        }
    }
    let before = umask(Mode::from_bits_truncate(0o117));
    let listener = UnixListener::bind(path);
    umask(before);
    listener
}

/// Those who connect, one after another. What the system refuses it may give later.
pub fn connected<S>(listener: impl Iterator<Item = io::Result<S>>) -> impl Iterator<Item = S> {
    listener.filter_map(|it| it.inspect_err(|_| thread::sleep(AGAIN)).ok())
}

/// Has a TCP connection fail two minutes after the other side went without a word, as by its power or a cable.
pub fn ask_in_silence(stream: &TcpStream) -> nix::Result<()> {
    let fd = stream.as_raw_fd();
    setsockopt(fd, sockopt::TcpKeepIdle, &KEEPALIVE)?;
    setsockopt(fd, sockopt::TcpKeepInterval, &ASKED_AGAIN.0)?;
    setsockopt(fd, sockopt::TcpKeepCount, &ASKED_AGAIN.1)?;
    setsockopt(fd, sockopt::KeepAlive, &true)
}

/// Starts to listen.
pub fn start(settings: &Settings, asking: &Asking) -> io::Result<()> {
    let path = &settings.socket;
    let failed = |it: io::Error| {
        // (what `bind` says itself has what to do in it)
        let what = if it.raw_os_error().is_some() { "; it wants a folder that is there and may be written" } else { "" };
        io::Error::new(it.kind(), format!("control.socket = {path:?}: {it}{what}"))
    };
    let listener = bind(path).map_err(failed)?;
    let asking_here = asking.clone();
    thread::Builder::new().name("control".to_string()).spawn(move || {
        let places = Places::default();
        for stream in connected(listener.incoming()) {
            connect(stream, Origin::Socket, &asking_here, &places, None);
        }
    })?;
    let Some(address) = settings.tcp else { return Ok(()) };
    let (asking, peers, token) = (asking.clone(), settings.peers.clone(), settings.token.clone());
    listen("control tcp", &format!("control.tcp = \"{address}\""), address, move |listener| {
        info!("control: listens on TCP {address}");
        let (places, mut strangers) = (Places::default(), Seldom::default());
        for stream in connected(listener.incoming()) {
            match stream.peer_addr() {
                Ok(peer) if is_welcome(peer.ip(), &peers) => {
                    let _ = ask_in_silence(&stream);
                    connect(stream, Origin::Tcp { has_token: false }, &asking, &places, token.as_ref());
                }
                Ok(peer) => strangers.warn(|| format!("control: {peer} is not one of control.peers, and is not heard")),
                Err(_) => (),
            }
        }
    })
}

/// Listens on TCP in a thread of this name. An address that the machine does not have yet is waited for there: nothing is recorded
/// later for want of it.
pub fn listen(name: &str, what: &str, address: SocketAddr, serve: impl FnOnce(TcpListener) + Send + 'static) -> io::Result<()> {
    let listener = match TcpListener::bind(address) {
        Ok(it) => Some(it),
        Err(error) if udp::may_come(&error) => None,
        Err(error) => return Err(io::Error::new(error.kind(), format!("{what}: {error}; give a free port of this machine"))),
    };
    let what = what.to_string();
    thread::Builder::new()
        .name(name.to_string())
        .spawn(move || serve(listener.unwrap_or_else(|| udp::until_there(&what, || TcpListener::bind(address)))))?;
    Ok(())
}

/// Whether an address is heard: one of the list, or of this machine where there is none.
pub fn is_welcome(peer: IpAddr, peers: &[IpAddr]) -> bool {
    let peer = peer.to_canonical();
    if peers.is_empty() { peer.is_loopback() } else { peers.contains(&peer) }
}

/// A client's place.
struct Place {
    number: u64,
    /// when its last whole line came, or it connected
    line: Instant,
    /// whether it follows or replays
    follows: bool,
    end: Box<dyn Fn() + Send>,
}

/// The places of one way in.
#[derive(Clone, Default)]
struct Places(Arc<Mutex<(u64, Vec<Place>)>>);

impl Places {
    fn held(&self) -> MutexGuard<'_, (u64, Vec<Place>)> {
        self.0.lock().unwrap_or_else(PoisonError::into_inner)
    }

    /// A place for one that comes, where there is one: its number. One that is silent has to give up its own, the oldest first.
    fn take(&self, end: impl Fn() + Send + 'static, silent: Duration) -> Option<u64> {
        let mut held = self.held();
        if held.1.len() >= MOST {
            let is_silent = |it: &&Place| !it.follows && it.line.elapsed() >= silent;
            let number = held.1.iter().filter(is_silent).min_by_key(|it| it.line)?.number;
            let at = held.1.iter().position(|it| it.number == number)?;
            let gone = held.1.swap_remove(at);
            (gone.end)();
        }
        held.0 += 1;
        let number = held.0;
        held.1.push(Place { number, line: Instant::now(), follows: false, end: Box::new(end) });
        Some(number)
    }

    fn leave(&self, number: u64) {
        self.held().1.retain(|it| it.number != number);
    }

    /// A whole line came.
    fn heard(&self, number: u64) {
        self.held().1.iter_mut().filter(|it| it.number == number).for_each(|it| it.line = Instant::now());
    }

    /// It begins to follow, or ends. False where too many follow.
    fn follows(&self, number: u64, follows: bool) -> bool {
        let mut held = self.held();
        if follows && held.1.iter().filter(|it| it.follows).count() >= FOLLOWERS {
            return false;
        }
        held.1.iter_mut().filter(|it| it.number == number).for_each(|it| (it.follows, it.line) = (follows, Instant::now()));
        true
    }
}

fn connect<S: Connection>(stream: S, origin: Origin, asking: &Asking, places: &Places, token: Option<&String>) {
    let number = match stream.copy() {
        Ok(copy) => places.take(move || copy.end(), SILENT),
        Err(_) => return,
    };
    let Some(number) = number else {
        let mut stream = stream;
        let _ = stream.write_all(b"E 05 COMMAND FAILED: too many are connected; close another connection first\n*\n");
        return;
    };
    let (asking, kept, token) = (asking.clone(), places.clone(), token.cloned());
    let started = thread::Builder::new().name("client".to_string()).spawn(move || {
        let at = At { places: &kept, number };
        let _ = serve(stream, origin, &asking, &at, token.as_deref());
        kept.leave(number);
    });
    if started.is_err() {
        places.leave(number);
    }
}

/// A client's place among the others.
struct At<'a> {
    places: &'a Places,
    number: u64,
}

/// Answers a client's lines until it goes.
fn serve<S: Connection>(mut to: S, mut origin: Origin, asking: &Asking, at: &At, token: Option<&str>) -> io::Result<()> {
    let slow = Some(Duration::from_mins(1));
    to.limit(None, slow)?;
    let (mut from, by) = (BufReader::new(to.copy()?), to.who());
    let mut line = Vec::new();
    loop {
        line.clear();
        if from.by_ref().take(LONGEST).read_until(b'\n', &mut line)? == 0 {
            return Ok(());
        }
        if !line.ends_with(b"\n") && line.len() as u64 >= LONGEST {
            to.write_all(b"E 00 INVALID COMMAND: a line has at most 4096 bytes\n*\n")?;
            return Ok(());
        }
        let text = String::from_utf8_lossy(&line);
        let text = text.trim();
        // a page in a browser of this machine can send what begins otherwise, with commands in the lines after it
        at.places.heard(at.number);
        if matches!(origin, Origin::Tcp { .. }) && !text.is_empty() && !text.starts_with('.') {
            to.write_all(b"E 00 INVALID COMMAND: over TCP a command begins with a dot; the connection ends\n*\n")?;
            return Ok(());
        }
        let word = text.split_whitespace().next().unwrap_or("").to_ascii_uppercase();
        if word == ".TOKEN" {
            let given = text.get(word.len()..).unwrap_or("").trim();
            match token {
                // (the socket's mode says who may use it)
                _ if origin == Origin::Socket => {
                    to.write_all(
                        b"E 02 INVALID MODE: over the socket no token is wanted: its file's mode says who may use it\n*\n",
                    )?;
                }
                Some(it) if are_one(it, given) => {
                    origin = Origin::Tcp { has_token: true };
                    to.write_all(b"*\n")?;
                }
                _ => {
                    warning!("control: {by} gave a wrong token");
                    thread::sleep(WRONG);
                    to.write_all(
                        b"E 01 INVALID PARAMETER: that is not the token: it is in the file that control.token names\n*\n",
                    )?;
                }
            }
            continue;
        }
        // (who looks on does not wait for the disk)
        if word == ".STANDING" && text.len() == word.len() {
            let mut value = asking.shared.value();
            value["log"] = crate::log::last(20).into();
            to.write_all(format!("{value}\n*\n").as_bytes())?;
            continue;
        }
        if matches!(word.as_str(), ".FOLLOW" | ".REPLAY") && !at.places.follows(at.number, true) {
            to.write_all(b"E 05 COMMAND FAILED: too many follow or replay; one place is left for commands\n*\n")?;
            continue;
        }
        let answer = asking.ask(text, origin, &by);
        if !matches!(answer, Some(Reply::Stream(..))) {
            at.places.follows(at.number, false);
        }
        match answer {
            None => return Ok(()),
            Some(Reply::Text(text)) => to.write_all(format!("{text}*\n").as_bytes())?,
            Some(Reply::Stream(chunks, queued)) => {
                to.limit(Some(Duration::from_millis(1)), slow)?;
                stream(&mut to, &mut from, &chunks, &queued, asking)?;
                at.places.follows(at.number, false);
                to.limit(None, slow)?;
                to.write_all(b"*\n")?;
            }
        }
    }
}

/// Hands on what comes, until the recorder ends it, or the client sends a line.
fn stream<S: Connection>(
    to: &mut S,
    from: &mut BufReader<S>,
    chunks: &Receiver<String>,
    queued: &AtomicUsize,
    asking: &Asking,
) -> io::Result<()> {
    let mut looked = std::time::Instant::now();
    loop {
        match chunks.recv_timeout(Duration::from_millis(200)) {
            Ok(text) => {
                let done = to.write_all(text.as_bytes());
                queued.fetch_sub(text.len(), Relaxed);
                asking.wake();
                done?;
            }
            Err(RecvTimeoutError::Disconnected) => return Ok(()),
            Err(RecvTimeoutError::Timeout) => (),
        }
        if looked.elapsed() < Duration::from_millis(200) {
            continue;
        }
        looked = std::time::Instant::now();
        match from.fill_buf() {
            Ok([]) => return Err(ErrorKind::UnexpectedEof.into()),
            Ok(bytes) => {
                let count = bytes.iter().position(|it| *it == b'\n').map_or(bytes.len(), |it| it + 1);
                from.consume(count);
                return Ok(());
            }
            Err(error) if matches!(error.kind(), ErrorKind::WouldBlock | ErrorKind::TimedOut | ErrorKind::Interrupted) => (),
            Err(error) => return Err(error),
        }
    }
}

#[cfg(test)]
mod tests {
    use super::*;

    #[test]
    fn a_silent_connection_is_asked() {
        let listener = TcpListener::bind("127.0.0.1:0").unwrap();
        let stream = TcpStream::connect(listener.local_addr().unwrap()).unwrap();
        ask_in_silence(&stream).unwrap();
        let fd = stream.as_raw_fd();
        assert!(getsockopt(fd, sockopt::KeepAlive).unwrap());
        assert_eq!(getsockopt(fd, sockopt::TcpKeepIdle).unwrap(), 60);
        assert_eq!(getsockopt(fd, sockopt::TcpKeepInterval).unwrap(), 10);
        assert_eq!(getsockopt(fd, sockopt::TcpKeepCount).unwrap(), 6);
    }

    /// Where all places are taken, one that was silent for long gives up its own, and one that follows does not.
    #[test]
    fn places_go_from_the_silent_to_the_next() {
        let (places, gone) = (Places::default(), Arc::new(AtomicUsize::new(0)));
        let end = || {
            let gone = gone.clone();
            move || {
                gone.fetch_add(1, Relaxed);
            }
        };
        let taken: Vec<_> = (0..MOST).map(|_| places.take(end(), SILENT).unwrap()).collect();
        assert_eq!((places.take(end(), SILENT), gone.load(Relaxed)), (None, 0));
        thread::sleep(Duration::from_millis(20));
        for it in &taken[1..] {
            places.heard(*it);
        }
        assert!(places.take(end(), Duration::from_millis(20)).is_some());
        assert_eq!((gone.load(Relaxed), places.held().1.len()), (1, MOST));
        // those who follow stay, and one of all places is never theirs
        for it in &taken[1..] {
            assert!(places.follows(*it, true));
        }
        assert!(!places.follows(taken[0] + 100, true));
        thread::sleep(Duration::from_millis(20));
        let last = places.take(end(), Duration::from_millis(20)).unwrap();
        assert_eq!(gone.load(Relaxed), 2);
        places.leave(last);
        assert!(places.take(end(), SILENT).is_some());
    }

    #[test]
    fn peers_are_those_of_the_list_or_this_machine() {
        let of = |text: &str| text.parse::<IpAddr>().unwrap();
        assert!(is_welcome(of("127.0.0.1"), &[]) && is_welcome(of("::1"), &[]) && is_welcome(of("::ffff:127.0.0.1"), &[]));
        assert!(!is_welcome(of("10.0.0.5"), &[]));
        assert!(is_welcome(of("10.0.0.5"), &[of("10.0.0.5")]) && !is_welcome(of("10.0.0.6"), &[of("10.0.0.5")]));
        assert!(!is_welcome(of("127.0.0.1"), &[of("10.0.0.5")]));
    }
}
