//! Recorders of a group: a file names them, a word goes to all of them at once, and the page of one shows how each stands.
use std::io;
use std::path::{Path, PathBuf};
use std::sync::atomic::Ordering;
use std::sync::mpsc::{Sender, channel};
use std::sync::{Arc, Condvar, Mutex, PoisonError};
use std::thread;
use std::time::{Duration, Instant};

use serde::Deserialize;
use serde_json::{Value, json};

use crate::client::{Client, Place, Why};
use crate::standing::Shared;

/// How often each recorder of a group is asked while a page is open, how long an answer is waited for, and how old one may be.
const EACH: Duration = Duration::from_secs(1);
const ANSWERS: Duration = Duration::from_secs(3);
const OLD: Duration = Duration::from_secs(4);
/// How long a recorder of a group has to take a connection before the others get the word.
const CONNECTS: Duration = Duration::from_secs(1);
/// The most recorders of a group.
const MOST: usize = 64;

/// A recorder of a group.
#[derive(Clone, Debug, PartialEq, Eq)]
pub struct Member {
    pub name: String,
    pub place: Place,
    pub token: Option<String>,
}

#[derive(Deserialize)]
#[serde(deny_unknown_fields)]
struct Document {
    recorder: Vec<Table>,
}

#[derive(Deserialize)]
#[serde(deny_unknown_fields)]
struct Table {
    name: String,
    socket: Option<PathBuf>,
    tcp: Option<String>,
    token: Option<PathBuf>,
}

/// Reads the file of a group. Paths are taken from its folder.
pub fn read(path: &Path) -> Result<Vec<Member>, Why> {
    let wrong = |it: String| Why::Ended(format!("the group {}: {it}", path.display()));
    let text = std::fs::read_to_string(path).map_err(|it| wrong(it.to_string()))?;
    of_text(&text, path.parent().unwrap_or(Path::new(""))).map_err(wrong)
}

fn of_text(text: &str, folder: &Path) -> Result<Vec<Member>, String> {
    let document: Document = toml::from_str(text).map_err(|it| it.to_string())?;
    if !(1..=MOST).contains(&document.recorder.len()) {
        return Err(format!("it has {} tables [[recorder]]: give 1 to {MOST}", document.recorder.len()));
    }
    let mut members: Vec<Member> = Vec::new();
    for it in document.recorder {
        let name = it.name;
        if name.is_empty() || name.contains(char::is_control) || members.iter().any(|it| it.name == name) {
            return Err(format!("name = {name:?}: give each recorder a name of its own, without control characters"));
        }
        let place = match (it.socket, it.tcp) {
            (Some(socket), None) => Place::Socket(folder.join(socket)),
            (None, Some(tcp)) => Place::Tcp(tcp),
            _ => return Err(format!("recorder {name}: give either socket or tcp")),
        };
        let token = it.token.map(|it| folder.join(it));
        let token = token.map(|it| std::fs::read_to_string(&it).map_err(|error| format!("the token {}: {error}", it.display())));
        members.push(Member { name, place, token: token.transpose()?.map(|it| it.trim().to_string()) });
    }
    Ok(members)
}

/// Gives a command to all of them at once: each is connected first. What each answers, in their order.
pub fn ask_all(members: &[Member], command: &str, patience: Duration) -> Vec<Result<Vec<String>, Why>> {
    let (ready, connected) = channel();
    let (goes, changed) = (Mutex::new(false), Condvar::new());
    thread::scope(|scope| {
        let (goes, changed) = (&goes, &changed);
        let ask = |it: &Member, ready: Sender<()>| {
            let client = Client::connect(&it.place, it.token.as_deref(), patience);
            let _ = ready.send(());
            let held = goes.lock().unwrap_or_else(PoisonError::into_inner);
            drop(changed.wait_while(held, |it| !*it).unwrap_or_else(PoisonError::into_inner));
            client?.ask(command)
        };
        let threads: Vec<_> = members
            .iter()
            .map(|it| {
                let ready = ready.clone();
                scope.spawn(move || ask(it, ready))
            })
            .collect();
        // one that cannot be reached holds up the others no longer than this
        let end = Instant::now() + CONNECTS;
        for _ in members {
            if connected.recv_timeout(end.saturating_duration_since(Instant::now())).is_err() {
                break;
            }
        }
        *goes.lock().unwrap_or_else(PoisonError::into_inner) = true;
        changed.notify_all();
        threads.into_iter().map(|it| it.join().unwrap_or_else(|_| Err(Why::Ended("it failed".to_string())))).collect()
    })
}

/// A recorder's name, and when it was asked last and what it answered.
type Asked = (String, Mutex<(Instant, Result<Value, String>)>);

/// Recorders of a group that are asked while a page is open.
pub struct Watched {
    found: Vec<Asked>,
}

impl Watched {
    /// Starts a thread for each.
    pub fn start(path: PathBuf, shared: &Arc<Shared>) -> io::Result<Arc<Watched>> {
        let members = read(&path).map_err(|it| io::Error::new(io::ErrorKind::InvalidInput, it.to_string()))?;
        let none = || Mutex::new((Instant::now(), Err("it was not asked yet".to_string())));
        let watched = Arc::new(Watched { found: members.iter().map(|it| (it.name.clone(), none())).collect() });
        for (place, member) in members.into_iter().enumerate() {
            let (watched, shared) = (watched.clone(), shared.clone());
            thread::Builder::new().name("group".to_string()).spawn(move || watched.ask_on(place, &member, &shared))?;
        }
        Ok(watched)
    }

    fn ask_on(&self, place: usize, member: &Member, shared: &Shared) {
        let mut client = None;
        loop {
            if shared.pages.load(Ordering::Relaxed) == 0 {
                client = None;
            } else {
                let found = standing_of(&mut client, member);
                client = client.filter(|_| found.is_ok());
                *self.found[place].1.lock().unwrap_or_else(PoisonError::into_inner) = (Instant::now(), found);
            }
            thread::sleep(EACH);
        }
    }

    /// How each stands, for a page.
    pub fn value(&self) -> Value {
        let one = |(name, found): &Asked| {
            let (at, found) = &*found.lock().unwrap_or_else(PoisonError::into_inner);
            match found {
                Err(why) => json!({ "name": name, "error": why }),
                Ok(_) if at.elapsed() > OLD => json!({ "name": name, "error": "it does not answer" }),
                Ok(it) => in_short(name, it),
            }
        };
        self.found.iter().map(one).collect()
    }
}

fn standing_of(client: &mut Option<Client>, member: &Member) -> Result<Value, String> {
    if client.is_none() {
        *client = Some(Client::connect(&member.place, None, ANSWERS).map_err(|it| it.to_string())?);
    }
    let Some(it) = client else { return Err("it is not connected".to_string()) };
    let lines = it.ask(".STANDING").map_err(|it| it.to_string())?;
    serde_json::from_str(lines.first().map_or("", String::as_str)).map_err(|it| format!("it has another version: {it}"))
}

/// What of how a recorder stands a row shows.
fn in_short(name: &str, it: &Value) -> Value {
    let channels = it["channels"].as_array().map_or(&[][..], Vec::as_slice);
    let lost: u64 = channels.iter().map(|it| it["lost"].as_u64().unwrap_or(0)).sum();
    let alarms: Vec<&str> =
        it["alarms"].as_array().map_or(&[][..], Vec::as_slice).iter().filter_map(|it| it["text"].as_str()).collect();
    json!({ "name": name, "state": it["state"], "free": it["free"], "lost": lost, "alarms": alarms })
}

#[cfg(test)]
mod tests {
    use super::*;

    #[test]
    fn groups_are_read() {
        let text = "[[recorder]]\nname = \"LEFT\"\ntcp = \"10.0.0.5:8105\"\n[[recorder]]\nname = \"RIGHT\"\nsocket = \"c\"\n";
        let found = of_text(text, Path::new("/f")).unwrap();
        assert_eq!((found[0].name.as_str(), &found[0].place), ("LEFT", &Place::Tcp("10.0.0.5:8105".to_string())));
        assert_eq!(found[1].place, Place::Socket("/f/c".into()));
        for (wrong, what) in [
            ("", "missing field `recorder`"),
            ("recorder = []\n", "0 tables"),
            (&text.replace("RIGHT", "LEFT"), "a name of its own"),
            (&text.replace("socket = \"c\"", ""), "give either socket or tcp"),
            (&text.replace("socket = \"c\"", "socket = \"c\"\ntcp = \"a:1\""), "give either socket or tcp"),
            (&text.replace("socket = \"c\"", "socket = \"c\"\ntoken = \"nothing-there\""), "the token /f/nothing-there"),
        ] {
            assert!(
                of_text(wrong, Path::new("/f")).is_err_and(|it| it.contains(what)),
                "{wrong} {:?}",
                of_text(wrong, Path::new("/f"))
            );
        }
    }
}
