//! The page: one file, and what it shows as server-sent events. It reads what the recorder's thread put up, and never asks it; a
//! command alone does, where the settings let a page give one.
use std::io::{self, ErrorKind, Read, Write};
use std::net::TcpStream;
use std::sync::Arc;
use std::sync::atomic::Ordering::Relaxed;
use std::time::{Duration, Instant};

use serde_json::{Value, json};

use crate::control::{Asking, Origin, Reply};
use crate::group::Watched;
use crate::http::{self, Request, are_one};
use crate::settings::Settings;
use crate::standing::{EACH, Shared};
use crate::{log, warning};

/// The page itself.
const PAGE: &str = include_str!("page.html");
/// How many may be connected at a time: pages that are open, and requests.
const MOST: usize = 32;
/// How often a page gets how it stands, where nothing else changed: twice a second. What changed comes a quarter of a second after
/// the last time at the earliest.
const AGAIN: Duration = Duration::from_millis(500);
/// The lines of the log that a page shows.
const LINES: usize = 20;
/// The words that a page may give. No erase and no shutdown.
const WORDS: [&str; 4] = [".RECORD", ".STOP", ".EVENT", ".NOTE"];
/// Who gives a wrong token waits.
const WRONG: Duration = Duration::from_millis(500);

/// Starts to serve it.
pub fn start(settings: &Settings, shared: &Arc<Shared>, asking: &Asking) -> io::Result<()> {
    let Some(address) = settings.page else { return Ok(()) };
    let token = settings.token.clone().filter(|_| settings.page_control);
    let group = settings.group.as_ref().map(|it| Watched::start(it.clone(), shared)).transpose()?;
    let (shared, asking) = (shared.clone(), asking.clone());
    let title = settings.volume.clone();
    http::serve("page", address, &settings.peers, MOST, move |request, to| {
        if !request.is_own(to.local_addr()?) {
            return http::say(to, "403 Forbidden", "this page answers its own address alone, by its number or as localhost");
        }
        match (request.method.as_str(), request.path.as_str()) {
            ("GET", "/") => page(to, &title, token.is_some()),
            ("GET", "/events") => {
                shared.pages.fetch_add(1, Relaxed);
                let done = events(to, &shared, group.as_deref());
                shared.pages.fetch_sub(1, Relaxed);
                done
            }
            ("POST", "/command") => command(to, request, token.as_deref(), &asking),
            _ => http::say(to, "404 Not Found", "there are / and /events here"),
        }
    })
}

/// The page. Nothing from outside is loaded, whatever stands in it: the head says so to the browser.
fn page(to: &mut TcpStream, title: &str, has_control: bool) -> io::Result<()> {
    let mut nonce = [0; 16];
    std::fs::File::open("/dev/urandom")?.read_exact(&mut nonce)?;
    let nonce = hex::encode(nonce);
    // (a volume has letters, digits and three signs)
    let body = PAGE
        .replace("{{nonce}}", &nonce)
        .replace("{{volume}}", title)
        .replace("{{control}}", if has_control { "true" } else { "false" });
    let policy = format!(
        "Content-Security-Policy: default-src 'none'; script-src 'nonce-{nonce}'; style-src 'nonce-{nonce}'; connect-src 'self'; \
         base-uri 'none'; form-action 'none'; frame-ancestors 'none'\r\n"
    );
    http::answer(to, "200 OK", "text/html; charset=utf-8", &policy, &body)
}

/// What a page shows, as long as it is open. One that reads too slowly gets fewer, and the last of them; one that does not read goes.
fn events(to: &mut TcpStream, shared: &Shared, group: Option<&Watched>) -> io::Result<()> {
    to.write_all(
        b"HTTP/1.1 200 OK\r\nContent-Type: text/event-stream\r\nCache-Control: no-store\r\nX-Content-Type-Options: nosniff\r\n\
          Connection: close\r\n\r\nretry: 1000\n\n",
    )?;
    to.write_all(format!("event: history\ndata: {}\n\n", shared.history()).as_bytes())?;
    let (mut sent, mut last) = (Instant::now(), Value::Null);
    let mut is_first = true;
    loop {
        let mut value = shared.value();
        // what a crew hears at once: the state and the alarms
        let news = json!([value["state"], value["file"]["number"], value["alarms"]]);
        if is_first || sent.elapsed() >= AGAIN || news != last {
            value["log"] = log::last(LINES).into();
            if let Some(it) = group {
                value["group"] = it.value();
            }
            to.write_all(format!("data: {value}\n\n").as_bytes())?;
            (sent, last, is_first) = (Instant::now(), news, false);
        }
        is_gone(to)?;
        std::thread::sleep(EACH);
    }
}

/// Whether the client has closed its end: while nothing is written that shows here alone.
fn is_gone(to: &TcpStream) -> io::Result<()> {
    to.set_nonblocking(true)?;
    let found = to.peek(&mut [0]);
    to.set_nonblocking(false)?;
    match found {
        Ok(0) => Err(ErrorKind::UnexpectedEof.into()),
        Ok(_) => Err(ErrorKind::InvalidData.into()),
        Err(error) if error.kind() == ErrorKind::WouldBlock => Ok(()),
        Err(error) => Err(error),
    }
}

/// A command of a page: a word that it may give, with the token in the head, from the page itself.
fn command(to: &mut TcpStream, request: &Request, token: Option<&str>, asking: &Asking) -> io::Result<()> {
    let Some(token) = token else {
        return http::say(to, "403 Forbidden", "this page gives no commands: page_control is not true in the settings");
    };
    if request.header("Origin").is_none() {
        return http::say(to, "403 Forbidden", "a command comes from the page itself");
    }
    let by = to.peer_addr().map_or_else(|it| it.to_string(), |it| format!("the page at {it}"));
    if !request.header("X-R10-Token").is_some_and(|it| are_one(it, token)) {
        warning!("page: {by} gave a wrong token, and is not heard");
        std::thread::sleep(WRONG);
        return http::say(to, "401 Unauthorized", "that is not the token: it is in the file that control.token names");
    }
    let line = request.body.trim();
    let word = line.split_whitespace().next().unwrap_or("").to_ascii_uppercase();
    if line.contains(char::is_control) || !WORDS.contains(&word.as_str()) {
        return http::say(to, "400 Bad Request", &format!("a page gives one of {WORDS:?}"));
    }
    match asking.ask(line, Origin::Page, &by) {
        Some(Reply::Text(text)) if text.starts_with("E ") => http::say(to, "409 Conflict", text.trim_end()),
        Some(Reply::Text(text)) => http::say(to, "200 OK", text.trim_end()),
        _ => http::say(to, "503 Service Unavailable", "the recorder does not answer; see its log"),
    }
}
