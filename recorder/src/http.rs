//! What the page and the metrics share of HTTP: connections that are few and end by themselves, one request each, its head read by
//! the crate `httparse`.
//!
//! (A server of a crate was looked at, `tiny_http`: it takes connections without a bound, waits for a request without one, and takes
//! none for good after the first that the system refuses it. So one that is silent, many times, could take the descriptors that the
//! recorder needs.)
use std::io::{self, ErrorKind, Read, Write};
use std::net::{IpAddr, SocketAddr, TcpStream};
use std::sync::Arc;
use std::sync::atomic::{AtomicUsize, Ordering::Relaxed};
use std::thread;
use std::time::{Duration, Instant};

use crate::control::{self, connected, is_welcome};
use crate::inputs::Seldom;

/// How long a client has for its whole request, and how long it may leave what is written to it unread.
const ASKS: Duration = Duration::from_secs(5);
const READS: Duration = Duration::from_secs(5);
/// The longest head, and the longest body.
const HEAD: usize = 8192;
const BODY: usize = 4096;
/// The most lines of a head.
const LINES: usize = 64;

/// A request.
#[derive(Debug, Default, PartialEq, Eq)]
pub struct Request {
    pub method: String,
    pub path: String,
    headers: Vec<(String, String)>,
    pub body: String,
}

impl Request {
    /// The value of a line of the head, where there is one such line. Two of a name are none.
    pub fn header(&self, name: &str) -> Option<&str> {
        let mut found = self.headers.iter().filter(|it| it.0.eq_ignore_ascii_case(name));
        found.next().filter(|_| found.next().is_none()).map(|it| it.1.as_str())
    }

    fn has(&self, name: &str) -> bool {
        self.headers.iter().any(|it| it.0.eq_ignore_ascii_case(name))
    }

    /// Whether it was sent to this address by its own name, and by no page of another one. A browser sends a page's `Origin` with what
    /// it posts, and the name by which it found the address as `Host`: so a page from elsewhere, and a name that leads here, are seen.
    pub fn is_own(&self, here: SocketAddr) -> bool {
        let names = own_names(here);
        let is_host = self.header("Host").is_some_and(|it| names.iter().any(|name| name == it));
        let is_origin = !self.has("Origin")
            || self
                .header("Origin")
                .and_then(|it| it.strip_prefix("http://"))
                .is_some_and(|it| names.iter().any(|name| name == it));
        let is_site = !self.has("Sec-Fetch-Site") || matches!(self.header("Sec-Fetch-Site"), Some("same-origin" | "none"));
        is_host && is_origin && is_site
    }
}

/// The names that an address has in a request.
fn own_names(here: SocketAddr) -> Vec<String> {
    let here = SocketAddr::new(here.ip().to_canonical(), here.port());
    let mut names = vec![here.to_string()];
    if here.ip().is_loopback() {
        names.push(format!("localhost:{}", here.port()));
    }
    if here.port() == 80 {
        names.extend(names.clone().iter().filter_map(|it| it.strip_suffix(":80").map(str::to_string)));
    }
    names
}

/// Reads a request. None where the client went before it sent one; what is none is an error.
fn read(stream: &mut TcpStream) -> io::Result<Option<Request>> {
    let end = Instant::now() + ASKS;
    let mut bytes = Vec::new();
    let mut more = |bytes: &mut Vec<u8>| -> io::Result<bool> {
        let left = end.saturating_duration_since(Instant::now());
        if left.is_zero() {
            return Err(ErrorKind::TimedOut.into());
        }
        stream.set_read_timeout(Some(left))?;
        let mut part = [0; 2048];
        let count = stream.read(&mut part)?;
        bytes.extend_from_slice(&part[..count]);
        Ok(count > 0)
    };
    loop {
        if !more(&mut bytes)? {
            return if bytes.is_empty() { Ok(None) } else { Err(ErrorKind::UnexpectedEof.into()) };
        }
        let mut lines = [httparse::EMPTY_HEADER; LINES];
        let mut head = httparse::Request::new(&mut lines);
        let wrong = |it: httparse::Error| io::Error::new(ErrorKind::InvalidData, it.to_string());
        let httparse::Status::Complete(length) = head.parse(&bytes).map_err(wrong)? else {
            if bytes.len() >= HEAD {
                return Err(ErrorKind::InvalidData.into());
            }
            continue;
        };
        let text = |it: &[u8]| String::from_utf8_lossy(it).trim().to_string();
        let mut request = Request {
            method: head.method.unwrap_or("").to_string(),
            path: head.path.unwrap_or("").to_string(),
            headers: head.headers.iter().map(|it| (it.name.to_string(), text(it.value))).collect(),
            body: String::new(),
        };
        // (a length that is none, or two of them, is no body)
        let wanted = request.header("Content-Length").and_then(|it| it.parse::<usize>().ok()).unwrap_or(0);
        if wanted > BODY || request.has("Transfer-Encoding") {
            return Err(ErrorKind::InvalidData.into());
        }
        while bytes.len() < length + wanted {
            if !more(&mut bytes)? {
                return Err(ErrorKind::UnexpectedEof.into());
            }
        }
        request.body = String::from_utf8_lossy(&bytes[length..length + wanted]).into_owned();
        return Ok(Some(request));
    }
}

/// Answers a request, and ends the connection with it.
pub fn answer(to: &mut TcpStream, status: &str, kind: &str, more: &str, body: &str) -> io::Result<()> {
    let head = format!(
        "HTTP/1.1 {status}\r\nContent-Type: {kind}\r\nContent-Length: {}\r\nConnection: close\r\nCache-Control: no-store\r\n\
         X-Content-Type-Options: nosniff\r\nReferrer-Policy: no-referrer\r\n{more}\r\n",
        body.len()
    );
    to.write_all(head.as_bytes())?;
    to.write_all(body.as_bytes())
}

/// A line of text as an answer.
pub fn say(to: &mut TcpStream, status: &str, text: &str) -> io::Result<()> {
    answer(to, status, "text/plain; charset=utf-8", "", &format!("{text}\n"))
}

/// Listens at an address, and hands each request to a thread of its own: at most so many at a time. Who is no peer is not heard.
pub fn serve(
    name: &'static str,
    address: SocketAddr,
    peers: &[IpAddr],
    most: usize,
    handle: impl Fn(&Request, &mut TcpStream) -> io::Result<()> + Send + Sync + 'static,
) -> io::Result<()> {
    let (peers, handle) = (peers.to_vec(), Arc::new(handle));
    control::listen(name, &format!("{name} = \"{address}\""), address, move |listener| {
        crate::info!("{name}: at http://{address}/");
        let (open, mut strangers) = (Arc::new(AtomicUsize::new(0)), Seldom::default());
        for stream in connected(listener.incoming()) {
            match stream.peer_addr() {
                Ok(peer) if is_welcome(peer.ip(), &peers) => (),
                Ok(peer) => {
                    strangers.warn(|| format!("{name}: {peer} is not one of control.peers, and is not heard"));
                    continue;
                }
                Err(_) => continue,
            }
            // (where there are too many, or no thread can be had, the connection ends)
            if open.fetch_add(1, Relaxed) >= most {
                open.fetch_sub(1, Relaxed);
                let mut stream = stream;
                let _ = stream.set_write_timeout(Some(Duration::from_millis(100)));
                let _ = say(&mut stream, "503 Service Unavailable", "too many are connected; close another page first");
                continue;
            }
            let (handle, counted) = (handle.clone(), open.clone());
            let started = thread::Builder::new().name(format!("{name} client")).spawn(move || {
                let mut stream = stream;
                let _ = one(&mut stream, handle.as_ref());
                counted.fetch_sub(1, Relaxed);
            });
            if started.is_err() {
                open.fetch_sub(1, Relaxed);
            }
        }
    })
}

fn one(stream: &mut TcpStream, handle: &impl Fn(&Request, &mut TcpStream) -> io::Result<()>) -> io::Result<()> {
    stream.set_write_timeout(Some(READS))?;
    stream.set_nodelay(true)?;
    match read(stream) {
        Ok(Some(request)) => handle(&request, stream),
        Ok(None) => Ok(()),
        Err(error) if error.kind() == ErrorKind::InvalidData => {
            say(stream, "400 Bad Request", "this is no request, or too long a one")
        }
        Err(error) => Err(error),
    }
}

/// Whether two texts are one, in a time that says nothing of where they differ.
pub fn are_one(one: &str, other: &str) -> bool {
    one.len() == other.len() && one.bytes().zip(other.bytes()).fold(0, |found, (one, other)| found | (one ^ other)) == 0
}

#[cfg(test)]
mod tests {
    use super::*;
    use std::net::TcpListener;

    fn read_of(text: &str) -> io::Result<Option<Request>> {
        let listener = TcpListener::bind("127.0.0.1:0").unwrap();
        let mut there = TcpStream::connect(listener.local_addr().unwrap()).unwrap();
        let (mut here, _) = listener.accept().unwrap();
        there.write_all(text.as_bytes()).unwrap();
        there.shutdown(std::net::Shutdown::Write).unwrap();
        read(&mut here)
    }

    #[test]
    fn requests_are_read() {
        let it = read_of("POST /command HTTP/1.1\r\nHost: a\r\ncontent-length: 5\r\n\r\n.STOPx").unwrap().unwrap();
        assert_eq!((it.method.as_str(), it.path.as_str(), it.body.as_str()), ("POST", "/command", ".STOP"));
        assert_eq!((it.header("host"), it.header("other")), (Some("a"), None));
        assert_eq!(read_of("GET / HTTP/1.1\r\na: b\r\nA: c\r\n\r\n").unwrap().unwrap().header("a"), None);
        assert!(read_of("").unwrap().is_none());
        for wrong in [
            "GET / HTTP/1.1\r\n",
            "\0\0\r\n\r\n",
            "POST / HTTP/1.1\r\nContent-Length: 4097\r\n\r\n",
            "POST / HTTP/1.1\r\nTransfer-Encoding: chunked\r\n\r\n",
            "POST / HTTP/1.1\r\nContent-Length: 9\r\n\r\nabc",
        ] {
            assert!(read_of(wrong).is_err(), "{wrong:?}");
        }
        assert!(read_of(&format!("GET / HTTP/1.1\r\na: {}", "x".repeat(9000))).is_err());
    }

    /// Pages of others, and names of others that lead here, are seen.
    #[test]
    fn only_its_own_host_and_origin() {
        let is_own = |here: &str, lines: &[(&str, &str)]| {
            let headers = lines.iter().map(|it| (it.0.to_string(), it.1.to_string())).collect();
            Request { headers, ..Request::default() }.is_own(here.parse().unwrap())
        };
        let here = "127.0.0.1:8106";
        let host = ("Host", "127.0.0.1:8106");
        assert!(
            is_own(here, &[host]) && is_own(here, &[("host", "localhost:8106")]) && is_own("[::1]:8106", &[("Host", "[::1]:8106")])
        );
        assert!(is_own(here, &[host, ("Origin", "http://127.0.0.1:8106"), ("Sec-Fetch-Site", "same-origin")]));
        assert!(is_own("127.0.0.1:80", &[("Host", "127.0.0.1")]) && is_own("[::ffff:127.0.0.1]:8106", &[host]));
        for wrong in [
            &[][..],
            &[("Host", "evil.example:8106")],
            &[("Host", "127.0.0.1:8107")],
            &[("Host", "127.0.0.1")],
            &[host, host],
            &[host, ("Origin", "http://evil.example")],
            &[host, ("Origin", "null")],
            &[host, ("Origin", "https://127.0.0.1:8106")],
            &[host, ("Origin", "http://127.0.0.1:8106"), ("Origin", "http://evil.example")],
            &[host, ("Sec-Fetch-Site", "cross-site")],
            &[host, ("Sec-Fetch-Site", "same-site")],
        ] {
            assert!(!is_own(here, wrong), "{wrong:?}");
        }
        assert!(!is_own("10.0.0.5:8106", &[("Host", "localhost:8106")]));
    }

    #[test]
    fn tokens_are_compared_whole() {
        assert!(are_one("", "") && are_one("abc", "abc"));
        assert!(!are_one("abc", "abd") && !are_one("abc", "ab") && !are_one("ab", "abc") && !are_one("", "a"));
    }
}
