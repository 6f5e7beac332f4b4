//! A client of a recorder: lines to its socket or its TCP port, and lines back. `r10ctl` and the page of a group are clients.
use std::fmt;
use std::io::{self, BufRead, BufReader, Read, Write};
use std::net::{TcpStream, ToSocketAddrs};
use std::os::unix::net::UnixStream;
use std::path::PathBuf;
use std::time::Duration;

use crate::control::ask_in_silence;

/// Where a recorder listens.
#[derive(Clone, Debug, PartialEq, Eq)]
pub enum Place {
    Socket(PathBuf),
    /// a machine and a port
    Tcp(String),
}

impl fmt::Display for Place {
    fn fmt(&self, f: &mut fmt::Formatter) -> fmt::Result {
        match self {
            Place::Socket(path) => write!(f, "{}", path.display()),
            Place::Tcp(address) => f.write_str(address),
        }
    }
}

pub trait Line: Read + Write {}
impl Line for UnixStream {}
impl Line for TcpStream {}

/// How long a machine has to take a connection.
const CONNECTS: Duration = Duration::from_secs(10);

/// A connection to the first of an address's machines that takes one.
pub fn connect_tcp(address: &str) -> io::Result<TcpStream> {
    let mut last = io::Error::new(io::ErrorKind::InvalidInput, "it names no machine");
    for it in address.to_socket_addrs()? {
        match TcpStream::connect_timeout(&it, CONNECTS) {
            Ok(stream) => {
                ask_in_silence(&stream)?;
                return Ok(stream);
            }
            Err(error) => last = error,
        }
    }
    Err(last)
}

/// Why a word got no answer.
#[derive(Debug, PartialEq, Eq)]
pub enum Why {
    /// the recorder refuses it: its line
    Refused(String),
    /// no answer came for so long
    Silent(Duration),
    /// the recorder went away, or this program cannot go on
    Ended(String),
}

impl Why {
    /// The number of a refusal, as the standard has it.
    pub fn number(&self) -> Option<u8> {
        match self {
            Why::Refused(line) => line.strip_prefix("E ")?.get(..2)?.parse().ok(),
            _ => None,
        }
    }
}

impl From<String> for Why {
    fn from(text: String) -> Why {
        Why::Ended(text)
    }
}

impl fmt::Display for Why {
    fn fmt(&self, f: &mut fmt::Formatter) -> fmt::Result {
        match self {
            Why::Refused(text) | Why::Ended(text) => f.write_str(text),
            Why::Silent(patience) => write!(f, "the recorder did not answer for {} s; see its log", patience.as_secs()),
        }
    }
}

pub struct Client {
    line: BufReader<Box<dyn Line + Send>>,
    /// What came of a line whose end has not come yet.
    begun: Vec<u8>,
    /// how long an answer is waited for
    patience: Duration,
}

impl Client {
    /// Connects, and gives the token where there is one.
    pub fn connect(place: &Place, token: Option<&str>, patience: Duration) -> Result<Client, Why> {
        let text = |it: io::Error| Why::Ended(it.to_string());
        let line: Box<dyn Line + Send> = match place {
            Place::Tcp(address) => {
                let it = connect_tcp(address).map_err(|it| {
                    Why::Ended(format!(
                        "no recorder at {address}: {it}; is control.tcp set to it, and this machine one of control.peers?"
                    ))
                })?;
                it.set_read_timeout(Some(patience)).map_err(text)?;
                it.set_nodelay(true).map_err(text)?;
                Box::new(it)
            }
            Place::Socket(path) => {
                let it = UnixStream::connect(path).map_err(|it| {
                    Why::Ended(match it.kind() {
                        io::ErrorKind::PermissionDenied => {
                            format!("no access to {}: be root, or of the group of the service", path.display())
                        }
                        _ => format!("no recorder at {}: {it}; start r10d, or give --socket", path.display()),
                    })
                })?;
                it.set_read_timeout(Some(patience)).map_err(text)?;
                Box::new(it)
            }
        };
        let mut client = Client::over(line, patience);
        // (over the socket none is wanted)
        if let (Some(token), Place::Tcp(_)) = (token, place) {
            client.ask(&format!(".TOKEN {token}"))?;
        }
        Ok(client)
    }

    /// One over a connection that is there.
    pub fn over(line: Box<dyn Line + Send>, patience: Duration) -> Client {
        Client { line: BufReader::new(line), begun: Vec::new(), patience }
    }

    pub fn send(&mut self, command: &str) -> Result<(), Why> {
        match self.line.get_mut().write_all(format!("{command}\n").as_bytes()) {
            // one that has closed the connection may have said why
            Err(error) if error.kind() == io::ErrorKind::BrokenPipe => Ok(()),
            other => other.map_err(|it| Why::Ended(format!("the recorder went away: {it}; see its log"))),
        }
    }

    /// The next line of an answer, or none at its end. After an answer that it did not come yet it can be asked for again.
    pub fn line(&mut self) -> Result<Option<String>, Why> {
        match self.line.read_until(b'\n', &mut self.begun) {
            Ok(_) if !self.begun.ends_with(b"\n") => Err(Why::Ended("the recorder went away; see its log".to_string())),
            Ok(_) => {
                let text = String::from_utf8_lossy(&std::mem::take(&mut self.begun)).trim_end_matches('\n').to_string();
                Ok(if text == "*" { None } else { Some(text) })
            }
            Err(error) if error.kind() == io::ErrorKind::WouldBlock => Err(Why::Silent(self.patience)),
            // (of a connection over TCP whose other side no longer answers the system)
            Err(error) if error.kind() == io::ErrorKind::TimedOut => {
                Err(Why::Ended("the recorder's machine no longer answers; has it power, and is its cable in?".to_string()))
            }
            Err(error) => Err(Why::Ended(format!("the recorder went away: {error}; see its log"))),
        }
    }

    pub fn ask(&mut self, command: &str) -> Result<Vec<String>, Why> {
        self.send(command)?;
        let mut lines = Vec::new();
        while let Some(line) = self.line()? {
            lines.push(line);
        }
        match lines.first() {
            Some(line) if line.starts_with("E ") => Err(Why::Refused(line.clone())),
            _ => Ok(lines),
        }
    }
}

#[cfg(test)]
mod tests {
    use super::*;

    #[test]
    fn a_line_in_two_parts_is_one() {
        let (here, mut there) = UnixStream::pair().unwrap();
        here.set_read_timeout(Some(Duration::from_millis(20))).unwrap();
        let mut recorder = Client::over(Box::new(here), Duration::from_secs(7));
        there.write_all(b"entry 5").unwrap();
        assert_eq!(recorder.line(), Err(Why::Silent(Duration::from_secs(7))));
        there.write_all(b" 7\n*\nentr").unwrap();
        assert_eq!(recorder.line(), Ok(Some("entry 5 7".to_string())));
        assert_eq!(recorder.line(), Ok(None));
        drop(there);
        assert!(recorder.line().unwrap_err().to_string().contains("went away"));
    }

    #[test]
    fn a_machine_that_is_not_there_is_named() {
        assert!(connect_tcp("127.0.0.1:1").is_err());
        assert!(connect_tcp("127.0.0.1").is_err());
    }
}
