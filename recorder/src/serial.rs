//! A serial line in: a message ends at a byte, a length or a pause.
use std::fs::{File, OpenOptions};
use std::io::{self, Read};
use std::os::fd::AsRawFd;
use std::os::unix::fs::OpenOptionsExt;
use std::path::Path;
use std::time::Duration;

use nix::fcntl::OFlag;
use nix::poll::{PollFd, PollFlags, poll};
use nix::sys::termios::{BaudRate, ControlFlags, SetArg, cfmakeraw, cfsetspeed, tcgetattr, tcsetattr};

use crate::feed::Feed;
use crate::inputs::AGAIN;
use crate::settings::Channel;
use crate::{info, warning};

/// How long a line is silent before losses are handed over again, in milliseconds.
const LOOK: i32 = 1000;

/// Where messages end in a stream of bytes.
pub struct Framer {
    end: Option<u8>,
    length: usize,
    has_pause: bool,
    bytes: Vec<u8>,
}

impl Framer {
    pub fn new(end: Option<u8>, length: usize, has_pause: bool) -> Framer {
        Framer { end, length: length.max(1), has_pause, bytes: Vec::new() }
    }

    /// Bytes came. Each message that ends in them is given, with its end.
    pub fn bytes(&mut self, bytes: &[u8], mut give: impl FnMut(&[u8])) {
        for it in bytes {
            self.bytes.push(*it);
            if self.bytes.len() >= self.length || self.end == Some(*it) {
                give(&self.bytes);
                self.bytes.clear();
            }
        }
    }

    /// Nothing came for a while, or the line went: what there is is a message.
    pub fn pause(&mut self, mut give: impl FnMut(&[u8])) {
        if !self.bytes.is_empty() {
            give(&self.bytes);
            self.bytes.clear();
        }
    }
}

fn rate(baud: u32) -> Option<BaudRate> {
    Some(match baud {
        1200 => BaudRate::B1200,
        2400 => BaudRate::B2400,
        4800 => BaudRate::B4800,
        9600 => BaudRate::B9600,
        19200 => BaudRate::B19200,
        38400 => BaudRate::B38400,
        57600 => BaudRate::B57600,
        115_200 => BaudRate::B115200,
        230_400 => BaudRate::B230400,
        460_800 => BaudRate::B460800,
        500_000 => BaudRate::B500000,
        921_600 => BaudRate::B921600,
        1_000_000 => BaudRate::B1000000,
        _ => return None,
    })
}

/// Opens a line as it is, without echo and without a change to any byte.
fn open(path: &Path, baud: Option<u32>) -> io::Result<File> {
    let file =
        OpenOptions::new().read(true).write(true).custom_flags(OFlag::O_NOCTTY.bits() | OFlag::O_NONBLOCK.bits()).open(path)?;
    let mut line = tcgetattr(file.as_raw_fd())?;
    cfmakeraw(&mut line);
    // a line of three wires has no carrier, whatever the program before this one wanted
    line.control_flags |= ControlFlags::CREAD | ControlFlags::CLOCAL;
    if let Some(rate) = baud.and_then(rate) {
        cfsetspeed(&mut line, rate)?;
    }
    tcsetattr(file.as_raw_fd(), SetArg::TCSANOW, &line)?;
    Ok(file)
}

pub fn run(path: &Path, baud: Option<u32>, mut framer: Framer, pause: Option<Duration>, mut feed: Feed, channel: &Channel) {
    let mut was_said = false;
    loop {
        let failed = match open(path, baud) {
            Ok(file) => {
                info!("channel {}: reads the serial line {}", channel.id, path.display());
                was_said = false;
                feed.note(&[channel.id], &format!("serial {}", path.display()), "open", "");
                feed.reads(file.try_clone().ok().map(Into::into));
                read(file, &mut framer, pause, &mut feed, channel)
            }
            Err(error) => error,
        };
        framer.pause(|bytes| give(&mut feed, channel, bytes));
        feed.reads(None);
        feed.waits();
        if !was_said {
            feed.note(&[channel.id], &format!("serial {}", path.display()), "failed", &failed.to_string());
            warning!(
                "channel {}: the serial line {} cannot be read: {failed}; it is tried again until it can",
                channel.id,
                path.display()
            );
            was_said = true;
        }
        std::thread::sleep(AGAIN);
    }
}

fn give(feed: &mut Feed, channel: &Channel, bytes: &[u8]) {
    if let Some((head, length)) = channel.kind.of_bytes(bytes, channel.sub) {
        feed.message(0, 0, head, &bytes[..length]);
    }
}

/// Reads until the line fails, and says why.
fn read(mut file: File, framer: &mut Framer, pause: Option<Duration>, feed: &mut Feed, channel: &Channel) -> io::Error {
    let mut bytes = [0; 4096];
    feed.goes_on();
    loop {
        match file.read(&mut bytes) {
            Ok(0) => return io::ErrorKind::UnexpectedEof.into(),
            Ok(count) => framer.bytes(&bytes[..count], |bytes| give(feed, channel, bytes)),
            Err(error) if error.kind() == io::ErrorKind::Interrupted => (),
            Err(error) if error.kind() == io::ErrorKind::WouldBlock => {
                feed.flush();
                let is_pause = framer.has_pause && !framer.bytes.is_empty();
                let wait = match pause {
                    Some(it) if is_pause => it.as_millis() as i32,
                    // (losses wait for room in the queue)
                    _ if feed.has_losses() => LOOK,
                    _ => -1,
                };
                // (a message that its pause will end is not there yet)
                if !is_pause {
                    feed.waits();
                }
                let found = poll(&mut [PollFd::new(file.as_raw_fd(), PollFlags::POLLIN)], wait);
                feed.goes_on();
                match found {
                    Ok(0) if is_pause => {
                        framer.pause(|bytes| give(feed, channel, bytes));
                        feed.flush();
                    }
                    Ok(_) | Err(nix::errno::Errno::EINTR) => (),
                    Err(error) => return error.into(),
                }
            }
            Err(error) => return error,
        }
    }
}

#[cfg(test)]
mod tests {
    use super::*;

    fn messages(mut framer: Framer, parts: &[&[u8]]) -> Vec<Vec<u8>> {
        let mut found = Vec::new();
        for part in parts {
            framer.bytes(part, |it| found.push(it.to_vec()));
        }
        framer.pause(|it| found.push(it.to_vec()));
        found
    }

    #[test]
    fn messages_end_at_a_byte_a_length_or_a_pause() {
        assert_eq!(
            messages(Framer::new(Some(b'\n'), 1024, false), &[b"$A\n$B", b"\n", b"\n$C"]),
            [b"$A\n".to_vec(), b"$B\n".to_vec(), b"\n".to_vec(), b"$C".to_vec()]
        );
        assert_eq!(messages(Framer::new(None, 3, false), &[b"abcd", b"efg"]), [b"abc".to_vec(), b"def".to_vec(), b"g".to_vec()]);
        assert_eq!(
            messages(Framer::new(Some(b'\n'), 3, false), &[b"ab\ncdefgh"]),
            [b"ab\n".to_vec(), b"cde".to_vec(), b"fgh".to_vec()]
        );
        assert_eq!(messages(Framer::new(None, 65_535, true), &[b"all", b" of it"]), [b"all of it".to_vec()]);
    }

    #[test]
    fn each_rate_of_the_settings_is_one_of_the_system() {
        assert!(crate::settings::RATES.iter().all(|it| rate(*it).is_some()));
    }
}
