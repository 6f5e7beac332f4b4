//! Lines in: from a named pipe, which is made where it is not there, from standard input, or from a file. A line is an entry.
use std::fs::{File, OpenOptions, Permissions};
use std::io::{self, BufRead, BufReader};
use std::os::fd::{AsFd, AsRawFd};
use std::os::unix::fs::{FileTypeExt, MetadataExt, PermissionsExt};
use std::path::Path;

use nix::errno::Errno;
use nix::poll::{PollFd, PollFlags, poll};
use nix::sys::stat::Mode;

use crate::entries;
use crate::feed::Feed;
use crate::inputs::{AGAIN, Seldom};
use crate::settings::Channel;
use crate::{info, warning};

/// A line of more bytes is none: 65,535 bytes of a message are 131,070 digits.
const LONGEST: usize = 140_000;

/// How long a pipe is silent before it is looked after, in milliseconds.
const LOOK: i32 = 1000;

/// Makes a pipe where nothing is, for the service's user and group, whatever its mask.
pub fn make(path: &Path) -> io::Result<()> {
    if !path.exists() {
        nix::unistd::mkfifo(path, Mode::S_IRUSR | Mode::S_IWUSR)?;
        std::fs::set_permissions(path, Permissions::from_mode(0o660))?;
    }
    Ok(())
}

/// Opens a pipe to read and to write, so that it does not end where a writer goes; any other file to read.
fn open(path: &Path) -> io::Result<(File, bool)> {
    make(path)?;
    let is_pipe = path.metadata()?.file_type().is_fifo();
    Ok((OpenOptions::new().read(true).write(is_pipe).open(path)?, is_pipe))
}

/// Waits until there is something to read, but not for long: whether there is. A pipe that has lost its name gets no more writers:
/// once it is silent, it is given up.
fn wait(file: &File, path: Option<&Path>) -> io::Result<bool> {
    match poll(&mut [PollFd::new(file.as_raw_fd(), PollFlags::POLLIN)], LOOK) {
        Ok(0) if path.is_some_and(|it| !is_at(file, it)) => Err(io::Error::new(io::ErrorKind::NotFound, "it was removed")),
        Ok(0) | Err(Errno::EINTR) => Ok(false),
        Ok(_) => Ok(true),
        Err(error) => Err(error.into()),
    }
}

/// Whether an open file is the one at this path.
fn is_at(file: &File, path: &Path) -> bool {
    let Ok(one) = file.metadata() else { return false };
    path.metadata().is_ok_and(|other| (one.dev(), one.ino()) == (other.dev(), other.ino()))
}

pub fn run(path: Option<&Path>, mut feed: Feed, channels: &[Channel]) {
    let mut was_said = false;
    let ids: Vec<u16> = channels.iter().map(|it| it.id).collect();
    loop {
        let from = path.map_or("standard input".to_string(), |it| it.display().to_string());
        let failed = match path.map(open) {
            None => io::stdin()
                .as_fd()
                .try_clone_to_owned()
                .and_then(|it| read(BufReader::with_capacity(1 << 16, it.into()), None, &from, &mut feed, channels)),
            Some(Ok((file, is_pipe))) => {
                was_said = false;
                feed.note(&ids, &format!("lines {from}"), "open", "");
                let at = path.filter(|_| is_pipe);
                let ended = read(BufReader::with_capacity(1 << 16, file), at, &from, &mut feed, channels);
                match ended {
                    Ok(()) if is_pipe => Err(io::ErrorKind::UnexpectedEof.into()),
                    // a file that was read in part is not read again: its lines would come twice
                    Err(error) if !is_pipe => {
                        warning!("{from} cannot be read to its end: {error}");
                        feed.note(&ids, &format!("lines {from}"), "failed", &error.to_string());
                        return feed.end();
                    }
                    other => other,
                }
            }
            Some(Err(error)) => Err(error),
        };
        match failed {
            Ok(()) => {
                info!("{from} has ended: its channels get nothing more");
                feed.note(&ids, &format!("lines {from}"), "closed", "");
                return feed.end();
            }
            Err(error) if !was_said => {
                warning!("{from} cannot be read: {error}; it is tried again until it can");
                feed.note(&ids, &format!("lines {from}"), "failed", &error.to_string());
                was_said = true;
            }
            Err(_) => (),
        }
        feed.reads(None);
        feed.waits();
        std::thread::sleep(AGAIN);
    }
}

/// Reads lines to the end. What is no entry is counted; the channel is the line's, or the first. `at` is where a pipe is.
fn read(mut from: BufReader<File>, at: Option<&Path>, name: &str, feed: &mut Feed, channels: &[Channel]) -> io::Result<()> {
    feed.reads(from.get_ref().try_clone().ok().map(Into::into));
    let only = if channels.len() == 1 { channels.first().map(|it| it.id) } else { None };
    let (mut line, mut number, mut bad) = (Vec::new(), 1u64, Seldom::default());
    let is_file = from.get_ref().metadata().is_ok_and(|it| it.is_file());
    // whether what comes is the rest of a line that was too long
    let mut is_rest = false;
    loop {
        let found = read_line(&mut from, &mut line, |file| {
            // what came goes over before the thread may wait; losses may have to wait for room first
            feed.waits();
            while !wait(file, at)? {
                feed.waits();
            }
            feed.goes_on();
            Ok(())
        })?;
        let Some(is_whole) = found else {
            feed.flush();
            return Ok(());
        };
        let was_rest = std::mem::replace(&mut is_rest, !is_whole);
        number += u64::from(is_whole);
        if was_rest {
            continue;
        }
        if line.iter().all(u8::is_ascii_whitespace) || line.trim_ascii_start().starts_with(b"#") {
            continue;
        }
        let text = if is_whole {
            std::str::from_utf8(&line).map_err(|it| it.to_string())
        } else {
            Err(format!("it has more than {LONGEST} bytes"))
        };
        let kind_of = |id| channels.iter().find(|it| it.id == id).map(|it| it.kind);
        match text.and_then(|it| entries::read(it, only, kind_of)) {
            Ok(it) => {
                let place = channels.iter().position(|channel| Some(channel.id) == it.channel).unwrap_or(0);
                // a file stays where it is: it is read as fast as there is room
                if is_file {
                    feed.wait_for_room(it.bytes.len());
                }
                feed.message(place, 0, it.head, &it.bytes);
            }
            Err(why) => {
                feed.bad(0);
                bad.warn(|| format!("{name}, line {}: {why}", number - u64::from(is_whole)));
            }
        }
    }
}

/// Reads a line, with its end where it has one, and says whether it is whole: of one that is too long it reads a part. None at the
/// end.
fn read_line(
    from: &mut BufReader<File>,
    line: &mut Vec<u8>,
    mut wait: impl FnMut(&File) -> io::Result<()>,
) -> io::Result<Option<bool>> {
    let mut is_ended = false;
    line.clear();
    while !is_ended && line.len() < LONGEST {
        if from.buffer().is_empty() {
            wait(from.get_ref())?;
        }
        let bytes = match from.fill_buf() {
            Ok([]) => break,
            Ok(bytes) => bytes,
            Err(error) if error.kind() == io::ErrorKind::Interrupted => continue,
            Err(error) => return Err(error),
        };
        let end = bytes.iter().position(|it| *it == b'\n');
        let length = end.map_or(bytes.len(), |it| it + 1).min(LONGEST - line.len());
        line.extend_from_slice(&bytes[..length]);
        from.consume(length);
        is_ended = line.ends_with(b"\n");
    }
    // (a last line has no end)
    Ok((!line.is_empty()).then_some(is_ended || line.len() < LONGEST))
}

#[cfg(test)]
mod tests {
    use super::*;
    use crate::clock::Counter;
    use crate::feed::{Came, feed};
    use std::sync::Arc;
    use std::sync::atomic::Ordering::Relaxed;

    #[test]
    fn a_line_is_an_entry_and_what_is_none_is_counted() {
        let path = std::env::temp_dir().join(format!("r10d-lines-{}", std::process::id()));
        let long = format!("channel = 5, bytes = \"{}\"\n", "41".repeat(LONGEST));
        let text = format!("# a comment\n\nchannel = 5, bytes = \"41\"\n{long}bytes = \"4\"\n\u{fffd}\nbytes = \"42\"");
        std::fs::write(&path, text.replace('\u{fffd}', "\u{1}").as_bytes()).unwrap();
        let settings =
            "medium = \"m\"\nblocks = 99\nvolume = \"V\"\n[control]\nsocket = \"c\"\n[[channel]]\nid = 5\nkind = \"message\"\n";
        let channels = crate::settings::read(settings, Path::new("/")).unwrap().channels;
        let came = Arc::new(Came::default());
        let (feed, outlet) = feed(std::thread::current(), Counter::new(), 1 << 20, &[(0, came.clone())]);
        run(Some(&path), feed, &channels);
        std::fs::remove_file(&path).unwrap();
        let mut bytes = Vec::new();
        while let Some(batch) = outlet.take() {
            bytes.extend(batch.bytes);
        }
        assert_eq!((bytes.as_slice(), came.messages.load(Relaxed), came.bad.load(Relaxed)), (b"AB".as_slice(), 2, 3));
    }
}
