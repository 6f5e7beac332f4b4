//! What is durable, for a program that has to know: after each commit a line `durable FILE CHANNEL MESSAGES` in a file, for each
//! channel that got some. The file is begun anew once it is large: the one before it stays beside it, as `NAME.1`.
use std::fmt::Write as _;
use std::fs::{File, OpenOptions};
use std::io::{self, Write};
use std::os::unix::fs::OpenOptionsExt;
use std::path::{Path, PathBuf};

use nix::fcntl::OFlag;

use crate::{info, warning};

pub struct Acknowledge {
    path: PathBuf,
    to: Option<File>,
    lines: String,
    /// it is begun anew at so many bytes
    most: u64,
    size: u64,
}

impl Acknowledge {
    pub fn open(path: &Path, most: u64) -> io::Result<Acknowledge> {
        let to = open(path)
            .map_err(|it| io::Error::new(it.kind(), format!("acknowledge = {path:?}: {it}; give a file that may be written")))?;
        let size = to.metadata()?.len();
        Ok(Acknowledge { path: path.to_path_buf(), to: Some(to), lines: String::new(), most, size })
    }

    /// Begins the file anew where it is large. A pipe or a device is none that grows.
    fn turn_over(&mut self) -> io::Result<()> {
        let is_file = self.to.as_ref().is_some_and(|it| it.metadata().is_ok_and(|it| it.is_file()));
        if self.size < self.most || !is_file {
            return Ok(());
        }
        let mut old = self.path.clone().into_os_string();
        old.push(".1");
        std::fs::rename(&self.path, old)?;
        self.to = Some(open(&self.path)?);
        self.size = 0;
        Ok(())
    }

    /// A file of the recording begins: where writing failed it is tried again. A line that was cut short then gets an end.
    pub fn begin(&mut self) {
        if self.to.is_none()
            && let Ok(mut to) = open(&self.path)
            && to.write_all(b"\n").is_ok()
        {
            info!("what is durable is written down again");
            self.size = to.metadata().map_or(0, |it| it.len());
            self.to = Some(to);
        }
    }

    /// The files of the lines that follow are on this medium of a row.
    pub fn medium(&mut self, place: usize, volume: &str) {
        let _ = writeln!(self.lines, "medium {} {volume}", place + 1);
    }

    /// So many messages of a channel are durable in the file of this number, from 0.
    pub fn line(&mut self, file: usize, channel: u16, messages: u64) {
        let _ = writeln!(self.lines, "durable {file} {channel} {messages}");
    }

    /// Writes the lines down. Where that fails it is not tried again before the next file: recording goes on.
    pub fn flush(&mut self) {
        if self.lines.is_empty() {
            return;
        }
        if let Some(to) = &mut self.to {
            let done = to.write_all(self.lines.as_bytes());
            self.size += self.lines.len() as u64;
            if let Err(error) = done.and_then(|()| self.turn_over()) {
                warning!("what is durable cannot be written down: {error}; it is tried again with the next file");
                self.to = None;
            }
        }
        self.lines.clear();
    }
}

/// A pipe or a terminal that nobody reads is not waited for.
fn open(path: &Path) -> io::Result<File> {
    OpenOptions::new().append(true).create(true).custom_flags(OFlag::O_NONBLOCK.bits()).open(path)
}

#[cfg(test)]
mod tests {
    use super::*;
    use std::io::Read;

    /// No line is lost where the file is begun anew, and two files are there at most.
    #[test]
    fn a_large_file_is_begun_anew() {
        let folder = std::env::temp_dir().join(format!("r10d-acknowledge-folder-{}", std::process::id()));
        let _ = std::fs::remove_dir_all(&folder);
        std::fs::create_dir(&folder).unwrap();
        let path = folder.join("lines");
        let mut to = Acknowledge::open(&path, 100).unwrap();
        let mut all = String::new();
        for count in 1..=8 {
            to.line(0, 5, count);
            to.flush();
            all += &format!("durable 0 5 {count}\n");
        }
        let read = |name: &str| std::fs::read_to_string(folder.join(name)).unwrap();
        assert_eq!((read("lines.1") + &read("lines"), read("lines.1").len()), (all, 112));
        for count in 9..=100 {
            to.line(0, 5, count);
            to.flush();
        }
        let count = std::fs::read_dir(&folder).unwrap().count();
        assert!(count == 2 && read("lines").len() < 128, "{count}");
        // one that was there goes on
        drop(to);
        let size = read("lines").len();
        assert_eq!(Acknowledge::open(&path, 100).unwrap().size, size as u64);
        std::fs::remove_dir_all(&folder).unwrap();
    }

    /// A pipe that is full fails as a full disk does; once it is read there is room.
    #[test]
    fn what_failed_is_tried_again_with_the_next_file() {
        let path = std::env::temp_dir().join(format!("r10d-acknowledge-{}", std::process::id()));
        let _ = std::fs::remove_file(&path);
        nix::unistd::mkfifo(&path, nix::sys::stat::Mode::S_IRWXU).unwrap();
        let mut pipe = OpenOptions::new().read(true).write(true).custom_flags(OFlag::O_NONBLOCK.bits()).open(&path).unwrap();
        let mut to = Acknowledge::open(&path, u64::MAX).unwrap();
        let mut count = 0;
        while to.to.is_some() {
            count += 1;
            to.line(0, 5, count);
            to.flush();
        }
        let mut text = Vec::new();
        let _ = pipe.read_to_end(&mut text);
        to.line(0, 5, count);
        to.flush();
        to.begin();
        to.line(1, 5, 1);
        to.flush();
        let _ = pipe.read_to_end(&mut text);
        std::fs::remove_file(&path).unwrap();
        let text = String::from_utf8(text).unwrap();
        assert!(text.ends_with(&format!("\ndurable 0 5 {}\n\ndurable 1 5 1\n", count - 1)), "{}", &text[text.len() - 200..]);
    }
}
