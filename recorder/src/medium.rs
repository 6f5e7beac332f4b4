//! The medium: a file, which is made and allocated where it is not there, or a block device. What the disk below it is like is
//! looked at, and said.
use std::fs::{self, File, OpenOptions};
use std::io;
use std::ops::Range;
use std::os::fd::AsRawFd;
use std::os::unix::fs::{FileExt, FileTypeExt, MetadataExt};
use std::path::{Path, PathBuf};
use std::time::{Duration, Instant};

use nix::errno::Errno;
use nix::fcntl::PosixFadviseAdvice;
use nix::sys::stat::{major, minor};
use r10::{Disk, Recorder, Refusal as Refused, Region};

use crate::dates::Dates;
use crate::inputs::Seldom;
use crate::settings::{Settings, is_of_devices};
use crate::{info, warning, watchdog};

/// How many operations may wait before the library asks for memory.
pub(crate) const ROOM: usize = 4096;

/// How long a medium may be in use by a program that is gone.
const GONE: Duration = Duration::from_secs(2);

/// The bytes of a plain read.
const PART: u64 = 1 << 20;

/// The bytes in which tables of partitions and file systems have their marks, that of btrfs at 64 KiB as the last.
const FRONT: usize = 128 << 10;

/// The letters with which block 1 begins, if it is a directory's.
const LETTERS: &[u8; 8] = b"FORTYtwo";

/// A file's name in an answer or a line of the log, as `r10 files` prints it: a damaged directory may hold any bytes there.
pub fn printed(name: &str) -> String {
    let is_right = |it: char| it.is_ascii_alphanumeric() || "._-".contains(it);
    name.trim_end_matches([' ', '\0']).chars().map(|it| if is_right(it) { it } else { '?' }).collect()
}

/// Whether there is a mark that the service made: an empty file.
fn is_mark(path: &Path) -> bool {
    path.symlink_metadata().is_ok_and(|it| it.is_file() && it.len() == 0)
}

/// Where the mark of a medium that is to be kept stands: in the settings' folder for marks, by its volume's name, or beside it.
fn mark_of(settings: &Settings, place: usize) -> Option<PathBuf> {
    if let Some(folder) = &settings.marks {
        return Some(folder.join(settings.volume_at(place) + ".keep"));
    }
    let mut name = settings.media[place].clone().into_os_string();
    name.push(".keep");
    (!is_of_devices(&settings.media[place])).then(|| name.into())
}

pub struct Medium {
    /// its place among those of the settings, from 0
    pub place: usize,
    pub volume: String,
    path: PathBuf,
    blocks: usize,
    directory: usize,
    script: String,
    /// the file that marks it as one to be kept, where there can be one
    kept: Option<PathBuf>,
    /// the file or device that was opened at the path
    opened: Option<(u64, u64)>,
    gone: Seldom,
    /// up to this block it was read plainly
    pub(crate) ahead: u64,
}

/// Why a medium cannot be used, and what to do.
#[derive(Debug)]
pub enum Refusal {
    /// another program has it: nothing here may touch it
    Taken(String),
    /// it cannot be used as it is, and another try changes nothing
    Wrong(String),
    /// the disk failed: another try may do
    Failed(String),
}

impl Refusal {
    pub fn text(&self) -> &str {
        match self {
            Refusal::Taken(text) | Refusal::Wrong(text) | Refusal::Failed(text) => text,
        }
    }
}

impl Medium {
    /// The one at a place among those of the settings.
    pub fn at(settings: &Settings, place: usize) -> Medium {
        Medium {
            place,
            volume: settings.volume_at(place),
            path: settings.media[place].clone(),
            blocks: settings.blocks,
            directory: settings.directory,
            script: settings.script_at(place),
            kept: mark_of(settings, place),
            opened: None,
            gone: Seldom::default(),
            ahead: 0,
        }
    }

    /// Its path, as an answer's line takes it.
    pub fn name(&self) -> String {
        self.path.display().to_string().chars().map(|it| if it.is_control() { '?' } else { it }).collect()
    }

    fn is_of_devices(&self) -> bool {
        is_of_devices(&self.path)
    }

    /// Makes the file, where nothing of its name is there.
    pub fn make(&self) -> Result<(), Refusal> {
        match fs::metadata(&self.path) {
            Ok(found) if found.is_file() || found.file_type().is_block_device() => return Ok(()),
            Ok(_) => {
                return Err(Refusal::Wrong(format!(
                    "the medium {} is no file and no block device: give the path of one, or one at which nothing is yet",
                    self.name()
                )));
            }
            Err(_) if self.path.is_symlink() => {
                return Err(Refusal::Wrong(format!(
                    "the medium {} is a link that leads nowhere: mount the disk to which it leads, or take the link away",
                    self.name()
                )));
            }
            // (a file that is made there would be in memory)
            Err(_) if self.is_of_devices() => return Ok(()),
            Err(_) => (),
        }
        let start = Instant::now();
        Disk::make(&self.path, self.blocks, &self.script).map_err(|error| match error.kind() {
            io::ErrorKind::WouldBlock | io::ErrorKind::AlreadyExists => Refusal::Taken(format!(
                "the medium {} is made by another program just now: end that one, or give this one a medium of its own",
                self.name()
            )),
            io::ErrorKind::InvalidData => Refusal::Wrong(format!(
                "the medium {0} cannot be made: it is made under the name {0}.new, and there is another file of that name; move it away",
                self.name()
            )),
            _ if error.raw_os_error() == Some(Errno::ELOOP as i32) => Refusal::Wrong(format!(
                "the medium {0} cannot be made: it is made under the name {0}.new, and that is a link; take it away",
                self.name()
            )),
            _ => Refusal::Wrong(format!(
                "the medium {} cannot be made with {} MiB: {error}; give a folder that is there, may be written and has the room, \
                 or fewer blocks",
                self.name(),
                self.blocks >> 11
            )),
        })?;
        info!("medium {}: made and allocated, {} MiB in {} ms", self.name(), self.blocks >> 11, start.elapsed().as_millis());
        self.keep(false);
        Ok(())
    }

    /// Which file or device has the medium's path, if there is one.
    pub fn place(&self) -> Option<(u64, u64)> {
        fs::metadata(&self.path).ok().map(|it| (it.dev(), it.ino()))
    }

    /// What is at the path now was opened.
    pub fn is_opened(&mut self) {
        self.opened = self.place();
    }

    /// Whether what was opened has the path still.
    pub fn is_at_its_path(&self) -> bool {
        self.place() == self.opened
    }

    /// Warns where what is recorded on has lost its path: it goes with the service.
    pub fn warn_if_gone(&mut self) {
        if !self.is_at_its_path() {
            let (path, own) = (self.path.display(), std::process::id());
            self.gone.warn(|| {
                format!(
                    "the medium {path} was removed, or another file is there now: what is recorded goes when the service ends; \
                     copy it before that, out of /proc/{own}/fd"
                )
            });
        }
    }

    /// The file that is there while a recording is to go on: beside a medium that is a file.
    fn mark(&self) -> Option<PathBuf> {
        let mut name = self.path.clone().into_os_string();
        name.push(".recording");
        fs::metadata(&self.path).is_ok_and(|it| it.is_file()).then(|| name.into())
    }

    /// Whether a recording was to go on. Of a loss of power between two files the medium itself says nothing.
    pub fn goes_on(&self) -> bool {
        self.mark().is_some_and(|it| is_mark(&it))
    }

    /// Keeps over a loss of power that a recording is to go on, or that it is not. A file that is no mark is somebody's, and stays.
    pub fn keep(&self, goes_on: bool) {
        let Some(mark) = self.mark().filter(|it| is_mark(it) != goes_on) else { return };
        let made = || OpenOptions::new().write(true).create_new(true).open(&mark).map(|_| ());
        let done = if goes_on { made() } else { fs::remove_file(&mark) };
        let folder = mark.parent().filter(|it| !it.as_os_str().is_empty()).unwrap_or(Path::new("."));
        if let Err(error) = done.and_then(|()| File::open(folder)?.sync_all()) {
            warning!("{}: {error}; a loss of power between two files may not be gone on from", mark.display());
        }
    }

    /// Whether it is marked to be kept: a file of any kind is at the mark's place. What cannot be looked at counts as a mark.
    pub fn is_kept(&self) -> bool {
        let Some(mark) = &self.kept else { return false };
        let folder = mark.parent().filter(|it| !it.as_os_str().is_empty()).unwrap_or(Path::new("."));
        !folder.is_dir() || !matches!(mark.symlink_metadata(), Err(error) if error.kind() == io::ErrorKind::NotFound)
    }

    /// Marks it as one to be kept, or takes the mark off. That stands over a loss of power.
    pub fn mark_kept(&self, is_kept: bool) -> io::Result<()> {
        let none = || io::Error::other("a device wants the key `marks` in the settings, a folder for such marks");
        let mark = self.kept.as_ref().ok_or_else(none)?;
        let folder = mark.parent().filter(|it| !it.as_os_str().is_empty()).unwrap_or(Path::new("."));
        let done = if is_kept {
            OpenOptions::new().write(true).create(true).truncate(false).open(mark).map(|_| ())
        } else {
            fs::remove_file(mark)
        };
        match done {
            Err(error) if !is_kept && error.kind() == io::ErrorKind::NotFound => Ok(()),
            other => other.and_then(|()| File::open(folder)?.sync_all()),
        }
    }

    /// Writes an empty directory, as a block device needs it once. A medium that has a directory is left as it is; so is one with
    /// something else in its front, unless that is to go by force. What went so.
    pub fn format(&self, force: bool) -> Result<Option<String>, Refusal> {
        let disk = self.take()?;
        let mut recorder = Recorder::open(disk.into(), ROOM, &self.script).map_err(|it| Refusal::Wrong(it.refusal.to_string()))?;
        // (nothing of a mount is on the disk before it is settled)
        let gone = match recorder.mount() {
            Ok(()) if force => Some(files_of(&mut recorder).map_err(|it| Refusal::Failed(it.to_string()))?),
            Err(Refused::BadDirectory) if self.has_letters()? => Some(
                "a directory that does not fit these settings, or is damaged; `ch10 rescue` finds recordings without one"
                    .to_string(),
            ),
            Err(Refused::BadDirectory) if self.has_others()? => Some(format!("something else in its first {} KiB", FRONT >> 10)),
            Err(Refused::BadDirectory) => None,
            _ => {
                return Err(Refusal::Wrong(format!(
                    "the medium {} has a recorder's directory already: to empty it, start the service and give .ERASE",
                    self.name()
                )));
            }
        };
        if gone.is_some() && !force {
            if self.has_letters()? {
                return Err(self.does_not_fit());
            }
            return Err(Refusal::Wrong(format!(
                "the medium {} has something else in its first {} KiB, as a table of partitions or files: nothing is written over it; \
                 if nobody wants it, wipe it first: `dd if=/dev/zero of=MEDIUM bs={}K count=1 conv=notrunc,fsync`",
                self.name(),
                FRONT >> 10,
                FRONT >> 10
            )));
        }
        let region = recorder.close();
        let mut recorder = Recorder::format(region, ROOM, &self.script).map_err(|it| Refusal::Wrong(it.refusal.to_string()))?;
        self.settle(&mut recorder)?;
        Ok(gone)
    }

    /// Whether block 1 begins as a directory does, whatever follows.
    fn has_letters(&self) -> Result<bool, Refusal> {
        let mut front = [0; LETTERS.len()];
        File::open(&self.path)
            .and_then(|file| file.read_exact_at(&mut front, 512))
            .map_err(|it| Refusal::Failed(format!("the medium {} cannot be read: {it}", self.name())))?;
        Ok(&front == LETTERS)
    }

    /// Whether its front has anything but zeros: a new medium has not, and whatever else a disk may be for has its own marks there.
    fn has_others(&self) -> Result<bool, Refusal> {
        let mut front = vec![0; FRONT.min(self.blocks * 512)];
        File::open(&self.path)
            .and_then(|file| file.read_exact_at(&mut front, 0))
            .map_err(|it| Refusal::Failed(format!("the medium {} cannot be read: {it}", self.name())))?;
        Ok(front.iter().any(|it| *it != 0))
    }

    /// A directory that a mount refuses may list recordings: nothing here writes over it.
    fn does_not_fit(&self) -> Refusal {
        Refusal::Wrong(format!(
            "the medium {} has a directory that does not fit these settings: it was made with another `directory` or with more \
             `blocks`, or it is damaged; give the numbers that it was made with, or copy it and make another medium",
            self.name()
        ))
    }

    /// The bytes of a sector of the disk, where the system knows them.
    pub fn sector(&self) -> Option<u32> {
        self.of_disk("physical_block_size")?.parse().ok()
    }

    /// What the system says of the disk's queue.
    fn of_disk(&self, key: &str) -> Option<String> {
        let found = fs::metadata(&self.path).ok()?;
        let device = if found.file_type().is_block_device() { found.rdev() } else { found.dev() };
        ["", "../"]
            .iter()
            .find_map(|up| fs::read_to_string(format!("/sys/dev/block/{}:{}/{up}queue/{key}", major(device), minor(device))).ok())
            .map(|it| it.trim().to_string())
    }

    /// Writes other bytes to the last whole sector from a byte on, syncs, reads them, and writes back what was there: where it is, and
    /// how long the slower sync took. None where no whole sector is free. Only for a medium on which nothing is recorded.
    pub fn try_last_sector(&self, from: u64, sector: u64) -> io::Result<Option<(u64, Duration)>> {
        let end = self.blocks as u64 * 512;
        let Some(at) = (end / sector * sector).checked_sub(sector).filter(|at| *at >= from && *at >= 512) else { return Ok(None) };
        let file = OpenOptions::new().read(true).write(true).open(&self.path)?;
        let mut before = vec![0; sector as usize];
        file.read_exact_at(&mut before, at)?;
        let other: Vec<u8> = before.iter().map(|it| !it).collect();
        let mut longest = Duration::ZERO;
        let mut write = |bytes: &[u8]| -> io::Result<()> {
            file.write_all_at(bytes, at)?;
            let start = Instant::now();
            file.sync_data()?;
            longest = longest.max(start.elapsed());
            // (what was read before is not what the disk has)
            let _ = nix::fcntl::posix_fadvise(file.as_raw_fd(), at as i64, sector as i64, PosixFadviseAdvice::POSIX_FADV_DONTNEED);
            let mut found = vec![0; bytes.len()];
            file.read_exact_at(&mut found, at)?;
            if found == bytes { Ok(()) } else { Err(io::Error::other("it reads otherwise than it was written")) }
        };
        let tried = write(&other);
        // what was there comes back, also where that failed
        let back = write(&before);
        tried.and(back).map(|()| Some((at, longest)))
    }

    /// Says what the disk is like: the size of its sectors, its cache, its free room.
    pub fn describe(&self) {
        let Ok(found) = fs::metadata(&self.path) else { return };
        let is_device = found.file_type().is_block_device();
        let sector = self.sector();
        let cache = self.of_disk("write_cache").unwrap_or_else(|| "not known".to_string());
        let room = nix::sys::statvfs::statvfs(&self.path).map(|it| (it.blocks_available() * it.fragment_size()) >> 20);
        info!(
            "medium {}: {} of {} MiB, sectors of {}, the disk's cache is {cache}{}",
            self.name(),
            if is_device { "a block device" } else { "a file" },
            self.blocks >> 11,
            sector.map_or("unknown size".to_string(), |it| format!("{it} bytes")),
            room.ok().filter(|_| !is_device).map_or(String::new(), |it| format!(", {it} MiB are free beside it"))
        );
        if let Some(danger) = danger_of(sector) {
            warning!("medium {}: {danger}", self.name());
        }
        if !is_device && found.blocks() * 512 < 512 * self.blocks as u64 {
            warning!(
                "medium {}: the file is not allocated whole, so a full disk ends the service; make it anew: copy it with \
                 `cp --sparse=never`",
                self.name()
            );
        }
    }

    /// The file or the device, locked and mapped.
    #[allow(unsafe_code)]
    fn open(&self) -> io::Result<Disk> {
        // SAFETY: a medium is the service's alone while it runs, which its manual asks of an operator. Another service, and each
        // program over the library, is refused the lock. Blocks are read by calls of the system before they are read here.
        unsafe { Disk::open(&self.path, self.blocks) }
    }

    /// Takes the medium for this program alone.
    fn take(&self) -> Result<Disk, Refusal> {
        let start = Instant::now();
        let mut opened = self.open();
        // one that was killed just now has it until the system has cleared it away
        let is_taken = |it: &io::Error| matches!(it.kind(), io::ErrorKind::WouldBlock | io::ErrorKind::ResourceBusy);
        while opened.as_ref().is_err_and(is_taken) && start.elapsed() < GONE {
            std::thread::sleep(Duration::from_millis(20));
            opened = self.open();
        }
        opened.map_err(|error| match error.kind() {
            io::ErrorKind::WouldBlock => Refusal::Taken(format!(
                "the medium {} is used by another program: end that one, or give this one a medium of its own",
                self.name()
            )),
            io::ErrorKind::ResourceBusy => Refusal::Taken(format!(
                "the medium {} is in use: it or a partition of it is mounted, or another program has it; unmount it, or end that one",
                self.name()
            )),
            io::ErrorKind::InvalidInput => Refusal::Wrong(format!(
                "the medium {} has fewer than {} blocks: give the number of blocks that it was made with",
                self.name(),
                self.blocks
            )),
            io::ErrorKind::NotFound if self.is_of_devices() => Refusal::Failed(format!(
                "the medium {} is not there: plug the device in, or name another one",
                self.name()
            )),
            io::ErrorKind::NotFound | io::ErrorKind::PermissionDenied => Refusal::Wrong(format!(
                "the medium {} cannot be opened: {error}; let the service's user read and write it",
                self.name()
            )),
            _ => Refusal::Failed(format!("the medium {} cannot be opened: {error}", self.name())),
        })
    }

    /// The files that it has, and their dates. It has none where nothing has its path yet. Nothing is written to it.
    pub fn look(&self) -> Result<(Vec<r10::File>, Dates), Refusal> {
        if self.path.symlink_metadata().is_err() && !self.is_of_devices() {
            return Ok((Vec::new(), Dates::default()));
        }
        self.files_of(&mut self.mounted()?)
    }

    fn files_of(&self, recorder: &mut Recorder) -> Result<(Vec<r10::File>, Dates), Refusal> {
        let files = recorder.files().map_err(|it| Refusal::Failed(format!("the medium {} cannot be read: {it}", self.name())))?;
        let dates = Dates::read(recorder, files.len());
        Ok((files, dates))
    }

    /// Opens a recorder over a medium that may be overwritten, with what it holds. Nothing is written to it, and its first blocks are
    /// read plainly.
    pub fn open_old(&self, most: u64) -> Result<(Recorder, Vec<r10::File>, Dates), Refusal> {
        let mut recorder = self.mounted()?;
        let (files, dates) = self.files_of(&mut recorder)?;
        let first = self.first_block(&[]);
        self.read_plainly(&recorder, first..first + most)?;
        Ok((recorder, files, dates))
    }

    /// Opens a recorder over the medium and mounts it.
    pub fn mount(&self) -> Result<Recorder, Refusal> {
        let mut recorder = self.mounted()?;
        let start = Instant::now();
        self.settle(&mut recorder)?;
        info!(
            "medium {}: mounted; to write its directory and sync took {:.1} ms",
            self.name(),
            start.elapsed().as_secs_f64() * 1e3
        );
        Ok(recorder)
    }

    /// The medium's blocks, of which the directory was read plainly: a block of a mapping that cannot be read ends a program.
    fn region(&self) -> Result<Region, Refusal> {
        let region = Region::from(self.take()?);
        self.read_by(0..1 + self.directory as u64, |bytes, at| region.read_plainly(bytes, at))?;
        Ok(region)
    }

    /// Opens a recorder and mounts it, without a write yet.
    fn mounted(&self) -> Result<Recorder, Refusal> {
        let mut recorder = Recorder::open(self.region()?, ROOM, &self.script)
            .map_err(|it| Refusal::Wrong(format!("the recorder cannot be opened: {}", it.refusal)))?;
        match recorder.mount() {
            Ok(()) => (),
            Err(Refused::BadDirectory) if self.has_letters()? => return Err(self.does_not_fit()),
            Err(Refused::BadDirectory) => {
                return Err(Refusal::Wrong(format!(
                    "the medium {} has no directory of this recorder: a new device wants `r10d --format SETTINGS`",
                    self.name()
                )));
            }
            Err(error) => return Err(Refusal::Failed(format!("the medium {} cannot be mounted: {error}", self.name()))),
        }
        Ok(recorder)
    }

    /// Closes the entry of the last file, which was left open, as it is: unread, and no byte of it changes. Opens a recorder and mounts
    /// it then.
    pub fn set_aside(&self) -> Result<Recorder, Refusal> {
        let (mut recorder, _) = Recorder::set_aside(self.region()?, ROOM, &self.script)
            .map_err(|it| Refusal::Failed(format!("the last file cannot be set aside: {}", it.refusal)))?;
        self.settle(&mut recorder)?;
        recorder.mount().map_err(|it| Refusal::Failed(format!("the medium {} cannot be mounted: {it}", self.name())))?;
        self.settle(&mut recorder)?;
        Ok(recorder)
    }

    fn settle(&self, recorder: &mut Recorder) -> Result<(), Refusal> {
        recorder.settle().map_err(|it| Refusal::Failed(format!("the medium {} cannot be written: {it}", self.name())))
    }

    /// The first block of a file, by the blocks of those before it.
    pub fn first_block(&self, files: &[r10::File]) -> u64 {
        1 + self.directory as u64 + files.iter().map(|it| it.blocks).sum::<u64>()
    }

    /// Reads blocks into nothing, so that one that cannot be read is found and named, where a mapping would end the program. What
    /// was read stays in the system's cache. What is read is what is recorded on, whatever has the medium's path meanwhile.
    pub fn read_plainly(&self, recorder: &Recorder, blocks: Range<u64>) -> Result<(), Refusal> {
        self.read_by(blocks, |bytes, at| recorder.read_plainly(bytes, at))
    }

    /// The same up to a moment, if one is given: it is an error where blocks are left then.
    pub fn read_until(&self, recorder: &Recorder, blocks: Range<u64>, until: Option<Instant>) -> Result<(), Refusal> {
        self.read_by(blocks, |bytes, at| match until {
            Some(until) if Instant::now() > until => Err(io::ErrorKind::TimedOut.into()),
            _ => recorder.read_plainly(bytes, at),
        })
    }

    fn read_by(&self, blocks: Range<u64>, read: impl Fn(&mut [u8], u64) -> io::Result<()>) -> Result<(), Refusal> {
        match first_unreadable(blocks.start * 512..blocks.end.min(self.blocks as u64) * 512, read) {
            None => Ok(()),
            Some((_, error)) if error.kind() == io::ErrorKind::TimedOut => {
                Err(Refusal::Failed("to read it takes too long".to_string()))
            }
            Some((block, error)) => Err(Refusal::Failed(format!(
                "block {block} of the medium {} cannot be read: {error}; record on another disk, and copy this one with ddrescue",
                self.name()
            ))),
        }
    }

    pub fn path(&self) -> &Path {
        &self.path
    }
}

/// The files of a mounted medium in words.
fn files_of(recorder: &mut Recorder) -> Result<String, Refused> {
    let files = recorder.files()?;
    let names: Vec<String> = files.iter().map(|it| printed(&it.name)).collect();
    let bytes: u64 = files.iter().map(|it| it.size).sum();
    Ok(match files.len() {
        0 => "a directory without files".to_string(),
        count => format!("a directory of {count} files with {bytes} bytes: {}", names.join(", ")),
    })
}

/// What a disk with sectors of so many bytes may do to blocks of 512.
fn danger_of(sector: Option<u32>) -> Option<String> {
    let what = match sector {
        Some(512) => return None,
        Some(it) => format!("its sectors are not of 512 bytes, but of {it}"),
        None => "how large its sectors are is not known".to_string(),
    };
    Some(format!(
        "{what}: a loss of power amid a write may tear all blocks of one; keep 63 blocks for the directory; prefer a disk of 512"
    ))
}

/// The first block in a range of bytes that cannot be read, and why. A mapping reads by pages of 4,096 bytes, so these count.
fn first_unreadable(bytes: Range<u64>, read: impl Fn(&mut [u8], u64) -> io::Result<()>) -> Option<(u64, io::Error)> {
    let mut buffer = vec![0; PART as usize];
    let mut at = bytes.start & !4095;
    while at < bytes.end {
        watchdog::beat();
        let count = PART.min(bytes.end - at) as usize;
        if read(&mut buffer[..count], at).is_err() {
            for block in at / 512..(at + count as u64).div_ceil(512) {
                if let Err(error) = read(&mut buffer[..512], 512 * block) {
                    return Some((block, error));
                }
            }
        }
        at += count as u64;
    }
    None
}

#[cfg(test)]
mod tests {
    use super::*;

    #[test]
    fn sectors_that_are_not_of_512_bytes_are_warned_of() {
        assert_eq!(danger_of(Some(512)), None);
        assert!(danger_of(Some(4096)).unwrap().starts_with("its sectors are not of 512 bytes, but of 4096: "));
        assert!(danger_of(None).unwrap().starts_with("how large its sectors are is not known: "));
    }

    #[test]
    fn a_path_with_an_end_of_a_line_does_not_end_an_answer() {
        let medium = Medium {
            place: 0,
            volume: "V".to_string(),
            path: "a\n*\nb".into(),
            blocks: 99,
            directory: 1,
            script: String::new(),
            kept: None,
            opened: None,
            gone: Seldom::default(),
            ahead: 0,
        };
        assert_eq!(medium.name(), "a?*?b");
    }

    #[test]
    fn the_first_block_that_cannot_be_read_is_named() {
        let bad = |block: u64| {
            move |bytes: &mut [u8], at: u64| {
                if (at..at + bytes.len() as u64).contains(&(512 * block)) { Err(io::Error::from_raw_os_error(5)) } else { Ok(()) }
            }
        };
        for (range, block, found) in [
            (0..1 << 22, 5000, Some(5000)),
            (512 * 100..512 * 200, 200, None),
            (512 * 100..512 * 200, 96, Some(96)),
            (512 * 100..512 * 200, 95, None),
            (0..512, 0, Some(0)),
            (0..0, 0, None),
        ] {
            assert_eq!(first_unreadable(range, bad(block)).map(|it| it.0), found);
        }
    }
}
