//! What a recorder lies over: plain memory, or a file or a block device that is mapped.
use std::ffi::{c_int, c_void};
use std::fs::{File, Metadata, OpenOptions, TryLockError};
use std::io::{self, Seek, SeekFrom};
use std::os::fd::AsRawFd;
use std::os::unix::fs::{FileExt, FileTypeExt, MetadataExt, OpenOptionsExt};
use std::path::Path;

use crate::Recorder;

const PROT_READ: c_int = 1;
const PROT_WRITE: c_int = 2;
const MAP_PRIVATE: c_int = 2;
const MAP_NORESERVE: c_int = 0x4000;
const MADV_DONTNEED: c_int = 4;
const POSIX_FADV_DONTNEED: c_int = 4;
const O_EXCL: c_int = 0o200;
const O_NOFOLLOW: c_int = 0o400_000;

unsafe extern "C" {
    fn mmap(at: *mut c_void, length: usize, access: c_int, how: c_int, file: c_int, offset: i64) -> *mut c_void;
    fn munmap(at: *mut c_void, length: usize) -> c_int;
    fn madvise(at: *mut c_void, length: usize, advice: c_int) -> c_int;
    fn posix_fallocate(file: c_int, offset: i64, length: i64) -> c_int;
    fn posix_fadvise(file: c_int, offset: i64, length: i64, advice: c_int) -> c_int;
}

/// The bytes of a run that is written at once.
const RUN: usize = 512 * 128;

/// How many bytes are written before pages are given back.
const GIVE_BACK: usize = 32 << 20;

/// A file or a block device, opened by this program alone, mapped, and synced when the recorder says so.
#[derive(Debug)]
pub struct Disk {
    file: File,
    at: *mut c_void,
    length: usize,
    kept: usize,
    /// the process that opened it
    owner: u32,
    /// a write or a sync failed: nothing more is done, since a later operation may not be done without an earlier one
    failed: bool,
}

// SAFETY: the mapping is this value's own.
unsafe impl Send for Disk {}

impl Disk {
    /// Takes a file or a block device of at least so many blocks of 512 bytes for this program alone, sees that what is read is on the
    /// disk, and maps it.
    ///
    /// # Safety
    ///
    /// The blocks are mapped, so for as long as the value lives no one else may write them, and a file may not be made shorter: what
    /// [`Region::bytes`] lends would change, or a read of it would end the program by a signal. The call locks the file (`flock`), which
    /// stops every other program that locks it too, and this crate. A sector under a block that the disk cannot read ends the program
    /// by a signal as well: [`Region::read_plainly`] answers an error there.
    ///
    /// # Errors
    ///
    /// `WouldBlock` where another program has it; `ResourceBusy` of a block device that is mounted, or that another program has;
    /// `InvalidInput` where it has fewer blocks, or none are wanted.
    pub unsafe fn open(path: impl AsRef<Path>, blocks: usize) -> io::Result<Disk> {
        let path = path.as_ref();
        let mut how = OpenOptions::new();
        // A block device that is mounted, or a partition of which is, is refused by the system: `ResourceBusy`.
        if std::fs::metadata(path)?.file_type().is_block_device() {
            how.custom_flags(O_EXCL);
        }
        // SAFETY: as this function's caller promises.
        unsafe { Disk::take(how.read(true).write(true).open(path)?, blocks) }
    }

    /// # Safety
    ///
    /// As that of [`Disk::open`].
    unsafe fn take(mut file: File, blocks: usize) -> io::Result<Disk> {
        lock(&file)?;
        let length = 512 * blocks;
        if length == 0 || file.seek(SeekFrom::End(0))? < length as u64 {
            return Err(io::Error::new(io::ErrorKind::InvalidInput, "the file has fewer blocks"));
        }
        // After a sync that failed the system's copies may read otherwise than the disk.
        file.sync_data()?;
        // SAFETY: it takes numbers alone. It is a hint.
        unsafe { posix_fadvise(file.as_raw_fd(), 0, 0, POSIX_FADV_DONTNEED) };
        // SAFETY: a new mapping of an open file, where the system wants it.
        let at = unsafe { mmap(std::ptr::null_mut(), length, PROT_READ | PROT_WRITE, MAP_PRIVATE | MAP_NORESERVE, file.as_raw_fd(), 0) };
        if at as isize == -1 {
            return Err(io::Error::last_os_error());
        }
        Ok(Disk { file, at, length, kept: 0, owner: std::process::id(), failed: false })
    }

    /// Makes a file of so many blocks, allocated whole and formatted by the script, under another name, and gives it its own only then. What is there already
    /// stays: `AlreadyExists`; so does what another program makes just now: `WouldBlock`. A file of the other name, with `.new` at its end, stays too, unless a make
    /// that was ended left it: `InvalidData`. A link of that name is not followed. A call that failed leaves no file.
    pub fn make(path: impl AsRef<Path>, blocks: usize, script: &str) -> io::Result<()> {
        let path = path.as_ref();
        if path.symlink_metadata().is_ok() {
            return Err(io::ErrorKind::AlreadyExists.into());
        }
        let mut fresh = path.as_os_str().to_owned();
        fresh.push(".new");
        let file = OpenOptions::new().read(true).write(true).create(true).truncate(false).custom_flags(O_NOFOLLOW).open(&fresh)?;
        lock(&file)?;
        let is_ours = is_at(&file, Path::new(&fresh));
        if is_ours && !is_left_by_make(&file)? {
            return Err(io::Error::new(io::ErrorKind::InvalidData, "a file with .new at the end of its name is there, which no make has left"));
        }
        let made = if is_ours && path.symlink_metadata().is_err() {
            Disk::make_in(file.try_clone()?, blocks, script).and_then(|()| std::fs::rename(&fresh, path))
        } else {
            Err(io::ErrorKind::WouldBlock.into())
        };
        // (the file is locked until here)
        if made.is_err() && is_ours {
            let _ = std::fs::remove_file(&fresh);
        }
        drop(file);
        made?;
        let folder = path.parent().filter(|it| !it.as_os_str().is_empty()).unwrap_or(Path::new("."));
        File::open(folder)?.sync_all()
    }

    fn make_in(file: File, blocks: usize, script: &str) -> io::Result<()> {
        file.set_len(0)?;
        // SAFETY: it takes numbers alone.
        let refused = unsafe { posix_fallocate(file.as_raw_fd(), 0, 512 * blocks as i64) };
        if refused != 0 {
            return Err(io::Error::from_raw_os_error(refused));
        }
        // SAFETY: the file was made by this call under a name that no one else takes, and is locked.
        let disk = unsafe { Disk::take(file, blocks)? };
        Recorder::format(disk.into(), 64, script).map_err(|it| io::Error::other(it.refusal))?.settle()
    }
}

/// Locks a file for this program alone.
fn lock(file: &File) -> io::Result<()> {
    file.try_lock().map_err(|error| match error {
        TryLockError::Error(error) => error,
        TryLockError::WouldBlock => io::ErrorKind::WouldBlock.into(),
    })
}

/// Whether a file is what a make that was ended leaves, or nothing yet: zeros as far as the directory, which has no files.
fn is_left_by_make(file: &File) -> io::Result<bool> {
    if !file.metadata()?.is_file() {
        return Ok(false);
    }
    let (mut front, mut count) = ([0; 1024], 0);
    while let more @ 1.. = file.read_at(&mut front[count..], count as u64)? {
        count += more;
    }
    let (zeros, directory) = front.split_at(512);
    let is_empty = directory.starts_with(b"FORTYtwo") && directory[10..12] == [0, 0] && directory[64..].iter().all(|it| *it == 0);
    Ok(zeros.iter().all(|it| *it == 0) && (is_empty || directory.iter().all(|it| *it == 0)))
}

/// Whether an open file is the one at this path.
fn is_at(file: &File, path: &Path) -> bool {
    let of = |it: io::Result<Metadata>| it.ok().map(|it| (it.dev(), it.ino()));
    let here = of(file.metadata());
    here.is_some() && here == of(path.metadata())
}

impl Drop for Disk {
    fn drop(&mut self) {
        // SAFETY: the mapping is this value's own, and what borrows it is gone.
        unsafe { munmap(self.at, self.length) };
    }
}

#[derive(Debug)]
enum Kind {
    Memory(Memory),
    Disk(Disk),
}

/// Blocks of plain memory. The library has a pointer to them, so no reference to them is kept here.
#[derive(Debug)]
struct Memory {
    bytes: *mut [u8],
}

// SAFETY: the memory is this value's own.
unsafe impl Send for Memory {}

impl Drop for Memory {
    fn drop(&mut self) {
        // SAFETY: it came from a box, and the recorder over it is closed.
        drop(unsafe { Box::from_raw(self.bytes) });
    }
}

/// What a recorder lies over.
#[derive(Debug)]
pub struct Region {
    kind: Kind,
    buffer: Vec<u8>,
}

impl Region {
    /// So many blocks of plain memory, all zeros.
    pub fn memory(blocks: usize) -> Region {
        let bytes = Box::into_raw(vec![0; 512 * blocks].into_boxed_slice());
        Region { kind: Kind::Memory(Memory { bytes }), buffer: vec![0; RUN] }
    }

    /// What its blocks hold.
    pub fn bytes(&self) -> &[u8] {
        match &self.kind {
            // SAFETY: the memory lives as long as this value, and the library writes it only in calls that borrow the recorder alone.
            Kind::Memory(memory) => unsafe { &*memory.bytes },
            // SAFETY: so does the mapping, which no one else writes (`Disk::open`).
            Kind::Disk(disk) => unsafe { std::slice::from_raw_parts(disk.at.cast(), disk.length) },
        }
    }

    pub(crate) fn lend(&mut self) -> r10_sys::r10_region {
        match &mut self.kind {
            Kind::Memory(memory) => r10_sys::r10_region { at: memory.bytes.cast(), blocks: memory.bytes.len() / 512 },
            Kind::Disk(disk) => r10_sys::r10_region { at: disk.at, blocks: disk.length / 512 },
        }
    }

    pub(crate) fn buffer(&mut self) -> &mut Vec<u8> {
        &mut self.buffer
    }

    /// `Err` where the disk failed before, or is another process's: nothing more may be done on it.
    pub(crate) fn goes_on(&self) -> io::Result<()> {
        match &self.kind {
            Kind::Disk(disk) if disk.owner != std::process::id() => {
                Err(io::Error::new(io::ErrorKind::PermissionDenied, "the disk is the process's that opened it, before a fork"))
            }
            Kind::Disk(disk) if disk.failed => Err(io::Error::other("the disk failed before: close the recorder, and open the disk again")),
            _ => Ok(()),
        }
    }

    pub(crate) fn fail(&mut self) {
        if let Kind::Disk(disk) = &mut self.kind {
            disk.failed = true;
        }
    }

    /// Reads bytes from this place on by a call of the system, and not through the mapping: there a block that cannot be read ends
    /// the program. It reads what was opened, also where that has lost its name, or another file has it.
    pub fn read_plainly(&self, bytes: &mut [u8], at: u64) -> io::Result<()> {
        match &self.kind {
            Kind::Disk(disk) => disk.file.read_exact_at(bytes, at),
            Kind::Memory(_) => {
                let from = self.bytes().get(at as usize..).and_then(|it| it.get(..bytes.len())).ok_or(io::ErrorKind::UnexpectedEof)?;
                bytes.copy_from_slice(from);
                Ok(())
            }
        }
    }

    pub(crate) fn write(&mut self, block: usize, bytes: &[u8]) -> io::Result<()> {
        if let Kind::Disk(disk) = &mut self.kind {
            disk.file.write_all_at(bytes, 512 * block as u64)?;
            disk.kept += bytes.len();
        }
        Ok(())
    }

    pub(crate) fn sync(&mut self) -> io::Result<()> {
        match &self.kind {
            Kind::Memory(_) => Ok(()),
            Kind::Disk(disk) => disk.file.sync_data(),
        }
    }

    /// Nothing waits: the file holds what the mapping holds, so its pages can be given back, and are read from the file when they are wanted.
    pub(crate) fn settled(&mut self) {
        if let Kind::Disk(disk) = &mut self.kind
            && disk.kept >= GIVE_BACK
        {
            disk.kept = 0;
            // SAFETY: the mapping is this value's own, and no one borrows it here. It is a hint: under mlockall the system refuses it, and
            // the pages stay in memory.
            unsafe { madvise(disk.at, disk.length, MADV_DONTNEED) };
        }
    }
}

impl From<Disk> for Region {
    fn from(disk: Disk) -> Region {
        Region { kind: Kind::Disk(disk), buffer: vec![0; RUN] }
    }
}
