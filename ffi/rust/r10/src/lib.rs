//! A recorder of IRIG 106 chapter 10 files over `libr10`, as a value. Its caller writes `unsafe` only where a file or a device is opened ([`Disk::open`]).
//!
//! A [`Recorder`] owns its [`Region`]: plain memory, or a [`Disk`], which is a file or a block device that this program alone has open. Each call that changes
//! the medium leaves operations, which [`Recorder::settle`] does on the disk. A commit is durable once it is settled.
//!
//! A recorder can be moved to another thread, and is used by one at a time: its calls take `&mut self`. Other threads offer at a [`Port`], one for each
//! channel; the one that owns the recorder carries what they offered ([`Recorder::carry`]).

#![deny(missing_docs)]
#![warn(clippy::undocumented_unsafe_blocks)]

mod cursor;
mod disk;
mod error;
mod kinds;
mod parts;
mod port;
mod script;

pub use cursor::{Cursor, Entries};
pub use disk::{Disk, Region};
pub use error::{Error, Fault, NotOpened, Refusal};
pub use kinds::{Content, Message};
pub use parts::Parts;
pub use port::{Outlet, Port, PortState, open_port};
pub use r10_sys::r10_civil as Civil;
pub use script::{Script, ScriptError, check_script};

use cursor::Dropped;
use r10_sys as sys;
use std::io;
use std::ops::RangeInclusive;
use std::sync::Arc;

/// Every count.
pub const ALL_COUNTS: RangeInclusive<u64> = 0..=(1 << 48) - 1;

const MOST_BYTES: usize = 65_535;
const MOST_WORDS: usize = 36;

/// Whether messages were lost right before an entry, on its channel.
#[derive(Clone, Copy, Debug, PartialEq, Eq)]
pub enum Gap {
    /// None were lost.
    None,
    /// So many.
    Lost(u64),
    /// At least one; the file does not tell how many.
    Unknown,
}

/// An entry of a file.
#[derive(Clone, Debug, PartialEq, Eq)]
pub struct Entry {
    /// The count of the 10 MHz clock (units of 100 ns, below 2^48).
    pub count: u64,
    /// The channel's ID.
    pub channel: u16,
    /// What was lost right before it on its channel.
    pub gap: Gap,
    /// What it says.
    pub content: Content,
}

/// What a disk has to do next.
#[derive(Clone, Copy, Debug, PartialEq, Eq)]
pub enum Run {
    /// Blocks of 512 bytes hold the first bytes of the buffer from now on.
    Write {
        /// The first of them.
        block: usize,
        /// How many.
        blocks: usize,
    },
    /// What was written so far is made durable.
    Sync,
}

/// How many messages a stop took, and how many still wait.
#[derive(Clone, Copy, Debug, PartialEq, Eq)]
pub struct Stopped {
    /// The messages that it took out of lanes into the file.
    pub taken: usize,
    /// The messages that wait in lanes after it.
    pub left: usize,
}

/// A file of the medium.
#[derive(Clone, Debug, PartialEq, Eq)]
pub struct File {
    /// Its name: 1 to 56 letters, digits, dots, underscores and dashes.
    pub name: String,
    /// The bytes that the medium shows of it.
    pub size: u64,
    /// The blocks of 512 bytes that hold them.
    pub blocks: u64,
    /// Whether it is ended: by a stop, a seal, or set aside.
    pub closed: bool,
}

/// What a recorder does.
#[derive(Clone, Copy, Debug, PartialEq, Eq)]
pub enum Mode {
    /// No medium is mounted.
    Unmounted,
    /// A medium is mounted, and no file is recorded.
    Idle,
    /// A file is recorded.
    Recording,
    /// The medium failed: close the recorder, and open another one.
    Failed,
}

/// How a recorder is.
#[derive(Clone, Copy, Debug, PartialEq, Eq)]
pub struct Status {
    /// What it does.
    pub mode: Mode,
    /// The count of the last tick.
    pub tick: Option<u64>,
    /// The bytes that are left.
    pub free: u64,
    /// How many files the medium has.
    pub files: usize,
    /// How many channels the recorder has.
    pub channels: usize,
}

/// How a channel is.
#[derive(Clone, Copy, Debug, PartialEq, Eq)]
pub struct Channel {
    /// Its ID.
    pub id: u16,
    /// The messages that wait in its lane.
    pub waiting: usize,
    /// The messages that were refused for an overflow, or lost before they were offered.
    pub lost: u64,
    /// The messages that erases took.
    pub erased: u64,
}

/// What became of a channel's messages, of a recorder that failed too.
///
/// Where a disk failed, the recorder's last accounts say how many of its messages were lost: all that were accepted, without
/// those that erases took and those that are found in its files again. The next recorder is given that number.
///
/// ```
/// # use r10::{ALL_COUNTS, Civil, Error, Gap, Message, Recorder, Refusal, Region, Run};
/// # const SCRIPT: &str = "blocks = 64\ndirectory = 2\nvolume = \"VOL\"\nnodes = 100\ntime = 1\nevent = 2\n\
/// # [[channel]]\nid = 3\nkind = \"uart\"\ncapacity = 8\ncheck = 0\nbytes = 4096\nnumber = 100\n";
/// # const CIVIL: Civil = Civil { year: 2024, month: 2, day: 29, hour: 12, minute: 0, second: 0, centi: 0 };
/// # fn offer(recorder: &mut Recorder, count: u64) -> Result<(), Error> {
/// #     Ok(recorder.offer(3, count, Message::Uart { parity: false, sub: 0, bytes: b"message" })?)
/// # }
/// # fn main() -> Result<(), Error> {
/// let mut recorder = Recorder::format(Region::memory(64), 4, SCRIPT)?;
/// # recorder.mount()?;
/// # recorder.tick(1000, &CIVIL)?;
/// # recorder.start("FLT1", b"")?;
/// offer(&mut recorder, 1001)?;
/// recorder.pump(3, 1)?;
/// recorder.commit()?;
/// offer(&mut recorder, 1002)?;
/// recorder.pump(3, 1)?;
/// offer(&mut recorder, 1003)?;
/// recorder.disk_failed()?;
/// assert_eq!(recorder.commit(), Err(Refusal::Medium));
///
/// let account = recorder.account(3)?.ok_or(Refusal::NoChannel)?;
/// assert_eq!((account.accepted, account.erased, account.waiting), (3, 0, 1));
///
/// let mut next = Recorder::open(recorder.close(), 4, SCRIPT)?;
/// # next.mount()?;
/// # next.tick(2000, &CIVIL)?;
/// next.seal()?;
/// let cursor = next.cursor(0, &[3], ALL_COUNTS)?;
/// let found = next.advance(&cursor)? as u64;
/// next.lose(3, account.accepted - account.erased - found)?;
/// # next.start("FLT2", b"")?;
/// offer(&mut next, 2001)?;
/// # next.pump(3, 1)?;
/// # next.stop()?;
/// # let cursor = next.cursor(1, &[3], ALL_COUNTS)?;
/// # next.advance(&cursor)?;
/// # assert_eq!(next.next(&cursor)?.map(|entry| entry.gap), Some(Gap::Lost(2)));
/// # Ok(())
/// # }
/// ```
#[derive(Clone, Copy, Debug, PartialEq, Eq)]
pub struct Account {
    /// The channel's ID.
    pub id: u16,
    /// The messages that its lane accepted since the recorder was opened
    pub accepted: u64,
    /// of these, those that erases took
    pub erased: u64,
    /// the messages that were refused for an overflow, or lost before they were offered
    pub lost: u64,
    /// of those that were accepted, the ones in its lane
    pub waiting: usize,
}

/// How many messages of a channel were lost, and which gaps report that.
#[derive(Clone, Copy, Debug, PartialEq, Eq)]
pub struct Losses {
    /// The channel's ID.
    pub id: u16,
    /// Lost since the last message that was accepted: no gap reports them yet
    pub missed: u64,
    /// the losses that the gaps of the messages in its lane report
    pub waiting_lost: u64,
    /// those that the gaps of erased messages reported
    pub erased_lost: u64,
    /// messages that [`Recorder::take_waiting`] took
    pub handed: u64,
    /// the losses that their gaps report
    pub handed_lost: u64,
}

/// How many of a channel's messages, and of those that were lost before they were offered, stand in no file and in no gap, where `found` of its
/// messages were found in the files that the recorder began, and `found_lost` losses in their gaps. Messages that were handed on are not counted.
pub fn untold(account: &Account, losses: &Losses, found: u64, found_lost: u64) -> u64 {
    let account =
        sys::r10_account_info { accepted: account.accepted, erased: account.erased, lost: account.lost, waiting: account.waiting, channel: account.id };
    let losses = sys::r10_losses_info {
        missed: losses.missed,
        waiting_lost: losses.waiting_lost,
        erased_lost: losses.erased_lost,
        handed: losses.handed,
        handed_lost: losses.handed_lost,
        channel: losses.id,
    };
    // SAFETY: both pointers lead to values of this function.
    unsafe { sys::r10_untold(&account, &losses, found, found_lost) }
}

/// How many operations wait.
#[derive(Clone, Copy, Debug, PartialEq, Eq)]
pub struct Queue {
    /// The operations that wait: blocks to write, and syncs.
    pub waiting: usize,
    /// How many have a place without more memory.
    pub places: usize,
    /// The further rings of places that were made; 0 where the first was enough.
    pub rings: usize,
}

/// A recorder over a region that it owns.
#[derive(Debug)]
pub struct Recorder {
    raw: sys::r10,
    // declared after `raw`: the recorder is closed before its region goes
    region: Region,
    dropped: Arc<Dropped>,
}

// SAFETY: the library keeps nothing by thread, and a recorder may go from one thread to another between calls.
unsafe impl Send for Recorder {}

fn answer(number: u32) -> Result<(), Refusal> {
    if number == sys::R10_OK { Ok(()) } else { Err(Refusal::new(number)) }
}

/// The version of the library: 200 for 0.2.0.
pub fn version() -> u32 {
    // SAFETY: it takes nothing.
    unsafe { sys::r10_version() }
}

impl Recorder {
    fn make(mut region: Region, script: &str, call: impl FnOnce(sys::r10_region, &str, *mut sys::r10) -> u32) -> Result<Recorder, NotOpened> {
        let mut raw = sys::r10 { held: std::ptr::null_mut(), open: false };
        let number = call(region.lend(), script, &mut raw);
        match answer(number) {
            Ok(()) => Ok(Recorder { raw, region, dropped: Arc::default() }),
            Err(refusal) => Err(NotOpened { refusal, region }),
        }
    }

    /// Opens a recorder by the settings of a script, not mounted. When a call begins, `room` operations have a place: one that comes to
    /// no more is never refused memory amid its work.
    pub fn open(region: Region, room: usize, script: &str) -> Result<Recorder, NotOpened> {
        // SAFETY: the region lives in the recorder that is made, longer than the recorder is open; the script is read in the call alone.
        Recorder::make(region, script, |at, script, raw| unsafe { sys::r10_open(at, room, script.as_ptr(), script.len(), raw) })
    }

    /// The same over a medium that is formatted first.
    pub fn format(region: Region, room: usize, script: &str) -> Result<Recorder, NotOpened> {
        // SAFETY: the region lives in the recorder that is made, longer than the recorder is open; the script is read in the call alone.
        Recorder::make(region, script, |at, script, raw| unsafe { sys::r10_format(at, room, script.as_ptr(), script.len(), raw) })
    }

    /// Sets the last file of the medium aside where it was left open, and opens a recorder over it, not mounted; and whether one was.
    ///
    /// It is for a file that [`Recorder::seal`] refuses, or that would take too long to read: its directory entry is closed as it is, with
    /// the bytes that it shows. No byte of the file is read or changed. One block of the directory is written by the next [`Recorder::settle`];
    /// a loss of power leaves the old list of files or the new one. Reading the file is refused with [`Refusal::BadFile`] then.
    ///
    /// # Errors
    ///
    /// [`Refusal::BadDirectory`] where a recorder of the script can't use the directory; and as [`Recorder::open`].
    pub fn set_aside(region: Region, room: usize, script: &str) -> Result<(Recorder, bool), NotOpened> {
        let mut was_open = false;
        let recorder =
            // SAFETY: the region lives in the recorder that is made, longer than the recorder is open; the script is read in the call alone.
            Recorder::make(region, script, |at, script, raw| unsafe { sys::r10_set_aside(at, room, script.as_ptr(), script.len(), raw, &mut was_open) })?;
        Ok((recorder, was_open))
    }

    /// Closes the recorder, and gives its region back. What was not committed, and operations that were not done, are lost.
    pub fn close(mut self) -> Region {
        // SAFETY: it is this value's own, and closed once.
        unsafe { sys::r10_close(&mut self.raw) };
        std::mem::replace(&mut self.region, Region::memory(0))
    }

    /// The blocks of the region, as they read now.
    pub fn region(&self) -> &[u8] {
        self.region.bytes()
    }

    /// Reads the disk by a call of the system, as [`Region::read_plainly`] does. What was not settled is not there yet.
    pub fn read_plainly(&self, bytes: &mut [u8], at: u64) -> io::Result<()> {
        self.region.read_plainly(bytes, at)
    }

    /// The next run of blocks, whose bytes come to the front of the buffer, or the next sync. A buffer has room for a block at least.
    ///
    /// It is for a program with a disk of its own, over [`Region::memory`]. Over a [`Disk`] call [`Recorder::settle`]: a run that is taken here is not done there.
    pub fn next_run(&mut self, bytes: &mut [u8]) -> Result<Option<Run>, Refusal> {
        let mut run = sys::r10_run_info::default();
        // SAFETY: slices are read or written in the call alone, by their lengths; the rest is this function's.
        answer(unsafe { sys::r10_orders(&mut self.raw, &mut run, bytes.as_mut_ptr(), bytes.len()) })?;
        Ok(match run.kind {
            sys::R10_NOTHING => None,
            sys::R10_WRITE => Some(Run::Write { block: run.block, blocks: run.blocks }),
            _ => Some(Run::Sync),
        })
    }

    /// Does on the disk what waits. Over plain memory there is nothing to do.
    ///
    /// Where the disk fails, the recorder's next call that writes is refused, and each later `settle` does nothing and fails too: close the recorder, and
    /// open the disk again. In a process that a fork made after the open it does nothing, and answers `PermissionDenied`.
    pub fn settle(&mut self) -> io::Result<()> {
        self.close_dropped();
        self.region.goes_on()?;
        let mut bytes = std::mem::take(self.region.buffer());
        let done = self.settle_by(&mut bytes);
        *self.region.buffer() = bytes;
        if done.is_err() {
            self.region.fail();
            // SAFETY: the recorder is this value's own.
            unsafe { sys::r10_disk_failed(&mut self.raw) };
        }
        done
    }

    fn settle_by(&mut self, bytes: &mut [u8]) -> io::Result<()> {
        while let Some(run) = self.next_run(bytes).map_err(io::Error::other)? {
            match run {
                Run::Write { block, blocks } => self.region.write(block, &bytes[..512 * blocks])?,
                Run::Sync => self.region.sync()?,
            }
        }
        self.region.settled();
        Ok(())
    }

    /// The disk failed: the next call that writes is refused, and the recorder is failed.
    pub fn disk_failed(&mut self) -> Result<(), Refusal> {
        // SAFETY: the recorder is this value's own.
        answer(unsafe { sys::r10_disk_failed(&mut self.raw) })
    }

    /// How many operations wait.
    pub fn queue(&mut self) -> Result<Queue, Refusal> {
        let mut info = sys::r10_queue_info::default();
        // SAFETY: what is lent for the answer is this function's.
        answer(unsafe { sys::r10_queue(&mut self.raw, &mut info) })?;
        Ok(Queue { waiting: info.waiting, places: info.places, rings: info.rings })
    }

    /// Reads the medium's directory.
    ///
    /// # Errors
    ///
    /// [`Refusal::Mounted`]; [`Refusal::BadDirectory`], of which [`Recorder::fault`] says where.
    pub fn mount(&mut self) -> Result<(), Refusal> {
        // SAFETY: the recorder is this value's own.
        answer(unsafe { sys::r10_mount(&mut self.raw) })
    }

    /// Gives the medium up.
    ///
    /// # Errors
    ///
    /// [`Refusal::NotMounted`], and [`Refusal::Busy`] while a file is recorded.
    pub fn dismount(&mut self) -> Result<(), Refusal> {
        // SAFETY: the recorder is this value's own.
        answer(unsafe { sys::r10_dismount(&mut self.raw) })
    }

    /// The clock: the civil time at a count.
    pub fn tick(&mut self, count: u64, civil: &Civil) -> Result<(), Refusal> {
        // SAFETY: the recorder is this value's own.
        answer(unsafe { sys::r10_tick(&mut self.raw, count, civil) })
    }

    /// Begins a file.
    pub fn start(&mut self, name: &str, setup: &[u8]) -> Result<(), Refusal> {
        // SAFETY: slices are read or written in the call alone, by their lengths; the rest is this function's.
        answer(unsafe { sys::r10_start(&mut self.raw, name.as_ptr(), name.len(), setup.as_ptr(), setup.len()) })
    }

    /// Puts a message behind the others in its channel's lane.
    pub fn offer(&mut self, channel: u16, count: u64, message: Message) -> Result<(), Refusal> {
        answer(kinds::offer(&mut self.raw, channel, count, message))
    }

    /// So many of a channel's messages were lost before they were offered: the next one that is accepted has them in its gap.
    pub fn lose(&mut self, channel: u16, count: u64) -> Result<(), Refusal> {
        // SAFETY: the recorder is this value's own.
        answer(unsafe { sys::r10_lost(&mut self.raw, channel, count) })
    }

    /// Carries at most so many messages of a port into its channel's lane, and says how many: fewer where the port has no more, or the lane no room.
    ///
    /// Where one is refused it stays, and is the next again. If some were carried before it, the refusal is that of the next call.
    pub fn carry(&mut self, outlet: &mut Outlet, most: usize) -> Result<usize, Refusal> {
        let (mut count, mut carried) = (0, true);
        while count < most {
            // SAFETY: both handles are borrowed by this call alone.
            match answer(unsafe { sys::r10_carry_one(&mut self.raw, outlet.raw(), &mut carried) }) {
                Ok(()) if carried => count += 1,
                Err(error) if count == 0 => return Err(error),
                _ => break,
            }
        }
        Ok(count)
    }

    /// Takes at most so many of a channel's messages into the file, and says how many.
    pub fn pump(&mut self, channel: u16, most: usize) -> Result<usize, Refusal> {
        let mut moved = 0;
        // SAFETY: what is lent for the answer is this function's.
        answer(unsafe { sys::r10_pump(&mut self.raw, channel, most, &mut moved) })?;
        Ok(moved)
    }

    /// A recording event.
    pub fn event(&mut self, number: u16, count: u64) -> Result<(), Refusal> {
        // SAFETY: the recorder is this value's own.
        answer(unsafe { sys::r10_event(&mut self.raw, number, count) })
    }

    /// Shows on the medium all that the file has. It is durable once it is settled.
    pub fn commit(&mut self) -> Result<(), Refusal> {
        // SAFETY: the recorder is this value's own.
        answer(unsafe { sys::r10_commit(&mut self.raw) })
    }

    /// Takes in what waits, and closes the file.
    pub fn stop(&mut self) -> Result<Stopped, Refusal> {
        let mut stopped = Stopped { taken: 0, left: 0 };
        // SAFETY: what is lent for the answer is this function's.
        answer(unsafe { sys::r10_stop(&mut self.raw, &mut stopped.taken, &mut stopped.left) })?;
        Ok(stopped)
    }

    /// Closes a last file that was cut off.
    pub fn seal(&mut self) -> Result<(), Refusal> {
        // SAFETY: the recorder is this value's own.
        answer(unsafe { sys::r10_seal(&mut self.raw) })
    }

    /// Takes all files from the medium.
    pub fn erase(&mut self) -> Result<(), Refusal> {
        // SAFETY: the recorder is this value's own.
        answer(unsafe { sys::r10_erase(&mut self.raw) })
    }

    /// What the last [`Refusal::BadDirectory`] or [`Refusal::BadFile`] was about, if one was answered.
    pub fn fault(&mut self) -> Result<Option<Fault>, Refusal> {
        let mut info = sys::r10_fault_info::default();
        // SAFETY: what is lent for the answer is this function's.
        answer(unsafe { sys::r10_fault(&mut self.raw, &mut info) })?;
        Ok(Fault::of(&info))
    }

    /// The files of the medium.
    pub fn files(&mut self) -> Result<Vec<File>, Refusal> {
        let mut count = 0;
        // SAFETY: what is lent for the answer is this function's.
        answer(unsafe { sys::r10_files(&mut self.raw, &mut count) })?;
        (0..count).map(|number| self.file(number)).collect()
    }

    fn file(&mut self, number: usize) -> Result<File, Refusal> {
        let mut info = sys::r10_file_info::default();
        let mut name = [0; 56];
        // SAFETY: slices are read or written in the call alone, by their lengths; the rest is this function's.
        answer(unsafe { sys::r10_file(&mut self.raw, number, &mut info, name.as_mut_ptr(), name.len()) })?;
        let name = String::from_utf8_lossy(&name[..info.name_length.min(name.len())]).into_owned();
        Ok(File { name, size: info.size, blocks: info.blocks, closed: info.closed })
    }

    /// How the recorder is.
    pub fn status(&mut self) -> Result<Status, Refusal> {
        let mut info = sys::r10_status_info::default();
        // SAFETY: what is lent for the answer is this function's.
        answer(unsafe { sys::r10_status(&mut self.raw, &mut info) })?;
        let mode = match info.mode {
            sys::R10_MODE_UNMOUNTED => Mode::Unmounted,
            sys::R10_MODE_IDLE => Mode::Idle,
            sys::R10_MODE_RECORDING => Mode::Recording,
            _ => Mode::Failed,
        };
        Ok(Status { mode, tick: info.ticked.then_some(info.tick), free: info.free, files: info.files, channels: info.channels })
    }

    /// The channel at this place of the settings.
    pub fn channel_at(&mut self, place: usize) -> Result<Channel, Refusal> {
        let mut info = sys::r10_channel_info::default();
        // SAFETY: what is lent for the answer is this function's.
        answer(unsafe { sys::r10_channel(&mut self.raw, place, &mut info) })?;
        Ok(Channel { id: info.channel, waiting: info.waiting, lost: info.lost, erased: info.erased })
    }

    /// The channel of this ID, if there is one.
    pub fn channel(&mut self, id: u16) -> Result<Option<Channel>, Refusal> {
        for place in 0..self.status()?.channels {
            let channel = self.channel_at(place)?;
            if channel.id == id {
                return Ok(Some(channel));
            }
        }
        Ok(None)
    }

    /// The account of the channel at this place of the settings, in every mode.
    pub fn account_at(&mut self, place: usize) -> Result<Account, Refusal> {
        let mut info = sys::r10_account_info::default();
        // SAFETY: what is lent for the answer is this function's.
        answer(unsafe { sys::r10_account(&mut self.raw, place, &mut info) })?;
        Ok(Account { id: info.channel, accepted: info.accepted, erased: info.erased, lost: info.lost, waiting: info.waiting })
    }

    /// The losses of the channel of this ID, in every mode, if there is one.
    pub fn losses(&mut self, id: u16) -> Result<Option<Losses>, Refusal> {
        for place in 0..self.status()?.channels {
            let mut info = sys::r10_losses_info::default();
            // SAFETY: what is lent for the answer is this function's.
            answer(unsafe { sys::r10_losses(&mut self.raw, place, &mut info) })?;
            if info.channel == id {
                return Ok(Some(Losses {
                    id,
                    missed: info.missed,
                    waiting_lost: info.waiting_lost,
                    erased_lost: info.erased_lost,
                    handed: info.handed,
                    handed_lost: info.handed_lost,
                }));
            }
        }
        Ok(None)
    }

    /// The account of the channel of this ID, if there is one.
    pub fn account(&mut self, id: u16) -> Result<Option<Account>, Refusal> {
        for place in 0..self.status()?.channels {
            let account = self.account_at(place)?;
            if account.id == id {
                return Ok(Some(account));
            }
        }
        Ok(None)
    }

    /// Opens a cursor on a file, for these channels, or all where there are none, and these counts. It is closed when it is dropped.
    ///
    /// # Errors
    ///
    /// [`Refusal::NoFile`], [`Refusal::NoChannel`], [`Refusal::CountRange`], and [`Refusal::BadFile`] of a closed file that is not one of
    /// this recorder.
    pub fn cursor(&mut self, file: usize, channels: &[u16], counts: RangeInclusive<u64>) -> Result<Cursor, Refusal> {
        self.close_dropped();
        let mut id = 0;
        // SAFETY: the slice is read in the call alone, and the number is this function's.
        answer(unsafe { sys::r10_cursor(&mut self.raw, file, channels.as_ptr(), channels.len(), *counts.start(), *counts.end(), &mut id) })?;
        Ok(Cursor::new(id, &self.dropped))
    }

    /// Queues what was shown since the last time, and says how many entries.
    ///
    /// # Errors
    ///
    /// [`Refusal::Unread`] while entries of the last time are queued, [`Refusal::Stale`] after an erase, and [`Refusal::NoCursor`] of
    /// another recorder's cursor.
    pub fn advance(&mut self, cursor: &Cursor) -> Result<usize, Refusal> {
        let id = self.id_of(cursor)?;
        let mut queued = 0;
        // SAFETY: the number is this function's.
        answer(unsafe { sys::r10_advance(&mut self.raw, id, &mut queued) })?;
        Ok(queued)
    }

    /// Takes the first entry of a cursor's queue; none where it is empty.
    ///
    /// # Errors
    ///
    /// [`Refusal::NoCursor`] of another recorder's cursor.
    pub fn next(&mut self, cursor: &Cursor) -> Result<Option<Entry>, Refusal> {
        let id = self.id_of(cursor)?;
        let mut lent = Lent::new(0);
        // SAFETY: what is lent is this function's.
        answer(unsafe { sys::r10_take(&mut self.raw, id, &mut lent.there, &mut lent.entry) })?;
        self.taken(lent)
    }

    /// The entries of a cursor's queue, each taken as it is given. What is shown later wants [`Recorder::advance`] first.
    pub fn entries<'a>(&'a mut self, cursor: &'a Cursor) -> Entries<'a> {
        Entries::new(self, cursor)
    }

    /// The number of a cursor of this recorder.
    fn id_of(&mut self, cursor: &Cursor) -> Result<usize, Refusal> {
        self.close_dropped();
        cursor.id_in(&self.dropped).ok_or(Refusal::NoCursor)
    }

    /// Closes what was dropped since the last call on a cursor.
    fn close_dropped(&mut self) {
        for id in self.dropped.take() {
            // SAFETY: the recorder is this value's own. (A cursor that an erase made stale is closed all the same.)
            unsafe { sys::r10_close_cursor(&mut self.raw, id) };
        }
    }

    /// Takes the first message that waits on a channel out of its lane, in every mode, a failed recorder's too. It is in no file of this
    /// recorder then: give the losses of its gap to the next one's [`Recorder::lost`], and offer it there.
    pub fn take_waiting(&mut self, channel: u16) -> Result<Option<Entry>, Refusal> {
        let mut lent = Lent::new(0);
        // SAFETY: what is lent for the answer is this function's.
        answer(unsafe { sys::r10_take_waiting(&mut self.raw, channel, &mut lent.there, &mut lent.entry) })?;
        self.taken(lent)
    }

    /// The entry in hand, where there is one, with its bytes or words.
    fn taken(&mut self, mut lent: Lent) -> Result<Option<Entry>, Refusal> {
        if !lent.there {
            return Ok(None);
        }
        lent.bytes = vec![0; kinds::bytes_of(&lent.entry)].into_boxed_slice();
        let (raw, l) = (&mut self.raw, &mut lent);
        // SAFETY: slices are read or written in the call alone, by their lengths; the rest is this function's.
        answer(unsafe { sys::r10_taken(raw, l.bytes.as_mut_ptr(), l.bytes.len(), l.words.as_mut_ptr(), l.words.len()) })?;
        Ok(lent.entry())
    }

    /// Closes a cursor at once, and says how that went. A dropped one is closed by the next call on a cursor, or by the next
    /// [`Recorder::settle`].
    ///
    /// # Errors
    ///
    /// [`Refusal::NoCursor`] of another recorder's cursor, which stays open.
    pub fn close_cursor(&mut self, cursor: Cursor) -> Result<(), Refusal> {
        let id = self.id_of(&cursor)?;
        cursor.forget();
        // SAFETY: the recorder is this value's own.
        answer(unsafe { sys::r10_close_cursor(&mut self.raw, id) })
    }

    /// The first shown entry of a channel with at least this count, and its number on the channel from 0.
    pub fn find(&mut self, file: usize, channel: u16, count: u64) -> Result<Option<(usize, Entry)>, Refusal> {
        let (mut lent, mut number) = (Lent::new(MOST_BYTES), 0);
        let (raw, l) = (&mut self.raw, &mut lent);
        // SAFETY: slices are read or written in the call alone, by their lengths; the rest is this function's.
        answer(unsafe {
            sys::r10_find(
                raw,
                file,
                channel,
                count,
                &mut l.there,
                &mut number,
                &mut l.entry,
                l.bytes.as_mut_ptr(),
                l.bytes.len(),
                l.words.as_mut_ptr(),
                l.words.len(),
            )
        })?;
        Ok(lent.entry().map(|entry| (number, entry)))
    }

    /// The count at a civil time, by the last shown time that is not later.
    pub fn count_at(&mut self, file: usize, civil: &Civil) -> Result<Option<u64>, Refusal> {
        let (mut there, mut count) = (false, 0);
        // SAFETY: what is lent for the answer is this function's.
        answer(unsafe { sys::r10_count_at(&mut self.raw, file, civil, &mut there, &mut count) })?;
        Ok(there.then_some(count))
    }

    /// What the medium shows of a file, from this byte on, as much as there is. `directory` is how many blocks the script reserves for the directory.
    pub fn shown(&mut self, directory: usize, file: usize, from: u64) -> Result<&[u8], Refusal> {
        let mut first = 1 + directory as u64;
        for number in 0..file {
            first += self.file(number)?.blocks;
        }
        let size = self.file(file)?.size;
        let start = (512 * first) as usize;
        Ok(&self.region.bytes()[start + from.min(size) as usize..start + size as usize])
    }
}

impl Drop for Recorder {
    fn drop(&mut self) {
        // SAFETY: it is this value's own, and closed once.
        unsafe { sys::r10_close(&mut self.raw) };
    }
}

/// Memory that is lent for an entry.
struct Lent {
    there: bool,
    entry: sys::r10_entry,
    bytes: Box<[u8]>,
    words: [u16; MOST_WORDS],
}

impl Lent {
    fn new(bytes: usize) -> Lent {
        Lent { there: false, entry: sys::r10_entry::default(), bytes: vec![0; bytes].into_boxed_slice(), words: [0; MOST_WORDS] }
    }

    fn entry(self) -> Option<Entry> {
        if !self.there {
            return None;
        }
        let e = &self.entry;
        let content = kinds::content(e, &self.bytes, &self.words);
        let gap = match (e.gap, e.lost) {
            (false, _) => Gap::None,
            (true, 0) => Gap::Unknown,
            (true, lost) => Gap::Lost(lost),
        };
        Some(Entry { count: e.count, channel: e.channel, gap, content })
    }
}
