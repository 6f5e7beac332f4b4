//! Offers from other threads.
use crate::{Message, Refusal, answer, kinds};
use r10_sys as sys;

/// The sending end of a channel's lane between two threads. It can be moved to another thread, and offers there without a lock.
///
/// A port is not shared between threads: each has its own.
///
/// ```compile_fail
/// fn share<T: Sync>(_: T) {}
/// # fn of(port: r10::Port) {
/// share(port);
/// # }
/// ```
pub struct Port {
    raw: sys::r10_port,
}

/// The end of a port that the thread with the recorder keeps: [`crate::Recorder::carry`] takes from it.
pub struct Outlet {
    raw: sys::r10_outlet,
}

/// What became of the messages that were offered at a port.
#[derive(Clone, Copy, Debug, PartialEq, Eq)]
pub struct PortState {
    /// The channel's ID.
    pub channel: u16,
    /// The messages that it took.
    pub accepted: u64,
    /// Messages that were refused for an overflow, or lost before they were offered
    pub lost: u64,
    /// How many messages the port has room for
    pub capacity: usize,
}

// SAFETY: what an end leads to is reached by that end alone, but for the ring between the two, whose words are atomic. The library keeps nothing by thread.
unsafe impl Send for Port {}
// SAFETY: as of the port.
unsafe impl Send for Outlet {}

/// Opens a port and its outlet for a channel of the script that the recorder is opened by. A channel has one port at most, and is offered to by that alone.
///
/// ```
/// # use r10::{Civil, Error, Message, Recorder, Region, open_port};
/// # const SCRIPT: &str = "blocks = 64\ndirectory = 2\nvolume = \"VOL\"\nnodes = 100\ntime = 1\nevent = 2\n\
/// # [[channel]]\nid = 3\nkind = \"uart\"\ncapacity = 8\ncheck = 0\nbytes = 4096\nnumber = 100\n";
/// # const CIVIL: Civil = Civil { year: 2024, month: 2, day: 29, hour: 12, minute: 0, second: 0, centi: 0 };
/// # fn main() -> Result<(), Error> {
/// # let mut recorder = Recorder::format(Region::memory(64), 4, SCRIPT)?;
/// # recorder.mount()?;
/// # recorder.tick(1000, &CIVIL)?;
/// # recorder.start("FLT1", b"")?;
/// let (mut port, mut outlet) = open_port(SCRIPT, 3)?;
/// let bus = std::thread::spawn(move || port.offer(1001, Message::Uart { parity: false, sub: 0, bytes: b"message" }));
/// bus.join().expect("the thread ended")?;
/// assert_eq!(recorder.carry(&mut outlet, 8)?, 1);
/// assert_eq!(recorder.pump(3, 8)?, 1);
/// # Ok(())
/// # }
/// ```
pub fn open_port(script: &str, channel: u16) -> Result<(Port, Outlet), Refusal> {
    let none = std::ptr::null_mut();
    let mut port = Port { raw: sys::r10_port { held: none, open: false } };
    let mut outlet = Outlet { raw: sys::r10_outlet { held: none, open: false } };
    // SAFETY: slices are read or written in the call alone, by their lengths; the rest is this function's.
    answer(unsafe { sys::r10_port_open(script.as_ptr(), script.len(), channel, &mut port.raw, &mut outlet.raw) })?;
    Ok((port, outlet))
}

impl Port {
    /// Puts a message after those that were offered before it.
    pub fn offer(&mut self, count: u64, message: Message) -> Result<(), Refusal> {
        answer(kinds::offer_at(&mut self.raw, count, message))
    }

    /// So many messages were lost before they were offered: the next one that is accepted has them in its gap.
    pub fn lose(&mut self, count: u64) -> Result<(), Refusal> {
        // SAFETY: the port is this value's own.
        answer(unsafe { sys::r10_port_lost(&mut self.raw, count) })
    }

    /// What became of the messages that were offered.
    pub fn state(&mut self) -> Result<PortState, Refusal> {
        let mut info = sys::r10_port_info::default();
        // SAFETY: what is lent for the answer is this function's.
        answer(unsafe { sys::r10_port_state(&mut self.raw, &mut info) })?;
        Ok(PortState { channel: info.channel, accepted: info.accepted, lost: info.lost, capacity: info.capacity })
    }
}

impl Outlet {
    pub(crate) fn raw(&mut self) -> *mut sys::r10_outlet {
        &mut self.raw
    }
}

impl Drop for Port {
    fn drop(&mut self) {
        // SAFETY: it is this value's own, and closed once.
        unsafe { sys::r10_port_close(&mut self.raw) };
    }
}

impl Drop for Outlet {
    fn drop(&mut self) {
        // SAFETY: it is this value's own, and closed once.
        unsafe { sys::r10_outlet_close(&mut self.raw) };
    }
}
