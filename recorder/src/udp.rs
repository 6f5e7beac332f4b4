//! UDP in: a datagram is a message. What the system dropped for want of room in its buffer is counted, by the number that it
//! gives with each datagram.
use std::io::{self, IoSliceMut};
use std::net::{IpAddr, Ipv4Addr, Ipv6Addr, SocketAddr, UdpSocket};
use std::os::fd::AsRawFd;

use nix::errno::Errno;
use nix::poll::{PollFd, PollFlags, poll};
use nix::sys::socket::{
    ControlMessageOwned, MsgFlags, SockaddrStorage, TimestampingFlag, Timestamps, recvmsg, setsockopt, sockopt,
};
use nix::sys::time::TimeSpec;

use crate::feed::Feed;
use crate::inputs::{AGAIN, Seldom};
use crate::losses::Cause;
use crate::settings::{Channel, Header, Input, Udp};
use crate::stamps::{Stamped, Stamps, nanos};
use crate::{chapter10, header};
use crate::{info, warning};
use std::sync::atomic::Ordering::Relaxed;
use std::time::{Duration, Instant};

/// Whether an address may be this machine's a little later: its network is not up yet, as when the machine has just started.
pub fn may_come(error: &io::Error) -> bool {
    matches!(error.raw_os_error().map(Errno::from_i32), Some(Errno::EADDRNOTAVAIL | Errno::ENODEV | Errno::ENETUNREACH))
}

/// Tries until the machine has the address, and says once that it waits. What else goes wrong meanwhile is said once too, and tried
/// again: the rest of the service records on.
pub fn until_there<T>(what: &str, mut open: impl FnMut() -> io::Result<T>) -> T {
    let mut said = None;
    loop {
        match open() {
            Ok(it) => {
                if said.is_some() {
                    info!("{what}: the address is there now");
                }
                return it;
            }
            Err(error) => {
                if said != error.raw_os_error() || said.is_none() {
                    warning!("{what}: {error}; it is tried again until the machine has this address");
                    said = Some(error.raw_os_error().unwrap_or(0));
                }
                std::thread::sleep(AGAIN);
            }
        }
    }
}

/// Opens the socket, with so many MiB for what the system holds. An unprivileged user gets as much as `net.core.rmem_max` says.
pub fn open(it: &Udp) -> io::Result<UdpSocket> {
    let (address, group) = (it.address, it.group);
    // a socket at one address of this machine gets nothing of a group: so the socket is the group's, and the address says on which
    // network that is heard
    let at = group.filter(|_| !address.ip().is_unspecified()).unwrap_or(address.ip());
    let socket = UdpSocket::bind((at, address.port()))?;
    match (group, address.ip()) {
        (Some(IpAddr::V4(group)), IpAddr::V4(here)) => socket.join_multicast_v4(&group, &here)?,
        (Some(IpAddr::V6(group)), _) => socket.join_multicast_v6(&group, 0)?,
        _ => (),
    }
    let wanted = (it.receive_mib as usize) << 20;
    let fd = socket.as_raw_fd();
    if setsockopt(fd, sockopt::RcvBufForce, &wanted).is_err() {
        setsockopt(fd, sockopt::RcvBuf, &wanted)?;
        // the system says twice what it was asked for
        let got = nix::sys::socket::getsockopt(fd, sockopt::RcvBuf)? / 2;
        if got < wanted {
            info!("UDP {address}: the system holds {got} bytes, not {wanted}; for more raise net.core.rmem_max (sysctl)");
        }
    }
    setsockopt(fd, sockopt::RxqOvfl, &1)?;
    setsockopt(fd, sockopt::ReceiveTimestampns, &true)?;
    if it.card.is_some() {
        use TimestampingFlag as Flag;
        let wanted = Flag::SOF_TIMESTAMPING_RX_HARDWARE
            | Flag::SOF_TIMESTAMPING_RAW_HARDWARE
            | Flag::SOF_TIMESTAMPING_RX_SOFTWARE
            | Flag::SOF_TIMESTAMPING_SOFTWARE;
        setsockopt(fd, sockopt::Timestamping, &wanted)?;
    }
    socket.set_read_timeout(Some(SILENCE))?;
    Ok(socket)
}

/// After so many datagrams the clock is looked at.
const LOOK: u32 = 64;

/// After so long without a datagram the system is asked what it dropped since the last one.
const SILENCE: Duration = Duration::from_secs(1);
/// So often it looks whether a stop wants to know that sooner.
const AFTER: Duration = Duration::from_millis(100);

/// How many datagrams the system dropped of a socket since its creation: the last column of its line in /proc/net/udp.
fn all_dropped(socket: &UdpSocket) -> Option<u32> {
    let name = std::fs::read_link(format!("/proc/self/fd/{}", socket.as_raw_fd())).ok()?;
    let inode = name.to_str()?.strip_prefix("socket:[")?.strip_suffix(']')?;
    let table =
        std::fs::read_to_string(if socket.local_addr().ok()?.is_ipv4() { "/proc/self/net/udp" } else { "/proc/self/net/udp6" });
    table.ok()?.lines().find(|it| it.split_whitespace().nth(9) == Some(inode))?.split_whitespace().next_back()?.parse().ok()
}

/// How many were dropped since the last look, of a number of 32 bits that goes on from its start. A datagram has the number of when
/// it came, and may be read after a look at the socket that was later: then there is none.
fn dropped(last: &mut u32, now: u32) -> u64 {
    let more = now.wrapping_sub(*last);
    if more > u32::MAX / 2 {
        return 0;
    }
    *last = now;
    more.into()
}

/// What the datagrams of a socket are read by.
enum Reader {
    Plain(Seldom),
    R10(header::Reader),
    Chapter10(chapter10::Reader),
}

impl Reader {
    fn new(it: Option<&Udp>, feed: &Feed) -> Reader {
        match it {
            Some(it) if it.header == Header::R10 => Reader::R10(header::Reader::new(feed, it.stamp_limit)),
            Some(it) if it.header == Header::Chapter10 => Reader::Chapter10(chapter10::Reader::new(feed, it.stamp_limit)),
            _ => Reader::Plain(Seldom::default()),
        }
    }

    /// A datagram came at a count, and the system dropped so many before it.
    fn datagram(&mut self, feed: &mut Feed, channels: &[Channel], from: Option<SocketAddr>, lost: u64, count: u64, bytes: &[u8]) {
        match self {
            Reader::R10(it) => it.datagram(feed, channels, from, count, bytes),
            Reader::Chapter10(it) => it.datagram(feed, channels, from, count, bytes),
            Reader::Plain(bad) => {
                let (channel, length) = (&channels[0], bytes.len());
                if let Some((head, length)) = channel.kind.of_bytes(bytes, channel.sub) {
                    feed.lost(0, Cause::System, lost);
                    feed.message_at(0, 0, count, head, &bytes[..length]);
                } else {
                    // something was sent that is in no file
                    feed.bad(0);
                    feed.lost(0, Cause::System, lost);
                    feed.lost(0, Cause::Line, 1);
                    bad.warn(|| {
                        let (id, name) = (channel.id, channel.kind.name());
                        format!("channel {id}: a datagram of {length} bytes is no message of kind {name}")
                    });
                }
            }
        }
    }

    /// The system dropped so many, and none came since. (The numbers of a source's own messages, and of packets, tell of them too.)
    fn dropped(&mut self, feed: &mut Feed, channels: &[Channel], lost: u64) {
        match self {
            Reader::Plain(_) => feed.lost(0, Cause::System, lost),
            Reader::R10(it) => it.dropped(feed, channels, lost),
            Reader::Chapter10(_) => (),
        }
    }
}

/// The stamps of a socket's datagrams: those of a card where it gives them, else the kernel's.
struct Clocks {
    system: Stamps,
    card: Option<Stamps>,
}

impl Clocks {
    fn new(it: Option<&Udp>, feed: &Feed) -> Clocks {
        let card = it.and_then(|it| it.card.as_ref()).and_then(|device| {
            let found = Stamps::of_card(feed.counter(), device);
            if let Err(error) = &found {
                warning!("card = {device:?}: {error}; the kernel's stamps are taken");
            }
            found.ok()
        });
        Clocks { system: Stamps::of_system(feed.counter()), card }
    }

    fn look(&mut self) {
        self.system.look();
        self.card.iter_mut().for_each(Stamps::look);
    }

    fn drained(&mut self) {
        self.system.drained();
        self.card.iter_mut().for_each(Stamps::drained);
    }

    fn count_of(&mut self, kernel: Option<TimeSpec>, card: Option<TimeSpec>) -> Option<Stamped> {
        let of = |stamps: &mut Stamps, it: Option<TimeSpec>| stamps.count_of(it.map(nanos).filter(|it| *it != 0)?);
        let by_card = self.card.as_mut().and_then(|it| of(it, card));
        // (both are asked, so that both know what was read)
        of(&mut self.system, kernel).filter(|_| by_card.is_none()).or(by_card)
    }

    fn unstamped(&mut self) -> Stamped {
        self.system.unstamped()
    }
}

fn address_of(it: &SockaddrStorage) -> Option<SocketAddr> {
    let v4 = it.as_sockaddr_in().map(|it| SocketAddr::from((Ipv4Addr::from(it.ip()), it.port())));
    v4.or_else(|| it.as_sockaddr_in6().map(|it| SocketAddr::from((it.ip(), it.port()))))
}

pub fn run(socket: UdpSocket, mut feed: Feed, channels: &[Channel]) {
    let from = channels.iter().find_map(|it| if let Some(Input::Udp(it)) = &it.input { Some(it) } else { None });
    let mut bytes = vec![0; 1 << 16];
    let mut space = nix::cmsg_space!(u32, TimeSpec, Timestamps);
    let (mut reader, mut clocks) = (Reader::new(from, &feed), Clocks::new(from, &feed));
    let (mut drops, mut failed) = (0, Seldom::default());
    let ids: Vec<u16> = channels.iter().map(|it| it.id).collect();
    let name = from.map_or("udp".to_string(), |it| format!("udp {}", it.address));
    feed.reads(socket.try_clone().ok().map(Into::into));
    feed.note(&ids, &name, "open", "");
    // whether the socket was found empty, and the thread waited; and when a datagram came after which nobody asked what was dropped
    let (mut is_empty, mut has_waited, mut heard) = (true, false, None::<Instant>);
    let mut taken = 0u32;
    loop {
        if is_empty {
            // what came goes over, and then the thread waits; after a while without any it asks what was dropped
            feed.is_unsure(heard.is_some());
            feed.say_stamps(&ids);
            feed.waits();
            let most = if heard.is_some() { AFTER } else { SILENCE };
            let found = poll(&mut [PollFd::new(socket.as_raw_fd(), PollFlags::POLLIN)], most.as_millis() as i32);
            feed.goes_on();
            has_waited = true;
            if found == Ok(0) {
                if heard.is_some_and(|it| it.elapsed() >= SILENCE || feed.is_stopped()) {
                    heard = None;
                    let lost = all_dropped(&socket).map_or(0, |count| dropped(&mut drops, count));
                    reader.dropped(&mut feed, channels, lost);
                }
                clocks.drained();
                continue;
            }
        }
        let mut slices = [IoSliceMut::new(&mut bytes)];
        let (mut lost, mut kernel, mut card) = (0, None, None);
        let (length, from) =
            match recvmsg::<SockaddrStorage>(socket.as_raw_fd(), &mut slices, Some(&mut space), MsgFlags::MSG_DONTWAIT) {
                Ok(it) => {
                    for it in it.cmsgs() {
                        match it {
                            ControlMessageOwned::RxqOvfl(count) => lost = dropped(&mut drops, count),
                            ControlMessageOwned::ScmTimestampns(it) => kernel = Some(it),
                            ControlMessageOwned::ScmTimestampsns(it) => card = Some(it.hw_raw),
                            _ => (),
                        }
                    }
                    (it.bytes, it.address.as_ref().and_then(address_of))
                }
                Err(Errno::EAGAIN) => {
                    clocks.drained();
                    is_empty = true;
                    continue;
                }
                Err(Errno::EINTR) => continue,
                Err(error) => {
                    failed.warn(|| {
                        feed.note(&ids, &name, "failed", &error.to_string());
                        format!("channel {}: the socket failed: {error}", channels[0].id)
                    });
                    std::thread::sleep(crate::inputs::AGAIN);
                    continue;
                }
            };
        // the clock is looked at after a wait, and in a flood every so often
        if std::mem::take(&mut has_waited) || taken.is_multiple_of(LOOK) {
            clocks.look();
        }
        taken = taken.wrapping_add(1);
        is_empty = false;
        heard = Some(Instant::now());
        let it = clocks.count_of(kernel, card).unwrap_or_else(|| {
            feed.came(0).inspect(|it| _ = it.unstamped.fetch_add(1, Relaxed));
            clocks.unstamped()
        });
        feed.arrives(it.count);
        feed.may_be_off(it.off);
        reader.datagram(&mut feed, channels, from, lost, it.count, &bytes[..length]);
    }
}

/// A socket from which datagrams go out, to an address of the same family.
pub fn sender(to: SocketAddr) -> io::Result<UdpSocket> {
    let from: IpAddr = if to.is_ipv4() { Ipv4Addr::UNSPECIFIED.into() } else { Ipv6Addr::UNSPECIFIED.into() };
    let socket = UdpSocket::bind((from, 0))?;
    socket.set_nonblocking(true)?;
    // an address may be that of all on a network
    socket.set_broadcast(true)?;
    Ok(socket)
}

/// Whether what is sent to this address comes to this machine: it is one of its own, or that of all on one of its networks. The
/// system lets a socket have these addresses alone.
pub fn comes_here(to: IpAddr) -> bool {
    to == IpAddr::V4(Ipv4Addr::BROADCAST) || UdpSocket::bind((to, 0)).is_ok()
}

#[cfg(test)]
mod tests {
    use super::*;
    use crate::clock::Counter;
    use crate::feed::{Came, feed};
    use std::sync::Arc;

    #[test]
    fn the_number_of_drops_goes_round() {
        let mut last = 0;
        assert_eq!((dropped(&mut last, 0), dropped(&mut last, 5), dropped(&mut last, 5)), (0, 5, 0));
        last = u32::MAX - 1;
        assert_eq!((dropped(&mut last, 3), last), (5, 3));
        // one that came before the last look at the socket
        last = 8;
        assert_eq!((dropped(&mut last, 5), dropped(&mut last, 9), last), (0, 1, 9));
    }

    /// More datagrams than the system holds: what did not come is counted, with the next one that comes.
    #[test]
    fn what_the_system_dropped_is_counted() {
        let socket = UdpSocket::bind("127.0.0.1:0").unwrap();
        setsockopt(socket.as_raw_fd(), sockopt::RcvBuf, &4096).unwrap();
        setsockopt(socket.as_raw_fd(), sockopt::RxqOvfl, &1).unwrap();
        socket.set_read_timeout(Some(Duration::from_millis(100))).unwrap();
        let (to, from) = (socket.local_addr().unwrap(), UdpSocket::bind("127.0.0.1:0").unwrap());
        for _ in 0..500 {
            from.send_to(&[7; 100], to).unwrap();
        }
        let came = Arc::new(Came::default());
        let (feed, outlet) = feed(std::thread::current(), Counter::new(), 1 << 20, &[(0, came.clone())]);
        let text =
            "medium = \"m\"\nblocks = 99\nvolume = \"V\"\n[control]\nsocket = \"c\"\n[[channel]]\nid = 5\nkind = \"message\"\n";
        let channel = crate::settings::read(text, std::path::Path::new("/")).unwrap().channels.remove(0);
        std::thread::spawn(move || run(socket, feed, &[channel]));
        let (mut messages, mut lost, start) = (0, 0, std::time::Instant::now());
        let mut take = |wanted: u64| {
            while messages + lost < wanted && start.elapsed().as_secs() < 120 {
                std::thread::sleep(Duration::from_millis(5));
                while let Some(batch) = outlet.take() {
                    messages += batch.items.len() as u64;
                    lost += batch.items.iter().map(|it| it.lost).chain(batch.lost.iter().map(|it| it.1)).sum::<u64>();
                }
            }
            (messages, lost)
        };
        // the last of them were dropped, and none comes after
        let (first, lost) = take(500);
        assert_eq!(first + lost, 500);
        from.send_to(b"the next one", to).unwrap();
        assert_eq!(take(501), (first + 1, lost));
        let messages = first;
        assert!(lost > 0 && messages < 500, "{messages} came, {lost} lost");
    }
}
