//! Live out: packets that became durable go out as UDP in transfer format 1 of chapter 10.
//!
//! This is the one place that reads a packet: its channel, its sequence number and its length, as each header of chapter 11 has
//! them.
use std::io;
use std::net::{SocketAddr, UdpSocket};
use std::time::{Duration, Instant};

use crate::inputs::Seldom;
use crate::udp;

/// The bytes of a packet that go into one datagram: with the headers they fit an Ethernet frame.
const SEGMENT: usize = 1440;
/// How often the setup packet goes out again, for who joins later.
const SETUP_AGAIN: Duration = Duration::from_secs(5);
/// How many may be sent to.
const MOST: usize = 8;

struct To {
    address: SocketAddr,
    socket: UdpSocket,
    /// of 24 bits, one for each datagram
    sequence: u32,
    /// when it was told the setup last
    told: Option<Instant>,
}

#[derive(Default)]
pub struct Live {
    to: Vec<To>,
    /// the bytes of the file that have gone out
    pub shown: u64,
    /// the setup packet, with which the file begins
    pub setup: Vec<u8>,
    pub datagrams: u64,
    /// datagrams that the system did not take
    pub dropped: u64,
    seldom: Seldom,
}

impl Live {
    pub fn new(address: Option<SocketAddr>) -> io::Result<Live> {
        let mut it = Live::default();
        if let Some(address) = address {
            it.add(address)?;
        }
        Ok(it)
    }

    /// One more to send to. False where it is one already, or there are too many.
    pub fn add(&mut self, address: SocketAddr) -> io::Result<bool> {
        if self.to.len() >= MOST || self.to.iter().any(|it| it.address == address) {
            return Ok(false);
        }
        self.to.push(To { address, socket: udp::sender(address)?, sequence: 0, told: None });
        Ok(true)
    }

    /// One less, or none at all. Whether there was one.
    pub fn remove(&mut self, address: Option<SocketAddr>) -> bool {
        let before = self.to.len();
        self.to.retain(|it| address.is_some_and(|address| it.address != address));
        self.to.len() < before
    }

    pub fn addresses(&self) -> impl Iterator<Item = SocketAddr> {
        self.to.iter().map(|it| it.address)
    }

    pub fn is_on(&self) -> bool {
        !self.to.is_empty()
    }

    /// A file begins.
    pub fn begin(&mut self) {
        self.shown = 0;
        self.setup.clear();
        self.to.iter_mut().for_each(|it| it.told = None);
    }

    /// The bytes with which the file begins: its setup packet is one of them.
    pub fn keep_setup(&mut self, front: &[u8]) {
        self.setup = packets(front).next().unwrap_or_default().to_vec();
    }

    /// These bytes of the file became durable: whole packets. Before them goes the setup packet, to who did not get it for a while.
    pub fn send(&mut self, bytes: &[u8]) {
        let is_front = self.shown == 0;
        self.shown += bytes.len() as u64;
        let (now, setup) = (Instant::now(), std::mem::take(&mut self.setup));
        for to in 0..self.to.len() {
            let it = &mut self.to[to];
            if it.told.is_none_or(|it| now.duration_since(it) >= SETUP_AGAIN) && !setup.is_empty() {
                it.told = Some(now);
                // (a file begins with it)
                if !is_front {
                    self.send_packet(to, &setup);
                }
            }
            for packet in packets(bytes) {
                self.send_packet(to, packet);
            }
        }
        self.setup = setup;
    }

    fn send_packet(&mut self, to: usize, packet: &[u8]) {
        let to = &mut self.to[to];
        let mut datagram = Vec::with_capacity(SEGMENT + 12);
        for (number, part) in packet.chunks(SEGMENT).enumerate() {
            datagram.clear();
            header(&mut datagram, to.sequence, packet, (packet.len() > SEGMENT).then_some(SEGMENT * number));
            datagram.extend_from_slice(part);
            to.sequence = (to.sequence + 1) & 0xff_ffff;
            match to.socket.send_to(&datagram, to.address) {
                Ok(_) => self.datagrams += 1,
                Err(error) => {
                    self.dropped += 1;
                    let address = to.address;
                    self.seldom.warn(|| format!("a datagram to {address} did not go out: {error}"));
                }
            }
        }
    }
}

/// The packets that stand side by side, by the length that each has at its fifth byte.
fn packets(mut bytes: &[u8]) -> impl Iterator<Item = &[u8]> {
    std::iter::from_fn(move || {
        let length = u32::from_le_bytes(bytes.get(4..8)?.try_into().ok()?) as usize;
        let (packet, rest) = bytes.split_at_checked(length.max(24))?;
        bytes = rest;
        Some(packet)
    })
}

/// The header of a datagram: the format, whether it is a segment, and the sequence number; of a segment also the packet's
/// channel, its sequence number, and
/// where in the packet it begins.
fn header(out: &mut Vec<u8>, sequence: u32, packet: &[u8], segment: Option<usize>) {
    out.extend((1 | u32::from(segment.is_some()) << 4 | sequence << 8).to_le_bytes());
    if let Some(offset) = segment {
        out.extend([packet[2], packet[3], packet[13], 0]);
        out.extend((offset as u32).to_le_bytes());
    }
}

#[cfg(test)]
mod tests {
    use super::*;

    fn packet(channel: u16, sequence: u8, length: usize) -> Vec<u8> {
        let mut it = vec![0x25, 0xeb];
        it.extend(channel.to_le_bytes());
        it.extend((length as u32).to_le_bytes());
        it.extend([0; 5]);
        it.push(sequence);
        it.extend((14..length).map(|it| it as u8));
        it
    }

    #[test]
    fn datagrams_put_together_are_the_file() {
        let receiver = UdpSocket::bind("127.0.0.1:0").unwrap();
        let mut live = Live::new(Some(receiver.local_addr().unwrap())).unwrap();
        let file = [packet(5, 0, 24), packet(6, 0, 1440), packet(5, 1, 1444), packet(5, 2, 5000)].concat();
        live.send(&file[..24 + 1440]);
        live.send(&file[24 + 1440..]);
        let (mut found, mut bytes) = (Vec::<u8>::new(), [0; 2000]);
        for (number, kind) in [0, 0, 1, 1, 1, 1, 1, 1].into_iter().enumerate() {
            let count = receiver.recv(&mut bytes).unwrap();
            let head = u32::from_le_bytes(bytes[..4].try_into().unwrap());
            assert_eq!(head, 1 | kind << 4 | (number as u32) << 8);
            if number == 7 {
                assert_eq!(bytes[4..12], [5, 0, 2, 0, 0xe0, 0x10, 0, 0]);
            }
            found.extend(&bytes[if kind == 1 { 12 } else { 4 }..count]);
        }
        assert!(found == file && live.shown == file.len() as u64 && live.datagrams == 8);
    }

    /// Who joins later gets the setup packet first, and all get it again after a while.
    #[test]
    fn the_setup_packet_comes_first_and_again() {
        let receiver = UdpSocket::bind("127.0.0.1:0").unwrap();
        let mut live = Live::new(None).unwrap();
        let file = [packet(0, 0, 28), packet(5, 0, 24), packet(5, 1, 32)];
        live.keep_setup(&file.concat());
        live.send(&file[0]);
        live.add(receiver.local_addr().unwrap()).unwrap();
        live.send(&file[1]);
        live.send(&file[2]);
        live.to[0].told = Instant::now().checked_sub(SETUP_AGAIN);
        live.send(&file[2]);
        live.begin();
        live.keep_setup(&file.concat());
        live.send(&file.concat());
        let mut bytes = [0; 2000];
        for wanted in [0, 1, 2, 0, 2, 0, 1, 2] {
            let count = receiver.recv(&mut bytes).unwrap();
            assert_eq!(bytes[4..count], file[wanted][..]);
        }
    }

    #[test]
    fn bytes_that_are_no_packets_are_left() {
        for wrong in [vec![], vec![1; 7], vec![0xff; 100], packet(5, 0, 24)[..20].to_vec()] {
            assert_eq!(packets(&wrong).count(), 0);
        }
    }

    #[test]
    fn an_address_is_sent_to_once_until_it_is_taken_out() {
        let mut live = Live::new(None).unwrap();
        let at = |port| SocketAddr::from(([127, 0, 0, 1], port));
        assert!(live.add(at(9)).unwrap() && !live.add(at(9)).unwrap() && live.is_on());
        assert!(!live.remove(Some(at(8))) && live.remove(Some(at(9))) && !live.is_on());
        assert!((0..MOST as u16).all(|it| live.add(at(100 + it)).unwrap()) && !live.add(at(99)).unwrap());
        assert!(live.remove(None) && !live.is_on());
    }
}
