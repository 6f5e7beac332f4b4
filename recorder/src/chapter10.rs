//! Packets of chapter 10 that come by UDP, in transfer formats 1 and 3: what of them are messages of this recorder's kinds is recorded,
//! with the times that they have.
//!
//! The transfer headers are as chapter 10 has them as far as known here; they were not compared with its text.
use std::collections::BTreeMap;
use std::net::SocketAddr;
use std::sync::atomic::Ordering::Relaxed;
use std::time::Duration;

use crate::bodies::{self, Body};
use crate::feed::Feed;
use crate::header::{counts, within};
use crate::inputs::Seldom;
use crate::losses::Cause;
use crate::settings::Channel;
use crate::stamps::{Civil, Source};

/// The bytes of a packet's header.
const HEADER: usize = 24;
/// The bytes of a secondary header.
const SECONDARY: usize = 12;
/// The longest packet; the standard lets a setup packet be longer, which is not read here.
const LONGEST: usize = 524_288;
/// So many sources, and parts of packets of one, are kept. Where more come all are heard anew.
const MOST: usize = 64;

/// What is kept of a source.
#[derive(Default)]
struct Heard {
    source: Source,
    /// the number that its next datagram has
    next: Option<u32>,
    /// by the packets' channel, the number that the next packet has
    packets: BTreeMap<u16, u8>,
    /// by the packets' channel, the front of a packet that came in segments
    parts: BTreeMap<u16, Vec<u8>>,
    /// the front of a packet of a stream (format 3); none where a packet's begin is looked for
    stream: Option<Vec<u8>>,
}

pub struct Reader {
    limit: u64,
    civil: Civil,
    heard: BTreeMap<Option<SocketAddr>, Heard>,
    bad: Seldom,
    refused: Seldom,
}

/// A whole packet, whose header is right.
struct Packet<'a> {
    channel: u16,
    sequence: u8,
    flags: u8,
    kind: u8,
    counter: u64,
    body: &'a [u8],
}

impl Packet<'_> {
    /// Of bytes that begin with a packet and may go on: the packet, and its length. None where its end did not come yet.
    fn read(bytes: &[u8]) -> Result<Option<(Packet<'_>, usize)>, &'static str> {
        let Some(head) = bytes.get(..HEADER) else { return Ok(None) };
        let u16_at = |at: usize| u16::from_le_bytes([head[at], head[at + 1]]);
        let u32_at = |at: usize| usize::from(u16_at(at)) | usize::from(u16_at(at + 2)) << 16;
        if u16_at(0) != 0xeb25 {
            return Err("a packet does not begin with its pattern");
        }
        if (0..11).fold(0u16, |sum, at| sum.wrapping_add(u16_at(2 * at))) != u16_at(22) {
            return Err("the checksum of a packet's header is wrong");
        }
        let (length, data, flags) = (u32_at(4), u32_at(8), head[14]);
        let before = HEADER + if flags & 0x80 != 0 { SECONDARY } else { 0 };
        if length > LONGEST || !length.is_multiple_of(4) || before + data > length {
            return Err("a packet has a length that none may have");
        }
        let Some(whole) = bytes.get(..length) else { return Ok(None) };
        if !is_summed(&whole[before..], flags & 3) {
            return Err("the checksum of a packet's data is wrong");
        }
        let counter = (u32_at(16) as u64) | u64::from(u16_at(20)) << 32;
        let body = &whole[before..before + data];
        Ok(Some((Packet { channel: u16_at(2), sequence: head[13], flags, kind: head[15], counter, body }, length)))
    }
}

/// Whether the sum at the end of a packet's data, of none or of 8, 16 or 32 bits, is that of all before it.
fn is_summed(bytes: &[u8], kind: u8) -> bool {
    let width = [0, 1, 2, 4][usize::from(kind)];
    let Some(at) = bytes.len().checked_sub(width) else { return false };
    let word = |it: &[u8]| it.iter().rev().fold(0u32, |sum, byte| sum << 8 | u32::from(*byte));
    if width == 0 {
        return true;
    }
    let mask = if width == 4 { u32::MAX } else { (1 << (8 * width)) - 1 };
    let sum = bytes[..at].chunks(width).fold(0u32, |sum, it| sum.wrapping_add(word(it)));
    sum & mask == word(&bytes[at..])
}

impl Reader {
    pub fn new(feed: &Feed, limit: Duration) -> Reader {
        Reader {
            limit: counts(limit),
            civil: Civil::new(feed.counter()),
            heard: BTreeMap::new(),
            bad: Seldom::default(),
            refused: Seldom::default(),
        }
    }

    /// A datagram came at a count.
    pub fn datagram(&mut self, feed: &mut Feed, channels: &[Channel], from: Option<SocketAddr>, arrival: u64, bytes: &[u8]) {
        self.civil.look();
        if !self.heard.contains_key(&from) && self.heard.len() >= MOST {
            self.heard.clear();
        }
        let mut heard = self.heard.remove(&from).unwrap_or_default();
        let done = self.transfer(&mut heard, feed, channels, arrival, bytes);
        self.heard.insert(from, heard);
        if let Err(why) = done {
            feed.bad(0);
            let id = channels.first().map_or(0, |it| it.id);
            self.bad.warn(|| format!("channel {id}: a datagram of {} bytes is none of chapter 10: {why}", bytes.len()));
        }
    }

    fn transfer(
        &mut self,
        heard: &mut Heard,
        feed: &mut Feed,
        channels: &[Channel],
        arrival: u64,
        bytes: &[u8],
    ) -> Result<(), &'static str> {
        let (word, rest) = bytes.split_first_chunk().ok_or("it has no header")?;
        let word = u32::from_le_bytes(*word);
        match word & 15 {
            1 => {
                let number = word >> 8;
                heard.next = Some((number + 1) & 0xff_ffff);
                match word >> 4 & 15 {
                    0 => self.packets(heard, feed, channels, arrival, rest).and_then(|left| {
                        if left == 0 { Ok(()) } else { Err("a packet is longer than the datagram, and is no segment") }
                    }),
                    1 => self.segment(heard, feed, channels, arrival, rest),
                    _ => Err("it is neither whole nor a segment"),
                }
            }
            3 => {
                let (number, payload) = rest.split_first_chunk().ok_or("it has no sequence number")?;
                // the upper digits may be the source's
                let bits = 32 - 4 * (word >> 4 & 15).min(7);
                let mask = if bits == 32 { u32::MAX } else { (1 << bits) - 1 };
                let number = u32::from_le_bytes(*number) & mask;
                if heard.next.replace(number.wrapping_add(1) & mask) != Some(number) {
                    heard.stream = None;
                }
                self.stream(heard, feed, channels, arrival, payload, (word >> 16) as u16)
            }
            _ => Err("it is of no transfer format that is read, 1 or 3"),
        }
    }

    /// Packets end to end. How many bytes at the end are the front of one.
    fn packets(
        &mut self,
        heard: &mut Heard,
        feed: &mut Feed,
        channels: &[Channel],
        arrival: u64,
        mut bytes: &[u8],
    ) -> Result<usize, &'static str> {
        while let Some((packet, length)) = Packet::read(bytes)? {
            self.packet(heard, feed, channels, arrival, &packet);
            // (a packet of no bytes would be read for ever)
            bytes = &bytes[length.max(HEADER).min(bytes.len())..];
        }
        Ok(bytes.len())
    }

    /// A part of a packet, from an offset on. One that is missed is told by the packets' own numbers.
    fn segment(
        &mut self,
        heard: &mut Heard,
        feed: &mut Feed,
        channels: &[Channel],
        arrival: u64,
        bytes: &[u8],
    ) -> Result<(), &'static str> {
        let (head, part) = bytes.split_at_checked(8).ok_or("a segment has no header")?;
        let channel = u16::from_le_bytes([head[0], head[1]]);
        let offset = u32::from_le_bytes([head[4], head[5], head[6], head[7]]) as usize;
        if heard.parts.len() >= MOST && !heard.parts.contains_key(&channel) {
            heard.parts.clear();
        }
        let mut front = heard.parts.remove(&channel).unwrap_or_default();
        if offset == 0 {
            front.clear();
        } else if offset != front.len() || front.is_empty() {
            return Err("a segment before it is missing");
        }
        front.extend_from_slice(part);
        if front.len() > LONGEST {
            return Err("a packet has a length that none may have");
        }
        if self.packets(heard, feed, channels, arrival, &front)? > 0 {
            heard.parts.insert(channel, front);
        }
        Ok(())
    }

    /// A part of a stream of packets, whose first packet begins at an offset. After a loss it is read from there on.
    fn stream(
        &mut self,
        heard: &mut Heard,
        feed: &mut Feed,
        channels: &[Channel],
        arrival: u64,
        bytes: &[u8],
        offset: u16,
    ) -> Result<(), &'static str> {
        let whole = match heard.stream.take() {
            Some(mut front) => {
                front.extend_from_slice(bytes);
                front
            }
            None if usize::from(offset) < bytes.len() => bytes[usize::from(offset)..].to_vec(),
            None => return Ok(()),
        };
        let left = self.packets(heard, feed, channels, arrival, &whole)?;
        heard.stream = Some(whole[whole.len() - left..].to_vec());
        Ok(())
    }

    fn packet(&mut self, heard: &mut Heard, feed: &mut Feed, channels: &[Channel], arrival: u64, packet: &Packet) {
        let other = |feed: &Feed| _ = feed.came(0).map(|it| it.others.fetch_add(1, Relaxed));
        let place = channels.iter().position(|it| it.source == packet.channel);
        // stamps in a form that is none of the counter's are not read
        let body = if packet.flags & 0x40 != 0 { Body::Other } else { bodies::read(packet.kind, packet.counter, packet.body) };
        let messages = match (body, place) {
            (Body::Time(time), _) => {
                if let Some(time) = time {
                    let at = self.civil.count_at(time);
                    if at.abs_diff(arrival) <= self.limit {
                        heard.source.tie(packet.counter, at);
                    } else {
                        let off = (at as f64 - arrival as f64) / 1e7;
                        self.refused
                            .warn(|| format!("a time packet is {off:+.3} s from its arrival (stamp_limit_ms), and is not taken"));
                    }
                }
                return other(feed);
            }
            (Body::Messages(kind, messages), Some(place)) if channels[place].kind == kind => (place, messages),
            (Body::Bad(why), Some(place)) => {
                feed.bad(place);
                return self.bad.warn(|| format!("a packet of channel {} is not read: {why}", packet.channel));
            }
            _ => return other(feed),
        };
        let (place, messages) = messages;
        // how many messages a missing packet had is not known: it is counted as one
        let missed =
            heard.packets.insert(packet.channel, packet.sequence.wrapping_add(1)).map_or(0, |it| packet.sequence.wrapping_sub(it));
        feed.lost(place, Cause::Line, missed.into());
        for it in messages {
            let stamp = heard.source.count_of(it.count);
            let count = within(stamp, arrival, self.limit, feed, place, &mut self.refused, channels[place].id);
            feed.message_at(place, 0, count, it.head, it.bytes);
        }
    }
}

#[cfg(test)]
mod tests {
    use std::sync::Arc;

    use super::*;
    use crate::clock::{self, Counter};
    use crate::feed::{Came, Outlet, feed};

    fn packet(channel: u16, sequence: u8, kind: u8, counter: u64, body: &[u8]) -> Vec<u8> {
        let mut it = vec![0x25, 0xeb];
        it.extend(channel.to_le_bytes());
        it.extend(((HEADER + body.len()).next_multiple_of(4) as u32).to_le_bytes());
        it.extend((body.len() as u32).to_le_bytes());
        it.extend([8, sequence, 0, kind]);
        it.extend(&counter.to_le_bytes()[..6]);
        let sum = it.chunks(2).fold(0u16, |sum, it| sum.wrapping_add(u16::from_le_bytes([it[0], it[1]])));
        it.extend(sum.to_le_bytes());
        it.extend(body);
        it.resize(it.len().next_multiple_of(4), 0);
        it
    }

    fn uart(counter: u64, text: &[u8]) -> Vec<u8> {
        let mut it = vec![0, 0, 0, 0x80];
        it.extend(counter.to_le_bytes());
        it.extend((text.len() as u32).to_le_bytes());
        it.extend(text);
        it.resize(it.len().next_multiple_of(2), 0);
        it
    }

    struct Tried {
        reader: Reader,
        feed: Feed,
        outlet: Outlet,
        came: Arc<Came>,
        channels: Vec<Channel>,
    }

    fn tried() -> Tried {
        let text = "medium = \"m\"\nblocks = 99\nvolume = \"V\"\n[control]\nsocket = \"c\"\n[[channel]]\nid = 5\nkind = \"uart\"\n";
        let mut channels = crate::settings::read(text, std::path::Path::new("/")).unwrap().channels;
        channels[0].source = 9;
        let came: Arc<Came> = Arc::default();
        let (feed, outlet) = feed(std::thread::current(), Counter::new(), 1 << 20, &[(0, came.clone())]);
        Tried { reader: Reader::new(&feed, Duration::from_secs(1)), feed, outlet, came, channels }
    }

    impl Tried {
        fn send(&mut self, arrival: u64, bytes: &[u8]) {
            self.reader.datagram(&mut self.feed, &self.channels, None, arrival, bytes);
        }

        /// Count, losses and bytes of what came.
        fn found(&mut self) -> Vec<(u64, u64, Vec<u8>)> {
            self.feed.flush();
            let Some(batch) = self.outlet.take() else { return Vec::new() };
            let mut at = 0;
            let item = |it: &crate::feed::Item| {
                at += it.length as usize;
                (it.count, it.lost, batch.bytes[at - it.length as usize..at].to_vec())
            };
            batch.items.iter().map(item).collect()
        }
    }

    fn format1(number: u32, bytes: &[u8]) -> Vec<u8> {
        [&(1 | number << 8).to_le_bytes()[..], bytes].concat()
    }

    #[test]
    fn packets_come_whole_in_segments_and_as_a_stream() {
        let mut it = tried();
        let now = it.feed.counter().count();
        let long = packet(9, 2, 0x50, 0, &uart(0, &[7; 3000]));
        it.send(now, &format1(0, &[packet(9, 0, 0x50, 0, &uart(0, b"one")), packet(9, 1, 0x50, 0, &uart(0, b"two"))].concat()));
        for (n, part) in long.chunks(1000).enumerate() {
            let head = [&(0x11 | (1 + n as u32) << 8).to_le_bytes()[..], &[9, 0, 2, 0], &(1000 * n as u32).to_le_bytes()].concat();
            it.send(now + 100, &[&head[..], part].concat());
        }
        let texts: Vec<_> = it.found().into_iter().map(|it| (it.2.len(), it.1)).collect();
        assert_eq!(texts, [(3, 0), (3, 0), (3000, 0)]);
        // format 3: a stream that is cut anywhere, with a source of eight bits before a number of 24
        let stream = [packet(9, 3, 0x50, 0, &uart(0, &[1; 400])), packet(9, 4, 0x50, 0, &uart(0, &[2; 500]))].concat();
        let first = packet(9, 3, 0x50, 0, &uart(0, &[1; 400])).len();
        let datagram = |number: u32, offset: usize, part: &[u8]| {
            [&(3 | 2 << 4 | (offset as u32) << 16).to_le_bytes()[..], &(0xab << 24 | number).to_le_bytes(), part].concat()
        };
        it.send(now + 200, &datagram(0xff_ffff, 0, &stream[..300]));
        it.send(now + 200, &datagram(0, first - 300, &stream[300..600]));
        it.send(now + 200, &datagram(1, 0xffff, &stream[600..]));
        assert_eq!(it.found().into_iter().map(|it| it.2.len()).collect::<Vec<_>>(), [400, 500]);
        // a datagram is missing: what begins after it is read, and the packet's number tells the loss
        let stream = [stream, packet(9, 6, 0x50, 0, &uart(0, &[3; 600]))].concat();
        it.send(now + 300, &datagram(7, stream.len() - 600 - HEADER - 16 - 300, &stream[300..]));
        assert_eq!(it.found().into_iter().map(|it| (it.2.len(), it.1)).collect::<Vec<_>>(), [(600, 1)]);
        assert_eq!(it.came.bad.load(Relaxed), 0);
    }

    /// A time packet ties the source's counter; before it the arrival counts. Other types are counted.
    #[test]
    fn messages_have_their_times() {
        let mut it = tried();
        let now = it.feed.counter().count() + 10_000_000;
        it.send(now, &format1(0, &packet(9, 0, 0x50, 500, &uart(500, b"a"))));
        // the time of this counter, to the hundredth
        let civil = clock::civil(clock::at(clock::now() + 1_000_000_000));
        let bcd = |it: u16| ((it / 10) << 4) | (it % 10);
        let words = [
            bcd(civil.second) << 8 | bcd(civil.centi),
            bcd(civil.hour) << 8 | bcd(civil.minute),
            bcd(civil.month) << 8 | bcd(civil.day),
            bcd(civil.year / 100) << 8 | bcd(civil.year % 100),
        ];
        let mut body = vec![1, 2, 0, 0];
        words.iter().for_each(|it| body.extend(it.to_le_bytes()));
        it.send(now, &format1(1, &packet(1, 0, 0x11, 40_000_000, &body)));
        it.send(now + 1000, &format1(2, &packet(9, 1, 0x50, 40_001_000, &uart(40_002_000, b"b"))));
        it.send(now + 2000, &format1(3, &packet(9, 2, 0x40, 0, b"video of no kind")));
        it.send(now + 2000, &format1(3, &packet(8, 2, 0x50, 0, &uart(500, b"of another channel"))));
        let found = it.found();
        assert_eq!((found.len(), found[0].0), (2, now));
        // (a test may have to wait for a processor)
        assert!(found[1].0.abs_diff(now + 2000) < 400_000, "{now} {found:?}");
        assert_eq!((it.came.others.load(Relaxed), it.came.unstamped.load(Relaxed), it.came.bad.load(Relaxed)), (3, 0, 0));
    }

    #[test]
    fn what_is_no_datagram_of_chapter_10_is_counted() {
        let mut it = tried();
        let good = packet(9, 0, 0x50, 0, &uart(0, b"good"));
        let mut wrong = vec![vec![], vec![2, 0, 0, 0], vec![3, 0, 0, 0], vec![0x21, 0, 0, 0], vec![0x11, 0, 0, 0, 1]];
        wrong.push(format1(0, &good[..good.len() - 1]));
        wrong.push([&[0x11, 0, 0, 0, 9, 0, 0, 0, 4, 0, 0, 0][..], &good].concat());
        for at in [0, 4, 8, 22] {
            let mut it = good.clone();
            it[at] ^= 2;
            wrong.push(format1(0, &it));
        }
        // a message that is longer than its packet
        wrong.push(format1(0, &packet(9, 0, 0x50, 0, &uart(0, b"good")[..10])));
        wrong.iter().for_each(|bytes| it.send(1, bytes));
        assert_eq!((it.found().len(), it.came.bad.load(Relaxed)), (0, wrong.len() as u64));
        it.send(1, &format1(0, &good));
        assert_eq!(it.found().len(), 1);
    }

    #[test]
    fn sums_are_of_the_words() {
        assert!(is_summed(&[1, 2, 3], 0) && is_summed(&[1, 2, 3], 1) && is_summed(&[255, 2, 1], 1));
        assert!(is_summed(&[1, 2, 3, 4, 4, 6], 2) && is_summed(&[1, 2, 3, 4, 1, 2, 3, 4], 3));
        assert!(!is_summed(&[1, 2, 4], 1) && !is_summed(&[1, 2, 3, 4, 4, 7], 2) && !is_summed(&[1], 2));
    }
}
