//! The verdict on a file: whether it is as this recorder writes it.

use crate::index::{Book, Named, node, root};
use crate::message::{TENTH, agrees, split_bus, split_states, split_text, split_u32, split_word};
use crate::packet::{Flaw, HEADER, MOST, View};
use std::collections::HashMap;

/// How many bytes are judged at once.
pub const WINDOW: usize = MOST;

/// What is kept of a channel that has packets.
#[derive(Clone, Copy)]
struct Track {
    data_type: u8,
    sequence: u8,
    last: u64,
}

/// The entries of a body: how many they are, and their counts.
struct Tally {
    number: usize,
    first: u64,
    last: u64,
}

/// A group of nodes that stands at the end.
#[derive(Default)]
struct Group {
    nodes: Vec<u64>,
    /// How many packets are named.
    named: usize,
    /// The root before.
    link: Option<u64>,
    /// How many nodes each full group has.
    size: Option<usize>,
    ended: bool,
}

/// How far a file is judged, packet by packet.
pub struct Judge {
    tracks: HashMap<u16, Track>,
    book: Book,
    bytes: u64,
    time: u64,
    /// A loss report stands last, of this channel.
    report: Option<u16>,
    group: Group,
    most: usize,
    strict: bool,
    /// Room for an index packet as it should be.
    packet: Vec<u8>,
}

/// What a file is.
#[derive(Debug, PartialEq, Eq)]
pub enum Verdict {
    Strict,
    Lenient,
    Faulty(u64, Flaw),
}

/// Judges the bytes of a file.
pub fn check_file(bytes: &[u8]) -> Verdict {
    let mut judge = Judge::new(usize::MAX);
    let mut rest = bytes;
    while !rest.is_empty() {
        match judge.take(rest) {
            Ok(length) => rest = &rest[length..],
            Err(flaw) => return Verdict::Faulty(judge.bytes, flaw),
        }
    }
    let closed = judge.group.ended;
    match judge.finish(closed) {
        Some(_) => Verdict::Strict,
        None => Verdict::Lenient,
    }
}

impl Judge {
    /// Of no packets, with so many nodes in a group at most.
    pub fn new(most: usize) -> Judge {
        Judge {
            tracks: HashMap::new(),
            book: Book::default(),
            bytes: 0,
            time: 0,
            report: None,
            group: Group::default(),
            most,
            strict: true,
            packet: Vec::new(),
        }
    }

    /// Takes all whole packets of bytes, and answers how many bytes these have.
    pub fn take_all(&mut self, bytes: &[u8]) -> Result<usize, Flaw> {
        let mut done = 0;
        while done < bytes.len() {
            match self.take(&bytes[done..]) {
                Ok(length) => done += length,
                Err(Flaw::Truncated) => break,
                Err(flaw) => return Err(flaw),
            }
        }
        Ok(done)
    }

    /// Takes the packet that stands first in bytes, and answers its length.
    pub fn take(&mut self, bytes: &[u8]) -> Result<usize, Flaw> {
        let view = View::read(bytes)?;
        let own = view.header.version == 8
            && view.header.flags & 0xEC == 0
            && view.header.packet_len as usize <= MOST
            && view.is_least();
        let (kept, entries) = self.read(&view)?;
        self.strict &= own && kept;
        let header = &view.header;
        if header.data_type != 0x03 {
            let named = Named {
                counter: header.counter,
                offset: self.bytes,
                channel: header.channel,
                data_type: header.data_type,
            };
            self.book.add(named, entries);
        }
        self.bytes += u64::from(header.packet_len);
        Ok(header.packet_len as usize)
    }

    /// Whether a packet keeps the rules of body, start, channels, sequence numbers, counts, index and reports, and how many entries it
    /// has.
    fn read(&mut self, view: &View) -> Result<(bool, usize), Flaw> {
        let header = &view.header;
        let flagged = header.flags & 16 != 0;
        let answered = match self.report.take() {
            Some(channel) => flagged && channel == header.channel,
            None => true,
        };
        let start = match self.book.named().len() {
            0 => header.data_type == 0x01,
            1 => header.data_type == 0x11 && header.counter == self.book.named()[0].counter,
            _ => header.data_type != 0x01,
        };
        let (body, entries) = self.read_body(view)?;
        let fresh = Track {
            data_type: header.data_type,
            sequence: 0,
            last: 0,
        };
        let last = match &body {
            Some(tally) => tally.last,
            None => 0,
        };
        let track = self.tracks.entry(header.channel).or_insert(fresh);
        let sequence = track.sequence == header.sequence;
        let data_type = track.data_type == header.data_type || header.channel == 0;
        let own = matches!(header.data_type, 0x00 | 0x01 | 0x03);
        let channel = data_type && own == (header.channel == 0);
        let unflagged = !flagged || !(own || matches!(header.data_type, 0x02 | 0x11));
        let unchecked = header.flags & 3 == 0 || !(own || matches!(header.data_type, 0x02 | 0x11));
        let counts = match &body {
            Some(tally) if tally.number > 0 => {
                header.counter == tally.first
                    && track.last <= tally.first
                    && tally.first <= tally.last
                    && tally.last - tally.first <= TENTH
            }
            Some(_) => true,
            None => false,
        };
        track.sequence = header.sequence.wrapping_add(1);
        track.last = track.last.max(last);
        let behind = self.group.nodes.is_empty() && !self.group.ended || header.data_type == 0x03;
        let kept =
            answered && start && sequence && channel && unflagged && unchecked && counts && behind;
        Ok((kept, entries))
    }

    /// The entries of a body, where it is one of this recorder's, and how many they are.
    fn read_body(&mut self, view: &View) -> Result<(Option<Tally>, usize), Flaw> {
        let header = &view.header;
        let (word, rest) = split_u32(view.body).ok_or(Flaw::Body)?;
        let none = Tally {
            number: 0,
            first: 0,
            last: 0,
        };
        match header.data_type {
            0x00 => {
                let (letters, told) = rest.split_at_checked(4).ok_or(Flaw::Body)?;
                let told: [u8; 12] = told.try_into().map_err(|_| Flaw::Body)?;
                self.report = Some(u16::from_le_bytes([told[0], told[1]]));
                let right =
                    word == 0 && letters == b"LOSS" && told[2..4] == [0, 0] && told[4..] != [0; 8];
                Ok(((right && header.counter == self.time).then_some(none), 0))
            }
            0x01 => Ok(((word == 0x0C).then_some(none), 0)),
            0x03 => {
                let right = if word >> 31 == 1 {
                    self.is_node(view)
                } else {
                    self.is_root(view)
                };
                Ok(((right && header.counter == self.time).then_some(none), 0))
            }
            0x11 => {
                if rest.len() != 8 {
                    return Err(Flaw::Body);
                }
                self.time = header.counter;
                let right = matches!(word, 0x201 | 0x301);
                let one = Tally {
                    number: 1,
                    first: header.counter,
                    last: header.counter,
                };
                Ok((right.then_some(one), 1))
            }
            0x50 | 0x30 => {
                let uart = header.data_type == 0x50;
                let tally = scan_text(rest, uart)?;
                let right = match &tally {
                    Some(tally) if uart => word == 0x8000_0000 && tally.number > 0,
                    Some(tally) => word as usize == tally.number && tally.number > 0,
                    None => false,
                };
                let number = tally.as_ref().map_or(0, |tally| tally.number);
                Ok((tally.filter(|_| right), number))
            }
            data_type => {
                let read = match data_type {
                    0x19 => scan(rest, header.counter, |_, bytes| {
                        split_bus(bytes).map(|(count, .., rest)| (count, 0, rest))
                    }),
                    0x29 => scan(rest, header.counter, |_, bytes| split_states(bytes)),
                    0x38 => scan(rest, header.counter, |before, bytes| {
                        split_word(before, bytes).map(|(count, _, _, rest)| (count, 0, rest))
                    }),
                    _ => None,
                };
                let right = |(tally, states): &(Tally, u32)| {
                    tally.number > 0 && agrees(data_type, word, tally.number, *states)
                };
                let tally = read.filter(right).map(|(tally, _)| tally);
                let number = tally.as_ref().map_or(0, |tally| tally.number);
                Ok((tally, number))
            }
        }
    }

    /// Whether a node names the next hundred packets, or the last of them.
    fn is_node(&mut self, view: &View) -> bool {
        let group = &mut self.group;
        let left = &self.book.named()[group.named..];
        let entries = &left[..left.len().min(100)];
        node(entries, &mut self.packet);
        group.nodes.push(self.bytes);
        group.named += entries.len();
        group.ended = false;
        !entries.is_empty() && self.packet[HEADER..] == *view.body
    }

    /// Whether a root names the nodes before it, and the root before.
    fn is_root(&mut self, view: &View) -> bool {
        let group = &mut self.group;
        let size = *group.size.get_or_insert(group.nodes.len());
        root(
            self.time,
            &group.nodes,
            group.link.unwrap_or(self.bytes),
            &mut self.packet,
        );
        let all = group.named == self.book.named().len();
        let right = self.packet[HEADER..] == *view.body
            && !group.nodes.is_empty()
            && (group.nodes.len() == size || all && group.nodes.len() < size)
            && size <= self.most;
        group.nodes.clear();
        group.link = Some(self.bytes);
        group.ended = all;
        right
    }

    /// The book of the packets, where they are a file of this recorder's that is closed or not.
    pub fn finish(self, closed: bool) -> Option<Book> {
        let whole = if closed {
            self.group.ended
        } else {
            self.group.link.is_none() && self.group.nodes.is_empty()
        };
        let begun = self.book.named().len() >= 2;
        (self.strict && whole && begun && self.report.is_none()).then_some(self.book)
    }
}

/// What entries come to that are split off the front one by one, each behind the count before, and the states that are set in any of them;
/// `None` where they aren't this recorder's.
fn scan(
    bytes: &[u8],
    counter: u64,
    split: impl Fn(u64, &[u8]) -> Option<(u64, u32, &[u8])>,
) -> Option<(Tally, u32)> {
    let mut tally = Tally {
        number: 0,
        first: 0,
        last: 0,
    };
    let (mut rest, mut before, mut states) = (bytes, counter, 0);
    while !rest.is_empty() {
        let (count, set, behind) = split(before, rest)?;
        if count < tally.last {
            return None;
        }
        if tally.number == 0 {
            tally.first = count;
        }
        tally.last = count;
        tally.number += 1;
        states |= set;
        (rest, before) = (behind, count);
    }
    Some((tally, states))
}

/// What the entries of a UART or message channel come to; `None` where they aren't this recorder's, and a flaw where they are
/// no recorder's.
fn scan_text(bytes: &[u8], uart: bool) -> Result<Option<Tally>, Flaw> {
    let mut tally = Tally {
        number: 0,
        first: 0,
        last: 0,
    };
    let mut rest = bytes;
    while !rest.is_empty() {
        let Some((count, header, _, behind)) = split_text(rest) else {
            return foreign(rest);
        };
        if uart && header >> 30 & 1 == 1 || count < tally.last {
            return foreign(rest);
        }
        if tally.number == 0 {
            tally.first = count;
        }
        tally.last = count;
        tally.number += 1;
        rest = behind;
    }
    Ok(Some(tally))
}

/// A body that isn't this recorder's: whether its lengths lead to its end.
fn foreign(bytes: &[u8]) -> Result<Option<Tally>, Flaw> {
    let mut rest = bytes;
    while !rest.is_empty() {
        let (front, behind) = rest.split_first_chunk::<12>().ok_or(Flaw::Body)?;
        let size = usize::from(u16::from_le_bytes([front[8], front[9]])).next_multiple_of(2);
        rest = behind.get(size..).ok_or(Flaw::Body)?;
    }
    Ok(None)
}
