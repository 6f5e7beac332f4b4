//! The bodies of packets of chapter 11, of the types that this recorder's kinds have: what messages are in them. docs/FORMAT.md has
//! their forms.
use time::{Date, Month};

use crate::clock;
use crate::kinds::{Head, Kind};

/// A message of a packet, with a count of its source's counter.
#[derive(Debug, PartialEq, Eq)]
pub struct Found<'a> {
    pub count: u64,
    pub head: Head,
    pub bytes: &'a [u8],
}

#[derive(Debug, PartialEq, Eq)]
pub enum Body<'a> {
    Messages(Kind, Vec<Found<'a>>),
    /// a civil time, in nanoseconds since 1970; none where it has digits of no time
    Time(Option<i128>),
    /// of a type, or in a form, that is not read
    Other,
    Bad(&'static str),
}

/// Reads the body of a packet of a type, whose counter is this.
pub fn read(kind: u8, counter: u64, body: &[u8]) -> Body<'_> {
    let Some((word, rest)) = body.split_first_chunk() else { return Body::Bad("it has no word") };
    let word = u32::from_le_bytes(*word);
    let kind = match kind {
        0x11 => return Body::Time(time(word, rest)),
        0x19 => Kind::Bus1553,
        0x29 => Kind::Discrete,
        0x30 if word >> 16 & 3 == 0 => Kind::Message,
        0x38 => Kind::Arinc,
        0x50 if word >> 31 == 1 => Kind::Uart,
        _ => return Body::Other,
    };
    let mut left = Bytes(rest);
    let (mut found, mut count) = (Vec::new(), counter);
    while !left.0.is_empty() {
        match message(kind, &mut count, &mut left) {
            Some(it) => found.push(it),
            None => return Body::Bad("a message in it is longer than it"),
        }
    }
    Body::Messages(kind, found)
}

/// Bytes that are taken from the front.
struct Bytes<'a>(&'a [u8]);

impl<'a> Bytes<'a> {
    fn take(&mut self, count: usize) -> Option<&'a [u8]> {
        let (front, rest) = self.0.split_at_checked(count)?;
        self.0 = rest;
        Some(front)
    }

    fn word(&mut self) -> Option<u32> {
        Some(u32::from_le_bytes(self.take(4)?.try_into().ok()?))
    }

    fn half(&mut self) -> Option<u16> {
        Some(u16::from_le_bytes(self.take(2)?.try_into().ok()?))
    }

    /// A stamp: six bytes of a count, and two more.
    fn stamp(&mut self) -> Option<u64> {
        Some(u64::from_le_bytes(self.take(8)?.try_into().ok()?) & (clock::COUNTS - 1))
    }

    /// So many bytes, and one more where they are odd, which may lack at the end.
    fn padded(&mut self, count: usize) -> Option<&'a [u8]> {
        let bytes = self.take(count)?;
        if count % 2 == 1 {
            let _ = self.take(1);
        }
        Some(bytes)
    }
}

/// The next message of a kind. `count` is that of the one before it.
fn message<'a>(kind: Kind, count: &mut u64, left: &mut Bytes<'a>) -> Option<Found<'a>> {
    let bit = |word: u32, it: u32| word >> it & 1 == 1;
    if kind != Kind::Arinc {
        *count = left.stamp()?;
    }
    let (head, bytes) = match kind {
        Kind::Uart => {
            let word = left.word()?;
            let head = Head::Uart { parity: bit(word, 31), sub: (word >> 16) as u16 & 0x3fff };
            (head, left.padded(word as usize & 0xffff)?)
        }
        Kind::Message => {
            let word = left.word()?;
            let head = Head::Message { data_error: bit(word, 31), format: bit(word, 30), sub: (word >> 16) as u16 & 0x3fff };
            (head, left.padded(word as usize & 0xffff)?)
        }
        Kind::Bus1553 => {
            let (status, gap_times, length) = (left.half()?, left.half()?, left.half()?);
            // (bits that the recorder has no place for are left out)
            (Head::Bus1553 { status: status & 0x3e38, gap_times }, left.take(length.into())?)
        }
        Kind::Arinc => {
            let (header, word) = (left.word()?, left.word()?);
            *count = (*count + u64::from(header & 0xf_ffff)) & (clock::COUNTS - 1);
            let bus = (header >> 24) as u8;
            (Head::Arinc { bus, format: bit(header, 23), parity: bit(header, 22), high: bit(header, 21), word }, &[][..])
        }
        Kind::Discrete => (Head::Discrete { states: left.word()? }, &[][..]),
    };
    Some(Found { count: *count, head, bytes })
}

/// The civil time of a time packet: with month and year, or with the day of this year.
fn time(word: u32, rest: &[u8]) -> Option<i128> {
    let mut left = Bytes(rest);
    let words = [left.half()?, left.half()?, left.half()?];
    let digits = |word: u16, from: u32, count: u32| -> Option<u16> {
        (0..count).rev().try_fold(0, |sum, at| {
            let digit = word >> (from + 4 * at) & 15;
            (digit < 10).then_some(10 * sum + digit)
        })
    };
    let (second, centi) = (digits(words[0] & 0x7fff, 8, 2)?, digits(words[0], 0, 2)?);
    let (hour, minute) = (digits(words[1] & 0x3fff, 8, 2)?, digits(words[1] & 0x3f7f, 0, 2)?);
    let date = if word >> 9 & 1 == 1 {
        let year = left.half()?;
        let year = digits(year & 0x3fff, 0, 4)?;
        let (month, day) = (digits(words[2] & 0x1fff, 8, 2)?, digits(words[2] & 0x3f, 0, 2)?);
        Date::from_calendar_date(year.into(), Month::try_from(month as u8).ok()?, day as u8).ok()?
    } else {
        Date::from_ordinal_date(clock::at(clock::now()).year(), digits(words[2] & 0x3ff, 0, 3)?).ok()?
    };
    let at = date.with_hms(hour as u8, minute as u8, second as u8).ok()?.assume_utc();
    Some(at.unix_timestamp_nanos() + i128::from(centi) * 10_000_000)
}

#[cfg(test)]
mod tests {
    use super::*;

    fn body(word: u32, rest: &[u8]) -> Vec<u8> {
        [&word.to_le_bytes()[..], rest].concat()
    }

    fn one(kind: u8, counter: u64, body: &[u8]) -> (Kind, Vec<(u64, Head, Vec<u8>)>) {
        match read(kind, counter, body) {
            Body::Messages(kind, found) => (kind, found.into_iter().map(|it| (it.count, it.head, it.bytes.to_vec())).collect()),
            other => panic!("{other:?}"),
        }
    }

    #[test]
    fn messages_of_each_kind() {
        let stamp = [7, 0, 0, 0, 0, 1, 0, 0];
        let count = 7 + (1u64 << 40);
        let wanted = (count, Head::Uart { parity: true, sub: 3 }, b"abc".to_vec());
        let text = [&stamp[..], &[3, 0, 3, 0x80], b"abc\0"].concat();
        assert_eq!(one(0x50, 0, &body(1 << 31, &text)), (Kind::Uart, vec![wanted]));
        let wanted = (count, Head::Message { data_error: false, format: true, sub: 3 }, b"ab".to_vec());
        assert_eq!(one(0x30, 0, &body(1, &[&stamp[..], &[2, 0, 3, 0x40], b"ab"].concat())), (Kind::Message, vec![wanted]));
        let wanted = (count, Head::Bus1553 { status: 0x2000, gap_times: 7 }, vec![0x42, 0x28]);
        let bus = [&stamp[..], &[0x40, 0x20, 7, 0, 2, 0, 0x42, 0x28]].concat();
        assert_eq!(one(0x19, 0, &body(1, &bus)), (Kind::Bus1553, vec![wanted]));
        let word =
            |count: u64, word: u32| (count, Head::Arinc { bus: 5, format: false, parity: true, high: true, word }, Vec::new());
        let words = [0, 0, 0x60, 5, 0xc1, 0, 0, 0, 9, 0, 0x60, 5, 0xc2, 0, 0, 0];
        assert_eq!(one(0x38, 100, &body(2, &words)), (Kind::Arinc, vec![word(100, 0xc1), word(109, 0xc2)]));
        let wanted = (count, Head::Discrete { states: 0x5a }, Vec::new());
        assert_eq!(one(0x29, 0, &body(0x40, &[&stamp[..], &[0x5a, 0, 0, 0]].concat())), (Kind::Discrete, vec![wanted]));
    }

    #[test]
    fn other_types_and_broken_ones() {
        assert_eq!(
            (read(0x40, 0, &[0; 4]), read(0x50, 0, &[0; 4]), read(0x30, 0, &[0, 0, 1, 0])),
            (Body::Other, Body::Other, Body::Other)
        );
        for (kind, rest) in [(0x19, 13), (0x29, 11), (0x30, 11), (0x38, 7), (0x50, 11)] {
            assert!(matches!(read(kind, 0, &body(if kind == 0x50 { 1 << 31 } else { 0 }, &vec![0; rest])), Body::Bad(_)), "{kind}");
        }
        assert!(matches!(read(0x19, 0, &[1]), Body::Bad(_)));
    }

    #[test]
    fn times_are_read() {
        let of = |word: u32, words: [u16; 4]| match read(0x11, 0, &body(word, &words.map(u16::to_le_bytes).concat())) {
            Body::Time(it) => it,
            other => panic!("{other:?}"),
        };
        let found = of(0x201, [0x5678, 0x1234, 0x0229, 0x2024]).unwrap();
        assert_eq!(clock::text(&clock::civil(clock::at(found))), "2024-02-29 12:34:56.78");
        let found = of(1, [0x5678, 0x1234, 0x0031, 0]).unwrap();
        assert_eq!(&clock::text(&clock::civil(clock::at(found)))[4..10], "-01-31");
        for wrong in [[0x6078, 0x1234, 0x0229, 0x2024], [0x5678, 0x1234, 0x0230, 0x2024], [0x5678, 0x1234, 0x022f, 0x2024]] {
            assert_eq!(of(0x201, wrong), None);
        }
    }
}
