//! The kinds of channels. What depends on a kind alone stands here: its name, its settings, what of a datagram or a line is a
//! message, how that is offered, and how an entry prints. Each function has a case for each kind: one that lacks a part does not
//! compile.
use std::fmt::Write;
use std::ops::RangeInclusive;

use r10::{Content, Message, Recorder, Refusal as Refused};
use serde::Deserialize;

use crate::clock;
use crate::entries::to_hex;

/// A kind of channels.
#[derive(Clone, Copy, Debug, PartialEq, Eq)]
pub enum Kind {
    Uart,
    Bus1553,
    Arinc,
    Discrete,
    // (it stays the last one: the list of all has as many as its place says)
    Message,
}

/// What a message has besides its bytes.
#[derive(Clone, Copy, Debug, PartialEq, Eq)]
pub enum Head {
    Uart { parity: bool, sub: u16 },
    Bus1553 { status: u16, gap_times: u16 },
    Arinc { bus: u8, format: bool, parity: bool, high: bool, word: u32 },
    Discrete { states: u32 },
    Message { data_error: bool, format: bool, sub: u16 },
}

/// A line's keys are those of a script's step `offer`: which of them there are depends on the kind of the channel.
#[derive(Deserialize, Default)]
#[serde(deny_unknown_fields, default)]
pub struct Keys {
    pub r#do: Option<String>,
    pub channel: Option<u16>,
    #[allow(dead_code, reason = "a script's offers have it; here the recorder's clock gives the count")]
    count: Option<u64>,
    pub kind: Option<String>,
    parity: Option<bool>,
    sub: Option<u16>,
    bytes: Option<String>,
    status: Option<u16>,
    gap: Option<u16>,
    words: Option<String>,
    bus: Option<u8>,
    format: Option<bool>,
    high: Option<bool>,
    data: Option<Data>,
    states: Option<u32>,
}

/// `data` is a word of ARINC 429, or whether a message has a data error.
#[derive(Deserialize)]
#[serde(untagged)]
enum Data {
    IsWrong(bool),
    Word(u32),
}

/// The subchannels of a channel whose messages are bytes.
pub const SUBS: RangeInclusive<u64> = 0..=16_383;

/// The most words of a message of a bus.
const MOST_WORDS: usize = 36;

impl Kind {
    pub const ALL: [Kind; Kind::Message as usize + 1] = [Kind::Uart, Kind::Bus1553, Kind::Arinc, Kind::Discrete, Kind::Message];

    /// As a script names it.
    pub fn name(self) -> &'static str {
        match self {
            Kind::Uart => "uart",
            Kind::Bus1553 => "1553",
            Kind::Arinc => "arinc",
            Kind::Discrete => "discrete",
            Kind::Message => "message",
        }
    }

    /// Its name after "a" or "an".
    pub fn with_article(self) -> String {
        let article = if self.name().starts_with(['a', 'e', 'i', 'o']) { "an" } else { "a" };
        format!("{article} {}", self.name())
    }

    pub fn of(name: &str) -> Option<Kind> {
        Kind::ALL.into_iter().find(|it| it.name() == name)
    }

    /// Whether its messages are bytes: so a serial line can be its input, and a channel has a subchannel among its settings.
    pub fn is_bytes(self) -> bool {
        match self {
            Kind::Uart | Kind::Message => true,
            Kind::Bus1553 | Kind::Arinc | Kind::Discrete => false,
        }
    }

    /// How many bits its messages may have, where a channel has to say by the setting `bits` how many they are.
    pub fn bits(self) -> Option<RangeInclusive<u64>> {
        match self {
            Kind::Discrete => Some(1..=31),
            Kind::Uart | Kind::Bus1553 | Kind::Arinc | Kind::Message => None,
        }
    }

    /// The keys that a line may have, in the order in which an entry has their values.
    pub fn keys(self) -> &'static [&'static str] {
        match self {
            Kind::Uart => &["parity", "sub", "bytes"],
            Kind::Bus1553 => &["status", "gap", "words"],
            Kind::Arinc => &["bus", "format", "parity", "high", "data"],
            Kind::Discrete => &["states"],
            Kind::Message => &["data", "format", "sub", "bytes"],
        }
    }

    /// What the bytes of a datagram or a serial line are: a message, and how many of them go with it; or none. The bytes of a word
    /// come with the low one first, as in the file.
    pub fn of_bytes(self, bytes: &[u8], sub: u16) -> Option<(Head, usize)> {
        let word = || Some(u32::from_le_bytes(bytes.try_into().ok()?));
        Some(match self {
            Kind::Uart => (Head::Uart { parity: false, sub }, bytes.len()),
            Kind::Message => (Head::Message { data_error: false, format: false, sub }, bytes.len()),
            Kind::Bus1553 if bytes.len().is_multiple_of(2) && bytes.len() <= 2 * MOST_WORDS => {
                (Head::Bus1553 { status: 0, gap_times: 0 }, bytes.len())
            }
            Kind::Bus1553 => return None,
            Kind::Arinc => (Head::Arinc { bus: 0, format: false, parity: false, high: false, word: word()? }, 0),
            Kind::Discrete => (Head::Discrete { states: word()? }, 0),
        })
    }

    /// What follows the header of a datagram is, with the header's words for this kind: a message, and how many of the bytes go with it;
    /// or none.
    pub fn of_header(self, bytes: &[u8], sub: u16, word: u32) -> Option<(Head, usize)> {
        let (head, length) = self.of_bytes(bytes, sub)?;
        let bit = |it: u32| word >> it & 1 == 1;
        let (head, used) = match head {
            Head::Uart { sub, .. } => (Head::Uart { parity: bit(0), sub }, 1),
            Head::Bus1553 { .. } => (Head::Bus1553 { status: word as u16, gap_times: (word >> 16) as u16 }, 32),
            Head::Arinc { word: data, .. } => {
                (Head::Arinc { bus: word as u8, high: bit(8), parity: bit(9), format: bit(10), word: data }, 11)
            }
            Head::Discrete { .. } => (head, 0),
            Head::Message { sub, .. } => (Head::Message { data_error: bit(0), format: bit(1), sub }, 2),
        };
        // what has no meaning is 0, so that it may have one later
        (word.checked_shr(used).unwrap_or(0) == 0 && (sub == 0 || self.is_bytes())).then_some((head, length))
    }

    /// What a line with these keys is: a message with its bytes, or why it is none.
    pub fn of_line(self, keys: &Keys) -> Result<(Head, Vec<u8>), String> {
        if let Some((key, _)) = keys.given().iter().find(|(key, is_there)| *is_there && !self.keys().contains(key)) {
            return Err(format!("a message of kind {} has no key {key}", self.name()));
        }
        let hex = |text: &Option<String>| {
            text.as_deref().map_or(Ok(Vec::new()), hex::decode).map_err(|_| "bytes and words are pairs of hex digits")
        };
        let (sub, flag) = (keys.sub.unwrap_or(0), |it: Option<bool>| it.unwrap_or(false));
        Ok(match self {
            Kind::Uart => (Head::Uart { parity: flag(keys.parity), sub }, hex(&keys.bytes)?),
            Kind::Bus1553 => {
                // four digits a word, the high ones first; messages keep their words with the low byte first
                let mut bytes = hex(&keys.words)?;
                if bytes.len() % 2 == 1 {
                    return Err("a word has four hex digits".to_string());
                }
                bytes.chunks_mut(2).for_each(|it| it.swap(0, 1));
                (Head::Bus1553 { status: keys.status.unwrap_or(0), gap_times: keys.gap.unwrap_or(0) }, bytes)
            }
            Kind::Arinc => {
                let word = match keys.data {
                    Some(Data::Word(word)) => word,
                    Some(Data::IsWrong(_)) => return Err("data of an ARINC word is a number".to_string()),
                    None => 0,
                };
                let (format, parity, high) = (flag(keys.format), flag(keys.parity), flag(keys.high));
                (Head::Arinc { bus: keys.bus.unwrap_or(0), format, parity, high, word }, Vec::new())
            }
            Kind::Discrete => (Head::Discrete { states: keys.states.unwrap_or(0) }, Vec::new()),
            Kind::Message => {
                let data_error = match keys.data {
                    Some(Data::IsWrong(is_wrong)) => is_wrong,
                    Some(Data::Word(_)) => return Err("data of a message is true or false".to_string()),
                    None => false,
                };
                (Head::Message { data_error, format: flag(keys.format), sub }, hex(&keys.bytes)?)
            }
        })
    }
}

impl Keys {
    /// Of the keys that not all kinds have, which are given.
    fn given(&self) -> [(&'static str, bool); 11] {
        [
            ("parity", self.parity.is_some()),
            ("sub", self.sub.is_some()),
            ("bytes", self.bytes.is_some()),
            ("status", self.status.is_some()),
            ("gap", self.gap.is_some()),
            ("words", self.words.is_some()),
            ("bus", self.bus.is_some()),
            ("format", self.format.is_some()),
            ("high", self.high.is_some()),
            ("data", self.data.is_some()),
            ("states", self.states.is_some()),
        ]
    }
}

impl Head {
    /// Offers the message with these bytes to the recorder.
    pub fn offer(self, recorder: &mut Recorder, channel: u16, count: u64, bytes: &[u8]) -> Result<(), Refused> {
        let mut words = [0; MOST_WORDS];
        let message = match self {
            Head::Uart { parity, sub } => Message::Uart { parity, sub, bytes },
            Head::Bus1553 { status, gap_times } => {
                let length = (bytes.len() / 2).min(words.len());
                for (word, it) in words.iter_mut().zip(bytes.chunks_exact(2)) {
                    *word = u16::from_le_bytes([it[0], it[1]]);
                }
                if bytes.len() > 2 * MOST_WORDS {
                    return Err(Refused::TooLong);
                }
                Message::Bus1553 { status, gap_times, words: &words[..length] }
            }
            Head::Arinc { bus, format, parity, high, word } => Message::Arinc { bus, format, parity, high, word },
            Head::Discrete { states } => Message::Discrete { states },
            Head::Message { data_error, format, sub } => Message::Message { data_error, format, sub, bytes },
        };
        recorder.offer(channel, count, message)
    }
}

/// Prints what an entry says, as `r10 play` does after channel, count and gap. Times and events are of no channel's kind.
pub fn print(out: &mut String, content: &Content) {
    let bit = u8::from;
    let _ = match content {
        Content::Uart { parity, sub, bytes } => {
            let _ = write!(out, "uart {} {sub} ", bit(*parity));
            to_hex(out, bytes);
            Ok(())
        }
        Content::Bus1553 { status, gap_times, words } => {
            let _ = write!(out, "1553 {status:04x} {gap_times:04x} ");
            let bytes: Vec<u8> = words.iter().flat_map(|it| it.to_be_bytes()).collect();
            to_hex(out, &bytes);
            Ok(())
        }
        Content::Arinc { bus, format, parity, high, word } => {
            write!(out, "arinc {bus} {} {} {} {word:08x}", bit(*format), bit(*parity), bit(*high))
        }
        Content::Discrete { states } => write!(out, "discrete {states:08x}"),
        Content::Message { data_error, format, sub, bytes } => {
            let _ = write!(out, "message {} {} {sub} ", bit(*data_error), bit(*format));
            to_hex(out, bytes);
            Ok(())
        }
        Content::Time { civil } => write!(out, "time {}", clock::text(civil)),
        Content::Event { number, occurrence } => write!(out, "event {number} {occurrence}"),
    };
}

/// The names of the kinds of which something holds, as a text lists them: "uart", "uart or message", "uart, arinc or message".
pub fn names(holds: impl Fn(Kind) -> bool, quote: &str) -> String {
    let names: Vec<_> = Kind::ALL.into_iter().filter(|it| holds(*it)).map(|it| format!("{quote}{}{quote}", it.name())).collect();
    match names.split_last() {
        Some((last, [])) => last.clone(),
        Some((last, others)) => format!("{} or {last}", others.join(", ")),
        None => String::new(),
    }
}

#[cfg(test)]
mod tests {
    use std::path::Path;

    use r10::{ALL_COUNTS, Civil, Region};

    use super::*;
    use crate::{entries, settings};

    const TOP: &str = "medium = \"m\"\nblocks = 99\nvolume = \"V\"\n[control]\nsocket = \"c\"\n[[channel]]\nid = 5\n";

    /// Each kind, from settings over a datagram and a line to the entries of a file.
    #[test]
    fn each_kind_is_recorded() {
        for kind in Kind::ALL {
            // more settings, a datagram, a line, and what their entries say
            let (more, datagram, line, wanted): (_, &[u8], _, _) = match kind {
                Kind::Uart => ("sub = 9", b"abc", "parity = true, bytes = \"4142fF\"", ["uart 0 9 616263", "uart 1 0 4142ff"]),
                Kind::Bus1553 => {
                    let wanted = ["1553 0000 0000 2842", "1553 2000 0007 0821abcd"];
                    ("", &[0x42, 0x28], "status = 0x2000, gap = 7, words = \"0821abcd\"", wanted)
                }
                Kind::Arinc => {
                    let wanted = ["arinc 0 0 0 0 600000c1", "arinc 1 0 1 1 600000c2"];
                    ("", &[0xc1, 0, 0, 0x60], "bus = 1, high = true, parity = true, data = 0x600000c2", wanted)
                }
                Kind::Discrete => ("bits = 25", &[0x5a, 0, 0, 1], "states = 0x03", ["discrete 0100005a", "discrete 00000003"]),
                Kind::Message => ("", b"", "data = true, sub = 3", ["message 0 0 0 -", "message 1 0 3 -"]),
            };
            let text = format!("{TOP}kind = \"{}\"\n{more}\n", kind.name());
            let settings = settings::read(&text, Path::new("/")).unwrap();
            let mut recorder = Recorder::format(Region::memory(99), 64, &settings.script).map_err(|it| it.refusal).unwrap();
            let civil = Civil { year: 2024, month: 2, day: 29, hour: 12, minute: 34, second: 56, centi: 78 };
            recorder.mount().and_then(|()| recorder.tick(1000, &civil)).and_then(|()| recorder.start("F", b"")).unwrap();
            let (head, length) = kind.of_bytes(datagram, settings.channels[0].sub).unwrap();
            head.offer(&mut recorder, 5, 1001, &datagram[..length]).unwrap();
            let offer = entries::read(line, Some(5), |_| Some(kind)).unwrap();
            offer.head.offer(&mut recorder, 5, 1002, &offer.bytes).unwrap();
            assert_eq!((recorder.pump(5, 9), recorder.commit()), (Ok(2), Ok(())));
            let cursor = recorder.cursor(0, &[5], ALL_COUNTS).unwrap();
            assert_eq!(recorder.advance(&cursor), Ok(2));
            for wanted in wanted {
                let mut out = String::new();
                print(&mut out, &recorder.next(&cursor).unwrap().unwrap().content);
                assert_eq!(out, wanted);
                // the name, and a value for each key
                let words: Vec<_> = out.split(' ').collect();
                assert_eq!((Kind::of(words[0]), words.len()), (Some(kind), 1 + kind.keys().len()));
            }
            // a line of another kind that has one of the keys is refused
            assert!(kind.keys().iter().all(|key| Keys::default().given().iter().any(|it| it.0 == *key)));
        }
    }

    #[test]
    fn bytes_are_messages_of_their_kind() {
        let of = |kind: Kind, bytes: &[u8]| kind.of_bytes(bytes, 9);
        assert_eq!(of(Kind::Uart, b"abc"), Some((Head::Uart { parity: false, sub: 9 }, 3)));
        assert_eq!(of(Kind::Message, b""), Some((Head::Message { data_error: false, format: false, sub: 9 }, 0)));
        assert_eq!(of(Kind::Bus1553, &[0x42, 0x28]), Some((Head::Bus1553 { status: 0, gap_times: 0 }, 2)));
        assert_eq!((of(Kind::Bus1553, &[0; 3]), of(Kind::Bus1553, &[0; 74])), (None, None));
        assert_eq!(of(Kind::Discrete, &[0x5a, 0, 0, 1]), Some((Head::Discrete { states: 0x0100_005a }, 0)));
        let word = Head::Arinc { bus: 0, format: false, parity: false, high: false, word: 0x6000_00c1 };
        assert_eq!(of(Kind::Arinc, &[0xc1, 0, 0, 0x60]), Some((word, 0)));
        assert_eq!((of(Kind::Arinc, &[0; 3]), of(Kind::Discrete, &[0; 8])), (None, None));
    }

    #[test]
    fn the_words_of_a_header_are_of_a_kind() {
        let of = |kind: Kind, sub, word, bytes: &[u8]| kind.of_header(bytes, sub, word).map(|it| it.0);
        assert_eq!(of(Kind::Uart, 9, 1, b"a"), Some(Head::Uart { parity: true, sub: 9 }));
        assert_eq!(of(Kind::Bus1553, 0, 0xffff_2000, &[1, 2]), Some(Head::Bus1553 { status: 0x2000, gap_times: 0xffff }));
        let word = Head::Arinc { bus: 7, format: true, parity: false, high: true, word: 1 };
        assert_eq!(of(Kind::Arinc, 0, 0x507, &[1, 0, 0, 0]), Some(word));
        assert_eq!(of(Kind::Discrete, 0, 0, &[1, 0, 0, 0]), Some(Head::Discrete { states: 1 }));
        assert_eq!(of(Kind::Message, 3, 2, b""), Some(Head::Message { data_error: false, format: true, sub: 3 }));
        for (kind, sub, word) in [(Kind::Uart, 0, 2), (Kind::Arinc, 0, 0x800), (Kind::Arinc, 1, 0), (Kind::Discrete, 0, 1)] {
            assert_eq!(of(kind, sub, word, &[0; 4]), None, "{kind:?}");
        }
    }

    /// What a kind wants, or does not have, is said with the names of those that have it.
    #[test]
    fn settings_that_are_of_another_kind_are_faults() {
        for (channel, wanted) in [
            ("kind = \"message\"\nbits = 3", "line 9: bits = 3: only a discrete channel has bits; take the key out"),
            ("kind = \"discrete\"", "line 8: bits is missing: give a discrete channel bits = 1 to 31"),
            ("kind = \"discrete\"\nbits = 32", "line 9: bits = 32: give a number from 1 to 31"),
            (
                "kind = \"arinc\"\nsub = 3",
                "line 9: sub = 3: only a channel of kind uart or message has subchannels; take the key out",
            ),
            ("kind = \"pcm\"", "line 8: kind = \"pcm\": give \"uart\", \"1553\", \"arinc\", \"discrete\" or \"message\""),
            (
                "kind = \"1553\"\ninput = { serial = \"/dev/x\", length = 4 }",
                "line 9: a serial line gives bytes: channel 5 of kind 1553 wants an input udp or lines",
            ),
        ] {
            let faults = settings::read(&format!("{TOP}{channel}\n"), Path::new("/")).err().unwrap_or_default();
            assert_eq!(faults.iter().map(ToString::to_string).collect::<Vec<_>>(), [wanted]);
        }
    }
}
