//! Entries as text: the form of a script's offers, as a line of a pipe has it, and the form in which `r10 play` prints them.
use std::fmt::Write;

use r10::{Entry, Gap};
use serde::Deserialize;

use crate::kinds::{self, Head, Keys, Kind};

/// An entry of a line: its channel, where the line says one, and the message.
#[derive(Debug, PartialEq, Eq)]
pub struct Offer {
    pub channel: Option<u16>,
    pub head: Head,
    pub bytes: Vec<u8>,
}

/// Bytes as pairs of hex digits, and `-` for none.
pub fn to_hex(out: &mut String, bytes: &[u8]) {
    if bytes.is_empty() {
        out.push('-');
    }
    out.push_str(&hex::encode(bytes));
}

/// Reads a line. `kind_of` says of which kind a channel is; the channel is `only` where the line says none.
pub fn read(line: &str, only: Option<u16>, kind_of: impl Fn(u16) -> Option<Kind>) -> Result<Offer, String> {
    let bare = line.trim().trim_end_matches(',').trim();
    let inner = bare.strip_prefix('{').and_then(|it| it.strip_suffix('}')).unwrap_or(bare);
    // no value has these, and each would be read one level deeper: a long line of them would use up the thread's memory
    if inner.contains(['[', '{', '.']) {
        return Err("a line has no lists, no tables in it and no dots".to_string());
    }
    #[derive(Deserialize)]
    #[serde(deny_unknown_fields)]
    struct Whole {
        it: Keys,
    }
    let keys = toml::from_str::<Whole>(&format!("it = {{ {inner} }}")).map_err(|error| error.to_string())?.it;
    if keys.r#do.as_deref().is_some_and(|it| it != "offer") {
        return Err("a line is an offer: take out the key do, or give \"offer\"".to_string());
    }
    let channel = keys.channel.or(only).ok_or("the line has no key channel, and the pipe has several")?;
    let kind = kind_of(channel).ok_or_else(|| format!("channel {channel} does not read this pipe"))?;
    if keys.kind.as_deref().is_some_and(|it| it != kind.name()) {
        return Err(format!("channel {channel} is of kind {}", kind.name()));
    }
    let (head, bytes) = kind.of_line(&keys)?;
    Ok(Offer { channel: Some(channel), head, bytes })
}

/// Prints an entry as `r10 play` does, with the end of the line.
pub fn print(out: &mut String, entry: &Entry) {
    let gap = match entry.gap {
        Gap::None => "0".to_string(),
        Gap::Lost(lost) => lost.to_string(),
        Gap::Unknown => "1+".to_string(),
    };
    let _ = write!(out, "entry {} {} {gap} ", entry.channel, entry.count);
    kinds::print(out, &entry.content);
    out.push('\n');
}

#[cfg(test)]
mod tests {
    use r10::Content;

    use super::*;

    fn kind_of(channel: u16) -> Option<Kind> {
        Some(match channel {
            10 => Kind::Uart,
            20 => Kind::Bus1553,
            30 => Kind::Arinc,
            40 => Kind::Discrete,
            50 => Kind::Message,
            _ => return None,
        })
    }

    fn of(line: &str) -> Result<(u16, Head, Vec<u8>), String> {
        read(line, None, kind_of).map(|it| (it.channel.unwrap_or(0), it.head, it.bytes))
    }

    #[test]
    fn lines_of_a_script_are_read() {
        let word = Head::Arinc { bus: 1, format: false, parity: false, high: true, word: 0x6000_00c1 };
        assert_eq!(
            of("{ do = \"offer\", channel = 30, count = 43000000, bus = 1, high = true, data = 0x600000c1 },"),
            Ok((30, word, vec![]))
        );
        assert_eq!(
            of("channel = 10, parity = true, bytes = \"4142fF\""),
            Ok((10, Head::Uart { parity: true, sub: 0 }, vec![0x41, 0x42, 0xff]))
        );
        assert_eq!(
            of("channel = 20, words = \"284203e8\""),
            Ok((20, Head::Bus1553 { status: 0, gap_times: 0 }, vec![0x42, 0x28, 0xe8, 0x03]))
        );
        assert_eq!(of("channel = 40, states = 0x03"), Ok((40, Head::Discrete { states: 3 }, vec![])));
        assert_eq!(
            of("channel = 50, data = true, sub = 3"),
            Ok((50, Head::Message { data_error: true, format: false, sub: 3 }, vec![]))
        );
        assert_eq!(read("states = 1", Some(40), kind_of).map(|it| it.channel), Ok(Some(40)));
    }

    #[test]
    fn other_lines_are_refused_and_none_panics() {
        for line in [
            "",
            "}{",
            "channel",
            "channel = 9, states = 1",
            "states = 1",
            "channel = 40, bytes = \"41\"",
            "channel = 10, bytes = \"4\"",
            "channel = 10, bytes = \"4x\"",
            "channel = 20, words = \"41\"",
            "channel = 30, data = true",
            "channel = 50, data = 7",
            "do = \"stop\"",
            "channel = 40, states = -1",
            "channel = 70000",
            "channel = 40, states = 1 }\nevil = { a = 1",
            "channel = 40, kind = \"uart\"",
            "channel = 10, bytes = \"\u{e9}\u{e9}\"",
            "channel = 40, bus = 300",
            &format!("channel = 40, states = {}", "[".repeat(100_000))[..],
            &format!("channel = 40, states = {}", "{a=".repeat(40_000))[..],
            &format!("channel = 40, {}a = 1", "a.".repeat(60_000))[..],
        ] {
            assert!(of(line).is_err(), "{line}");
        }
    }

    #[test]
    fn entries_print_as_play_prints_them() {
        let print = |content| {
            let mut out = String::new();
            super::print(&mut out, &Entry { count: 7, channel: 5, gap: Gap::Lost(2), content });
            out
        };
        assert_eq!(print(Content::Uart { parity: true, sub: 3, bytes: vec![0x0a, 0xf0] }), "entry 5 7 2 uart 1 3 0af0\n");
        assert_eq!(
            print(Content::Message { data_error: false, format: true, sub: 0, bytes: vec![] }),
            "entry 5 7 2 message 0 1 0 -\n"
        );
        assert_eq!(print(Content::Discrete { states: 0x5a }), "entry 5 7 2 discrete 0000005a\n");
        assert_eq!(
            print(Content::Arinc { bus: 1, format: false, parity: true, high: true, word: 0xc1 }),
            "entry 5 7 2 arinc 1 0 1 1 000000c1\n"
        );
        assert_eq!(print(Content::Event { number: 4095, occurrence: 1 }), "entry 5 7 2 event 4095 1\n");
    }
}
