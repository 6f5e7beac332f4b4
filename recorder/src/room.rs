//! How many messages a medium takes, about: for people who choose its size. docs/RECORDER.md has what a message and a packet take.
use std::collections::BTreeSet;
use std::ops::RangeInclusive;

use crate::info;
use crate::kinds::Kind;
use crate::settings::Settings;

/// What a packet takes beside its messages, at most: with its index.
const PACKET: u64 = 35 + 21;
/// The length of a message in the lines, where its kind has no length of its own: in bytes, or as words of two bytes.
const LENGTH: u64 = 32;

/// How many bytes a message of so many takes in a packet of many, and how many alone in one.
pub fn takes(kind: Kind, bytes: u64) -> RangeInclusive<u64> {
    let own = match kind {
        Kind::Uart | Kind::Message => bytes.next_multiple_of(2) + 12,
        Kind::Bus1553 => bytes.next_multiple_of(2) + 14,
        Kind::Arinc => 8,
        Kind::Discrete => 12,
    };
    own..=own + PACKET
}

/// How many of them a medium of so many blocks takes: each alone in a packet, and many in one.
pub fn room(blocks: usize, directory: usize, takes: &RangeInclusive<u64>) -> RangeInclusive<u64> {
    let bytes = 512 * blocks.saturating_sub(1 + directory) as u64;
    bytes / takes.end()..=bytes / takes.start()
}

/// A number for people: two digits of it, and how large it is.
fn about(it: u64) -> String {
    let rounded = |unit: u64| {
        let tenths = it * 10 / unit;
        if tenths < 100 { format!("{}.{}", tenths / 10, tenths % 10) } else { (tenths / 10).to_string() }
    };
    match it {
        1_000_000.. => format!("{} million", rounded(1_000_000)),
        10_000.. => format!("{} thousand", rounded(1000)),
        _ => it.to_string(),
    }
}

/// Of each kind of channel how many messages a medium takes.
pub fn lines(settings: &Settings) -> Vec<String> {
    let names: BTreeSet<&str> = settings.channels.iter().map(|it| it.kind.name()).collect();
    let line = |kind: Kind| {
        let room = room(settings.blocks, settings.directory, &takes(kind, LENGTH));
        let length = match kind {
            Kind::Uart | Kind::Message => " of 32 bytes",
            Kind::Bus1553 => " of 16 words",
            Kind::Arinc | Kind::Discrete => "",
        };
        let (name, most, least) = (kind.name(), about(*room.end()), about(*room.start()));
        format!("a medium takes about {most} {name} messages{length}, and {least} where each is alone in a packet")
    };
    Kind::ALL.into_iter().filter(|it| names.contains(it.name())).map(line).collect()
}

/// Says it, as the service starts.
pub fn say(settings: &Settings) {
    for it in lines(settings) {
        info!("{it}");
    }
}

#[cfg(test)]
mod tests {
    use super::*;

    #[test]
    fn numbers_for_people() {
        let found = [0, 9_999, 10_000, 123_456, 999_999, 1_000_000, 12_345_678].map(about);
        assert_eq!(found, ["0", "9999", "10 thousand", "123 thousand", "999 thousand", "1.0 million", "12 million"]);
    }

    #[test]
    fn each_kind_of_the_settings_has_a_line() {
        let text = "medium = \"m\"\nblocks = 16777216\nvolume = \"V\"\n[control]\nsocket = \"c\"\n\
                    [[channel]]\nid = 5\nkind = \"arinc\"\n[[channel]]\nid = 6\nkind = \"message\"\n\
                    [[channel]]\nid = 7\nkind = \"message\"\n";
        let settings = crate::settings::read(text, std::path::Path::new("/")).unwrap();
        assert_eq!(
            lines(&settings),
            [
                "a medium takes about 1073 million arinc messages, and 134 million where each is alone in a packet",
                "a medium takes about 195 million message messages of 32 bytes, and 85 million where each is alone in a packet"
            ]
        );
    }
}
