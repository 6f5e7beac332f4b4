//! A file of channels of all kinds is recorded, judged, replayed and searched.

use crate::fault::Refusal;
use crate::judge::{Verdict, check_file};
use crate::medium::Memory;
use crate::message::{Entry, Gap, Kind, LAST, Message, Spec};
use crate::packet::Flaw;
use crate::recorder::Recorder;

const KINDS: [Kind; 5] = [
    Kind::Uart,
    Kind::Bus1553,
    Kind::Arinc,
    Kind::Discrete,
    Kind::Message,
];

fn spec(place: usize) -> Spec {
    Spec {
        id: 10 - place as u16,
        kind: KINDS[place],
        capacity: 40,
        check: [0, 1, 2, 4, 2][place],
        bytes: 1024,
        number: 30,
        bits: if KINDS[place] == Kind::Discrete { 9 } else { 0 },
    }
}

/// The message of a number on the channel at a place.
fn message(place: usize, number: u64) -> Message {
    let sub = number as u16 % 7;
    let bytes = vec![number as u8; number as usize % 19];
    match KINDS[place] {
        Kind::Uart => Message::Uart {
            parity: number % 2 == 1,
            sub,
            bytes,
        },
        Kind::Bus1553 => Message::Bus1553 {
            status: 0x2008,
            gap: sub,
            words: vec![number as u16; number as usize % 37],
        },
        Kind::Arinc => Message::Arinc {
            bus: sub as u8,
            format: number % 2 == 1,
            parity: number % 3 == 1,
            high: number % 5 == 1,
            word: number as u32,
        },
        Kind::Discrete => Message::Discrete {
            states: number as u32 % 512,
        },
        Kind::Message => Message::Message {
            data_error: number % 2 == 1,
            format: number % 3 == 1,
            sub,
            bytes,
        },
    }
}

/// Records rounds of 41 messages a channel, of which one is lost, and what was accepted.
fn recorded(rounds: u64) -> (Recorder<Memory>, Vec<Entry>) {
    let specs: Vec<Spec> = (0..5).map(spec).collect();
    let mut recorder = Recorder::begin(Memory::new(4096), &specs, b"ABCD", [0; 8]).unwrap();
    let mut all = vec![];
    for round in 0..rounds {
        for (place, spec) in specs.iter().enumerate() {
            for number in 41 * round..41 * round + 41 {
                let count = 9_000 * number + 1;
                let last = number % 41 == 40;
                let offered = recorder.offer(spec.id, count, message(place, number));
                assert_eq!(offered, if last { Err(Refusal::Overflow) } else { Ok(()) });
                let lost = round > 0 && number % 41 == 0;
                if !last {
                    all.push(Entry {
                        channel: spec.id,
                        count,
                        message: message(place, number),
                        gap: if lost { Gap::Lost(1) } else { Gap::Whole },
                    });
                }
            }
            assert_eq!(recorder.pump(spec.id, 40), Ok(40));
        }
    }
    all.sort_by_key(|entry| (entry.count, entry.channel));
    (recorder, all)
}

#[test]
fn what_was_recorded_is_replayed() {
    let (mut recorder, all) = recorded(20);
    let mut cursor = recorder.cursor(vec![], 1, LAST).unwrap();
    assert_eq!(recorder.commit(), Ok(()));
    assert_eq!(recorder.advance(&mut cursor), Ok(all.len()));
    let behind: Vec<Entry> = std::iter::from_fn(|| cursor.next()).collect();
    assert_eq!(behind, all);
    assert_eq!(recorder.stop(), Ok(0));
    assert_eq!(check_file(recorder.bytes().unwrap()), Verdict::Strict);
    let mut cursor = recorder.cursor(vec![6, 9], 5_000, 900_000).unwrap();
    recorder.advance(&mut cursor).unwrap();
    let some: Vec<Entry> = std::iter::from_fn(|| cursor.next()).collect();
    let wanted = |entry: &&Entry| {
        [6, 9].contains(&entry.channel) && (5_000..=900_000).contains(&entry.count)
    };
    assert!(some.iter().eq(all.iter().filter(wanted)));
}

#[test]
fn what_was_recorded_is_found() {
    let (mut recorder, all) = recorded(20);
    recorder.commit().unwrap();
    for channel in 6..=10 {
        let own: Vec<&Entry> = all.iter().filter(|one| one.channel == channel).collect();
        for count in (0..9_000 * 41 * 20).step_by(4_500) {
            let wanted = own.iter().position(|one| one.count >= count);
            let found = recorder.find(channel, count).unwrap();
            assert_eq!(found.as_ref().map(|it| it.number), wanted);
            assert_eq!(found.map(|it| it.entry).as_ref(), wanted.map(|at| own[at]));
        }
    }
}

#[test]
fn what_is_changed_is_seen() {
    let (mut recorder, _) = recorded(3);
    recorder.stop().unwrap();
    let file = recorder.bytes().unwrap().to_vec();
    for at in 0..file.len() {
        let mut changed = file.clone();
        changed[at] ^= 0x10;
        let verdict = check_file(&changed);
        let unread = matches!(verdict, Verdict::Strict);
        assert!(!unread || is_free(&file, at), "{at}");
    }
    assert!(matches!(
        check_file(&file[..file.len() - 1]),
        Verdict::Faulty(_, Flaw::Truncated)
    ));
}

/// Whether a byte may be any: the setup text, the time's digits, and what is in a body without a data checksum.
fn is_free(file: &[u8], at: usize) -> bool {
    let mut start = 0;
    while start < file.len() {
        let length = u32::from_le_bytes(file[start + 4..start + 8].try_into().unwrap()) as usize;
        if at < start + length {
            let unchecked =
                file[start + 14] % 4 == 0 && matches!(file[start + 15], 0x00 | 0x01 | 0x11 | 0x50);
            return unchecked && at >= start + 28;
        }
        start += length;
    }
    false
}
