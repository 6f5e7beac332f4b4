//! Threads that offer at ports, beside the one that owns the recorder.
use r10::{ALL_COUNTS, Civil, Content, Error, Gap, Message, Port, Recorder, Refusal, Region, open_port};
use std::thread;

const SCRIPT: &str = "blocks = 65536
directory = 2
volume = \"VOL\"
nodes = 100
time = 1
event = 2
[[channel]]
id = 3
kind = \"arinc\"
capacity = 64
check = 0
bytes = 65536
number = 1000
[[channel]]
id = 4
kind = \"arinc\"
capacity = 64
check = 0
bytes = 65536
number = 1000
";

const CIVIL: Civil = Civil { year: 2024, month: 2, day: 29, hour: 12, minute: 34, second: 56, centi: 78 };

fn word(word: u32) -> Message<'static> {
    Message::Arinc { bus: 0, format: false, parity: false, high: false, word }
}

fn recording() -> Result<Recorder, Error> {
    let mut recorder = Recorder::format(Region::memory(65_536), 64, SCRIPT)?;
    recorder.mount()?;
    recorder.tick(1000, &CIVIL)?;
    recorder.start("FLT1", b"")?;
    Ok(recorder)
}

/// Offers so many words, each with its number, and says what became of them.
fn offer_all(mut port: Port, words: u32) -> Result<(u64, u64), Refusal> {
    for n in 0..words {
        match port.offer(2000 + u64::from(n), word(n)) {
            Ok(()) | Err(Refusal::Overflow) => (),
            Err(error) => return Err(error),
        }
        if n % 16 == 0 {
            thread::yield_now();
        }
    }
    let state = port.state()?;
    Ok((state.accepted, state.lost))
}

#[test]
fn what_threads_offer_is_recorded_once_and_in_order() -> Result<(), Error> {
    const WORDS: u32 = 20_000;
    let mut recorder = recording()?;
    let mut outlets = Vec::new();
    let mut threads = Vec::new();
    for channel in [3, 4] {
        let (port, outlet) = open_port(SCRIPT, channel)?;
        outlets.push((channel, outlet));
        threads.push(thread::spawn(move || offer_all(port, WORDS)));
    }
    loop {
        let done = threads.iter().all(|thread| thread.is_finished());
        let mut moved = 0;
        for (channel, outlet) in &mut outlets {
            moved += recorder.carry(outlet, 64)? + recorder.pump(*channel, 64)?;
        }
        if done && moved == 0 {
            break;
        }
        while recorder.next_run(&mut [0; 512 * 16])?.is_some() {}
    }
    recorder.stop()?;
    for ((channel, _), thread) in outlets.iter().zip(threads) {
        let (accepted, lost) = thread.join().expect("the thread ended")?;
        assert_eq!(accepted + lost, u64::from(WORDS));
        let cursor = recorder.cursor(0, &[*channel], ALL_COUNTS)?;
        assert_eq!(recorder.advance(&cursor)? as u64, accepted);
        let mut next = 0;
        while let Some(entry) = recorder.next(&cursor)? {
            let n = entry.count - 2000;
            assert_eq!(entry.content, Content::Arinc { bus: 0, format: false, parity: false, high: false, word: n as u32 });
            assert_eq!(entry.gap, if n == next { Gap::None } else { Gap::Lost(n - next) });
            next = n + 1;
        }
    }
    Ok(())
}

#[test]
fn a_port_refuses_what_a_lane_refuses_and_a_full_lane_loses_nothing() -> Result<(), Error> {
    let mut recorder = recording()?;
    let (mut port, mut outlet) = open_port(SCRIPT, 3)?;
    assert_eq!(open_port(SCRIPT, 9).err(), Some(Refusal::NoChannel));
    assert_eq!(open_port("blocks = 8", 3).err(), Some(Refusal::Script));
    assert_eq!(port.offer(1 << 48, word(0)), Err(Refusal::CountRange));
    assert_eq!(port.offer(10, Message::Discrete { states: 0 }), Err(Refusal::WrongKind));
    for n in 0..64 {
        port.offer(10 + n, word(0))?;
    }
    assert_eq!(port.offer(10, word(0)), Err(Refusal::CountBack));
    assert_eq!(port.offer(100, word(0)), Err(Refusal::Overflow));
    port.lose(2)?;
    let state = port.state()?;
    assert_eq!((state.channel, state.accepted, state.lost, state.capacity), (3, 64, 3, 64));
    assert_eq!(recorder.carry(&mut outlet, usize::MAX)?, 64);
    port.offer(200, word(1))?;
    assert_eq!(recorder.carry(&mut outlet, usize::MAX)?, 0);
    assert_eq!(recorder.pump(3, 1)?, 1);
    assert_eq!(recorder.carry(&mut outlet, usize::MAX)?, 1);
    drop(port);
    assert_eq!(recorder.carry(&mut outlet, usize::MAX)?, 0);
    let channel = recorder.channel(3)?.ok_or(Refusal::NoChannel)?;
    assert_eq!((channel.waiting, channel.lost), (64, 3));
    Ok(())
}
