//! The measures. Making the messages, and beginning a file, is not timed.

use crate::clock::{thread_time, timed};
use crate::fault::{Fault, Refusal};
use crate::index::own_header;
use crate::judge::{Verdict, check_file};
use crate::medium::Memory;
use crate::message::{Kind, LAST, Message, Spec};
use crate::packet::{HEADER, finish};
use crate::recorder::{Channel, Cursor, Recorder};
use std::hint::black_box;
use std::io::{self, Write};
use std::ops::Range;
use std::time::Duration;

/// The channels, which take messages in turn.
const CHANNELS: [u16; 4] = [3, 4, 5, 6];

/// How many messages may wait on a channel.
const WAITING: usize = 256;

/// How many messages are offered before each channel is pumped.
const ROUND: u32 = 1024;

/// How many rounds there are to a commit, where a file is recorded, and where it is replayed too.
const ROUNDS: u32 = 64;
const INSTALMENT: u32 = 4;

/// The greatest number of entries in a packet.
const NUMBER: usize = 65_535;

/// The bytes of each message, unless a measure is of other lengths.
const TEXT: [u8; 32] = [0x55; 32];

/// The lengths of messages that are measured by themselves, and the least number of messages of one.
const LENGTHS: [usize; 9] = [8, 16, 32, 39, 64, 255, 256, 1000, 60_000];
const LEAST: u64 = 1024;

/// How often an entry is looked for.
const SEARCHES: u32 = 10_000;

/// How many counts a message comes behind the one before it, which is on another of the four channels: 2 ms and 200 us.
const STEPS: [u64; 2] = [20_000, 2_000];

/// How many packets a file has at most.
const MOST_PACKETS: u32 = 10_000_000;

/// A message that is to be offered, and its number.
struct Timed {
    number: u64,
    message: Message,
}

/// A line of what is printed.
pub fn say(name: &str, value: u128, unit: &str) {
    println!("{name} {value} {unit}");
}

/// How many of these there are in a second, where there are so many in this time.
fn a_second(amount: u64, time: Duration) -> u128 {
    u128::from(amount) * 1_000_000_000 / time.as_nanos().max(1)
}

/// The messages of these numbers, each with bytes of its own.
fn make(numbers: Range<u32>, text: &[u8]) -> Vec<Timed> {
    let one = |number: u32| Timed {
        number: u64::from(number),
        message: Message::Uart {
            parity: false,
            sub: 0,
            bytes: text.to_vec(),
        },
    };
    numbers.map(one).collect()
}

/// The messages of a round, before a number, with these bytes each.
fn make_round_of(round: u32, number: u32, text: &[u8]) -> Vec<Timed> {
    let first = round * ROUND;
    make(first..number.min(first + ROUND), text)
}

/// The messages of a round, before a number.
fn make_round(round: u32, number: u32) -> Vec<Timed> {
    make_round_of(round, number, &TEXT)
}

fn spec(id: u16, capacity: usize, check: usize, number: usize) -> Spec {
    Spec {
        id,
        kind: Kind::Uart,
        capacity,
        check,
        bytes: 524_288,
        number,
        bits: 0,
    }
}

type InMemory = Recorder<Memory>;

/// A recorder that records a file, with room for so many messages, of which so many stand in a packet at most.
fn begin(messages: u32, number: usize) -> Result<InMemory, Refusal> {
    begin_with(messages, TEXT.len(), number)
}

/// The same for messages of so many bytes each.
fn begin_with(messages: u32, bytes: usize, number: usize) -> Result<InMemory, Refusal> {
    let medium = Memory::new(((117 + bytes as u64) * u64::from(messages) / 512 + 64) as usize);
    let specs = CHANNELS.map(|id| spec(id, WAITING, 2, number));
    Recorder::begin(
        medium,
        &specs,
        b"ABCD",
        [0, 0, 0, 0, 0x24, 0x11, 0x26, 0x20],
    )
}

fn channel_of(number: u64) -> u16 {
    CHANNELS[(number % 4) as usize]
}

/// Offers messages, each so many counts behind the one before it, and pumps each channel.
fn record(recorder: &mut InMemory, messages: Vec<Timed>, step: u64) -> Result<(), Refusal> {
    for Timed { number, message } in messages {
        recorder.offer(channel_of(number), number * step, message)?;
    }
    for channel in CHANNELS {
        recorder.pump(channel, WAITING)?;
    }
    Ok(())
}

/// The plain copy, and one channel's queue and packets: 8 bytes a message.
pub fn channel(number: u32) -> Result<(), Fault> {
    let text = [0x55; 8];
    let mut copied = Vec::with_capacity(524_288);
    let mut channel = Channel::new(spec(1, ROUND as usize, 0, NUMBER));
    let (mut copying, mut packing, mut taken) = (Duration::ZERO, Duration::ZERO, 0u64);
    for round in 0..number.div_ceil(ROUND) {
        let messages = make(round * ROUND..number.min((round + 1) * ROUND), &text);
        timed(&mut copying, || copy_all(&messages, &mut copied))?;
        taken += timed(&mut packing, || pack_all(messages, &mut channel))??;
    }
    if taken != u64::from(number) || channel.lost() > 0 {
        return Err(Fault::Lost);
    }
    say("copy", a_second(taken, copying), "messages/s");
    say("channel", a_second(taken, packing), "messages/s");
    Ok(())
}

/// Copies the bytes of each message to the end of a buffer, which is emptied where it is full.
fn copy_all(messages: &[Timed], copied: &mut Vec<u8>) {
    for timed in messages {
        if let Message::Uart { bytes, .. } = &timed.message {
            if copied.capacity() - copied.len() < bytes.len() {
                copied.clear();
            }
            copied.extend_from_slice(bytes);
        }
    }
    black_box(copied);
}

/// Offers messages to a channel and puts them into packets, which are let go.
fn pack_all(messages: Vec<Timed>, channel: &mut Channel) -> Result<u64, Refusal> {
    for Timed { number, message } in messages {
        channel.offer(number, message)?;
    }
    let mut taken = 0;
    while let Some(sample) = channel.take() {
        if channel.must_close(&sample) {
            if let Some((packet, ..)) = channel.close() {
                black_box(packet).clear();
            }
        }
        channel.push(&sample);
        taken += 1;
    }
    Ok(taken)
}

/// Records the messages of a round, and shows what was recorded where a commit is due.
#[inline(never)]
fn record_round(recorder: &mut InMemory, messages: Vec<Timed>, round: u32) -> Result<(), Refusal> {
    record(recorder, messages, 1)?;
    if round % ROUNDS == ROUNDS - 1 {
        recorder.commit()?;
    }
    Ok(())
}

/// Records a file and closes it.
fn record_all(number: u32, text: &[u8]) -> Result<(InMemory, Duration), Fault> {
    let mut recorder = begin_with(number, text.len(), NUMBER)?;
    let mut recording = Duration::ZERO;
    for round in 0..number.div_ceil(ROUND) {
        let messages = make_round_of(round, number, text);
        timed(&mut recording, || {
            record_round(&mut recorder, messages, round)
        })??;
    }
    if timed(&mut recording, || recorder.stop())?? > 0 {
        return Err(Fault::Lost);
    }
    Ok((recorder, recording))
}

/// What one step of the machine's state is measured by: sums over 32 KiB, and calls through a table of functions.
const SUMMED: usize = 4096;
const ROUNDS_OF_SUMS: u32 = 20_000;
const JUMPS: u32 = 50_000_000;

type Step = fn(u64) -> u64;

const STEPS_BY_TABLE: [Step; 4] = [
    |n| n.wrapping_mul(5).wrapping_add(1),
    |n| n ^ (n >> 3),
    |n| n.rotate_left(7).wrapping_add(3),
    |n| n.wrapping_sub(11),
];

/// How quick the machine is now: a loop of sums, and calls whose place in a table no processor foresees. Others that share a
/// machine change both, so each table of figures has them before and after.
pub fn state() -> Result<(), Fault> {
    let numbers: Vec<u64> = (0..SUMMED as u64).collect();
    let (mut summing, mut jumping) = (Duration::ZERO, Duration::ZERO);
    let mut sum = 0u64;
    timed(&mut summing, || {
        for _ in 0..ROUNDS_OF_SUMS {
            for &number in black_box(&numbers) {
                sum = sum.wrapping_add(black_box(number));
            }
        }
    })?;
    let mut at = black_box(sum);
    timed(&mut jumping, || {
        for _ in 0..JUMPS {
            at = black_box(STEPS_BY_TABLE)[(at % 4) as usize](at);
        }
    })?;
    black_box(at);
    let sums = u64::from(ROUNDS_OF_SUMS) * SUMMED as u64;
    say("state-sums", a_second(sums, summing), "sums/s");
    say("state-jumps", a_second(JUMPS.into(), jumping), "jumps/s");
    Ok(())
}

/// The whole recorder with messages of several lengths: so many of up to 64 bytes, of longer ones as many bytes together.
pub fn lengths(number: u32) -> Result<(), Fault> {
    for length in LENGTHS {
        let messages =
            (u64::from(number) * 64 / length.max(64) as u64).clamp(LEAST, u32::MAX.into()) as u32;
        let (_, recording) = record_all(messages, &vec![0x55; length])?;
        say(
            &format!("length-{length}"),
            a_second(messages.into(), recording),
            "messages/s",
        );
    }
    Ok(())
}

fn take_all(cursor: &mut Cursor) -> u64 {
    let mut taken = 0;
    while let Some(entry) = cursor.next() {
        black_box(&entry);
        taken += 1;
    }
    taken
}

/// Takes a cursor's next instalment and all that it gives, and answers how many entries that was.
#[inline(never)]
fn take_instalment(recorder: &mut InMemory, cursor: &mut Cursor) -> Result<u64, Refusal> {
    recorder.advance(cursor)?;
    Ok(take_all(cursor))
}

/// Writes the file that is recorded to standard output.
pub fn write(number: u32) -> Result<(), Fault> {
    let (mut recorder, _) = record_all(number, &TEXT)?;
    io::stdout().write_all(recorder.bytes()?)?;
    Ok(())
}

/// The whole recorder, and where it is asked for the replay of what it recorded.
pub fn recorder(number: u32, replays: bool) -> Result<(), Fault> {
    let (mut recorder, recording) = record_all(number, &TEXT)?;
    say("recorder", a_second(number.into(), recording), "messages/s");
    say("recorder-file", recorder.size().into(), "bytes");
    if !replays {
        return Ok(());
    }
    let (mut checking, mut replaying) = (Duration::ZERO, Duration::ZERO);
    let mut cursor = timed(&mut checking, || recorder.cursor(Vec::new(), 0, LAST))??;
    let taken = timed(&mut replaying, || {
        take_instalment(&mut recorder, &mut cursor)
    })??;
    if taken < u64::from(number) {
        return Err(Fault::Lost);
    }
    say("check", a_second(recorder.size(), checking), "bytes/s");
    say("replay", a_second(taken, replaying), "entries/s");
    say("replay-entries", taken.into(), "entries");
    Ok(())
}

/// A file is replayed behind each commit, while it is recorded.
pub fn follow(number: u32) -> Result<(), Fault> {
    let mut recorder = begin(number, NUMBER)?;
    let mut cursor = recorder.cursor(Vec::new(), 0, LAST)?;
    let (mut replaying, mut taken, rounds) = (Duration::ZERO, 0, number.div_ceil(ROUND));
    for round in 0..rounds {
        record(&mut recorder, make_round(round, number), 1)?;
        if round % INSTALMENT == INSTALMENT - 1 {
            recorder.commit()?;
            taken += timed(&mut replaying, || {
                take_instalment(&mut recorder, &mut cursor)
            })??;
        }
    }
    recorder.commit()?;
    taken += timed(&mut replaying, || {
        take_instalment(&mut recorder, &mut cursor)
    })??;
    if taken < u64::from(number) {
        return Err(Fault::Lost);
    }
    say("replay-behind", a_second(taken, replaying), "entries/s");
    Ok(())
}

/// Records so many packets of one message each, so many counts apart.
fn fill(packets: u32, step: u64) -> Result<(InMemory, Duration), Fault> {
    let mut recorder = begin(packets, 1)?;
    let mut recording = Duration::ZERO;
    for round in 0..packets.div_ceil(ROUND) {
        let messages = make_round(round, packets);
        timed(&mut recording, || record(&mut recorder, messages, step))??;
    }
    timed(&mut recording, || recorder.commit())??;
    Ok((recorder, recording))
}

/// Looks for messages here and there in a file, and answers how many were found.
#[inline(never)]
fn find_all(recorder: &mut InMemory, packets: u32, step: u64) -> Result<u32, Refusal> {
    let mut found = 0;
    for search in 0..SEARCHES {
        let number = u64::from(search.wrapping_mul(7919) % packets);
        let count = number * step;
        let there = recorder.find(channel_of(number), count)?;
        if there.is_some_and(|it| it.entry.count == count && it.number as u64 == number / 4) {
            found += 1;
        }
    }
    Ok(found)
}

/// Entries are found in a file of many packets.
pub fn find(number: u32) -> Result<(), Fault> {
    for step in STEPS {
        let packets = number.clamp(1, MOST_PACKETS);
        let (mut recorder, recording) = fill(packets, step)?;
        say(
            &format!("packets-{step}"),
            a_second(packets.into(), recording),
            "packets/s",
        );
        let mut finding = Duration::ZERO;
        let found = timed(&mut finding, || find_all(&mut recorder, packets, step))??;
        if found != SEARCHES {
            return Err(Fault::Lost);
        }
        say(
            &format!("find-{step}"),
            finding.as_nanos() / u128::from(SEARCHES),
            "ns",
        );
    }
    Ok(())
}

/// A file of many packets is closed.
pub fn close(number: u32) -> Result<(), Fault> {
    let (mut recorder, _) = fill(number.min(MOST_PACKETS), STEPS[1])?;
    let (shown, mut closing) = (recorder.size(), Duration::ZERO);
    if timed(&mut closing, || recorder.stop())?? > 0 {
        return Err(Fault::Lost);
    }
    say(
        "close",
        a_second(recorder.size() - shown, closing),
        "bytes/s",
    );
    say("close-index", (recorder.size() - shown).into(), "bytes");
    Ok(())
}

/// A file that is judged: the kind of its messages and its name, channels, packet flags of the checksum, and bytes of a message.
struct Shape(Kind, &'static str, u16, u8, usize);

const SHAPES: [Shape; 11] = [
    Shape(Kind::Uart, "uart", 4, 3, 1024),
    Shape(Kind::Uart, "uart", 4, 2, 1024),
    Shape(Kind::Uart, "uart", 256, 3, 1024),
    Shape(Kind::Uart, "uart", 256, 2, 1024),
    Shape(Kind::Uart, "uart", 4, 3, 64),
    Shape(Kind::Uart, "uart", 4, 3, 8),
    Shape(Kind::Message, "message", 4, 3, 64),
    Shape(Kind::Bus1553, "bus", 4, 3, 4),
    Shape(Kind::Bus1553, "bus", 4, 3, 64),
    Shape(Kind::Arinc, "arinc", 4, 3, 4),
    Shape(Kind::Discrete, "discrete", 4, 3, 4),
];

/// How many bytes a file has at most, and how many for each message that is asked for.
const MOST: usize = 0x2000_0000;
const SHARE: usize = 64;

/// How many bytes the messages of a packet have with their headers, at most.
const PACKET: usize = 65_536;

/// A message of a kind and of so many bytes.
fn shaped(kind: Kind, size: usize) -> Message {
    let (sub, bytes) = (0, vec![0x55; size]);
    match kind {
        Kind::Uart => Message::Uart {
            parity: false,
            sub,
            bytes,
        },
        Kind::Message => Message::Message {
            data_error: false,
            format: false,
            sub,
            bytes,
        },
        Kind::Bus1553 => Message::Bus1553 {
            status: 0,
            gap: 0,
            words: vec![0x5555; size / 2],
        },
        Kind::Arinc => Message::Arinc {
            bus: 0,
            format: false,
            parity: false,
            high: false,
            word: 0x5555_5555,
        },
        Kind::Discrete => Message::Discrete {
            states: 0x5555_5555,
        },
    }
}

/// A file of messages of a kind and of so many bytes, on so many channels.
fn make_file(shape: &Shape, bytes: usize) -> Vec<u8> {
    let Shape(kind, _, channels, flags, size) = *shape;
    let mut file = Vec::with_capacity(bytes + PACKET);
    let mut packet = Vec::new();
    let mut put = |header, body: &[u8]| {
        packet.clear();
        packet.resize(HEADER, 0);
        packet.extend_from_slice(body);
        finish(&mut packet, header);
        file.extend_from_slice(&packet);
    };
    put(own_header(0, 0x01, 0, 0), &[0x0C, 0, 0, 0]);
    put(
        own_header(1, 0x11, 0, 0),
        &[1, 2, 0, 0, 0, 0, 0, 0, 0x23, 0x11, 0x26, 0x20],
    );
    let message = shaped(kind, size);
    let number = PACKET / (message.len() + 2);
    let mut body = kind.word(number, 31).to_le_bytes().to_vec();
    for _ in 0..number {
        message.write(0, 0, &mut body);
    }
    for number in 0..bytes / (body.len() + 28) {
        let channel = (number % usize::from(channels)) as u16 + 2;
        let sequence = (number / usize::from(channels)) as u8;
        let header = own_header(channel, kind.data_type(), sequence, 0);
        put(crate::packet::Header { flags, ..header }, &body);
    }
    file
}

/// Files are judged.
pub fn judge(number: u32) -> Result<(), Fault> {
    for shape in &SHAPES {
        let bytes = (number as usize).min(MOST / SHARE) * SHARE;
        let file = make_file(shape, bytes);
        let start = thread_time()?;
        let verdict = check_file(black_box(&file));
        let judging = thread_time()?.saturating_sub(start);
        if verdict != Verdict::Strict {
            return Err(Fault::Lost);
        }
        let Shape(_, kind, channels, flags, size) = shape;
        let name = format!("judge-{kind}-{channels}-{flags}-{size}");
        say(&name, a_second(file.len() as u64, judging), "bytes/s");
    }
    Ok(())
}
