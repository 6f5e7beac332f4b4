//! The crate's calls once each, by values that the standard and the script say.
use r10::{ALL_COUNTS, Civil, Content, Disk, Error, Gap, Message, Mode, Recorder, Refusal, Region, Run};
use std::io::ErrorKind;

const SCRIPT: &str = "blocks = 64
directory = 2
volume = \"VOL\"
nodes = 100
time = 1
event = 2
[[channel]]
id = 3
kind = \"uart\"
capacity = 2
check = 0
bytes = 4096
number = 100
[[channel]]
id = 4
kind = \"1553\"
capacity = 2
check = 8
bytes = 4096
number = 100
[[channel]]
id = 6
kind = \"discrete\"
bits = 12
capacity = 2
check = 32
bytes = 4096
number = 100
[[channel]]
id = 7
kind = \"arinc\"
capacity = 2
check = 8
bytes = 4096
number = 100
[[channel]]
id = 8
kind = \"message\"
capacity = 2
check = 16
bytes = 4096
number = 100
";

const CIVIL: Civil = Civil { year: 2024, month: 2, day: 29, hour: 12, minute: 34, second: 56, centi: 78 };

fn recording(region: Region) -> Result<Recorder, Error> {
    let mut recorder = Recorder::format(region, 4, SCRIPT)?;
    let queue = recorder.queue()?;
    assert!(queue.waiting > 0 && queue.places >= 4, "{queue:?}");
    recorder.mount()?;
    assert_eq!(recorder.status()?.tick, None);
    recorder.tick(1000, &CIVIL)?;
    assert_eq!(recorder.status()?.tick, Some(1000));
    recorder.start("FLT1", b"ABCD")?;
    Ok(recorder)
}

/// The crate's version as the library gives its own: 10,000 for each major number, 100 for each minor one, 1 for each patch.
fn version_of_the_crate() -> Result<u32, std::num::ParseIntError> {
    env!("CARGO_PKG_VERSION").split('.').try_fold(0, |sum, part| Ok(sum * 100 + part.parse::<u32>()?))
}

/// The disk of a file that this test alone has.
fn open(path: &std::path::Path, blocks: usize) -> std::io::Result<Disk> {
    // SAFETY: nothing else writes the file, whose name has this program's number, or makes it shorter.
    unsafe { Disk::open(path, blocks) }
}

#[test]
fn what_is_committed_is_read() -> Result<(), Error> {
    let mut recorder = recording(Region::memory(64))?;
    assert_eq!(Ok(r10::version()), version_of_the_crate());
    recorder.offer(3, 1001, Message::Uart { parity: true, sub: 7, bytes: b"one" })?;
    recorder.offer(3, 1002, Message::Uart { parity: false, sub: 7, bytes: b"" })?;
    assert_eq!(recorder.offer(3, 1003, Message::Uart { parity: false, sub: 7, bytes: b"three" }), Err(Refusal::Overflow));
    recorder.offer(4, 1004, Message::Bus1553 { status: 0x2000, gap_times: 0x1234, words: &[0x0821, 0xABCD] })?;
    recorder.offer(6, 1005, Message::Discrete { states: 0xA5A })?;
    recorder.offer(7, 1006, Message::Arinc { bus: 3, format: true, parity: false, high: true, word: 0x1234_5678 })?;
    recorder.offer(7, 1007, Message::Arinc { bus: 3, format: false, parity: true, high: false, word: 9 })?;
    recorder.offer(8, 1008, Message::Message { data_error: true, format: false, sub: 9, bytes: b"m" })?;
    recorder.offer(8, 1009, Message::Message { data_error: false, format: true, sub: 9, bytes: b"" })?;
    assert_eq!(recorder.offer(6, 1006, Message::Discrete { states: 0x1000 }), Err(Refusal::BadMessage));
    assert_eq!(recorder.channel(3)?.map(|it| (it.waiting, it.lost)), Some((2, 1)));
    assert_eq!((recorder.channel(5)?, recorder.channel(9)?), (None, None));
    assert_eq!((recorder.pump(3, 9)?, recorder.pump(4, 9)?, recorder.pump(6, 9)?, recorder.pump(7, 9)?, recorder.pump(8, 9)?), (2, 1, 1, 2, 2));
    recorder.offer(3, 1010, Message::Uart { parity: false, sub: 0, bytes: b"four" })?;
    recorder.event(4095, 1011)?;
    assert_eq!(recorder.pump(3, 9)?, 1);
    recorder.commit()?;
    assert_eq!(recorder.status()?.mode, Mode::Recording);
    let cursor = recorder.cursor(0, &[], ALL_COUNTS)?;
    assert_eq!(recorder.advance(&cursor)?, 11);
    let mut entries = Vec::new();
    while let Some(entry) = recorder.next(&cursor)? {
        entries.push((entry.channel, entry.count, entry.gap, entry.content));
    }
    let uart = |parity, sub, bytes: &[u8]| Content::Uart { parity, sub, bytes: bytes.to_vec() };
    assert_eq!(
        entries,
        [
            (1, 1000, Gap::None, Content::Time { civil: CIVIL }),
            (3, 1001, Gap::None, uart(true, 7, b"one")),
            (3, 1002, Gap::None, uart(false, 7, b"")),
            (4, 1004, Gap::None, Content::Bus1553 { status: 0x2000, gap_times: 0x1234, words: vec![0x0821, 0xABCD] }),
            (6, 1005, Gap::None, Content::Discrete { states: 0xA5A }),
            (7, 1006, Gap::None, Content::Arinc { bus: 3, format: true, parity: false, high: true, word: 0x1234_5678 }),
            (7, 1007, Gap::None, Content::Arinc { bus: 3, format: false, parity: true, high: false, word: 9 }),
            (8, 1008, Gap::None, Content::Message { data_error: true, format: false, sub: 9, bytes: b"m".to_vec() }),
            (8, 1009, Gap::None, Content::Message { data_error: false, format: true, sub: 9, bytes: b"".to_vec() }),
            (3, 1010, Gap::Lost(1), uart(false, 0, b"four")),
            (2, 1011, Gap::None, Content::Event { number: 4095, occurrence: 0 }),
        ]
    );
    let until = recorder.cursor(0, &[3, 4], 1002..=1004)?;
    assert_eq!((recorder.advance(&until)?, recorder.advance(&until)), (2, Err(Refusal::Unread)));
    recorder.close_cursor(until)?;
    let others = recording(Region::memory(64))?.cursor(0, &[], ALL_COUNTS)?;
    assert_eq!((recorder.next(&others), recorder.advance(&others)), (Err(Refusal::NoCursor), Err(Refusal::NoCursor)));
    assert_eq!(recorder.close_cursor(others), Err(Refusal::NoCursor));
    assert_eq!((recorder.next(&cursor), recorder.close_cursor(cursor)), (Ok(None), Ok(())));
    assert_eq!(recorder.find(0, 3, 1002)?.map(|(number, entry)| (number, entry.count)), Some((1, 1002)));
    assert_eq!(recorder.count_at(0, &CIVIL)?, Some(1000));
    let stopped = recorder.stop()?;
    assert_eq!((stopped.taken, stopped.left), (0, 0));
    let files = recorder.files()?;
    assert_eq!((files.len(), files[0].name.as_str(), files[0].closed), (1, "FLT1", true));
    let size = files[0].size as usize;
    let shown = recorder.shown(2, 0, 0)?;
    assert_eq!((shown.len(), &shown[..2]), (size, &[0x25, 0xEB][..]));
    assert_eq!(recorder.shown(2, 0, size as u64 - 3)?.len(), 3);
    assert_eq!(recorder.shown(2, 0, size as u64 + 9)?.len(), 0);
    assert_eq!(recorder.shown(2, 1, 0), Err(Refusal::Place));
    recorder.tick(2000, &CIVIL)?;
    recorder.start("FLT2", b"")?;
    let size = recorder.files()?[1].size as usize;
    let shown = recorder.shown(2, 1, 0)?;
    assert_eq!((shown.len(), &shown[..2]), (size, &[0x25, 0xEB][..]));
    recorder.event(4095, 2001)?;
    recorder.event(4095, 2002)?;
    recorder.stop()?;
    let second = recorder.find(1, 2, 2002)?.map(|(number, entry)| (number, entry.content));
    assert_eq!(second, Some((1, Content::Event { number: 4095, occurrence: 1 })));
    recorder.erase()?;
    assert_eq!(recorder.channel(3)?.map(|it| (it.erased, it.lost)), Some((3, 1)));
    recorder.dismount()?;
    assert_eq!(recorder.commit(), Err(Refusal::NotMounted));
    Ok(())
}

#[test]
fn a_dropped_cursor_is_closed_and_its_number_is_given_again() -> Result<(), Error> {
    let mut recorder = recording(Region::memory(64))?;
    recorder.commit()?;
    let number = |cursor: &r10::Cursor| format!("{cursor:?}").split(',').next().map(str::to_string);
    let (first, second) = (recorder.cursor(0, &[], ALL_COUNTS)?, recorder.cursor(0, &[], ALL_COUNTS)?);
    let numbers = [number(&first), number(&second)];
    assert!(numbers[0] != numbers[1]);
    drop(first);
    let third = recorder.cursor(0, &[], ALL_COUNTS)?;
    assert_eq!(number(&third), numbers[0]);
    assert_eq!((recorder.advance(&second)?, recorder.advance(&third)?), (1, 1));
    // one that was closed by its call is not closed once more when it goes
    recorder.close_cursor(second)?;
    let fourth = recorder.cursor(0, &[], ALL_COUNTS)?;
    assert_eq!((number(&fourth), recorder.advance(&fourth)?), (numbers[1].clone(), 1));
    // a recorder may go before its cursors
    drop(recorder);
    drop((third, fourth));
    Ok(())
}

#[test]
fn entries_end_with_the_queue_and_after_a_refusal() -> Result<(), Error> {
    let mut recorder = recording(Region::memory(64))?;
    recorder.event(1, 1001)?;
    recorder.commit()?;
    let cursor = recorder.cursor(0, &[2], ALL_COUNTS)?;
    assert_eq!(recorder.advance(&cursor)?, 1);
    let counts = recorder.entries(&cursor).map(|it| it.map(|entry| entry.count)).collect::<Result<Vec<_>, _>>()?;
    assert_eq!((counts, recorder.entries(&cursor).next()), (vec![1001], None));
    let mut other = recording(Region::memory(64))?;
    let mut entries = other.entries(&cursor);
    assert_eq!((entries.next(), entries.next()), (Some(Err(Refusal::NoCursor)), None));
    recorder.stop()?;
    recorder.erase()?;
    assert_eq!(recorder.advance(&cursor), Err(Refusal::Stale));
    Ok(())
}

#[test]
fn one_error_takes_the_others() {
    fn by_call() -> Result<(), Error> {
        Ok(Recorder::format(Region::memory(64), 4, SCRIPT)?.dismount()?)
    }
    fn by_opening() -> Result<(), Error> {
        Recorder::open(Region::memory(63), 4, SCRIPT)?;
        Ok(())
    }
    fn by_script() -> Result<(), Error> {
        r10::check_script(&SCRIPT.replace("blocks = 64", "blocks = many"))?;
        Ok(())
    }
    fn by_disk() -> Result<(), Error> {
        open(std::path::Path::new("/nowhere/at/all"), 64)?;
        Ok(())
    }
    assert!(matches!(by_call(), Err(Error::Refused(Refusal::NotMounted))));
    assert!(matches!(by_opening(), Err(Error::Refused(Refusal::Blocks))));
    assert!(matches!(by_script(), Err(Error::Script(it)) if it.line == Some(1)));
    assert!(matches!(by_disk(), Err(Error::Disk(it)) if it.kind() == ErrorKind::NotFound));
    assert_eq!(Recorder::open(Region::memory(63), 4, SCRIPT).map(|_| ()).map_err(|it| it.region.bytes().len()), Err(63 * 512));
    let numbers = [Refusal::Failed, Refusal::MediumFull, Refusal::NoMemory, Refusal::Open].map(Refusal::number);
    assert_eq!(numbers, [1, 25, 30, 45]);
}

#[test]
fn runs_make_the_disk_what_the_region_is() -> Result<(), Error> {
    let mut recorder = recording(Region::memory(64))?;
    for n in 0..20 {
        recorder.offer(3, 1001 + n, Message::Uart { parity: false, sub: 0, bytes: &[n as u8; 300] })?;
        recorder.pump(3, 1)?;
    }
    recorder.stop()?;
    let (mut disk, mut bytes, mut syncs) = (vec![0; 64 * 512], [0; 3 * 512], 0);
    while let Some(run) = recorder.next_run(&mut bytes)? {
        match run {
            Run::Write { block, blocks } => disk[512 * block..512 * (block + blocks)].copy_from_slice(&bytes[..512 * blocks]),
            Run::Sync => syncs += 1,
        }
    }
    assert_eq!(recorder.queue()?.waiting, 0);
    assert!(syncs > 0 && disk == recorder.region());
    assert_eq!(recorder.next_run(&mut [0; 511]), Err(Refusal::Room));
    Ok(())
}

#[test]
fn losses_outside_mark_the_next_message() -> Result<(), Error> {
    let mut recorder = recording(Region::memory(64))?;
    recorder.lose(3, 40)?;
    recorder.lose(3, 0)?;
    recorder.lose(3, 2)?;
    assert_eq!(recorder.lose(9, 1), Err(Refusal::NoChannel));
    recorder.offer(3, 1001, Message::Uart { parity: false, sub: 0, bytes: b"one" })?;
    recorder.pump(3, 1)?;
    recorder.commit()?;
    assert_eq!(recorder.find(0, 3, 0)?.map(|(_, entry)| entry.gap), Some(Gap::Lost(42)));
    assert_eq!(recorder.channel(3)?.map(|channel| channel.lost), Some(42));
    Ok(())
}

#[test]
fn a_failed_disk_fails_the_recorder() -> Result<(), Error> {
    let mut recorder = recording(Region::memory(64))?;
    recorder.offer(3, 1001, Message::Uart { parity: false, sub: 0, bytes: b"one" })?;
    recorder.pump(3, 1)?;
    recorder.disk_failed()?;
    assert_eq!(recorder.commit(), Err(Refusal::Medium));
    assert_eq!(recorder.commit(), Err(Refusal::Failed));
    assert_eq!(recorder.status()?.mode, Mode::Failed);
    Ok(())
}

#[test]
fn a_refused_opening_gives_the_region_back() {
    let Err(r10::NotOpened { refusal: error, region, .. }) = Recorder::open(Region::memory(64), 4, "blocks") else {
        panic!("a script that is none was taken");
    };
    assert_eq!(error, Refusal::Script);
    assert_eq!(error.to_string(), "the script cannot be taken");
    let Err(r10::NotOpened { refusal: error, .. }) = Recorder::open(Region::memory(63), 4, SCRIPT) else {
        panic!("a region of another size was taken");
    };
    assert_eq!((error, region.bytes().len()), (Refusal::Blocks, 64 * 512));
    let mut last = [1; 8];
    assert!(region.read_plainly(&mut last, 64 * 512 - 8).is_ok() && last == [0; 8]);
    assert!(region.read_plainly(&mut last, 64 * 512 - 7).is_err());
}

/// Of three that make a file at the same time one does, and the others leave it to that one.
#[test]
fn a_file_is_made_once() -> Result<(), Box<dyn std::error::Error>> {
    let path = std::env::temp_dir().join(format!("r10-crate-made-{}", std::process::id()));
    for _ in 0..40 {
        let all: Vec<_> = (0..3)
            .map(|_| {
                std::thread::spawn({
                    let path = path.clone();
                    move || Disk::make(&path, 64, SCRIPT)
                })
            })
            .collect();
        let (mut made, mut left) = (0, 0);
        for it in all {
            match it.join().map_err(|_| "a thread has ended")? {
                Ok(()) => made += 1,
                Err(error) if matches!(error.kind(), ErrorKind::AlreadyExists | ErrorKind::WouldBlock) => left += 1,
                Err(error) => return Err(error.into()),
            }
        }
        assert_eq!((made, left), (1, 2));
        open(&path, 64)?;
        std::fs::remove_file(&path)?;
    }
    Ok(())
}

#[test]
fn a_file_has_one_program() -> Result<(), Box<dyn std::error::Error>> {
    let path = std::env::temp_dir().join(format!("r10-crate-{}", std::process::id()));
    Disk::make(&path, 64, SCRIPT)?;
    let mut recorder = Recorder::open(open(&path, 64)?.into(), 4, SCRIPT)?;
    assert_eq!(open(&path, 64).err().map(|error| error.kind()), Some(ErrorKind::WouldBlock));
    recorder.mount()?;
    recorder.tick(1000, &CIVIL)?;
    recorder.start("FLT1", b"")?;
    recorder.offer(3, 1001, Message::Uart { parity: false, sub: 0, bytes: b"one" })?;
    recorder.stop()?;
    recorder.settle()?;
    drop(recorder);
    // what is on the disk
    let mut recorder = Recorder::open(open(&path, 64)?.into(), 4, SCRIPT)?;
    recorder.mount()?;
    assert_eq!(recorder.find(0, 3, 0)?.map(|(_, entry)| entry.count), Some(1001));
    // a plain read is of what was opened, whatever its name is now
    let (moved, mut letters) = (path.with_extension("moved"), [0; 8]);
    std::fs::rename(&path, &moved)?;
    recorder.read_plainly(&mut letters, 512)?;
    assert_eq!(&letters, b"FORTYtwo");
    assert!(recorder.read_plainly(&mut letters, 64 * 512).is_err());
    std::fs::rename(&moved, &path)?;
    assert!(open(&path, 65).is_err());
    assert!(open(&path, 0).is_err());
    drop(recorder);
    for blocks in [0, 65] {
        assert_eq!(open(&path, blocks).err().map(|error| error.kind()), Some(ErrorKind::InvalidInput));
    }
    std::fs::remove_file(&path)?;
    Ok(())
}
