//! Scripts that cannot be taken, what a damaged medium is answered, and a long file in parts.
use r10::{ALL_COUNTS, Civil, Entry, Error, Fault, Message, Parts, Recorder, Refusal, Region, Script, check_script};

const SCRIPT: &str = "blocks = 2048
directory = 2
volume = \"VOL\"
nodes = 100
time = 1
event = 2
[[channel]]
id = 3
kind = \"uart\"
capacity = 2
check = 0
bytes = 4096
number = 100
[[channel]]
id = 4
kind = \"1553\"
capacity = 2
check = 8
bytes = 4096
number = 10
";

const CIVIL: Civil = Civil { year: 2024, month: 2, day: 29, hour: 12, minute: 34, second: 56, centi: 78 };

fn recording() -> Result<Recorder, Error> {
    let mut recorder = Recorder::format(Region::memory(2048), 64, SCRIPT)?;
    recorder.mount()?;
    recorder.tick(1000, &CIVIL)?;
    recorder.start("FLT1", b"ABCD")?;
    for n in 0..600_u64 {
        recorder.offer(3, 1001 + 1_000_000 * (n / 2), Message::Uart { parity: false, sub: 0, bytes: &vec![n as u8; n as usize] })?;
        recorder.offer(4, 1001 + 1_000_000 * (n / 2), Message::Bus1553 { status: 0, gap_times: 0, words: &[n as u16; 3] })?;
        recorder.pump(3, 1)?;
        recorder.pump(4, 1)?;
    }
    recorder.commit()?;
    Ok(recorder)
}

#[test]
fn a_script_says_its_medium_or_what_is_wrong() {
    assert_eq!(check_script(SCRIPT), Ok(Script { blocks: 2048, directory: 2, channels: 2 }));
    for (wrong, line, text) in [
        (SCRIPT.replace("id = 3\n", ""), Some(7), "line 7, channel table 1: `id` is missing"),
        (SCRIPT.replace("directory = 2", "directory = 99"), Some(2), "line 2, above the first table: `directory` must be"),
        (format!("{SCRIPT}colour = 8\n"), Some(21), "line 21, channel table 2: unknown key \"colour\""),
    ] {
        let error = check_script(&wrong).expect_err("a wrong script was taken");
        assert_eq!((error.refusal, error.line), (Refusal::Script, line), "{error}");
        assert!(error.to_string().starts_with(text), "{error}");
    }
}

#[test]
fn a_damaged_medium_is_named() -> Result<(), Error> {
    let mut recorder = Recorder::open(Region::memory(2048), 64, SCRIPT)?;
    assert_eq!(recorder.fault()?, None);
    assert_eq!(recorder.mount(), Err(Refusal::BadDirectory));
    assert_eq!(recorder.fault()?, Some(Fault::Directory { block: 1 }));
    assert_eq!(recorder.commit(), Err(Refusal::NotMounted));
    assert_eq!(recorder.fault()?, Some(Fault::Directory { block: 1 }));
    Ok(())
}

fn rest(recorder: &mut Recorder, cursor: r10::Cursor) -> Result<Vec<Entry>, Error> {
    let mut entries = Vec::new();
    while let Some(entry) = recorder.next(&cursor)? {
        entries.push(entry);
    }
    recorder.close_cursor(cursor)?;
    Ok(entries)
}

#[test]
fn parts_are_what_one_cursor_gives() -> Result<(), Error> {
    let mut recorder = recording()?;
    for (channels, counts) in [(&[][..], ALL_COUNTS), (&[4][..], ALL_COUNTS), (&[][..], 2_000_000..=90_000_000)] {
        let cursor = recorder.cursor(0, channels, counts.clone())?;
        let queued = recorder.advance(&cursor)?;
        let whole = rest(&mut recorder, cursor)?;
        assert_eq!(queued, whole.len());
        for most in [1, 5, 100, 10_000] {
            let mut parts = Parts::new(0, channels, counts.clone(), most);
            let mut entries = Vec::new();
            while let Some((cursor, queued)) = parts.next(&mut recorder)? {
                let part = rest(&mut recorder, cursor)?;
                assert_eq!(queued, part.len());
                assert!(queued <= most || part.iter().all(|entry| entry.count == part[0].count), "a part of {queued}");
                entries.extend(part);
            }
            assert!(entries == whole, "at most {most}");
        }
    }
    Ok(())
}
