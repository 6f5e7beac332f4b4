//! A program whose memory is locked, as those of real time are: alone in it, since all of its memory is.
use r10::{Civil, Disk, Message, Recorder};

const CURRENT_AND_FUTURE: i32 = 1 | 2;

unsafe extern "C" {
    fn mlockall(which: i32) -> i32;
}

const BLOCKS: usize = 120_000;

const SCRIPT: &str = "blocks = 120000\ndirectory = 7\nvolume = \"VOL\"\nnodes = 1000\ntime = 1\nevent = 2\n\
    [[channel]]\nid = 5\nkind = \"message\"\ncapacity = 64\ncheck = 16\nbytes = 524288\nnumber = 1000\n";

const CIVIL: Civil = Civil { year: 2024, month: 2, day: 29, hour: 12, minute: 34, second: 56, centi: 78 };

/// The system does not give locked pages back, which is a hint alone. 45 MB are recorded: that is past the first hint, at 32 MiB.
#[test]
fn a_program_with_locked_memory_records_on() -> Result<(), r10::Error> {
    let path = std::env::temp_dir().join(format!("r10-locked-{}", std::process::id()));
    Disk::make(&path, BLOCKS, SCRIPT)?;
    // SAFETY: nothing else writes the file, whose name has this program's number, or makes it shorter.
    let disk = unsafe { Disk::open(&path, BLOCKS) };
    std::fs::remove_file(&path)?;
    let mut recorder = Recorder::open(disk?.into(), 1024, SCRIPT)?;
    // SAFETY: it takes a number alone.
    if unsafe { mlockall(CURRENT_AND_FUTURE) } != 0 {
        eprintln!("locked memory is NOT TRIED: {}", std::io::Error::last_os_error());
        return Ok(());
    }
    recorder.mount()?;
    recorder.tick(1000, &CIVIL)?;
    recorder.start("FLT1", b"")?;
    for n in 0..4500 {
        recorder.offer(5, 1000 + n, Message::Message { data_error: false, format: false, sub: 0, bytes: &[7; 10_000] })?;
        recorder.pump(5, 1)?;
        if n % 100 == 99 {
            recorder.commit()?;
            recorder.settle()?;
        }
    }
    assert_eq!(recorder.find(0, 5, 5499)?.map(|(number, entry)| (number, entry.count)), Some((4499, 5499)));
    assert_eq!(recorder.stop()?.left, 0);
    Ok(recorder.settle()?)
}
