//! How much memory this program takes: alone in it, since the system counts the whole program.
use r10::{Civil, Disk, Message, Recorder, Region};

const BLOCKS: usize = 400_000;

const SCRIPT: &str = "blocks = 400000\ndirectory = 7\nvolume = \"VOL\"\nnodes = 1000\ntime = 1\nevent = 2\n\
    [[channel]]\nid = 5\nkind = \"message\"\ncapacity = 64\ncheck = 16\nbytes = 524288\nnumber = 1000\n";

const CIVIL: Civil = Civil { year: 2024, month: 2, day: 29, hour: 12, minute: 34, second: 56, centi: 78 };

/// A line of a file of the system about this program, in MiB.
fn mebibytes(file: &str, name: &str) -> Result<u64, Box<dyn std::error::Error>> {
    let text = std::fs::read_to_string(file)?;
    let line = text.lines().find_map(|line| line.strip_prefix(name)).ok_or("the system does not say it")?;
    Ok(line.trim().trim_end_matches(" kB").parse::<u64>()? / 1024)
}

/// The disk of a file that this test alone has.
fn open(path: &std::path::Path, blocks: usize) -> std::io::Result<Disk> {
    // SAFETY: nothing else writes the file, whose name has this program's number, or makes it shorter.
    unsafe { Disk::open(path, blocks) }
}

#[test]
fn a_long_recording_takes_little() -> Result<(), Box<dyn std::error::Error>> {
    // regions that were let go are let go
    let before = mebibytes("/proc/self/status", "VmSize:")?;
    for _ in 0..40 {
        drop(Region::memory(65_536));
    }
    assert!(mebibytes("/proc/self/status", "VmSize:")? < before + 200);

    // 160 MB are recorded, and of the pages that were written at most 32 MiB are kept
    let path = std::env::temp_dir().join(format!("r10-memory-{}", std::process::id()));
    Disk::make(&path, BLOCKS, SCRIPT)?;
    let opened = Recorder::open(open(&path, BLOCKS)?.into(), 1024, SCRIPT);
    std::fs::remove_file(&path)?;
    let mut recorder = opened?;
    recorder.mount()?;
    recorder.tick(1000, &CIVIL)?;
    recorder.start("FLT1", b"")?;
    let mut most = 0;
    for n in 0..16_000 {
        recorder.offer(5, 1000 + n, Message::Message { data_error: false, format: false, sub: 0, bytes: &[7; 10_000] })?;
        recorder.pump(5, 1)?;
        if n % 100 == 99 {
            recorder.commit()?;
            recorder.settle()?;
            most = most.max(mebibytes("/proc/self/smaps_rollup", "Anonymous:")?);
        }
    }
    assert!(most < 60, "{most} MiB");
    // what was given back reads as before, and the file goes on
    assert_eq!(recorder.find(0, 5, 1000)?.map(|(number, entry)| (number, entry.count)), Some((0, 1000)));
    assert_eq!(recorder.pump(5, 1), Ok(0));
    assert_eq!(recorder.stop().map(|it| it.left), Ok(0));
    Ok(())
}
