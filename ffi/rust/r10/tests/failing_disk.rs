//! A disk that fails: the system refuses to write beyond a length, which is a limit of this whole program.
use r10::{Civil, Disk, Message, Recorder, Refusal};
use std::io::ErrorKind;

#[repr(C)]
struct Limit {
    now: u64,
    most: u64,
}

const FILE_SIZE: i32 = 1;
const SIGXFSZ: i32 = 25;
const IGNORED: usize = 1;

unsafe extern "C" {
    fn getrlimit(which: i32, limit: *mut Limit) -> i32;
    fn setrlimit(which: i32, limit: *const Limit) -> i32;
    fn signal(number: i32, does: usize) -> usize;
    fn fork() -> i32;
    fn waitpid(process: i32, status: *mut i32, how: i32) -> i32;
    fn _exit(status: i32) -> !;
}

fn limit_files(bytes: Option<u64>) {
    let mut limit = Limit { now: 0, most: 0 };
    unsafe {
        signal(SIGXFSZ, IGNORED);
        getrlimit(FILE_SIZE, &mut limit);
        limit.now = bytes.unwrap_or(limit.most);
        setrlimit(FILE_SIZE, &limit);
    }
}

const SCRIPT: &str = "blocks = 512\ndirectory = 7\nvolume = \"VOL\"\nnodes = 100\ntime = 1\nevent = 2\n\
    [[channel]]\nid = 5\nkind = \"message\"\ncapacity = 64\ncheck = 16\nbytes = 65536\nnumber = 100\n";

const CIVIL: Civil = Civil { year: 2024, month: 2, day: 29, hour: 12, minute: 34, second: 56, centi: 78 };

fn offer(recorder: &mut Recorder, count: u64) -> Result<(), Refusal> {
    for n in 0..20 {
        recorder.offer(5, count + n, Message::Message { data_error: false, format: false, sub: 0, bytes: &[7; 1000] })?;
        recorder.pump(5, 1)?;
    }
    recorder.commit()
}

/// The disk of a file that this test alone has.
fn open(path: &std::path::Path, blocks: usize) -> std::io::Result<Disk> {
    // SAFETY: nothing else writes the file, whose name has this program's number, or makes it shorter.
    unsafe { Disk::open(path, blocks) }
}

#[test]
fn nothing_is_done_after_a_failure() -> Result<(), Box<dyn std::error::Error>> {
    let path = std::env::temp_dir().join(format!("r10-failing-{}", std::process::id()));
    let mut fresh = path.as_os_str().to_owned();
    fresh.push(".new");
    let fresh = std::path::PathBuf::from(fresh);
    limit_files(Some(512 * 100));
    assert!(Disk::make(&path, 512, SCRIPT).is_err());
    limit_files(None);
    assert!(!path.exists() && !fresh.exists(), "what could not be made left a file");
    // a file of another's at that name stays; what a make that was ended left does not
    let mut medium = [0; 1024];
    medium[512..524].copy_from_slice(b"FORTYtwo\x0f\0\0\x01");
    for other in [&b"a note\n"[..], &medium] {
        std::fs::write(&fresh, other)?;
        assert_eq!(Disk::make(&path, 512, SCRIPT).err().map(|error| error.kind()), Some(ErrorKind::InvalidData));
        assert!(std::fs::read(&fresh)? == other && !path.exists());
    }
    std::fs::write(&fresh, [0; 700])?;
    Disk::make(&path, 512, SCRIPT)?;
    assert_eq!(Disk::make(&path, 512, SCRIPT).err().map(|error| error.kind()), Some(ErrorKind::AlreadyExists));

    let mut recorder = Recorder::open(open(&path, 512)?.into(), 4, SCRIPT)?;
    recorder.mount()?;
    recorder.tick(1000, &CIVIL)?;
    recorder.start("FLT1", b"")?;
    offer(&mut recorder, 1001)?;
    // a child of fork has a copy of the recorder, and is refused the disk; what waits is left to the parent
    let mut status = 1;
    // SAFETY: the child makes one call and ends; what that allocates the C library allows after a fork.
    match unsafe { fork() } {
        0 => {
            let refused = recorder.settle().is_err_and(|it| it.kind() == ErrorKind::PermissionDenied);
            // SAFETY: it ends the child.
            unsafe { _exit(i32::from(!refused)) }
        }
        // SAFETY: the number is this function's.
        child => assert!(unsafe { waitpid(child, &mut status, 0) } == child && status == 0, "a child of fork was not refused the disk"),
    }
    assert!(recorder.queue()?.waiting > 0);
    recorder.settle()?;
    offer(&mut recorder, 2001)?;
    limit_files(Some(512 * 16));
    assert!(recorder.settle().is_err());
    limit_files(None);
    let waiting = recorder.queue()?.waiting;
    assert!(recorder.settle().is_err(), "a disk that failed is used again");
    assert!(waiting > 0 && recorder.queue()?.waiting == waiting, "an operation was done after one that failed");
    assert_eq!(recorder.commit(), Err(Refusal::Medium));
    assert_eq!(recorder.commit(), Err(Refusal::Failed));
    drop(recorder);

    let mut recorder = Recorder::open(open(&path, 512)?.into(), 4, SCRIPT)?;
    recorder.mount()?;
    recorder.seal()?;
    recorder.settle()?;
    let cursor = recorder.cursor(0, &[5], r10::ALL_COUNTS)?;
    assert_eq!(recorder.advance(&cursor)?, 20);
    std::fs::remove_file(&path)?;
    Ok(())
}
