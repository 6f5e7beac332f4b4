//! A thread offers messages of a serial line, and the one that owns the recorder records them, reads along, and says what is durable.
//!
//!     example MESSAGES EACH [FILE]
//!
//! The medium is plain memory, and a second one beside it is the disk, on which each run is done in order: at the end both hold the same. With FILE the medium is that file,
//! which is made where it is not there. A recorder is used by one thread at a time, so one owns it, and what the other offers comes over a channel. The lane
//! holds 16 messages: they are taken into the file before there are more, so that none is lost.
use r10::{ALL_COUNTS, Civil, Content, Cursor, Disk, Gap, Message, Recorder, Region, Run};
use std::error::Error;
use std::path::Path;
use std::sync::mpsc::sync_channel;
use std::thread;

const BLOCKS: usize = 2048;
const ROOM: usize = 1024;
const LINE: u16 = 5;
const LANE: usize = 16;
const SCRIPT: &str = "blocks = 2048
directory = 2
volume = \"VOL\"
nodes = 100
time = 1
event = 2
[[channel]]
id = 5
kind = \"uart\"
capacity = 16
check = 8
bytes = 4096
number = 100
";

type Done<T> = Result<T, Box<dyn Error>>;

/// A recorder, and a cursor on its file.
struct Desk {
    recorder: Recorder,
    /// the disk under plain memory
    disk: Option<Vec<u8>>,
    cursor: Cursor,
    waiting: usize,
    filed: usize,
    played: usize,
}

impl Desk {
    /// A recorder that records.
    fn new(file: Option<&str>) -> Done<Desk> {
        let (mut recorder, mut disk) = match file {
            Some(path) => {
                if !Path::new(path).exists() {
                    Disk::make(path, BLOCKS, SCRIPT)?;
                }
                // SAFETY: the file is this program's: who runs it lets no other one write it or make it shorter
                let disk = unsafe { Disk::open(path, BLOCKS) }?;
                (Recorder::open(disk.into(), ROOM, SCRIPT)?, None)
            }
            None => (Recorder::format(Region::memory(BLOCKS), ROOM, SCRIPT)?, Some(vec![0; 512 * BLOCKS])),
        };
        settle(&mut recorder, disk.as_mut())?;
        recorder.mount()?;
        let files = recorder.files()?;
        if files.last().is_some_and(|it| !it.closed) {
            recorder.seal()?;
        }
        recorder.tick(1000, &Civil { year: 2024, month: 2, day: 29, hour: 12, minute: 34, second: 56, centi: 78 })?;
        recorder.start(&format!("FLT{}", files.len() + 1), b"")?;
        let cursor = recorder.cursor(files.len(), &[], ALL_COUNTS)?;
        let mut desk = Desk { recorder, disk, cursor, waiting: 0, filed: 0, played: 0 };
        desk.settle()?;
        Ok(desk)
    }

    fn settle(&mut self) -> Done<()> {
        settle(&mut self.recorder, self.disk.as_mut())
    }

    /// Takes what waits into the file.
    fn pump(&mut self) -> Done<()> {
        let moved = self.recorder.pump(LINE, usize::MAX)?;
        self.filed += moved;
        self.waiting -= moved;
        self.settle()
    }

    fn offer(&mut self, count: u64, text: &[u8]) -> Done<()> {
        self.recorder.offer(LINE, count, Message::Uart { parity: false, sub: 0, bytes: text })?;
        self.waiting += 1;
        if self.waiting == LANE { self.pump() } else { Ok(()) }
    }

    fn commit(&mut self) -> Done<()> {
        self.pump()?;
        self.recorder.commit()?;
        self.settle()
    }

    fn stop(&mut self) -> Done<()> {
        self.filed += self.recorder.stop()?.taken;
        self.settle()
    }

    /// Reads what was shown since the last time, and compares it with what was offered.
    fn play(&mut self) -> Done<()> {
        self.recorder.advance(&self.cursor)?;
        while let Some(entry) = self.recorder.next(&self.cursor)? {
            if let Content::Uart { bytes, .. } = entry.content {
                let wanted = format!("message {}", self.played);
                if entry.channel != LINE || entry.gap != Gap::None || bytes != wanted.as_bytes() {
                    return Err(format!("play: not message {}", self.played).into());
                }
                self.played += 1;
            }
        }
        Ok(())
    }

    fn close(mut self) -> Done<()> {
        self.recorder.dismount()?;
        self.settle()?;
        if let Some(disk) = &self.disk {
            println!("the disk holds {}", if disk == self.recorder.region() { "the same" } else { "something else" });
        }
        Ok(())
    }
}

/// Does on the disk what the calls so far came to.
fn settle(recorder: &mut Recorder, disk: Option<&mut Vec<u8>>) -> Done<()> {
    let Some(disk) = disk else {
        return Ok(recorder.settle()?);
    };
    let mut bytes = [0; 512 * 16];
    while let Some(run) = recorder.next_run(&mut bytes)? {
        if let Run::Write { block, blocks } = run {
            disk[512 * block..512 * (block + blocks)].copy_from_slice(&bytes[..512 * blocks]);
        }
    }
    Ok(())
}

fn main() -> Done<()> {
    let words: Vec<String> = std::env::args().collect();
    let (Some(messages), Some(each)) = (words.get(1).and_then(|it| it.parse::<usize>().ok()), words.get(2).and_then(|it| it.parse::<usize>().ok())) else {
        return Err("usage: example MESSAGES EACH [FILE]".into());
    };
    let (sender, receiver) = sync_channel::<(u64, Vec<u8>)>(64);
    let source = thread::spawn(move || {
        for number in 0..messages {
            let text = format!("message {number}").into_bytes();
            if sender.send((1000 + 10 * number as u64, text)).is_err() {
                return;
            }
        }
    });
    let mut desk = Desk::new(words.get(3).map(String::as_str))?;
    let mut offered = 0;
    for (count, text) in receiver {
        desk.offer(count, &text)?;
        offered += 1;
        if offered % each == 0 {
            desk.commit()?;
            desk.play()?;
            println!("sure {} played {}", desk.filed, desk.played);
        }
    }
    source.join().map_err(|_| "the source stopped")?;
    desk.stop()?;
    desk.play()?;
    println!("stopped, sure {} played {}", desk.filed, desk.played);
    desk.close()
}
