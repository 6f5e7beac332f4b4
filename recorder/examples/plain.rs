//! What a recorder is measured beside: a plain program that logs the same datagrams into a file, with two syncs each so many
//! milliseconds, as a commit has.
//!
//!     plain FILE MIB COMMIT_MS ADDRESS:PORT..
//!
//! A datagram's bytes go into the file after its length. At SIGTERM it says how many it had, and how long they took to be on the
//! disk.
use std::fs::OpenOptions;
use std::os::unix::fs::FileExt;
use std::sync::Arc;
use std::sync::atomic::{AtomicBool, Ordering::Relaxed};
use std::sync::mpsc::sync_channel;
use std::time::{Duration, Instant};

use r10_recorder::figures::Times;
use r10_recorder::settings::{Header, Udp};

fn main() -> Result<(), Box<dyn std::error::Error>> {
    let words: Vec<String> = std::env::args().skip(1).collect();
    let (path, mib, commit) = (&words[0], words[1].parse::<u64>()?, Duration::from_millis(words[2].parse()?));
    let file = OpenOptions::new().read(true).write(true).create(true).truncate(true).open(path)?;
    nix::fcntl::posix_fallocate(std::os::fd::AsRawFd::as_raw_fd(&file), 0, (mib << 20) as i64)?;
    file.sync_all()?;
    let ending = Arc::new(AtomicBool::new(false));
    signal_hook::flag::register(signal_hook::consts::SIGTERM, ending.clone())?;
    let (to, from) = sync_channel::<(Instant, Vec<u8>)>(1 << 20);
    for port in &words[3..] {
        let at =
            Udp { address: port.parse()?, group: None, receive_mib: 64, header: Header::None, stamp_limit: commit, card: None };
        let (socket, to) = (r10_recorder::udp::open(&at)?, to.clone());
        std::thread::spawn(move || {
            let mut bytes = vec![0; 65536];
            // (a second without a datagram is an error too)
            loop {
                if let Ok(count) = socket.recv(&mut bytes)
                    && to.send((Instant::now(), bytes[..count].to_vec())).is_err()
                {
                    return;
                }
            }
        });
    }
    let (mut at, mut total, mut times, mut last) = (512u64, 0u64, Times::default(), Instant::now());
    let (mut pending, mut bytes) = (Vec::new(), Vec::new());
    loop {
        let until = last + commit;
        while let Ok((came, message)) = from.recv_timeout(until.saturating_duration_since(Instant::now())) {
            bytes.extend((message.len() as u32).to_le_bytes());
            bytes.extend(&message);
            pending.push(came);
            if Instant::now() >= until {
                break;
            }
        }
        last = Instant::now();
        if !pending.is_empty() && at + bytes.len() as u64 <= mib << 20 {
            file.write_all_at(&bytes, at)?;
            file.sync_data()?;
            at += bytes.len() as u64;
            file.write_all_at(&at.to_le_bytes(), 0)?;
            file.sync_data()?;
            total += pending.len() as u64;
            let now = Instant::now();
            pending.drain(..).for_each(|it| times.add((now - it).as_nanos() as u64 / 100));
        }
        bytes.clear();
        if ending.load(Relaxed) {
            let cpu = std::fs::read_to_string("/proc/self/stat")?
                .rsplit(')')
                .next()
                .map(|it| it.split_whitespace().skip(11).take(2).filter_map(|it| it.parse::<u64>().ok()).sum::<u64>());
            println!(
                "{{\"durable\":{total},\"half_us\":{},\"of_100_99_us\":{},\"most_us\":{},\"cpu_ticks\":{}}}",
                times.below(500),
                times.below(990),
                times.most(),
                cpu.unwrap_or(0)
            );
            return Ok(());
        }
    }
}
