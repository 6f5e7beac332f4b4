//! Load for a recorder: numbered messages by UDP at a rate, until the time is up or it is killed.
//!
//!     load ADDRESS:PORT.. rate=N size=N seconds=N run=N count=N
//!
//! A message has its run and its number on its port, eight bytes each, the low ones first, and then bytes that follow from the
//! number.
use std::net::{SocketAddr, UdpSocket};
use std::time::{Duration, Instant};

fn main() {
    let words: Vec<String> = std::env::args().skip(1).collect();
    let get = |key: &str, other: u64| {
        words.iter().find_map(|it| it.strip_prefix(&format!("{key}=")).map(|it| it.parse().unwrap_or(other))).unwrap_or(other)
    };
    let ports: Vec<SocketAddr> = words.iter().filter_map(|it| it.parse().ok()).collect();
    let (rate, size, run) = (get("rate", 10_000), get("size", 40).max(16) as usize, get("run", 0));
    let (seconds, count) = (Duration::from_secs(get("seconds", 10)), get("count", u64::MAX));
    let sockets: Vec<UdpSocket> = ports
        .iter()
        .map(|port| {
            let socket = UdpSocket::bind("127.0.0.1:0").expect("a socket");
            socket.connect(port).expect("a port");
            socket
        })
        .collect();
    let (start, mut sent, mut failed) = (Instant::now(), 0u64, 0u64);
    let mut bytes = vec![0u8; size];
    while start.elapsed() < seconds && sent < count {
        let due = if rate == 0 { u64::MAX } else { (start.elapsed().as_secs_f64() * rate as f64) as u64 };
        if sent >= due {
            std::thread::sleep(Duration::from_micros(200));
            continue;
        }
        for _ in 0..(due - sent).min(256).min(count - sent) {
            let (place, number) = ((sent % sockets.len() as u64) as usize, sent / sockets.len() as u64);
            bytes[..8].copy_from_slice(&run.to_le_bytes());
            bytes[8..16].copy_from_slice(&number.to_le_bytes());
            for (at, it) in bytes[16..].iter_mut().enumerate() {
                *it = (number as usize * 31 + at) as u8;
            }
            // a port on which nobody listens yet refuses: that one is sent again
            if sockets[place].send(&bytes).is_err() {
                failed += 1;
                if sockets[place].send(&bytes).is_err() {
                    failed += 1;
                }
            }
            sent += 1;
        }
    }
    println!("{{\"sent\":{sent},\"failed\":{failed},\"seconds\":{:.2}}}", start.elapsed().as_secs_f64());
}
