//! The inputs: a thread for each socket, each serial line and each pipe, which hands messages to the recorder's thread.
use std::collections::BTreeMap;
use std::io;
use std::path::PathBuf;
use std::sync::Arc;
use std::thread::{self, Thread};
use std::time::Duration;

use crate::clock::Counter;
use crate::feed::{Came, Feed, Outlet, feed};
use crate::losses::Moment;
use crate::notes::Board;
use crate::settings::{Header, Input, Settings};
use crate::{info, pipe, serial, udp, warning};

/// How long an input waits before it opens its line or pipe again.
pub const AGAIN: Duration = Duration::from_millis(200);

/// Starts a thread for each input, and gives the ends of their queues. A socket that cannot be had is a fault of the settings.
pub fn start(
    settings: &Settings,
    counter: Counter,
    came: &[Arc<Came>],
    owner: &Thread,
    board: &Board,
    moment: &Moment,
) -> io::Result<Vec<Outlet>> {
    let mut outlets = Vec::new();
    let mut pipes: BTreeMap<Option<PathBuf>, Vec<usize>> = BTreeMap::new();
    let mut queue = |places: &[usize]| -> Feed {
        let limit = places.iter().map(|it| settings.channels[*it].queue).sum();
        let channels: Vec<_> = places.iter().map(|it| (*it, came[*it].clone())).collect();
        let (feed, outlet) = feed(owner.clone(), counter, limit, &channels);
        outlets.push(outlet);
        feed.with(board.clone(), moment.clone())
    };
    for (place, channel) in settings.channels.iter().enumerate() {
        match &channel.input {
            None => info!("channel {}: it has no input", channel.id),
            Some(Input::Udp(it)) => {
                let (from, address) = (it.clone(), it.address);
                // with a header several channels may have one socket: it is the first one's
                let places: Vec<usize> = (place..settings.channels.len())
                    .filter(|at| *at == place || it.header != Header::None && settings.channels[*at].has(address))
                    .collect();
                if it.header != Header::None && settings.channels[..place].iter().any(|it| it.has(address)) {
                    continue;
                }
                let open = move || udp::open(&from);
                let what = format!("channel {}: UDP {address}", channel.id);
                let socket = match open() {
                    Ok(it) => Some(it),
                    // the machine may have started just now: the other channels do not wait for this one's network
                    Err(error) if udp::may_come(&error) => None,
                    Err(error) => {
                        let text = format!("{what}: {error}; give an address of this machine and a free port");
                        return Err(io::Error::new(error.kind(), text));
                    }
                };
                let feed = queue(&places);
                let channels: Vec<_> = places.iter().map(|it| settings.channels[*it].clone()).collect();
                let ids: Vec<u16> = channels.iter().map(|it| it.id).collect();
                thread::Builder::new().name(format!("udp {}", channel.id)).spawn(move || {
                    let socket = socket.unwrap_or_else(|| {
                        feed.note(&ids, &format!("udp {address}"), "failed", "the machine does not have this address yet");
                        udp::until_there(&what, open)
                    });
                    udp::run(socket, feed, &channels);
                })?;
            }
            Some(Input::Serial { path, baud, end, length, pause }) => {
                let framer = serial::Framer::new(*end, *length, pause.is_some());
                let (feed, channel, path, baud, pause) = (queue(&[place]), channel.clone(), path.clone(), *baud, *pause);
                thread::Builder::new()
                    .name(format!("serial {}", channel.id))
                    .spawn(move || serial::run(&path, baud, framer, pause, feed, &channel))?;
            }
            Some(Input::Lines { path }) => pipes.entry(path.clone()).or_default().push(place),
        }
    }
    for (path, places) in pipes {
        // it is there once the service is ready; why it is not the thread says
        let _ = path.as_deref().map(pipe::make);
        let feed = queue(&places);
        let channels: Vec<_> = places.iter().map(|it| settings.channels[*it].clone()).collect();
        thread::Builder::new().name("lines".to_string()).spawn(move || pipe::run(path.as_deref(), feed, &channels))?;
    }
    Ok(outlets)
}

/// Says a thing of a channel, but not more than once a minute: inputs are fast.
#[derive(Default)]
pub struct Seldom {
    last: Option<std::time::Instant>,
    unsaid: u64,
}

impl Seldom {
    pub fn warn(&mut self, text: impl FnOnce() -> String) {
        if self.last.is_some_and(|it| it.elapsed() < Duration::from_mins(1)) {
            self.unsaid += 1;
            return;
        }
        match std::mem::take(&mut self.unsaid) {
            0 => warning!("{}", text()),
            more => warning!("{} (and {more} more like it in the last minute)", text()),
        }
        self.last = Some(std::time::Instant::now());
    }
}
