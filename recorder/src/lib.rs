//! A recorder of IRIG 106 chapter 10 files as a service: what `r10d` and `r10ctl` are made of.
//!
//! The recorder itself is the library under the crate `r10`. Here are its inputs, its disk, its clock, and those who ask it
//! things. One thread owns it: [`owner`].
#![deny(unsafe_code)]

/// What a version ends with where the library below these programs is not known to be proved. For a build over a proved one
/// `scripts/recorder.sh` sets `R10_PROVED`.
pub const NOT_PROVED: &str = match option_env!("R10_PROVED") {
    Some(_) => "",
    None => " (not proved)",
};
/// The version of `r10d` and `r10ctl`, with that ending.
pub const VERSION: &str = match option_env!("R10_PROVED") {
    Some(_) => env!("CARGO_PKG_VERSION"),
    None => concat!(env!("CARGO_PKG_VERSION"), " (not proved)"),
};

pub mod acknowledge;
mod again;
pub mod alarms;
pub mod bit;
pub mod bodies;
pub mod chapter10;
pub mod chapter6;
pub mod client;
pub mod clock;
pub mod clock_programs;
pub mod clock_state;
pub mod control;
pub mod dates;
pub mod entries;
pub mod feed;
pub mod figures;
pub mod group;
pub mod header;
pub mod http;
pub mod inputs;
pub mod keeps;
pub mod kinds;
pub mod live;
pub mod log;
pub mod losses;
pub mod medium;
pub mod metrics;
pub mod notes;
pub mod owner;
pub mod page;
pub mod pipe;
pub mod readers;
pub mod recording;
pub mod recovery;
pub mod room;
pub mod row;
pub mod serial;
pub mod settings;
pub mod setup_text;
pub mod stamps;
pub mod standing;
pub mod stop;
pub mod udp;
pub mod watchdog;
pub mod words;
