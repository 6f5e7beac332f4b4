//! `r10d`: the recorder as a service. See docs/RECORDER.md.
#![forbid(unsafe_code)]
use std::io::{self, Write};
use std::path::PathBuf;
use std::process::ExitCode;
use std::sync::Arc;
use std::sync::atomic::{
    AtomicBool,
    Ordering::{Relaxed, SeqCst},
};
use std::sync::mpsc::channel;
use std::thread;
use std::time::Duration;

use clap::Parser;
use nix::sys::signal::{SigSet, Signal};
use r10_recorder::clock::Counter;
use r10_recorder::control::{self, Asking};
use r10_recorder::feed::Came;
use r10_recorder::losses::Moment;
use r10_recorder::medium::{Medium, Refusal};
use r10_recorder::notes::{Board, Line};
use r10_recorder::owner::{Owner, Ties};
use r10_recorder::settings::{self, Settings};
use r10_recorder::standing::Shared;
use r10_recorder::stop::{self, End};
use r10_recorder::{alarms, error, info, inputs, log, metrics, page, warning, watchdog};
use signal_hook::consts::signal::{SIGHUP, SIGINT, SIGTERM, SIGXFSZ};
use signal_hook::iterator::Signals;

#[derive(Parser)]
#[command(
    name = "r10d",
    version = r10_recorder::VERSION,
    about = "Records live inputs as IRIG 106 chapter 10 files on a disk, and can be watched and controlled meanwhile (r10ctl).",
    after_help = "SIGTERM and SIGINT end the file, and then the service. SIGHUP reads the settings anew: names of channels, limits and alarms are taken,
and the log says what wants a restart.

Statuses: 0 all went well; 2 the settings are wrong; 3 it cannot start. With 4 it ended while recording was down, or with a
file that is not closed. With 5 messages came before its end that are in no file."
)]
struct Words {
    /// The settings, in TOML: see docs/RECORDER.md
    settings: PathBuf,
    /// Says what is wrong with the settings, by line, key, value and limit, and ends
    #[arg(long, conflicts_with = "format")]
    check: bool,
    /// Writes an empty directory to a medium that has none, as a new block device, and ends
    #[arg(long)]
    format: bool,
    /// With --format: also over a directory or something else, and says what went
    #[arg(long, requires = "format")]
    force: bool,
}

/// Statuses: 0 all went well, 2 the settings are wrong, 3 the service cannot start, 4 it ended with a file that is not closed, 5 what
/// came before its end is in no file.
const WRONG: u8 = 2;
const NO_START: u8 = 3;
const NOT_CLOSED: u8 = 4;
const LOST: u8 = 5;

/// Says a line on standard error, if that takes one.
fn complain(line: &str) {
    let _ = writeln!(io::stderr(), "{line}");
}

fn main() -> ExitCode {
    let words = Words::parse();
    let settings = match settings::of_file(&words.settings) {
        Ok(it) => it,
        Err(faults) => {
            faults.iter().for_each(|it| complain(it));
            return WRONG.into();
        }
    };
    if words.check {
        let line = format!("{}: good, {} channels\n", words.settings.display(), settings.channels.len());
        return match io::stdout().write_all(line.as_bytes()) {
            Ok(()) => ExitCode::SUCCESS,
            Err(error) => {
                complain(&format!("cannot print: {error}"));
                NO_START.into()
            }
        };
    }
    if words.format {
        let mut status = ExitCode::SUCCESS;
        for place in 0..settings.media.len() {
            let medium = Medium::at(&settings, place);
            match medium.format(words.force) {
                Ok(gone) => gone.iter().for_each(|it| complain(&format!("the medium {} had {it}; it is empty now", medium.name()))),
                Err(refusal) => {
                    complain(refusal.text());
                    status = NO_START.into();
                }
            }
        }
        return status;
    }
    let status = match serve(settings) {
        Ok(End::Well) => ExitCode::SUCCESS,
        Ok(End::NotClosed) => NOT_CLOSED.into(),
        Ok(End::Lost) => LOST.into(),
        Err(why) => {
            error!("the service does not start: {why}");
            NO_START.into()
        }
    };
    log::flush();
    status
}

/// How often it is looked whether the settings are to be read anew.
const LOOKS: Duration = Duration::from_millis(100);

/// Reads the settings anew at each SIGHUP. Names of channels, limits of the recording and alarms are taken at once; of the rest it says what waits for a restart.
fn read_anew(first: &Settings, asked: &AtomicBool, shared: &Shared, board: &Board) {
    let path = &first.file;
    loop {
        std::thread::sleep(LOOKS);
        if !asked.swap(false, SeqCst) {
            continue;
        }
        match settings::of_file(path) {
            Err(faults) => {
                faults.iter().for_each(|it| error!("{it}"));
                warning!("the settings stay as they were: the file is wrong");
            }
            Ok(settings) => {
                let waits = first.differ_for_good(&settings);
                if settings.channels.len() == first.channels.len() && !waits.contains(&"[[channel]]") {
                    shared.rename(&settings);
                    board.put(Line::new("settings").with("settings", &settings.sum));
                    info!("the settings were read anew: names of channels, limits and alarms are taken");
                } else {
                    warning!("the settings were read anew, and none is taken: the channels are others, which wants a restart");
                }
                if !waits.is_empty() {
                    warning!("these settings are other ones, and want a restart of the service: {}", waits.join("; "));
                }
            }
        }
    }
}

fn serve(settings: Settings) -> Result<End, String> {
    watchdog::start();
    // in the background of a terminal a read or a write there fails, or is done, and does not halt the recording; threads begin with
    // what is blocked here
    let mut of_terminal = SigSet::empty();
    of_terminal.add(Signal::SIGTTIN);
    of_terminal.add(Signal::SIGTTOU);
    of_terminal.thread_block().map_err(|it| it.to_string())?;
    let ending = Arc::new(AtomicBool::new(false));
    let mut signals = Signals::new([SIGTERM, SIGINT]).map_err(|it| it.to_string())?;
    // a terminal that goes ends no recording
    let asked = Arc::new(AtomicBool::new(false));
    signal_hook::flag::register(SIGHUP, asked.clone()).map_err(|it| it.to_string())?;
    // where a file may grow no more (`acknowledge`) its write fails, and the service goes on
    signal_hook::flag::register(SIGXFSZ, Arc::default()).map_err(|it| it.to_string())?;
    let counter = Counter::new();
    let came: Vec<Arc<Came>> = settings.channels.iter().map(|_| Arc::default()).collect();
    let (to, commands) = channel();
    let (board, moment) = (Board::new(counter), Moment::default());
    let (ended, at, owner_thread, stop_for) = (ending.clone(), moment.clone(), thread::current(), settings.stop_for);
    thread::Builder::new()
        .name("signals".to_string())
        .spawn(move || {
            for _ in signals.forever() {
                // (what comes from now on is after the end)
                at.set(counter.count());
                ended.store(true, Relaxed);
                // (the thread of the recorder may wait for the disk just now)
                stop::ask_for_time(stop_for);
                owner_thread.unpark();
            }
        })
        .map_err(|it| it.to_string())?;
    let shared = Shared::new(&settings, &came);
    let ties = Ties { commands, ending, board: board.clone(), moment: moment.clone(), shared: shared.clone() };
    let mut owner = Owner::new(settings.clone(), counter, came.clone(), ties).map_err(|it| it.to_string())?;
    let records = owner.begin().map_err(|it: Refusal| it.text().to_string())?;
    let thread = thread::current();
    let asking = Asking::new(to, thread.clone(), counter, moment.clone(), shared.clone());
    let outlets = inputs::start(&settings, counter, &came, &thread, &board, &moment).map_err(|it| it.to_string())?;
    control::start(&settings, &asking).map_err(|it| it.to_string())?;
    if let Some(address) = settings.metrics {
        metrics::start(address, &settings.peers, shared.clone()).map_err(|it| it.to_string())?;
    }
    page::start(&settings, &shared, &asking).map_err(|it| it.to_string())?;
    alarms::start(&shared, board.clone()).map_err(|it| it.to_string())?;
    let (first, told) = (settings.clone(), board.clone());
    thread::Builder::new()
        .name("settings".to_string())
        .spawn(move || read_anew(&first, &asked, &shared, &told))
        .map_err(|it| it.to_string())?;
    info!(
        "r10d {} is ready: {} channels, control at {}",
        r10_recorder::VERSION,
        settings.channels.len(),
        settings.socket.display()
    );
    let _ = sd_notify::notify(false, &[sd_notify::NotifyState::Ready]);
    Ok(owner.run(outlets, records))
}
