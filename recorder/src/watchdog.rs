//! The service's manager ends one that does not beat. Each turn of the recorder's thread beats, and what takes long in one.
use std::sync::Mutex;
use std::time::{Duration, Instant};

/// How often it beats, and when it did last.
static LAST: Mutex<Option<(Duration, Instant)>> = Mutex::new(None);

/// Begins to beat, where the manager wants it.
pub fn start() {
    let mut micros = 0;
    if sd_notify::watchdog_enabled(false, &mut micros)
        && let Ok(mut last) = LAST.lock()
    {
        *last = Some((Duration::from_micros(micros / 2), Instant::now()));
    }
}

/// Beats, where that is due.
pub fn beat() {
    if let Ok(mut last) = LAST.lock()
        && let Some((each, last)) = &mut *last
        && last.elapsed() >= *each
    {
        *last = Instant::now();
        let _ = sd_notify::notify(false, &[sd_notify::NotifyState::Watchdog]);
    }
}
