//! `.BIT`, and the look before a flight that `r10ctl check` makes of it: whether settings, medium, clock, channels and log are well, and
//! what to do where one is not. Nothing that is recorded is touched.
use std::fmt::Write;
use std::time::{Duration, Instant};

use crate::log;
use crate::owner::{Owner, State, Trouble};
use crate::settings;
use crate::standing::Names;
use crate::words::{health_of, in_words};

/// A sync that takes longer is too slow for commits of the usual time.
const SLOW: Duration = Duration::from_millis(500);

/// What was tried: whether it is well, and what it is or what to do.
struct Found(Vec<(bool, String)>);

impl Found {
    fn put(&mut self, is_well: bool, text: String) {
        // (a line is one)
        self.0.push((is_well, text.replace(char::is_control, " ")));
    }
}

impl Owner {
    /// `.BIT`: tries what can be tried without touching what is recorded.
    pub(crate) fn bit(&mut self) -> Result<String, Trouble> {
        let mut found = Found(Vec::new());
        self.bit_of_settings(&mut found);
        self.bit_of_medium(&mut found)?;
        let is_right = self.clock.known.is_synchronised() == Some(true);
        let what = if is_right { "" } else { "; start a program that sets it, as chrony, or wait until it is in sync" };
        found.put(is_right, format!("clock: {}{what}", self.clock.known.line()));
        for lane in self.listed() {
            let bits = self.silence(lane) | health_of(lane);
            let (id, name) = (lane.channel.id, &lane.channel.name);
            let what = if bits == 0 { "" } else { "; look at its source, its cable and its input in the settings" };
            found.put(bits == 0, format!("channel {id} {name}: {}{what}", in_words(bits)));
        }
        let left_out = log::left_out();
        let what = if left_out == 0 {
            "it takes all lines".to_string()
        } else {
            format!("{left_out} lines were not taken: who reads it?")
        };
        found.put(left_out == 0, format!("log: {what}"));
        let failed = found.0.iter().filter(|it| !it.0).count();
        let mut text = String::new();
        for (number, (is_right, what)) in found.0.iter().enumerate() {
            let _ = writeln!(text, "BIT {number} {} {what}", if *is_right { "ok" } else { "FAILED" });
        }
        let _ = writeln!(text, "BIT {} of {} failed", failed, found.0.len());
        Ok(text)
    }

    /// The file with the settings, as it is now: the next start reads it.
    fn bit_of_settings(&self, found: &mut Found) {
        let path = &self.settings.file;
        match settings::of_file(path) {
            Ok(now) => {
                let waits = self.settings.differ_for_good(&now);
                if waits.is_empty() && Names::of(&now) != *self.shared.names() {
                    let what = "has other names, limits or alarms than the service runs by";
                    let id = std::process::id();
                    found.put(
                        false,
                        format!(
                            "settings: {} {what}; SIGHUP takes them: `kill -HUP {id}`, `systemctl reload r10d`",
                            path.display()
                        ),
                    );
                } else if waits.is_empty() {
                    found.put(true, format!("settings: {} is what the service runs by", path.display()));
                } else {
                    let what = waits.join("; ");
                    found.put(
                        false,
                        format!("settings: {} has other ones since the start: {what}; start the service anew", path.display()),
                    );
                }
            }
            Err(faults) => {
                let first = faults.first().cloned().unwrap_or_default();
                found.put(false, format!("settings: {first}; mend that before the next start"));
            }
        }
    }

    fn bit_of_medium(&mut self, found: &mut Found) -> Result<(), Trouble> {
        let directory = 1 + self.settings.directory as u64;
        let read = self.recorder.as_ref().map(|it| self.medium.read_plainly(it, 0..directory));
        let is_there = matches!(read, Some(Ok(())));
        match read {
            Some(Ok(())) => found.put(true, "medium: its directory can be read".to_string()),
            Some(Err(refusal)) => found.put(false, format!("medium: {}", refusal.text())),
            None => found.put(false, format!("medium: {}", self.failures.why)),
        }
        let has_path = self.recorder.is_some() && self.medium.is_at_its_path();
        let what = if has_path { "" } else { ", which it has not: mount it there, or start the service anew" };
        found.put(has_path, format!("medium: what is recorded on has its path{what}"));
        let free = match &mut self.recorder {
            Some(it) => it.status()?.free,
            None => 0,
        };
        let what = if free > 0 { "" } else { "; copy the files, then give .ERASE" };
        found.put(free > 0, format!("medium: {free} bytes are left for the next file, or in this one{what}"));
        let sector = self.medium.sector();
        let text = sector.map_or("its sectors are of unknown size".to_string(), |it| format!("its sectors have {it} bytes"));
        let is_kept_apart = sector == Some(512) || self.settings.directory >= 63;
        let what =
            if is_kept_apart { "" } else { ": make it with directory = 63, so that no file shares a sector with the directory" };
        found.put(is_kept_apart, format!("medium: {text}{what}"));
        if !is_there {
            return Ok(());
        }
        if matches!(self.state, State::Recording | State::Full) || free == 0 {
            let why = if self.state == State::Recording { "a file is recorded" } else { "the medium is full" };
            found.put(true, format!("medium: the last free sector is not tried: {why}"));
            return Ok(());
        }
        let files = self.recorder()?.files()?;
        let from = self.medium.first_block(&files) * 512;
        let start = Instant::now();
        match self.medium.try_last_sector(from, sector.unwrap_or(4096).into()) {
            Ok(Some((at, sync))) => {
                let ms = sync.as_secs_f64() * 1e3;
                let what = if sync < SLOW { "" } else { "; give commit_ms more, or another disk" };
                found.put(true, format!("medium: the last free sector, at byte {at}, can be written and read"));
                found.put(sync < SLOW, format!("medium: a sync took {ms:.1} ms{what}"));
            }
            Ok(None) => found.put(true, "medium: the last free sector is not tried: less than one is free".to_string()),
            Err(error) => {
                let ms = start.elapsed().as_millis();
                found.put(false, format!("medium: the last free sector fails after {ms} ms: {error}; record on another disk"));
            }
        }
        Ok(())
    }
}
