//! A stop takes what came before it: queues are drained up to its moment, for as long as the settings say. What is in no file then is
//! lost, and counted. What a file has of its channels, and what they lost, stands at its end in the log channel.
use std::time::{Duration, Instant};

use crate::notes::Line;
use crate::owner::{Lane, Owner, State, Trouble};
use crate::recording::Ended;
use crate::{error, info, warning, watchdog};

/// How long a drain waits for an input's thread, where nothing came.
const PAUSE: Duration = Duration::from_millis(2);
/// The time that a close takes on a slow disk, for which the system is asked beside the stop's own.
const CLOSE: Duration = Duration::from_secs(30);

/// How the service ended.
#[derive(Clone, Copy, Debug, PartialEq, Eq)]
pub enum End {
    Well,
    /// recording was down, or the last file is not closed
    NotClosed,
    /// what came before the end is in no file
    Lost,
}

/// What a channel had when its file began.
#[derive(Clone, Copy, Debug, Default)]
pub(crate) struct Base {
    came: u64,
    lost: u64,
    passed: u64,
}

/// What a channel has of a file.
#[derive(Clone, Copy, Debug, Default, PartialEq, Eq)]
struct Total {
    came: u64,
    recorded: u64,
    lost: u64,
    /// those after its last message that was taken
    after: u64,
    /// those before messages that wait: they are in gaps of the next file
    carried: u64,
    /// messages that wait for the next file
    waiting: u64,
    passed: u64,
}

/// Asks systemd for as long as a stop may take.
pub fn ask_for_time(stop_for: Duration) {
    let time = u32::try_from((stop_for + CLOSE).as_micros()).unwrap_or(u32::MAX);
    let _ = sd_notify::notify(false, &[sd_notify::NotifyState::ExtendTimeoutUsec(time)]);
}

impl Lane {
    /// The losses that stand before the next message of a file that is begun now.
    fn before(&self) -> u64 {
        self.untold + self.told + self.pending.iter().map(|it| it.lost).sum::<u64>()
    }

    fn total(&self) -> Total {
        let written = self.pending.len() - self.waiting.min(self.pending.len());
        Total {
            came: self.came_in - self.base.came,
            recorded: self.durable_in_file + written as u64,
            lost: self.lost - self.base.lost,
            after: self.untold + self.told,
            carried: self.pending.iter().skip(written).map(|it| it.lost).sum(),
            waiting: self.waiting as u64,
            passed: self.passed - self.base.passed,
        }
    }
}

impl Owner {
    /// Ends the recording with all that came up to a moment, a count. On a full medium, where none is recorded any more, what comes
    /// only passes from then on. How many that came before are in no file.
    pub(crate) fn finish(&mut self, why: Ended, moment: u64) -> Result<u64, Trouble> {
        let until = Instant::now() + self.settings.stop_for;
        self.stop.missed = Some(0);
        if !self.drain(moment, until) {
            self.leave(moment);
        }
        let mut done = Ok(());
        loop {
            // what was lost without a message, and what was said of a file that was cut off, has to be in a file
            if self.wish.begins || self.wish.owes {
                done = self.begin_file();
            }
            if done.is_ok() && self.state != State::Recording {
                break;
            }
            if why == Ended::WithService {
                ask_for_time(self.settings.stop_for);
            }
            done = done.and_then(|()| self.end_recording(why));
            let Err(Trouble::Failed(text)) = &done else { break };
            if Instant::now() >= until {
                break;
            }
            // what was not durable is looked for, and lost if it is not there; then the stop is done in the next file
            let text = text.clone();
            self.fail(&text);
            self.until_opened(until);
            done = Ok(());
        }
        let lost = self.stop.missed.take().unwrap_or(0);
        self.log_losses();
        if !self.stop.ending.load(std::sync::atomic::Ordering::Relaxed) {
            self.stop.moment.clear();
        }
        self.say_totals();
        done?;
        self.medium.keep(false);
        if matches!(self.state, State::Ready | State::Recording | State::Full) {
            self.state = State::Idle;
        }
        self.wish.wants = false;
        Ok(lost)
    }

    /// Waits while the medium is opened again.
    fn until_opened(&mut self, until: Instant) {
        while matches!(self.state, State::Failed(Some(_))) && Instant::now() < until {
            watchdog::beat();
            self.retry();
            std::thread::sleep(PAUSE);
        }
    }

    /// Takes in all that came up to a moment, and what of it has no room in the file comes into the next one. Whether that is all of it.
    fn drain(&mut self, moment: u64, until: Instant) -> bool {
        let mut past = vec![false; self.intake.outlets.len()];
        self.stop.limit = Some(moment);
        let is_all = loop {
            watchdog::beat();
            // while the disk is tried again what came stays in the queues
            self.until_opened(until);
            match self.drain_once(moment, &mut past) {
                Ok(_) if past.iter().all(|it| *it) => break true,
                Ok(is_idle) if is_idle && Instant::now() < until => std::thread::sleep(PAUSE),
                Ok(_) => (),
                done => self.mind(done.map(|_| ())),
            }
            if Instant::now() >= until {
                break false;
            }
        };
        self.stop.limit = None;
        is_all
    }

    /// Takes a batch of each queue that may have something from before the moment. Whether nothing was there.
    fn drain_once(&mut self, moment: u64, past: &mut [bool]) -> Result<bool, Trouble> {
        self.offer_taken()?;
        let mut is_idle = true;
        for (at, is_past) in past.iter_mut().enumerate().filter(|it| !*it.1) {
            // (it is asked before the queue is looked at: what the thread handed over is there then)
            let is_silent = self.intake.outlets[at].is_silent();
            if self.intake.take(at) {
                is_idle = false;
                *is_past = self.intake.has_after(moment);
                self.offer_taken()?;
            } else {
                *is_past = is_silent;
            }
        }
        Ok(is_idle)
    }

    /// What is in the queues still, and came up to a moment, is in no file.
    fn leave(&mut self, moment: u64) {
        self.stop.limit = Some(moment);
        self.stop.leaves = true;
        // (nothing of this needs the disk)
        for at in 0..self.intake.outlets.len() {
            let done = self.offer_taken();
            self.mind(done);
            while self.intake.take(at) {
                let is_past = self.intake.has_after(moment);
                let done = self.offer_taken();
                self.mind(done);
                if is_past {
                    break;
                }
            }
        }
        self.stop.limit = None;
        self.stop.leaves = false;
    }

    /// Ends the file and the use of the medium.
    pub(crate) fn end(&mut self) -> End {
        let moment = self.stop.moment.get().unwrap_or_else(|| self.count());
        let _ = sd_notify::notify(false, &[sd_notify::NotifyState::Stopping]);
        ask_for_time(self.settings.stop_for);
        if self.state == State::Dismounted {
            self.say_totals();
            info!("the service has ended; the medium was dismounted before");
            return End::Well;
        }
        let was_down = self.recorder.is_none();
        let done = self.finish(Ended::WithService, moment);
        // what a full medium left would have come first in the next file
        let left = self.waiting();
        if left > 0 {
            warning!("{left} messages waited for room, and are in no file");
        }
        if self.recorder.is_none() {
            warning!("the service ends; recording was down: {}", self.failures.why);
            let is_lost = !was_down && done.as_ref().is_ok_and(|it| *it > 0);
            return if is_lost { End::Lost } else { End::NotClosed };
        }
        let lost = *done.as_ref().unwrap_or(&0) + left as u64;
        match done.and_then(|_| self.close()) {
            Ok(()) if lost > 0 => {
                error!("{lost} messages came before the end of the service, and are in no file");
                End::Lost
            }
            Ok(()) => {
                info!("the service has ended; the medium can be taken away");
                End::Well
            }
            Err(trouble) => {
                error!("the service ends, and its file is not closed: {trouble}; its next start closes it");
                if lost > 0 { End::Lost } else { End::NotClosed }
            }
        }
    }

    fn close(&mut self) -> Result<(), Trouble> {
        self.recorder()?.dismount()?;
        self.settle()
    }

    /// Of each channel, in the system's log, what became of what came since the start of the service.
    pub(crate) fn say_totals(&self) {
        for lane in self.listed() {
            let (recorded, waiting) = (lane.durable, lane.pending.len());
            let waits = if waiting > 0 { format!(", {waiting} wait in memory") } else { String::new() };
            info!(
                "channel {}: came {}, recorded {recorded}, lost {} ({}), passed {}{waits}",
                lane.channel.id, lane.came_in, lane.lost, lane.causes, lane.passed
            );
        }
    }

    /// Puts what was lost since the last such lines into the log channel, by channel and cause.
    pub(crate) fn log_losses(&mut self) {
        self.losses_logged = Instant::now();
        for place in 0..self.listed().len() {
            let lane = &mut self.lanes[place];
            let more = lane.causes - lane.causes_logged;
            if more.all() > 0 {
                lane.causes_logged = lane.causes;
                let line = Line::new("lost").with("channel", lane.channel.id).with("all", more.all());
                let line = line.with("system", more.system).with("queue", more.queue).with("line", more.line);
                self.log(line.with("disk", more.disk));
            }
        }
    }

    /// A file begins: what stands before its first messages.
    pub(crate) fn log_before(&mut self) {
        for place in 0..self.listed().len() {
            let lane = &mut self.lanes[place];
            lane.base = Base { came: lane.came_in, lost: lane.lost, passed: lane.passed };
            // (after an erase a file may have the number of one that is gone)
            lane.total_logged = None;
            let (waiting, lost) = (lane.pending.len(), lane.before());
            let told = std::mem::take(&mut lane.after).min(lost);
            if waiting > 0 || lost > 0 {
                let line = Line::new("before").with("channel", lane.channel.id).with("waiting", waiting);
                self.log(line.with("lost", lost).with("told", told));
            }
        }
    }

    /// Puts into the log channel what each channel has of the file that ends, where that was not said of it already.
    pub(crate) fn log_totals(&mut self) {
        self.log_losses();
        let Some((number, name)) = self.file.as_ref().map(|it| (it.number + 1, it.name.clone())) else { return };
        for place in 0..self.listed().len() {
            let lane = &mut self.lanes[place];
            let it = lane.total();
            if lane.total_logged == Some((number, it.recorded, it.lost)) {
                continue;
            }
            lane.total_logged = Some((number, it.recorded, it.lost));
            lane.after = it.after;
            let line = Line::new("total").with("file", number).with("name", &name).with("channel", lane.channel.id);
            let line = line
                .with("kind", lane.channel.kind.name())
                .with("came", it.came)
                .with("recorded", it.recorded)
                .with("lost", it.lost)
                .with("after", it.after);
            let line = line.with("waiting", it.waiting).with("carried", it.carried);
            self.log_for_sure(line.with("passed", it.passed));
        }
    }
}
