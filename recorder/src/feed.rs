//! What lies between an input's thread and the recorder's: a queue that is bounded in bytes, and counts what does not fit.
//!
//! Each input has a queue of its own, so none can take another's room. What is lost goes with the next message of its channel, so
//! its place is known.
use std::os::fd::{AsRawFd, OwnedFd};
use std::sync::atomic::{AtomicBool, AtomicU64, AtomicUsize, Ordering::Relaxed, Ordering::SeqCst};
use std::sync::mpsc::{Receiver, Sender, channel};
use std::sync::{Arc, Mutex};
use std::thread::Thread;
use std::time::{Duration, Instant};

use nix::poll::{PollFd, PollFlags, poll};

use crate::clock::Counter;
use crate::inputs::AGAIN;
use crate::kinds::Head;
use crate::losses::{Cause, Causes, Moment};
use crate::notes::{Board, Line};

#[derive(Clone, Copy, Debug)]
pub struct Item {
    /// the channel's place in the settings
    pub place: u32,
    pub length: u32,
    pub count: u64,
    /// when it arrived, by the counter: a source's own stamp may differ
    pub arrived: u64,
    /// messages of the channel that were lost right before this one
    pub lost: u64,
    pub head: Head,
}

/// Messages side by side.
#[derive(Debug, Default)]
pub struct Batch {
    pub items: Vec<Item>,
    pub bytes: Vec<u8>,
    /// by place, how many messages were lost after these
    pub lost: Vec<(usize, u64)>,
    /// by place, why all that were lost before and after these were
    pub causes: Vec<(usize, Causes)>,
    /// by place, how many had no room that came after the moment of a stop
    pub after: Vec<(usize, u64)>,
}

impl Batch {
    /// What it takes of memory: a batch of one short message is mostly room.
    fn size(&self) -> usize {
        let rooms = self.bytes.capacity() + self.items.capacity() * size_of::<Item>();
        let lists = (self.lost.capacity() + self.after.capacity()) * size_of::<(usize, u64)>();
        size_of::<Batch>() + rooms + lists + self.causes.capacity() * size_of::<(usize, Causes)>()
    }
}

/// What an input counts of a channel, and who asks reads.
#[derive(Debug, Default)]
pub struct Came {
    pub messages: AtomicU64,
    pub bytes: AtomicU64,
    /// lost in the system, on the line, or for want of room in the queue
    pub lost: AtomicU64,
    /// taken for no message: a line that cannot be read, or bytes that are none of the channel's kind
    pub bad: AtomicU64,
    /// messages whose stamp was not later than the last one's, so that it is the last one's and one more
    pub moved: AtomicU64,
    /// messages whose stamp was not taken: it is the time at which they were read
    pub unstamped: AtomicU64,
    /// messages that came after a later one of their source
    pub late: AtomicU64,
    /// packets of chapter 10 whose messages are not recorded, as of another type or channel
    pub others: AtomicU64,
}

const MOST_ITEMS: usize = 512;
const MOST_BYTES: usize = 1 << 16;

/// The end that an input's thread has.
pub struct Feed {
    to: Sender<Batch>,
    owner: Thread,
    queued: Arc<AtomicUsize>,
    limit: usize,
    batch: Batch,
    counter: Counter,
    channels: Vec<Ending>,
    source: Arc<Source>,
    board: Option<Board>,
    moment: Moment,
    /// when what is handed over now arrived, and what came before it
    arrived: u64,
    before: u64,
    unsure: bool,
    /// how far that arrival may be off, in nanoseconds
    off: i128,
    inexact: Option<Inexact>,
    /// when the last line of such messages was written
    said: Option<Instant>,
}

/// Messages whose times may be off by more than the clock is: from a count to a count, by so many nanoseconds at most.
struct Inexact {
    from: u64,
    to: u64,
    off: i128,
}

/// Lines of these lie so far apart at least.
const APART: Duration = Duration::from_secs(1);

struct Ending {
    place: usize,
    came: Arc<Came>,
    lost: u64,
    causes: Causes,
    after: u64,
    last: u64,
}

/// How an input's thread stands, for who has to know whether all that came is in its queue.
struct Source {
    /// it waits for what comes, and what came before is in the queue
    waits: AtomicBool,
    /// losses had no room in the queue, or the system was not asked yet what it dropped
    owes: AtomicBool,
    /// what it reads
    file: Mutex<Option<OwnedFd>>,
}

impl Source {
    /// Whether nothing more is there. What is in the file is looked for first: the thread says that it does not wait before it reads.
    fn is_silent(&self) -> bool {
        let has_more = self.file.lock().is_ok_and(|it| {
            it.as_ref().is_some_and(|it| poll(&mut [PollFd::new(it.as_raw_fd(), PollFlags::POLLIN)], 0).is_ok_and(|it| it > 0))
        });
        !has_more && self.waits.load(SeqCst) && !self.owes.load(SeqCst)
    }
}

/// The end that the recorder's thread has.
pub struct Outlet {
    from: Receiver<Batch>,
    queued: Arc<AtomicUsize>,
    source: Arc<Source>,
}

/// A queue for the channels of these places: of so many bytes, messages and all.
pub fn feed(owner: Thread, counter: Counter, limit: usize, channels: &[(usize, Arc<Came>)]) -> (Feed, Outlet) {
    let (to, from) = channel();
    let queued = Arc::new(AtomicUsize::new(0));
    let ending = |(place, came): &(usize, Arc<Came>)| Ending {
        place: *place,
        came: came.clone(),
        lost: 0,
        causes: Causes::default(),
        after: 0,
        last: 0,
    };
    let source = Arc::new(Source { waits: AtomicBool::new(true), owes: AtomicBool::new(false), file: Mutex::new(None) });
    let feed = Feed {
        to,
        owner,
        queued: queued.clone(),
        limit,
        batch: Batch::default(),
        counter,
        channels: channels.iter().map(ending).collect(),
        source: source.clone(),
        board: None,
        moment: Moment::default(),
        arrived: 0,
        before: 0,
        unsure: false,
        off: 0,
        inexact: None,
        said: None,
    };
    (feed, Outlet { from, queued, source })
}

impl Feed {
    /// With lines for the log channel, and stops.
    #[must_use]
    pub fn with(mut self, board: Board, moment: Moment) -> Feed {
        (self.board, self.moment) = (Some(board), moment);
        self
    }

    /// Puts a line into the log channel: what became of the input of these channels.
    pub fn note(&self, ids: &[u16], input: &str, state: &str, why: &str) {
        if let Some(board) = &self.board {
            let ids: Vec<String> = ids.iter().map(u16::to_string).collect();
            let line = Line::new("input").with("channels", ids.join(",")).with("input", input).with("state", state);
            board.put(if why.is_empty() { line } else { line.with("why", why) });
        }
    }

    /// What is read from now on, if anything.
    pub fn reads(&mut self, file: Option<OwnedFd>) {
        if let Ok(mut it) = self.source.file.lock() {
            *it = file;
        }
    }

    /// Hands over what there is, as the thread waits then.
    pub fn waits(&mut self) {
        self.flush();
        self.source.owes.store(self.unsure || self.has_losses(), SeqCst);
        self.source.waits.store(true, SeqCst);
    }

    /// Whether the system may have dropped something that was not asked for yet.
    pub fn is_unsure(&mut self, it: bool) {
        self.unsure = it;
    }

    /// Whether a stop was asked for.
    pub fn is_stopped(&self) -> bool {
        self.moment.get().is_some()
    }

    /// The thread waits no more: it may read.
    pub fn goes_on(&mut self) {
        self.source.waits.store(false, SeqCst);
    }

    /// What is handed over next arrived at a count.
    pub fn arrives(&mut self, count: u64) {
        self.before = std::mem::replace(&mut self.arrived, count);
        self.off = 0;
    }

    /// That count may be off by so many nanoseconds.
    pub fn may_be_off(&mut self, nanos: i128) {
        self.off = nanos;
    }

    /// Keeps that a message of the arrival's count has another one, and that this may be off. Those that follow one that is too
    /// late are moved with it.
    fn keep_inexact(&mut self, arrived: u64, count: u64) {
        let moved = if self.inexact.is_some() { 100 * i128::from(count - arrived) } else { 0 };
        let off = self.off + moved;
        if off > 0 {
            let it = self.inexact.get_or_insert(Inexact { from: count, to: count, off });
            *it = Inexact { from: it.from.min(count), to: it.to.max(count), off: it.off.max(off) };
        }
    }

    /// Puts a line into the log channel where times of messages of these channels may be off by more than the clock is.
    pub fn say_stamps(&mut self, ids: &[u16]) {
        if self.said.is_none_or(|it| it.elapsed() >= APART)
            && let Some(it) = self.inexact.take()
            && let Some(board) = &self.board
        {
            let ids: Vec<String> = ids.iter().map(u16::to_string).collect();
            let line = Line::new("stamps").with("channels", ids.join(",")).with("from", it.from).with("to", it.to);
            board.put(line.with("off_ns", it.off));
            self.said = Some(Instant::now());
        }
    }

    /// A message came now: see [`Feed::message_at`].
    pub fn message(&mut self, channel: usize, lost: u64, head: Head, bytes: &[u8]) {
        let now = self.counter.count();
        self.arrives(now);
        self.message_at(channel, lost, now, head, bytes);
    }

    /// A message came at a count, and so many of its source's messages were missing before it. `channel` is its number among the
    /// feed's channels. Where there is no room it is lost too.
    pub fn message_at(&mut self, channel: usize, lost: u64, count: u64, head: Head, bytes: &[u8]) {
        let has_room = self.has_room(bytes.len());
        let Some(it) = self.channels.get_mut(channel) else { return };
        it.came.messages.fetch_add(1, Relaxed);
        it.came.bytes.fetch_add(bytes.len() as u64, Relaxed);
        it.lose(Cause::Line, lost);
        if !has_room {
            // what comes after the moment of a stop is not recorded: it has passed
            if self.moment.is_before(self.arrived) {
                it.after += 1;
            } else {
                it.lose(Cause::Queue, 1);
            }
            return;
        }
        // no two messages of a channel have the same count, so each can be found by it, and none is before the last one
        if count <= it.last {
            it.came.moved.fetch_add(1, Relaxed);
        }
        it.last = count.max(it.last + 1);
        let last = it.last;
        self.batch.items.push(Item {
            place: it.place as u32,
            length: bytes.len() as u32,
            count: last,
            arrived: self.arrived,
            lost: std::mem::take(&mut it.lost),
            head,
        });
        self.batch.bytes.extend_from_slice(bytes);
        if count == self.arrived {
            self.keep_inexact(count, last);
        }
        if self.batch.items.len() >= MOST_ITEMS || self.batch.bytes.len() >= MOST_BYTES {
            self.flush();
        }
    }

    /// Something came that is no message.
    pub fn bad(&mut self, channel: usize) {
        if let Some(it) = self.channels.get_mut(channel) {
            it.came.bad.fetch_add(1, Relaxed);
        }
    }

    /// The count of now.
    pub fn counter(&self) -> Counter {
        self.counter
    }

    /// What is counted of a channel.
    pub fn came(&self, channel: usize) -> Option<&Came> {
        self.channels.get(channel).map(|it| it.came.as_ref())
    }

    /// So many messages of a channel were lost before the next one. Where what came before them was after the moment of a stop, so
    /// were they.
    pub fn lost(&mut self, channel: usize, cause: Cause, count: u64) {
        let is_after = self.moment.is_before(self.before);
        if let Some(it) = self.channels.get_mut(channel) {
            if is_after {
                it.after += count;
            } else {
                it.lose(cause, count);
            }
        }
    }

    fn has_room(&self, length: usize) -> bool {
        self.queued.load(Relaxed) + self.batch.size() + length + size_of::<Item>() <= self.limit
    }

    /// Waits until a message of so many bytes has room: for an input that loses nothing by waiting.
    pub fn wait_for_room(&mut self, length: usize) {
        while !self.has_room(length) {
            self.flush();
            std::thread::sleep(Duration::from_millis(1));
        }
    }

    /// Whether losses wait here, as the queue had no room for them.
    pub fn has_losses(&self) -> bool {
        self.channels.iter().any(|it| it.lost > 0 || it.after > 0)
    }

    /// The input has ended: what there is goes over, and with it the losses, for which no other message comes.
    pub fn end(&mut self) {
        self.flush();
        while self.has_losses() {
            std::thread::sleep(AGAIN);
            self.flush();
        }
        self.reads(None);
        self.waits();
    }

    /// Hands over what there is. An input does so before it waits.
    pub fn flush(&mut self) {
        // losses alone wait where the queue is full: they go with what comes next
        let has_room = self.queued.load(Relaxed) + self.batch.size() <= self.limit;
        if has_room || !self.batch.items.is_empty() {
            for it in &mut self.channels {
                let (lost, after, causes) =
                    (std::mem::take(&mut it.lost), std::mem::take(&mut it.after), std::mem::take(&mut it.causes));
                self.batch.lost.extend((lost > 0).then_some((it.place, lost)));
                self.batch.after.extend((after > 0).then_some((it.place, after)));
                self.batch.causes.extend((causes.all() > 0).then_some((it.place, causes)));
            }
        }
        if self.batch.items.is_empty() && self.batch.lost.is_empty() && self.batch.after.is_empty() {
            return;
        }
        let batch = std::mem::take(&mut self.batch);
        self.queued.fetch_add(batch.size(), Relaxed);
        // where the recorder's thread is gone the process ends
        let _ = self.to.send(batch);
        self.owner.unpark();
    }
}

impl Ending {
    fn lose(&mut self, cause: Cause, count: u64) {
        self.lost += count;
        self.causes.add(cause, count);
        self.came.lost.fetch_add(count, Relaxed);
    }
}

impl Outlet {
    /// Whether its input waits, and all that came is in the queue.
    pub fn is_silent(&self) -> bool {
        self.source.is_silent()
    }

    pub fn take(&self) -> Option<Batch> {
        let batch = self.from.try_recv().ok()?;
        self.queued.fetch_sub(batch.size(), Relaxed);
        Some(batch)
    }

    /// The bytes that wait.
    pub fn queued(&self) -> usize {
        self.queued.load(Relaxed)
    }
}

#[cfg(test)]
mod tests {
    use std::io::Write;

    use super::*;

    const HEAD: Head = Head::Message { data_error: false, format: false, sub: 0 };

    #[test]
    fn what_does_not_fit_is_counted_and_goes_with_the_next_message() {
        let came = Arc::new(Came::default());
        // as much room as five messages take
        let five = Batch { items: Vec::with_capacity(8), bytes: Vec::with_capacity(2400), ..Batch::default() }.size();
        let (mut feed, outlet) = feed(std::thread::current(), Counter::new(), five, &[(7, came.clone())]);
        for _ in 0..50 {
            feed.message(0, 0, HEAD, &[0; 300]);
        }
        feed.flush();
        let (lost, taken) = (came.lost.load(Relaxed), 50 - came.lost.load(Relaxed));
        assert_eq!((came.messages.load(Relaxed), taken), (50, 5));
        // it is full: what is lost now waits
        feed.message(0, 0, HEAD, b"");
        feed.flush();
        let first = outlet.take().unwrap();
        assert_eq!(first.items.iter().map(|it| (it.place, it.lost)).collect::<Vec<_>>(), vec![(7, 0); taken as usize]);
        assert!(first.items.windows(2).all(|it| it[0].count < it[1].count));
        assert_eq!((first.lost, outlet.queued(), outlet.take().is_none()), (vec![(7, lost)], 0, true));
        feed.flush();
        let alone = outlet.take().unwrap();
        assert_eq!((alone.items.len(), alone.lost, outlet.queued()), (0, vec![(7, 1)], 0));
        feed.message(0, 4, HEAD, b"next");
        feed.message(0, 0, HEAD, b"one more");
        feed.flush();
        let next = outlet.take().unwrap();
        assert_eq!(next.items.iter().map(|it| it.lost).collect::<Vec<_>>(), [4, 0]);
        assert_eq!(next.bytes, b"nextone more");
        assert_eq!(came.lost.load(Relaxed), lost + 5);
    }

    /// Why messages were lost goes over with them, once; what has no room after the moment of a stop is no loss.
    #[test]
    fn causes_go_over_and_a_stop_has_a_moment() {
        let came = Arc::new(Came::default());
        let moment = Moment::default();
        let (feed, outlet) = feed(std::thread::current(), Counter::new(), 1 << 10, &[(2, came.clone())]);
        let mut feed = feed.with(Board::new(Counter::new()), moment.clone());
        feed.arrives(100);
        feed.lost(0, Cause::System, 3);
        feed.message_at(0, 2, 100, HEAD, b"first");
        feed.message_at(0, 0, 101, HEAD, &[0; 2000]);
        moment.set(150);
        for count in [160, 170] {
            feed.arrives(count);
            // (what was lost before the first of them may have come before the stop)
            feed.lost(0, Cause::System, 1);
            feed.message_at(0, 0, count, HEAD, &[0; 2000]);
        }
        feed.flush();
        let batch = outlet.take().unwrap();
        assert_eq!((batch.items[0].lost, batch.items[0].arrived, batch.items.len()), (5, 100, 1));
        assert_eq!((batch.lost, batch.after), (vec![(2, 2)], vec![(2, 3)]));
        assert_eq!(batch.causes, [(2, Causes { system: 4, queue: 1, line: 2, disk: 0 })]);
        assert_eq!((came.messages.load(Relaxed), came.lost.load(Relaxed)), (4, 7));
    }

    /// Nothing more is there where the thread waits, owes nothing, and nothing can be read.
    #[test]
    fn whether_an_input_is_silent() {
        let (reader, mut writer) = std::os::unix::net::UnixStream::pair().unwrap();
        let (mut feed, outlet) = feed(std::thread::current(), Counter::new(), 1 << 20, &[(0, Arc::default())]);
        assert!(outlet.is_silent());
        feed.reads(Some(reader.into()));
        assert!(outlet.is_silent());
        writer.write_all(b"x").unwrap();
        assert!(!outlet.is_silent());
        feed.reads(None);
        feed.goes_on();
        assert!(!outlet.is_silent());
        feed.is_unsure(true);
        feed.waits();
        assert!(!outlet.is_silent());
        feed.is_unsure(false);
        feed.waits();
        assert!(outlet.is_silent());
    }

    /// An input that ends with a full queue has losses for which no other message comes: they are handed over once there is room.
    #[test]
    fn losses_at_the_end_of_an_input_are_handed_over() {
        let (mut feed, outlet) = feed(std::thread::current(), Counter::new(), 1 << 12, &[(0, Arc::default())]);
        for _ in 0..1000 {
            feed.message(0, 0, HEAD, b"");
            feed.flush();
        }
        assert!(feed.has_losses());
        let thread = std::thread::spawn(move || feed.end());
        let (mut messages, mut lost) = (0, 0);
        while !thread.is_finished() || outlet.queued() > 0 {
            if let Some(batch) = outlet.take() {
                messages += batch.items.len() as u64;
                lost += batch.items.iter().map(|it| it.lost).chain(batch.lost.iter().map(|it| it.1)).sum::<u64>();
            }
        }
        assert!(messages > 0 && messages + lost == 1000, "{messages} messages, {lost} lost");
    }

    /// A stamp that is not later than the last one of its channel takes that one's place and one more. Other channels are not touched.
    #[test]
    fn no_two_messages_of_a_channel_have_one_count() {
        let came = [Arc::new(Came::default()), Arc::default()];
        let (mut feed, outlet) =
            feed(std::thread::current(), Counter::new(), 1 << 20, &[(3, came[0].clone()), (4, came[1].clone())]);
        for (channel, count) in [(0, 500), (0, 500), (1, 500), (0, 400), (0, 503), (0, 502), (1, 501)] {
            feed.message_at(channel, 0, count, HEAD, b"");
        }
        feed.flush();
        let found: Vec<(u32, u64)> = outlet.take().unwrap().items.iter().map(|it| (it.place, it.count)).collect();
        assert_eq!(found, [(3, 500), (3, 501), (4, 500), (3, 502), (3, 503), (3, 504), (4, 501)]);
        assert_eq!((came[0].moved.load(Relaxed), came[1].moved.load(Relaxed)), (3, 0));
    }

    #[test]
    fn an_input_that_waits_loses_nothing() {
        let (mut feed, outlet) = feed(std::thread::current(), Counter::new(), 1 << 12, &[(0, Arc::default())]);
        let thread = std::thread::spawn(move || {
            for _ in 0..10_000 {
                feed.wait_for_room(10);
                feed.message(0, 0, HEAD, b"0123456789");
            }
            feed.end();
        });
        let (mut messages, mut most) = (0, 0);
        while !thread.is_finished() || outlet.queued() > 0 {
            most = most.max(outlet.queued());
            messages += outlet.take().map_or(0, |it| it.items.len());
        }
        // (the room of a batch grows by doubling)
        assert!(messages == 10_000 && most <= 2 << 12, "{messages} messages, {most} bytes");
    }

    /// Messages that come one by one are handed over one by one, and each takes more memory than its bytes.
    #[test]
    fn what_waits_is_counted_with_all_that_it_takes() {
        let (mut feed, outlet) = feed(std::thread::current(), Counter::new(), 1 << 16, &[(0, Arc::default())]);
        let (mut taken, mut memory) = (0, 0);
        for _ in 0..10_000 {
            feed.message(0, 0, HEAD, b"short");
            feed.flush();
        }
        while let Some(batch) = outlet.take() {
            taken += batch.items.len();
            memory += size_of::<Batch>() + batch.bytes.capacity() + batch.items.capacity() * size_of::<Item>();
        }
        assert!(taken > 100 && memory <= 1 << 16, "{taken} messages in {memory} bytes");
    }

    #[test]
    fn a_long_batch_is_handed_over_by_itself() {
        let (mut feed, outlet) = feed(std::thread::current(), Counter::new(), 1 << 24, &[(0, Arc::default())]);
        for _ in 0..MOST_ITEMS {
            feed.message(0, 0, HEAD, b"");
        }
        assert_eq!(outlet.take().map(|it| it.items.len()), Some(MOST_ITEMS));
        feed.message(0, 0, HEAD, &vec![0; MOST_BYTES]);
        assert!(outlet.take().is_some());
        feed.message(0, 0, HEAD, b"");
        assert!(outlet.take().is_none());
    }
}
