//! Datagrams of a source that stamps its messages itself: a header of 32 bytes, and then the message. docs/RECORDER.md has its form, and
//! recorder/examples has senders.
use std::collections::BTreeMap;
use std::net::SocketAddr;
use std::sync::atomic::Ordering::Relaxed;
use std::time::Duration;

use crate::feed::Feed;
use crate::inputs::Seldom;
use crate::losses::Cause;
use crate::settings::Channel;
use crate::stamps::{Civil, Source};

/// The letters with which a header begins.
pub const MAGIC: [u8; 4] = *b"R10D";
pub const VERSION: u8 = 1;
pub const LENGTH: usize = 32;

/// So many sources are kept apart. Where more come all are heard anew.
const MOST: usize = 256;
/// A message that comes so late is the first of a source that began anew.
const LATE: u32 = 1024;

/// What a datagram is.
#[derive(Clone, Copy, Debug, PartialEq, Eq)]
enum What {
    Message,
    /// a time of the source's counter, and what another clock was then
    Pair,
}

/// What a stamp is a time of.
#[derive(Clone, Copy, Debug, PartialEq, Eq)]
enum Stamp {
    /// there is none: the time is that of its arrival
    Arrival,
    /// the source's own counter, in units of 100 ns
    Counter,
    /// nanoseconds since 1970 in UTC
    Unix,
    /// nanoseconds since 1970 in TAI, as PTP has them
    Ptp,
}

impl Stamp {
    fn of(number: u32) -> Option<Stamp> {
        Some(match number {
            0 => Stamp::Arrival,
            1 => Stamp::Counter,
            2 => Stamp::Unix,
            3 => Stamp::Ptp,
            _ => return None,
        })
    }
}

#[derive(Clone, Copy, Debug, PartialEq, Eq)]
struct Header {
    what: What,
    stamp: Stamp,
    sequence: u32,
    channel: u16,
    sub: u16,
    time: u64,
    words: [u32; 2],
}

impl Header {
    /// Reads a datagram: its header, and what follows it.
    fn read(bytes: &[u8]) -> Result<(Header, &[u8]), &'static str> {
        let (head, body) = bytes.split_at_checked(LENGTH).ok_or("it is shorter than a header")?;
        let u16_at = |at: usize| u16::from_le_bytes([head[at], head[at + 1]]);
        let u32_at = |at: usize| u32::from(u16_at(at)) | u32::from(u16_at(at + 2)) << 16;
        if head[..4] != MAGIC {
            return Err("it does not begin with R10D");
        }
        if head[4] != VERSION || head[7] != 0 {
            return Err("its header is of another version");
        }
        let what = match head[5] {
            0 => What::Message,
            1 => What::Pair,
            _ => return Err("it is neither a message nor a pair"),
        };
        let stamp = Stamp::of(head[6].into()).ok_or("its stamp is of no kind")?;
        let time = u64::from(u32_at(16)) | u64::from(u32_at(20)) << 32;
        let words = [u32_at(24), u32_at(28)];
        Ok((Header { what, stamp, sequence: u32_at(8), channel: u16_at(12), sub: u16_at(14), time, words }, body))
    }
}

/// What is kept of a source.
#[derive(Default)]
struct Heard {
    source: Source,
    /// by the channel's place, the number that its next message has
    next: BTreeMap<usize, u32>,
}

/// Reads the datagrams of an input.
pub struct Reader {
    limit: u64,
    civil: Civil,
    heard: BTreeMap<Option<SocketAddr>, Heard>,
    bad: Seldom,
    refused: Seldom,
    /// losses that the system told of, and for which no number was missed yet
    told: u64,
}

impl Reader {
    pub fn new(feed: &Feed, limit: Duration) -> Reader {
        Reader {
            limit: counts(limit),
            civil: Civil::new(feed.counter()),
            heard: BTreeMap::new(),
            bad: Seldom::default(),
            refused: Seldom::default(),
            told: 0,
        }
    }

    /// The system dropped so many datagrams, and none came since. Of a socket of several channels nobody knows whose they were: the
    /// numbers of the next ones tell.
    pub fn dropped(&mut self, feed: &mut Feed, channels: &[Channel], count: u64) {
        if channels.len() == 1 {
            feed.lost(0, Cause::System, count);
            self.told += count;
        }
    }

    /// A datagram came at a count.
    pub fn datagram(&mut self, feed: &mut Feed, channels: &[Channel], from: Option<SocketAddr>, arrival: u64, bytes: &[u8]) {
        self.civil.look();
        if let Err(why) = self.read(feed, channels, from, arrival, bytes) {
            feed.bad(0);
            let id = channels.first().map_or(0, |it| it.id);
            self.bad.warn(|| format!("channel {id}: a datagram of {} bytes is none: {why}", bytes.len()));
        }
    }

    fn read(
        &mut self,
        feed: &mut Feed,
        channels: &[Channel],
        from: Option<SocketAddr>,
        arrival: u64,
        bytes: &[u8],
    ) -> Result<(), &'static str> {
        let (header, body) = Header::read(bytes)?;
        if !self.heard.contains_key(&from) && self.heard.len() >= MOST {
            self.heard.clear();
        }
        let heard = self.heard.entry(from).or_default();
        if header.what == What::Pair {
            let at = match Stamp::of(header.words[1]) {
                _ if header.stamp != Stamp::Counter => return Err("a pair is one of a counter"),
                Some(Stamp::Arrival) if body.is_empty() => arrival,
                Some(it @ (Stamp::Unix | Stamp::Ptp)) => {
                    let time = body.try_into().map(u64::from_le_bytes).map_err(|_| "a pair has a time of eight bytes")?;
                    if it == Stamp::Unix { self.civil.count_at(time.into()) } else { self.civil.count_at_tai(time.into()) }
                }
                _ => return Err("a pair is one of a counter with a time"),
            };
            if at.abs_diff(arrival) > self.limit {
                return Err("the time of a pair is too far from its arrival (stamp_limit_ms)");
            }
            heard.source.tie(header.time, at);
            return Ok(());
        }
        let place = match header.channel {
            0 if channels.len() == 1 => 0,
            id => channels.iter().position(|it| it.id == id).ok_or("its channel does not listen here")?,
        };
        let (head, length) =
            channels[place].kind.of_header(body, header.sub, header.words[0]).ok_or("it is no message of its kind")?;
        let lost = match heard.next.insert(place, header.sequence.wrapping_add(1)) {
            None => 0,
            Some(wanted) => match header.sequence.wrapping_sub(wanted) {
                missed if missed <= u32::MAX / 2 => u64::from(missed),
                back => {
                    // one that comes late was told as lost; a source that begins anew has lost nothing
                    if back.wrapping_neg() <= LATE && header.sequence != 0 {
                        heard.next.insert(place, wanted);
                        feed.came(place).inspect(|it| _ = it.late.fetch_add(1, Relaxed));
                    }
                    0
                }
            },
        };
        let told = lost.min(self.told);
        self.told -= told;
        let stamp = match header.stamp {
            Stamp::Arrival => None,
            Stamp::Counter => heard.source.count_of(header.time),
            Stamp::Unix => Some(self.civil.count_at(header.time.into())),
            Stamp::Ptp => Some(self.civil.count_at_tai(header.time.into())),
        };
        let count = within(stamp, arrival, self.limit, feed, place, &mut self.refused, channels[place].id);
        feed.message_at(place, lost - told, count, head, &body[..length]);
        Ok(())
    }
}

/// So long in counts.
pub fn counts(time: Duration) -> u64 {
    (time.as_nanos() / 100) as u64
}

/// A source's stamp, unless it is too far from when its message arrived: then the arrival's, and the message is counted. A stamp an hour
/// ahead would spoil all after it, as no message of a channel is before its last.
pub fn within(stamp: Option<u64>, arrival: u64, limit: u64, feed: &Feed, place: usize, refused: &mut Seldom, channel: u16) -> u64 {
    match stamp {
        Some(it) if it.abs_diff(arrival) <= limit => it,
        Some(it) => {
            feed.came(place).inspect(|it| _ = it.unstamped.fetch_add(1, Relaxed));
            refused.warn(|| {
                let off = (it as f64 - arrival as f64) / 1e7;
                format!("channel {channel}: a stamp is {off:+.3} s from its arrival (stamp_limit_ms): it has the arrival's time")
            });
            arrival
        }
        None => arrival,
    }
}

#[cfg(test)]
mod tests {
    use std::sync::Arc;

    use super::*;
    use crate::clock::{self, Counter, FIRST};
    use crate::feed::{Came, Outlet, feed};
    use crate::kinds::Head;

    struct Tried {
        reader: Reader,
        feed: Feed,
        outlet: Outlet,
        came: Vec<Arc<Came>>,
        channels: Vec<Channel>,
    }

    fn tried() -> Tried {
        let text = "medium = \"m\"\nblocks = 99\nvolume = \"V\"\n[control]\nsocket = \"c\"\n\
                    [[channel]]\nid = 5\nkind = \"1553\"\n[[channel]]\nid = 6\nkind = \"arinc\"\n";
        let channels = crate::settings::read(text, std::path::Path::new("/")).unwrap().channels;
        let came: Vec<Arc<Came>> = vec![Arc::default(), Arc::default()];
        let places: Vec<_> = came.iter().cloned().enumerate().collect();
        let (feed, outlet) = feed(std::thread::current(), Counter::new(), 1 << 20, &places);
        Tried { reader: Reader::new(&feed, Duration::from_secs(1)), feed, outlet, came, channels }
    }

    impl Tried {
        fn send(&mut self, arrival: u64, bytes: &[u8]) {
            self.reader.datagram(&mut self.feed, &self.channels, None, arrival, bytes);
        }

        /// Place, count and losses before it of what came.
        fn found(&mut self) -> Vec<(usize, u64, u64)> {
            self.feed.flush();
            self.outlet.take().map_or(Vec::new(), |it| it.items.iter().map(|it| (it.place as usize, it.count, it.lost)).collect())
        }
    }

    fn datagram(what: u8, stamp: u8, sequence: u32, channel: u16, time: u64, words: [u32; 2], body: &[u8]) -> Vec<u8> {
        let mut it = MAGIC.to_vec();
        it.extend([VERSION, what, stamp, 0]);
        it.extend(sequence.to_le_bytes());
        it.extend(channel.to_le_bytes());
        it.extend([0, 0]);
        it.extend(time.to_le_bytes());
        words.iter().for_each(|word| it.extend(word.to_le_bytes()));
        it.extend(body);
        it
    }

    #[test]
    fn a_source_has_its_own_time_bus_and_status() {
        let mut it = tried();
        let (now, second) = (it.feed.counter().count(), 10_000_000);
        let unix = clock::now() as u64;
        it.send(now, &datagram(0, 2, 0, 5, unix - 1_000_000, [0x0007_2000, 0], &[0x42, 0x28]));
        it.send(now, &datagram(0, 3, 0, 6, unix + 37_000_000_000 - 2_000_000, [0x305, 0], &[0xc1, 0, 0, 0x60]));
        // an hour ahead, and two hours behind: the arrival counts
        it.send(now, &datagram(0, 2, 1, 5, unix + 3_600_000_000_000, [0, 0], &[1, 0]));
        it.send(now + second, &datagram(0, 2, 2, 5, unix - 7_200_000_000_000, [0, 0], &[1, 0]));
        it.feed.flush();
        let batch = it.outlet.take().unwrap();
        let heads: Vec<_> = batch.items.iter().map(|it| it.head).collect();
        assert_eq!(heads[0], Head::Bus1553 { status: 0x2000, gap_times: 7 });
        assert_eq!(heads[1], Head::Arinc { bus: 5, format: false, parity: true, high: true, word: 0x6000_00c1 });
        let counts: Vec<_> = batch.items.iter().map(|it| it.count).collect();
        // (a test may have to wait for a processor)
        assert!(counts[0].abs_diff(now - 10_000) < 200_000 && counts[1].abs_diff(now - 20_000) < 200_000, "{now} {counts:?}");
        assert_eq!(counts[2..], [now.max(counts[0] + 1), now + second]);
        assert_eq!((it.came[0].unstamped.load(Relaxed), it.came[1].unstamped.load(Relaxed)), (2, 0));
    }

    /// A source's counter is tied by the pairs that it sends; before the first the arrival counts.
    #[test]
    fn a_counter_is_tied_by_pairs() {
        let mut it = tried();
        let now = FIRST + 50_000_000;
        it.send(now, &datagram(0, 1, 0, 5, 777, [0, 0], &[1, 0]));
        it.send(now + 10, &datagram(1, 1, 0, 0, 5000, [0, 0], &[]));
        it.send(now + 100, &datagram(0, 1, 1, 5, 5007, [0, 0], &[1, 0]));
        it.send(now + 200, &datagram(0, 1, 2, 5, 4_000_000_000, [0, 0], &[1, 0]));
        assert_eq!(it.found(), [(0, now, 0), (0, now + 17, 0), (0, now + 200, 0)]);
        // a pair with a time
        let (at, unix) = (it.feed.counter().count(), clock::now() as u64);
        it.send(at, &datagram(1, 1, 0, 0, 1_000_000, [0, 2], &(unix + 50_000_000).to_le_bytes()));
        it.send(at, &datagram(0, 1, 3, 5, 1_000_000, [0, 0], &[1, 0]));
        let tied = it.found()[0].1;
        assert!(tied.abs_diff((at + 500_000).max(now + 201)) < 300_000, "{at} {tied}");
        // those that are none
        for (words, body, stamp) in [([0, 1], vec![], 1), ([0, 2], vec![1], 1), ([0, 0], vec![1], 1), ([0, 0], vec![], 2)] {
            it.send(at, &datagram(1, stamp, 0, 0, 1, words, &body));
        }
        it.send(at, &datagram(1, 1, 0, 0, 1, [0, 2], &(unix + 5_000_000_000).to_le_bytes()));
        assert_eq!(it.came[0].bad.load(Relaxed), 5);
    }

    #[test]
    fn a_number_that_is_missed_is_a_loss() {
        let mut it = tried();
        let sent = [(5, 7), (5, 8), (6, 0), (5, 11), (5, 10), (5, 12), (6, u32::MAX), (5, 0), (5, 1)];
        for (at, (channel, number)) in sent.into_iter().enumerate() {
            let body = if channel == 5 { &[1, 0][..] } else { &[1, 0, 0, 0] };
            it.send(FIRST + 10 * at as u64, &datagram(0, 0, number, channel, 0, [0, 0], body));
        }
        let found = it.found();
        let losses: Vec<_> = found.iter().map(|it| (it.0, it.2)).collect();
        assert_eq!(losses, [(0, 0), (0, 0), (1, 0), (0, 2), (0, 0), (0, 0), (1, 0), (0, 0), (0, 0)]);
        assert_eq!((it.came[0].late.load(Relaxed), it.came[0].lost.load(Relaxed)), (1, 2));
        // what the system told of already is not told twice
        let channels = it.channels[..1].to_vec();
        it.reader.dropped(&mut it.feed, &channels, 3);
        it.send(FIRST + 1000, &datagram(0, 0, 6, 5, 0, [0, 0], &[1, 0]));
        assert_eq!((it.found()[0].2, it.came[0].lost.load(Relaxed)), (4, 6));
    }

    #[test]
    fn what_is_no_datagram_of_a_source_is_counted() {
        let mut it = tried();
        let good = datagram(0, 0, 0, 5, 0, [0, 0], &[1, 0]);
        let mut wrong = vec![vec![], good[..31].to_vec(), good[..33].to_vec(), datagram(0, 0, 0, 7, 0, [0, 0], &[1, 0])];
        for (at, value) in [(0, 0), (4, 2), (5, 2), (6, 4), (7, 1), (12, 0)] {
            let mut it = good.clone();
            it[at] = value;
            wrong.push(it);
        }
        wrong.iter().for_each(|bytes| it.send(FIRST, bytes));
        it.send(FIRST, &good);
        assert_eq!((it.found().len(), it.came[0].bad.load(Relaxed)), (1, wrong.len() as u64));
    }
}
