//! A long file in parts.
use crate::{Cursor, Recorder, Refusal};
use std::ops::RangeInclusive;

/// One second.
const FIRST: u64 = 10_000_000;

/// The most counts that are tried at once where channels are given: ten seconds.
const SPAN: u64 = 100_000_000;

/// A reader of a long file, part by part: so it takes little memory. Of a file that does not grow, the parts one after the other are
/// what one cursor gives at once. Of a file that is recorded, what is shown later with a count that was read already is not given.
///
/// To find the end of a part it queues more for a moment: where channels are given, no more than was recorded in ten seconds; for all
/// channels, where none is, up to twice the time of the last part.
#[derive(Clone, Debug)]
pub struct Parts {
    file: usize,
    channels: Vec<u16>,
    from: u64,
    to: u64,
    span: u64,
    most: usize,
}

impl Parts {
    /// Of a file, for these channels, or all where there are none. A part has at most so many entries, or those of one count.
    pub fn new(file: usize, channels: &[u16], counts: RangeInclusive<u64>, most: usize) -> Parts {
        Parts { file, channels: channels.to_vec(), from: *counts.start(), to: *counts.end(), span: FIRST, most }
    }

    /// Where the next part's first entry is, where channels are given: before it there is nothing to read.
    fn first(&self, recorder: &mut Recorder) -> Result<u64, Refusal> {
        if self.channels.is_empty() {
            return Ok(self.from);
        }
        let mut first = self.to;
        for channel in &self.channels {
            if let Some((_, entry)) = recorder.find(self.file, *channel, self.from)? {
                first = first.min(entry.count);
            }
        }
        Ok(first)
    }

    /// A cursor that has the next part in its queue, and how many entries that is; none where all is read.
    pub fn next(&mut self, recorder: &mut Recorder) -> Result<Option<(Cursor, usize)>, Refusal> {
        if self.from > self.to {
            return Ok(None);
        }
        let first = self.first(recorder)?;
        let mut span = if self.channels.is_empty() { self.span } else { self.span.min(SPAN) };
        loop {
            let last = if self.to - first < span { self.to } else { first + (span - 1) };
            let cursor = recorder.cursor(self.file, &self.channels, self.from..=last)?;
            let queued = recorder.advance(&cursor)?;
            if queued > self.most && last > first {
                recorder.close_cursor(cursor)?;
                span = (last - first).div_ceil(2);
                continue;
            }
            self.from = last + 1;
            self.span = if queued > self.most / 4 { span } else { span.saturating_mul(2) };
            return Ok(Some((cursor, queued)));
        }
    }
}
