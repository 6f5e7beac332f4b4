//! A reader's place in a file, and what it reads.
use crate::{Entry, Recorder, Refusal};
use std::iter::FusedIterator;
use std::sync::{Arc, Mutex, PoisonError};

/// A reader's place in a file, of one recorder. Dropped, it is closed by the recorder's next call on a cursor, or the next
/// [`Recorder::settle`]: what it has queued is given back then.
#[derive(Debug)]
pub struct Cursor {
    id: usize,
    /// Where a dropped one is noted; none of one that was closed.
    dropped: Option<Arc<Dropped>>,
}

/// The numbers of a recorder's cursors that were dropped, and are not closed yet. It is the recorder's name too: each has its own.
#[derive(Debug, Default)]
pub(crate) struct Dropped(Mutex<Vec<usize>>);

impl Dropped {
    pub(crate) fn take(&self) -> Vec<usize> {
        std::mem::take(&mut self.0.lock().unwrap_or_else(PoisonError::into_inner))
    }
}

impl Cursor {
    pub(crate) fn new(id: usize, dropped: &Arc<Dropped>) -> Cursor {
        Cursor { id, dropped: Some(Arc::clone(dropped)) }
    }

    /// Its number, if it is a cursor of this recorder.
    pub(crate) fn id_in(&self, dropped: &Arc<Dropped>) -> Option<usize> {
        self.dropped.as_ref().filter(|it| Arc::ptr_eq(it, dropped)).map(|_| self.id)
    }

    /// It is closed by its recorder.
    pub(crate) fn forget(mut self) {
        self.dropped = None;
    }
}

impl Drop for Cursor {
    fn drop(&mut self) {
        if let Some(it) = self.dropped.take() {
            it.0.lock().unwrap_or_else(PoisonError::into_inner).push(self.id);
        }
    }
}

/// The entries of a cursor's queue ([`Recorder::entries`]). It ends where the queue does, and after a refusal.
#[derive(Debug)]
pub struct Entries<'a> {
    from: Option<(&'a mut Recorder, &'a Cursor)>,
}

impl<'a> Entries<'a> {
    pub(crate) fn new(recorder: &'a mut Recorder, cursor: &'a Cursor) -> Entries<'a> {
        Entries { from: Some((recorder, cursor)) }
    }
}

impl Iterator for Entries<'_> {
    type Item = Result<Entry, Refusal>;

    fn next(&mut self) -> Option<Self::Item> {
        let (recorder, cursor) = self.from.as_mut()?;
        let next = recorder.next(cursor).transpose();
        if !matches!(next, Some(Ok(_))) {
            self.from = None;
        }
        next
    }
}

impl FusedIterator for Entries<'_> {}
