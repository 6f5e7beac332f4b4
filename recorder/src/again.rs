//! Messages are kept until a commit made them durable. Where the disk failed, or a medium is full, those that are in no file are offered
//! once more: to the recorder that comes next, before whatever comes later.
use crate::kinds::Head;
use crate::losses::Causes;
use crate::owner::{Lane, Owner, Pending, Trouble, tell_lost};

impl Lane {
    /// The recorder accepted a message.
    pub(crate) fn accepted(&mut self, count: u64, head: Head, bytes: &[u8]) {
        self.waiting += 1;
        self.kept.extend(bytes);
        let lost = std::mem::take(&mut self.told);
        self.pending.push_back(Pending { count, lost, kept: Some((head, bytes.len())) });
    }

    /// So many of the first messages that are kept are durable: their counts.
    pub(crate) fn are_durable(&mut self, number: usize) -> Vec<u64> {
        let gone: Vec<Pending> = self.pending.drain(..number).collect();
        let bytes: usize = gone.iter().map(Pending::length).sum();
        self.kept.drain(..bytes);
        gone.iter().map(|it| it.count).collect()
    }

    /// No recorder has the messages that are kept, and none is in a file: all are to be offered again. So are losses that no message
    /// carried yet.
    pub(crate) fn offer_all_again(&mut self) {
        (self.waiting, self.again, self.again_bytes) = (self.pending.len(), self.pending.len(), self.kept.len());
        self.untold += std::mem::take(&mut self.told);
        self.given = 0;
    }
}

impl Owner {
    /// Offers again what is kept of a channel, as far as its lane has room. Each message comes after the losses before it; those after
    /// the last one stand before the next one that comes.
    pub(crate) fn give_again(&mut self, place: usize) -> Result<(), Trouble> {
        if self.lanes[place].again == 0 {
            return Ok(());
        }
        let after = std::mem::take(&mut self.lanes[place].untold);
        let mut done = Ok(());
        while done.is_ok() {
            let lane = &self.lanes[place];
            if lane.again == 0 || lane.waiting - lane.again >= lane.channel.capacity {
                break;
            }
            done = self.give_one_again(place);
        }
        self.lanes[place].untold += after;
        done
    }

    fn give_one_again(&mut self, place: usize) -> Result<(), Trouble> {
        let (Some(recorder), lane) = (&mut self.recorder, &mut self.lanes[place]) else { return Ok(()) };
        let (at, from) = (lane.pending.len() - lane.again, lane.kept.len() - lane.again_bytes);
        let (count, length) = (lane.pending[at].count, lane.pending[at].length());
        lane.untold += std::mem::take(&mut lane.pending[at].lost);
        tell_lost(recorder, lane);
        let bytes = &lane.kept.make_contiguous()[from..from + length];
        let offered = match lane.pending[at].kept {
            Some((head, _)) => head.offer(recorder, lane.channel.id, count, bytes),
            None => Err(r10::Refusal::WrongKind),
        };
        match offered.map_err(Trouble::from) {
            Ok(()) => lane.pending[at].lost = std::mem::take(&mut lane.told),
            Err(trouble @ Trouble::Failed(_)) => {
                lane.pending[at].lost = std::mem::take(&mut lane.told);
                return Err(trouble);
            }
            // (it was accepted once, and is refused now)
            Err(_) => {
                lane.pending.remove(at);
                lane.kept.drain(from..from + length);
                lane.waiting -= 1;
            }
        }
        lane.again -= 1;
        lane.again_bytes -= length;
        if offered.is_err() {
            self.note_lost(place, Causes { disk: 1, ..Causes::default() });
        }
        Ok(())
    }
}
