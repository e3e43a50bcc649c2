//! Month-end marks (A3): what marks, releases and marked reads are refused for, and their steps.

use crate::answer::{Answer, Refusal};
use crate::coverage::{Branch, Observer};
use crate::fault::Fault;
use crate::observe::{observe_reading, observe_status};
use crate::rights::Need;
use crate::store::{Doing, Store};

/// Marks are below this.
pub const MARKS: usize = 12;

impl Store {
    /// The mark of a record, else 3 and then 4; or what a fault takes for it.
    fn mark_for<F: Fault>(&self, worker: u8, mark: u16) -> Result<u8, Refusal> {
        let state = self.workers.get(usize::from(worker)).ok_or(Refusal::Worker)?;
        let mark = if F::MARK_BYTE { mark & 0xff } else { mark };
        match usize::from(mark) {
            ..MARKS => Ok(mark as u8),
            MARKS if F::MARK_TWELVE => Ok(MARKS as u8 - 1),
            _ if F::MARK_AFTER_BUSY && state.doing != Doing::Idle => Err(Refusal::Busy),
            _ => Err(Refusal::Register),
        }
    }

    /// Begins a mark: 3, 4, 23, 10, 13, then 19.
    pub(crate) fn begin_mark<F: Fault>(&mut self, worker: u8, mark: u16) -> Result<(), Refusal> {
        let mark = self.mark_for::<F>(worker, mark)?;
        let used = self.holds(mark);
        let state = self.idle_for::<F>(worker, 0, Need::Marks)?;
        if F::USED_BEFORE_SNAPSHOT && used {
            return Err(Refusal::MarkUsed);
        }
        if state.announced.is_none() {
            return Err(Refusal::NotAnnounced);
        }
        if used {
            return Err(Refusal::MarkUsed);
        }
        state.doing = Doing::Mark { mark };
        Ok(())
    }

    /// Begins a release: 3, 4, 23, 10, 20, then 21.
    pub(crate) fn begin_release<F: Fault>(&mut self, worker: u8, mark: u16) -> Result<(), Refusal> {
        let mark = self.mark_for::<F>(worker, mark)?;
        self.idle_for::<F>(worker, 0, Need::Marks)?;
        self.test_release::<F>(mark)?;
        self.workers[usize::from(worker)].doing = Doing::Release { mark };
        Ok(())
    }

    /// Begins a marked read: 3, 4 for its register or its mark, 23, 10, then 20.
    pub(crate) fn begin_marked<F: Fault>(
        &mut self,
        worker: u8,
        register: u16,
        mark: u8,
    ) -> Result<(), Refusal> {
        self.worker_for(worker, register)?;
        let mark = self.mark_for::<F>(worker, u16::from(mark))?;
        let empty = !self.holds(mark);
        let need = if F::MARKED_BY_MARKS { Need::Marks } else { Need::Read(register) };
        let state = self.idle_for::<F>(worker, register, need)?;
        if empty {
            return Err(Refusal::MarkEmpty);
        }
        state.doing = Doing::MarkedStart { register, mark };
        Ok(())
    }

    /// Is the mark in use?
    fn holds(&self, mark: u8) -> bool {
        self.marks[usize::from(mark)].is_some()
    }

    /// Does a read of the mark run, past its first step and not yet ended?
    pub fn is_read(&self, mark: u8) -> bool {
        let of = |doing| matches!(doing, Doing::MarkedAt { mark: other, .. } if other == mark);
        self.workers.iter().any(|worker| of(worker.doing))
    }

    /// Has a read of the mark begun and not taken its first step? Only a fault asks.
    fn is_to_be_read(&self, mark: u8) -> bool {
        let of = |doing| matches!(doing, Doing::MarkedStart { mark: other, .. } if other == mark);
        self.workers.iter().any(|worker| of(worker.doing))
    }

    /// 20, then 21, for a release that begins.
    fn test_release<F: Fault>(&self, mark: u8) -> Result<(), Refusal> {
        if !self.holds(mark) {
            return Err(Refusal::MarkEmpty);
        }
        let read = self.is_read(mark) && !F::RELEASE_UNDER_READ
            || F::READ_FROM_BEGIN && self.is_to_be_read(mark);
        if read {
            return Err(Refusal::MarkRead);
        }
        Ok(())
    }

    /// Mark: copies its worker's time, or meets 19.
    pub(crate) fn mark<F: Fault, O: Observer>(
        &mut self,
        w: usize,
        mark: u8,
        seen: &mut O,
    ) -> (Doing, Answer) {
        if self.holds(mark) && !F::USED_AT_BEGIN {
            seen.branch(Branch::MarkUsedAtStep);
            return (Doing::Idle, Answer::No(Refusal::MarkUsed));
        }
        let time = if F::MARK_CLOCK { Some(self.clock) } else { self.workers[w].announced };
        if O::ON {
            let twice = self.marks.contains(&time);
            seen.branch(if twice { Branch::MarkSameTime } else { Branch::MarkTime });
        }
        self.marks[usize::from(mark)] = time;
        (Doing::Idle, Answer::Done)
    }

    /// Release: empties the mark, or meets 20 or 21.
    pub(crate) fn release<F: Fault, O: Observer>(
        &mut self,
        mark: u8,
        seen: &mut O,
    ) -> (Doing, Answer) {
        let refusal = match self.test_release::<F>(mark) {
            Err(Refusal::MarkEmpty) if F::EMPTY_AT_BEGIN => None,
            Err(Refusal::MarkRead) if F::READ_AT_BEGIN => None,
            tested => tested.err(),
        };
        seen.branch(match refusal {
            None => Branch::ReleaseEmpties,
            Some(Refusal::MarkEmpty) => Branch::ReleaseEmptyAtStep,
            Some(_) => Branch::ReleaseReadAtStep,
        });
        if let Some(refusal) = refusal {
            return (Doing::Idle, Answer::No(refusal));
        }
        self.marks[usize::from(mark)] = None;
        (Doing::Idle, Answer::Done)
    }

    /// Marked read (1): as read (1), or meets 20.
    pub(crate) fn marked_start<F: Fault, O: Observer>(
        &mut self,
        w: usize,
        register: u16,
        mark: u8,
        seen: &mut O,
    ) -> (Doing, Answer) {
        let time = match self.marks[usize::from(mark)] {
            None if F::MARKED_NEWEST => Some(self.clock),
            Some(_) if F::MARKED_OWN_TIME && self.workers[w].announced.is_some() => {
                self.workers[w].announced
            }
            time => time,
        };
        let Some(time) = time else {
            seen.branch(Branch::MarkedEmptyAtStep);
            return (Doing::Idle, Answer::No(Refusal::MarkEmpty));
        };
        let stamped = self.stamp::<F>(register);
        seen.branch(if stamped { Branch::MarkedStamps } else { Branch::MarkedStampedAlready });
        let slot = self.newest[usize::from(register)];
        (Doing::MarkedAt { slot, first: true, mark, time }, Answer::Going)
    }

    /// Marked read (2): as read (2), at the time of the mark.
    #[inline]
    pub(crate) fn marked_at<F: Fault, O: Observer>(
        &mut self,
        w: usize,
        (slot, first): (u16, bool),
        mark: u8,
        time: u32,
        seen: &mut O,
    ) -> (Doing, Answer) {
        let version = &self.slots[usize::from(slot)];
        if version.low.is_some_and(|low| low <= time) {
            seen.branch(if first { Branch::MarkedFoundAtOnce } else { Branch::MarkedFound });
            if O::ON {
                self.observe_found(w, time, seen);
            }
            observe_reading(
                version,
                [Branch::MarkedNone, Branch::MarkedNoneSince, Branch::MarkedZero],
                seen,
            );
            if O::ON {
                let over = self.neighbour(version.newer);
                observe_status(version.reading, over, Branch::OF_MARKED_STATUS, seen);
            }
            let other = version.newer.filter(|_| F::STATUS_OF_NEWER);
            return (Doing::Idle, self.shown::<F>(slot, F::MARKED_ZERO, other));
        }
        seen.branch(Branch::MarkedMoves);
        // As in read (2), there is an older version.
        let slot = version.older.unwrap_or(slot);
        (Doing::MarkedAt { slot, first: false, mark, time }, Answer::Going)
    }

    /// Whose time is it that a marked read ends at?
    fn observe_found<O: Observer>(&self, w: usize, time: u32, seen: &mut O) {
        seen.branch(match self.workers[w].announced {
            None => Branch::MarkedNoSnapshot,
            Some(own) if own == time => Branch::MarkedOwnTime,
            Some(_) => Branch::MarkedOtherTime,
        });
        if self.workers.iter().all(|worker| worker.announced != Some(time)) {
            seen.branch(Branch::MarkedClosed);
        }
    }
}
