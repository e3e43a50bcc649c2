//! The steps of put, open, read, get, close and total. Each gives what the worker does next and the
//! answer.

use crate::answer::{Answer, Refusal};
use crate::coverage::{Branch, Observer};
use crate::fault::{self, Fault};
use crate::flush;
use crate::list::Place;
use crate::observe::{observe_reading, observe_status};
use crate::pool::Range;
use crate::reading::{Reading, READ};
use crate::store::{Doing, Slot, Store, LAST_CLOCK};

impl Store {
    /// Document 01's *stamp*: if the newest version has no low, sets that low and the next older
    /// version's high to the clock. Says whether it did.
    #[inline]
    pub(crate) fn stamp<F: Fault>(&mut self, register: u16) -> bool {
        let newest = &mut self.slots[usize::from(self.newest[usize::from(register)])];
        if newest.low.is_some() {
            return false;
        }
        newest.low = Some(self.clock);
        if F::LOW_LOSES_STATUS {
            fault::lose_status(newest);
        }
        if let Some(older) = newest.older {
            let covered = &mut self.slots[usize::from(older)];
            covered.high = Some(self.clock);
            if F::HIGH_LOSES_STATUS {
                fault::lose_status(covered);
            }
        }
        true
    }

    /// Put (1).
    pub(crate) fn put_publish<F: Fault, O: Observer>(
        &mut self,
        register: u16,
        reading: Reading,
        seen: &mut O,
    ) -> (Doing, Answer) {
        let Some(own) = self.free.pop() else {
            seen.branch(Branch::PutRefused);
            return (Doing::Idle, Answer::No(Refusal::NoFreeSlot));
        };
        let stamped = self.stamp::<F>(register);
        seen.branch(if stamped {
            Branch::PutPublishStamps
        } else {
            Branch::PutPublishStampedAlready
        });
        let covered = std::mem::replace(&mut self.newest[usize::from(register)], own);
        self.slots[usize::from(covered)].newer = Some(own);
        let slot = &mut self.slots[usize::from(own)];
        let (reading, older) = (Some(reading), Some(covered));
        *slot = Slot { reading, low: None, high: None, older, newer: None };
        if F::PUBLISH_LOSES_STATUS {
            fault::lose_status(slot);
        }
        (Doing::PutStamp { register, covered, own }, Answer::Going)
    }

    /// Put (2).
    pub(crate) fn put_stamp<F: Fault, O: Observer>(
        &mut self,
        register: u16,
        covered: u16,
        own: u16,
        seen: &mut O,
    ) -> (Doing, Answer) {
        if self.slots[usize::from(covered)].high.is_none() {
            seen.branch(Branch::PutStamps);
            self.stamp::<F>(register);
        } else if O::ON {
            let newest = self.newest[usize::from(register)];
            seen.branch(if self.slots[usize::from(newest)].low.is_none() {
                Branch::PutLeavesOtherUnstamped
            } else {
                Branch::PutStampedAlready
            });
        }
        (Doing::PutHandIn { covered, own }, Answer::Going)
    }

    /// Put (3).
    pub(crate) fn put_hand_in<F: Fault, O: Observer>(
        &mut self,
        w: usize,
        covered: u16,
        own: u16,
        seen: &mut O,
    ) -> (Doing, Answer) {
        let version = &self.slots[usize::from(covered)];
        // Both are set: put (2) saw to it.
        let mut range = Range {
            slot: covered,
            low: version.low.unwrap_or(LAST_CLOCK),
            high: version.high.unwrap_or(LAST_CLOCK),
        };
        if F::COVERING_LOW {
            range.high = self.slots[usize::from(own)].low.unwrap_or(LAST_CLOCK);
        }
        if O::ON && version.newer != Some(own) {
            seen.branch(Branch::PutOwnVersionFreed);
        }
        let local = &mut self.workers[w].local;
        local.push(range);
        if local.len() >= self.batch {
            seen.branch(Branch::PutFlushes);
            (flush::start::<F>(), Answer::Going)
        } else {
            seen.branch(Branch::PutDone);
            (Doing::Idle, Answer::Done)
        }
    }

    /// Open (1).
    pub(crate) fn open_announce<O: Observer>(&mut self, w: usize, seen: &mut O) -> (Doing, Answer) {
        if self.clock == LAST_CLOCK {
            seen.branch(Branch::OpenRefused);
            return (Doing::Idle, Answer::No(Refusal::LastClock));
        }
        seen.branch(Branch::OpenAnnounces);
        self.workers[w].announced = Some(self.clock);
        (Doing::OpenPass, Answer::Going)
    }

    /// Open (2).
    pub(crate) fn open_pass<O: Observer>(&mut self, w: usize, seen: &mut O) -> (Doing, Answer) {
        // The worker announced in its last step and has taken none since.
        let time = self.workers[w].announced.unwrap_or(self.clock);
        if self.clock == time {
            seen.branch(Branch::OpenPasses);
            self.clock += 1;
        } else {
            seen.branch(Branch::OpenPassedAlready);
        }
        (Doing::Idle, Answer::At(time))
    }

    /// Read (1).
    pub(crate) fn read_start<F: Fault, O: Observer>(
        &mut self,
        register: u16,
        seen: &mut O,
    ) -> (Doing, Answer) {
        let stamped = self.stamp::<F>(register);
        seen.branch(if stamped { Branch::ReadStamps } else { Branch::ReadStampedAlready });
        let slot = self.newest[usize::from(register)];
        (Doing::ReadAt { slot, first: true }, Answer::Going)
    }

    /// What a get, a read or a marked read answers at a version, or what a fault takes for it: one
    /// that shows 0 where there is no reading says so by `zero`, one that shows another slot's status
    /// by that slot.
    #[inline(always)]
    pub(crate) fn shown<F: Fault>(&self, slot: u16, zero: bool, other: Option<u16>) -> Answer {
        let version = &self.slots[usize::from(slot)];
        match version.reading {
            None if zero || F::NONE_BY_REGISTER && version.newer.is_some() => {
                Answer::value(0, READ)
            }
            Some(Reading { value: 0, .. }) if F::ZERO_NONE => Answer::None,
            Some(_) if F::NONE_BY_SLOT && usize::from(slot) < self.newest.len() => Answer::None,
            reading => Answer::reading(self.with_status(reading, other)),
        }
    }

    /// This reading; where a fault names a slot, with the status of the reading there.
    #[inline(always)]
    fn with_status(&self, reading: Option<Reading>, slot: Option<u16>) -> Option<Reading> {
        match self.neighbour(slot) {
            Some(Reading { status, .. }) => reading.map(|own| Reading { status, ..own }),
            None => reading,
        }
    }

    /// What a neighbour of a version holds; only an observer or a fault asks.
    #[inline(always)]
    pub(crate) fn neighbour(&self, slot: Option<u16>) -> Option<Reading> {
        slot.and_then(|slot| self.slots[usize::from(slot)].reading)
    }

    /// Read (2).
    #[inline]
    pub(crate) fn read_at<F: Fault, O: Observer>(
        &mut self,
        w: usize,
        slot: u16,
        first: bool,
        seen: &mut O,
    ) -> (Doing, Answer) {
        let version = &self.slots[usize::from(slot)];
        if version.low.is_some() && version.low <= self.workers[w].announced {
            seen.branch(if first { Branch::ReadFoundAtOnce } else { Branch::ReadFound });
            observe_reading(
                version,
                [Branch::ReadNone, Branch::ReadNoneSince, Branch::ReadZero],
                seen,
            );
            if O::ON {
                let over = self.neighbour(version.newer);
                observe_status(version.reading, over, Branch::OF_READ_STATUS, seen);
            }
            let other = version.newer.filter(|_| F::STATUS_OF_NEWER);
            return (Doing::Idle, self.shown::<F>(slot, F::READ_ZERO, other));
        }
        seen.branch(Branch::ReadMoves);
        // In the right hub there always is an older version here.
        let slot = version.older.unwrap_or(slot);
        (Doing::ReadAt { slot, first: false }, Answer::Going)
    }

    /// Get.
    pub(crate) fn get<F: Fault, O: Observer>(
        &mut self,
        register: u16,
        seen: &mut O,
    ) -> (Doing, Answer) {
        let stamped = self.stamp::<F>(register);
        seen.branch(if stamped { Branch::GetStamps } else { Branch::GetStampedAlready });
        let newest = self.newest[usize::from(register)];
        let version = &self.slots[usize::from(newest)];
        if O::ON || F::FIRST_PUT_NONE {
            let under = self.neighbour(version.older);
            observe_status(version.reading, under, Branch::OF_GET_STATUS, seen);
            observe_reading(version, [Branch::GetNone, Branch::GetNone, Branch::GetZero], seen);
            let covered = version.older.map(|older| self.slots[usize::from(older)]);
            if stamped && covered.is_some_and(|covered| covered.reading.is_none()) {
                seen.branch(Branch::GetFirstPut);
                if F::FIRST_PUT_NONE {
                    return (Doing::Idle, Answer::None);
                }
            }
        }
        let other = version.older.filter(|_| F::STATUS_OF_COVERED);
        (Doing::Idle, self.shown::<F>(newest, F::GET_ZERO, other))
    }

    /// Total (1) of a row: as read (1).
    pub(crate) fn total_start<F: Fault, O: Observer>(
        &mut self,
        place: Place,
        sum: i64,
        seen: &mut O,
    ) -> (Doing, Answer) {
        let register = self.groups.row(place).register;
        let stamped = self.stamp::<F>(register);
        seen.branch(if stamped { Branch::TotalStamps } else { Branch::TotalStampedAlready });
        let slot = self.newest[usize::from(register)];
        (Doing::TotalAt { slot, first: true, place, sum }, Answer::Going)
    }

    /// Total (2) of a row: as read (2), and the reading is summed. The last row's answers.
    #[inline]
    pub(crate) fn total_at<F: Fault, O: Observer>(
        &mut self,
        w: usize,
        (slot, first): (u16, bool),
        place: Place,
        sum: i64,
        seen: &mut O,
    ) -> (Doing, Answer) {
        let version = &self.slots[usize::from(slot)];
        let found = version.low.is_some() && version.low <= self.workers[w].announced;
        if !found && !F::TOTAL_NEWEST {
            seen.branch(Branch::TotalMoves);
            // As in read (2), there is an older version.
            let slot = version.older.unwrap_or(slot);
            return (Doing::TotalAt { slot, first: false, place, sum }, Answer::Going);
        }
        seen.branch(if first { Branch::TotalFoundAtOnce } else { Branch::TotalFound });
        observe_reading(
            version,
            [Branch::TotalNone, Branch::TotalNoneSince, Branch::TotalZero],
            seen,
        );
        if let Some(answer) = fault::without_reading::<F>(version) {
            return (Doing::Idle, answer);
        }
        let other = version.newer.filter(|_| F::STATUS_OF_NEWER);
        self.total_found::<F, O>(w, self.with_status(version.reading, other), place, sum, seen)
    }

    /// The rest of total (2), where the version is found: one without a reading adds 0 and has no
    /// status.
    #[inline]
    fn total_found<F: Fault, O: Observer>(
        &self,
        w: usize,
        reading: Option<Reading>,
        place: Place,
        sum: i64,
        seen: &mut O,
    ) -> (Doing, Answer) {
        let value = reading.map_or(0, |reading| reading.value);
        if value > fault::largest_summed::<F>() {
            seen.branch(if place.left == 0 { Branch::LargeLast } else { Branch::LargeEarlier });
            return (Doing::Idle, Answer::No(Refusal::Summand));
        }
        let sum = self.sum::<F>(place, sum, value as i64);
        let status = fault::largest_status::<F>(place.status, reading);
        match place.next() {
            Some(next) => {
                let place = Place { status, ..next };
                (Doing::TotalStart { place, sum }, Answer::Going)
            }
            None => {
                if O::ON {
                    self.observe_sum(w, sum, reading, place, seen);
                }
                (Doing::Idle, Answer::total(sum, status))
            }
        }
    }

    /// The sum with one more value, which is at most A1's limit; or what a fault takes for it.
    #[inline(always)]
    fn sum<F: Fault>(&self, place: Place, sum: i64, value: i64) -> i64 {
        let row = self.groups.row(place);
        let left_out = F::SUM_WITHOUT_LAST && place.left == 0
            || F::TWICE_ONCE && self.groups.stands_before(place);
        match row.minus != F::SIGNS_EXCHANGED {
            _ if left_out => sum,
            false => sum + value,
            true => sum - value,
        }
    }

    /// Close.
    pub(crate) fn close<F: Fault, O: Observer>(
        &mut self,
        w: usize,
        seen: &mut O,
    ) -> (Doing, Answer) {
        seen.branch(Branch::Close);
        let time = self.workers[w].announced.take();
        if O::ON && self.marks.contains(&time) {
            seen.branch(Branch::CloseMarked);
        }
        if F::CLOSE_EMPTIES {
            self.marks.iter_mut().filter(|mark| **mark == time).for_each(|mark| *mark = None);
        }
        (Doing::Idle, Answer::Done)
    }
}
