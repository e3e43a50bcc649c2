//! What an observer is told of the tests that a record meets on reading: of puts above A1's limit or of a
//! status above 2, totals, lists, marks and, in `rights_asked`, rights; and of what is found where a reading
//! is looked for, and with which status.

use crate::answer::{Answer, Refusal};
use crate::coverage::{Branch, Observer};
use crate::fault::{Fault, Right};
use crate::hub::Hub;
use crate::list::{Groups, Place, Row, Unfit, GROUPS, MAX_LENGTH, MAX_ROWS};
use crate::marks::MARKS;
use crate::reading::{Reading, LAST_STATUS};
use crate::record::Record;
use crate::rights_asked::Asked;
use crate::store::{Doing, Slot, Store};

/// Tells what a get, a read, a marked read or a total finds at a version, by these branches: no
/// reading, none and a put since, a reading of 0.
#[inline(always)]
pub(crate) fn observe_reading<O: Observer>(
    version: &Slot,
    [none, since, zero]: [Branch; 3],
    seen: &mut O,
) {
    match version.reading {
        None if version.newer.is_some() => seen.branch(since),
        None => seen.branch(none),
        Some(Reading { value: 0, .. }) => seen.branch(zero),
        Some(_) => {}
    }
}

/// Tells the status that a get, a read or a marked read shows, by these branches: one for each status,
/// and one where the version over it, for a get the one under it, has another.
pub(crate) fn observe_status<O: Observer>(
    reading: Option<Reading>,
    beside: Option<Reading>,
    [read, estimated, corrected, other]: [Branch; 4],
    seen: &mut O,
) {
    let Some(Reading { status, .. }) = reading else { return };
    seen.branch([read, estimated, corrected][usize::from(status.min(LAST_STATUS))]);
    if beside.is_some_and(|beside| beside.status != status) {
        seen.branch(other);
    }
}

impl Store {
    /// Tells what a total answers: its sign, its status and where that comes from.
    pub(crate) fn observe_sum<O: Observer>(
        &self,
        w: usize,
        sum: i64,
        last: Option<Reading>,
        place: Place,
        seen: &mut O,
    ) {
        seen.branch(match sum {
            ..0 => Branch::TotalBelow0,
            0 => Branch::Total0,
            _ => Branch::TotalAbove0,
        });
        let (before, own) = (place.status, last.map_or(0, |last| last.status));
        let statuses = [Branch::TotalRead, Branch::TotalEstimated, Branch::TotalCorrected];
        seen.branch(statuses[usize::from(before.max(own).min(LAST_STATUS))]);
        let rows = self.groups.rows(self.groups.row(place).group.into());
        if before > own {
            seen.branch(Branch::TotalStatusEarlier);
        } else if before < own && rows.len() > 1 {
            seen.branch(Branch::TotalStatusLast);
        }
        if rows.iter().all(|row| self.at_time(row.register, self.workers[w].announced).is_none()) {
            seen.branch(Branch::TotalOfNothing);
        }
    }

    /// What a register holds at a time.
    fn at_time(&self, register: u16, time: Option<u32>) -> Option<Reading> {
        let mut next = Some(self.newest[usize::from(register)]);
        while let Some(slot) = next {
            let version = &self.slots[usize::from(slot)];
            if version.low.is_some() && version.low <= time {
                return version.reading;
            }
            next = version.older;
        }
        None
    }
}

impl<F: Fault, O: Observer> Hub<F, O> {
    /// Tells the observer of a record that was taken.
    pub(crate) fn observe(&mut self, record: Record, list: &[u8], result: Result<Answer, Refusal>) {
        self.observe_right(record, result);
        match record {
            Record::Put { worker, reading: Reading { value, status }, .. } => {
                self.observe_put(worker, value, result);
                self.observe_put_status(worker, value, status, result);
            }
            Record::Total { worker, group } => self.observe_total(worker, group, result),
            Record::Setup { .. } => self.observe_setup(record, list, result),
            Record::Mark { worker, mark } => self.observe_mark(worker, mark, result),
            Record::Release { worker, mark } => self.observe_release(worker, mark, result),
            Record::Marked { worker, mark, .. } => self.observe_marked(worker, mark, result),
            _ => {}
        }
    }

    /// Which rows a record meets where there is a table.
    fn observe_right(&mut self, record: Record, result: Result<Answer, Refusal>) {
        if let Some(store) = self.store.as_ref().filter(|store| !store.rights.rows().is_empty()) {
            Asked::new(store, record).observe(result, &mut self.observer);
        }
    }

    /// Which test a setup with an unfit list meets first.
    fn observe_setup(&mut self, setup: Record, list: &[u8], result: Result<Answer, Refusal>) {
        let Record::Setup { workers, registers, slots, clock } = setup else { return };
        let Err(unfit) = Groups::read::<Right>(list, registers) else { return };
        let plain = Groups::default();
        let fits = Store::set_up(self.row_length, workers, registers, slots, clock, plain).is_ok();
        match result {
            Err(Refusal::SetUp) => self.observer.branch(Branch::ListAgain),
            Err(Refusal::Setup) if fits => {
                if list.len() > MAX_LENGTH {
                    self.observer.branch(Branch::ListLong);
                }
                self.observer.branch(match unfit {
                    Unfit::Part => Branch::ListPart,
                    Unfit::Sign => Branch::ListSign,
                    Unfit::Group => Branch::ListGroup,
                    Unfit::Register => Branch::ListRegister,
                    Unfit::Falling => Branch::ListFalling,
                    Unfit::Many => Branch::ListMany,
                });
            }
            _ => {}
        }
    }

    /// Which test a total meets first, and of what group one begins.
    fn observe_total(&mut self, worker: u8, group: u16, result: Result<Answer, Refusal>) {
        let Some(store) = &self.store else {
            return self.observer.branch(Branch::TotalNotSetUp);
        };
        let rows = store.groups.rows(group);
        let twice = |row: &Row| rows.iter().filter(|other| other.register == row.register).count();
        if result.is_ok() && rows.iter().any(|row| twice(row) > 1) {
            self.observer.branch(Branch::TotalTwice);
        }
        if result == Err(Refusal::Group) && usize::from(group) >= GROUPS {
            self.observer.branch(Branch::NoRowsAbove31);
        }
        // A refusal changes nothing, so this is what the worker was doing before it too.
        let state = store.workers.get(usize::from(worker));
        let busy = state.is_some_and(|state| state.doing != Doing::Idle);
        let snapshot = state.is_some_and(|state| state.announced.is_some());
        self.observer.branch(match (result, rows.len()) {
            (Ok(_), 1) => Branch::TotalOneRow,
            (Ok(_), MAX_ROWS) => Branch::TotalAllRows,
            (Ok(_), _) => Branch::TotalRows,
            (Err(Refusal::Worker), 0) => Branch::NoRowsNoWorker,
            (Err(Refusal::Group), _) if busy => Branch::NoRowsBusy,
            (Err(Refusal::Group), _) if snapshot => Branch::NoRowsSnapshot,
            (Err(Refusal::Group), _) => Branch::NoRowsNoSnapshot,
            (Err(Refusal::Busy), _) => Branch::TotalBusy,
            (Err(Refusal::NotAnnounced), _) => Branch::TotalNoSnapshot,
            (Err(_), _) => return,
        });
    }

    /// Which test a put at the limit or above it meets first.
    fn observe_put(&mut self, worker: u8, value: u64, result: Result<Answer, Refusal>) {
        if value < self.max_value {
            return;
        }
        let busy = self.busy(worker);
        if result == Err(Refusal::Value) && value == self.max_value + 1 {
            self.observer.branch(Branch::PutAboveLimit);
        }
        self.observer.branch(match result {
            Ok(_) => Branch::PutOfLimit,
            Err(Refusal::Value) if busy => Branch::LargeBusy,
            Err(Refusal::Value) => Branch::LargeIdle,
            Err(Refusal::Register) if value > self.max_value => Branch::LargeNoRegister,
            Err(Refusal::Worker) if value > self.max_value => Branch::LargeNoWorker,
            Err(Refusal::NotSetUp) if value > self.max_value => Branch::LargeNotSetUp,
            Err(_) => return,
        });
    }

    /// Which status a put begins with, and which test one above 2 meets first.
    fn observe_put_status(
        &mut self,
        worker: u8,
        value: u64,
        status: u8,
        result: Result<Answer, Refusal>,
    ) {
        let busy = self.busy(worker);
        if result == Err(Refusal::Status) && status == LAST_STATUS + 1 {
            self.observer.branch(Branch::PutOfThree);
        }
        self.observer.branch(match result {
            Ok(_) if status == 0 => Branch::PutRead,
            Ok(_) if status == 1 => Branch::PutEstimated,
            Ok(_) => Branch::PutCorrected,
            Err(_) if status <= LAST_STATUS => return,
            Err(Refusal::Status) if busy => Branch::StatusBusy,
            Err(Refusal::Status) => Branch::StatusIdle,
            Err(Refusal::Value) if value > self.max_value => Branch::StatusLarge,
            Err(Refusal::Register) => Branch::StatusNoRegister,
            Err(Refusal::Worker) => Branch::StatusNoWorker,
            Err(Refusal::NotSetUp) => Branch::StatusNotSetUp,
            Err(_) => return,
        });
    }

    /// Is this worker busy? A refusal changes nothing, so this is so before it too.
    fn busy(&self, worker: u8) -> bool {
        let state = self.store.as_ref().and_then(|store| store.workers.get(usize::from(worker)));
        state.is_some_and(|state| state.doing != Doing::Idle)
    }

    /// Which test a mark meets first.
    fn observe_mark(&mut self, worker: u8, mark: u16, result: Result<Answer, Refusal>) {
        let mut marks = self.store.iter().flat_map(|store| store.marks);
        let used = marks.nth(usize::from(mark)).flatten().is_some();
        self.observer.branch(match result {
            Ok(_) => Branch::MarkBegins,
            Err(Refusal::MarkUsed) => Branch::MarkUsed,
            Err(Refusal::NotAnnounced) if used => Branch::MarkUsedNoSnapshot,
            Err(Refusal::NotAnnounced) => Branch::MarkNoSnapshot,
            Err(Refusal::Busy) => Branch::MarkBusy,
            Err(Refusal::Register) if self.busy(worker) => Branch::MarkAboveBusy,
            Err(Refusal::Register) => Branch::MarkAbove,
            Err(Refusal::Worker) => Branch::MarkNoWorker,
            Err(Refusal::NotSetUp) => Branch::MarkNotSetUp,
            Err(_) => return,
        });
    }

    /// Which test a release meets first.
    fn observe_release(&mut self, worker: u8, mark: u16, result: Result<Answer, Refusal>) {
        let workers = self.store.iter().flat_map(|store| &store.workers);
        let starts =
            |doing| matches!(doing, Doing::MarkedStart { mark: m, .. } if u16::from(m) == mark);
        if result.is_ok() && workers.into_iter().any(|worker| starts(worker.doing)) {
            self.observer.branch(Branch::ReleaseToBeRead);
        }
        self.observer.branch(match result {
            Ok(_) => Branch::ReleaseBegins,
            Err(Refusal::MarkEmpty) => Branch::ReleaseEmpty,
            Err(Refusal::MarkRead) => Branch::ReleaseRead,
            Err(Refusal::Busy) => Branch::ReleaseBusy,
            Err(Refusal::Register) if self.busy(worker) => Branch::ReleaseAboveBusy,
            Err(Refusal::Register) => Branch::ReleaseAbove,
            Err(Refusal::Worker) => Branch::ReleaseNoWorker,
            Err(Refusal::NotSetUp) => Branch::ReleaseNotSetUp,
            Err(_) => return,
        });
    }

    /// Which test a marked read meets first.
    fn observe_marked(&mut self, worker: u8, mark: u8, result: Result<Answer, Refusal>) {
        let above = usize::from(mark) >= MARKS;
        self.observer.branch(match result {
            Ok(_) => Branch::MarkedBegins,
            Err(Refusal::MarkEmpty) => Branch::MarkedEmpty,
            Err(Refusal::Busy) => Branch::MarkedBusy,
            Err(Refusal::Register) if above && self.busy(worker) => Branch::MarkedAboveBusy,
            Err(Refusal::Register) if above => Branch::MarkedAbove,
            Err(Refusal::Register) => Branch::MarkedNoRegister,
            Err(Refusal::Worker) => Branch::MarkedNoWorker,
            Err(Refusal::NotSetUp) => Branch::MarkedNotSetUp,
            Err(_) => return,
        });
    }
}
