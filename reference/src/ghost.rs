//! The plain registers of demand 3 beside a store: kept up by watching the store before and after
//! each record, they say what each answer must be. Exploration and random runs follow every record.

use crate::answer::{Answer, Refusal};
use crate::invariant::{ensure, holds, list, slot};
use crate::list::Row;
use crate::marks::MARKS;
use crate::reading::{Reading, LAST_STATUS, READ};
use crate::record::Record;
use crate::rights::{permits, Need};
use crate::store::{Doing, Store, LAST_CLOCK, MAX_VALUE};

/// The plain registers and copies, values with their statuses, kept up by watching the store before and
/// after each record. A register starts without a value.
#[derive(Clone, Debug, PartialEq, Eq)]
pub struct Ghost {
    pub registers: Vec<Option<Reading>>,
    pub copies: Vec<Option<Vec<Option<Reading>>>>,
    /// What each mark keeps: a time and the copy of the worker that had it.
    pub marks: Vec<Option<(u32, Vec<Option<Reading>>)>>,
    /// The register that a worker's read or marked read under way is of.
    pub reading: Vec<Option<u16>>,
}

impl Ghost {
    /// The ghost state at setup.
    pub fn start(store: &Store) -> Ghost {
        Ghost {
            registers: vec![None; store.newest.len()],
            copies: vec![None; store.workers.len()],
            marks: vec![None; store.marks.len()],
            reading: vec![None; store.workers.len()],
        }
    }

    /// Follows one record from `before` to `after`, taken with this largest value of a put, and
    /// checks its answer against demand 3 and the conditions of the refusals.
    pub fn follow(
        &mut self,
        before: &Store,
        record: Record,
        max_value: u64,
        answer: Answer,
        after: &Store,
    ) -> Result<(), String> {
        let Record::Step { worker } = record else {
            self.check_begin(before, record, max_value, answer)?;
            return check_put(record, answer, after);
        };
        let w = usize::from(worker);
        let doing = before.workers[w].doing;
        // A put has its effect where its version is stamped.
        for (register, &newest) in before.newest.iter().enumerate() {
            if slot(before, newest).low.is_none() && slot(after, newest).low.is_some() {
                self.registers[register] = slot(before, newest).reading;
            }
        }
        // An open has its effect when the clock passes its time.
        if after.clock > before.clock {
            for (copy, worker) in self.copies.iter_mut().zip(&after.workers) {
                if worker.announced == Some(before.clock) {
                    *copy = Some(self.registers.clone());
                }
            }
        }
        match (doing, answer) {
            (Doing::Idle, answer) => {
                ensure!(answer == Answer::No(Refusal::Idle), "an idle worker's step: {answer:?}");
            }
            (Doing::PutPublish { register, reading }, answer) => {
                let full = before.free.is_empty();
                let expected = if full { Answer::No(Refusal::NoFreeSlot) } else { Answer::Going };
                ensure!(answer == expected, "14 is not exact: {answer:?}");
                let newest = slot(after, after.newest[usize::from(register)]).reading;
                ensure!(
                    full || newest == Some(reading),
                    "a put publishes {newest:?}, not {reading:?}"
                );
            }
            (Doing::OpenAnnounce, answer) => {
                let last = before.clock == LAST_CLOCK;
                let expected = if last { Answer::No(Refusal::LastClock) } else { Answer::Going };
                ensure!(answer == expected, "15 is not exact: {answer:?}");
            }
            (Doing::Close, _) => self.copies[w] = None,
            (Doing::ReadStart { register }, _) => self.reading[w] = Some(register),
            (Doing::Get { register }, answer) => {
                let shown = Answer::reading(self.registers[usize::from(register)]);
                ensure!(answer == shown, "a get: {answer}, not {shown}");
            }
            (Doing::ReadAt { .. }, Answer::Value(_) | Answer::None) => {
                let register = self.reading[w].take().ok_or("a read of no register")?;
                let copy = self.copies[w].as_ref().ok_or("a read without a copy")?;
                let shown = Answer::reading(copy[usize::from(register)]);
                ensure!(answer == shown, "a read: {answer}, not {shown}");
            }
            (Doing::TotalStart { .. }, answer) => {
                ensure!(answer == Answer::Going, "a total's step (1): {answer:?}");
            }
            (Doing::TotalAt { slot: at, place, .. }, answer) => {
                let version = slot(before, at);
                let low = version.low;
                let found = low.is_some() && low <= before.workers[w].announced;
                let large = version.is_above(MAX_VALUE);
                let expected = if !found || !large && place.left > 0 {
                    Answer::Going
                } else if large {
                    Answer::No(Refusal::Summand)
                } else {
                    let group = before.groups.row(place).group;
                    let (sum, status) = self.sum(w, before.groups.rows(u16::from(group)))?;
                    Answer::total(sum, status)
                };
                ensure!(answer == expected, "a total: {answer}, not {expected}");
            }
            (Doing::Mark { .. } | Doing::Release { .. } | Doing::MarkedStart { .. }, answer) => {
                self.follow_mark(before, w, answer)?;
            }
            (Doing::MarkedAt { mark, .. }, Answer::Value(_) | Answer::None) => {
                let register = self.reading[w].take().ok_or("a marked read of no register")?;
                let held = self.marks[usize::from(mark)].as_ref();
                let (_, copy) = held.ok_or("a marked read of an empty mark")?;
                let shown = Answer::reading(copy[usize::from(register)]);
                ensure!(answer == shown, "a marked read: {answer}, not {shown}");
            }
            (Doing::FlushFree { .. }, Answer::Freed(freed)) => {
                let version = slot(before, freed);
                let times = before.workers.iter().filter_map(|worker| worker.announced);
                for time in times.chain(self.marks.iter().flatten().map(|&(time, _)| time)) {
                    ensure!(!holds(version, time), "slot {freed} is freed, {time} needs it");
                }
                ensure!(!before.free.contains(&freed), "slot {freed} was free already");
                ensure!(after.free.last() == Some(&freed), "slot {freed} is not given back");
            }
            _ => {}
        }
        Ok(())
    }

    /// The step of a mark or a release, or the first one of a marked read.
    fn follow_mark(&mut self, before: &Store, w: usize, answer: Answer) -> Result<(), String> {
        let doing = before.workers[w].doing;
        let expected = match (self.refused_by_mark(before, doing), doing) {
            (Some(refusal), _) => Answer::No(refusal),
            (None, Doing::MarkedStart { .. }) => Answer::Going,
            (None, _) => Answer::Done,
        };
        ensure!(answer == expected, "{doing:?}: {answer:?}, not {expected:?}");
        match doing {
            Doing::Mark { mark } if answer == Answer::Done => {
                let kept = before.workers[w].announced.zip(self.copies[w].clone());
                self.marks[usize::from(mark)] = kept;
            }
            Doing::Release { mark } if answer == Answer::Done => {
                self.marks[usize::from(mark)] = None;
            }
            Doing::MarkedStart { register, .. } if answer == Answer::Going => {
                self.reading[w] = Some(register);
            }
            _ => {}
        }
        Ok(())
    }

    /// 19, 20 or 21, where what a worker is to do meets it, when it begins or at its step.
    fn refused_by_mark(&self, store: &Store, doing: Doing) -> Option<Refusal> {
        let held = |mark: u8| self.marks[usize::from(mark)].is_some();
        let reads = |mark: u8| {
            let of = |doing| matches!(doing, Doing::MarkedAt { mark: other, .. } if other == mark);
            store.workers.iter().any(|worker| of(worker.doing))
        };
        match doing {
            Doing::Mark { mark } if held(mark) => Some(Refusal::MarkUsed),
            Doing::Release { mark } | Doing::MarkedStart { mark, .. } if !held(mark) => {
                Some(Refusal::MarkEmpty)
            }
            Doing::Release { mark } if reads(mark) => Some(Refusal::MarkRead),
            _ => None,
        }
    }

    /// The sum of these rows over the worker's copy, a register without a value as 0, and their largest
    /// status. The values of a total that has not met 18 are within the limit.
    fn sum(&self, w: usize, rows: &[Row]) -> Result<(i64, u8), String> {
        let copy = self.copies[w].as_ref().ok_or("a total without a copy")?;
        let (mut sum, mut largest) = (0, READ);
        for Row { register, minus, .. } in rows {
            let Some(Reading { value, status }) = copy[usize::from(*register)] else { continue };
            sum += if *minus { -(value as i64) } else { value as i64 };
            largest = largest.max(status);
        }
        Ok((sum, largest))
    }

    /// The sum and the status so far of a worker's total are those of the rows before its place, over
    /// the copy.
    fn check_sum(&self, store: &Store, w: usize) -> Result<(), String> {
        let (place, sum) = match store.workers[w].doing {
            Doing::TotalStart { place, sum } | Doing::TotalAt { place, sum, .. } => (place, sum),
            _ => return Ok(()),
        };
        let rows = store.groups.rows(u16::from(store.groups.row(place).group));
        let taken = rows.len().checked_sub(usize::from(place.left) + 1);
        let taken = taken.ok_or(format!("worker {w}: {} rows left", place.left))?;
        ensure!(rows[taken] == store.groups.row(place), "worker {w}: a row of another place");
        let expected = self.sum(w, &rows[..taken])?;
        let so_far = (sum, place.status);
        ensure!(so_far == expected, "worker {w}: {so_far:?} so far, not {expected:?}");
        Ok(())
    }

    /// Plain register = reading of the newest stamped version; a worker has a copy exactly where
    /// it has a time below the clock, and the copy holds the values at that time; so does a mark's.
    pub fn check(&self, store: &Store) -> Result<(), String> {
        for (register, &newest) in store.newest.iter().enumerate() {
            let mut version = slot(store, newest);
            if version.low.is_none() {
                version = slot(store, version.older.ok_or("an unstamped version covers none")?);
            }
            ensure!(
                version.reading == self.registers[register],
                "register {register}: newest stamped reading {:?}, plain {:?}",
                version.reading,
                self.registers[register]
            );
        }
        for (w, worker) in store.workers.iter().enumerate() {
            self.check_sum(store, w)?;
            let time = worker.announced.filter(|&time| time < store.clock);
            ensure!(time.is_some() == self.copies[w].is_some(), "worker {w}: copy without time");
            if let (Some(time), Some(copy)) = (time, &self.copies[w]) {
                check_copy(store, time, copy)?;
            }
        }
        for (mark, held) in self.marks.iter().enumerate() {
            let time = held.as_ref().map(|&(time, _)| time);
            ensure!(store.marks[mark] == time, "mark {mark}: another time than it keeps");
            if let Some((time, copy)) = held {
                ensure!(*time < store.clock, "mark {mark}: {time} is not passed");
                check_copy(store, *time, copy)?;
            }
        }
        Ok(())
    }

    /// The begin of an operation, and what it may be refused for once its fields fit.
    fn check_begin(
        &self,
        before: &Store,
        record: Record,
        max_value: u64,
        answer: Answer,
    ) -> Result<(), String> {
        let (worker, open, snapshot) = match record {
            Record::Put { worker, .. }
            | Record::Get { worker, .. }
            | Record::Collect { worker } => (worker, false, false),
            Record::Open { worker } => (worker, true, false),
            Record::Read { worker, .. }
            | Record::Close { worker }
            | Record::Total { worker, .. } => (worker, false, true),
            Record::Mark { worker, .. } => (worker, false, true),
            Record::Release { worker, .. } | Record::Marked { worker, .. } => {
                (worker, false, false)
            }
            Record::Setup { .. } | Record::Step { .. } => return Ok(()),
        };
        let state = &before.workers[usize::from(worker)];
        let put = match record {
            Record::Put { reading, .. } => reading,
            _ => Reading::default(),
        };
        let no_rows =
            matches!(record, Record::Total { group, .. } if before.groups.rows(group).is_empty());
        let marking = match record {
            Record::Mark { mark, .. } => Some((mark, Doing::Mark { mark: mark as u8 })),
            Record::Release { mark, .. } => Some((mark, Doing::Release { mark: mark as u8 })),
            Record::Marked { register, mark, .. } => {
                Some((mark.into(), Doing::MarkedStart { register, mark }))
            }
            _ => None,
        };
        let no_mark = marking.is_some_and(|(mark, _)| usize::from(mark) >= MARKS);
        let (rows, registers) = (before.rights.rows(), before.newest.len() as u16);
        let permitted = permits(rows, worker, Need::of(record), registers, &before.groups);
        let expected = if no_mark {
            Answer::No(Refusal::Register)
        } else if put.value > max_value {
            Answer::No(Refusal::Value)
        } else if put.status > LAST_STATUS {
            Answer::No(Refusal::Status)
        } else if no_rows {
            Answer::No(Refusal::Group)
        } else if !permitted {
            Answer::No(Refusal::Forbidden)
        } else if state.doing != Doing::Idle {
            Answer::No(Refusal::Busy)
        } else if open && state.announced.is_some() {
            Answer::No(Refusal::Announced)
        } else if snapshot && state.announced.is_none() {
            Answer::No(Refusal::NotAnnounced)
        } else {
            let refusal = marking.and_then(|(_, doing)| self.refused_by_mark(before, doing));
            refusal.map_or(Answer::Ok, Answer::No)
        };
        ensure!(answer == expected, "{record:?}: {answer:?}, not {expected:?}");
        Ok(())
    }
}

/// A put that begins has the reading of its record.
fn check_put(record: Record, answer: Answer, after: &Store) -> Result<(), String> {
    let Record::Put { worker, register, reading } = record else { return Ok(()) };
    let begun = Doing::PutPublish { register, reading };
    let doing = after.workers[usize::from(worker)].doing;
    ensure!(answer != Answer::Ok || doing == begun, "a put begins with {doing:?}, not {begun:?}");
    Ok(())
}

/// For each register there is one version whose range holds the time, and it has the copied reading.
fn check_copy(store: &Store, time: u32, copy: &[Option<Reading>]) -> Result<(), String> {
    for (register, &copied) in copy.iter().enumerate() {
        let held: Vec<Option<Reading>> = list(store, register)?
            .iter()
            .filter(|&&s| holds(slot(store, s), time))
            .map(|&s| slot(store, s).reading)
            .collect();
        ensure!(
            held == [copied],
            "register {register} at {time}: versions {held:?}, copy {copied:?}"
        );
    }
    Ok(())
}
