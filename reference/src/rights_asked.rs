//! What an observer is told of the right that a record needs, where there is a table.

use crate::answer::{Answer, Refusal};
use crate::coverage::{Branch, Observer};
use crate::record::Record;
use crate::rights::{permits, Need, Row, COLLECT, MARKS, PUT, READ};
use crate::store::{Doing, Store};

/// A record with the store that has answered it. A refusal changes nothing, so for a refused one this
/// is the store before it too.
pub(crate) struct Asked<'a> {
    store: &'a Store,
    record: Record,
    worker: u8,
    need: Need,
    /// The rows of its worker.
    own: Vec<Row>,
}

impl Asked<'_> {
    pub(crate) fn new(store: &Store, record: Record) -> Asked<'_> {
        let worker = record.encode()[1];
        let rows = store.rights.rows().iter().copied();
        let own = rows.filter(|row| row.worker == worker).collect();
        Asked { store, record, worker, need: Need::of(record), own }
    }

    pub(crate) fn observe(&self, result: Result<Answer, Refusal>, seen: &mut impl Observer) {
        let permitted = self.permitted(&self.own, self.need);
        match result {
            Err(Refusal::Forbidden) => self.observe_forbidden(seen),
            Err(Refusal::Value) if !permitted => seen.branch(Branch::LargeForbidden),
            Err(Refusal::Status) if !permitted => seen.branch(Branch::StatusForbidden),
            Err(Refusal::Register) if !permitted => {
                let of_register = matches!(self.need, Need::Put(_) | Need::Read(_));
                if of_register {
                    seen.branch(Branch::AboveForbidden);
                }
            }
            Ok(Answer::Ok) => self.observe_allowed(seen),
            _ => {}
        }
    }

    /// Do these rows permit its worker this? Without rows, nothing is permitted here.
    fn permitted(&self, rows: &[Row], need: Need) -> bool {
        let registers = self.store.newest.len() as u16;
        let some = !rows.is_empty() || need == Need::Nothing;
        some && permits(rows, self.worker, need, registers, &self.store.groups)
    }

    /// Does one of its worker's rows permit this alone?
    fn by_one(&self, need: Need) -> bool {
        self.own.iter().any(|&row| self.permitted(&[row], need))
    }

    fn observe_forbidden(&self, seen: &mut impl Observer) {
        seen.branch(match self.record {
            Record::Put { .. } => Branch::PutForbidden,
            Record::Read { .. } => Branch::ReadForbidden,
            Record::Get { .. } => Branch::GetForbidden,
            Record::Collect { .. } => Branch::CollectForbidden,
            Record::Total { .. } => Branch::TotalForbidden,
            Record::Mark { .. } => Branch::MarkForbidden,
            Record::Release { .. } => Branch::ReleaseForbidden,
            _ => Branch::MarkedForbidden,
        });
        if self.own.is_empty() {
            seen.branch(Branch::ForbiddenNoRows);
        } else if self.own.iter().all(|row| row.rights == 0) {
            seen.branch(Branch::ForbiddenNoRight);
        }
        let beside = match self.need {
            Need::Put(register) => [register.wrapping_sub(1), register + 1].map(Need::Put),
            Need::Read(register) => [register.wrapping_sub(1), register + 1].map(Need::Read),
            need => [need, need],
        };
        if beside.into_iter().any(|need| self.permitted(&self.own, need)) {
            seen.branch(Branch::ForbiddenBeside);
        }
        match self.need {
            Need::Total(group) if self.has_first(group) => seen.branch(Branch::TotalLaterForbidden),
            Need::Marks if self.lacking_marks() == 1 => seen.branch(Branch::MarksOneForbidden),
            _ => {}
        }
        self.observe_reasons(seen);
    }

    /// May its worker read the group's first register?
    fn has_first(&self, group: u16) -> bool {
        let first = self.store.groups.rows(group).first();
        first.is_some_and(|row| self.permitted(&self.own, Need::Read(row.register)))
    }

    /// On how many registers its worker lacks the right to marks.
    fn lacking_marks(&self) -> usize {
        let on = |register, row: &Row| {
            row.rights & MARKS != 0 && (row.first..=row.last).contains(&register)
        };
        let registers = 0..self.store.newest.len() as u16;
        registers.filter(|&register| !self.own.iter().any(|row| on(register, row))).count()
    }

    /// What would have refused the record if it were allowed.
    fn observe_reasons(&self, seen: &mut impl Observer) {
        let Some(state) = self.store.workers.get(usize::from(self.worker)) else { return };
        if state.doing != Doing::Idle {
            return seen.branch(Branch::ForbiddenBusy);
        }
        let held = |mark: u16| self.store.marks[usize::from(mark)].is_some();
        let (snapshot, by_mark) = match self.record {
            Record::Read { .. } | Record::Total { .. } => (true, false),
            Record::Mark { mark, .. } => (true, held(mark)),
            Record::Release { mark, .. } => (false, !held(mark)),
            Record::Marked { mark, .. } => (false, !held(mark.into())),
            _ => (false, false),
        };
        if snapshot && state.announced.is_none() {
            seen.branch(Branch::ForbiddenNoSnapshot);
        }
        if by_mark {
            seen.branch(Branch::ForbiddenMark);
        }
    }

    fn observe_allowed(&self, seen: &mut impl Observer) {
        let registers = self.store.newest.len();
        match self.need {
            Need::Put(register) => self.observe_register(PUT, register, seen),
            Need::Read(register) => self.observe_register(READ, register, seen),
            Need::Total(_) if !self.by_one(self.need) => seen.branch(Branch::TotalJoined),
            Need::Marks if !self.by_one(self.need) => seen.branch(Branch::MarksJoined),
            Need::Collect => {
                let mut giving = self.own.iter().filter(|row| row.rights & COLLECT != 0);
                if giving.all(|row| usize::from(row.first) >= registers) {
                    seen.branch(Branch::CollectBeyond);
                }
            }
            _ => {}
        }
    }

    /// How its worker's rows give the right on the register.
    fn observe_register(&self, right: u8, register: u16, seen: &mut impl Observer) {
        let has = |row: &&Row| (row.first..=row.last).contains(&register);
        let (giving, others): (Vec<&Row>, Vec<&Row>) =
            self.own.iter().filter(has).partition(|row| row.rights & right != 0);
        if !others.is_empty() {
            seen.branch(Branch::RightJoined);
        }
        if let [row] = giving[..] {
            if row.first < row.last && (row.first == register || row.last == register) {
                seen.branch(Branch::RightAtEnd);
            }
        }
    }
}
