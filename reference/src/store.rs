//! The store: slots, workers, setup, the begin of operations, and which step comes next.

use crate::answer::{Answer, Refusal};
use crate::coverage::{Branch, Observer};
use crate::fault::{self, Fault, Right};
use crate::flush;
use crate::list::{Groups, Place};
use crate::marks::MARKS;
use crate::pool::{batch_size, Queue, Range, MAX_BATCH};
use crate::reading::Reading;
use crate::record::Record;
use crate::rights::{Need, Rights};

/// Most workers.
pub const MAX_WORKERS: usize = 16;
/// Most registers.
pub const MAX_REGISTERS: u16 = 256;
/// Most slots.
pub const MAX_SLOTS: u16 = 2048;
/// The largest value that a put may bring (A1): twelve decimal digits. Above it is 16, and 18 where a
/// total meets it (A2).
pub const MAX_VALUE: u64 = 999_999_999_999;
/// The clock's last value: an open there gets 15.
pub const LAST_CLOCK: u32 = u32::MAX;

/// A version slot. Free slots have no neighbours; the rest of their contents means nothing.
#[derive(Clone, Copy, Debug, Default, PartialEq, Eq)]
pub struct Slot {
    /// What its put brought; none where it is from setup (A5).
    pub reading: Option<Reading>,
    /// None: unset, between publishing and stamping.
    pub low: Option<u32>,
    /// None: open, above every time.
    pub high: Option<u32>,
    pub older: Option<u16>,
    pub newer: Option<u16>,
}

impl Slot {
    /// Does it hold a value above this?
    pub fn is_above(&self, value: u64) -> bool {
        self.reading.is_some_and(|reading| reading.value > value)
    }
}

/// What a worker is doing: nothing, or one operation with its place in it.
/// Each case names the step that comes next.
#[derive(Clone, Copy, Debug, PartialEq, Eq)]
pub enum Doing {
    Idle,
    /// Put (1).
    PutPublish {
        register: u16,
        reading: Reading,
    },
    /// Put (2). `own` is the put's own version; only a fault looks at it.
    PutStamp {
        register: u16,
        covered: u16,
        own: u16,
    },
    /// Put (3).
    PutHandIn {
        covered: u16,
        own: u16,
    },
    /// Flush (1), begun by a collect or a full local pool.
    FlushTake,
    /// Flush (2), about to read this worker's time.
    FlushTimes {
        next: u8,
    },
    /// Flush (2), about to read all marks.
    FlushMarks,
    /// Flush (3).
    FlushSplit,
    /// Flush (4), or (5) where `next` is past the needless list.
    FlushFree {
        next: u16,
    },
    /// Open (1).
    OpenAnnounce,
    /// Open (2).
    OpenPass,
    /// Read (1).
    ReadStart {
        register: u16,
    },
    /// Read (2), standing on a slot; `first` until it moves.
    ReadAt {
        slot: u16,
        first: bool,
    },
    Get {
        register: u16,
    },
    Close,
    /// Total (1) of the row at this place, with the sum of those before it.
    TotalStart {
        place: Place,
        sum: i64,
    },
    /// Total (2) of that row, standing on a slot; `first` until it moves.
    TotalAt {
        slot: u16,
        first: bool,
        place: Place,
        sum: i64,
    },
    Mark {
        mark: u8,
    },
    Release {
        mark: u8,
    },
    /// Marked read (1).
    MarkedStart {
        register: u16,
        mark: u8,
    },
    /// Marked read (2), standing on a slot at the time that its mark holds; `first` until it moves.
    MarkedAt {
        slot: u16,
        first: bool,
        mark: u8,
        time: u32,
    },
}

/// A worker's record.
#[derive(Clone, Debug, PartialEq, Eq)]
pub struct Worker {
    pub doing: Doing,
    /// The announced time.
    pub announced: Option<u32>,
    /// The local pool.
    pub local: Vec<Range>,
    /// The times a flush has read so far, of workers and of marks.
    pub times: Vec<u32>,
    /// A flush's merged list; from the split on, its needless part.
    pub merged: Vec<Range>,
}

impl Worker {
    /// The starting record: idle, no time, empty pool. Its lists have room for all they will hold.
    pub fn start() -> Worker {
        Worker {
            doing: Doing::Idle,
            announced: None,
            local: Vec::with_capacity(MAX_BATCH),
            times: Vec::with_capacity(MAX_WORKERS + MARKS),
            merged: Vec::with_capacity(4 * MAX_BATCH),
        }
    }
}

/// The store that an accepted setup leaves.
#[derive(Clone, Debug, PartialEq, Eq)]
pub struct Store {
    /// B.
    pub batch: usize,
    pub clock: u32,
    /// The rows of the list that came with the setup.
    pub groups: Groups,
    /// What each worker may do.
    pub rights: Rights,
    /// One record for each of the P workers.
    pub workers: Vec<Worker>,
    /// The time that each mark holds; none where it is empty.
    pub marks: [Option<u32>; MARKS],
    /// Each register's newest version.
    pub newest: Vec<u16>,
    /// The N slots.
    pub slots: Vec<Slot>,
    /// The free slots; the last is taken first.
    pub free: Vec<u16>,
    pub queue: Queue,
    /// Room for the needed part of a split.
    pub(crate) needed: Vec<Range>,
}

impl Store {
    /// The store at setup, or 5. Every worker may do all.
    pub fn set_up(
        row_length: usize,
        workers: u8,
        registers: u16,
        slots: u16,
        clock: u32,
        groups: Groups,
    ) -> Result<Store, Refusal> {
        let fits = (1..=MAX_WORKERS).contains(&usize::from(workers))
            && (1..=MAX_REGISTERS).contains(&registers)
            && (registers..=MAX_SLOTS).contains(&slots)
            && usize::from(slots) <= row_length
            && clock >= 1;
        if !fits {
            return Err(Refusal::Setup);
        }
        let first = Slot { low: Some(0), ..Slot::default() };
        let mut row = vec![Slot::default(); usize::from(slots)];
        row[..usize::from(registers)].fill(first);
        Ok(Store {
            batch: batch_size(usize::from(workers)),
            clock,
            rights: Rights::new::<Right>(&[], usize::from(workers), registers, &groups),
            groups,
            workers: (0..workers).map(|_| Worker::start()).collect(),
            marks: [None; MARKS],
            newest: (0..registers).collect(),
            slots: row,
            // V is taken first.
            free: (registers..slots).rev().collect(),
            queue: Queue::with_capacity(usize::from(slots)),
            needed: Vec::with_capacity(4 * MAX_BATCH),
        })
    }

    /// Takes a well-formed record, with `max_value` as the largest value that a put may bring. To a
    /// store that is set up, a setup is refusal 9.
    #[inline]
    pub fn take<F: Fault, O: Observer>(
        &mut self,
        record: Record,
        max_value: u64,
        seen: &mut O,
    ) -> Result<Answer, Refusal> {
        match record {
            Record::Step { worker } => return self.step::<F, O>(worker, max_value, seen),
            Record::Setup { .. } => return Err(Refusal::SetUp),
            Record::Put { worker, register, reading } => {
                self.begin_put::<F>(worker, register, reading, max_value)
            }
            Record::Open { worker } => {
                self.begin::<F>(worker, 0, Need::Nothing, Doing::OpenAnnounce)
            }
            Record::Read { worker, register } => {
                let need = Need::Read(register);
                self.begin::<F>(worker, register, need, Doing::ReadStart { register })
            }
            Record::Close { worker } => self.begin::<F>(worker, 0, Need::Nothing, Doing::Close),
            Record::Get { worker, register } => {
                let need = if F::GET_FREE { Need::Nothing } else { Need::Read(register) };
                self.begin::<F>(worker, register, need, Doing::Get { register })
            }
            Record::Total { worker, group } => self.begin_total::<F>(worker, group),
            Record::Mark { worker, mark } => self.begin_mark::<F>(worker, mark),
            Record::Release { worker, mark } => self.begin_release::<F>(worker, mark),
            Record::Marked { worker, register, mark } => {
                self.begin_marked::<F>(worker, register, mark)
            }
            Record::Collect { worker } => {
                self.begin::<F>(worker, 0, Need::Collect, flush::start::<F>())?;
                if O::ON {
                    let pool = &self.workers[usize::from(worker)].local;
                    let empty = pool.is_empty();
                    seen.branch(if empty { Branch::CollectEmptyPool } else { Branch::CollectPool });
                }
                Ok(())
            }
        }
        .map(|()| Answer::Ok)
    }

    /// 3 and 4, else the worker. An operation without a register gives 0, which is below every V.
    pub(crate) fn worker_for(&mut self, worker: u8, register: u16) -> Result<&mut Worker, Refusal> {
        let worker = self.workers.get_mut(usize::from(worker)).ok_or(Refusal::Worker)?;
        if usize::from(register) >= self.newest.len() {
            return Err(Refusal::Register);
        }
        Ok(worker)
    }

    /// 3, 4, 23 and 10, else the worker, which may begin.
    pub(crate) fn idle_for<F: Fault>(
        &mut self,
        worker: u8,
        register: u16,
        need: Need,
    ) -> Result<&mut Worker, Refusal> {
        let allowed = self.rights.allow(worker, need);
        if F::FORBIDDEN_BEFORE_REGISTER && !allowed {
            self.worker_for(worker, 0)?;
            return Err(Refusal::Forbidden);
        }
        let worker = self.worker_for(worker, register)?;
        let busy = worker.doing != Doing::Idle;
        if !(allowed || F::FORBIDDEN_AFTER_BUSY && busy) {
            return Err(Refusal::Forbidden);
        }
        if busy {
            return Err(Refusal::Busy);
        }
        Ok(worker)
    }

    /// Begins a put: 16 and then 25 stand between 4 and 23.
    fn begin_put<F: Fault>(
        &mut self,
        worker: u8,
        register: u16,
        reading: Reading,
        max_value: u64,
    ) -> Result<(), Refusal> {
        let Reading { value, status } = reading;
        let tested = if F::SIX_BYTES { value & 0xffff_ffff_ffff } else { value };
        let too_large = tested > fault::largest::<F>(max_value);
        if F::VALUE_BEFORE_REGISTER && too_large && self.worker_for(worker, 0).is_ok() {
            return Err(Refusal::Value);
        }
        let need = Need::Put(register);
        let later = F::STATUS_AFTER_FORBIDDEN || F::STATUS_AFTER_BUSY;
        // Only faults ask here; `begin` tests 23 and 10.
        let forbidden = (F::FORBIDDEN_BEFORE_VALUE || later) && !self.rights.allow(worker, need);
        let state = self.worker_for(worker, register)?;
        let busy = state.doing != Doing::Idle;
        let no_status = status > fault::last_status::<F>();
        let first = F::STATUS_BEFORE_VALUE && no_status;
        let value_later = F::FORBIDDEN_BEFORE_VALUE && forbidden || F::VALUE_AFTER_BUSY && busy;
        if too_large && !first && !value_later {
            if F::VALUE_IDLES {
                state.doing = Doing::Idle;
            }
            return Err(Refusal::Value);
        }
        if no_status && !forbidden && !(F::STATUS_AFTER_BUSY && busy) {
            if F::STATUS_IDLES {
                state.doing = Doing::Idle;
            }
            return Err(Refusal::Status);
        }
        self.begin::<F>(worker, register, need, Doing::PutPublish { register, reading })
    }

    /// Begins a total: 17 stands where 4 does.
    fn begin_total<F: Fault>(&mut self, worker: u8, group: u16) -> Result<(), Refusal> {
        let state = self.workers.get(usize::from(worker)).ok_or(Refusal::Worker)?;
        let Some(place) = self.groups.first::<F>(group) else {
            return Err(match state.doing {
                Doing::Idle if F::GROUP_AFTER_SNAPSHOT && state.announced.is_none() => {
                    Refusal::NotAnnounced
                }
                Doing::Idle => Refusal::Group,
                _ if F::GROUP_AFTER_BUSY || F::GROUP_AFTER_SNAPSHOT => Refusal::Busy,
                _ => Refusal::Group,
            });
        };
        self.begin::<F>(worker, 0, Need::Total(group), Doing::TotalStart { place, sum: 0 })?;
        if F::LARGE_AT_BEGIN && self.sums_above(group, MAX_VALUE) {
            self.workers[usize::from(worker)].doing = Doing::Idle;
            return Err(Refusal::Summand);
        }
        Ok(())
    }

    /// Has a register of the group a newest value above this? Only a fault asks.
    fn sums_above(&self, group: u16, value: u64) -> bool {
        let newest = |register: u16| self.slots[usize::from(self.newest[usize::from(register)])];
        self.groups.rows(group).iter().any(|row| newest(row.register).is_above(value))
    }

    /// Begins an operation: 3, 4, 23, 10, then 12 or 13, else the worker is busy with it.
    fn begin<F: Fault>(
        &mut self,
        worker: u8,
        register: u16,
        need: Need,
        doing: Doing,
    ) -> Result<(), Refusal> {
        let worker = self.idle_for::<F>(worker, register, need)?;
        match (doing, worker.announced) {
            (Doing::OpenAnnounce, Some(_)) => return Err(Refusal::Announced),
            (Doing::ReadStart { .. } | Doing::Close | Doing::TotalStart { .. }, None) => {
                return Err(Refusal::NotAnnounced)
            }
            _ => {}
        }
        worker.doing = doing;
        Ok(())
    }

    /// Takes one step of a worker: 3, 11, else the step, which may itself meet 14, 15 or 18 to 21.
    #[inline]
    fn step<F: Fault, O: Observer>(
        &mut self,
        worker: u8,
        max_value: u64,
        seen: &mut O,
    ) -> Result<Answer, Refusal> {
        let w = usize::from(worker);
        let doing = self.workers.get(w).ok_or(Refusal::Worker)?.doing;
        let (next, answer) = match doing {
            Doing::Idle => return Err(Refusal::Idle),
            Doing::PutPublish { reading, .. } if F::VALUE_AT_STEP && reading.value > max_value => {
                (Doing::Idle, Answer::No(Refusal::Value))
            }
            Doing::FlushFree { next } if F::LARGE_KEPT && self.frees_above(w, next, max_value) => {
                (Doing::FlushFree { next: next + 1 }, Answer::Going)
            }
            Doing::PutPublish { register, reading } => {
                self.put_publish::<F, O>(register, reading, seen)
            }
            Doing::PutStamp { register, covered, own } => {
                self.put_stamp::<F, O>(register, covered, own, seen)
            }
            Doing::PutHandIn { covered, own } => self.put_hand_in::<F, O>(w, covered, own, seen),
            Doing::FlushTake => self.flush_take::<F, O>(w, seen),
            Doing::FlushTimes { next } => self.flush_times::<F, O>(w, next, seen),
            Doing::FlushMarks => self.flush_marks::<F, O>(w, seen),
            Doing::FlushSplit => self.flush_split::<F, O>(w, seen),
            Doing::FlushFree { next } => self.flush_free::<F, O>(w, next, seen),
            Doing::OpenAnnounce => self.open_announce(w, seen),
            Doing::OpenPass => self.open_pass(w, seen),
            Doing::ReadStart { register } => self.read_start::<F, O>(register, seen),
            Doing::ReadAt { slot, first } => self.read_at::<F, O>(w, slot, first, seen),
            Doing::Get { register } => self.get::<F, O>(register, seen),
            Doing::Close => self.close::<F, O>(w, seen),
            Doing::TotalStart { place, sum } => self.total_start::<F, O>(place, sum, seen),
            Doing::TotalAt { slot, first, place, sum } => {
                self.total_at::<F, O>(w, (slot, first), place, sum, seen)
            }
            Doing::Mark { mark } => self.mark::<F, O>(w, mark, seen),
            Doing::Release { mark } => self.release::<F, O>(mark, seen),
            Doing::MarkedStart { register, mark } => {
                self.marked_start::<F, O>(w, register, mark, seen)
            }
            Doing::MarkedAt { slot, first, mark, time } => {
                self.marked_at::<F, O>(w, (slot, first), mark, time, seen)
            }
        };
        self.workers[w].doing = next;
        Ok(fault::shown::<F>(doing, answer, max_value))
    }

    /// Is a flush about to free a version with a value above this? Only a fault asks.
    fn frees_above(&self, w: usize, next: u16, value: u64) -> bool {
        let range = self.workers[w].merged.get(usize::from(next));
        range.is_some_and(|range| self.slots[usize::from(range.slot)].is_above(value))
    }
}
