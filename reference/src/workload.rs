//! Record files for measuring: as long as wanted, seeded, of one shape throughout. The hub runs
//! alongside, so that every record is accepted but those of `Workload::Uniform`.

use crate::generate::Random;
use crate::hub::Hub;
use crate::list::{GROUPS, MAX_ROWS};
use crate::lists::Habit;
use crate::marks::MARKS;
use crate::reading::{Reading, CORRECTED, ESTIMATED, READ};
use crate::record::{Record, LENGTH};
use crate::store::{Doing, Store, MAX_REGISTERS, MAX_SLOTS, MAX_WORKERS};
use std::collections::VecDeque;
use std::io::{self, Write};

/// What a record file measures. Shares are of the answers, in percent.
#[derive(Clone, Copy, Debug, PartialEq, Eq)]
pub enum Workload {
    /// A bit of everything on a small hub: P 2, V 4, N 16. `going` 56, `ok` 18, `done` 10,
    /// `value` 8, `freed` 7.
    Small,
    /// The same on the largest hub: P 16, V 256, N 2048. `going` 44, `ok` 23, `done` 12,
    /// `freed` 11, `value` 10.
    Large,
    /// Nearly only puts, in small batches: with P 2 every second put of a worker flushes.
    /// `going` 62, `ok` 13, `freed` 12, `done` 12.
    Puts,
    /// Four workers read two registers under old snapshots while twelve put: a read walks over two
    /// hundred versions. `going` 85, most of them such moves.
    Reads,
    /// Two workers collect all the time, the others hold snapshots for long or put now and then. So
    /// the queue stays full: nine pools wait where a flush takes two, and it merges and splits 160
    /// ranges, nearly all needed. `going` 89, `ok` 5, `done` 5.
    Collects,
    /// Twelve workers total groups of the longest list, 32 of 32 rows, each under a snapshot that it
    /// renews after three totals on average, while four put. Nearly three in four records are steps
    /// of totals; for ten rows they pass eight newer versions. `going` 83, `ok` 6, `done` 5, `freed` 5.
    Totals,
    /// Four workers export: each opens a snapshot, reads, marks it where a mark is empty, and
    /// closes. Four others read at marks, passing thirteen newer versions, and now and then release
    /// one; mostly all twelve are in use. Eight put on 64 registers. `going` 58, `ok` 16,
    /// `done` 10, `freed` 9, `value` 6.
    Marks,
    /// The records of `Large` on a hub with the longest table of rights, four rows of 64 registers for
    /// each worker, which allows all of them.
    Rights,
    /// Uniformly random bytes after the setup of the largest hub. Practically every record has an
    /// operation above 11 or an unused byte that is not zero: `no` 100.
    Uniform,
    /// The script of `Small` with another N in its setup. The slot given back last is taken first,
    /// so the same slots are in use and the log is the same for every N.
    Growth { slots: u16 },
    /// Worker 0 puts on 64 registers without end and the others do nothing: no snapshot, and what
    /// changes with P is the size of a flush. N 2048.
    Plain { workers: u8 },
    /// All workers put on 64 registers, each under a snapshot that it renews after fifty puts on
    /// average. N 2048.
    Some { workers: u8 },
    /// All workers put on 256 registers without a snapshot, so a pool or two are queued. N 2048.
    Empty { workers: u8 },
    /// The same while each worker's first snapshot stays open: each of them needs a version of every
    /// register, and they fill the queue: it has 250 pools with P 1, 310 with 2, 180 with 3 and 4.
    /// With P 4 slots are short, and in the long run four of a hundred operations are collects.
    Held { workers: u8 },
}

/// What a workload is measured for.
#[derive(Clone, Copy, Debug, PartialEq, Eq)]
pub enum Topic {
    /// The time a record.
    Speed,
    /// Its growth with N.
    Slots,
    /// Its growth with P.
    Workers,
    /// Its growth with the queue.
    Queue,
}

impl Workload {
    pub const ALL: [Workload; 30] = [
        Workload::Small,
        Workload::Large,
        Workload::Puts,
        Workload::Reads,
        Workload::Collects,
        Workload::Totals,
        Workload::Marks,
        Workload::Rights,
        Workload::Uniform,
        Workload::Growth { slots: 16 },
        Workload::Growth { slots: 64 },
        Workload::Growth { slots: 256 },
        Workload::Growth { slots: 1024 },
        Workload::Growth { slots: MAX_SLOTS },
        Workload::Plain { workers: 2 },
        Workload::Plain { workers: 4 },
        Workload::Plain { workers: 8 },
        Workload::Plain { workers: 16 },
        Workload::Some { workers: 2 },
        Workload::Some { workers: 4 },
        Workload::Some { workers: 8 },
        Workload::Some { workers: 16 },
        Workload::Empty { workers: 1 },
        Workload::Held { workers: 1 },
        Workload::Empty { workers: 2 },
        Workload::Held { workers: 2 },
        Workload::Empty { workers: 3 },
        Workload::Held { workers: 3 },
        Workload::Empty { workers: 4 },
        Workload::Held { workers: 4 },
    ];

    pub fn name(self) -> String {
        match self {
            Workload::Small => "small".into(),
            Workload::Large => "large".into(),
            Workload::Puts => "puts".into(),
            Workload::Reads => "reads".into(),
            Workload::Collects => "collects".into(),
            Workload::Totals => "totals".into(),
            Workload::Marks => "marks".into(),
            Workload::Rights => "rights".into(),
            Workload::Uniform => "uniform".into(),
            Workload::Growth { slots } => format!("growth-{slots}"),
            Workload::Plain { workers } => format!("plain-{workers}"),
            Workload::Some { workers } => format!("some-{workers}"),
            Workload::Empty { workers } => format!("empty-{workers}"),
            Workload::Held { workers } => format!("held-{workers}"),
        }
    }

    pub fn topic(self) -> Topic {
        match self {
            Workload::Growth { .. } => Topic::Slots,
            Workload::Plain { .. } | Workload::Some { .. } => Topic::Workers,
            Workload::Empty { .. } | Workload::Held { .. } => Topic::Queue,
            _ => Topic::Speed,
        }
    }

    /// Is it the one that those after it in `ALL` have grown from?
    pub fn begins_series(self) -> bool {
        matches!(
            self,
            Workload::Growth { slots: 16 }
                | Workload::Plain { workers: 2 }
                | Workload::Some { workers: 2 }
                | Workload::Empty { .. }
        )
    }

    /// The workload with this name.
    pub fn named(name: &str) -> Option<Workload> {
        Workload::ALL.into_iter().find(|workload| workload.name() == name)
    }

    /// The shape of the hub and of its workers' habits.
    pub fn shape(self) -> Shape {
        match self {
            Workload::Small | Workload::Growth { .. } => {
                Shape { registers: 4, slots: 16, roles: vec![Role::alike(2, MIXED)] }
            }
            Workload::Large | Workload::Rights | Workload::Uniform => {
                let workers = MAX_WORKERS as u8;
                let roles = vec![Role::alike(workers, MIXED)];
                Shape { registers: MAX_REGISTERS, slots: MAX_SLOTS, roles }
            }
            Workload::Puts => {
                let weights =
                    Weights { put: 94, open: 2, read: 2, close: 1, get: 2, ..Weights::NONE };
                Shape { registers: 16, slots: 256, roles: vec![Role::alike(2, weights)] }
            }
            Workload::Reads => {
                let read = Weights { open: 1, read: 200, close: 1, ..Weights::NONE };
                let roles = vec![
                    Role { workers: 4, turns: 9, weights: read },
                    Role { workers: 12, turns: 1, weights: PUT },
                ];
                Shape { registers: 2, slots: MAX_SLOTS, roles }
            }
            Workload::Collects => {
                let collect = Weights { collect: 1, ..Weights::NONE };
                let hold = Weights { open: 1, read: 100, close: 1, ..Weights::NONE };
                let roles = vec![
                    Role { workers: 2, turns: 300, weights: collect },
                    Role { workers: 8, turns: 1, weights: hold },
                    Role { workers: 6, turns: 3, weights: PUT },
                ];
                Shape { registers: MAX_REGISTERS, slots: MAX_SLOTS, roles }
            }
            Workload::Totals => {
                let total = Weights { open: 1, total: 3, close: 1, ..Weights::NONE };
                let roles = vec![Role::alike(12, total), Role::alike(4, PUT)];
                Shape { registers: MAX_REGISTERS, slots: MAX_SLOTS, roles }
            }
            Workload::Marks => {
                let export = Weights { open: 1, read: 20, mark: 2, close: 1, ..Weights::NONE };
                let bill = Weights { marked: 30, release: 1, ..Weights::NONE };
                let roles = vec![Role::alike(4, export), Role::alike(4, bill), Role::alike(8, PUT)];
                Shape { registers: 64, slots: MAX_SLOTS, roles }
            }
            Workload::Plain { workers } => {
                let roles = vec![
                    Role::alike(1, PUT),
                    Role { workers: workers - 1, turns: 0, weights: Weights::NONE },
                ];
                Shape { registers: 64, slots: MAX_SLOTS, roles }
            }
            Workload::Some { workers } => {
                let weights = Weights { put: 50, open: 50, close: 1, ..Weights::NONE };
                Shape {
                    registers: 64,
                    slots: MAX_SLOTS,
                    roles: vec![Role::alike(workers, weights)],
                }
            }
            Workload::Empty { workers } | Workload::Held { workers } => {
                let roles = vec![Role::alike(workers, PUT)];
                Shape { registers: MAX_REGISTERS, slots: MAX_SLOTS, roles }
            }
        }
    }

    /// The list that comes with the setup: the longest there is for `Totals`, else empty.
    pub fn list(self, seed: u64) -> Vec<u8> {
        if self != Workload::Totals {
            return Vec::new();
        }
        let (groups, rows) = (GROUPS as u64, MAX_ROWS as u64);
        let habit = Habit { missing: 0, unfit: 0, groups: (groups, groups), rows: (rows, rows) };
        habit.list(MAX_REGISTERS, &mut Random::new(seed))
    }

    /// The table of rights that is given before the setup: the longest there is for `Rights`, else
    /// empty.
    pub fn table(self) -> Vec<u8> {
        if self != Workload::Rights {
            return Vec::new();
        }
        let rows = (0..16u8).flat_map(|worker| (0..4u8).map(move |part| (worker, 64 * part)));
        rows.flat_map(|(worker, first)| [worker, 15, first, 0, first + 63, 0, 0, 0]).collect()
    }

    /// The records of this workload, without end.
    pub fn records(self, seed: u64) -> Records {
        let shape = self.shape();
        let mut records = Records::new(&shape, &self.list(seed), seed);
        match self {
            Workload::Uniform => records.uniform = true,
            Workload::Growth { slots } => {
                records.ahead = [Shape { slots, ..shape }.setup()].into();
            }
            Workload::Empty { workers } => (0..workers).for_each(|w| records.put_everywhere(w)),
            Workload::Held { workers } => {
                for worker in 0..workers {
                    records.whole(Record::Open { worker }, worker);
                    records.put_everywhere(worker);
                }
            }
            _ => {}
        }
        records
    }

    /// Writes so many records.
    pub fn write(self, seed: u64, count: usize, output: &mut impl Write) -> io::Result<()> {
        self.records(seed).take(count).try_for_each(|bytes| output.write_all(&bytes))?;
        output.flush()
    }
}

/// How often an idle worker begins each operation. Those that its state does not allow are left out.
#[derive(Clone, Copy, Debug)]
pub struct Weights {
    pub put: u64,
    pub open: u64,
    pub read: u64,
    pub close: u64,
    pub get: u64,
    pub collect: u64,
    pub total: u64,
    pub mark: u64,
    pub release: u64,
    pub marked: u64,
}

impl Weights {
    pub const NONE: Weights = Weights {
        put: 0,
        open: 0,
        read: 0,
        close: 0,
        get: 0,
        collect: 0,
        total: 0,
        mark: 0,
        release: 0,
        marked: 0,
    };
}

const PUT: Weights = Weights { put: 1, ..Weights::NONE };

const MIXED: Weights =
    Weights { put: 40, open: 10, read: 30, close: 3, get: 15, collect: 2, ..Weights::NONE };

/// Workers with the same habits.
#[derive(Clone, Copy, Debug)]
pub struct Role {
    pub workers: u8,
    /// Each one's share of the turns.
    pub turns: usize,
    pub weights: Weights,
}

impl Role {
    /// So many workers with one share each.
    pub fn alike(workers: u8, weights: Weights) -> Role {
        Role { workers, turns: 1, weights }
    }
}

/// A hub's sizes and its workers' roles, from worker 0 on.
#[derive(Clone, Debug)]
pub struct Shape {
    pub registers: u16,
    pub slots: u16,
    pub roles: Vec<Role>,
}

impl Shape {
    pub fn workers(&self) -> u8 {
        self.roles.iter().map(|role| role.workers).sum()
    }

    /// The setup, with clock 1.
    pub fn setup(&self) -> Record {
        let &Shape { registers, slots, .. } = self;
        Record::Setup { workers: self.workers(), registers, slots, clock: 1 }
    }
}

/// Records of one shape, without end: the setup and what else comes ahead, then each time a random worker begins an operation
/// or takes a step.
#[derive(Clone, Debug)]
pub struct Records {
    random: Random,
    /// The hub that the records so far leave, with those ahead.
    hub: Hub,
    /// Written first: the setup and whole operations.
    ahead: VecDeque<Record>,
    /// Only random bytes after the setup.
    uniform: bool,
    /// Each worker as often as its share of the turns.
    turns: Vec<u8>,
    /// By worker.
    weights: Vec<Weights>,
}

impl Records {
    /// The list comes with the setup.
    pub fn new(shape: &Shape, list: &[u8], seed: u64) -> Records {
        let mut hub = Hub::new();
        hub.take_record(shape.setup(), list);
        let mut turns = Vec::new();
        let mut weights = Vec::new();
        for role in &shape.roles {
            for _ in 0..role.workers {
                turns.extend(std::iter::repeat_n(weights.len() as u8, role.turns));
                weights.push(role.weights);
            }
        }
        let (random, ahead) = (Random::new(seed), [shape.setup()].into());
        Records { random, hub, ahead, uniform: false, turns, weights }
    }

    pub fn store(&self) -> &Store {
        self.hub.store().expect("set up")
    }

    /// The next record, which the hub has taken.
    pub fn next_record(&mut self) -> Record {
        if let Some(record) = self.ahead.pop_front() {
            return record;
        }
        let worker = self.random.pick(&self.turns);
        let record = if self.idle(worker) { self.begin(worker) } else { Record::Step { worker } };
        self.hub.take_record(record, &[]);
        record
    }

    /// Puts a record of the caller's own between the others.
    pub fn insert(&mut self, record: Record) {
        self.hub.take_record(record, &[]);
    }

    /// Puts one of a worker's operations ahead, from its begin to its last step.
    fn whole(&mut self, begin: Record, worker: u8) {
        let mut record = begin;
        loop {
            self.hub.take_record(record, &[]);
            self.ahead.push_back(record);
            if self.idle(worker) {
                return;
            }
            record = Record::Step { worker };
        }
    }

    /// Puts a put on every register ahead.
    fn put_everywhere(&mut self, worker: u8) {
        for register in 0..self.store().newest.len() as u16 {
            let reading = self.reading();
            self.whole(Record::Put { worker, register, reading }, worker);
        }
    }

    /// A random value; of sixteen one is estimated and one corrected.
    fn reading(&mut self) -> Reading {
        let value = self.random.between(1, 999_999);
        let status = match value % 16 {
            1 => ESTIMATED,
            2 => CORRECTED,
            _ => READ,
        };
        Reading { value, status }
    }

    fn idle(&self, worker: u8) -> bool {
        self.store().workers[usize::from(worker)].doing == Doing::Idle
    }

    /// The begin of an operation that the worker's state allows; a collect in place of a put that
    /// would find no free slot, and a get in place of an operation on a mark where there is none
    /// for it.
    fn begin(&mut self, worker: u8) -> Record {
        let weights = self.weights[usize::from(worker)];
        let Weights { put, open, read, close, get, collect, total, mark, release, marked } =
            weights;
        let snapshot = self.store().workers[usize::from(worker)].announced.is_some();
        let with = |allowed: bool, weight: u64| if allowed { weight } else { 0 };
        let weights = [
            put,
            with(!snapshot, open),
            with(snapshot, read),
            with(snapshot, close),
            get,
            collect,
            with(snapshot, total),
            with(snapshot, mark),
            release,
            marked,
        ];
        let register = self.random.below(self.store().newest.len() as u64) as u16;
        match self.random.weighted(&weights) {
            0 if self.slot_left() => {
                let reading = self.reading();
                Record::Put { worker, register, reading }
            }
            1 => Record::Open { worker },
            2 => Record::Read { worker, register },
            3 => Record::Close { worker },
            4 => Record::Get { worker, register },
            6 => Record::Total { worker, group: self.random.below(GROUPS as u64) as u16 },
            operation @ 7.. => {
                let get = Record::Get { worker, register };
                let fit = self.fit_marks(operation);
                let mark = (!fit.is_empty()).then(|| self.random.pick(&fit));
                mark.map_or(get, |mark| match operation {
                    7 => Record::Mark { worker, mark: mark.into() },
                    8 => Record::Release { worker, mark: mark.into() },
                    _ => Record::Marked { worker, register, mark },
                })
            }
            _ => Record::Collect { worker },
        }
    }

    /// The marks that a mark (7), a release (8) or a marked read may begin with, so that it will
    /// not be refused, whatever comes in between: no other worker's operation is in its way.
    fn fit_marks(&self, operation: usize) -> Vec<u8> {
        let Store { marks, workers, .. } = self.store();
        let fits = |mark: u8| {
            let held = marks[usize::from(mark)].is_some();
            let in_the_way = |doing: Doing| match doing {
                Doing::Mark { mark: other } => operation == 7 && other == mark,
                Doing::Release { mark: other } => operation != 7 && other == mark,
                Doing::MarkedStart { mark: other, .. } | Doing::MarkedAt { mark: other, .. } => {
                    operation == 8 && other == mark
                }
                _ => false,
            };
            held == (operation != 7) && !workers.iter().any(|worker| in_the_way(worker.doing))
        };
        (0..MARKS as u8).filter(|&mark| fits(mark)).collect()
    }

    /// Is there a slot beyond those that the puts begun will take?
    fn slot_left(&self) -> bool {
        let store = self.store();
        let begun = |doing| matches!(doing, Doing::PutPublish { .. });
        store.workers.iter().filter(|worker| begun(worker.doing)).count() < store.free.len()
    }
}

impl Iterator for Records {
    type Item = [u8; LENGTH];

    fn next(&mut self) -> Option<[u8; LENGTH]> {
        if self.uniform && self.ahead.is_empty() {
            let bits = (self.random.bits(), self.random.bits());
            return Some((u128::from(bits.0) << 64 | u128::from(bits.1)).to_le_bytes());
        }
        Some(self.next_record().encode())
    }
}
