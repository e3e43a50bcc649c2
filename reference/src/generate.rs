//! Seeded random scripts with their lists and tables. A kind says what a script has much of; the hub runs
//! alongside, so that most records are accepted and the rest are refused on purpose.

use crate::answer::Answer;
use crate::coverage::Observer;
use crate::fault::{Fault, Right};
use crate::hub::Hub;
use crate::list::{Groups, GROUPS};
use crate::log;
use crate::marks::MARKS;
use crate::profile::{Marking, Profile, Weights};
use crate::reading::{Reading, LAST_STATUS};
use crate::record::{Record, LAST_OPERATION, LENGTH};
use crate::rights::Need;
use crate::store::{Doing, Store, MAX_REGISTERS, MAX_SLOTS, MAX_VALUE, MAX_WORKERS};

/// A small random number generator (splitmix64).
#[derive(Clone, Debug)]
pub struct Random(u64);

impl Random {
    pub fn new(seed: u64) -> Random {
        Random(seed)
    }

    /// Any 64 bits.
    pub fn bits(&mut self) -> u64 {
        self.0 = self.0.wrapping_add(0x9e37_79b9_7f4a_7c15);
        let mut z = self.0;
        z = (z ^ (z >> 30)).wrapping_mul(0xbf58_476d_1ce4_e5b9);
        z = (z ^ (z >> 27)).wrapping_mul(0x94d0_49bb_1331_11eb);
        z ^ (z >> 31)
    }

    /// A number below `bound`, which is not 0.
    pub fn below(&mut self, bound: u64) -> u64 {
        ((u128::from(self.bits()) * u128::from(bound)) >> 64) as u64
    }

    /// A number from `low` to `high`, both included.
    pub fn between(&mut self, low: u64, high: u64) -> u64 {
        let count = u128::from(high - low) + 1;
        low + ((u128::from(self.bits()) * count) >> 64) as u64
    }

    /// True in so many of a thousand.
    pub fn chance(&mut self, permille: u64) -> bool {
        self.below(1000) < permille
    }

    /// One of these.
    pub fn pick<T: Copy>(&mut self, from: &[T]) -> T {
        from[self.below(from.len() as u64) as usize]
    }

    /// An index, each as often as its weight.
    pub fn weighted(&mut self, weights: &[u64]) -> usize {
        let mut rest = self.below(weights.iter().sum());
        for (index, &weight) in weights.iter().enumerate() {
            if rest < weight {
                return index;
            }
            rest -= weight;
        }
        unreachable!("the rest is below the sum")
    }
}

/// What a script has much of.
#[derive(Clone, Copy, Debug, PartialEq, Eq, Hash)]
pub enum Kind {
    /// Any bytes at all.
    Uniform,
    /// A bit of everything.
    Mixed,
    /// Hardly more slots than registers.
    Slots,
    /// A clock near its end.
    Clock,
    /// Snapshots that stay open for long.
    Snapshots,
    /// Many collects.
    Collects,
    /// Slow reads while versions are freed under them.
    Reads,
    /// Setups when set up.
    Setups,
    /// A rest of a record at the end.
    Tails,
    /// Every refusal on reading, often several reasons at once.
    Invalid,
    /// The largest hub.
    Large,
    /// One or two workers, so that every put or two flushes.
    Batches,
    /// Workers that stop in the middle of a put or flush for long.
    Stalled,
    /// Hubs of any sizes.
    Sizes,
    /// Many registers, and slots that run out all the same.
    Full,
    /// Puts above the limit, often with another reason to be refused.
    Values,
    /// Totals of short lists, while versions are freed under them.
    Totals,
    /// Lists of all sizes, half of them unfit.
    Lists,
    /// Marks, releases and marked reads, in each other's way.
    Marks,
    /// Marks that are held for long, while versions are freed under marked reads.
    Held,
    /// Few puts, so that many registers have no reading yet, and first ones meet those who read.
    Empty,
    /// Tables of rights, three in ten of them unfit, and records that they forbid.
    Rights,
    /// Puts of statuses above 2, often with another reason to be refused; gets, reads and totals of all
    /// statuses.
    Statuses,
}

impl Kind {
    pub const ALL: [(Kind, &'static str); 23] = [
        (Kind::Uniform, "uniform"),
        (Kind::Mixed, "mixed"),
        (Kind::Slots, "slots"),
        (Kind::Clock, "clock"),
        (Kind::Snapshots, "snapshots"),
        (Kind::Collects, "collects"),
        (Kind::Reads, "reads"),
        (Kind::Setups, "setups"),
        (Kind::Tails, "tails"),
        (Kind::Invalid, "invalid"),
        (Kind::Large, "large"),
        (Kind::Batches, "batches"),
        (Kind::Stalled, "stalled"),
        (Kind::Sizes, "sizes"),
        (Kind::Full, "full"),
        (Kind::Values, "values"),
        (Kind::Totals, "totals"),
        (Kind::Lists, "lists"),
        (Kind::Marks, "marks"),
        (Kind::Held, "held"),
        (Kind::Empty, "empty"),
        (Kind::Rights, "rights"),
        (Kind::Statuses, "statuses"),
    ];

    /// The kind with this name.
    pub fn named(name: &str) -> Option<Kind> {
        let found = Kind::ALL.iter().find(|(_, kind_name)| *kind_name == name);
        found.map(|(kind, _)| *kind)
    }
}

/// The records of a script, the list that is lent with each of them, and the table that is given
/// before the first; empty where they are missing.
#[derive(Clone, Debug, Default, PartialEq, Eq)]
pub struct Script {
    pub records: Vec<u8>,
    pub list: Vec<u8>,
    pub table: Vec<u8>,
}

impl Script {
    /// These records without a list and without a table.
    pub fn plain(records: Vec<u8>) -> Script {
        Script { records, ..Script::default() }
    }

    /// Gives the table to a hub. Where it is refused, the one before stays.
    pub fn give<F: Fault, O: Observer>(&self, hub: &mut Hub<F, O>) {
        let _ = hub.give_table(&self.table);
    }

    /// The hub's answers.
    pub fn answers(&self) -> Vec<Answer> {
        let mut hub = Hub::new();
        self.give(&mut hub);
        log::answers(&mut hub, &self.records, &self.list)
    }
}

/// Tables are drawn from numbers of their own: a script without one is as if there were none.
const TABLES: u64 = 0x00a7_0000_0000_0000;

/// So are the statuses of puts, and the turns of those above 2.
const STATUSES: u64 = 0x00a8_0000_0000_0000;

/// A script of `count` records, the last one maybe short.
pub fn script(kind: Kind, seed: u64, count: usize) -> Script {
    script_across(kind, seed, count, 0)
}

/// The same with its first `before` records from before A1: a hub that takes them with the largest
/// `max_value` and the others with A1's accepts most of both.
pub fn script_across(kind: Kind, seed: u64, count: usize, before: usize) -> Script {
    let mut random = Random::new(seed ^ (kind as u64) << 56);
    let mut rights = Random::new(seed ^ (kind as u64) << 56 ^ TABLES);
    let mut file = Vec::with_capacity(count * LENGTH);
    let any = |random: &mut Random| (0..random.below(40)).map(|_| random.bits() as u8).collect();
    let (list, table) = if kind == Kind::Uniform {
        file.extend((0..count * LENGTH).map(|_| random.bits() as u8));
        (any(&mut random), any(&mut rights))
    } else {
        let statuses = Random::new(seed ^ (kind as u64) << 56 ^ STATUSES);
        let mut writer = Writer::new(kind, &mut random, &mut rights, statuses);
        writer.write(&mut file, count, before, &mut random);
        (writer.list, writer.table)
    };
    let tail = match kind {
        Kind::Tails => true,
        Kind::Uniform => random.chance(500),
        _ => random.chance(20),
    };
    if tail && !file.is_empty() {
        file.truncate(file.len() - random.between(1, LENGTH as u64 - 1) as usize);
    }
    Script { records: file, list, table }
}

/// Writes one script, with the hub beside it.
struct Writer {
    profile: Profile,
    hub: Hub,
    workers: u64,
    registers: u64,
    setup: Record,
    list: Vec<u8>,
    table: Vec<u8>,
    /// The groups that have rows.
    groups: Vec<u16>,
    /// The marks that are used are below this.
    marks: u64,
    /// What the statuses of puts are drawn from.
    statuses: Random,
    /// For each worker, up to which record it is still.
    still: [usize; MAX_WORKERS],
}

impl Writer {
    fn new(kind: Kind, random: &mut Random, rights: &mut Random, statuses: Random) -> Writer {
        let profile = Profile::of(kind);
        let mut from = |(low, high)| random.between(low, high);
        let (workers, registers) = (from(profile.workers), from(profile.registers));
        let slots = registers + from(profile.spare);
        let clock = from(profile.clock);
        let list = profile.list.list(registers as u16, random);
        let rows = Groups::read::<Right>(&list, registers as u16).unwrap_or_default();
        let marks = random.between(profile.marking.marks.0, profile.marking.marks.1);
        let table = profile.table.table(workers as u8, registers as u16, rights);
        let mut hub = Hub::new();
        // Where it is refused, all is allowed.
        let _ = hub.give_table(&table);
        Writer {
            profile,
            hub,
            workers,
            registers,
            setup: Record::Setup {
                workers: workers as u8,
                registers: registers as u16,
                slots: slots as u16,
                clock: clock as u32,
            },
            list,
            table,
            groups: (0..GROUPS as u16).filter(|&group| !rows.rows(group).is_empty()).collect(),
            marks,
            statuses,
            still: [0; MAX_WORKERS],
        }
    }

    fn write(&mut self, file: &mut Vec<u8>, count: usize, before: usize, random: &mut Random) {
        let mut burst: Option<(u8, u64)> = None;
        for place in 0..count {
            self.hub.max_value = if place < before { u64::MAX } else { MAX_VALUE };
            // A list that is none never lets a setup pass.
            let setup = if place < 20 { 700 } else { 50 };
            let bytes = if self.hub.store().is_none() && random.chance(setup) {
                self.setup.encode()
            } else if self.hub.store().is_none() || random.chance(self.profile.invalid) {
                self.refused(random)
            } else {
                let worker = match burst.take() {
                    Some((worker, left)) if left > 0 => {
                        burst = Some((worker, left - 1));
                        worker
                    }
                    _ => {
                        let worker = self.awake(place, random);
                        burst = Some((worker, random.below(self.profile.burst)));
                        worker
                    }
                };
                self.accepted(worker, random).encode()
            };
            self.hub.take(&bytes, &self.list);
            let step = matches!(Record::decode(&bytes), Ok(Record::Step { .. }));
            if step && self.falls_still(bytes[1], place, random) {
                burst = None;
            }
            file.extend_from_slice(&bytes);
        }
    }

    fn store(&self) -> &Store {
        self.hub.store().expect("set up")
    }

    /// A worker that is not still, or any after some tries.
    fn awake(&mut self, place: usize, random: &mut Random) -> u8 {
        let mut worker = random.below(self.workers);
        for _ in 0..8 {
            if self.still[worker as usize] <= place {
                break;
            }
            worker = random.below(self.workers);
        }
        worker as u8
    }

    /// After a step: does a worker that is still busy fall still?
    fn falls_still(&mut self, worker: u8, place: usize, random: &mut Random) -> bool {
        let Some(store) = self.hub.store() else { return false };
        let Some(record) = store.workers.get(usize::from(worker)) else { return false };
        let rate = match record.doing {
            Doing::Idle => return false,
            Doing::ReadAt { .. } | Doing::TotalAt { .. } => self.profile.stall_read,
            Doing::MarkedAt { .. } => self.profile.stall_read,
            _ => self.profile.stall,
        };
        let falls = random.chance(rate);
        if falls {
            self.still[usize::from(worker)] =
                place + random.between(1, self.profile.stillness) as usize;
        }
        falls
    }

    /// A record that the worker's state allows, and mostly its rights too.
    fn accepted(&mut self, worker: u8, random: &mut Random) -> Record {
        let mut record = self.of_state(worker, random);
        for _ in 0..8 {
            let allowed = self.store().rights.allow(worker, Need::of(record));
            if allowed || random.chance(100) {
                break;
            }
            record = self.of_state(worker, random);
        }
        record
    }

    /// A record that the worker's state allows.
    fn of_state(&mut self, worker: u8, random: &mut Random) -> Record {
        let record = &self.store().workers[usize::from(worker)];
        if record.doing != Doing::Idle {
            return Record::Step { worker };
        }
        let Weights { put, open, read, close, get, collect } = self.profile.weights;
        let Marking { mark, release, marked, .. } = self.profile.marking;
        let snapshot = record.announced.is_some();
        let [empty, held] = [false, true].map(|held| self.marks_that(held));
        let only = |allowed: bool, weight: u64| if allowed { weight } else { 0 };
        let weights = [
            put,
            only(!snapshot, open),
            only(snapshot, read),
            only(snapshot, close),
            get,
            collect,
            only(snapshot && !self.groups.is_empty(), self.profile.total),
            only(snapshot && !empty.is_empty(), mark),
            only(!held.is_empty(), release),
            only(!held.is_empty(), marked),
        ];
        let register = random.below(self.registers) as u16;
        match random.weighted(&weights) {
            0 => {
                let value = value(self.hub.max_value, random);
                let reading = Reading { value, status: any_status(&mut self.statuses) };
                Record::Put { worker, register, reading }
            }
            1 => Record::Open { worker },
            2 => Record::Read { worker, register },
            3 => Record::Close { worker },
            4 => Record::Get { worker, register },
            5 => Record::Collect { worker },
            6 => Record::Total { worker, group: random.pick(&self.groups) },
            7 => Record::Mark { worker, mark: random.pick(&empty).into() },
            8 => Record::Release { worker, mark: random.pick(&held).into() },
            _ => Record::Marked { worker, register, mark: random.pick(&held) },
        }
    }

    /// The marks of the script that hold a time, or those that do not.
    fn marks_that(&self, hold: bool) -> Vec<u8> {
        let marks = &self.store().marks;
        let wanted = |&mark: &u8| marks[usize::from(mark)].is_some() == hold;
        (0..self.marks as u8).filter(wanted).collect()
    }

    /// This worker, or as often an idle one.
    fn often_idle(&self, worker: u8, random: &mut Random) -> u8 {
        let workers = self.hub.store().map_or(&[][..], |store| &store.workers);
        let numbered = (0..).zip(workers).filter(|(_, record)| record.doing == Doing::Idle);
        let idle: Vec<u8> = numbered.map(|(number, _)| number).collect();
        if idle.is_empty() || random.chance(500) {
            return worker;
        }
        random.pick(&idle)
    }

    /// Any mark: mostly one of the script's.
    fn any_mark(&self, random: &mut Random) -> u16 {
        match random.below(12) {
            0 => random.pick(&[12, 13, 127, 128, 255, 256, 267, 268, 4096, 65535]),
            1 => random.below(self.marks) as u16 | 1 << random.between(4, 15),
            2 => random.below(MARKS as u64) as u16,
            _ => random.below(self.marks) as u16,
        }
    }

    /// Any group: mostly one that has rows or may have some.
    fn any_group(&self, random: &mut Random) -> u16 {
        match random.below(8) {
            0..3 if !self.groups.is_empty() => random.pick(&self.groups),
            3 => random.pick(&[32, 33, 255, 256, 287, 65535]),
            4 => random.below(GROUPS as u64) as u16 | 1 << random.between(5, 15),
            _ => random.below(GROUPS as u64) as u16,
        }
    }

    /// A record with one reason or more to be refused (now and then with none).
    fn refused(&mut self, random: &mut Random) -> [u8; LENGTH] {
        let worker = random.below(self.workers) as u8;
        let register = random.below(self.registers) as u16;
        if random.chance(self.profile.setup) {
            return self.any_setup(random).encode();
        }
        let record = if random.chance(self.profile.large) {
            let reading = Reading { value: large(random), status: self.large_status() };
            Record::Put { worker, register, reading }
        } else {
            match random.below(13) {
                0 => self.any_setup(random),
                1 => {
                    let value = value(self.hub.max_value, random);
                    let reading = Reading { value, status: any_status(&mut self.statuses) };
                    Record::Put { worker, register, reading }
                }
                2 => Record::Open { worker },
                3 => Record::Read { worker, register },
                4 => Record::Close { worker },
                5 => Record::Get { worker, register },
                6 => Record::Collect { worker },
                7 => Record::Step { worker },
                8 | 12 => Record::Total { worker, group: self.any_group(random) },
                operation => {
                    let (worker, mark) = (self.often_idle(worker, random), self.any_mark(random));
                    match operation {
                        9 => Record::Mark { worker, mark },
                        10 => Record::Release { worker, mark },
                        _ => Record::Marked { worker, register, mark: mark as u8 },
                    }
                }
            }
        };
        let mut bytes = self.of_status(record, worker, register).encode();
        // Half of these only meet the state, busy or idle, a time or none, the limit and the status.
        if random.chance(500) {
            for _ in 0..random.between(1, 3) {
                self.spoil(&mut bytes, random);
            }
        }
        bytes
    }

    /// The status of a put above the limit: often one above 2.
    fn large_status(&mut self) -> u8 {
        let above = self.statuses.chance(400);
        if above {
            no_status(&mut self.statuses)
        } else {
            any_status(&mut self.statuses)
        }
    }

    /// This record, or in its turn a put of a status above 2, with the record's value if it has one.
    fn of_status(&mut self, record: Record, worker: u8, register: u16) -> Record {
        if !self.statuses.chance(self.profile.status) {
            return record;
        }
        let value = match record {
            Record::Put { reading, .. } => reading.value,
            _ => value(self.hub.max_value, &mut self.statuses),
        };
        let reading = Reading { value, status: no_status(&mut self.statuses) };
        Record::Put { worker, register, reading }
    }

    /// Gives a record one more reason to be refused.
    fn spoil(&self, bytes: &mut [u8; LENGTH], random: &mut Random) {
        let past = |random: &mut Random, bound: u64, most: u64| match random.below(3) {
            0 => bound.min(most),
            1 => random.between(bound.min(most), most),
            _ => most,
        };
        match random.below(4) {
            0 => bytes[0] = past(random, u64::from(LAST_OPERATION) + 1, 255) as u8,
            1 => bytes[random.between(2, 15) as usize] |= 1 << random.below(8),
            2 => bytes[1] = past(random, self.workers, 255) as u8,
            _ => {
                let register = past(random, self.registers, 65535) as u16;
                bytes[2..4].copy_from_slice(&register.to_le_bytes());
            }
        }
    }

    /// The script's setup, or one with a field at or past a bound.
    fn any_setup(&self, random: &mut Random) -> Record {
        let Record::Setup { mut workers, mut registers, mut slots, mut clock } = self.setup else {
            unreachable!("a setup")
        };
        match random.below(6) {
            0 => workers = random.pick(&[0, MAX_WORKERS as u8 + 1, 255]),
            1 => registers = random.pick(&[0, MAX_REGISTERS + 1, 65535]),
            2 => slots = random.pick(&[0, registers - 1, MAX_SLOTS + 1, 65535]),
            3 => clock = 0,
            4 => (workers, registers, slots, clock) = (0, 0, 0, 0),
            _ => {}
        }
        Record::Setup { workers, registers, slots, clock }
    }
}

/// Mostly small values that can be told apart, sometimes any up to the limit, it, or one below, and
/// sometimes 0; also larger ones where the limit is not A1's.
fn value(max_value: u64, random: &mut Random) -> u64 {
    match random.below(16) {
        0 => random.between(0, max_value),
        1 => max_value - random.below(2),
        2 => 0,
        3..7 if max_value > MAX_VALUE => large(random),
        _ => random.between(1, 999_999),
    }
}

/// A status: every second one is 0.
fn any_status(random: &mut Random) -> u8 {
    random.pick(&[0, 0, 1, 2])
}

/// A status above 2: the next one, with one bit more than a status, the largest, or any.
fn no_status(random: &mut Random) -> u8 {
    match random.below(4) {
        0 => LAST_STATUS + 1,
        1 => random.pick(&[4, 5, 6, 8, 16, 32, 64, 128, 129, 130]),
        2 => u8::MAX,
        _ => random.between(u64::from(LAST_STATUS) + 1, 255) as u8,
    }
}

/// A value above the limit: just above it, with one high bit over a small one, the largest, or any.
fn large(random: &mut Random) -> u64 {
    match random.below(5) {
        0 => MAX_VALUE + 1,
        1 => random.pick(&[MAX_VALUE + 1, MAX_VALUE + 2, 1 << 40, 1 << 63, u64::MAX - 1]),
        2 => u64::MAX,
        3 => random.between(1, 999_999) | 1 << random.between(40, 63),
        _ => random.between(MAX_VALUE + 1, u64::MAX),
    }
}
