//! The sizes and habits of each kind of random scripts.

use crate::generate::Kind;
use crate::lists::Habit;
use crate::store::{LAST_CLOCK, MAX_REGISTERS, MAX_SLOTS};
use crate::tables;

/// Weights of the operations that an idle worker may begin.
#[derive(Clone, Copy, Debug)]
pub struct Weights {
    pub put: u64,
    pub open: u64,
    pub read: u64,
    pub close: u64,
    pub get: u64,
    pub collect: u64,
}

/// Weights of the operations on marks beside them, and how many marks are used.
#[derive(Clone, Copy, Debug)]
pub struct Marking {
    pub mark: u64,
    pub release: u64,
    pub marked: u64,
    pub marks: (u64, u64),
}

/// The sizes and habits of a kind. Pairs are lowest and highest; rates are of a thousand.
#[derive(Clone, Copy, Debug)]
pub struct Profile {
    pub workers: (u64, u64),
    pub registers: (u64, u64),
    /// Slots beyond one for each register.
    pub spare: (u64, u64),
    pub clock: (u64, u64),
    pub list: Habit,
    pub table: tables::Habit,
    pub weights: Weights,
    /// The weight of a total beside them.
    pub total: u64,
    pub marking: Marking,
    /// Most steps that a worker takes in a row.
    pub burst: u64,
    /// Refused on purpose.
    pub invalid: u64,
    /// Setups among them.
    pub setup: u64,
    /// Puts above the limit among the rest of them.
    pub large: u64,
    /// Puts of a status above 2 in place of others of them.
    pub status: u64,
    /// A busy worker falls still after a step.
    pub stall: u64,
    /// A read falls still after a step.
    pub stall_read: u64,
    /// Longest stillness, in records.
    pub stillness: u64,
}

const MIXED: Profile = Profile {
    workers: (1, 16),
    registers: (1, 8),
    spare: (0, 60),
    clock: (1, 1000),
    list: Habit { missing: 250, unfit: 20, groups: (1, 4), rows: (1, 5) },
    table: tables::Habit { missing: 700, unfit: 200 },
    weights: Weights { put: 40, open: 12, read: 20, close: 8, get: 10, collect: 6 },
    total: 8,
    marking: Marking { mark: 6, release: 3, marked: 8, marks: (1, 12) },
    burst: 6,
    invalid: 20,
    setup: 5,
    large: 100,
    status: 50,
    stall: 10,
    stall_read: 30,
    stillness: 200,
};

impl Profile {
    pub fn of(kind: Kind) -> Profile {
        let last = u64::from(LAST_CLOCK);
        let most_registers = u64::from(MAX_REGISTERS);
        match kind {
            Kind::Uniform | Kind::Mixed | Kind::Tails => MIXED,
            Kind::Slots => Profile {
                workers: (1, 4),
                registers: (1, 4),
                spare: (0, 5),
                weights: Weights { put: 60, open: 8, read: 10, close: 6, get: 6, collect: 16 },
                ..MIXED
            },
            Kind::Clock => Profile {
                workers: (1, 4),
                registers: (1, 3),
                spare: (1, 12),
                clock: (last - 12, last),
                weights: Weights { put: 30, open: 30, read: 15, close: 25, get: 5, collect: 8 },
                ..MIXED
            },
            Kind::Snapshots => Profile {
                workers: (1, 4),
                registers: (2, 16),
                spare: (10, 120),
                weights: Weights { put: 70, open: 12, read: 12, close: 2, get: 3, collect: 6 },
                ..MIXED
            },
            Kind::Collects => Profile {
                workers: (1, 4),
                registers: (1, 4),
                spare: (2, 20),
                weights: Weights { put: 40, open: 10, read: 10, close: 8, get: 4, collect: 40 },
                ..MIXED
            },
            Kind::Reads => Profile {
                workers: (2, 6),
                registers: (1, 2),
                spare: (4, 24),
                weights: Weights { put: 40, open: 14, read: 40, close: 6, get: 2, collect: 24 },
                stall_read: 500,
                stillness: 120,
                ..MIXED
            },
            Kind::Setups => Profile { invalid: 200, setup: 800, ..MIXED },
            Kind::Invalid => Profile { invalid: 500, setup: 60, ..MIXED },
            Kind::Large => Profile {
                workers: (16, 16),
                registers: (256, 256),
                spare: (2048 - 256, 2048 - 256),
                weights: Weights { put: 60, open: 10, read: 20, close: 8, get: 6, collect: 2 },
                list: Habit { groups: (1, 32), rows: (1, 32), ..MIXED.list },
                invalid: 5,
                burst: 12,
                ..MIXED
            },
            Kind::Batches => Profile {
                workers: (1, 2),
                registers: (1, 6),
                spare: (2, 30),
                weights: Weights { put: 60, open: 10, read: 8, close: 8, get: 4, collect: 6 },
                ..MIXED
            },
            Kind::Stalled => Profile {
                workers: (2, 4),
                registers: (1, 2),
                spare: (2, 10),
                weights: Weights { put: 50, open: 16, read: 12, close: 14, get: 2, collect: 24 },
                stall: 120,
                stall_read: 120,
                stillness: 150,
                ..MIXED
            },
            Kind::Sizes => Profile {
                registers: (1, most_registers),
                spare: (0, u64::from(MAX_SLOTS) - most_registers),
                invalid: 5,
                burst: 12,
                ..MIXED
            },
            Kind::Full => Profile {
                registers: (17, most_registers - 1),
                spare: (0, 80),
                weights: Weights { put: 70, open: 8, read: 8, close: 6, get: 4, collect: 4 },
                invalid: 5,
                burst: 12,
                ..MIXED
            },
            Kind::Values => Profile {
                workers: (1, 4),
                registers: (1, 3),
                spare: (2, 20),
                invalid: 200,
                large: 800,
                ..MIXED
            },
            Kind::Totals => Profile {
                workers: (2, 6),
                registers: (1, 3),
                spare: (4, 24),
                list: Habit { missing: 20, unfit: 10, groups: (1, 3), rows: (1, 6) },
                weights: Weights { put: 40, open: 14, read: 4, close: 5, get: 2, collect: 20 },
                total: 40,
                marking: Marking { mark: 2, release: 2, marked: 2, ..MIXED.marking },
                invalid: 60,
                burst: 10,
                stall_read: 250,
                stillness: 100,
                ..MIXED
            },
            Kind::Lists => Profile {
                workers: (1, 4),
                registers: (1, most_registers),
                list: Habit { missing: 50, unfit: 500, groups: (1, 32), rows: (1, 32) },
                total: 60,
                invalid: 60,
                setup: 150,
                burst: 40,
                ..MIXED
            },
            Kind::Marks => Profile {
                workers: (2, 6),
                registers: (1, 3),
                spare: (4, 24),
                weights: Weights { put: 24, open: 20, read: 4, close: 10, get: 2, collect: 12 },
                marking: Marking { mark: 30, release: 24, marked: 40, marks: (1, 3) },
                invalid: 150,
                burst: 4,
                stall: 60,
                stall_read: 150,
                stillness: 60,
                ..MIXED
            },
            Kind::Held => Profile {
                workers: (3, 8),
                registers: (1, 3),
                spare: (12, 60),
                weights: Weights { put: 40, open: 20, read: 4, close: 30, get: 2, collect: 24 },
                marking: Marking { mark: 30, release: 1, marked: 40, marks: (8, 12) },
                burst: 10,
                stall_read: 300,
                stillness: 100,
                ..MIXED
            },
            Kind::Empty => Profile {
                workers: (2, 6),
                registers: (1, 30),
                spare: (4, 40),
                list: Habit { missing: 20, unfit: 10, groups: (1, 4), rows: (1, 8) },
                weights: Weights { put: 12, open: 14, read: 20, close: 8, get: 30, collect: 4 },
                total: 12,
                marking: Marking { mark: 10, release: 3, marked: 20, marks: (1, 4) },
                burst: 2,
                stall: 200,
                stillness: 60,
                ..MIXED
            },
            Kind::Rights => Profile {
                workers: (2, 6),
                registers: (1, 12),
                spare: (4, 40),
                list: Habit { missing: 100, unfit: 10, groups: (1, 6), rows: (1, 4) },
                table: tables::Habit { missing: 20, unfit: 300 },
                total: 20,
                marking: Marking { mark: 16, release: 8, marked: 16, marks: (1, 4) },
                invalid: 150,
                ..MIXED
            },
            Kind::Statuses => Profile {
                workers: (2, 5),
                registers: (1, 4),
                spare: (4, 24),
                list: Habit { missing: 20, unfit: 10, groups: (1, 4), rows: (1, 6) },
                table: tables::Habit { missing: 400, unfit: 100 },
                weights: Weights { put: 30, open: 14, read: 16, close: 8, get: 16, collect: 8 },
                total: 20,
                marking: Marking { mark: 8, release: 3, marked: 14, marks: (1, 4) },
                invalid: 200,
                large: 300,
                status: 700,
                ..MIXED
            },
        }
    }
}
