//! Random tables of rights: fit ones of all sizes, and ones with something that makes them none.

use crate::generate::Random;
use crate::rights::{Row, ALL, COLLECT, LAST_REGISTER, LENGTH, MARKS, MAX_ROWS, PUT, READ};
use crate::store::MAX_WORKERS;

/// What tables a kind of scripts has. Rates are of a thousand.
#[derive(Clone, Copy, Debug)]
pub struct Habit {
    /// Scripts without a table.
    pub missing: u64,
    /// Unfit tables among the rest.
    pub unfit: u64,
}

/// The hub that a table is for.
#[derive(Clone, Copy, Debug)]
struct Site {
    workers: u8,
    registers: u16,
}

impl Habit {
    /// A table for a hub of so many workers and registers; empty where it is missing.
    pub fn table(&self, workers: u8, registers: u16, random: &mut Random) -> Vec<u8> {
        if random.chance(self.missing) {
            return Vec::new();
        }
        let site = Site { workers, registers };
        let mut rows: Vec<Row> = match random.below(12) {
            0 => vec![site.row(random)],
            1 => (0..MAX_ROWS).map(|_| site.row(random)).collect(),
            2 => (0..random.between(2, 40)).map(|_| site.row(random)).collect(),
            _ => (0..workers).flat_map(|worker| site.rows_of(worker, random)).collect(),
        };
        if rows.is_empty() {
            rows.push(site.row(random));
        }
        shuffle(&mut rows, random);
        if random.chance(self.unfit) {
            return spoiled(rows, site, random);
        }
        encoded(&rows)
    }
}

impl Site {
    /// A row of any worker, mostly one of the hub's.
    fn row(self, random: &mut Random) -> Row {
        let workers = if random.chance(100) { MAX_WORKERS as u64 } else { self.workers.into() };
        self.row_of(random.below(workers) as u8, random)
    }

    /// A row of this worker.
    fn row_of(self, worker: u8, random: &mut Random) -> Row {
        let rights = match random.below(4) {
            0 => ALL,
            1 => random.pick(&[PUT, READ, COLLECT, MARKS]),
            _ => random.below(u64::from(ALL) + 1) as u8,
        };
        let (first, last) = self.span(random);
        Row { worker, rights, first, last }
    }

    /// Registers from one to another, mostly of the hub.
    fn span(self, random: &mut Random) -> (u16, u16) {
        let past = self.registers.min(LAST_REGISTER);
        let mut upto = |low: u16, high: u16| random.between(low.into(), high.into()) as u16;
        let any = upto(0, self.registers - 1);
        match upto(0, 7) {
            0 => (0, LAST_REGISTER),
            1 => (0, self.registers - 1),
            2 => (any, any),
            3 => (any, upto(any, LAST_REGISTER)),
            4 => (past, upto(past, LAST_REGISTER)),
            _ => (any, upto(any, self.registers - 1)),
        }
    }

    /// The rows of a worker: none, one without a right, one for all, two that together have all or all but
    /// one register, or a few of any kind.
    fn rows_of(self, worker: u8, random: &mut Random) -> Vec<Row> {
        let row = |rights, first, last| Row { worker, rights, first, last };
        let end = self.registers - 1;
        match random.below(8) {
            0 if random.chance(500) => Vec::new(),
            0 => vec![row(0, 0, end)],
            1 | 2 => vec![row(ALL, 0, random.pick(&[end, LAST_REGISTER]))],
            3 | 4 => {
                let cut = random.below(u64::from(end) + 1) as u16;
                let gap = u16::from(random.chance(500));
                let rights = random.pick(&[ALL, ALL - COLLECT, READ | MARKS]);
                let lower = cut.checked_sub(1).map(|last| row(rights, 0, last));
                let upper = Some(row(rights, cut + gap, end)).filter(|row| row.first <= end);
                lower.into_iter().chain(upper).collect()
            }
            _ => (0..random.between(1, 3)).map(|_| self.row_of(worker, random)).collect(),
        }
    }
}

/// Any order is as likely as another.
fn shuffle(rows: &mut [Row], random: &mut Random) {
    for place in (1..rows.len()).rev() {
        rows.swap(place, random.below(place as u64 + 1) as usize);
    }
}

fn encoded(rows: &[Row]) -> Vec<u8> {
    rows.iter().flat_map(|row| row.encode()).collect()
}

/// A table of these rows, of which there is one or more, with something in it that makes it none.
fn spoiled(mut rows: Vec<Row>, site: Site, random: &mut Random) -> Vec<u8> {
    let place = random.below(rows.len() as u64) as usize;
    let row = &mut rows[place];
    let mut byte = None;
    let mut rest = 0;
    match random.below(7) {
        // A part of a row at the end.
        0 => rest = random.between(1, LENGTH as u64 - 1),
        1 => row.worker = random.pick(&[16, 16, 17, 31, 255]),
        2 => byte = Some((1, random.pick(&[16, 16, 31, 128, 255]))),
        3 => row.last = random.pick(&[256, 256, 257, 511, 65535]),
        4 => {
            row.first = row.first.max(1);
            row.last = random.between(0, u64::from(row.first) - 1) as u16;
        }
        5 => byte = Some((random.pick(&[6, 7]), random.pick(&[1, 128, 255]))),
        // One row too many, or some.
        _ => {
            let more = MAX_ROWS + random.pick(&[1, 1, 2, 20]);
            rows.resize_with(more, || site.row(random));
        }
    }
    let mut table = encoded(&rows);
    if let Some((offset, value)) = byte {
        table[LENGTH * place + offset] = value;
    }
    table.extend((0..rest).map(|_| random.below(2) as u8));
    table
}
