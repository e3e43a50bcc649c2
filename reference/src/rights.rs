//! The table of rights (A7): its rows, what makes it none, and what it lets each worker do.
//!
//! `Rights` is made once, at setup, so that each record asks one bit. `permits` answers the same from
//! the rows, as the sentences have it; the checkers ask that.

use crate::fault::Fault;
use crate::list::{Groups, GROUPS};
use crate::record::Record;
use crate::store::MAX_WORKERS;
use std::fmt;

/// Bytes in a row: worker, rights, first and last register, two zeros.
pub const LENGTH: usize = 8;
/// Most rows of a table.
pub const MAX_ROWS: usize = 64;
/// Bytes in the longest table.
pub const MAX_LENGTH: usize = LENGTH * MAX_ROWS;
/// The highest register that a row may name.
pub const LAST_REGISTER: u16 = 255;

/// The rights, to be added.
pub const PUT: u8 = 1;
/// Read and get.
pub const READ: u8 = 2;
pub const COLLECT: u8 = 4;
/// Mark and release.
pub const MARKS: u8 = 8;
/// All of them.
pub const ALL: u8 = PUT | READ | COLLECT | MARKS;

/// A row: its worker has these rights on the registers from first to last.
#[derive(Clone, Copy, Debug, PartialEq, Eq)]
pub struct Row {
    pub worker: u8,
    pub rights: u8,
    pub first: u16,
    pub last: u16,
}

/// What makes a table none, so that it gets 24.
#[derive(Clone, Copy, Debug, PartialEq, Eq)]
pub enum Unfit {
    Part,
    Rights,
    Pair,
    Worker,
    Last,
    Falling,
    Many,
}

impl fmt::Display for Unfit {
    fn fmt(&self, f: &mut fmt::Formatter) -> fmt::Result {
        f.write_str(match self {
            Unfit::Part => "fewer than 8 bytes",
            Unfit::Rights => "rights above 15",
            Unfit::Pair => "last two bytes not zero",
            Unfit::Worker => "worker above 15",
            Unfit::Last => "last register above 255",
            Unfit::Falling => "first register above the last",
            Unfit::Many => "more than 64 rows",
        })
    }
}

impl Row {
    /// Decodes a row; only its length, its rights and its last two bytes are tested.
    pub fn decode<F: Fault>(bytes: &[u8]) -> Result<Row, Unfit> {
        let &[worker, rights, a, b, c, d, e, f] = bytes else { return Err(Unfit::Part) };
        if rights > ALL {
            return Err(Unfit::Rights);
        }
        if (e, f) != (0, 0) && !F::PAIR_UNTESTED {
            return Err(Unfit::Pair);
        }
        let (first, last) = (u16::from_le_bytes([a, b]), u16::from_le_bytes([c, d]));
        Ok(Row { worker, rights, first, last })
    }

    /// Is it a row of a table, after so many others?
    pub fn test<F: Fault>(self, before: usize) -> Result<(), Unfit> {
        if usize::from(self.worker) >= MAX_WORKERS {
            return Err(Unfit::Worker);
        }
        if self.last > LAST_REGISTER {
            return Err(Unfit::Last);
        }
        if self.first > self.last && !F::ORDER_UNTESTED {
            return Err(Unfit::Falling);
        }
        if before >= if F::ROW_65 { MAX_ROWS + 1 } else { MAX_ROWS } {
            return Err(Unfit::Many);
        }
        Ok(())
    }

    /// The row's eight bytes.
    pub fn encode(self) -> [u8; LENGTH] {
        let ([a, b], [c, d]) = (self.first.to_le_bytes(), self.last.to_le_bytes());
        [self.worker, self.rights, a, b, c, d, 0, 0]
    }

    /// Does it give its worker this right on the register?
    fn gives(self, right: u8, register: u16) -> bool {
        self.rights & right != 0 && (self.first..=self.last).contains(&register)
    }
}

/// Reads a table.
pub fn read<F: Fault>(table: &[u8]) -> Result<Vec<Row>, Unfit> {
    let mut rows = Vec::new();
    for bytes in table.chunks(LENGTH) {
        let row = Row::decode::<F>(bytes)?;
        row.test::<F>(rows.len())?;
        rows.push(row);
    }
    Ok(rows)
}

/// What an operation needs a right for.
#[derive(Clone, Copy, Debug, PartialEq, Eq)]
pub enum Need {
    Nothing,
    /// To put to this register.
    Put(u16),
    /// To read this register: a read, a get or a marked read.
    Read(u16),
    /// To read each register of this group.
    Total(u16),
    Collect,
    /// To mark or release.
    Marks,
}

impl Need {
    /// What a record's operation needs. Open, close, setup and step need nothing.
    pub fn of(record: Record) -> Need {
        match record {
            Record::Put { register, .. } => Need::Put(register),
            Record::Read { register, .. }
            | Record::Get { register, .. }
            | Record::Marked { register, .. } => Need::Read(register),
            Record::Total { group, .. } => Need::Total(group),
            Record::Collect { .. } => Need::Collect,
            Record::Mark { .. } | Record::Release { .. } => Need::Marks,
            Record::Open { .. }
            | Record::Close { .. }
            | Record::Setup { .. }
            | Record::Step { .. } => Need::Nothing,
        }
    }
}

/// Do these rows let a worker do this, on a hub of so many registers with these groups?
pub fn permits(rows: &[Row], worker: u8, need: Need, registers: u16, groups: &Groups) -> bool {
    let mut own = rows.iter().filter(|row| row.worker == worker);
    let on =
        |right, register| rows.iter().any(|row| row.worker == worker && row.gives(right, register));
    match need {
        Need::Nothing => true,
        _ if rows.is_empty() => true,
        Need::Put(register) => on(PUT, register),
        Need::Read(register) => on(READ, register),
        Need::Total(group) => groups.rows(group).iter().all(|row| on(READ, row.register)),
        Need::Collect => own.any(|row| row.rights & COLLECT != 0),
        Need::Marks => (0..registers).all(|register| on(MARKS, register)),
    }
}

/// A bit for each of 256 registers.
#[derive(Clone, Copy, Debug, Default, PartialEq, Eq)]
struct Registers([u64; 4]);

impl Registers {
    const EVERY: Registers = Registers([u64::MAX; 4]);

    /// Those from first to last, at most 255.
    fn span(first: u16, last: u16) -> Registers {
        let below = |end: u16, word: usize| match usize::from(end).saturating_sub(64 * word) {
            bits @ 0..64 => (1 << bits) - 1,
            _ => u64::MAX,
        };
        Registers(std::array::from_fn(|word| below(last + 1, word) & !below(first, word)))
    }

    fn join(&mut self, other: Registers) {
        self.0.iter_mut().zip(other.0).for_each(|(word, more)| *word |= more);
    }

    fn remove(&mut self, other: Registers) {
        self.0.iter_mut().zip(other.0).for_each(|(word, less)| *word &= !less);
    }

    fn has_all(self, other: Registers) -> bool {
        self.0.iter().zip(other.0).all(|(word, other)| other & !word == 0)
    }

    fn has_any(self, other: Registers) -> bool {
        self.0.iter().zip(other.0).any(|(word, other)| other & word != 0)
    }

    #[inline]
    fn has(self, register: u16) -> bool {
        let word = self.0.get(usize::from(register / 64));
        word.is_some_and(|word| word >> (register % 64) & 1 != 0)
    }
}

/// What one worker may do.
#[derive(Clone, Copy, Debug, PartialEq, Eq)]
struct Allowed {
    put: Registers,
    read: Registers,
    /// A bit for each group whose registers it may all read.
    totals: u32,
    collect: bool,
    marks: bool,
}

/// What each worker of a hub may do, and the rows that say so.
#[derive(Clone, Debug, Default, PartialEq, Eq)]
pub struct Rights {
    rows: Vec<Row>,
    workers: Vec<Allowed>,
}

impl Rights {
    /// What a table says for a hub of so many workers and registers with these groups.
    pub fn new<F: Fault>(rows: &[Row], workers: usize, registers: u16, groups: &Groups) -> Rights {
        let everything = Allowed {
            put: Registers::EVERY,
            read: Registers::EVERY,
            totals: u32::MAX,
            collect: true,
            marks: true,
        };
        let allowed = |worker: usize| {
            let own: Vec<Row> =
                rows.iter().copied().filter(|row| usize::from(row.worker) == worker).collect();
            let free = rows.is_empty() && !F::EMPTY_FORBIDS || own.is_empty() && F::NO_ROWS_ALLOWED;
            if free {
                everything
            } else {
                Allowed::by::<F>(&own, registers, groups)
            }
        };
        Rights { rows: rows.to_vec(), workers: (0..workers).map(allowed).collect() }
    }

    /// The table's rows.
    pub fn rows(&self) -> &[Row] {
        &self.rows
    }

    /// May a worker do this? A total is of a group that has rows.
    #[inline]
    pub fn allow(&self, worker: u8, need: Need) -> bool {
        let Some(allowed) = self.workers.get(usize::from(worker)) else { return false };
        match need {
            Need::Nothing => true,
            Need::Put(register) => allowed.put.has(register),
            Need::Read(register) => allowed.read.has(register),
            Need::Total(group) => allowed.totals >> (group % GROUPS as u16) & 1 != 0,
            Need::Collect => allowed.collect,
            Need::Marks => allowed.marks,
        }
    }
}

impl Allowed {
    /// What a worker's own rows let it do, or what a fault takes for it.
    fn by<F: Fault>(own: &[Row], registers: u16, groups: &Groups) -> Allowed {
        let [put, read, collect, marks] = [PUT, READ, COLLECT, MARKS].map(|r| joined::<F>(own, r));
        let every = Registers::span(0, registers - 1);
        let has_group = |group: u16| match groups.rows(group) {
            [first, ..] if F::TOTAL_FIRST_ONLY => read.has(first.register),
            rows => rows.iter().all(|row| read.has(row.register)),
        };
        let totals = (0..GROUPS as u16).filter(|&group| has_group(group));
        let one_row = |row: &Row| joined::<F>(&[*row], MARKS).has_all(every);
        Allowed {
            put,
            read,
            totals: totals.fold(0, |groups, group| groups | 1 << group),
            collect: match F::COLLECT_EVERYWHERE {
                true => collect.has_all(every),
                false => own.iter().any(|row| row.rights & COLLECT != 0),
            },
            marks: if F::MARKS_ONE_REGISTER {
                marks.has_any(every)
            } else if F::MARKS_ONE_ROW {
                own.iter().any(one_row)
            } else {
                marks.has_all(every)
            },
        }
    }
}

/// The registers on which rows of one worker together give a right, or what a fault takes for them.
fn joined<F: Fault>(own: &[Row], right: u8) -> Registers {
    let counting = if F::LAST_ROW_ONLY { &own[own.len().saturating_sub(1)..] } else { own };
    let mut registers = Registers::default();
    for row in counting {
        let first = row.first + u16::from(F::FIRST_EXCLUDED);
        let end = row.last + u16::from(!F::LAST_EXCLUDED);
        let span = if first < end { Registers::span(first, end - 1) } else { Registers::default() };
        let rights = match F::RIGHTS_SPREAD {
            true => own.iter().fold(0, |rights, row| rights | row.rights),
            false => row.rights,
        };
        if rights & right != 0 {
            registers.join(span);
        } else if F::ROW_REPLACES {
            registers.remove(span);
        }
    }
    registers
}
