//! The list of rows that comes with a setup (A2): which registers a group's total adds and which it
//! subtracts.

use crate::fault::Fault;
use crate::reading::READ;
use std::fmt;

/// Bytes in a row: group, sign, register.
pub const LENGTH: usize = 4;
/// Groups are below this.
pub const GROUPS: usize = 32;
/// Most rows of a group.
pub const MAX_ROWS: usize = 32;
/// Bytes in the longest list, which has all rows of all groups.
pub const MAX_LENGTH: usize = LENGTH * GROUPS * MAX_ROWS;

/// A row: its group's total adds this register, or subtracts it.
#[derive(Clone, Copy, Debug, PartialEq, Eq)]
pub struct Row {
    pub group: u8,
    pub minus: bool,
    pub register: u16,
}

/// What makes a list none, so that its setup gets 5.
#[derive(Clone, Copy, Debug, PartialEq, Eq)]
pub enum Unfit {
    Part,
    Sign,
    Group,
    Register,
    Falling,
    Many,
}

impl fmt::Display for Unfit {
    fn fmt(&self, f: &mut fmt::Formatter) -> fmt::Result {
        f.write_str(match self {
            Unfit::Part => "fewer than 4 bytes",
            Unfit::Sign => "sign above 1",
            Unfit::Group => "group above 31",
            Unfit::Register => "register not below V",
            Unfit::Falling => "group below the one before",
            Unfit::Many => "more than 32 rows of a group",
        })
    }
}

impl Row {
    /// Decodes a row; only its length and its sign are tested.
    pub fn decode<F: Fault>(bytes: &[u8]) -> Result<Row, Unfit> {
        let &[group, sign, low, high] = bytes else { return Err(Unfit::Part) };
        if sign > if F::SIGN_TWO { 2 } else { 1 } {
            return Err(Unfit::Sign);
        }
        Ok(Row { group, minus: sign != 0, register: u16::from_le_bytes([low, high]) })
    }

    /// The row's four bytes.
    pub fn encode(self) -> [u8; LENGTH] {
        let [low, high] = self.register.to_le_bytes();
        [self.group, u8::from(self.minus), low, high]
    }
}

/// Tests the rows of a list one after another.
#[derive(Clone, Copy, Debug, Default)]
pub struct Tests {
    /// The group of the row before, and how many rows it has so far.
    group: u8,
    rows: usize,
}

impl Tests {
    /// Does this row go on with the list, for a hub of so many registers?
    #[inline]
    pub fn row<F: Fault>(&mut self, row: Row, registers: u16) -> Result<(), Unfit> {
        if usize::from(row.group) >= GROUPS {
            return Err(Unfit::Group);
        }
        if row.register >= registers && !(F::REGISTER_V && row.register == registers) {
            return Err(Unfit::Register);
        }
        if row.group < self.group && !F::FALLING_GROUP {
            return Err(Unfit::Falling);
        }
        let before = if row.group == self.group { self.rows } else { 0 };
        if before == if F::ROW_33 { MAX_ROWS + 1 } else { MAX_ROWS } {
            return Err(Unfit::Many);
        }
        (self.group, self.rows) = (row.group, before + 1);
        Ok(())
    }
}

/// Where a total is: at this row of the list, with so many of its group after it, and with the largest
/// status that it has read before it.
#[derive(Clone, Copy, Debug, PartialEq, Eq)]
pub struct Place {
    pub row: u16,
    pub left: u8,
    pub status: u8,
}

impl Place {
    /// The place of the next row; none after the last.
    #[inline]
    pub fn next(self) -> Option<Place> {
        let left = self.left.checked_sub(1)?;
        Some(Place { row: self.row + 1, left, ..self })
    }
}

/// The rows of a list, group by group.
#[derive(Clone, Debug, PartialEq, Eq)]
pub struct Groups {
    rows: Vec<Row>,
    /// Where the rows of each group begin, and where the last one's end.
    starts: [u16; GROUPS + 1],
}

/// No rows.
impl Default for Groups {
    fn default() -> Groups {
        Groups { rows: Vec::new(), starts: [0; GROUPS + 1] }
    }
}

impl Groups {
    /// Reads a list for a hub of so many registers.
    pub fn read<F: Fault>(list: &[u8], registers: u16) -> Result<Groups, Unfit> {
        let Groups { mut rows, mut starts } = Groups::default();
        let mut tests = Tests::default();
        for bytes in list.chunks(LENGTH) {
            let row = Row::decode::<F>(bytes)?;
            tests.row::<F>(row, registers)?;
            rows.push(row);
        }
        if F::FALLING_GROUP {
            rows.sort_by_key(|row| row.group);
        }
        if F::REGISTER_V {
            rows.iter_mut()
                .for_each(|row| row.register = row.register.min(registers.saturating_sub(1)));
        }
        rows.iter().for_each(|row| starts[usize::from(row.group) + 1] += 1);
        (1..starts.len()).for_each(|group| starts[group] += starts[group - 1]);
        Ok(Groups { rows, starts })
    }

    /// Where the rows of a group begin and end.
    #[inline]
    fn bounds(&self, group: u16) -> (u16, u16) {
        match self.starts.get(usize::from(group)..) {
            Some(&[start, end, ..]) => (start, end),
            _ => (0, 0),
        }
    }

    /// The rows of a group; a group above 31 has none.
    pub fn rows(&self, group: u16) -> &[Row] {
        let (start, end) = self.bounds(group);
        &self.rows[usize::from(start)..usize::from(end)]
    }

    /// Does the row's register stand in its group before it? Only a fault asks.
    pub(crate) fn stands_before(&self, place: Place) -> bool {
        let Row { group, register, .. } = self.row(place);
        let before = &self.rows[..usize::from(place.row)];
        before.iter().any(|row| row.group == group && row.register == register)
    }

    /// All rows.
    pub fn all(&self) -> &[Row] {
        &self.rows
    }

    /// The place of a group's first row, none where it has no rows.
    #[inline]
    pub fn first<F: Fault>(&self, group: u16) -> Option<Place> {
        let group = if F::GROUP_BYTE { group & 0xff } else { group };
        let (row, mut end) = self.bounds(group);
        if F::NEXT_GROUP_TOO && row < end {
            end = end.max(self.bounds(group + 1).1);
        }
        let left = (end - row).checked_sub(1)?;
        Some(Place { row, left: left as u8, status: READ })
    }

    /// The row at a place.
    #[inline]
    pub fn row(&self, place: Place) -> Row {
        self.rows[usize::from(place.row)]
    }
}
