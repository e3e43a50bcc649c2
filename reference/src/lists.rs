//! Random lists: fit ones of all sizes, and ones with something that makes them none.

use crate::generate::Random;
use crate::list::{Row, GROUPS, LENGTH, MAX_ROWS};

/// What lists a kind of scripts has. Pairs are lowest and highest; rates are of a thousand.
#[derive(Clone, Copy, Debug)]
pub struct Habit {
    /// Scripts without a list.
    pub missing: u64,
    /// Unfit lists among the rest.
    pub unfit: u64,
    pub groups: (u64, u64),
    /// Rows of a group.
    pub rows: (u64, u64),
}

impl Habit {
    /// A list for a hub of so many registers; empty where it is missing.
    pub fn list(&self, registers: u16, random: &mut Random) -> Vec<u8> {
        if random.chance(self.missing) {
            return Vec::new();
        }
        let mut rows = self.rows(registers, random);
        if random.chance(self.unfit) {
            return spoiled(&mut rows, registers, random);
        }
        encoded(&rows)
    }

    /// Rows that fit. Now and then a group has all its rows, and all groups have.
    fn rows(&self, registers: u16, random: &mut Random) -> Vec<Row> {
        let all = random.chance(50);
        let mut left = random.between(self.groups.0, self.groups.1);
        let mut rows = Vec::new();
        for group in 0..GROUPS as u8 {
            // Each group as likely as any other.
            if !all && random.below(GROUPS as u64 - u64::from(group)) >= left {
                continue;
            }
            left = left.saturating_sub(1);
            let count = match all || random.chance(50) {
                true => MAX_ROWS as u64,
                false => random.between(self.rows.0, self.rows.1),
            };
            rows.extend((0..count).map(|_| any_row(group, registers, random)));
        }
        rows
    }
}

fn any_row(group: u8, registers: u16, random: &mut Random) -> Row {
    let register = random.below(u64::from(registers)) as u16;
    Row { group, minus: random.chance(400), register }
}

fn encoded(rows: &[Row]) -> Vec<u8> {
    rows.iter().flat_map(|row| row.encode()).collect()
}

/// A list of these rows, of which there is one or more, with something in it that makes it none.
fn spoiled(rows: &mut Vec<Row>, registers: u16, random: &mut Random) -> Vec<u8> {
    let place = random.below(rows.len() as u64) as usize;
    let Row { group, .. } = rows[place];
    match random.below(7) {
        // A part of a row at the end.
        0 => {
            let mut list = encoded(rows);
            list.extend((0..random.between(1, 3)).map(|_| random.below(2) as u8));
            return list;
        }
        // A sign.
        1 => {
            let mut list = encoded(rows);
            list[LENGTH * place + 1] = random.pick(&[2, 2, 3, 255]);
            return list;
        }
        2 => rows[place].register = random.pick(&[registers, registers, registers | 256, 65535]),
        3 => {
            let group = random.pick(&[32, 33, 63, 255]);
            rows.push(any_row(group, registers, random));
        }
        // A group below the one before: at the end, or anywhere.
        4 if group > 0 => {
            let lower = random.below(u64::from(group)) as u8;
            rows.insert(place + 1, any_row(lower, registers, random));
        }
        // One row too many of a group, and of all groups.
        5 => {
            let count = rows.iter().filter(|row| row.group == group).count();
            let more = (count..=MAX_ROWS).map(|_| any_row(group, registers, random));
            let more: Vec<Row> = more.collect();
            rows.splice(place..place, more);
        }
        _ => {
            rows.clear();
            let groups = (0..GROUPS as u8).flat_map(|group| [group; MAX_ROWS]);
            rows.extend(groups.chain([31]).map(|group| any_row(group, registers, random)));
        }
    }
    encoded(rows)
}
