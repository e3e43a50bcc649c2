//! A slow hub written straight from the documents' sentences, with other data: each register's
//! list is a vector, each pool a vector of vectors, times are wide numbers. Both hubs give one log.

use crate::common;

use reference::fault::Right;
use reference::generate::{script_across, Kind};
use std::collections::{BTreeMap, VecDeque};

/// An open high and an unset low: above every time.
const NONE: u64 = u64::MAX;

#[derive(Clone, Default)]
struct Version {
    /// With its status; none from setup.
    value: Option<(u64, u8)>,
    low: u64,
    high: u64,
}

/// Slot, low, high.
type Range = (usize, u64, u64);

#[derive(Clone, Default)]
struct Worker {
    /// Operation number, register, group or mark, value or a marked read's mark; none when idle.
    operation: Option<(u8, usize, u64)>,
    /// Of a put.
    status: u8,
    /// Steps of it taken; in a flush, steps of the flush.
    steps: usize,
    flushing: bool,
    time: Option<u64>,
    /// Of a marked read that runs: the time of its mark, and the mark.
    marked: Option<(u64, usize)>,
    pool: Vec<Range>,
    covered: usize,
    standing: Option<usize>,
    /// Of a total: rows that are summed, their sum, and every status that was read.
    rows: usize,
    sum: i128,
    statuses: Vec<u8>,
    merged: Vec<Range>,
    times: Vec<u64>,
    needless: VecDeque<usize>,
}

#[derive(Default)]
struct Plain {
    /// Is it still the time before A1?
    before_a1: bool,
    workers: Vec<Worker>,
    /// Those that are in use.
    marks: BTreeMap<usize, u64>,
    clock: u64,
    batch: usize,
    slots: Vec<Version>,
    /// Oldest first.
    lists: Vec<Vec<usize>>,
    /// Next to be taken first.
    free: VecDeque<usize>,
    queue: VecDeque<Vec<Range>>,
    /// By group: sign and register.
    groups: Vec<Vec<(i128, usize)>>,
    /// Rows of eight bytes.
    table: Vec<Vec<u8>>,
}

fn number(bytes: &[u8]) -> u64 {
    bytes.iter().rev().fold(0, |n, &byte| n * 256 + u64::from(byte))
}

/// The rows of each group, none where any row or the length is not of the form.
fn groups(list: &[u8], v: usize) -> Option<Vec<Vec<(i128, usize)>>> {
    let mut groups = vec![Vec::new(); 32];
    let mut last = 0;
    for row in list.chunks(4) {
        let &[group, sign, _, _] = row else { return None };
        let register = number(&row[2..]) as usize;
        if group < last || group > 31 || sign > 1 || register >= v {
            return None;
        }
        groups[usize::from(group)].push(([1, -1][usize::from(sign)], register));
        last = group;
    }
    groups.iter().all(|rows| rows.len() <= 32).then_some(groups)
}

/// The rows of a table, none where any row or the length is not of the form.
fn rows(table: &[u8]) -> Option<Vec<Vec<u8>>> {
    let fits = |row: &[u8]| {
        row.len() == 8
            && row[0] < 16
            && row[1] < 16
            && number(&row[2..4]) <= number(&row[4..6])
            && number(&row[4..6]) < 256
            && row[6..] == [0, 0]
    };
    let rows: Vec<Vec<u8>> = table.chunks(8).map(<[u8]>::to_vec).collect();
    (rows.len() <= 64 && rows.iter().all(|row| fits(row))).then_some(rows)
}

fn merge(first: &[Range], second: &[Range]) -> Vec<Range> {
    let mut all = [first, second].concat();
    all.sort_by_key(|&(_, _, high)| high);
    all
}

impl Plain {
    /// Has the worker this right on the register?
    fn may(&self, worker: usize, right: u8, register: usize) -> bool {
        let mut own = self.table.iter().filter(|row| usize::from(row[0]) == worker);
        own.any(|row| {
            let (first, last) = (number(&row[2..4]) as usize, number(&row[4..6]) as usize);
            row[1] & right != 0 && first <= register && register <= last
        })
    }

    fn allowed(&self, operation: u8, worker: usize, register: usize) -> bool {
        let mut own = self.table.iter().filter(|row| usize::from(row[0]) == worker);
        match operation {
            _ if self.table.is_empty() => true,
            1 => self.may(worker, 1, register),
            3 | 5 | 11 => self.may(worker, 2, register),
            6 => own.any(|row| row[1] & 4 != 0),
            8 => self.groups[register].iter().all(|&(_, register)| self.may(worker, 2, register)),
            9 | 10 => (0..self.lists.len()).all(|register| self.may(worker, 8, register)),
            _ => true,
        }
    }

    fn take(&mut self, bytes: &[u8], list: &[u8]) -> String {
        self.answer(bytes, list).unwrap_or_else(|refusal| format!("no {refusal}"))
    }

    fn answer(&mut self, bytes: &[u8], list: &[u8]) -> Result<String, u8> {
        if bytes.len() < 16 {
            return Err(6);
        }
        let operation = bytes[0];
        let unused: Vec<usize> = match operation {
            0 => vec![6, 7, 12, 13, 14, 15],
            1 => (5..8).collect(),
            3 | 5 | 8..=10 => (4..16).collect(),
            11 => (5..16).collect(),
            2 | 4 | 6 | 7 => (2..16).collect(),
            _ => return Err(1),
        };
        if unused.iter().any(|&place| bytes[place] != 0) {
            return Err(2);
        }
        let set_up = !self.workers.is_empty();
        let (w, register) = (usize::from(bytes[1]), number(&bytes[2..4]) as usize);
        match (operation, set_up) {
            (0, true) => return Err(9),
            (0, false) => return self.set_up(w, register, bytes, list),
            (_, false) => return Err(8),
            _ => {}
        }
        if w >= self.workers.len() {
            return Err(3);
        }
        match operation {
            8 if self.groups.get(register).is_none_or(Vec::is_empty) => return Err(17),
            9 | 10 if register > 11 => return Err(4),
            8..=10 => {}
            11 if bytes[4] > 11 => return Err(4),
            _ if register >= self.lists.len() => return Err(4),
            _ => {}
        }
        let value = if operation == 11 { u64::from(bytes[4]) } else { number(&bytes[8..]) };
        if operation == 1 && value > 999999999999 && !self.before_a1 {
            return Err(16);
        }
        if operation == 1 && bytes[4] > 2 {
            return Err(25);
        }
        if !self.allowed(operation, w, register) {
            return Err(23);
        }
        let worker = &mut self.workers[w];
        if operation == 7 {
            return match worker.operation {
                None => Err(11),
                Some(doing) => self.step(w, doing),
            };
        }
        match (worker.operation, operation, worker.time) {
            (Some(_), _, _) => Err(10),
            (_, 2, Some(_)) => Err(12),
            (_, 3 | 4 | 8 | 9, None) => Err(13),
            _ => {
                self.test_mark(operation, register, value)?;
                let worker = &mut self.workers[w];
                worker.operation = Some((operation, register, value));
                worker.status = bytes[4];
                worker.steps = 0;
                (worker.rows, worker.sum) = (0, 0);
                worker.statuses.clear();
                worker.flushing = operation == 6;
                Ok("ok".to_string())
            }
        }
    }

    /// A mark in use for a mark; empty for a read or a release; read for a release.
    fn test_mark(&self, operation: u8, register: usize, value: u64) -> Result<(), u8> {
        let mark = if operation == 11 { value as usize } else { register };
        let used = self.marks.contains_key(&mark);
        let read = self.workers.iter().any(|w| w.marked.is_some_and(|(_, other)| other == mark));
        match operation {
            9 if used => Err(19),
            10 | 11 if !used => Err(20),
            10 if read => Err(21),
            _ => Ok(()),
        }
    }

    fn set_up(&mut self, p: usize, v: usize, bytes: &[u8], list: &[u8]) -> Result<String, u8> {
        let (n, clock) = (number(&bytes[4..6]) as usize, number(&bytes[8..12]));
        let fits = (1..=16).contains(&p) && (1..=256).contains(&v) && (v..=2048).contains(&n);
        if !fits || clock < 1 {
            return Err(5);
        }
        self.groups = groups(list, v).ok_or(5)?;
        self.workers = vec![Worker::default(); p];
        self.clock = clock;
        self.batch = [1, 2, 6, 8, 15, 18, 21, 24, 36, 40, 44, 48, 52, 56, 60, 64][p - 1];
        self.slots = vec![Version { value: None, low: 0, high: NONE }; n];
        self.lists = (0..v).map(|register| vec![register]).collect();
        self.free = (v..n).collect();
        Ok("ok".to_string())
    }

    fn stamp(&mut self, register: usize) {
        let list = &self.lists[register];
        let newest = list[list.len() - 1];
        if self.slots[newest].low == NONE {
            self.slots[newest].low = self.clock;
            self.slots[list[list.len() - 2]].high = self.clock;
        }
    }

    fn end(&mut self, w: usize, words: String) -> Result<String, u8> {
        self.workers[w].operation = None;
        Ok(words)
    }

    fn step(&mut self, w: usize, doing: (u8, usize, u64)) -> Result<String, u8> {
        let (operation, register, value) = doing;
        self.workers[w].steps += 1;
        let steps = self.workers[w].steps;
        let going = Ok("going".to_string());
        if self.workers[w].flushing {
            return self.flush(w, steps);
        }
        match (operation, steps) {
            (1, 1) => {
                if self.free.is_empty() {
                    return self.end(w, "no 14".to_string());
                }
                self.stamp(register);
                let slot = self.free.pop_front().unwrap();
                self.workers[w].covered = *self.lists[register].last().unwrap();
                let value = Some((value, self.workers[w].status));
                self.slots[slot] = Version { value, low: NONE, high: NONE };
                self.lists[register].push(slot);
                going
            }
            (1, 2) => {
                if self.slots[self.workers[w].covered].high == NONE {
                    self.stamp(register);
                }
                going
            }
            (1, _) => {
                let slot = self.workers[w].covered;
                let range = (slot, self.slots[slot].low, self.slots[slot].high);
                self.workers[w].pool.push(range);
                if self.workers[w].pool.len() == self.batch {
                    self.workers[w].flushing = true;
                    self.workers[w].steps = 0;
                    going
                } else {
                    self.end(w, "done".to_string())
                }
            }
            (2, 1) => {
                if self.clock == 4294967295 {
                    return self.end(w, "no 15".to_string());
                }
                self.workers[w].time = Some(self.clock);
                going
            }
            (2, _) => {
                let time = self.workers[w].time.unwrap();
                if self.clock == time {
                    self.clock += 1;
                }
                self.end(w, format!("at {time}"))
            }
            (3, 1) => {
                self.stamp(register);
                self.workers[w].standing = self.lists[register].last().copied();
                going
            }
            (3, _) => {
                let slot = self.workers[w].standing.unwrap();
                if self.slots[slot].low <= self.workers[w].time.unwrap() {
                    self.workers[w].standing = None;
                    return self.end(w, self.shown(slot));
                }
                self.workers[w].standing = Some(self.older(slot));
                going
            }
            (4, _) => {
                self.workers[w].time = None;
                self.end(w, "done".to_string())
            }
            (8, _) => self.total(w, register),
            (9..=10, _) | (11, 1) if self.test_mark(operation, register, value).is_err() => {
                let refusal = self.test_mark(operation, register, value).unwrap_err();
                self.end(w, format!("no {refusal}"))
            }
            (9, _) => {
                self.marks.insert(register, self.workers[w].time.unwrap());
                self.end(w, "done".to_string())
            }
            (10, _) => {
                self.marks.remove(&register);
                self.end(w, "done".to_string())
            }
            (11, 1) => {
                let mark = value as usize;
                self.workers[w].marked = Some((self.marks[&mark], mark));
                self.stamp(register);
                self.workers[w].standing = self.lists[register].last().copied();
                going
            }
            (11, _) => {
                let (time, _) = self.workers[w].marked.unwrap();
                let slot = self.workers[w].standing.unwrap();
                if self.slots[slot].low <= time {
                    (self.workers[w].standing, self.workers[w].marked) = (None, None);
                    return self.end(w, self.shown(slot));
                }
                self.workers[w].standing = Some(self.older(slot));
                going
            }
            _ => {
                self.stamp(register);
                let newest = *self.lists[register].last().unwrap();
                self.end(w, self.shown(newest))
            }
        }
    }

    fn total(&mut self, w: usize, group: usize) -> Result<String, u8> {
        let going = Ok("going".to_string());
        let (sign, register) = self.groups[group][self.workers[w].rows];
        let Some(slot) = self.workers[w].standing else {
            self.stamp(register);
            self.workers[w].standing = self.lists[register].last().copied();
            return going;
        };
        if self.slots[slot].low > self.workers[w].time.unwrap() {
            self.workers[w].standing = Some(self.older(slot));
            return going;
        }
        self.workers[w].standing = None;
        let (value, status) = match self.slots[slot].value {
            Some((value, status)) => (value, Some(status)),
            None => (0, None),
        };
        if value > 999999999999 {
            return self.end(w, "no 18".to_string());
        }
        self.workers[w].statuses.extend(status);
        self.workers[w].sum += sign * i128::from(value);
        self.workers[w].rows += 1;
        if self.workers[w].rows < self.groups[group].len() {
            return going;
        }
        let largest = self.workers[w].statuses.iter().max().unwrap_or(&0);
        self.end(w, format!("value {} {largest}", self.workers[w].sum))
    }

    fn shown(&self, slot: usize) -> String {
        match self.slots[slot].value {
            Some((value, status)) => format!("value {value} {status}"),
            None => "none".to_string(),
        }
    }

    fn older(&self, slot: usize) -> usize {
        let list = self.lists.iter().find(|list| list.contains(&slot)).unwrap();
        list[list.iter().position(|&other| other == slot).unwrap() - 1]
    }

    fn flush(&mut self, w: usize, steps: usize) -> Result<String, u8> {
        let going = Ok("going".to_string());
        let p = self.workers.len();
        if steps == 1 {
            let first = self.queue.pop_front().unwrap_or_default();
            let second = self.queue.pop_front().unwrap_or_default();
            self.workers[w].merged = merge(&first, &second);
            self.workers[w].times.clear();
            return going;
        }
        if steps <= 1 + p {
            let time = self.workers[steps - 2].time;
            self.workers[w].times.extend(time);
            return going;
        }
        if steps == 2 + p {
            self.workers[w].times.extend(self.marks.values());
            return going;
        }
        if steps == 3 + p {
            self.split(w);
            return going;
        }
        let Some(slot) = self.workers[w].needless.pop_front() else {
            return self.end(w, "done".to_string());
        };
        let reading: Vec<usize> =
            (0..p).filter(|&other| self.workers[other].standing == Some(slot)).collect();
        for other in reading {
            self.workers[other].standing = Some(self.older(slot));
        }
        self.lists.iter_mut().for_each(|list| list.retain(|&other| other != slot));
        self.free.push_front(slot);
        Ok(format!("freed {slot}"))
    }

    fn split(&mut self, w: usize) {
        let Worker { times, merged, pool, needless, .. } = &mut self.workers[w];
        let is_needed = |&(_, low, high): &Range| times.iter().any(|&a| low <= a && a < high);
        let (needed, rest): (Vec<Range>, Vec<Range>) = merged.drain(..).partition(is_needed);
        *needless = rest.iter().map(|&(slot, _, _)| slot).collect();
        if needed.len() > 2 * self.batch {
            let half = needed.len() - needed.len() / 2;
            self.queue.push_back(needed[..half].to_vec());
            self.queue.push_back(needed[half..].to_vec());
        } else if needed.len() > self.batch {
            self.queue.push_back(needed);
        } else {
            *pool = merge(pool, &needed);
        }
        if !pool.is_empty() {
            self.queue.push_back(std::mem::take(pool));
        }
    }
}

#[test]
fn both_hubs_give_one_log() {
    for (kind, name) in Kind::ALL {
        let (seeds, count) = if kind == Kind::Large { (4, 30_000) } else { (132, 1500) };
        for seed in 0..seeds {
            // Every third of them comes over from before A1.
            let before = if seed % 3 == 2 { count / 3 } else { 0 };
            let script = script_across(kind, 9000 + seed, count, before);
            let table = rows(&script.table).unwrap_or_default();
            let mut plain = Plain { table, ..Plain::default() };
            let take = |(number, bytes)| {
                plain.before_a1 = number < before;
                plain.take(bytes, &script.list)
            };
            let records = script.records.chunks(16).enumerate();
            let expected: Vec<String> = records.map(take).collect();
            let answers = common::words(&common::across::<Right>(&script, before));
            let differs = answers.iter().zip(&expected).position(|(a, b)| a != b);
            if let Some(at) = differs {
                panic!("{name} {seed}, record {at}: {} and {}", answers[at], expected[at]);
            }
            assert_eq!(answers.len(), expected.len());
        }
    }
}
