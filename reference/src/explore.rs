//! Complete exploration of small hubs: every record of an alphabet in every reachable state.
//!
//! The clock only rises and ends at its last value, so that a hub set up near it has finitely
//! many states. Each state carries the plain registers of demand 3; each new state is checked
//! against the invariant, each record against demand 3 and the refusals.

use crate::answer::Answer;
use crate::fault::Fault;
use crate::ghost::Ghost;
use crate::hub::Hub;
use crate::invariant;
use crate::list::Groups;
use crate::marks::MARKS;
use crate::pool::Range;
use crate::reading::Reading;
use crate::record::Record;
use crate::store::{Doing, Store};
use std::collections::HashSet;
use std::hash::{BuildHasherDefault, Hasher};

/// The hub to explore: its setup with a list and a table, the values of puts, each with every status, and
/// how many marks are used. In each state every record is taken with each of `max_values` as the largest value that a put may
/// bring.
#[derive(Clone, Copy, Debug)]
pub struct Size {
    pub workers: u8,
    pub registers: u16,
    pub slots: u16,
    pub clock: u32,
    pub list: &'static [u8],
    pub table: &'static [u8],
    pub values: &'static [u64],
    pub statuses: &'static [u8],
    pub max_values: &'static [u64],
    pub marks: u8,
}

/// What an exploration went through.
#[derive(Clone, Copy, Debug, Default, PartialEq, Eq)]
pub struct Explored {
    pub states: usize,
    pub records: usize,
}

/// Explores all that can be reached; an error says what failed, and in which state. A hub with a
/// fault breaks the invariant soon; without `invariants` only demand 3 and the refusals count.
pub fn explore<F: Fault + Clone>(size: Size, invariants: bool) -> Result<Explored, String> {
    let mut hub = Hub::<F>::with_row(usize::from(size.slots));
    hub.give_table(size.table).map_err(|refusal| format!("the table gets {refusal:?}"))?;
    let Size { workers, registers, slots, clock, .. } = size;
    let setup = Record::Setup { workers, registers, slots, clock };
    if hub.take_record(setup, size.list) != Answer::Ok {
        return Err(format!("{setup:?} is refused"));
    }
    let ghost = Ghost::start(store(&hub));
    let alphabet = alphabet(size, &store(&hub).groups);
    let coder = Coder::new::<F>(size);
    let mut seen: HashSet<Box<[u8]>, BuildHasherDefault<Mix>> = HashSet::default();
    let mut code = Vec::new();
    let mut next_code = Vec::new();
    coder.encode(store(&hub), &ghost, &mut code);
    seen.insert(code.as_slice().into());
    let mut open = vec![(hub, ghost)];
    let mut explored = Explored { states: 1, records: 0 };
    while let Some((hub, mut ghost)) = open.pop() {
        coder.encode(store(&hub), &ghost, &mut code);
        let mut next = hub.clone();
        for &(record, max_value) in &alphabet {
            let failed = |reason| {
                format!("{reason}\nat {record:?}, values to {max_value}, in {:?}", store(&hub))
            };
            next.max_value = max_value;
            let answer = next.take_record(record, &[]);
            explored.records += 1;
            // Only a step changes the plain registers.
            let mut stepped = None;
            let next_ghost = match record {
                Record::Step { .. } => stepped.insert(ghost.clone()),
                _ => &mut ghost,
            };
            let (before, after) = (store(&hub), store(&next));
            next_ghost.follow(before, record, max_value, answer, after).map_err(failed)?;
            coder.encode(store(&next), next_ghost, &mut next_code);
            if record.refused_on_reading(answer) {
                if code != next_code {
                    return Err(failed("a refused record changes the store".to_string()));
                }
                // Unchanged, so it serves for the next record too.
                continue;
            }
            if !seen.contains(next_code.as_slice()) {
                if invariants {
                    invariant::check(store(&next)).map_err(failed)?;
                    next_ghost.check(store(&next)).map_err(failed)?;
                }
                seen.insert(next_code.as_slice().into());
                explored.states += 1;
                open.push((next, next_ghost.clone()));
            }
            next = hub.clone();
        }
    }
    Ok(explored)
}

fn store<F: Fault>(hub: &Hub<F>) -> &Store {
    hub.store().expect("set up")
}

/// Every record whose fields fit, with the values and statuses of the alphabet and each largest value. With a list,
/// also totals of a group that has no rows; with marks, also mark 12.
fn alphabet(size: Size, groups: &Groups) -> Vec<(Record, u64)> {
    let last = groups.all().last().map(|row| u16::from(row.group));
    let marks = || (0..size.marks).chain((size.marks > 0).then_some(MARKS as u8));
    let mut records = Vec::new();
    for worker in 0..size.workers {
        records.push(Record::Step { worker });
        records.push(Record::Open { worker });
        records.push(Record::Close { worker });
        records.push(Record::Collect { worker });
        let groups = last.map_or(0..0, |last| 0..last + 2);
        records.extend(groups.map(|group| Record::Total { worker, group }));
        records.extend(marks().map(|mark| Record::Mark { worker, mark: mark.into() }));
        records.extend(marks().map(|mark| Record::Release { worker, mark: mark.into() }));
        for register in 0..size.registers {
            records.push(Record::Read { worker, register });
            records.push(Record::Get { worker, register });
            for (&value, &status) in
                size.values.iter().flat_map(|value| size.statuses.iter().map(move |s| (value, s)))
            {
                let reading = Reading { value, status };
                records.push(Record::Put { worker, register, reading });
            }
            records.extend(marks().map(|mark| Record::Marked { worker, register, mark }));
        }
    }
    let with = |&max_value| records.iter().map(move |&record| (record, max_value));
    size.max_values.iter().flat_map(with).collect()
}

/// Writes a state as bytes, one string for each state that can behave differently: what no later
/// step looks at is left out.
struct Coder {
    base: u32,
    values: &'static [u64],
    /// How many marks are used; the others stay empty.
    marks: usize,
    /// Contents of free slots matter (to a fault only).
    freed_slots: bool,
    /// Puts' own versions matter (to a fault only).
    own_versions: bool,
    /// A flush has its times before its pools (with a fault only).
    times_first: bool,
}

impl Coder {
    const NONE: u8 = 255;

    fn new<F: Fault>(size: Size) -> Coder {
        Coder {
            base: size.clock,
            values: size.values,
            marks: usize::from(size.marks),
            freed_slots: F::LEAVE_READ || F::LEAVE_TOTAL || F::LEAVE_MARKED,
            own_versions: F::COVERING_LOW,
            times_first: F::TIMES_FIRST,
        }
    }

    /// Times are 0, or from the starting clock on.
    fn time(&self, time: Option<u32>) -> u8 {
        match time {
            None => Coder::NONE,
            Some(0) => 254,
            Some(time) => u8::try_from(time - self.base).expect("few times"),
        }
    }

    /// There is no reading, or one of the alphabet. Two bits are for the status.
    fn reading(&self, reading: Option<Reading>) -> u8 {
        let Some(Reading { value, status }) = reading else { return 0 };
        let place = self.values.iter().position(|&known| known == value);
        place.map_or(0, |place| (place as u8 + 1) << 2 | status & 3)
    }

    fn range(&self, range: &Range, code: &mut Vec<u8>) {
        code.extend([range.slot as u8, self.time(Some(range.low)), self.time(Some(range.high))]);
    }

    fn ranges(&self, ranges: &[Range], code: &mut Vec<u8>) {
        code.push(ranges.len() as u8);
        ranges.iter().for_each(|range| self.range(range, code));
    }

    fn encode(&self, store: &Store, ghost: &Ghost, code: &mut Vec<u8>) {
        code.clear();
        code.push(self.time(Some(store.clock)));
        code.push(store.free.len() as u8);
        code.extend(store.free.iter().map(|&slot| slot as u8));
        code.extend(store.newest.iter().map(|&slot| slot as u8));
        for (index, slot) in store.slots.iter().enumerate() {
            if self.freed_slots || !store.free.contains(&(index as u16)) {
                let link = |link: Option<u16>| link.map_or(Coder::NONE, |slot| slot as u8);
                code.push(self.reading(slot.reading));
                code.extend([self.time(slot.low), self.time(slot.high)]);
                code.extend([link(slot.older), link(slot.newer)]);
            }
        }
        code.push(store.queue.len() as u8);
        store.queue.pools().for_each(|pool| self.ranges(pool, code));
        code.extend(store.marks[..self.marks].iter().map(|&time| self.time(time)));
        for worker in &store.workers {
            code.push(self.time(worker.announced));
            self.ranges(&worker.local, code);
            self.doing(worker.doing, code);
            let (times, pools) = match worker.doing {
                Doing::FlushTake => (self.times_first, false),
                Doing::FlushTimes { .. } | Doing::FlushMarks => (true, !self.times_first),
                Doing::FlushSplit => (true, true),
                _ => (false, false),
            };
            if times {
                code.push(worker.times.len() as u8);
                code.extend(worker.times.iter().map(|&time| self.time(Some(time))));
            }
            if pools {
                self.ranges(&worker.merged, code);
            }
            if let Doing::FlushFree { next } = worker.doing {
                self.ranges(&worker.merged[usize::from(next)..], code);
            }
        }
        code.extend(ghost.registers.iter().map(|&reading| self.reading(reading)));
        let marked =
            ghost.marks[..self.marks].iter().map(|held| held.as_ref().map(|(_, copy)| copy));
        for copy in ghost.copies.iter().map(Option::as_ref).chain(marked) {
            match copy {
                Some(copy) => code.extend(copy.iter().map(|&reading| self.reading(reading))),
                None => code.push(Coder::NONE),
            }
        }
        // In the right hub these are its own times.
        let times =
            ghost.marks[..self.marks].iter().map(|held| held.as_ref().map(|&(time, _)| time));
        code.extend(times.map(|time| self.time(time)));
        code.extend(ghost.reading.iter().map(|r| r.map_or(Coder::NONE, |r| r as u8)));
    }

    fn doing(&self, doing: Doing, code: &mut Vec<u8>) {
        let own_version = |own: u16| if self.own_versions { own as u8 } else { Coder::NONE };
        match doing {
            Doing::Idle => code.push(0),
            Doing::PutPublish { register, reading } => {
                code.extend([1, register as u8, self.reading(Some(reading))]);
            }
            Doing::PutStamp { register, covered, own } => {
                code.extend([2, register as u8, covered as u8, own_version(own)]);
            }
            Doing::PutHandIn { covered, own } => code.extend([3, covered as u8, own_version(own)]),
            Doing::FlushTake => code.push(4),
            Doing::FlushTimes { next } => code.extend([5, next]),
            Doing::FlushSplit => code.push(6),
            // The list that follows says how much is left.
            Doing::FlushFree { .. } => code.push(7),
            Doing::OpenAnnounce => code.push(8),
            Doing::OpenPass => code.push(9),
            Doing::ReadStart { register } => code.extend([10, register as u8]),
            Doing::ReadAt { slot, .. } => code.extend([11, slot as u8]),
            Doing::Get { register } => code.extend([12, register as u8]),
            Doing::Close => code.push(13),
            Doing::TotalStart { place, sum } => {
                code.extend([14, place.row as u8, place.status]);
                code.extend(sum.to_le_bytes());
            }
            Doing::TotalAt { slot, place, sum, .. } => {
                code.extend([15, slot as u8, place.row as u8, place.status]);
                code.extend(sum.to_le_bytes());
            }
            Doing::FlushMarks => code.push(16),
            Doing::Mark { mark } => code.extend([17, mark]),
            Doing::Release { mark } => code.extend([18, mark]),
            Doing::MarkedStart { register, mark } => code.extend([19, register as u8, mark]),
            Doing::MarkedAt { slot, mark, time, .. } => {
                code.extend([20, slot as u8, mark, self.time(Some(time))]);
            }
        }
    }
}

/// A quick hash of byte strings.
#[derive(Default)]
struct Mix(u64);

impl Hasher for Mix {
    fn write(&mut self, bytes: &[u8]) {
        for chunk in bytes.chunks(8) {
            let mut word = [0; 8];
            word[..chunk.len()].copy_from_slice(chunk);
            let mixed = (self.0 ^ u64::from_le_bytes(word)).wrapping_mul(0x9e37_79b9_7f4a_7c15);
            self.0 = mixed ^ mixed >> 29;
        }
    }

    fn finish(&self) -> u64 {
        self.0.wrapping_mul(0xbf58_476d_1ce4_e5b9) ^ self.0 >> 32
    }
}
