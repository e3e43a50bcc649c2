//! Following a list of records and answers for the checker of demand 3: the operations, the clock,
//! the times that workers and marks hold and the versions, from the setup on (with the free list, to
//! know which slot a put takes). Each operation gets its place at its effect.

use crate::answer::{Answer, Refusal};
use crate::fault::Right;
use crate::list::{Groups, Row};
use crate::order::{Action, Claim, Held, Operation, Order, Outcome, Step, Violation};
use crate::reading::LAST_STATUS;
use crate::record::{Record, LENGTH};
use crate::rights::{self, permits, Need};
use std::fmt;

/// The order as far as the records can be followed, and why no further.
pub(crate) fn follow(
    file: &[u8],
    list: &[u8],
    table: &[u8],
    answers: &[Answer],
) -> (Order, Result<(), Violation>) {
    // A table that is refused leaves all allowed.
    let table = rights::read::<Right>(table).unwrap_or_default();
    let mut follower = Follower { list, table, ..Follower::default() };
    let followed = follower.follow(file, answers);
    (follower.order, followed)
}

/// What setup or a put's first step wrote into a slot.
#[derive(Clone, Copy, Debug)]
struct Version {
    register: u16,
    slot: u16,
    /// None: unset.
    low: Option<u32>,
    /// None: open.
    high: Option<u32>,
    /// The put that wrote it, none for setup.
    put: Option<usize>,
}

#[derive(Clone, Copy, Debug, Default)]
struct Worker {
    /// The operation under way.
    operation: Option<usize>,
    /// Steps of it taken.
    steps: usize,
    announced: Option<u32>,
    /// The version that its put covers.
    covered: Option<usize>,
    /// The rows of its total that are read, and the version that it stands on.
    rows: usize,
    standing: Option<usize>,
}

/// Follows the records from the setup on.
#[derive(Default)]
struct Follower<'a> {
    list: &'a [u8],
    table: Vec<rights::Row>,
    order: Order,
    record: usize,
    clock: u32,
    workers: Vec<Worker>,
    /// What each mark holds, as an index into the order's `held`.
    marks: [Option<usize>; 12],
    versions: Vec<Version>,
    /// For each register its linked versions, oldest first.
    lists: Vec<Vec<usize>>,
    /// For each slot the version in it, none where it is free.
    slots: Vec<Option<usize>>,
    /// Was this slot ever given back?
    given_back: Vec<bool>,
    /// Free slots; the last is taken first.
    free: Vec<u16>,
}

impl Follower<'_> {
    fn violation(&self, claim: Claim, sentence: String) -> Violation {
        Violation { record: self.record, claim, sentence }
    }

    fn unfit<T>(&self, sentence: impl Into<String>) -> Result<T, Violation> {
        Err(self.violation(Claim::Fit, sentence.into()))
    }

    fn follow(&mut self, file: &[u8], answers: &[Answer]) -> Result<(), Violation> {
        let records = file.len().div_ceil(LENGTH);
        for (bytes, &answer) in file.chunks(LENGTH).zip(answers) {
            self.take(bytes, answer)?;
            self.record += 1;
            self.order.records = self.record;
        }
        if records != answers.len() {
            let answers = answers.len();
            return self.unfit(format!("{answers} answers for {records} records"));
        }
        Ok(())
    }

    fn take(&mut self, bytes: &[u8], answer: Answer) -> Result<(), Violation> {
        let record = Record::decode(bytes);
        // Refused on reading: begins nothing and takes no step. A worker's step is not, while it has
        // an operation.
        let on_reading = match (answer, record) {
            (Answer::No(refusal), Ok(Record::Step { worker })) => {
                !refusal.at_step() && !self.busy(worker)
            }
            (Answer::No(refusal), _) => refusal.on_reading(),
            _ => false,
        };
        if on_reading {
            return Ok(());
        }
        let Ok(record) = record else {
            return self.unfit("a malformed record is not refused");
        };
        let (worker, action) = match record {
            Record::Setup { workers, registers, slots, clock } => {
                return self.set_up(workers, registers, slots, clock, answer);
            }
            Record::Step { worker } => return self.step(worker, answer),
            Record::Put { worker, register, reading } => {
                (worker, Action::Put { register, reading })
            }
            Record::Open { worker } => (worker, Action::Open),
            Record::Read { worker, register } => (worker, Action::Read { register }),
            Record::Close { worker } => (worker, Action::Close),
            Record::Get { worker, register } => (worker, Action::Get { register }),
            Record::Collect { worker } => (worker, Action::Collect),
            Record::Total { worker, group } => (worker, Action::Total { group }),
            Record::Mark { worker, mark } => (worker, Action::Mark { mark }),
            Record::Release { worker, mark } => (worker, Action::Release { mark }),
            Record::Marked { worker, register, mark } => {
                (worker, Action::Marked { register, mark: mark.into() })
            }
        };
        self.begin(worker, action, answer)
    }

    fn busy(&self, worker: u8) -> bool {
        self.workers.get(usize::from(worker)).is_some_and(|worker| worker.operation.is_some())
    }

    fn set_up(
        &mut self,
        workers: u8,
        registers: u16,
        slots: u16,
        clock: u32,
        answer: Answer,
    ) -> Result<(), Violation> {
        if answer != Answer::Ok {
            return self.unfit("a setup is answered like a step");
        }
        if !self.workers.is_empty() {
            return self.unfit("a second setup is accepted");
        }
        if workers == 0 || registers == 0 || slots < registers {
            return self.unfit("a setup outside its ranges is accepted");
        }
        match Groups::read::<Right>(self.list, registers) {
            Ok(groups) => self.order.groups = groups,
            Err(unfit) => {
                return self.unfit(format!("a setup is accepted, and its list has {unfit}"))
            }
        }
        (self.order.workers, self.order.registers) = (workers, registers);
        self.clock = clock;
        self.workers = vec![Worker::default(); usize::from(workers)];
        // Register r has the one version in slot r, low 0, high open.
        self.versions = (0..registers)
            .map(|r| Version { register: r, slot: r, low: Some(0), high: None, put: None })
            .collect();
        self.lists = (0..usize::from(registers)).map(|r| vec![r]).collect();
        self.slots = vec![None; usize::from(slots)];
        (0..usize::from(registers)).for_each(|r| self.slots[r] = Some(r));
        self.given_back = vec![false; usize::from(slots)];
        self.free = (registers..slots).rev().collect();
        Ok(())
    }

    fn begin(&mut self, worker: u8, action: Action, answer: Answer) -> Result<(), Violation> {
        if answer != Answer::Ok {
            return self.unfit("the begin of an operation is answered like a step");
        }
        let Some(state) = self.workers.get(usize::from(worker)) else {
            return self.unfit(format!("worker {worker} does not exist, and begins an operation"));
        };
        if state.operation.is_some() {
            return self.unfit(format!("worker {worker} is busy, and begins an operation"));
        }
        self.test_fields(action)?;
        let Order { registers, groups, .. } = &self.order;
        if !permits(&self.table, worker, need(action), *registers, groups) {
            let sentence = format!("worker {worker} has no right to its {action}, and begins it");
            return self.unfit(sentence);
        }
        let operation = Some(self.order.operations.len());
        let begun = Worker { operation, steps: 0, rows: 0, standing: None, ..*state };
        self.workers[usize::from(worker)] = begun;
        self.order.operations.push(Operation {
            worker,
            action,
            begin: self.record,
            effect: None,
            outcome: Outcome::Unfinished,
            shown: None,
        });
        Ok(())
    }

    /// Its register, mark, status and group exist.
    fn test_fields(&self, action: Action) -> Result<(), Violation> {
        let (register, mark) = match action {
            Action::Put { register, .. } | Action::Read { register } => (Some(register), None),
            Action::Get { register } => (Some(register), None),
            Action::Mark { mark } | Action::Release { mark } => (None, Some(mark)),
            Action::Marked { register, mark } => (Some(register), Some(mark)),
            _ => (None, None),
        };
        if let Some(register) = register.filter(|&register| register >= self.order.registers) {
            return self.unfit(format!("register {register} does not exist"));
        }
        if let Some(mark) = mark.filter(|&mark| mark > 11) {
            return self.unfit(format!("mark {mark} does not exist"));
        }
        if let Action::Put { reading, .. } = action {
            if reading.status > LAST_STATUS {
                let status = reading.status;
                return self.unfit(format!("status {status} does not exist, and is put"));
            }
        }
        if let Action::Total { group } = action {
            if self.order.groups.rows(group).is_empty() {
                return self.unfit(format!("group {group} has no rows"));
            }
        }
        Ok(())
    }

    fn step(&mut self, worker: u8, answer: Answer) -> Result<(), Violation> {
        let w = usize::from(worker);
        let Some(Worker { operation: Some(operation), steps, .. }) = self.workers.get(w).copied()
        else {
            return self.unfit(format!("worker {worker} has no operation, and takes a step"));
        };
        self.workers[w].steps = steps + 1;
        self.change(w, operation, steps, answer)?;
        self.order.steps.push(Step { record: self.record, operation, answer });
        self.end(w, operation, answer);
        Ok(())
    }

    /// The changes that a step makes, after so many of its operation, before its end.
    fn change(
        &mut self,
        w: usize,
        operation: usize,
        steps: usize,
        answer: Answer,
    ) -> Result<(), Violation> {
        let action = self.order.operations[operation].action;
        match (action, steps, answer) {
            (Action::Put { .. }, 0, Answer::No(Refusal::NoFreeSlot)) => {}
            (Action::Open, 0, Answer::No(Refusal::LastClock)) => {}
            (Action::Put { register, .. }, 0, Answer::Going) => self.publish(w, register)?,
            (Action::Put { register, .. }, 1, Answer::Going) => {
                let covered = self.workers[w].covered;
                if covered.is_some_and(|covered| self.versions[covered].high.is_none()) {
                    self.stamp(register);
                }
            }
            (Action::Put { .. }, 2, Answer::Going | Answer::Done) => {}
            (Action::Put { .. }, 3.., Answer::Going | Answer::Done) => {}
            (Action::Collect, _, Answer::Going | Answer::Done) => {}
            (Action::Put { .. }, 3.., Answer::Freed(slot)) => self.free(slot)?,
            (Action::Collect, _, Answer::Freed(slot)) => self.free(slot)?,
            (Action::Open, 0, Answer::Going) if self.clock == u32::MAX => {
                return self.unfit("an open announces the last value of the clock");
            }
            (Action::Open, 0, Answer::Going) => self.workers[w].announced = Some(self.clock),
            (Action::Open, 1, Answer::At(time)) => self.pass(w, time)?,
            (Action::Read { register }, 0, Answer::Going) => self.stamp(register),
            (Action::Read { .. }, 1.., Answer::Going | Answer::Value(_) | Answer::None) => {}
            (Action::Get { register }, 0, Answer::Value(_) | Answer::None) => self.stamp(register),
            (Action::Close, 0, Answer::Done) => self.workers[w].announced = None,
            (Action::Total { group }, 0, Answer::Going) => self.sum(w, group),
            (
                Action::Total { group },
                1..,
                Answer::Going | Answer::Value(_) | Answer::Minus(_) | Answer::No(Refusal::Summand),
            ) => self.sum(w, group),
            (Action::Mark { .. }, 0, Answer::No(Refusal::MarkUsed)) => {}
            (Action::Release { .. }, 0, Answer::No(Refusal::MarkEmpty | Refusal::MarkRead)) => {}
            (Action::Marked { .. }, 0, Answer::No(Refusal::MarkEmpty)) => {}
            (Action::Mark { mark }, 0, Answer::Done) => self.keep(w, mark),
            (Action::Release { mark }, 0, Answer::Done) => self.drop_mark(mark),
            (Action::Marked { register, .. }, 0, Answer::Going) => self.stamp(register),
            (Action::Marked { .. }, 1.., Answer::Going | Answer::Value(_) | Answer::None) => {}
            _ => {
                let operation = &self.order.operations[operation];
                return self.unfit(format!(
                    "{operation} cannot answer `{answer}` at its step {}",
                    steps + 1
                ));
            }
        }
        Ok(())
    }

    /// Ends the operation unless the answer is `going` or `freed S`. A get has its effect here,
    /// after a put stamped in the same step; so have all others but puts and opens.
    fn end(&mut self, w: usize, operation: usize, answer: Answer) {
        let record = self.record;
        let outcome = match answer {
            Answer::Going | Answer::Freed(_) => return,
            Answer::No(refusal) => Outcome::Refused { record, refusal },
            answer => Outcome::Finished { record, answer },
        };
        self.workers[w].operation = None;
        let ended = &mut self.order.operations[operation];
        ended.outcome = outcome;
        let at_end = !matches!(ended.action, Action::Put { .. } | Action::Open);
        if at_end && matches!(outcome, Outcome::Finished { .. }) {
            self.effect(operation);
        }
    }

    fn effect(&mut self, operation: usize) {
        self.order.operations[operation].effect = Some(self.record);
        self.order.sequence.push(operation);
    }

    /// Put (1): stamp, take a slot, link the new version as newest.
    fn publish(&mut self, w: usize, register: u16) -> Result<(), Violation> {
        let Some(slot) = self.free.pop() else {
            return self.unfit("a put takes a slot where none is free");
        };
        self.stamp(register);
        let version = self.versions.len();
        self.versions.push(Version {
            register,
            slot,
            low: None,
            high: None,
            put: self.workers[w].operation,
        });
        let list = &mut self.lists[usize::from(register)];
        self.workers[w].covered = list.last().copied();
        list.push(version);
        self.slots[usize::from(slot)] = Some(version);
        Ok(())
    }

    /// Sets an unset low of the newest version and the next older version's high to the clock.
    /// That is the effect of the put whose version it is.
    fn stamp(&mut self, register: u16) {
        let (newest, older) = match self.lists[usize::from(register)][..] {
            [.., older, newest] => (newest, Some(older)),
            [newest] => (newest, None),
            [] => return,
        };
        if self.versions[newest].low.is_some() {
            return;
        }
        self.versions[newest].low = Some(self.clock);
        if let Some(older) = older {
            self.versions[older].high = Some(self.clock);
        }
        if let Some(put) = self.versions[newest].put {
            self.effect(put);
        }
    }

    /// A step of a total: it stamps the next row's register and stands on the newest version; there it
    /// reads that row, or moves to the older version. Its end is where the answer says so.
    fn sum(&mut self, w: usize, group: u16) {
        let Worker { announced, rows, standing, .. } = self.workers[w];
        let Some(&Row { register, .. }) = self.order.groups.rows(group).get(rows) else { return };
        let Some(version) = standing else {
            self.stamp(register);
            self.workers[w].standing = self.lists[usize::from(register)].last().copied();
            return;
        };
        let low = self.versions[version].low;
        if low.is_some() && low <= announced {
            self.workers[w].rows += 1;
            self.workers[w].standing = None;
        } else {
            self.workers[w].standing = Some(self.older(version));
        }
    }

    /// The next older version of its register, or itself where there is none.
    fn older(&self, version: usize) -> usize {
        let list = &self.lists[usize::from(self.versions[version].register)];
        let place = list.iter().position(|&linked| linked == version);
        place.and_then(|place| place.checked_sub(1)).map_or(version, |place| list[place])
    }

    /// Open (2): where the clock passes the time, it passes it for every open at that time,
    /// lowest worker first.
    fn pass(&mut self, w: usize, time: u32) -> Result<(), Violation> {
        let Some(announced) = self.workers[w].announced.filter(|&announced| announced == time)
        else {
            return self.unfit(format!("an open answers {time}, which it did not announce"));
        };
        if self.clock != announced {
            return Ok(());
        }
        self.clock += 1;
        for other in 0..self.workers.len() {
            let Worker { operation, announced, .. } = self.workers[other];
            let opening = operation.filter(|&operation| {
                let Operation { action, .. } = self.order.operations[operation];
                action == Action::Open && announced == Some(time)
            });
            if let Some(operation) = opening {
                self.effect(operation);
            }
        }
        Ok(())
    }

    /// A mark takes the time of its worker, if it has one; what the mark held is gone.
    fn keep(&mut self, w: usize, mark: u16) {
        self.drop_mark(mark);
        if let Some(time) = self.workers[w].announced {
            self.marks[usize::from(mark)] = Some(self.order.held.len());
            let held = Held { mark, time, worker: w as u8, from: self.record, until: None };
            self.order.held.push(held);
        }
    }

    /// What a mark held is held no longer.
    fn drop_mark(&mut self, mark: u16) {
        if let Some(held) = self.marks[usize::from(mark)].take() {
            self.order.held[held].until = Some(self.record);
        }
    }

    /// Who needs a version of this range: a snapshot or a mark, with its time.
    fn needed_by(&self, low: Option<u32>, high: Option<u32>) -> Option<String> {
        let needed = |a: u32| low.is_some_and(|low| low <= a) && high.is_none_or(|high| a < high);
        for (w, worker) in self.workers.iter().enumerate() {
            if let Some(time) = worker.announced.filter(|&time| needed(time)) {
                return Some(format!("worker {w}'s snapshot at {time}"));
            }
        }
        let held = self.marks.iter().flatten().map(|&held| self.order.held[held]);
        let mut needing = held.filter(|held| needed(held.time));
        needing.next().map(|held| format!("mark {} at {}", held.mark, held.time))
    }

    /// `freed S`: S holds a version, and neither an announced time nor a mark's needs its range.
    fn free(&mut self, slot: u16) -> Result<(), Violation> {
        let Some(&held) = self.slots.get(usize::from(slot)) else {
            return self.unfit(format!("slot {slot} does not exist, and is freed"));
        };
        let Some(version) = held else {
            return if self.given_back[usize::from(slot)] {
                let sentence = format!("slot {slot} is freed again, and no put took it in between");
                Err(self.violation(Claim::FreedTwice, sentence))
            } else {
                self.unfit(format!("slot {slot} is freed, and never held a version"))
            };
        };
        let Version { register, low, high, .. } = self.versions[version];
        if let Some(needing) = self.needed_by(low, high) {
            let range = RangeText(low, high);
            let sentence = format!(
                "slot {slot} of register {register} with range {range} is freed, \
                 and {needing} needs it"
            );
            return Err(self.violation(Claim::NeededFreed, sentence));
        }
        // A total that stands on it moves.
        let older = Some(self.older(version));
        let standing = self.workers.iter_mut().filter(|worker| worker.standing == Some(version));
        standing.for_each(|worker| worker.standing = older);
        let list = &mut self.lists[usize::from(register)];
        list.retain(|&linked| linked != version);
        if list.is_empty() {
            return self.unfit(format!("register {register} is left without a version"));
        }
        debug_assert_eq!(self.versions[version].slot, slot);
        self.slots[usize::from(slot)] = None;
        self.given_back[usize::from(slot)] = true;
        self.free.push(slot);
        self.order.freed += 1;
        Ok(())
    }
}

/// What an operation needs a right for.
fn need(action: Action) -> Need {
    match action {
        Action::Put { register, .. } => Need::Put(register),
        Action::Read { register } | Action::Get { register } => Need::Read(register),
        Action::Marked { register, .. } => Need::Read(register),
        Action::Total { group } => Need::Total(group),
        Action::Collect => Need::Collect,
        Action::Mark { .. } | Action::Release { .. } => Need::Marks,
        Action::Open | Action::Close => Need::Nothing,
    }
}

/// A range in words.
struct RangeText(Option<u32>, Option<u32>);

impl fmt::Display for RangeText {
    fn fmt(&self, f: &mut fmt::Formatter) -> fmt::Result {
        match self.0 {
            Some(low) => write!(f, "{low}")?,
            None => write!(f, "unset")?,
        }
        match self.1 {
            Some(high) => write!(f, " to {high}"),
            None => write!(f, " on"),
        }
    }
}
