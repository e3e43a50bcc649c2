//! The checker of demand 3. It sees only the records, the list, the table and the answers.
//!
//! It follows the operations from the setup through the records, places each at its effect, feeds
//! the plain registers in that order, and compares. It shares no code with the hub's steps.

use crate::answer::{Answer, Refusal};
use crate::follow::follow;
use crate::list::{Groups, Row};
use crate::reading::{Reading, Shown, CORRECTED, ESTIMATED, READ};
use std::fmt;

/// What an operation does. `Marked` is a marked read.
#[derive(Clone, Copy, Debug, PartialEq, Eq)]
pub enum Action {
    Put { register: u16, reading: Reading },
    Open,
    Read { register: u16 },
    Close,
    Get { register: u16 },
    Collect,
    Total { group: u16 },
    Mark { mark: u16 },
    Release { mark: u16 },
    Marked { register: u16, mark: u16 },
}

impl fmt::Display for Action {
    fn fmt(&self, f: &mut fmt::Formatter) -> fmt::Result {
        match *self {
            Action::Put { register, reading: Reading { value, status } } => match status {
                READ => write!(f, "put of {value} to register {register}"),
                ESTIMATED => write!(f, "put of {value}, estimated, to register {register}"),
                CORRECTED => write!(f, "put of {value}, corrected, to register {register}"),
                _ => write!(f, "put of {value}, status {status}, to register {register}"),
            },
            Action::Open => write!(f, "open"),
            Action::Read { register } => write!(f, "read of register {register}"),
            Action::Close => write!(f, "close"),
            Action::Get { register } => write!(f, "get of register {register}"),
            Action::Collect => write!(f, "collect"),
            Action::Total { group } => write!(f, "total of group {group}"),
            Action::Mark { mark } => write!(f, "mark {mark}"),
            Action::Release { mark } => write!(f, "release of mark {mark}"),
            Action::Marked { register, mark } => {
                write!(f, "read of register {register} at mark {mark}")
            }
        }
    }
}

/// How an operation came out.
#[derive(Clone, Copy, Debug, PartialEq, Eq)]
pub enum Outcome {
    /// Ended by this record, with this answer.
    Finished { record: usize, answer: Answer },
    /// Ended by this record with `no`.
    Refused { record: usize, refusal: Refusal },
    /// No step of its worker ended it.
    Unfinished,
}

/// An operation, from its record on.
#[derive(Clone, Copy, Debug, PartialEq, Eq)]
pub struct Operation {
    pub worker: u8,
    pub action: Action,
    /// The record that began it.
    pub begin: usize,
    /// The record of its effect in the order, if it had one.
    pub effect: Option<usize>,
    pub outcome: Outcome,
    /// What the plain registers show for a get, read, marked read or total in the order: a value and
    /// its status, for a total the sum and the largest status; none before its register's first put,
    /// and none without a copy to look into.
    pub shown: Option<Shown>,
}

/// In a sentence.
impl fmt::Display for Operation {
    fn fmt(&self, f: &mut fmt::Formatter) -> fmt::Result {
        let Operation { worker, action, begin, .. } = self;
        write!(f, "worker {worker}'s {action}, begun by record {begin},")
    }
}

impl Operation {
    /// The record that ended it.
    pub fn end(&self) -> Option<usize> {
        match self.outcome {
            Outcome::Finished { record, .. } | Outcome::Refused { record, .. } => Some(record),
            Outcome::Unfinished => None,
        }
    }

    /// The answer that ended it.
    pub fn answer(&self) -> Option<Answer> {
        match self.outcome {
            Outcome::Finished { answer, .. } => Some(answer),
            Outcome::Refused { refusal, .. } => Some(Answer::No(refusal)),
            Outcome::Unfinished => None,
        }
    }

    /// Is it a get, a read, a marked read or a total, for which plain registers show something?
    pub fn shows(&self) -> bool {
        use Action::{Get, Marked, Read, Total};
        matches!(self.action, Get { .. } | Read { .. } | Marked { .. } | Total { .. })
    }

    /// Does this answer say what they show? A total shows a sum, or nothing without a copy, and has no
    /// `none`.
    pub fn answered_by(&self, answer: Answer) -> bool {
        match (self.action, answer) {
            (Action::Total { .. }, Answer::None) => false,
            (_, Answer::Value(_) | Answer::Minus(_) | Answer::None) => answer.shown() == self.shown,
            _ => false,
        }
    }

    /// What an answer breaks that does not say what they show: the value, or with that value the
    /// status.
    fn why_not(&self, answer: Answer) -> (Claim, String) {
        match (answer.shown(), self.shown) {
            (Some(said), Some(Shown { value, status })) if said.value == value => {
                let why = match self.action {
                    Action::Total { .. } => format!("the largest status is {status}"),
                    _ => format!("the put of {value} has status {status}"),
                };
                (Claim::Status, why)
            }
            _ => (Claim::Value, format!("{} is shown", self.shown_words())),
        }
    }

    /// What they show, in words.
    pub fn shown_words(&self) -> String {
        self.shown.map_or("no value".to_string(), |shown| shown.to_string())
    }
}

/// A step that an operation took.
#[derive(Clone, Copy, Debug, PartialEq, Eq)]
pub struct Step {
    pub record: usize,
    /// An index into the order's `operations`.
    pub operation: usize,
    pub answer: Answer,
}

/// A time that a mark held.
#[derive(Clone, Copy, Debug, PartialEq, Eq)]
pub struct Held {
    pub mark: u16,
    pub time: u32,
    /// The worker that had it, and the record of its mark.
    pub worker: u8,
    pub from: usize,
    /// The record of the release.
    pub until: Option<usize>,
}

/// A list of records and answers with the order that demand 3 asks for.
#[derive(Clone, Debug, Default)]
pub struct Order {
    pub records: usize,
    /// V of the accepted setup, 0 without one.
    pub registers: u16,
    /// P of the accepted setup, 0 without one.
    pub workers: u8,
    /// The rows of the list that came with the accepted setup.
    pub groups: Groups,
    /// Every operation, in the order in which they began.
    pub operations: Vec<Operation>,
    /// Indices into `operations`: one after another.
    pub sequence: Vec<usize>,
    /// The steps taken, in the order of the records.
    pub steps: Vec<Step>,
    /// What marks held, in the order of the records.
    pub held: Vec<Held>,
    /// Answers `freed S`.
    pub freed: usize,
}

impl fmt::Display for Order {
    fn fmt(&self, f: &mut fmt::Formatter) -> fmt::Result {
        let counted = |count: usize, noun: &str| match count {
            1 => format!("1 {noun}"),
            _ => format!("{count} {noun}s"),
        };
        let count = |is: fn(&Operation) -> bool| self.operations.iter().filter(|o| is(o)).count();
        write!(
            f,
            "{}, {}: {} finished, {} refused, {} unfinished; {} in the order, {} freed",
            counted(self.records, "record"),
            counted(self.operations.len(), "operation"),
            count(|o| matches!(o.outcome, Outcome::Finished { .. })),
            count(|o| matches!(o.outcome, Outcome::Refused { .. })),
            count(|o| o.outcome == Outcome::Unfinished),
            self.sequence.len(),
            counted(self.freed, "slot"),
        )
    }
}

impl Order {
    /// What breaks the order as it stands: an operation that stands there too often or not at all,
    /// one that stands before an earlier one, or a value or a status that is not shown.
    pub fn violation(&self) -> Option<Violation> {
        let found = [check_once(self), check_between(self), check_values(self)];
        found.into_iter().filter_map(Result::err).min_by_key(|found| found.record)
    }
}

/// Which part of demand 3 is broken.
#[derive(Clone, Copy, Debug, PartialEq, Eq)]
pub enum Claim {
    /// The answers cannot be answers to these records, so that nothing can be followed.
    Fit,
    /// Finished exactly once, refused never, unfinished at most once.
    Once,
    /// An operation that ended before another began stands before it.
    Between,
    /// The X in `value X S` equals what is shown, and `none` is answered exactly where no value is.
    Value,
    /// So does the S: it is of the same put as X, and for a total the largest.
    Status,
    /// No version that an open snapshot or a held mark needs is freed.
    NeededFreed,
    /// Between two `freed S` a put took that slot.
    FreedTwice,
}

/// The first violation found.
#[derive(Clone, Debug, PartialEq, Eq)]
pub struct Violation {
    pub record: usize,
    pub claim: Claim,
    pub sentence: String,
}

impl fmt::Display for Violation {
    fn fmt(&self, f: &mut fmt::Formatter) -> fmt::Result {
        write!(f, "record {}: {}", self.record, self.sentence)
    }
}

impl std::error::Error for Violation {}

/// Checks demand 3 for a file of records, the list that is lent with each, the table that was given
/// before the first, and the answers to them. The violation given is the one with the lowest record
/// number.
pub fn check(
    file: &[u8],
    list: &[u8],
    table: &[u8],
    answers: &[Answer],
) -> Result<Order, Violation> {
    match examine(file, list, table, answers) {
        (_, Some(violation)) => Err(violation),
        (order, None) => Ok(order),
    }
}

/// The order as far as the records can be followed, and what `check` finds wrong with it.
pub fn examine(
    file: &[u8],
    list: &[u8],
    table: &[u8],
    answers: &[Answer],
) -> (Order, Option<Violation>) {
    let (mut order, followed) = follow(file, list, table, answers);
    replay(&mut order);
    let found = followed.err().into_iter().chain(order.violation());
    let violation = found.min_by_key(|found| found.record);
    (order, violation)
}

/// Each finished operation stands in the order exactly once, refused never, unfinished at most
/// once and only with its effect.
fn check_once(order: &Order) -> Result<(), Violation> {
    let mut times = vec![0; order.operations.len()];
    order.sequence.iter().for_each(|&operation| times[operation] += 1);
    for (operation, times) in order.operations.iter().zip(times) {
        let right = match operation.outcome {
            Outcome::Finished { .. } => times == 1,
            Outcome::Refused { .. } => times == 0,
            Outcome::Unfinished => times == usize::from(operation.effect.is_some()),
        };
        if !right {
            return Err(Violation {
                record: operation.end().unwrap_or(operation.begin),
                claim: Claim::Once,
                sentence: format!("{operation} stands {times} times in the order"),
            });
        }
    }
    Ok(())
}

/// An operation that ended before another began stands before it.
fn check_between(order: &Order) -> Result<(), Violation> {
    let mut earliest_end: Option<usize> = None;
    for &index in order.sequence.iter().rev() {
        let Operation { begin, .. } = order.operations[index];
        if let Some(end) = earliest_end.filter(|&end| end < begin) {
            let operation = &order.operations[index];
            let sentence = format!("{operation} stands before one that ended at record {end}");
            return Err(Violation { record: begin, claim: Claim::Between, sentence });
        }
        let end = order.operations[index].end();
        earliest_end = earliest_end.into_iter().chain(end).min();
    }
    Ok(())
}

/// Plain registers, or a copy of them: what a put brought, value and status. Each register starts
/// without a value.
type Registers = Vec<Option<Reading>>;

/// What a register shows in a copy: no value before its first put, and none without a copy.
fn shown_in(copy: Option<&Registers>, register: u16) -> Option<Shown> {
    copy.and_then(|copy| copy[usize::from(register)]).map(Shown::from)
}

/// Feeds the plain registers in the order and keeps what they show.
fn replay(order: &mut Order) {
    let Order { groups, operations, sequence, .. } = order;
    let mut registers: Registers = vec![None; usize::from(order.registers)];
    let mut copies: Vec<Option<Registers>> = vec![None; usize::from(order.workers)];
    let mut marks: [Option<Registers>; 12] = Default::default();
    for &index in sequence.iter() {
        let operation = &mut operations[index];
        let copy = &mut copies[usize::from(operation.worker)];
        match operation.action {
            Action::Put { register, reading } => {
                registers[usize::from(register)] = Some(reading);
            }
            Action::Open => *copy = Some(registers.clone()),
            Action::Close => *copy = None,
            Action::Collect => {}
            Action::Get { register } => operation.shown = shown_in(Some(&registers), register),
            Action::Read { register } => operation.shown = shown_in(copy.as_ref(), register),
            Action::Total { group } => {
                operation.shown = copy.as_ref().map(|copy| total(groups.rows(group), copy));
            }
            Action::Mark { mark } => marks[usize::from(mark)] = copy.clone(),
            Action::Release { mark } => marks[usize::from(mark)] = None,
            Action::Marked { register, mark } => {
                operation.shown = shown_in(marks[usize::from(mark)].as_ref(), register);
            }
        }
    }
}

/// The sum over a copy: the registers of the rows with a plus, less those with a minus; and the largest
/// status among them, 0 without one. A register without a value adds 0 and has no status.
fn total(rows: &[Row], copy: &[Option<Reading>]) -> Shown {
    let read = |row: &Row| copy[usize::from(row.register)];
    let of = |minus: bool| -> i128 {
        let rows = rows.iter().filter(|row| row.minus == minus);
        rows.filter_map(read).map(|reading| i128::from(reading.value)).sum()
    };
    let statuses = rows.iter().filter_map(read).map(|reading| reading.status);
    Shown { value: of(false) - of(true), status: statuses.max().unwrap_or(READ) }
}

/// Every finished get, read, marked read and total answers what is shown: `none` where no value is, and
/// with a value the status of the same put, or the largest of a total.
fn check_values(order: &Order) -> Result<(), Violation> {
    for &index in &order.sequence {
        let operation = &order.operations[index];
        if let (true, Outcome::Finished { record, answer }) = (operation.shows(), operation.outcome)
        {
            if !operation.answered_by(answer) {
                let (claim, why) = operation.why_not(answer);
                let sentence = format!("{operation} answers `{answer}` where {why}");
                return Err(Violation { record, claim, sentence });
            }
        }
    }
    Ok(())
}
