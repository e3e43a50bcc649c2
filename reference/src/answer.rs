//! Answers and refusals, with the numbers that documents 01 and 02 give them.

use crate::reading::{Reading, Shown};
use std::fmt;

/// A refusal; its discriminant is the number in document 01's two tables or in a request of 02.
#[derive(Clone, Copy, Debug, PartialEq, Eq, PartialOrd, Ord, Hash)]
#[repr(u8)]
pub enum Refusal {
    /// 1: operation above 11.
    Operation = 1,
    /// 2: an unused byte is not zero.
    UnusedByte = 2,
    /// 3: worker not below P.
    Worker = 3,
    /// 4: register not below V (256 for a read-out row), or mark above 11 (A3).
    Register = 4,
    /// 5: setup outside its ranges.
    Setup = 5,
    /// 6: fewer than 16 bytes; no whole number of rows (A6).
    Length = 6,
    /// 7: read-out buffer too short.
    Buffer = 7,
    /// 8: not set up.
    NotSetUp = 8,
    /// 9: setup when set up; so is a table of rights (A7).
    SetUp = 9,
    /// 10: begin on a busy worker.
    Busy = 10,
    /// 11: step of an idle worker.
    Idle = 11,
    /// 12: open with a time announced.
    Announced = 12,
    /// 13: read, close, total or mark with none announced.
    NotAnnounced = 13,
    /// 14: put's first step, every slot in some register's list.
    NoFreeSlot = 14,
    /// 15: open's first step, clock at its last value.
    LastClock = 15,
    /// 16: put value too large (A1); so is an old row's (A6).
    Value = 16,
    /// 17: total of a group with no rows (A2).
    Group = 17,
    /// 18: total's step, the value to be summed is above A1's limit (A2).
    Summand = 18,
    /// 19: mark in use (A3).
    MarkUsed = 19,
    /// 20: mark empty for a read or a release (A3).
    MarkEmpty = 20,
    /// 21: release while a read of the mark runs (A3).
    MarkRead = 21,
    /// 22: a new row with another DIF or VIF, or a digit above nine (A6).
    Coding = 22,
    /// 23: not allowed (A7).
    Forbidden = 23,
    /// 24: no table of rights (A7). Given for a table, never for a record.
    Table = 24,
    /// 25: status above 2 in a put or in the row writer (A8).
    Status = 25,
}

impl Refusal {
    /// All refusals, in the order of their numbers.
    pub const ALL: [Refusal; 25] = [
        Refusal::Operation,
        Refusal::UnusedByte,
        Refusal::Worker,
        Refusal::Register,
        Refusal::Setup,
        Refusal::Length,
        Refusal::Buffer,
        Refusal::NotSetUp,
        Refusal::SetUp,
        Refusal::Busy,
        Refusal::Idle,
        Refusal::Announced,
        Refusal::NotAnnounced,
        Refusal::NoFreeSlot,
        Refusal::LastClock,
        Refusal::Value,
        Refusal::Group,
        Refusal::Summand,
        Refusal::MarkUsed,
        Refusal::MarkEmpty,
        Refusal::MarkRead,
        Refusal::Coding,
        Refusal::Forbidden,
        Refusal::Table,
        Refusal::Status,
    ];

    /// The refusal's number.
    #[inline]
    pub const fn number(self) -> u8 {
        self as u8
    }

    /// The refusal with this number.
    pub fn from_number(number: u64) -> Option<Refusal> {
        let index = usize::try_from(number).ok()?.checked_sub(1)?;
        Refusal::ALL.get(index).copied()
    }

    /// May a step that is taken meet this? 14, 15, 18, and 19 to 21, which are tested again there.
    pub const fn at_step(self) -> bool {
        let again = matches!(self, Refusal::MarkUsed | Refusal::MarkEmpty | Refusal::MarkRead);
        again || !self.on_reading()
    }

    /// May this be given on reading a record? All but 14, 15 and 18.
    pub const fn on_reading(self) -> bool {
        !matches!(self, Refusal::NoFreeSlot | Refusal::LastClock | Refusal::Summand)
    }
}

/// What a record is answered; the log has one line for each.
#[derive(Clone, Copy, Debug, PartialEq, Eq, Hash)]
pub enum Answer {
    /// Set up or begun.
    Ok,
    /// A step taken, the operation goes on.
    Going,
    /// A flush step that gave back this slot.
    Freed(u16),
    /// An open's answer: its time.
    At(u32),
    /// A get's, read's or marked read's answer, and a total's that is not below 0: the sum with the
    /// largest status that it read (A8).
    Value(Reading),
    /// A get's, read's or marked read's answer where there is no reading (A5).
    None,
    /// A total's answer below 0: how far below, with that status.
    Minus(Reading),
    /// The end of a put, close, collect, mark or release.
    Done,
    /// Refused.
    No(Refusal),
}

impl Answer {
    /// The answer of a get, read or marked read.
    #[inline]
    pub const fn reading(reading: Option<Reading>) -> Answer {
        match reading {
            Some(reading) => Answer::Value(reading),
            None => Answer::None,
        }
    }

    /// This value with this status.
    #[inline]
    pub const fn value(value: u64, status: u8) -> Answer {
        Answer::Value(Reading { value, status })
    }

    /// A total's answer.
    #[inline]
    pub const fn total(sum: i64, status: u8) -> Answer {
        let reading = Reading { value: sum.unsigned_abs(), status };
        match sum {
            0.. => Answer::Value(reading),
            _ => Answer::Minus(reading),
        }
    }

    /// What a get, read, marked read or total shows; `none` shows no value.
    pub fn shown(self) -> Option<Shown> {
        match self {
            Answer::Value(reading) => Some(reading.into()),
            Answer::Minus(Reading { value, status }) => {
                Some(Shown { value: -i128::from(value), status })
            }
            _ => None,
        }
    }
}

/// The words of the log.
impl fmt::Display for Answer {
    fn fmt(&self, f: &mut fmt::Formatter) -> fmt::Result {
        match *self {
            Answer::Ok => write!(f, "ok"),
            Answer::Going => write!(f, "going"),
            Answer::Freed(slot) => write!(f, "freed {slot}"),
            Answer::At(time) => write!(f, "at {time}"),
            Answer::Value(Reading { value, status }) => write!(f, "value {value} {status}"),
            Answer::Minus(Reading { value, status }) => write!(f, "value -{value} {status}"),
            Answer::None => write!(f, "none"),
            Answer::Done => write!(f, "done"),
            Answer::No(refusal) => write!(f, "no {}", refusal.number()),
        }
    }
}
