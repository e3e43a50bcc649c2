//! What a put brings and a version holds: a value and its status (A8).

use std::fmt;

/// The meter was read.
pub const READ: u8 = 0;
/// The office has put an estimate.
pub const ESTIMATED: u8 = 1;
/// A correction of an estimate.
pub const CORRECTED: u8 = 2;
/// The last status; above it is 25.
pub const LAST_STATUS: u8 = CORRECTED;

/// A value with the status that its put gave it. They are stored, copied and shown together.
///
/// Packed, so that a slot, what a worker is doing and an answer are as small as with the value alone.
#[derive(Clone, Copy, Debug, Default, PartialEq, Eq, Hash)]
#[repr(packed(4))]
pub struct Reading {
    pub value: u64,
    pub status: u8,
}

impl Reading {
    /// A value that was read.
    pub const fn read(value: u64) -> Reading {
        Reading { value, status: READ }
    }
}

/// What plain registers show, and what an answer shows: a value, of a total the sum, and its status.
#[derive(Clone, Copy, Debug, PartialEq, Eq)]
pub struct Shown {
    pub value: i128,
    pub status: u8,
}

impl From<Reading> for Shown {
    fn from(Reading { value, status }: Reading) -> Shown {
        Shown { value: value.into(), status }
    }
}

/// As in the log after `value`.
impl fmt::Display for Shown {
    fn fmt(&self, f: &mut fmt::Formatter) -> fmt::Result {
        write!(f, "{} {}", self.value, self.status)
    }
}
