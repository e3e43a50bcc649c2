//! Records of sixteen bytes: decoding with the refusals 6, 1 and 2, encoding.

use crate::answer::{Answer, Refusal};
use crate::reading::Reading;

/// Bytes in a record.
pub const LENGTH: usize = 16;

/// The highest operation number in use; above it is refusal 1.
pub const LAST_OPERATION: u8 = 11;

/// A record whose bytes are well formed. Whether its fields fit the hub is the hub's question.
/// `Marked` is a marked read; a put may have any status.
#[derive(Clone, Copy, Debug, PartialEq, Eq, Hash)]
pub enum Record {
    Setup { workers: u8, registers: u16, slots: u16, clock: u32 },
    Put { worker: u8, register: u16, reading: Reading },
    Open { worker: u8 },
    Read { worker: u8, register: u16 },
    Close { worker: u8 },
    Get { worker: u8, register: u16 },
    Collect { worker: u8 },
    Step { worker: u8 },
    Total { worker: u8, group: u16 },
    Mark { worker: u8, mark: u16 },
    Release { worker: u8, mark: u16 },
    Marked { worker: u8, register: u16, mark: u8 },
}

/// For each operation, the bytes it does not use, as masks over the two halves of a record.
const UNUSED: [(u64, u64); LAST_OPERATION as usize + 1] = {
    const WORKER_ONLY: (u64, u64) = (!0xffff, !0);
    const WORKER_REGISTER: (u64, u64) = (!0xffff_ffff, !0);
    [
        (!0xffff_ffff_ffff, !0xffff_ffff), // setup: bytes 0 to 5 and 8 to 11
        (!0xff_ffff_ffff, 0),              // put: bytes 0 to 4 and 8 to 15
        WORKER_ONLY,                       // open
        WORKER_REGISTER,                   // read
        WORKER_ONLY,                       // close
        WORKER_REGISTER,                   // get
        WORKER_ONLY,                       // collect
        WORKER_ONLY,                       // step
        WORKER_REGISTER,                   // total: its group stands where a register does
        WORKER_REGISTER,                   // mark: so does its mark
        WORKER_REGISTER,                   // release
        (!0xff_ffff_ffff, !0),             // marked read: its mark follows its register
    ]
};

impl Record {
    /// Decodes the first sixteen bytes; refusals 6, 1 and 2 in this order.
    #[inline]
    pub fn decode(bytes: &[u8]) -> Result<Record, Refusal> {
        let Some((bytes, _)) = bytes.split_first_chunk::<LENGTH>() else {
            return Err(Refusal::Length);
        };
        let bits = u128::from_le_bytes(*bytes);
        let (first, second) = (bits as u64, (bits >> 64) as u64);
        let operation = first as u8;
        let Some(&(unused_first, unused_second)) = UNUSED.get(operation as usize) else {
            return Err(Refusal::Operation);
        };
        if (first & unused_first) | (second & unused_second) != 0 {
            return Err(Refusal::UnusedByte);
        }
        let worker = (first >> 8) as u8;
        let register = (first >> 16) as u16;
        Ok(match operation {
            0 => Record::Setup {
                workers: worker,
                registers: register,
                slots: (first >> 32) as u16,
                clock: second as u32,
            },
            1 => {
                let reading = Reading { value: second, status: (first >> 32) as u8 };
                Record::Put { worker, register, reading }
            }
            2 => Record::Open { worker },
            3 => Record::Read { worker, register },
            4 => Record::Close { worker },
            5 => Record::Get { worker, register },
            6 => Record::Collect { worker },
            7 => Record::Step { worker },
            8 => Record::Total { worker, group: register },
            9 => Record::Mark { worker, mark: register },
            10 => Record::Release { worker, mark: register },
            _ => Record::Marked { worker, register, mark: (first >> 32) as u8 },
        })
    }

    /// The record's sixteen bytes.
    pub fn encode(self) -> [u8; LENGTH] {
        let mut bytes = [0; LENGTH];
        let (operation, worker, register) = match self {
            Record::Setup { workers, registers, slots, clock } => {
                bytes[4..6].copy_from_slice(&slots.to_le_bytes());
                bytes[8..12].copy_from_slice(&clock.to_le_bytes());
                (0, workers, registers)
            }
            Record::Put { worker, register, reading: Reading { value, status } } => {
                bytes[4] = status;
                bytes[8..].copy_from_slice(&value.to_le_bytes());
                (1, worker, register)
            }
            Record::Open { worker } => (2, worker, 0),
            Record::Read { worker, register } => (3, worker, register),
            Record::Close { worker } => (4, worker, 0),
            Record::Get { worker, register } => (5, worker, register),
            Record::Collect { worker } => (6, worker, 0),
            Record::Step { worker } => (7, worker, 0),
            Record::Total { worker, group } => (8, worker, group),
            Record::Mark { worker, mark } => (9, worker, mark),
            Record::Release { worker, mark } => (10, worker, mark),
            Record::Marked { worker, register, mark } => {
                bytes[4] = mark;
                (11, worker, register)
            }
        };
        bytes[0] = operation;
        bytes[1] = worker;
        bytes[2..4].copy_from_slice(&register.to_le_bytes());
        bytes
    }

    /// Does this answer refuse the record on reading it? Then nothing changes, and no step is
    /// taken.
    pub fn refused_on_reading(self, answer: Answer) -> bool {
        match (answer, self) {
            (Answer::No(refusal), Record::Step { .. }) => !refusal.at_step(),
            (Answer::No(_), _) => true,
            _ => false,
        }
    }
}
