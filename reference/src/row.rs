//! The read-out row writer.

use crate::answer::Refusal;
use crate::fault::{Fault, Right};
use crate::reading::{Reading, LAST_STATUS};

/// Bytes in a row.
pub const LENGTH: usize = 16;

/// Registers that a row can name; from here on is refusal 4.
pub const REGISTERS: u16 = 256;

/// What the row writer answers where it does not refuse.
#[derive(Clone, Copy, Debug, PartialEq, Eq)]
pub enum Written {
    Row,
    /// There is no reading, and no row (A5).
    None,
}

/// Writes the row of `register` into `buffer`, starting at byte 16 × register.
///
/// Tests 4, then 7, then 25 for a status above 2, then whether there is a reading, and where one of them
/// fails leaves the buffer untouched. Other bytes keep their contents.
pub fn write_row(
    buffer: &mut [u8],
    register: u16,
    time: u32,
    reading: Option<Reading>,
) -> Result<Written, Refusal> {
    write_row_with::<Right>(buffer, register, time, reading)
}

/// The same with a fault built in.
pub fn write_row_with<F: Fault>(
    buffer: &mut [u8],
    register: u16,
    time: u32,
    reading: Option<Reading>,
) -> Result<Written, Refusal> {
    let no_status = reading.is_some_and(|reading| reading.status > LAST_STATUS);
    if F::ROW_NONE_FIRST && reading.is_none() {
        return Ok(Written::None);
    }
    if register >= REGISTERS {
        return Err(Refusal::Register);
    }
    if F::ROW_NONE_BEFORE_BUFFER && reading.is_none() {
        return Ok(Written::None);
    }
    if F::ROW_STATUS_BEFORE_BUFFER && no_status {
        return Err(Refusal::Status);
    }
    let start = LENGTH * usize::from(register);
    let row = buffer.get_mut(start..start + LENGTH).ok_or(Refusal::Buffer)?;
    if no_status && !F::ROW_STATUS_WRITTEN {
        return Err(Refusal::Status);
    }
    let none = F::ROW_OF_NONE.then_some(Reading::read(0));
    let Some(Reading { value, status }) = reading.or(none) else {
        return Ok(Written::None);
    };
    row[0..2].copy_from_slice(&register.to_le_bytes());
    row[2..4].copy_from_slice(&if F::ROW_STATUS_LATER { [0, status] } else { [status, 0] });
    row[4..8].copy_from_slice(&time.to_le_bytes());
    row[8..16].copy_from_slice(&value.to_le_bytes());
    if no_status {
        return Err(Refusal::Status);
    }
    Ok(if reading.is_some() { Written::Row } else { Written::None })
}
