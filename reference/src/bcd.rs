//! Stored rows in EN 13757-3 digits (A6), in place: from the old form, whose last eight bytes are the
//! value, to the new one, whose last eight bytes are DIF, VIF and twelve BCD digits, and back. The
//! first eight bytes of a row are kept and not judged.

use crate::answer::Refusal;
use crate::fault::{Fault, Right};
use crate::row::LENGTH;
use crate::store::MAX_VALUE;

/// The data information field: twelve-digit BCD.
pub const DIF: u8 = 0x0e;
/// The value information field: energy in watt-hours.
pub const VIF: u8 = 0x03;

/// The two form the beginning of a new row's last eight bytes.
const FIELDS: u64 = (VIF as u64) << 8 | DIF as u64;
/// Every second of the six bytes of digits that follow them.
const EVEN: u64 = 0x00ff_00ff_00ff;

/// Which way rows move.
#[derive(Clone, Copy, Debug, PartialEq, Eq)]
pub enum Way {
    ToNew,
    ToOld,
}

impl Way {
    pub const ALL: [Way; 2] = [Way::ToNew, Way::ToOld];

    /// Its name as an argument.
    pub fn name(self) -> &'static str {
        match self {
            Way::ToNew => "to-new",
            Way::ToOld => "to-old",
        }
    }

    /// The way with this name.
    pub fn named(name: &str) -> Option<Way> {
        Way::ALL.into_iter().find(|way| way.name() == name)
    }
}

/// Moves the rows of a buffer, all or none: 6 for a part of a row, then 16 for an old row above A1's
/// limit, or 22 for a new row with another DIF or VIF or a digit above nine.
pub fn convert(way: Way, buffer: &mut [u8]) -> Result<(), Refusal> {
    convert_with::<Right>(way, buffer)
}

/// The same with a fault built in.
pub fn convert_with<F: Fault>(way: Way, buffer: &mut [u8]) -> Result<(), Refusal> {
    match way {
        Way::ToNew => rows::<F>(buffer, Refusal::Value, |value| value <= MAX_VALUE, new_of::<F>),
        Way::ToOld => rows::<F>(buffer, Refusal::Coding, is_new::<F>, old_of::<F>),
    }
}

/// Tests the last eight bytes of all rows, and only then writes those of each.
#[inline(always)]
fn rows<F: Fault>(
    buffer: &mut [u8],
    refusal: Refusal,
    fits: impl Fn(u64) -> bool,
    moved: impl Fn(u64) -> u64,
) -> Result<(), Refusal> {
    let part = buffer.len() % LENGTH != 0;
    if part && !F::LENGTH_LAST && !F::REST_IGNORED {
        return Err(Refusal::Length);
    }
    let fits = |row: &[u8]| fits(last(row)) && !(F::FIRST_BYTES_JUDGED && row[2..4] != [0, 0]);
    // Whole rows without a way out in between: several can be tested at once.
    let unfit =
        |buffer: &[u8]| buffer.chunks_exact(LENGTH).fold(false, |unfit, row| unfit | !fits(row));
    if !F::WRITTEN_FIRST && unfit(buffer) {
        return Err(refusal);
    }
    if part && F::LENGTH_LAST {
        return Err(Refusal::Length);
    }
    for row in buffer.chunks_exact_mut(LENGTH) {
        if F::WRITTEN_FIRST && !fits(row) {
            return Err(refusal);
        }
        let moved = moved(last(row));
        row[8..].copy_from_slice(&moved.to_le_bytes());
    }
    Ok(())
}

/// The last eight bytes of a row, least byte first.
#[inline(always)]
fn last(row: &[u8]) -> u64 {
    u64::from_le_bytes(row[8..].try_into().expect("the rest of sixteen bytes"))
}

/// The last eight bytes of a new row, from a value within the limit.
#[inline(always)]
fn new_of<F: Fault>(value: u64) -> u64 {
    FIELDS | arranged::<F>(digits_of(value)) << 16
}

/// Are these the last eight bytes of a new row?
#[inline(always)]
fn is_new<F: Fault>(last: u64) -> bool {
    let mask = if F::DIF_UNTESTED { 0xff00 } else { 0xffff };
    let mask = if F::VIF_UNTESTED { 0x00ff } else { mask };
    // A digit above nine has the eight, and the four or the two.
    let digits = last >> 16;
    let two = if F::DIGIT_TEN { digits << 2 & digits << 3 } else { digits << 2 };
    let above = digits & (digits << 1 | two) & 0x8888_8888_8888;
    (last ^ FIELDS) & mask | above == 0
}

/// The value of a new row, from its last eight bytes.
#[inline(always)]
fn old_of<F: Fault>(last: u64) -> u64 {
    value_of(arranged::<F>(last >> 16))
}

/// The twelve digits of a value within the limit, four bits each, the ones lowest.
#[inline(always)]
fn digits_of(value: u64) -> u64 {
    // Three groups of four digits, sixteen bits apart.
    let (upper, low) = ((value / 10_000) as u32, (value % 10_000) as u32);
    let groups = [low, upper % 10_000, upper / 10_000];
    let apart = |[low, middle, high]: [u32; 3]| {
        u64::from(low) | u64::from(middle) << 16 | u64::from(high) << 32
    };
    let (groups, hundreds) = (apart(groups), apart(groups.map(|group| group / 100)));
    // A byte for every two digits: the hundreds of a group move up from 100 to 256.
    let pairs = groups + (256 - 100) * hundreds;
    // Four bits for every digit: the tens of a byte move up from 10 to 16.
    pairs + (16 - 10) * (tens(pairs & EVEN) | tens(pairs >> 8 & EVEN) << 8)
}

/// The tens of three numbers below 100, sixteen bits apart.
#[inline(always)]
fn tens(numbers: u64) -> u64 {
    numbers * 103 >> 10 & 0x000f_000f_000f
}

/// The value of twelve digits: the same way back.
#[inline(always)]
fn value_of(digits: u64) -> u64 {
    let pairs = digits - (16 - 10) * (digits >> 4 & 0x0f0f_0f0f_0f0f);
    let groups = (pairs & EVEN) + 100 * (pairs >> 8 & EVEN);
    let (low, middle, high) = (groups & 0xffff, groups >> 16 & 0xffff, groups >> 32);
    low + 10_000 * middle + 100_000_000 * high
}

/// The digits as they stand in a row, or as a fault has them; the same way back.
#[inline(always)]
fn arranged<F: Fault>(digits: u64) -> u64 {
    if F::BYTES_REVERSED {
        digits.swap_bytes() >> 16
    } else if F::HALVES_EXCHANGED {
        digits << 4 & 0xf0f0_f0f0_f0f0 | digits >> 4 & 0x0f0f_0f0f_0f0f
    } else {
        digits
    }
}
