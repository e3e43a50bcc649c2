//! Random buffers of rows for the moves of A6: valid in the form that a way begins with, damaged, and
//! any bytes. The digits are written one by one.

use crate::bcd::{Way, DIF, VIF};
use crate::generate::Random;
use crate::row::LENGTH;
use crate::store::MAX_VALUE;

/// A row in the old form and in the new one.
pub fn row(first: [u8; 8], value: u64) -> [[u8; LENGTH]; 2] {
    let mut forms = [[0; LENGTH]; 2];
    forms.iter_mut().for_each(|row| row[..8].copy_from_slice(&first));
    let [old, new] = &mut forms;
    old[8..].copy_from_slice(&value.to_le_bytes());
    new[8..10].copy_from_slice(&[DIF, VIF]);
    let mut rest = value;
    for byte in &mut new[10..] {
        let (ones, tens) = (rest % 10, rest / 10 % 10);
        *byte = (tens << 4 | ones) as u8;
        rest /= 100;
    }
    forms
}

/// So many random rows within A1's limit, in the form that the way begins with and in the other.
pub fn valid(way: Way, rows: usize, random: &mut Random) -> [Vec<u8>; 2] {
    let mut forms = [Vec::new(), Vec::new()];
    for _ in 0..rows {
        let pair = row(random.bits().to_le_bytes(), value(random));
        forms.iter_mut().zip(pair).for_each(|(form, row)| form.extend(row));
    }
    if way == Way::ToOld {
        forms.reverse();
    }
    forms
}

/// The form that a way begins with, and something in it changed: a byte, mostly one that is judged; a
/// value or a digit just above its limit; or its length. Now and then that does no damage.
pub fn damaged(way: Way, rows: usize, random: &mut Random) -> Vec<u8> {
    let [mut buffer, _] = valid(way, rows, random);
    let start = random.below(rows as u64) as usize * LENGTH;
    match random.below(8) {
        0 => buffer.truncate(random.below(buffer.len() as u64) as usize),
        1 => buffer.extend((0..random.between(1, 15)).map(|_| random.bits() as u8)),
        2 => buffer[start + random.below(8) as usize] ^= 1 << random.below(8),
        3..6 if way == Way::ToNew => {
            let large = match random.below(4) {
                0 => MAX_VALUE + 1,
                1 => u64::MAX,
                2 => 1 << random.between(40, 63),
                _ => random.between(MAX_VALUE + 1, u64::MAX),
            };
            buffer[start + 8..start + LENGTH].copy_from_slice(&large.to_le_bytes());
        }
        3 => buffer[start + random.between(8, 9) as usize] ^= 1 << random.below(8),
        4..6 => {
            let place = start + random.between(10, 15) as usize;
            let digit = random.between(10, 15) as u8;
            buffer[place] = match random.chance(500) {
                true => digit << 4 | buffer[place] & 15,
                false => buffer[place] & 0xf0 | digit,
            };
        }
        _ => buffer[start + random.between(8, 15) as usize] = random.bits() as u8,
    }
    buffer
}

/// A value within the limit, of any number of digits.
fn value(random: &mut Random) -> u64 {
    let most = 10u64.pow(random.between(0, 12) as u32) - 1;
    match random.below(8) {
        0 => most,
        1 => MAX_VALUE - random.below(2),
        _ => random.between(0, most),
    }
}
