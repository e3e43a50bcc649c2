//! A6: stored rows in EN 13757-3 digits. The layout by hand, there and back from either form, 6, 16 and
//! 22 with nothing written, the near misses, and the program.

use reference::bcd::{convert, convert_with, Way, DIF, VIF};
use reference::buffers::{damaged, row, valid};
use reference::fault::*;
use reference::generate::Random;
use reference::reading::READ;
use reference::row::{write_row, Written};
use reference::store::MAX_VALUE;
use reference::{Reading, Refusal};
use std::io::{Read, Write};
use std::process::{Command, Output, Stdio};

/// The first eight bytes of a row as the row writer has them: register 3, time 7.
const FIRST: [u8; 8] = [3, 0, 0, 0, 7, 0, 0, 0];

/// Values with their last eight bytes in the old form and in the new one.
const VECTORS: [(u64, [u8; 8], [u8; 8]); 8] = [
    (0, [0; 8], [0x0e, 0x03, 0, 0, 0, 0, 0, 0]),
    (9, [9, 0, 0, 0, 0, 0, 0, 0], [0x0e, 0x03, 0x09, 0, 0, 0, 0, 0]),
    (10, [10, 0, 0, 0, 0, 0, 0, 0], [0x0e, 0x03, 0x10, 0, 0, 0, 0, 0]),
    (42, [42, 0, 0, 0, 0, 0, 0, 0], [0x0e, 0x03, 0x42, 0, 0, 0, 0, 0]),
    (100, [100, 0, 0, 0, 0, 0, 0, 0], [0x0e, 0x03, 0x00, 0x01, 0, 0, 0, 0]),
    (12_345, [0x39, 0x30, 0, 0, 0, 0, 0, 0], [0x0e, 0x03, 0x45, 0x23, 0x01, 0, 0, 0]),
    (
        123_456_789_012,
        [0x14, 0x1a, 0x99, 0xbe, 0x1c, 0, 0, 0],
        [0x0e, 0x03, 0x12, 0x90, 0x78, 0x56, 0x34, 0x12],
    ),
    (
        999_999_999_999,
        [0xff, 0x0f, 0xa5, 0xd4, 0xe8, 0, 0, 0],
        [0x0e, 0x03, 0x99, 0x99, 0x99, 0x99, 0x99, 0x99],
    ),
];

/// The forms of the vectors, one row after another.
fn vectors() -> [Vec<u8>; 2] {
    let old = VECTORS.iter().flat_map(|(_, old, _)| [FIRST, *old].concat());
    let new = VECTORS.iter().flat_map(|(_, _, new)| [FIRST, *new].concat());
    [old.collect(), new.collect()]
}

#[test]
fn the_layout_by_hand() {
    for (value, old, new) in VECTORS {
        assert_eq!(old, value.to_le_bytes());
        let forms = [[FIRST, old].concat(), [FIRST, new].concat()];
        assert_eq!(row(FIRST, value).map(|row| row.to_vec()), forms, "the tests' own rows");
        let mut buffer = forms[0].clone();
        assert_eq!(convert(Way::ToNew, &mut buffer), Ok(()));
        assert_eq!(buffer, forms[1], "{value}");
        assert_eq!(convert(Way::ToOld, &mut buffer), Ok(()));
        assert_eq!(buffer, forms[0], "{value}");
    }
    let [old, new] = vectors();
    let mut buffer = old.clone();
    assert_eq!(convert(Way::ToNew, &mut buffer), Ok(()));
    assert_eq!(buffer, new);
    assert_eq!(convert(Way::ToOld, &mut buffer), Ok(()));
    assert_eq!(buffer, old);
    assert_eq!((DIF, VIF), (0x0e, 0x03));
}

/// Every power of ten with what is around it, every pair of digits in every byte.
#[test]
fn every_digit_in_every_place() {
    let powers = (0..12).map(|place| 10u64.pow(place));
    let around = powers.clone().flat_map(|power| [power - 1, power, power + 1]);
    let digits = powers.flat_map(|power| (0..10).map(move |digit| digit * power));
    let pairs = (0..6).flat_map(|byte| (0..100).map(move |pair| pair * 100u64.pow(byte)));
    let values = around.chain(digits).chain(pairs).chain(MAX_VALUE - 1000..=MAX_VALUE);
    for value in values.chain(0..20_000) {
        let [old, new] = row(FIRST, value);
        let mut buffer = old;
        assert_eq!(convert(Way::ToNew, &mut buffer), Ok(()), "{value}");
        assert_eq!(buffer, new, "{value}");
        assert_eq!(convert(Way::ToOld, &mut buffer), Ok(()), "{value}");
        assert_eq!(buffer, old, "{value}");
    }
}

#[test]
fn no_rows_at_all() {
    for way in Way::ALL {
        assert_eq!(convert(way, &mut []), Ok(()));
    }
}

#[test]
fn there_and_back_from_either_form() {
    let mut random = Random::new(6);
    for rows in (0..60).chain([1000]) {
        for (way, back) in [(Way::ToNew, Way::ToOld), (Way::ToOld, Way::ToNew)] {
            let [begin, end] = valid(way, rows, &mut random);
            assert_eq!(begin.len(), 16 * rows);
            let mut buffer = begin.clone();
            assert_eq!(convert(way, &mut buffer), Ok(()));
            assert_eq!(buffer, end);
            assert_eq!(convert(back, &mut buffer), Ok(()));
            assert_eq!(buffer, begin);
        }
    }
}

/// Whatever the first eight bytes are.
#[test]
fn the_first_eight_bytes_are_kept_and_not_judged() {
    for first in [[0; 8], [0xff; 8], [0x0e, 0x03, 0xaa, 0xbb, 1, 2, 3, 4], FIRST] {
        let [old, new] = row(first, 42);
        let mut buffer = old;
        assert_eq!(convert(Way::ToNew, &mut buffer), Ok(()));
        assert_eq!(buffer, new);
        assert_eq!(buffer[..8], first);
        assert_eq!(convert(Way::ToOld, &mut buffer), Ok(()));
        assert_eq!(buffer, old);
    }
}

/// A8: the status is byte 2 of either form, so that it stays, both ways; so does a byte that is none.
#[test]
fn the_status_stays_in_both_directions() {
    for (status, other) in (0..=255).map(|status| (status, 255 - status)) {
        let first = |status| [3, 0, status, 0, 7, 0, 0, 0];
        let [old, new] = [0, 1].map(|form| {
            [row(first(status), 42)[form], row(first(other), MAX_VALUE)[form]].concat()
        });
        let mut buffer = old.clone();
        assert_eq!(convert(Way::ToNew, &mut buffer), Ok(()));
        assert_eq!((buffer[2], buffer[18], &buffer), (status, other, &new));
        assert_eq!(convert(Way::ToOld, &mut buffer), Ok(()));
        assert_eq!((buffer[2], buffer[18], &buffer), (status, other, &old));
    }
}

/// What the row writer has written moves with its status; an old row has 0 there, which is read.
#[test]
fn a_written_row_moves_with_its_status() {
    for status in 0..3 {
        let mut buffer = [0xaa; 64];
        let reading = Some(Reading { value: 12_345, status });
        assert_eq!(write_row(&mut buffer, 3, 7, reading), Ok(Written::Row));
        let rows = &mut buffer[48..];
        assert_eq!(rows, row([3, 0, status, 0, 7, 0, 0, 0], 12_345)[0]);
        assert_eq!(convert(Way::ToNew, rows), Ok(()));
        assert_eq!(rows, row([3, 0, status, 0, 7, 0, 0, 0], 12_345)[1]);
    }
    assert_eq!((FIRST[2], READ), (0, 0));
}

/// Refused, and nothing is written.
fn refused(way: Way, buffer: &[u8], refusal: Refusal) {
    let mut after = buffer.to_vec();
    assert_eq!(convert(way, &mut after), Err(refusal), "{way:?} {buffer:x?}");
    assert_eq!(after, buffer, "{way:?}");
}

#[test]
fn a_part_of_a_row_gets_6() {
    let mut random = Random::new(66);
    for way in Way::ALL {
        let [whole, _] = valid(way, 4, &mut random);
        for length in (0..whole.len()).filter(|length| length % 16 != 0) {
            refused(way, &whole[..length], Refusal::Length);
        }
        // 6 before 16 and 22: the rows before the part are of neither form, or the part is.
        for length in [17, 33, 63] {
            refused(way, &vec![0xff; length], Refusal::Length);
            refused(way, &[&whole[..32], &vec![0xff; length - 16]].concat(), Refusal::Length);
        }
    }
}

/// At the first row, in the middle and at the last.
#[test]
fn an_old_row_above_the_limit_gets_16() {
    let mut random = Random::new(16);
    for large in [MAX_VALUE + 1, 1 << 40, 1 << 48, 1 << 63, u64::MAX - 1, u64::MAX] {
        refused(Way::ToNew, &row(FIRST, large)[0], Refusal::Value);
        for place in [0, 3, 6] {
            let [mut buffer, _] = valid(Way::ToNew, 7, &mut random);
            buffer[16 * place + 8..][..8].copy_from_slice(&large.to_le_bytes());
            refused(Way::ToNew, &buffer, Refusal::Value);
        }
    }
    // Nothing but that tells the forms apart: a new row with few digits is an old one too.
    let [_, mut new] = row(FIRST, 42);
    assert_eq!(convert(Way::ToNew, &mut new), Ok(()));
    assert_eq!(new, row(FIRST, 0x42_03_0e)[1]);
    refused(Way::ToNew, &row(FIRST, 99_999_999)[1], Refusal::Value);
}

#[test]
fn a_new_row_of_another_coding_gets_22() {
    let mut random = Random::new(22);
    for place in [0, 3, 6] {
        // Another DIF or VIF: every one there is.
        for field in [8, 9] {
            for byte in 0..=255 {
                let [mut buffer, _] = valid(Way::ToOld, 7, &mut random);
                if buffer[16 * place + field] != byte {
                    buffer[16 * place + field] = byte;
                    refused(Way::ToOld, &buffer, Refusal::Coding);
                }
            }
        }
        // A digit from ten to fifteen, in each of the twelve places.
        for (digit, half) in (10..16).flat_map(|digit| (0..12).map(move |half| (digit, half))) {
            let [mut buffer, _] = valid(Way::ToOld, 7, &mut random);
            let byte = &mut buffer[16 * place + 10 + half / 2];
            *byte = if half % 2 == 0 { *byte & 0xf0 | digit } else { *byte & 15 | digit << 4 };
            refused(Way::ToOld, &buffer, Refusal::Coding);
        }
    }
    // An old row is no new one, but for those whose bytes are.
    refused(Way::ToOld, &row(FIRST, 42)[0], Refusal::Coding);
    let mut both = row(FIRST, 0x0999_0000_0000_030e)[0];
    assert_eq!(convert(Way::ToOld, &mut both), Ok(()));
    assert_eq!(both, row(FIRST, 99_900_000_000)[0]);
}

/// Judged byte by byte, by another way than the conversion's.
fn expected(way: Way, buffer: &[u8]) -> Result<(), Refusal> {
    if buffer.len() % 16 != 0 {
        return Err(Refusal::Length);
    }
    for row in buffer.chunks(16) {
        let value = row[8..].iter().rev().fold(0u128, |sum, &byte| 256 * sum + u128::from(byte));
        let digits = row[10..].iter().all(|byte| byte / 16 < 10 && byte % 16 < 10);
        match way {
            Way::ToNew if value > 999_999_999_999 => return Err(Refusal::Value),
            Way::ToOld if row[8..10] != [0x0e, 0x03] || !digits => return Err(Refusal::Coding),
            _ => {}
        }
    }
    Ok(())
}

#[test]
fn random_damage() {
    let mut random = Random::new(7);
    let mut counts = [[0; 2]; 4];
    for turn in 0..8000 {
        let way = Way::ALL[turn % 2];
        let rows = random.between(1, 12) as usize;
        let before = damaged(way, rows, &mut random);
        let mut after = before.clone();
        let answer = convert(way, &mut after);
        assert_eq!(answer, expected(way, &before), "{way:?} {before:x?}");
        let place = match answer {
            Ok(()) => 0,
            Err(Refusal::Length) => 1,
            Err(Refusal::Value) => 2,
            Err(_) => 3,
        };
        counts[place][turn % 2] += 1;
        if answer.is_ok() {
            convert(Way::ALL[1 - turn % 2], &mut after).expect("back");
        }
        assert_eq!(after, before);
    }
    let [written, part, large, coding] = counts;
    let enough = |met: usize| met > 500;
    assert!(written.into_iter().all(enough) && part.into_iter().all(enough), "{counts:?}");
    assert!(enough(large[0]) && enough(coding[1]), "{counts:?}");
    assert_eq!((large[1], coding[0]), (0, 0), "16 is of old rows, 22 of new ones");
}

/// What the right conversion and the fault make of a buffer.
fn told<F: Fault>(way: Way, buffer: &[u8]) -> [(Result<(), Refusal>, Vec<u8>); 2] {
    let (mut right, mut wrong) = (buffer.to_vec(), buffer.to_vec());
    let answers = [convert(way, &mut right), convert_with::<F>(way, &mut wrong)];
    let [first, second] = answers;
    [(first, right), (second, wrong)]
}

#[test]
fn near_misses_of_the_layout() {
    fn differs<F: Fault>(value: u64, new: [u8; 8]) {
        let [old, right] = row(FIRST, value);
        let wrong = [FIRST, new].concat();
        let made = [(Ok(()), right.to_vec()), (Ok(()), wrong.clone())];
        assert_eq!(told::<F>(Way::ToNew, &old), made);
        // There and back it gives the same bytes: only the layout tells.
        assert_eq!(told::<F>(Way::ToOld, &wrong)[1], (Ok(()), old.to_vec()));
    }
    differs::<BytesReversed>(12_345, [0x0e, 0x03, 0, 0, 0, 0x01, 0x23, 0x45]);
    differs::<HalvesExchanged>(12_345, [0x0e, 0x03, 0x54, 0x32, 0x10, 0, 0, 0]);
}

#[test]
fn near_misses_of_the_refusals() {
    let [old, new] = vectors();
    let with = |buffer: &[u8], place: usize, byte: u8| {
        let mut buffer = buffer.to_vec();
        buffer[place] = byte;
        buffer
    };
    let answers = |told: [(Result<(), Refusal>, Vec<u8>); 2]| told.map(|(answer, _)| answer);
    // The last row is refused: those before are written by then.
    for (way, buffer) in [(Way::ToNew, with(&old, 127, 1)), (Way::ToOld, with(&new, 127, 0xaa))] {
        let [(right, untouched), (wrong, written)] = told::<WrittenFirst>(way, &buffer);
        assert_eq!((right, &untouched), (wrong, &buffer));
        assert_ne!(written, buffer);
        assert_eq!(written[112..], buffer[112..]);
        // 6 comes before the refusal of the first row.
        let part = [&with(&buffer, 15, 0xff)[..], &[0]].concat();
        let other = if way == Way::ToNew { Refusal::Value } else { Refusal::Coding };
        let length = Err(Refusal::Length);
        assert_eq!(answers(told::<LengthLast>(way, &part)), [length, Err(other)]);
    }
    let [right, wrong] = told::<RestIgnored>(Way::ToNew, &old[..20]);
    assert_eq!((right, wrong.0), ((Err(Refusal::Length), old[..20].to_vec()), Ok(())));
    let coding = Err(Refusal::Coding);
    for place in [0, 64, 112] {
        let dif = told::<DifUntested>(Way::ToOld, &with(&new, place + 8, 0x0c));
        assert_eq!(answers(dif), [coding, Ok(())]);
        let dif = told::<DifUntested>(Way::ToOld, &with(&new, place + 9, 0x04));
        assert_eq!(answers(dif), [coding, coding]);
        let vif = told::<VifUntested>(Way::ToOld, &with(&new, place + 9, 0x04));
        assert_eq!(answers(vif), [coding, Ok(())]);
        for (digits, accepted) in [(0x0a, Ok(())), (0xa0, Ok(())), (0x0b, coding), (0xc1, coding)] {
            let ten = told::<DigitTen>(Way::ToOld, &with(&new, place + 12, digits));
            assert_eq!(answers(ten), [coding, accepted], "{digits:x}");
        }
        let first = told::<FirstBytesJudged>(Way::ToNew, &with(&old, place + 2, 1));
        assert_eq!(answers(first), [Ok(()), Err(Refusal::Value)]);
    }
}

/// Random buffers, half of them damaged, tell each of them too.
#[test]
fn random_buffers_for_each_near_miss_of_a6() {
    fn caught<F: Fault>(least: usize) {
        let mut random = Random::new(66);
        let mut differing = 0;
        for turn in 0..2000 {
            let (way, rows) = (Way::ALL[turn % 2], random.between(1, 6) as usize);
            let buffer = match turn % 4 {
                0 | 1 => damaged(way, rows, &mut random),
                _ => valid(way, rows, &mut random)[0].clone(),
            };
            let [right, wrong] = told::<F>(way, &buffer);
            differing += usize::from(right != wrong);
        }
        assert!(differing > least, "{differing}");
    }
    caught::<BytesReversed>(500);
    caught::<HalvesExchanged>(500);
    caught::<WrittenFirst>(100);
    caught::<RestIgnored>(100);
    caught::<DifUntested>(20);
    caught::<VifUntested>(20);
    caught::<DigitTen>(10);
    caught::<FirstBytesJudged>(500);
    // This one needs a part of a row after a row that is refused.
    let mut part = row(FIRST, u64::MAX)[0].to_vec();
    part.push(0);
    let [right, wrong] = told::<LengthLast>(Way::ToNew, &part);
    assert_ne!(right, wrong);
}

/// Runs the program on an input, which it need not read to its end.
fn program(arguments: &[&str], input: &[u8]) -> Output {
    let mut command = Command::new(env!("CARGO_BIN_EXE_reference-rows"));
    command.args(arguments).stdin(Stdio::piped()).stdout(Stdio::piped()).stderr(Stdio::piped());
    let mut child = command.spawn().expect("it starts");
    let (mut stdin, mut stdout) = (child.stdin.take().unwrap(), child.stdout.take().unwrap());
    let mut output = Vec::new();
    std::thread::scope(|scope| {
        scope.spawn(move || stdin.write_all(input));
        stdout.read_to_end(&mut output).expect("its output");
    });
    Output { stdout: output, ..child.wait_with_output().expect("it ends") }
}

/// The status is 0 in every case, and standard error has one line or none.
fn says(arguments: &[&str], input: &[u8], output: &[u8], error: &str) {
    let Output { status, stdout, stderr } = program(arguments, input);
    let error = if error.is_empty() { String::new() } else { format!("{error}\n") };
    assert_eq!(String::from_utf8_lossy(&stderr), error, "{arguments:?}");
    assert!(stdout == output, "{arguments:?}: {} bytes", stdout.len());
    assert_eq!(status.code(), Some(0), "{arguments:?}");
}

#[test]
fn the_program_moves_rows() {
    let [old, new] = vectors();
    says(&["to-new"], &old, &new, "");
    says(&["to-old"], &new, &old, "");
    says(&["to-new"], &[], &[], "");
    says(&["to-old"], &[], &[], "");
    says(&["to-new"], &old[..17], &[], "no 6");
    says(&["to-old"], &old, &[], "no 22");
    says(&["to-new"], &new, &[], "no 16");
    says(&["to-old"], &new[..127], &[], "no 6");
}

#[test]
fn the_program_says_how_it_is_used() {
    for arguments in [&[][..], &["to-newer"], &["TO-NEW"], &[""], &["to-new", "to-old"]] {
        says(arguments, &[], &[], "usage: rows to-new | to-old");
    }
}

/// The longest buffer and one byte more; without an end too.
#[test]
fn the_program_on_the_longest_buffer() {
    let longest = 4_194_304;
    let mut random = Random::new(4);
    for way in Way::ALL {
        let [mut begin, end] = valid(way, longest / 16, &mut random);
        says(&[way.name()], &begin, &end, "");
        let too_long = "rows: more than 4194304 bytes";
        for more in [1, 15, 16, 100_000] {
            begin.resize(longest + more, 0);
            says(&[way.name()], &begin, &[], too_long);
        }
        let endless = std::fs::File::open("/dev/zero").expect("it is there");
        let mut command = Command::new(env!("CARGO_BIN_EXE_reference-rows"));
        let output = command.arg(way.name()).stdin(endless).output().expect("it ends");
        assert_eq!(String::from_utf8_lossy(&output.stderr), format!("{too_long}\n"));
        assert!(output.stdout.is_empty());
    }
}
