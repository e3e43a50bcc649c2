//! The log: the text of a line, both ways, and the run from records to lines.

use crate::answer::{Answer, Refusal};
use crate::coverage::Observer;
use crate::fault::Fault;
use crate::hub::Hub;
use crate::reading::Reading;
use crate::record;
use std::io::{self, Read, Write};

/// Bytes read at a time: 4096 records.
const PIECE: usize = 4096 * record::LENGTH;

/// A count kept as its decimal digits, so that each line only adds one.
#[derive(Clone, Debug)]
pub struct Decimal {
    digits: [u8; 20],
    start: usize,
}

impl Default for Decimal {
    fn default() -> Decimal {
        Decimal { digits: [b'0'; 20], start: 19 }
    }
}

impl Decimal {
    /// The digits, most significant first.
    #[inline]
    pub fn digits(&self) -> &[u8] {
        &self.digits[self.start..]
    }

    /// Adds one.
    #[inline]
    pub fn increment(&mut self) {
        let mut place = self.digits.len() - 1;
        while self.digits[place] == b'9' {
            self.digits[place] = b'0';
            place -= 1;
        }
        self.digits[place] += 1;
        self.start = self.start.min(place);
    }
}

/// Writes a number in decimal before this place; gives where it begins.
#[inline(always)]
fn write_number(digits: &mut [u8; 22], mut place: usize, mut number: u64) -> usize {
    loop {
        place -= 1;
        digits[place] = b'0' + (number % 10) as u8;
        number /= 10;
        if number == 0 {
            return place;
        }
    }
}

/// Appends a number in decimal.
fn append_number(text: &mut Vec<u8>, number: u64) {
    let mut digits = [0; 22];
    let start = write_number(&mut digits, 22, number);
    text.extend_from_slice(&digits[start..]);
}

/// Appends these words, the value, a space and the status.
fn append_reading(text: &mut Vec<u8>, words: &[u8], Reading { value, status }: Reading) {
    text.extend_from_slice(words);
    if status > 9 {
        // No hub shows one.
        append_number(text, value);
        text.push(b' ');
        return append_number(text, status.into());
    }
    let mut digits = [0; 22];
    (digits[20], digits[21]) = (b' ', b'0' + status);
    let start = write_number(&mut digits, 20, value);
    text.extend_from_slice(&digits[start..]);
}

/// Appends an answer's words; `Display` has the same, more slowly.
#[inline]
pub fn append_answer(text: &mut Vec<u8>, answer: Answer) {
    let (words, number): (&[u8], u64) = match answer {
        Answer::Ok => return text.extend_from_slice(b"ok"),
        Answer::Going => return text.extend_from_slice(b"going"),
        Answer::Done => return text.extend_from_slice(b"done"),
        Answer::None => return text.extend_from_slice(b"none"),
        Answer::Freed(slot) => (b"freed ", u64::from(slot)),
        Answer::At(time) => (b"at ", u64::from(time)),
        Answer::Value(reading) => return append_reading(text, b"value ", reading),
        Answer::Minus(below) => return append_reading(text, b"value -", below),
        Answer::No(refusal) => (b"no ", u64::from(refusal.number())),
    };
    text.extend_from_slice(words);
    append_number(text, number);
}

/// Appends one line: the record's number, a space, the answer's words.
#[inline]
pub fn append_line(text: &mut Vec<u8>, number: &Decimal, answer: Answer) {
    text.extend_from_slice(number.digits());
    text.push(b' ');
    append_answer(text, answer);
    text.push(b'\n');
}

/// A number written as the log writes it: decimal digits without a leading zero.
fn parse_number(text: &str) -> Option<u64> {
    let plain = text.bytes().all(|b| b.is_ascii_digit());
    let leading_zero = text.len() > 1 && text.starts_with('0');
    (plain && !leading_zero).then(|| text.parse().ok()).flatten()
}

/// Reads an answer's words.
pub fn parse_answer(words: &str) -> Option<Answer> {
    Some(match words.split_once(' ') {
        None => match words {
            "ok" => Answer::Ok,
            "going" => Answer::Going,
            "done" => Answer::Done,
            "none" => Answer::None,
            _ => return None,
        },
        Some(("value", shown)) => {
            let (number, status) = shown.split_once(' ')?;
            let status = parse_number(status)?.try_into().ok()?;
            let reading = |value| Reading { value, status };
            match number.strip_prefix('-') {
                Some(below) => {
                    let below = parse_number(below).filter(|&below| below > 0)?;
                    Answer::Minus(reading(below))
                }
                None => Answer::Value(reading(parse_number(number)?)),
            }
        }
        Some((word, number)) => {
            let number = parse_number(number)?;
            match word {
                "freed" => Answer::Freed(number.try_into().ok()?),
                "at" => Answer::At(number.try_into().ok()?),
                "no" => Answer::No(Refusal::from_number(number)?),
                _ => return None,
            }
        }
    })
}

/// Reads a whole log; the lines must be numbered from 0. An error says which line and why.
pub fn parse_log(text: &str) -> Result<Vec<Answer>, String> {
    let lines = text.lines().enumerate();
    lines
        .map(|(expected, line)| {
            let (number, words) = line.split_once(' ').unwrap_or((line, ""));
            if parse_number(number) != Some(expected as u64) {
                return Err(format!(
                    "log line {expected} does not begin with its number: {line:?}"
                ));
            }
            parse_answer(words)
                .ok_or_else(|| format!("log line {expected} has no answer of a log: {line:?}"))
        })
        .collect()
}

/// The answers to a whole file, with the list that is lent with each record: sixteen bytes a record, a
/// rest of 1 to 15 bytes as one more.
pub fn answers<F: Fault, O: Observer>(
    hub: &mut Hub<F, O>,
    file: &[u8],
    list: &[u8],
) -> Vec<Answer> {
    file.chunks(record::LENGTH).map(|bytes| hub.take(bytes, list)).collect()
}

/// The log of a whole file, as text.
pub fn log_text(answers: &[Answer]) -> Vec<u8> {
    let mut text = Vec::new();
    let mut number = Decimal::default();
    for &answer in answers {
        append_line(&mut text, &number, answer);
        number.increment();
    }
    text
}

/// Why a run ends early.
#[derive(Debug)]
pub enum Failure {
    Read(io::Error),
    Write(io::Error),
}

/// Fills the buffer as far as one read goes; 0 at the end of the input.
fn read_some(input: &mut impl Read, buffer: &mut [u8]) -> io::Result<usize> {
    loop {
        match input.read(buffer) {
            Err(error) if error.kind() == io::ErrorKind::Interrupted => {}
            result => return result,
        }
    }
}

/// Reads records in pieces of any size and writes the log; each piece's lines go out before the
/// next is read. `each` sees every answer. Only the end of the input makes a rest of 1 to 15 bytes
/// a record: where a read fails it is none.
pub fn run<F: Fault, O: Observer>(
    hub: &mut Hub<F, O>,
    list: &[u8],
    input: &mut impl Read,
    output: &mut impl Write,
    mut each: impl FnMut(&mut Hub<F, O>, Answer),
) -> Result<(), Failure> {
    let mut buffer = vec![0; PIECE];
    let mut text = Vec::with_capacity(PIECE);
    let mut number = Decimal::default();
    let mut held = 0;
    loop {
        let got = read_some(input, &mut buffer[held..]).map_err(Failure::Read)?;
        let filled = held + got;
        let mut records = buffer[..filled].chunks_exact(record::LENGTH);
        for bytes in &mut records {
            let answer = hub.take(bytes, list);
            each(hub, answer);
            append_line(&mut text, &number, answer);
            number.increment();
        }
        let rest = records.remainder();
        if got == 0 && !rest.is_empty() {
            let answer = hub.take(rest, list);
            each(hub, answer);
            append_line(&mut text, &number, answer);
        }
        output.write_all(&text).and_then(|()| output.flush()).map_err(Failure::Write)?;
        text.clear();
        if got == 0 {
            return Ok(());
        }
        held = rest.len();
        buffer.copy_within(filled - held..filled, 0);
    }
}
