//! Readable text for record files, lists and tables, and back: any file unpacks and packs to the same
//! bytes.
//!
//! One command a line; `#` begins a comment, blank lines are skipped:
//!
//! ```text
//! setup P V N CLOCK
//! put WORKER REGISTER VALUE [STATUS]
//! open WORKER
//! read WORKER REGISTER
//! close WORKER
//! get WORKER REGISTER
//! collect WORKER
//! step WORKER [xCOUNT]
//! total WORKER GROUP
//! mark WORKER MARK
//! release WORKER MARK
//! marked WORKER REGISTER MARK
//! bytes HEX...
//! ```
//!
//! `bytes` gives a record by its bytes, fewer than sixteen only as the last command. Unpacking writes
//! it for a record that its bytes alone refuse, with 6, 1 or 2, and the reason as a comment. A put
//! of any value and status is a `put`: whether it gets 16, 25 or a refusal before them is the hub's
//! question. A status is `read`, `estimated`, `corrected` or a number from 0 to 255; without one it is
//! `read`. Unpacking leaves `read` out and has numbers from 3 on.
//!
//! A list has one row a line, with comments and blank lines as above:
//!
//! ```text
//! GROUP + REGISTER
//! GROUP - REGISTER
//! bytes HEX...
//! ```
//!
//! `bytes` gives a row by its bytes, fewer than four only as the last row. Unpacking writes it for a
//! row whose length or sign is none, and says in a comment why a row makes a setup get 5.
//!
//! A table of rights has one row a line too:
//!
//! ```text
//! worker WORKER RIGHT... registers FIRST to LAST
//! bytes HEX...
//! ```
//!
//! The rights are `put`, `read`, `collect` and `marks`, each at most once, or `nothing`. `bytes` gives a
//! row by its bytes, fewer than eight only as the last row. Unpacking writes it for a row whose length,
//! rights or last two bytes are none, and says in a comment why a row makes the table get 24.

use crate::answer::Refusal;
use crate::fault::Right;
use crate::list::{self, Row, Tests, Unfit};
use crate::reading::{Reading, CORRECTED, ESTIMATED, READ};
use crate::record::{Record, LENGTH};
use crate::rights;
use crate::store::MAX_REGISTERS;
use std::fmt::{self, Write};

/// Most repetitions that one line may ask for.
pub const MAX_REPEAT: usize = 1_000_000;

/// Why a text was not packed.
#[derive(Clone, Debug, PartialEq, Eq)]
pub struct PackError {
    /// Counted from 1.
    pub line: usize,
    pub reason: String,
}

impl fmt::Display for PackError {
    fn fmt(&self, f: &mut fmt::Formatter) -> fmt::Result {
        write!(f, "line {}: {}", self.line, self.reason)
    }
}

impl std::error::Error for PackError {}

/// Turns text into a record file.
pub fn pack(text: &[u8]) -> Result<Vec<u8>, PackError> {
    pack_lines(text, LENGTH, "commands", append_command)
}

/// Turns text into a list.
pub fn pack_list(text: &[u8]) -> Result<Vec<u8>, PackError> {
    pack_lines(text, list::LENGTH, "rows", append_row)
}

/// Turns text into a table of rights.
pub fn pack_table(text: &[u8]) -> Result<Vec<u8>, PackError> {
    pack_lines(text, rights::LENGTH, "rows", append_right)
}

/// Appends each line's bytes, which are so many but for the last line that has any.
fn pack_lines(
    text: &[u8],
    length: usize,
    what: &str,
    append: fn(&mut Vec<u8>, &[&str]) -> Result<(), String>,
) -> Result<Vec<u8>, PackError> {
    let mut file = Vec::new();
    let mut short_line = None;
    for (index, line) in text.split(|&byte| byte == b'\n').enumerate() {
        let line_number = index + 1;
        let error = |reason| PackError { line: line_number, reason };
        let line = std::str::from_utf8(line).map_err(|_| error("not UTF-8 text".to_string()))?;
        let command = line.split('#').next().unwrap_or_default();
        let words: Vec<&str> = command.split_whitespace().collect();
        if words.is_empty() {
            continue;
        }
        if let Some(short) = short_line {
            return Err(PackError {
                line: short,
                reason: format!("fewer than {length} bytes, but more {what} follow"),
            });
        }
        append(&mut file, &words).map_err(error)?;
        if file.len() % length != 0 {
            short_line = Some(line_number);
        }
    }
    Ok(file)
}

/// Appends one command's bytes.
fn append_command(file: &mut Vec<u8>, words: &[&str]) -> Result<(), String> {
    let mut repeat = 1;
    let record = match *words {
        ["setup", workers, registers, slots, clock] => Record::Setup {
            workers: number(workers, "number of workers")?,
            registers: number(registers, "number of registers")?,
            slots: number(slots, "number of slots")?,
            clock: number(clock, "clock")?,
        },
        ["put", worker, register, value] => put(worker, register, value, READ)?,
        ["put", worker, register, value, status] => {
            put(worker, register, value, status_of(status)?)?
        }
        ["open", worker] => Record::Open { worker: number(worker, "worker")? },
        ["read", worker, register] => Record::Read {
            worker: number(worker, "worker")?,
            register: number(register, "register")?,
        },
        ["close", worker] => Record::Close { worker: number(worker, "worker")? },
        ["get", worker, register] => Record::Get {
            worker: number(worker, "worker")?,
            register: number(register, "register")?,
        },
        ["collect", worker] => Record::Collect { worker: number(worker, "worker")? },
        ["step", worker] => Record::Step { worker: number(worker, "worker")? },
        ["step", worker, times] => {
            repeat = repetition(times)?;
            Record::Step { worker: number(worker, "worker")? }
        }
        ["total", worker, group] => {
            Record::Total { worker: number(worker, "worker")?, group: number(group, "group")? }
        }
        ["mark", worker, mark] => {
            Record::Mark { worker: number(worker, "worker")?, mark: number(mark, "mark")? }
        }
        ["release", worker, mark] => {
            Record::Release { worker: number(worker, "worker")?, mark: number(mark, "mark")? }
        }
        ["marked", worker, register, mark] => Record::Marked {
            worker: number(worker, "worker")?,
            register: number(register, "register")?,
            mark: number(mark, "mark")?,
        },
        ["bytes", ref hex @ ..] => {
            file.extend(hex_bytes(hex, LENGTH, "record")?);
            return Ok(());
        }
        [name, ..] => return Err(usage(name)),
        [] => return Ok(()),
    };
    let bytes = record.encode();
    (0..repeat).for_each(|_| file.extend_from_slice(&bytes));
    Ok(())
}

fn put(worker: &str, register: &str, value: &str, status: u8) -> Result<Record, String> {
    Ok(Record::Put {
        worker: number(worker, "worker")?,
        register: number(register, "register")?,
        reading: Reading { value: number(value, "value")?, status },
    })
}

/// The statuses with their words.
const STATUSES: [(u8, &str); 3] =
    [(READ, "read"), (ESTIMATED, "estimated"), (CORRECTED, "corrected")];

/// The status of a word or a number.
fn status_of(word: &str) -> Result<u8, String> {
    let named = STATUSES.iter().find(|(_, name)| *name == word).map(|&(status, _)| status);
    let number = || decimal(word).and_then(|number| u8::try_from(number).ok());
    named.or_else(number).ok_or_else(|| {
        format!("status {word:?} is not read, estimated, corrected or a number from 0 to 255")
    })
}

/// Appends one row's bytes.
fn append_row(list: &mut Vec<u8>, words: &[&str]) -> Result<(), String> {
    match *words {
        [group, sign @ ("+" | "-"), register] => {
            let row = Row {
                group: number(group, "group")?,
                minus: sign == "-",
                register: number(register, "register")?,
            };
            list.extend(row.encode());
        }
        ["bytes", ref hex @ ..] => list.extend(hex_bytes(hex, list::LENGTH, "row")?),
        _ => return Err("not of the form: GROUP + REGISTER or GROUP - REGISTER".to_string()),
    }
    Ok(())
}

/// Appends one row of a table.
fn append_right(table: &mut Vec<u8>, words: &[&str]) -> Result<(), String> {
    match *words {
        ["worker", worker, ref rights @ .., "registers", first, "to", last] => {
            let row = rights::Row {
                worker: number(worker, "worker")?,
                rights: right_bits(rights)?,
                first: number(first, "register")?,
                last: number(last, "register")?,
            };
            table.extend(row.encode());
        }
        ["bytes", ref hex @ ..] => table.extend(hex_bytes(hex, rights::LENGTH, "row")?),
        _ => {
            let form = "not of the form: worker WORKER RIGHT... registers FIRST to LAST";
            return Err(form.to_string());
        }
    }
    Ok(())
}

/// The rights with their words, in the order in which they are written.
const RIGHTS: [(u8, &str); 4] = [
    (rights::PUT, "put"),
    (rights::READ, "read"),
    (rights::COLLECT, "collect"),
    (rights::MARKS, "marks"),
];

/// The sum of these rights.
fn right_bits(words: &[&str]) -> Result<u8, String> {
    if words == ["nothing"] {
        return Ok(0);
    }
    if words.is_empty() {
        return Err("no right, where `nothing` gives none".to_string());
    }
    let mut bits = 0;
    for word in words {
        let Some(&(bit, _)) = RIGHTS.iter().find(|(_, name)| name == word) else {
            return Err(format!("{word:?} is not one of put, read, collect, marks"));
        };
        if bits & bit != 0 {
            return Err(format!("{word} twice"));
        }
        bits |= bit;
    }
    Ok(bits)
}

/// A field that does not fit its bytes cannot be written.
fn number<T: TryFrom<u64>>(word: &str, what: &str) -> Result<T, String> {
    let number = decimal(word).and_then(|number| T::try_from(number).ok());
    number.ok_or_else(|| {
        let greatest = u64::MAX >> (64 - 8 * size_of::<T>());
        format!("{what} {word:?} is not a number from 0 to {greatest}")
    })
}

/// A number in digits, without a sign.
fn decimal(word: &str) -> Option<u64> {
    let digits = word.bytes().all(|byte| byte.is_ascii_digit());
    digits.then(|| word.parse().ok()).flatten()
}

fn repetition(word: &str) -> Result<usize, String> {
    let count = word.strip_prefix('x').and_then(decimal);
    count
        .and_then(|count| usize::try_from(count).ok())
        .filter(|count| (1..=MAX_REPEAT).contains(count))
        .ok_or_else(|| format!("repetition {word:?} is not x1 to x{MAX_REPEAT}"))
}

/// One byte to so many, each two hexadecimal digits; spaces between bytes are free.
fn hex_bytes(words: &[&str], length: usize, what: &str) -> Result<Vec<u8>, String> {
    let mut bytes = Vec::with_capacity(length);
    for word in words {
        let digits = word.chars().map(|c| c.to_digit(16).map(|digit| digit as u8));
        let digits: Option<Vec<u8>> = digits.collect();
        match digits {
            Some(digits) if digits.len() % 2 == 0 => {
                bytes.extend(digits.chunks(2).map(|pair| pair[0] << 4 | pair[1]));
            }
            _ => return Err(format!("{word:?} is not pairs of hexadecimal digits")),
        }
    }
    if (1..=length).contains(&bytes.len()) {
        Ok(bytes)
    } else {
        Err(format!("{} bytes where a {what} has 1 to {length}", bytes.len()))
    }
}

fn usage(name: &str) -> String {
    let form = match name {
        "setup" => "setup P V N CLOCK",
        "put" => "put WORKER REGISTER VALUE [STATUS]",
        "open" => "open WORKER",
        "read" => "read WORKER REGISTER",
        "close" => "close WORKER",
        "get" => "get WORKER REGISTER",
        "collect" => "collect WORKER",
        "step" => "step WORKER [xCOUNT]",
        "total" => "total WORKER GROUP",
        "mark" => "mark WORKER MARK",
        "release" => "release WORKER MARK",
        "marked" => "marked WORKER REGISTER MARK",
        _ => {
            return format!(
                "unknown command {name:?}, not one of setup, put, open, read, close, get, \
                collect, step, total, mark, release, marked, bytes"
            )
        }
    };
    format!("not of the form: {form}")
}

/// Turns a record file into text. Steps of one worker in a row become one line.
pub fn unpack(file: &[u8]) -> String {
    let mut text = String::new();
    let mut records = file.chunks(LENGTH).peekable();
    while let Some(bytes) = records.next() {
        match Record::decode(bytes) {
            Ok(Record::Step { worker }) => {
                let mut repeat = 1;
                while repeat < MAX_REPEAT && records.next_if_eq(&bytes).is_some() {
                    repeat += 1;
                }
                match repeat {
                    1 => writeln!(text, "step {worker}"),
                    _ => writeln!(text, "step {worker} x{repeat}"),
                }
            }
            Ok(record) => write_command(&mut text, record),
            Err(refusal) => write_bytes(&mut text, bytes, refusal),
        }
        .expect("writing to a string");
    }
    text
}

fn write_command(text: &mut String, record: Record) -> fmt::Result {
    match record {
        Record::Setup { workers, registers, slots, clock } => {
            writeln!(text, "setup {workers} {registers} {slots} {clock}")
        }
        Record::Put { worker, register, reading: Reading { value, status } } => {
            write!(text, "put {worker} {register} {value}")?;
            match STATUSES.iter().find(|&&(known, _)| known == status) {
                Some((READ, _)) => writeln!(text),
                Some((_, name)) => writeln!(text, " {name}"),
                None => writeln!(text, " {status}"),
            }
        }
        Record::Open { worker } => writeln!(text, "open {worker}"),
        Record::Read { worker, register } => writeln!(text, "read {worker} {register}"),
        Record::Close { worker } => writeln!(text, "close {worker}"),
        Record::Get { worker, register } => writeln!(text, "get {worker} {register}"),
        Record::Collect { worker } => writeln!(text, "collect {worker}"),
        Record::Step { worker } => writeln!(text, "step {worker}"),
        Record::Total { worker, group } => writeln!(text, "total {worker} {group}"),
        Record::Mark { worker, mark } => writeln!(text, "mark {worker} {mark}"),
        Record::Release { worker, mark } => writeln!(text, "release {worker} {mark}"),
        Record::Marked { worker, register, mark } => {
            writeln!(text, "marked {worker} {register} {mark}")
        }
    }
}

fn write_bytes(text: &mut String, bytes: &[u8], refusal: Refusal) -> fmt::Result {
    write_hex(text, bytes)?;
    let reason = match refusal {
        Refusal::Length => "fewer than 16 bytes",
        Refusal::Operation => "operation above 11",
        _ => "an unused byte is not zero",
    };
    writeln!(text, "  # refused with {}: {reason}", refusal.number())
}

fn write_hex(text: &mut String, bytes: &[u8]) -> fmt::Result {
    write!(text, "bytes")?;
    bytes.iter().try_for_each(|byte| write!(text, " {byte:02x}"))
}

/// Turns a list into text. What makes it none for every V stands in comments.
pub fn unpack_list(list: &[u8]) -> String {
    let mut text = String::new();
    let mut tests = Tests::default();
    for bytes in list.chunks(list::LENGTH) {
        let row = Row::decode::<Right>(bytes);
        let fits = row.and_then(|row| tests.row::<Right>(row, MAX_REGISTERS));
        write_row(&mut text, bytes, row, fits.err()).expect("writing to a string");
    }
    text
}

fn write_row(
    text: &mut String,
    bytes: &[u8],
    row: Result<Row, Unfit>,
    unfit: Option<Unfit>,
) -> fmt::Result {
    match row {
        Ok(Row { group, minus, register }) => {
            write!(text, "{group} {} {register}", if minus { '-' } else { '+' })?;
        }
        Err(_) => write_hex(text, bytes)?,
    }
    match unfit {
        Some(reason) => writeln!(text, "  # refused with 5: {reason}"),
        None => writeln!(text),
    }
}

/// Turns a table into text. What makes it none stands in comments.
pub fn unpack_table(table: &[u8]) -> String {
    let mut text = String::new();
    for (before, bytes) in table.chunks(rights::LENGTH).enumerate() {
        let row = rights::Row::decode::<Right>(bytes);
        let fits = row.and_then(|row| row.test::<Right>(before));
        write_right(&mut text, bytes, row.ok(), fits.err()).expect("writing to a string");
    }
    text
}

fn write_right(
    text: &mut String,
    bytes: &[u8],
    row: Option<rights::Row>,
    unfit: Option<rights::Unfit>,
) -> fmt::Result {
    match row {
        Some(rights::Row { worker, rights, first, last }) => {
            write!(text, "worker {worker}")?;
            let given = RIGHTS.iter().filter(|(bit, _)| rights & bit != 0);
            given.into_iter().try_for_each(|(_, word)| write!(text, " {word}"))?;
            let nothing = if rights == 0 { " nothing" } else { "" };
            write!(text, "{nothing} registers {first} to {last}")?;
        }
        None => write_hex(text, bytes)?,
    }
    match unfit {
        Some(reason) => writeln!(text, "  # refused with 24: {reason}"),
        None => writeln!(text),
    }
}
