//! The logs of two programs on one file, read side by side.

use crate::process::{Input, Logging};
use std::path::PathBuf;

/// The words that answers begin with. Their first letters differ but for `none` and `no`, which the
/// third letter tells apart.
pub const WORDS: [&str; 8] = ["ok", "going", "freed", "at", "value", "none", "done", "no"];

/// Which of the words begins with this letter and has that third one?
fn word(first: u8, third: u8) -> Option<usize> {
    let none = (first, third) == (b'n', b'n');
    WORDS.iter().position(|&word| word.as_bytes()[0] == first && (word == "none") == none)
}

/// Two equal logs.
pub struct Logs {
    /// How many answers begin with each of the words.
    pub counts: [u64; WORDS.len()],
    /// Each program's greatest resident memory, in KiB.
    pub peaks: [u64; 2],
}

/// Counts a log's answers by their words.
#[derive(Default)]
struct Counter {
    counts: [u64; WORDS.len()],
    place: Place,
}

/// What the next byte of a log is part of.
#[derive(Clone, Copy, Default)]
enum Place {
    #[default]
    Number,
    FirstLetter,
    SecondLetter {
        first: u8,
    },
    ThirdLetter {
        first: u8,
    },
    Words,
}

impl Counter {
    fn read(&mut self, log: &[u8]) {
        for &byte in log {
            self.place = match (self.place, byte) {
                (Place::Number, b' ') => Place::FirstLetter,
                (Place::FirstLetter, first) => Place::SecondLetter { first },
                (Place::SecondLetter { first }, _) => Place::ThirdLetter { first },
                (Place::ThirdLetter { first }, third) => {
                    word(first, third).into_iter().for_each(|word| self.counts[word] += 1);
                    if third == b'\n' {
                        Place::Number
                    } else {
                        Place::Words
                    }
                }
                (Place::Words, b'\n') => Place::Number,
                (place, _) => place,
            };
        }
    }
}

/// Runs both programs on a file of so many records. An error says where the logs differ.
pub fn compare(programs: &[PathBuf; 2], input: &Input, records: usize) -> Result<Logs, String> {
    let file = input.file.display();
    let named = |error: std::io::Error| format!("{file}: {error}");
    let mut first = Logging::start(&programs[0], input)?;
    let mut second = Logging::start(&programs[1], input)?;
    let mut buffers = [vec![0; 1 << 16], vec![0; 1 << 16]];
    let mut counter = Counter::default();
    loop {
        let a = first.read(&mut buffers[0]).map_err(named)?;
        let b = second.read(&mut buffers[1]).map_err(named)?;
        let [a, b] = [&buffers[0][..a], &buffers[1][..b]];
        if a != b {
            let equal = a.iter().zip(b).take_while(|(a, b)| a == b).count();
            counter.read(&a[..equal]);
            let record = counter.counts.iter().sum::<u64>();
            return Err(format!("{file}: the logs differ near record {record}"));
        }
        if a.is_empty() {
            break;
        }
        counter.read(a);
    }
    let peaks = [first.peak, second.peak];
    let ended = first.end().map_err(named)? & second.end().map_err(named)?;
    let counts = counter.counts;
    if !ended || counts.iter().sum::<u64>() != records as u64 {
        return Err(format!("{file}: a program failed or the log is too short"));
    }
    Ok(Logs { counts, peaks })
}
