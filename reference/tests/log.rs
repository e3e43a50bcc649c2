//! The log: document 01's example byte for byte, pieces of any size, rests, the words.

use crate::common;

use common::records;
use reference::generate::{script, Kind, Random};
use reference::log::{self, Decimal, Failure};
use reference::{Answer, Hub, Reading, Refusal};
use std::io::{self, Read};

const EXAMPLE: &str = "
    setup 1 1 2 1
    put 0 0 7
    step 0 x8
    put 0 0 9
    step 0
    collect 0
    step 0 x6";

fn log_of(file: &[u8]) -> String {
    let mut output = Vec::new();
    log::run(&mut Hub::new(), &[], &mut &file[..], &mut output, |_, _| {}).unwrap();
    String::from_utf8(output).unwrap()
}

/// With A3's step in each of its two flushes.
#[test]
fn example_of_document_01() {
    let expected = "0 ok\n1 ok\n2 going\n3 going\n4 going\n5 going\n6 going\n7 going\n8 going\n\
        9 done\n10 ok\n11 no 14\n12 ok\n13 going\n14 going\n15 going\n16 going\n17 freed 0\n\
        18 done\n";
    assert_eq!(log_of(&records(EXAMPLE)), expected);
}

/// Hands out its bytes in pieces of random sizes.
struct Pieces<'a>(&'a [u8], Random);

impl Read for Pieces<'_> {
    fn read(&mut self, buffer: &mut [u8]) -> io::Result<usize> {
        if self.1.chance(100) {
            return Err(io::ErrorKind::Interrupted.into());
        }
        let most = self.0.len().min(buffer.len());
        let length = if self.1.chance(50) { most } else { most.min(1 + self.1.below(40) as usize) };
        buffer[..length].copy_from_slice(&self.0[..length]);
        self.0 = &self.0[length..];
        Ok(length)
    }
}

#[test]
fn pieces_of_any_size_give_one_log() {
    for seed in 0..20 {
        let script = script(Kind::Tails, seed, 12_000);
        let mut output = Vec::new();
        let mut pieces = Pieces(&script.records, Random::new(seed));
        let mut hub = Hub::new();
        script.give(&mut hub);
        log::run(&mut hub, &script.list, &mut pieces, &mut output, |_, _| {}).unwrap();
        assert_eq!(output, log::log_text(&script.answers()));
    }
}

/// Ends in an error where others end.
struct Broken<'a>(&'a [u8]);

impl Read for Broken<'_> {
    fn read(&mut self, buffer: &mut [u8]) -> io::Result<usize> {
        match self.0.read(buffer)? {
            0 => Err(io::ErrorKind::ConnectionReset.into()),
            length => Ok(length),
        }
    }
}

#[test]
fn a_read_that_fails_makes_no_record_of_a_rest() {
    let file = records("setup 1 1 1 1\n get 0 0");
    for length in 0..=file.len() {
        let mut output = Vec::new();
        let mut input = Broken(&file[..length]);
        let result = log::run(&mut Hub::new(), &[], &mut input, &mut output, |_, _| {});
        assert!(matches!(result, Err(Failure::Read(_))), "{length}");
        assert_eq!(String::from_utf8(output).unwrap(), ["", "0 ok\n", "0 ok\n1 ok\n"][length / 16]);
    }
}

#[test]
fn empty_file_prints_nothing() {
    assert_eq!(log_of(&[]), "");
}

#[test]
fn a_rest_of_a_record_gets_6() {
    for length in 1..16 {
        assert_eq!(log_of(&vec![0; length]), "0 no 6\n");
        let mut file = records("setup 1 1 1 1");
        file.extend(vec![7; length]);
        assert_eq!(log_of(&file), "0 ok\n1 no 6\n");
    }
}

#[test]
fn numbers_of_lines() {
    let mut number = Decimal::default();
    for expected in 0..1_100_000 {
        assert_eq!(number.digits(), expected.to_string().as_bytes());
        number.increment();
    }
}

#[test]
fn words_both_ways() {
    let mut answers = vec![Answer::Ok, Answer::Going, Answer::Done, Answer::None];
    answers.extend([0, 1, 9, 10, 2047].map(Answer::Freed));
    answers.extend([1, 5, 4294967294].map(Answer::At));
    let readings = |value| [0, 1, 2].map(|status| Reading { value, status });
    answers.extend([0, 7, 1 << 63, u64::MAX].into_iter().flat_map(readings).map(Answer::Value));
    answers.extend([1, 5, 31_999_999_999_968].into_iter().flat_map(readings).map(Answer::Minus));
    // No hub shows these, and a log that does can be read.
    answers.extend([3, 9, 10, 255].map(|status| Answer::value(7, status)));
    answers.extend(Refusal::ALL.map(Answer::No));
    let text = String::from_utf8(log::log_text(&answers)).unwrap();
    assert!(text.starts_with("0 ok\n1 going\n2 done\n3 none\n4 freed 0\n"));
    assert!(text.contains("23 value 18446744073709551615 2\n24 value -1 0\n25 value -1 1\n"));
    assert!(text.contains(" value 7 10\n") && text.contains(" value 7 255\n"), "{text}");
    let lines = answers.iter().enumerate();
    assert_eq!(text, lines.map(|(n, answer)| format!("{n} {answer}\n")).collect::<String>());
    assert_eq!(log::parse_log(&text), Ok(answers));
}

#[test]
fn what_is_no_log() {
    for text in [
        "0 yes\n",
        "1 ok\n",
        "0  ok\n",
        "0 ok \n",
        "0 freed\n",
        "0 freed 01\n",
        "0 no 26\n",
        "0 none 0\n",
        "0 None\n",
        "0 value\n",
        "0 value 5\n",
        "0 value -5\n",
        "0 value 5 \n",
        "0 value 5  0\n",
        "0 value 5 00\n",
        "0 value 5 256\n",
        "0 value 5 -1\n",
        "0 value 5 0 0\n",
        "0 value  0\n",
        "0 value - 0\n",
        "0 value -0 0\n",
        "0 value -05 0\n",
        "0 value - 5 0\n",
        "0 value --5 0\n",
        "0 value +5 0\n",
        "0 at -5\n",
        "0 freed -1\n",
        "0 no -1\n",
        "ok\n",
    ] {
        assert!(log::parse_log(text).is_err(), "{text:?}");
    }
}
