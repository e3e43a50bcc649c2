//! What the tests share: short names for records, scripts, lists and tables from text, runs to log
//! lines.
#![allow(dead_code)]

use reference::coverage::{Coverage, Observer};
use reference::fault::{Fault, Right};
use reference::generate::Script;
use reference::order::{self, Order, Violation};
use reference::record::LENGTH;
use reference::store::{Store, MAX_SLOTS, MAX_VALUE};
use reference::{log, text, Answer, Hub, Record, Refusal};

/// The records of a readable text.
pub fn records(script: &str) -> Vec<u8> {
    text::pack(script.as_bytes()).expect("a well-formed script")
}

/// The list of a readable text.
pub fn list(text: &str) -> Vec<u8> {
    text::pack_list(text.as_bytes()).expect("a well-formed list")
}

/// The table of a readable text.
pub fn table(text: &str) -> Vec<u8> {
    text::pack_table(text.as_bytes()).expect("a well-formed table")
}

/// The answers to a readable text, as words.
pub fn run(script: &str) -> Vec<String> {
    run_with("", script)
}

/// The same with the list of a readable text.
pub fn run_with(rows: &str, script: &str) -> Vec<String> {
    words(&log::answers(&mut Hub::new(), &records(script), &list(rows)))
}

/// Tells a hub whether its next record, of this number, comes before A1.
pub fn set_rule<F: Fault, O: Observer>(hub: &mut Hub<F, O>, number: usize, before: usize) {
    hub.max_value = if number < before { u64::MAX } else { MAX_VALUE };
}

/// The answers to a script whose first `before` records come before A1.
pub fn across<F: Fault>(script: &Script, before: usize) -> Vec<Answer> {
    taken_across(&mut Hub::<F>::with_row(usize::from(MAX_SLOTS)), script, before)
}

fn taken_across<F: Fault, O: Observer>(
    hub: &mut Hub<F, O>,
    script: &Script,
    before: usize,
) -> Vec<Answer> {
    script.give(hub);
    let records = script.records.chunks(LENGTH).enumerate();
    let answer = |(number, bytes)| {
        set_rule(hub, number, before);
        hub.take(bytes, &script.list)
    };
    records.map(answer).collect()
}

/// Answers as the log's words, without numbers.
pub fn words(answers: &[Answer]) -> Vec<String> {
    let word = |&answer| {
        let mut text = Vec::new();
        log::append_answer(&mut text, answer);
        String::from_utf8(text).expect("plain text")
    };
    answers.iter().map(word).collect()
}

/// A hub after a readable text, no record of which was refused on reading.
pub fn hub_after(script: &str) -> Hub {
    hub_with("", script)
}

/// The same with the list of a readable text.
pub fn hub_with(rows: &str, script: &str) -> Hub {
    let mut hub = Hub::new();
    for (index, bytes) in records(script).chunks(16).enumerate() {
        let answer = hub.take(bytes, &list(rows));
        let refused = Record::decode(bytes).is_ok_and(|record| record.refused_on_reading(answer));
        assert!(!refused, "record {index} of {script:?}: {answer:?}");
    }
    hub
}

/// The store of a hub that is set up.
pub fn store(hub: &Hub) -> &Store {
    hub.store().expect("set up")
}

/// Takes the records of a readable text and gives the last answer.
pub fn last(hub: &mut Hub, script: &str) -> Answer {
    let answers = log::answers(hub, &records(script), &[]);
    *answers.last().expect("a record")
}

/// Refused with this number.
pub fn no(number: u64) -> Answer {
    Answer::No(Refusal::from_number(number).expect("a refusal"))
}

/// The answers to a script whose first `before` records come before A1, with counts of what was
/// reached.
pub fn covered(script: &Script, before: usize) -> (Vec<Answer>, Coverage) {
    let mut hub = Hub::<Right, Coverage>::with_row(usize::from(MAX_SLOTS));
    let answers = taken_across(&mut hub, script, before);
    answers.iter().for_each(|&answer| hub.observer.answered(answer));
    (answers, hub.observer)
}

/// The order of a readable text, with some of the hub's answers replaced, and its violation.
pub fn examined(script: &str, replaced: &[(usize, &str)]) -> (Order, Option<Violation>) {
    examined_with("", script, replaced)
}

/// The same with the list of a readable text.
pub fn examined_with(
    rows: &str,
    script: &str,
    replaced: &[(usize, &str)],
) -> (Order, Option<Violation>) {
    let (file, list) = (records(script), list(rows));
    let mut answers = log::answers(&mut Hub::new(), &file, &list);
    for &(record, words) in replaced {
        answers[record] = log::parse_answer(words).expect("an answer");
    }
    order::examine(&file, &list, &[], &answers)
}

/// A file of the samples.
pub fn sample(name: &str) -> String {
    let path = format!("{}/../samples/{name}", env!("CARGO_MANIFEST_DIR"));
    std::fs::read_to_string(&path).unwrap_or_else(|error| panic!("{path}: {error}"))
}
