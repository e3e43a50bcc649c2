//! A1: a put above 999999999999 gets 16, and values that were stored before it stay, are shown and are
//! freed like the others.

use crate::common;

use common::{across, last, no, records, run, set_rule, words};
use reference::fault::Right;
use reference::generate::{script_across, Kind, Script};
use reference::order;
use reference::record::LENGTH;
use reference::store::{Doing, Store, MAX_VALUE};
use reference::{Answer, Hub, Reading, Record};

const WITHIN: [u64; 5] = [0, 1, 549_755_813_888, 999_999_999_998, 999_999_999_999];

const ABOVE: [u64; 9] = [
    1_000_000_000_000,
    1_000_000_000_001,
    1 << 40,
    1 << 40 | 7,
    1 << 48 | 7,
    9_999_999_999_999,
    1 << 63,
    u64::MAX - 1,
    u64::MAX,
];

#[test]
fn puts_up_to_the_limit_are_accepted() {
    for value in WITHIN {
        let script = format!("setup 2 1 2 1\n put 0 0 {value}\n step 0 x3\n get 1 0\n step 1");
        let shown = format!("value {value} 0");
        assert_eq!(run(&script), ["ok", "ok", "going", "going", "done", "ok", &shown]);
    }
}

/// Whatever the worker does, and nothing changes.
#[test]
fn puts_above_the_limit_are_refused() {
    for before in ["", "put 0 0 7", "put 0 0 7\n step 0", "open 0\n step 0", "collect 0", "get 0 0"]
    {
        for value in ABOVE {
            let mut hub = common::hub_after(&format!("setup 2 1 2 1\n {before}"));
            let store = common::store(&hub).clone();
            assert_eq!(last(&mut hub, &format!("put 0 0 {value}")), no(16), "{before:?}, {value}");
            assert_eq!(common::store(&hub), &store, "{before:?}, {value}");
        }
    }
    // Nor is there a put to step, or a value to show.
    let script = "setup 1 1 2 1\n put 0 0 1000000000000\n step 0\n get 0 0\n step 0";
    assert_eq!(run(script), ["ok", "no 16", "no 11", "ok", "none"]);
}

/// 16 is about puts: no other record has a value.
#[test]
fn other_records_have_no_value() {
    for operation in [0, 2, 3, 4, 5, 6, 7, 8, 9, 10, 11] {
        let mut bytes = [0xff; LENGTH];
        bytes[..8].copy_from_slice(&[operation, 0, 0, 0, 0, 0, 0, 0]);
        let mut hub = common::hub_after("setup 1 1 1 1");
        assert_eq!(hub.take(&bytes, &[]), no(2), "operation {operation}");
    }
}

/// The words of two texts, the first from before A1; demand 3 holds of both together.
fn words_across(before: &str, after: &str) -> Vec<String> {
    let (before, after) = (records(before), records(after));
    let number = before.len() / LENGTH;
    let script = Script::plain([before, after].concat());
    let answers = across::<Right>(&script, number);
    order::check(&script.records, &[], &[], &answers).expect("in order");
    words(&answers[number..])
}

#[test]
fn larger_values_from_before_are_shown_by_get_and_read() {
    for value in ABOVE {
        let before = format!("setup 3 1 4 1\n put 0 0 {value}\n step 0 x3\n open 1\n step 1 x2");
        let shown = format!("value {value} 0");
        let at_once = "get 0 0\n step 0\n read 1 0\n step 1 x2";
        assert_eq!(words_across(&before, at_once), ["ok", &shown, "ok", "going", &shown]);
        // Another such put is refused; a smaller one covers the version, which the snapshot sees.
        let covered = format!(
            "put 0 0 {value}\n put 0 0 5\n step 0 x3\n get 0 0\n step 0\n read 1 0\n step 1 x3"
        );
        let expected = [
            "no 16",
            "ok",
            "going",
            "going",
            "done",
            "ok",
            "value 5 0",
            "ok",
            "going",
            "going",
            &shown,
        ];
        assert_eq!(words_across(&before, &covered), expected);
    }
}

#[test]
fn larger_values_from_before_are_freed() {
    // Slot 1 has the value; the put of 5 covers it and hands it in, and a collect frees it.
    let before = "setup 1 1 3 1\n put 0 0 18446744073709551615\n step 0 x8";
    let after = "put 0 0 5\n step 0 x9\n collect 0\n step 0 x6\n get 0 0\n step 0";
    let expected = [
        "ok",
        "going",
        "going",
        "going",
        "going",
        "going",
        "going",
        "going",
        "freed 0",
        "done",
        "ok",
        "going",
        "going",
        "going",
        "going",
        "freed 1",
        "done",
        "ok",
        "value 5 0",
    ];
    assert_eq!(words_across(before, after), expected);
    // Under a snapshot that needs it, it stays; after the close it goes.
    let before = format!("{before}\n open 0\n step 0 x2");
    let after = "put 0 0 5\n step 0 x9\n collect 0\n step 0 x5\n read 0 0\n step 0 x3\n close 0
        step 0\n collect 0\n step 0 x6";
    let expected = [
        "ok",
        "going",
        "going",
        "going",
        "going",
        "going",
        "going",
        "going",
        "freed 0",
        "done",
        "ok",
        "going",
        "going",
        "going",
        "going",
        "done",
        "ok",
        "going",
        "going",
        "value 18446744073709551615 0",
        "ok",
        "done",
        "ok",
        "going",
        "going",
        "going",
        "going",
        "freed 1",
        "done",
    ];
    assert_eq!(words_across(&before, after), expected);
}

/// A put that began before A1 is part of the memory that records left.
#[test]
fn a_put_from_before_goes_on() {
    for steps in 0..3 {
        let before =
            format!("setup 2 1 2 1\n put 0 0 1000000000000\n {}", "step 0\n".repeat(steps));
        let after = format!("{}get 0 0\n step 0", "step 0\n".repeat(3 - steps));
        let expected = ["going", "going", "done", "ok", "value 1000000000000 0"];
        assert_eq!(words_across(&before, &after), expected[steps..]);
    }
}

/// What became of values above the limit after A1.
#[derive(Debug, Default)]
struct Met {
    refused: usize,
    got: usize,
    read: usize,
    freed: usize,
    /// First steps of puts that began before.
    published: usize,
    /// Puts within the limit over a version above it.
    covered: usize,
}

impl Met {
    /// Sees a record that was taken after A1, with the store before it.
    fn see(&mut self, store: &Store, record: Record, answer: Answer) {
        let above = |reading: Reading| usize::from(reading.value > MAX_VALUE);
        let stored = |slot: u16| usize::from(store.slots[usize::from(slot)].is_above(MAX_VALUE));
        let worker = match record {
            Record::Step { worker } => store.workers.get(usize::from(worker)),
            Record::Put { reading, .. } if answer == no(16) => {
                return self.refused += above(reading)
            }
            _ => None,
        };
        match (worker.map(|worker| worker.doing), answer) {
            (Some(Doing::Get { .. }), Answer::Value(reading)) => self.got += above(reading),
            (Some(Doing::ReadAt { .. }), Answer::Value(reading)) => self.read += above(reading),
            (Some(Doing::PutPublish { reading, .. }), Answer::Going) if above(reading) > 0 => {
                self.published += 1;
            }
            (Some(Doing::PutPublish { register, .. }), Answer::Going) => {
                self.covered += stored(store.newest[usize::from(register)]);
            }
            (Some(Doing::FlushFree { .. }), Answer::Freed(slot)) => self.freed += stored(slot),
            _ => {}
        }
    }

    /// Takes a script whose first `before` records come before A1.
    fn follow(&mut self, script: &Script, before: usize) -> Vec<Answer> {
        let mut hub = Hub::new();
        script.give(&mut hub);
        let take = |(number, bytes)| {
            set_rule(&mut hub, number, before);
            let store = hub.store().filter(|_| number >= before).cloned();
            let answer = hub.take(bytes, &script.list);
            if let (Some(store), Ok(record)) = (store, Record::decode(bytes)) {
                self.see(&store, record, answer);
            }
            answer
        };
        script.records.chunks(LENGTH).enumerate().map(take).collect()
    }
}

#[test]
fn random_scripts_come_over_from_before() {
    let mut met = Met::default();
    for (kind, name) in Kind::ALL {
        for seed in 0..60 {
            let script = script_across(kind, 7000 + seed, 600, 300);
            let answers = met.follow(&script, 300);
            if let Err(violation) =
                order::check(&script.records, &script.list, &script.table, &answers)
            {
                panic!("{name} {seed}: {violation}");
            }
        }
    }
    let Met { refused, got, read, freed, published, covered } = met;
    let enough = refused > 1000 && got > 300 && read > 600 && freed > 1000 && published > 80;
    assert!(enough && covered > 600, "{met:?}");
}
