//! Each refusal in its case and in no other, and the order among them.

use crate::common;

use common::{last, no, records, run, words};
use reference::generate::{script, Kind, Script};
use reference::record::LENGTH;
use reference::store::{Doing, Store};
use reference::{Answer, Hub, Record, Refusal};
use std::collections::HashMap;

/// The order of the refusals on reading: document 01's, with 17 in the place of 4, 16 after 4, 25 after
/// 16, 23 after that and just before 10, and 19 to 21 after 13.
const ORDER: [u8; 19] = [6, 1, 2, 8, 9, 5, 3, 4, 17, 16, 25, 23, 10, 11, 12, 13, 19, 20, 21];

/// The bytes that operations 0 to 11 use.
const USED: [&[usize]; 12] = [
    &[0, 1, 2, 3, 4, 5, 8, 9, 10, 11],
    &[0, 1, 2, 3, 4, 8, 9, 10, 11, 12, 13, 14, 15],
    &[0, 1],
    &[0, 1, 2, 3],
    &[0, 1],
    &[0, 1, 2, 3],
    &[0, 1],
    &[0, 1],
    &[0, 1, 2, 3],
    &[0, 1, 2, 3],
    &[0, 1, 2, 3],
    &[0, 1, 2, 3, 4],
];

/// Is this a list for so many registers? The sentences of A2, one by one.
fn is_list(list: &[u8], registers: u64) -> bool {
    let rows: Vec<&[u8]> = list.chunks(4).collect();
    let group = |row: &[u8]| u64::from(row[0]);
    let register = |row: &[u8]| u64::from(row[2]) + 256 * u64::from(row[3]);
    list.len() % 4 == 0
        && rows.iter().all(|row| group(row) <= 31 && row[1] <= 1 && register(row) < registers)
        && rows.windows(2).all(|pair| group(pair[0]) <= group(pair[1]))
        && (0..32).all(|number| rows.iter().filter(|row| group(row) == number).count() <= 32)
}

/// Is this a table of rights? The sentences of A7, one by one.
fn is_table(table: &[u8]) -> bool {
    let rows: Vec<&[u8]> = table.chunks(8).collect();
    let two = |row: &[u8], place: usize| u64::from(row[place]) + 256 * u64::from(row[place + 1]);
    table.len() % 8 == 0
        && rows.len() <= 64
        && rows.iter().all(|row| row[0] <= 15 && row[1] <= 15 && two(row, 4) <= 255)
        && rows.iter().all(|row| two(row, 2) <= two(row, 4) && two(row, 6) == 0)
}

/// Is a record's operation allowed by a table, on this store? Straight from A7.
fn is_allowed(bytes: &[u8], table: &[u8], store: &Store) -> bool {
    let rows = || table.chunks(8).filter(|row| row[0] == bytes[1]);
    let has = |right: u8, register: u16| {
        let from_to = |row: &[u8]| u16::from(row[2])..=u16::from(row[4]);
        rows().any(|row| row[1] & right != 0 && from_to(row).contains(&register))
    };
    let register = u16::from(bytes[2]) + 256 * u16::from(bytes[3]);
    match bytes[0] {
        _ if table.is_empty() || !is_table(table) => true,
        1 => has(1, register),
        3 | 5 | 11 => has(2, register),
        6 => rows().any(|row| row[1] & 4 != 0),
        8 => store.groups.rows(register).iter().all(|row| has(2, row.register)),
        9 | 10 => (0..store.newest.len() as u16).all(|register| has(8, register)),
        _ => true,
    }
}

/// Every refusal that a record deserves by itself, straight from the tables.
fn deserved(bytes: &[u8], list: &[u8], table: &[u8], store: Option<&Store>) -> Vec<u8> {
    let mut numbers = Vec::new();
    if bytes.len() < LENGTH {
        return vec![6];
    }
    let operation = bytes[0];
    if operation > 11 {
        return vec![1];
    }
    let used = USED[usize::from(operation)];
    if (0..LENGTH).any(|place| bytes[place] != 0 && !used.contains(&place)) {
        numbers.push(2);
    }
    let two = |place| u64::from(bytes[place]) + 256 * u64::from(bytes[place + 1]);
    if operation == 0 {
        let (workers, registers, slots) = (u64::from(bytes[1]), two(2), two(4));
        let clock = two(8) + 65536 * two(10);
        if store.is_some() {
            numbers.push(9);
        }
        let fits = (1..=16).contains(&workers)
            && (1..=256).contains(&registers)
            && registers <= slots
            && slots <= 2048
            && clock >= 1
            && is_list(list, registers);
        if !fits {
            numbers.push(5);
        }
        return numbers;
    }
    let value = (8..16).rev().fold(0, |value, place| value << 8 | u64::from(bytes[place]));
    if operation == 1 && value > 999_999_999_999 {
        numbers.push(16);
    }
    if operation == 1 && bytes[4] > 2 {
        numbers.push(25);
    }
    let Some(store) = store else {
        numbers.push(8);
        return numbers;
    };
    if !is_allowed(bytes, table, store) {
        numbers.push(23);
    }
    let register_used = matches!(operation, 1 | 3 | 5 | 11);
    let mark = if operation == 11 { u64::from(bytes[4]) } else { two(2) };
    let of_mark = matches!(operation, 9..=11);
    if register_used && two(2) >= store.newest.len() as u64 || of_mark && mark > 11 {
        numbers.push(4);
    }
    if of_mark && mark <= 11 {
        numbers.extend(deserved_by_mark(operation, mark as u8, store));
    }
    // Which rows the hub has kept is held to the list by the tests of totals.
    if operation == 8 && store.groups.rows(two(2) as u16).is_empty() {
        numbers.push(17);
    }
    let Some(worker) = store.workers.get(usize::from(bytes[1])) else {
        numbers.push(3);
        return numbers;
    };
    let (idle, time) = (worker.doing == Doing::Idle, worker.announced.is_some());
    match operation {
        7 if idle => numbers.push(11),
        1..=6 | 8.. if !idle => numbers.push(10),
        _ => {}
    }
    match operation {
        2 if time => numbers.push(12),
        3 | 4 | 8 | 9 if !time => numbers.push(13),
        _ => {}
    }
    numbers
}

/// 19, 20 or 21, straight from A3.
fn deserved_by_mark(operation: u8, mark: u8, store: &Store) -> Option<u8> {
    let held = store.marks[usize::from(mark)].is_some();
    let of = |doing| matches!(doing, Doing::MarkedAt { mark: other, .. } if other == mark);
    let read = store.workers.iter().any(|worker| of(worker.doing));
    match operation {
        9 => held.then_some(19),
        10 if held => read.then_some(21),
        _ => (!held).then_some(20),
    }
}

#[test]
fn the_first_deserved_refusal_in_the_order() {
    let mut pairs = HashMap::new();
    for (kind, _) in Kind::ALL {
        for seed in 0..60 {
            let mut hub = Hub::new();
            let script = script(kind, 1000 + seed, 400);
            script.give(&mut hub);
            let Script { records, list, table } = script;
            for bytes in records.chunks(LENGTH) {
                let numbers = deserved(bytes, &list, &table, hub.store());
                let before = if numbers.is_empty() { None } else { hub.store().cloned() };
                let answer = hub.take(bytes, &list);
                let place = |number: &u8| ORDER.iter().position(|other| other == number);
                match numbers.iter().min_by_key(|number| place(number)) {
                    Some(&first) => {
                        assert_eq!(answer, no(u64::from(first)), "{bytes:?}");
                        assert!(before.as_ref() == hub.store(), "{bytes:?} changes the store");
                        for &other in &numbers {
                            *pairs.entry((first, other)).or_insert(0) += 1;
                        }
                    }
                    None => {
                        let record = Record::decode(bytes).expect("not refused with 6, 1 or 2");
                        assert!(!record.refused_on_reading(answer), "{bytes:?}: {answer:?}");
                    }
                }
            }
        }
    }
    // Records with two reasons were among them, for every pair that can meet in one record.
    for pair in [
        (2, 8),
        (2, 9),
        (2, 5),
        (2, 3),
        (2, 4),
        (2, 10),
        (2, 11),
        (2, 12),
        (2, 13),
        (9, 5),
        (3, 4),
        (4, 10),
        (4, 13),
        (10, 12),
        (10, 13),
    ] {
        assert!(pairs.contains_key(&pair), "{pair:?} did not meet");
    }
    for number in ORDER {
        assert!(pairs.contains_key(&(number, number)), "{number} was not met");
    }
    for (pair, least) in [
        ((2, 16), 200),
        ((8, 16), 30),
        ((3, 16), 200),
        ((4, 16), 200),
        ((16, 10), 500),
        ((16, 16), 1000),
        ((2, 25), 100),
        ((8, 25), 30),
        ((3, 25), 100),
        ((4, 25), 100),
        ((16, 25), 300),
        ((25, 23), 50),
        ((25, 10), 200),
        ((25, 25), 500),
        ((2, 17), 100),
        ((3, 17), 100),
        ((17, 10), 400),
        ((17, 13), 400),
        ((17, 17), 600),
        ((2, 19), 10),
        ((2, 20), 20),
        ((3, 20), 20),
        ((4, 10), 100),
        ((4, 13), 100),
        ((4, 20), 20),
        ((10, 19), 50),
        ((10, 20), 50),
        ((10, 21), 10),
        ((13, 19), 15),
        ((19, 19), 20),
        ((20, 20), 400),
        ((21, 21), 50),
        ((2, 23), 100),
        ((3, 23), 100),
        ((4, 23), 100),
        ((16, 23), 50),
        ((23, 10), 300),
        ((23, 13), 100),
        ((23, 19), 5),
        ((23, 20), 50),
        ((23, 21), 1),
        ((23, 23), 2000),
    ] {
        let met = pairs.get(&pair).copied().unwrap_or(0);
        assert!(met >= least, "{pair:?} met {met} times");
    }
}

#[test]
fn records_that_deserve_several() {
    let busy = "setup 2 1 2 1\n put 0 0 1";
    let snapshot_busy = "setup 2 1 2 1\n open 0\n step 0 x2\n put 0 0 1";
    let cases = [
        // A rest is 6 whatever it holds, and before setup too.
        ("", "bytes ff ff ff", 6),
        (busy, "bytes ff ff", 6),
        // Operation above 11, with bytes that any operation leaves unused, before setup.
        ("", "bytes 0c ff ff ff ff ff ff ff ff ff ff ff ff ff ff ff", 1),
        // An unused byte before setup, in a second setup out of range, with a wrong worker.
        ("", "bytes 07 00 01 00 00 00 00 00 00 00 00 00 00 00 00 00", 2),
        (busy, "bytes 00 ff 00 00 00 00 01 00 00 00 00 00 00 00 00 00", 2),
        (busy, "bytes 03 ff ff ff 00 00 00 00 00 00 00 00 00 00 00 01", 2),
        // Not set up, with worker and register too large.
        ("", "put 255 65535 1", 8),
        ("", "step 255", 8),
        // A second setup outside its ranges.
        (busy, "setup 0 0 0 0", 9),
        ("", "setup 0 0 0 0", 5),
        // Worker and register, register and busy, busy and snapshot.
        (busy, "read 2 1", 3),
        (busy, "step 2", 3),
        (busy, "read 0 1", 4),
        (busy, "put 0 65535 1", 4),
        (busy, "read 0 0", 10),
        (busy, "close 0", 10),
        (snapshot_busy, "open 0", 10),
        (busy, "read 1 1", 4),
        (busy, "step 1", 11),
        (busy, "read 1 0", 13),
        (busy, "close 1", 13),
        ("setup 1 1 1 1\n open 0\n step 0 x2", "open 0", 12),
        // A value above the limit: after all that the record and its fields deserve, before busy.
        ("", "bytes 01 00 00 00 00 00 00 00 ff ff ff ff ff ff ff", 6),
        ("", "bytes 0c 00 00 00 00 00 00 00 ff ff ff ff ff ff ff ff", 1),
        (busy, "bytes 01 00 00 00 00 01 00 00 ff ff ff ff ff ff ff ff", 2),
        ("", "put 0 0 1000000000000", 8),
        (busy, "put 2 0 1000000000000", 3),
        (busy, "put 2 1 18446744073709551615", 3),
        (busy, "put 0 1 1000000000000", 4),
        (busy, "put 1 1 18446744073709551615", 4),
        (busy, "put 0 0 1000000000000", 16),
        (busy, "put 1 0 1000000000000", 16),
        (busy, "put 0 0 999999999999", 10),
        (snapshot_busy, "put 0 0 18446744073709551615", 16),
        // A status above 2: after the limit too, and before busy.
        ("", "bytes 01 00 00 00 03 00 00 00 00 00 00 00 00 00 00", 6),
        (busy, "bytes 01 00 00 00 03 01 00 00 00 00 00 00 00 00 00 00", 2),
        ("", "put 0 0 7 3", 8),
        (busy, "put 2 1 7 3", 3),
        (busy, "put 0 1 7 3", 4),
        (busy, "put 0 0 1000000000000 3", 16),
        (busy, "put 1 0 1000000000000 255", 16),
        (busy, "put 0 0 999999999999 3", 25),
        (busy, "put 1 0 7 255", 25),
        (busy, "put 0 0 7 2", 10),
    ];
    for (before, record, number) in cases {
        let mut hub = common::hub_after(before);
        assert_eq!(last(&mut hub, record), no(number), "{record:?} after {before:?}");
    }
}

#[test]
fn unused_bytes_one_by_one() {
    for (operation, used) in USED.iter().enumerate() {
        for place in 1..LENGTH {
            let mut bytes = [0; LENGTH];
            bytes[0] = operation as u8;
            bytes[place] = 0x80;
            let refused = Hub::new().take(&bytes, &[]) == no(2);
            assert_eq!(refused, !used.contains(&place), "operation {operation}, byte {place}");
        }
    }
}

#[test]
fn operations_above_11() {
    for operation in 0..=255 {
        let mut bytes = [0; LENGTH];
        bytes[0] = operation;
        let expected = match operation {
            0 => no(5),
            1..=11 => no(8),
            _ => no(1),
        };
        assert_eq!(Hub::new().take(&bytes, &[]), expected);
    }
}

#[test]
fn refusal_14_changes_nothing_but_the_worker() {
    // Worker 0's put is published and unstamped; worker 1's put meets 14 and stamps nothing.
    let mut hub = common::hub_after("setup 2 1 2 1\n put 0 0 7\n step 0\n put 1 0 8");
    let before = hub.store().unwrap().clone();
    assert_eq!(last(&mut hub, "step 1"), no(14));
    let after = hub.store().unwrap();
    assert_eq!(after.slots, before.slots);
    assert_eq!(after.newest, before.newest);
    assert_eq!(after.clock, before.clock);
    assert_eq!(after.workers[0].doing, before.workers[0].doing);
    assert_eq!(after.workers[1].doing, Doing::Idle);
    // The step was taken: the worker is idle now.
    assert_eq!(last(&mut hub, "step 1"), no(11));
    assert_eq!(last(&mut hub, "put 1 0 8"), Answer::Ok);
}

#[test]
fn refusal_15_announces_nothing() {
    let script = "setup 1 1 1 4294967295
        open 0
        step 0
        close 0
        open 0
        step 0";
    assert_eq!(run(script), ["ok", "ok", "no 15", "no 13", "ok", "no 15"]);
}

#[test]
fn fields_at_their_bounds() {
    let script = "setup 3 4 8 1
        get 2 3
        step 2
        get 3 3
        get 2 4
        get 255 65535
        put 0 256 1
        collect 3
        step 255";
    let expected = ["ok", "ok", "none", "no 3", "no 4", "no 3", "no 4", "no 3", "no 3"];
    assert_eq!(run(script), expected);
}

#[test]
fn the_tables_numbers() {
    for (place, refusal) in Refusal::ALL.iter().enumerate() {
        assert_eq!(usize::from(refusal.number()), place + 1);
        assert_eq!(Refusal::from_number(place as u64 + 1), Some(*refusal));
    }
    assert_eq!(Refusal::from_number(0), None);
    assert_eq!(Refusal::from_number(26), None);
    assert_eq!(words(&[no(15), no(18), no(21), no(25)]), ["no 15", "no 18", "no 21", "no 25"]);
}

#[test]
fn a_snapshot_is_announced_from_opens_first_step() {
    // Between open's steps the worker is busy; after them it has a time.
    let file = records("setup 1 1 1 1\n open 0\n step 0\n open 0\n step 0\n open 0\n close 0");
    let answers = reference::log::answers(&mut Hub::new(), &file, &[]);
    assert_eq!(words(&answers), ["ok", "ok", "going", "no 10", "at 1", "no 12", "ok"]);
}
