//! A8: each version carries a status. What a put may give, 25 in its place, value and status of the same
//! put wherever one is shown, the largest of a total, the row writer, and what the checker says of logs
//! with another status.

use crate::common;

use common::{
    examined, examined_with, hub_after, last, list, no, records, run, run_with, store, table, words,
};
use reference::generate::{script, Kind};
use reference::order::{self, Action, Claim, Outcome};
use reference::reading::{Shown, CORRECTED, ESTIMATED, LAST_STATUS, READ};
use reference::row::{write_row, Written};
use reference::{log, Answer, Hub, Reading, Refusal};

/// The last of the words that a script is answered with.
fn told(script: &str) -> String {
    run(script).pop().expect("a record")
}

/// The same with a list.
fn told_with(rows: &str, script: &str) -> String {
    run_with(rows, script).pop().expect("a record")
}

#[test]
fn the_numbers() {
    assert_eq!([READ, ESTIMATED, CORRECTED, LAST_STATUS], [0, 1, 2, 2]);
    assert_eq!(Refusal::Status.number(), 25);
    assert!(Refusal::Status.on_reading() && !Refusal::Status.at_step());
}

#[test]
fn three_statuses_are_shown() {
    for (status, word) in [(0, ""), (0, "read"), (1, "estimated"), (2, "corrected"), (2, "2")] {
        let put = format!("setup 2 2 4 1\n put 0 0 1200 {word}\n step 0 x3\n open 1\n step 1 x2");
        let shown = format!("value 1200 {status}");
        assert_eq!(told(&format!("{put}\n get 1 0\n step 1")), shown);
        assert_eq!(told(&format!("{put}\n read 1 0\n step 1 x2")), shown);
        assert_eq!(told(&format!("{put}\n mark 1 0\n step 1\n marked 0 0 0\n step 0 x2")), shown);
        assert_eq!(told_with("0 + 0", &format!("{put}\n total 1 0\n step 1 x2")), shown);
        // The other register has none, and no status.
        assert_eq!(told(&format!("{put}\n get 1 1\n step 1")), "none");
    }
}

/// Whatever the worker does, and nothing changes.
#[test]
fn statuses_above_2_are_refused() {
    for before in ["", "put 0 0 7 1", "put 0 0 7 2\n step 0", "open 0\n step 0", "get 0 0"] {
        for status in 3..=255 {
            let mut hub = hub_after(&format!("setup 2 1 2 1\n {before}"));
            let earlier = store(&hub).clone();
            assert_eq!(last(&mut hub, &format!("put 0 0 7 {status}")), no(25), "{before:?}");
            assert_eq!(store(&hub), &earlier, "{before:?}, {status}");
        }
    }
    let script = "setup 1 1 2 1\n put 0 0 7 3\n step 0\n get 0 0\n step 0";
    assert_eq!(run(script), ["ok", "no 25", "no 11", "ok", "none"]);
}

/// Bytes 5 to 7 are still unused.
#[test]
fn only_byte_4_is_the_status() {
    for place in 5..8 {
        for byte in [1, 2, 3, 128] {
            let mut bytes = records("put 0 0 7 1");
            bytes[place] = byte;
            assert_eq!(hub_after("setup 1 1 2 1").take(&bytes, &[]), no(2), "byte {place}");
        }
    }
    // No other record but a marked read uses byte 4.
    for operation in [2, 3, 4, 5, 6, 7, 8, 9, 10] {
        let mut bytes = [0; 16];
        (bytes[0], bytes[4]) = (operation, 1);
        assert_eq!(hub_after("setup 1 1 2 1").take(&bytes, &[]), no(2), "operation {operation}");
    }
}

/// The answer to a put of worker 1, which may put to register 0 alone, idle or busy.
fn asked(busy: bool, record: &str) -> String {
    let rights = table("worker 0 put registers 0 to 9\n worker 1 put read registers 0 to 0");
    let mut hub = Hub::new();
    hub.give_table(&rights).expect("a table");
    let begun = if busy { "get 1 0\n" } else { "" };
    let script = format!("setup 2 2 6 1\n {begun} {record}");
    words(&log::answers(&mut hub, &records(&script), &[])).pop().expect("a record")
}

/// After 3, 4 and 16, before 23 and 10: with each reason and without it.
#[test]
fn where_25_stands() {
    let large = 1_000_000_000_000u64;
    for busy in [false, true] {
        assert_eq!(asked(busy, "put 2 0 7 3"), "no 3");
        assert_eq!(asked(busy, "put 1 2 7 3"), "no 4");
        for register in [0, 1] {
            assert_eq!(asked(busy, &format!("put 1 {register} {large} 3")), "no 16");
            assert_eq!(asked(busy, &format!("put 1 {register} {large} 2")), "no 16");
            assert_eq!(asked(busy, &format!("put 1 {register} 7 3")), "no 25");
            assert_eq!(asked(busy, &format!("put 1 {register} {} 255", large - 1)), "no 25");
        }
        assert_eq!(asked(busy, "put 1 1 7 2"), "no 23");
        assert_eq!(asked(busy, "put 1 0 7 2"), if busy { "no 10" } else { "ok" });
    }
    assert_eq!(told("put 0 0 7 3"), "no 8");
    assert_eq!(told("put 0 0 1000000000000 3"), "no 8");
}

/// Register 0 has an estimate of 100, of which worker 1 has a snapshot and mark 0 keeps it; then the
/// correction of 90 comes.
const CORRECTION: &str = "setup 3 2 9 1\n put 0 0 100 estimated\n step 0 x3\n open 1\n step 1 x2
    mark 1 0\n step 1\n put 0 0 90 corrected\n step 0 x3";

#[test]
fn an_old_value_has_its_old_status() {
    assert_eq!(told(&format!("{CORRECTION}\n get 2 0\n step 2")), "value 90 2");
    assert_eq!(told(&format!("{CORRECTION}\n read 1 0\n step 1 x3")), "value 100 1");
    assert_eq!(told(&format!("{CORRECTION}\n marked 2 0 0\n step 2 x3")), "value 100 1");
    let total = format!("{CORRECTION}\n total 1 0\n step 1 x3");
    assert_eq!(told_with("0 - 0", &total), "value -100 1");
    // A new snapshot has the correction, and after a put of status 0 it keeps it.
    let newer = format!("{CORRECTION}\n open 2\n step 2 x2\n put 0 0 95\n step 0 x3");
    assert_eq!(told(&format!("{newer}\n read 2 0\n step 2 x3")), "value 90 2");
    assert_eq!(told(&format!("{newer}\n read 1 0\n step 1 x4")), "value 100 1");
    assert_eq!(told(&format!("{newer}\n get 1 0\n step 1")), "value 95 0");
}

/// Published and not stamped, by two workers at once: each keeps its own.
#[test]
fn two_puts_at_once_keep_their_statuses() {
    let both = "setup 3 1 6 1\n put 0 0 7 corrected\n put 1 0 8 estimated\n step 0\n step 1";
    let mut hub = hub_after(both);
    let held: Vec<_> = store(&hub).slots[1..3].iter().map(|slot| slot.reading).collect();
    let expected = [Reading { value: 7, status: 2 }, Reading { value: 8, status: 1 }];
    assert_eq!(held, expected.map(Some));
    assert_eq!(last(&mut hub, "get 2 0\n step 2"), Answer::value(8, 1));
    assert_eq!(last(&mut hub, "step 1 x2\n step 0 x2\n get 2 0\n step 2"), Answer::value(8, 1));
    assert_eq!(last(&mut hub, "put 0 0 9\n step 0\n get 2 0\n step 2"), Answer::value(9, 0));
}

/// A slot that held a correction is freed and taken by a put that gives no status.
#[test]
fn a_slot_that_is_taken_again_has_the_new_status() {
    let mut hub = hub_after(
        "setup 1 2 4 1\n put 0 0 5 corrected\n step 0 x8\n put 0 0 6 estimated\n step 0 x9
        collect 0\n step 0 x5",
    );
    let earlier = Some(Reading { value: 5, status: CORRECTED });
    assert_eq!(store(&hub).slots[2].reading, earlier);
    last(&mut hub, "step 0\n put 0 1 9\n step 0 x9");
    assert_eq!(store(&hub).newest, [3, 2]);
    assert_eq!(last(&mut hub, "get 0 1\n step 0"), Answer::value(9, 0));
    assert_eq!(last(&mut hub, "get 0 0\n step 0"), Answer::value(6, 1));
}

/// Registers 0 to 2 with 100, 20 and 3 of statuses 0, 1 and 2; registers 3 and 4 without a reading;
/// register 5 with 0 of status 2.
const STATUSES: &str = "setup 2 6 24 1\n put 0 0 100\n step 0 x3\n put 0 1 20 estimated\n step 0 x9
    put 0 2 3 corrected\n step 0 x3\n put 0 5 0 corrected\n step 0 x16\n open 1\n step 1 x2";

#[test]
fn a_total_shows_the_largest_status() {
    for (rows, answer) in [
        ("0 + 0", "value 100 0"),
        ("0 + 1", "value 20 1"),
        ("0 - 2", "value -3 2"),
        // The largest in the last row, in the first, and in the middle.
        ("0 + 0\n 0 + 1", "value 120 1"),
        ("0 + 1\n 0 + 0", "value 120 1"),
        ("0 - 1\n 0 - 2\n 0 - 0", "value -123 2"),
        ("0 + 2\n 0 + 1\n 0 + 0", "value 123 2"),
        ("0 + 0\n 0 + 1\n 0 - 2", "value 117 2"),
        // A register without a reading reads no status, before and after.
        ("0 + 3\n 0 + 1", "value 20 1"),
        ("0 + 1\n 0 + 3", "value 20 1"),
        ("0 - 3\n 0 - 0\n 0 - 4", "value -100 0"),
        // A reading that adds nothing has its status all the same.
        ("0 + 0\n 0 + 5", "value 100 2"),
        ("0 + 5", "value 0 2"),
        ("0 + 1\n 0 - 1", "value 0 1"),
        // No reading at all.
        ("0 + 3", "value 0 0"),
        ("0 - 3\n 0 + 4\n 0 - 3", "value 0 0"),
    ] {
        let script = format!("{STATUSES}\n total 1 0\n step 1 x{}", 2 * rows.lines().count());
        assert_eq!(told_with(rows, &script), answer, "{rows}");
    }
}

/// A total begins anew: neither an earlier total nor one that met 18 leaves a status.
#[test]
fn a_total_begins_without_a_status() {
    let two = format!("{STATUSES}\n total 1 0\n step 1 x2\n total 1 1\n step 1 x2");
    assert_eq!(told_with("0 + 2\n 1 + 0", &two), "value 100 0");
    let mut hub = Hub::new();
    hub.max_value = u64::MAX;
    let script = "setup 2 3 12 1\n put 0 0 5 corrected\n step 0 x3\n put 0 1 1000000000000 1
        step 0 x16\n put 0 2 7\n step 0 x3\n open 1\n step 1 x2\n total 1 0\n step 1 x4\n total 1 1
        step 1 x2";
    let answers = log::answers(&mut hub, &records(script), &list("0 + 0\n 0 + 1\n 1 + 2"));
    let words = words(&answers);
    assert!(words.contains(&"no 18".to_string()), "{words:?}");
    assert_eq!(words.last().unwrap(), "value 7 0");
}

/// As of its snapshot: a correction that comes while it is under way is not in it.
#[test]
fn a_total_has_the_statuses_of_its_time() {
    let script = format!(
        "{STATUSES}\n total 1 0\n step 1 x2\n put 0 1 21 corrected\n step 0 x3\n step 1 x3"
    );
    assert_eq!(told_with("0 + 0\n 0 + 1", &script), "value 120 1");
    let later = format!("{script}\n close 1\n step 1\n open 1\n step 1 x2\n total 1 0\n step 1 x4");
    assert_eq!(told_with("0 + 0\n 0 + 1", &later), "value 121 2");
}

/// 4, then 7, then 25; with each of them the buffer stays as it is. A row has the status in byte 2.
#[test]
fn rows_of_statuses() {
    let reading = |status| Some(Reading { value: 0x0807_0605_0403_0201, status });
    for status in 0..=255 {
        for (register, length, refusal) in [
            (256, 4096, Some(Refusal::Register)),
            (256, 0, Some(Refusal::Register)),
            (1, 31, Some(Refusal::Buffer)),
            (1, 32, (status > 2).then_some(Refusal::Status)),
            (255, 4096, (status > 2).then_some(Refusal::Status)),
        ] {
            let mut buffer = vec![0xaa; length];
            let answer = write_row(&mut buffer, register, 0x0403_0201, reading(status));
            assert_eq!(answer, refusal.map_or(Ok(Written::Row), Err), "{register}, {status}");
            if refusal.is_none() {
                let row = &mut buffer[16 * usize::from(register)..][..16];
                let first = [register as u8, 0, status, 0, 1, 2, 3, 4];
                assert_eq!(row, [first, [1, 2, 3, 4, 5, 6, 7, 8]].concat());
                row.fill(0xaa);
            }
            assert!(buffer.iter().all(|&byte| byte == 0xaa), "{register}, {status}");
        }
    }
}

/// The checker with the last answer of a script replaced.
fn doctored(rows: &str, script: &str, words: &str) -> Option<(Claim, String)> {
    let record = records(script).len() / 16 - 1;
    let violation = examined_with(rows, script, &[(record, words)]).1?;
    assert_eq!(violation.record, record, "{violation}");
    Some((violation.claim, violation.sentence))
}

/// The status of another put than the value is of has its own sentence, another value that of a value.
#[test]
fn another_puts_status_is_found() {
    let cases = [
        ("get 2 0\n step 2", "90", 2, "100 1"),
        ("read 1 0\n step 1 x3", "100", 1, "90 2"),
        ("marked 2 0 0\n step 2 x3", "100", 1, "90 2"),
    ];
    for (script, value, status, other) in cases {
        let script = format!("{CORRECTION}\n {script}");
        for wrong in (0..=3).chain([255]).filter(|&wrong| wrong != status) {
            let (claim, sentence) =
                doctored("", &script, &format!("value {value} {wrong}")).unwrap();
            assert_eq!(claim, Claim::Status);
            let expected =
                format!("`value {value} {wrong}` where the put of {value} has status {status}");
            assert!(sentence.ends_with(&expected), "{sentence}");
        }
        assert_eq!(doctored("", &script, &format!("value {value} {status}")), None);
        for words in [format!("value {other}"), format!("value 7 {status}"), "none".to_string()] {
            let (claim, sentence) = doctored("", &script, &words).unwrap();
            assert_eq!(claim, Claim::Value, "{words}");
            let expected = format!("`{words}` where {value} {status} is shown");
            assert!(sentence.ends_with(&expected), "{sentence}");
        }
    }
}

#[test]
fn another_status_of_a_total_is_found() {
    for (rows, right, wrong, largest) in [
        ("0 + 2\n 0 + 0", "value 103 2", "value 103 0", 2),
        ("0 + 0\n 0 + 1", "value 120 1", "value 120 0", 1),
        ("0 - 1\n 0 - 2", "value -23 2", "value -23 1", 2),
        ("0 + 1\n 0 + 3", "value 20 1", "value 20 2", 1),
        ("0 + 3\n 0 + 4", "value 0 0", "value 0 1", 0),
    ] {
        let script = format!("{STATUSES}\n total 1 0\n step 1 x4");
        assert_eq!(doctored(rows, &script, right), None);
        let (claim, sentence) = doctored(rows, &script, wrong).unwrap();
        assert_eq!(claim, Claim::Status);
        let expected = format!("`{wrong}` where the largest status is {largest}");
        assert!(sentence.ends_with(&expected), "{sentence}");
    }
}

/// A put that is refused with 25 is left out; one of a status that does not exist cannot begin.
#[test]
fn puts_of_other_statuses_in_the_order() {
    let script = "setup 1 1 3 1\n put 0 0 7 3\n get 0 0\n step 0";
    let (order, violation) = examined(script, &[]);
    assert_eq!((order.operations.len(), violation), (1, None));
    let violation = examined(script, &[(1, "ok")]).1.expect("a violation");
    assert_eq!((violation.record, violation.claim), (1, Claim::Fit));
    assert_eq!(violation.sentence, "status 3 does not exist, and is put");
    // Refused on reading, whatever its status: nothing begins.
    let script = "setup 1 1 3 1\n put 0 0 7 2\n step 0";
    let violation = examined(script, &[(1, "no 25")]).1.expect("a violation");
    assert_eq!((violation.record, violation.claim), (2, Claim::Fit));
    // No step is answered so.
    let violation = examined(script, &[(2, "no 25")]).1.expect("a violation");
    assert_eq!((violation.record, violation.claim), (2, Claim::Fit));
}

/// Along random scripts, by the plain registers: how often each status is shown, and by whom.
#[test]
fn random_scripts_show_every_status() {
    let mut counts = [[0; 3]; 4];
    for kind in [Kind::Statuses, Kind::Mixed, Kind::Marks, Kind::Totals, Kind::Large] {
        for seed in 0..60 {
            let script = script(kind, 2500 + seed, 1200);
            let order =
                order::check(&script.records, &script.list, &script.table, &script.answers());
            let order = order.unwrap_or_else(|violation| panic!("{kind:?} {seed}: {violation}"));
            for operation in &order.operations {
                let Outcome::Finished { answer, .. } = operation.outcome else { continue };
                let place = match operation.action {
                    Action::Get { .. } => 0,
                    Action::Read { .. } => 1,
                    Action::Marked { .. } => 2,
                    Action::Total { .. } => 3,
                    _ => continue,
                };
                assert_eq!(answer.shown(), operation.shown);
                if let Some(Shown { status, .. }) = operation.shown {
                    counts[place][usize::from(status)] += 1;
                }
            }
        }
    }
    assert!(counts.as_flattened().iter().all(|&count| count > 300), "{counts:?}");
}
