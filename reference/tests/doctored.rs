//! The checker of demand 3 on doctored logs: right ones with one answer changed or more, each made
//! so that one test of the checker alone refuses it; and doctored orders, where no log can be.

use crate::common;

use common::{examined, examined_with, records};
use reference::order::{self, Action, Claim, Order, Outcome, Violation};
use reference::reading::Shown;
use reference::{log, Answer, Hub};

/// This value of status 0.
fn shown(value: i128) -> Option<Shown> {
    Some(Shown { value, status: 0 })
}

/// A script with some of the hub's answers replaced is refused at this record, for this.
fn refused_at(record: usize, claim: Claim, script: &str, replaced: &[(usize, &str)]) -> Violation {
    let violation = examined(script, replaced).1.expect("a violation");
    assert_eq!((violation.record, violation.claim), (record, claim), "{replaced:?}: {violation}");
    violation
}

#[test]
fn a_put_whose_version_is_freed_unstamped_stands_nowhere() {
    let script = "setup 2 1 4 1\n put 0 0 7\n step 0\n collect 1\n step 1 x5\n step 0 x2";
    // Slot 1 has the put's version, the newest, without a low. Nobody needs it.
    let violation = refused_at(10, Claim::Once, script, &[(7, "freed 1")]);
    assert!(violation.sentence.contains("stands 0 times"), "{violation}");
    // With its version stamped first the put has its effect, and nothing is broken.
    let stamped = "setup 2 1 4 1\n put 0 0 7\n step 0 x2\n collect 1\n step 1 x5\n step 0";
    assert_eq!(examined(stamped, &[(8, "freed 1")]).1, None);
}

#[test]
fn the_newest_version_under_a_snapshot_is_needed() {
    let script =
        "setup 2 1 4 1\n put 0 0 7\n step 0 x3\n open 1\n step 1 x2\n collect 0\n step 0 x5";
    // Slot 1 has the newest version, from 1 on; slot 0 the one before, up to 1.
    let violation = refused_at(12, Claim::NeededFreed, script, &[(12, "freed 1")]);
    assert!(violation.sentence.contains("range 1 on"), "{violation}");
    assert!(violation.sentence.contains("worker 1's snapshot at 1"), "{violation}");
    assert_eq!(examined(script, &[(12, "freed 0")]).1, None);
}

/// From the announcement to the close, whoever frees.
#[test]
fn a_snapshot_needs_from_its_announcement_to_its_close() {
    let script = "setup 2 1 4 1\n put 0 0 7\n step 0 x3\n open 1\n step 1\n collect 0\n step 0 x5";
    refused_at(11, Claim::NeededFreed, script, &[(11, "freed 1")]);
    let own = "setup 1 1 4 1\n open 0\n step 0 x2\n put 0 0 7\n step 0 x8\n collect 0\n step 0 x5";
    refused_at(18, Claim::NeededFreed, own, &[(18, "freed 0")]);
    let closed = format!("{script}\n step 0\n step 1\n close 1\n step 1\n collect 0\n step 0 x3");
    assert_eq!(examined(&closed, &[(20, "freed 1")]).1, None);
}

#[test]
fn a_read_after_a_close_shows_nothing() {
    let script = "setup 1 1 2 1\n open 0\n step 0 x2\n close 0\n step 0\n read 0 0\n step 0 x2";
    let violation =
        refused_at(8, Claim::Value, script, &[(6, "ok"), (7, "going"), (8, "value 0 0")]);
    assert!(violation.sentence.contains("where no value is shown"), "{violation}");
    let never = "setup 1 1 2 1\n read 0 0\n step 0 x2";
    refused_at(3, Claim::Value, never, &[(1, "ok"), (2, "going"), (3, "value 0 0")]);
    // Where no value is shown, `none` is the answer; that it was accepted is not the order's matter.
    assert_eq!(examined(never, &[(1, "ok"), (2, "going"), (3, "none")]).1, None);
}

#[test]
fn an_open_takes_a_new_copy() {
    // Worker 0 opens, puts 7, and is let open once more without a close.
    let script = "setup 1 1 4 1\n open 0\n step 0 x2\n put 0 0 7\n step 0 x8\n open 0\n step 0 x2
        read 0 0\n step 0 x2";
    let accepted = [(13, "ok"), (14, "going"), (15, "at 2"), (16, "ok"), (17, "going")];
    let answers = |value| accepted.into_iter().chain([(18, value)]).collect::<Vec<_>>();
    let (order, violation) = examined(script, &answers("value 7 0"));
    assert_eq!((order.operations[3].shown, violation), (shown(7), None));
    refused_at(18, Claim::Value, script, &answers("none"));
    // The same with a close between, as the hub has it.
    let script = "setup 1 1 4 1\n open 0\n step 0 x2\n put 0 0 7\n step 0 x8\n close 0\n step 0
        open 0\n step 0 x2\n read 0 0\n step 0 x2";
    assert_eq!(examined(script, &[]).1, None);
    refused_at(20, Claim::Value, script, &[(20, "none")]);
}

#[test]
fn a_put_finds_a_free_slot() {
    // N = V, and N = V + 1 with the one slot taken.
    refused_at(2, Claim::Fit, "setup 1 1 1 1\n put 0 0 7\n step 0", &[(2, "going")]);
    let taken = "setup 2 1 2 1\n put 0 0 7\n step 0\n put 1 0 8\n step 1";
    refused_at(4, Claim::Fit, taken, &[(4, "going")]);
    // A refused put takes none.
    let refused = "setup 2 1 2 1\n put 0 0 7\n step 0\n put 1 0 8\n step 1";
    assert_eq!(examined(refused, &[(2, "no 14"), (4, "going")]).1, None);
}

#[test]
fn a_put_refused_with_16_is_left_out() {
    let script = "setup 1 1 3 1\n put 0 0 1000000000000\n get 0 0\n step 0";
    let (order, violation) = examined(script, &[]);
    assert_eq!((order.records, order.operations.len(), violation), (4, 1, None));
    assert_eq!(order.operations[0].shown, None);
    refused_at(3, Claim::Value, script, &[(3, "value 1000000000000 0")]);
    // Whatever its value: it takes no step, and nothing of it is shown.
    let script = "setup 1 1 3 1\n put 0 0 7\n step 0 x3";
    let violation = refused_at(2, Claim::Fit, script, &[(1, "no 16")]);
    assert!(violation.sentence.contains("has no operation"), "{violation}");
}

/// The log of a hub from before A1 is held to the same order.
#[test]
fn a_put_above_the_limit_that_was_accepted_is_fed() {
    let script = "setup 2 1 3 1\n put 0 0 1000000000000\n step 0 x3\n get 1 0\n step 1";
    let accepted = [(1, "ok"), (2, "going"), (3, "going"), (4, "done")];
    let answers = |value| accepted.into_iter().chain([(6, value)]).collect::<Vec<_>>();
    let (order, violation) = examined(script, &answers("value 1000000000000 0"));
    assert_eq!((order.sequence.len(), violation), (2, None));
    refused_at(6, Claim::Value, script, &answers("value 999999999999 0"));
}

#[test]
fn the_last_clock_is_not_announced() {
    refused_at(2, Claim::Fit, "setup 1 1 1 4294967295\n open 0\n step 0", &[(2, "going")]);
}

#[test]
fn there_are_as_many_answers_as_records() {
    let file = records("setup 1 1 2 1\n get 0 0\n step 0\n bytes 07");
    let mut answers = log::answers(&mut Hub::new(), &file, &[]);
    assert!(order::check(&file, &[], &[], &answers).is_ok());
    let missing = order::check(&file, &[], &[], &answers[..3]).unwrap_err();
    assert_eq!((missing.record, missing.claim), (3, Claim::Fit));
    answers.push(answers[3]);
    let extra = order::check(&file, &[], &[], &answers).unwrap_err();
    assert_eq!((extra.record, extra.claim), (4, Claim::Fit));
}

#[test]
fn setups_outside_their_ranges_are_not_followed() {
    for sizes in ["0 1 1", "1 0 1", "1 2 1"] {
        refused_at(0, Claim::Fit, &format!("setup {sizes} 1"), &[(0, "ok")]);
    }
}

#[test]
fn only_workers_and_registers_that_exist_begin() {
    for command in ["put 2 0 7", "open 2", "read 2 0", "close 2", "get 2 0", "collect 2", "step 2"]
    {
        let script = format!("setup 2 3 4 1\n {command}");
        refused_at(1, Claim::Fit, &script, &[(1, "ok")]);
    }
    for command in ["put 0 3 7", "read 0 3", "get 0 3"] {
        let script = format!("setup 2 3 4 1\n {command}");
        refused_at(1, Claim::Fit, &script, &[(1, "ok")]);
    }
    // Nor before a setup.
    refused_at(0, Claim::Fit, "get 0 0", &[(0, "ok")]);
}

/// Every answer that a step may have.
const ANSWERS: [&str; 14] = [
    "ok",
    "going",
    "done",
    "freed 0",
    "at 1",
    "value 0 0",
    "value -1 0",
    "none",
    "no 14",
    "no 15",
    "no 18",
    "no 19",
    "no 20",
    "no 21",
];

#[test]
fn each_step_has_its_answers() {
    // What was done before the step of worker 0, and which answers the step may have.
    let cases: [(&str, &[&str]); 18] = [
        ("", &[]),
        ("put 0 0 7", &["going", "no 14"]),
        ("put 0 0 7\n step 0", &["going"]),
        ("put 0 0 7\n step 0 x2", &["going", "done"]),
        ("put 0 0 7\n step 0 x3\n put 0 0 8\n step 0 x3", &["going", "done", "freed 0"]),
        ("put 0 0 7\n step 0 x3\n collect 0", &["going", "done", "freed 0"]),
        ("open 0", &["going", "no 15"]),
        ("open 0\n step 0", &["at 1"]),
        ("open 0\n step 0 x2\n read 0 0", &["going"]),
        ("open 0\n step 0 x2\n read 0 0\n step 0", &["going", "none"]),
        ("open 0\n step 0 x2\n close 0", &["done"]),
        ("get 0 0", &["none"]),
        ("open 0\n step 0 x2\n total 0 0", &["going"]),
        ("open 0\n step 0 x2\n total 0 0\n step 0", &["going", "value 0 0", "no 18"]),
        ("open 0\n step 0 x2\n mark 0 1", &["done", "no 19"]),
        ("open 0\n step 0 x2\n mark 0 1\n step 0\n release 0 1", &["done", "no 20", "no 21"]),
        ("open 0\n step 0 x2\n mark 0 1\n step 0\n marked 0 0 1", &["going", "no 20"]),
        ("open 0\n step 0 x2\n mark 0 1\n step 0\n marked 0 0 1\n step 0", &["going", "none"]),
    ];
    for (before, allowed) in cases {
        let script = format!("setup 2 1 4 1\n {before}\n step 0");
        let record = records(&script).len() / 16 - 1;
        for words in ANSWERS {
            match examined_with("0 + 0", &script, &[(record, words)]).1 {
                None => assert!(allowed.contains(&words), "{before}: {words} is accepted"),
                Some(found) => {
                    assert!(!allowed.contains(&words), "{before}: {words}: {found}");
                    // A get, a read or a total may end so, and something else is shown.
                    let of_total = before.ends_with("total 0 0\n step 0") && words == "value -1 0";
                    let other = of_total || allowed.contains(&"none") && words == "value 0 0";
                    let claim = if other { Claim::Value } else { Claim::Fit };
                    assert_eq!((found.record, found.claim), (record, claim), "{before}: {words}");
                }
            }
        }
        // A worker that has an operation takes its step: nothing on reading is left to refuse it.
        for number in (1..18).filter(|n| ![14, 15].contains(n) && !before.is_empty()) {
            let replaced = [(record, &format!("no {number}")[..])];
            let violation = examined_with("0 + 0", &script, &replaced).1.expect("a violation");
            assert_eq!((violation.record, violation.claim), (record, Claim::Fit));
            assert!(violation.sentence.contains("cannot answer `no "), "{violation}");
        }
    }
}

/// Registers 0 and 1 with 5 and 3, worker 1's snapshot of them, and its total of group 0 from its
/// begin on, which ends at its fourth step.
const TOTAL: &str =
    "setup 2 2 9 1\n put 0 0 5\n step 0 x3\n put 0 1 3\n step 0 x9\n open 1\n step 1 x2
    total 1 0\n step 1 x4";
const ROWS: &str = "0 + 0\n 0 - 1\n 1 + 1";

#[test]
fn a_total_shows_the_sum_over_the_copy() {
    let begin = records(TOTAL).len() / 16 - 5;
    let answers = |words| [(begin + 4, words)];
    let (order, violation) = examined_with(ROWS, TOTAL, &[]);
    let total = order.operations.last().unwrap();
    assert_eq!((total.begin, total.effect, total.shown), (begin, Some(begin + 4), shown(2)));
    assert_eq!((order.sequence.len(), violation), (4, None));
    // Without the last row, with signs exchanged, of all groups, and `value -2` for 2.
    for words in ["value 5 0", "value -2 0", "value 8 0", "value 0 0", "value 3 0"] {
        let violation = examined_with(ROWS, TOTAL, &answers(words)).1.expect("a violation");
        assert_eq!((violation.record, violation.claim), (begin + 4, Claim::Value), "{words}");
        assert!(violation.sentence.ends_with("where 2 0 is shown"), "{violation}");
    }
    // One that met 18 is left out, and shows nothing; so is one that is unfinished.
    for words in ["no 18", "going"] {
        let (order, violation) = examined_with(ROWS, TOTAL, &answers(words));
        assert_eq!((order.sequence.len(), violation), (3, None), "{words}");
        assert_eq!(order.operations.last().unwrap().effect, None);
    }
}

#[test]
fn a_total_without_a_snapshot_shows_nothing() {
    let script = "setup 1 1 2 1\n total 0 0\n step 0 x2";
    let answers = [(1, "ok"), (2, "going"), (3, "value 0 0")];
    let violation = examined_with(ROWS.split_once('\n').unwrap().0, script, &answers).1;
    let violation = violation.expect("a violation");
    assert_eq!((violation.record, violation.claim), (3, Claim::Value));
    assert!(violation.sentence.contains("where no value is shown"), "{violation}");
}

#[test]
fn only_lists_and_groups_that_exist_begin() {
    let set_up = "setup 1 2 2 1";
    for rows in ["0 + 2", "1 + 0\n 0 + 0", "32 + 0", "bytes 00 02 00 00", "bytes 00"] {
        let violation = examined_with(rows, set_up, &[(0, "ok")]).1.expect("a violation");
        assert_eq!((violation.record, violation.claim), (0, Claim::Fit), "{rows}");
        // Refused, it is as any record that is refused on reading.
        assert_eq!(examined_with(rows, set_up, &[]).1, None);
    }
    for group in [2, 31, 32, 256, 65535] {
        let script = format!("setup 1 2 2 1\n open 0\n step 0 x2\n total 0 {group}");
        let violation = examined_with(ROWS, &script, &[(4, "ok")]).1.expect("a violation");
        assert_eq!((violation.record, violation.claim), (4, Claim::Fit), "{group}");
        assert_eq!(examined_with(ROWS, &script, &[]).1, None);
    }
    // 18 is no answer to a begin.
    let begun = "setup 1 2 2 1\n open 0\n step 0 x2\n total 0 0";
    let violation = examined_with(ROWS, begun, &[(4, "no 18")]).1.expect("a violation");
    assert_eq!((violation.record, violation.claim), (4, Claim::Fit));
}

/// A put that is stamped by a total has its effect at the first step of that row, which the checker
/// finds by following the total, also off a version that is freed under it.
#[test]
fn a_total_stamps_row_by_row() {
    let script =
        "setup 2 2 6 1\n put 0 0 5\n step 0 x3\n open 1\n step 1 x2\n put 0 0 6\n step 0 x9
        total 1 0\n step 1\n put 0 0 7\n step 0 x3\n collect 0\n step 0 x7\n collect 0\n step 0 x7
        put 0 1 9\n step 0\n step 1 x2\n get 0 0\n step 1";
    let (order, violation) = examined_with("0 + 0\n 0 + 1", script, &[]);
    assert_eq!((violation, order.freed), (None, 2));
    let put = order.operations.iter().rfind(|o| matches!(o.action, Action::Put { .. })).unwrap();
    // Its first step, the total's (2) on the version that it was moved to, and (1) of its second row.
    let first = put.begin + 1;
    assert_eq!((put.effect, put.outcome), (Some(first + 2), Outcome::Unfinished));
}

/// Register 0 with 5, worker 1's snapshot of it at 1, which mark 3 keeps, and a close; then
/// register 0 gets 6, and the range of 5, from 1 to 2, is queued.
const MARKED: &str =
    "setup 2 1 9 1\n put 0 0 5\n step 0 x3\n open 1\n step 1 x2\n mark 1 3\n step 1
    close 1\n step 1\n put 0 0 6\n step 0 x9";

/// A script after that, with some of the hub's answers replaced, counted from its first record.
fn marked(script: &str, replaced: &[(usize, &str)]) -> (usize, Order, Option<Violation>) {
    let first = records(MARKED).len() / 16;
    let replaced: Vec<_> = replaced.iter().map(|&(place, words)| (first + place, words)).collect();
    let (order, violation) = examined(&format!("{MARKED}\n {script}"), &replaced);
    (first, order, violation)
}

/// It must be refused at this record of the script.
fn marked_refused(record: usize, claim: Claim, script: &str, replaced: &[(usize, &str)]) -> String {
    let (first, _, violation) = marked(script, replaced);
    let violation = violation.expect("a violation");
    assert_eq!((violation.record, violation.claim), (first + record, claim), "{violation}");
    violation.sentence
}

#[test]
fn a_marked_read_shows_the_marks_copy() {
    let read = "marked 0 0 3\n step 0 x3";
    let (first, order, violation) = marked(read, &[]);
    let last = order.operations.last().unwrap();
    assert_eq!((last.effect, last.shown, violation), (Some(first + 3), shown(5), None));
    for words in ["value 6 0", "value 0 0", "none"] {
        let sentence = marked_refused(3, Claim::Value, read, &[(3, words)]);
        assert!(sentence.starts_with("worker 0's read of register 0 at mark 3, "), "{sentence}");
        assert!(sentence.ends_with("where 5 0 is shown"), "{sentence}");
    }
    // One that met 20 is left out; so is one that is unfinished.
    let (_, order, violation) = marked("marked 0 0 3\n step 0", &[(1, "no 20")]);
    assert_eq!((order.operations.last().unwrap().effect, violation), (None, None));
    assert_eq!(marked("marked 0 0 3\n step 0", &[]).2, None);
}

/// An empty mark has no copy: never marked, released, or marked without a snapshot.
#[test]
fn a_read_of_an_empty_mark_shows_nothing() {
    let read = [(0, "ok"), (1, "going"), (2, "value 0 0")];
    let sentence = marked_refused(2, Claim::Value, "marked 0 0 4\n step 0 x2", &read);
    assert!(sentence.ends_with("where no value is shown"), "{sentence}");
    let released = "release 0 3\n step 0\n marked 0 0 3\n step 0 x2";
    let read = [(2, "ok"), (3, "going"), (4, "value 5 0")];
    marked_refused(4, Claim::Value, released, &read);
    let unsnapped = "mark 0 4\n step 0\n marked 0 0 4\n step 0 x2";
    let read = [(0, "ok"), (1, "done"), (2, "ok"), (3, "going"), (4, "value 6 0")];
    marked_refused(4, Claim::Value, unsnapped, &read);
}

/// A mark takes the copy that its worker has, in place of what it held.
#[test]
fn a_mark_keeps_the_copy_of_its_worker() {
    let again = "open 0\n step 0 x2\n mark 0 3\n step 0\n marked 1 0 3\n step 1 x2";
    let answers = |value| [(3, "ok"), (4, "done"), (5, "ok"), (6, "going"), (7, value)];
    assert_eq!(marked(again, &answers("value 6 0")).2, None);
    marked_refused(7, Claim::Value, again, &answers("value 5 0"));
    // Refused with 19 at its step, it takes nothing.
    let refused = [(3, "ok"), (4, "no 19"), (7, "value 6 0")];
    marked_refused(7, Claim::Value, again, &refused);
    // What was put after the open is in neither.
    let put =
        "open 0\n step 0 x2\n put 0 0 7\n step 0 x3\n mark 0 4\n step 0\n marked 1 0 4\n step 1 x3";
    let (_, order, violation) = marked(put, &[]);
    assert_eq!((order.operations.last().unwrap().shown, violation), (shown(6), None));
}

/// From the mark's step to the release's.
#[test]
fn a_held_mark_needs_its_versions() {
    // Slot 1 has 5, which the mark needs and no snapshot; slot 0 is needless.
    let collect = "collect 0\n step 0 x6";
    assert_eq!(marked(collect, &[]).2, None);
    let sentence = marked_refused(6, Claim::NeededFreed, collect, &[(6, "freed 1")]);
    let expected = "slot 1 of register 0 with range 1 to 2 is freed, and mark 3 at 1 needs it";
    assert_eq!(sentence, expected);
    let released = "release 1 3\n step 1\n collect 0\n step 0 x6";
    assert_eq!(marked(released, &[(8, "freed 1")]).2, None);
    // Neither a release that has only begun nor one that is refused gives anything up.
    let begun = "release 1 3\n collect 0\n step 0 x6";
    marked_refused(7, Claim::NeededFreed, begun, &[(7, "freed 1")]);
    marked_refused(8, Claim::NeededFreed, released, &[(1, "no 21"), (8, "freed 1")]);
}

#[test]
fn only_marks_that_exist_begin() {
    for command in ["mark 0 12", "release 0 65535", "marked 0 0 12", "marked 0 0 255"] {
        let sentence = marked_refused(0, Claim::Fit, command, &[(0, "ok")]);
        assert!(sentence.ends_with("does not exist"), "{sentence}");
    }
    marked_refused(0, Claim::Fit, "marked 0 1 3", &[(0, "ok")]);
    // Refused on reading with any of the three, nothing begins.
    for words in ["no 19", "no 20", "no 21"] {
        let (_, order, violation) = marked("mark 1 4", &[(0, words)]);
        assert_eq!((order.operations.len(), violation), (5, None));
    }
}

#[test]
fn the_lowest_record_is_told() {
    // A wrong value at 2, a step that nobody can take at 4.
    let script = "setup 1 1 1 1\n get 0 0\n step 0\n get 0 0\n step 0";
    refused_at(2, Claim::Value, script, &[(2, "value 1 0"), (4, "done")]);
    // A put that stands nowhere ends at 11, between two gets.
    let script = "setup 3 1 4 1\n put 0 0 7\n step 0\n collect 1\n step 1 x4\n get 2 0\n step 2
        step 0 x2\n get 2 0\n step 2";
    let freed = (7, "freed 1");
    refused_at(11, Claim::Once, script, &[freed, (9, "none"), (13, "value 1 0")]);
    refused_at(9, Claim::Value, script, &[freed, (9, "value 1 0"), (13, "none")]);
}

/// A put, a get after it, a refused put, and an open that has only begun.
fn all_outcomes() -> Order {
    let file = records(
        "setup 2 1 2 1\n put 0 0 7\n step 0 x3\n get 1 0\n step 1\n put 0 0 8\n step 0\n open 0",
    );
    order::check(&file, &[], &[], &log::answers(&mut Hub::new(), &file, &[])).expect("in order")
}

/// What breaks an order with another sequence.
fn with(sequence: &[usize]) -> Option<(usize, Claim)> {
    let mut order = all_outcomes();
    order.sequence = sequence.to_vec();
    order.violation().map(|violation| (violation.record, violation.claim))
}

#[test]
fn every_operation_stands_as_often_as_its_outcome_says() {
    let order = all_outcomes();
    let outcomes: Vec<_> = order.operations.iter().map(|o| o.outcome).collect();
    assert!(matches!(
        outcomes[..],
        [
            Outcome::Finished { .. },
            Outcome::Finished { .. },
            Outcome::Refused { .. },
            Outcome::Unfinished
        ]
    ));
    assert_eq!(order.sequence, [0, 1]);
    assert_eq!(with(&[0, 1]), None);
    // Finished and missing, finished and twice, refused, unfinished without its effect.
    assert_eq!(with(&[1]), Some((4, Claim::Once)));
    assert_eq!(with(&[0]), Some((6, Claim::Once)));
    assert_eq!(with(&[0, 0, 1]), Some((4, Claim::Once)));
    assert_eq!(with(&[0, 1, 2]), Some((8, Claim::Once)));
    assert_eq!(with(&[0, 1, 3]), Some((9, Claim::Once)));
}

/// A log cannot break this: an effect is always found between begin and end.
#[test]
fn an_operation_that_ended_stands_before_one_that_begins_later() {
    assert_eq!(with(&[1, 0]), Some((5, Claim::Between)));
    // A get from 1 to 3, a collect from 2 to 12 and a get from 4 to 5: only the gets have an order.
    let overlapping = "setup 3 1 1 1\n get 0 0\n collect 1\n step 0\n get 2 0\n step 2\n step 1 x7";
    let mut order = examined(overlapping, &[]).0;
    assert_eq!(order.sequence, [0, 2, 1]);
    for sequence in [[0, 2, 1], [0, 1, 2], [1, 0, 2]] {
        order.sequence = sequence.to_vec();
        assert_eq!(order.violation(), None, "{sequence:?}");
    }
    for sequence in [[2, 0, 1], [2, 1, 0], [1, 2, 0]] {
        order.sequence = sequence.to_vec();
        let violation = order.violation().expect("a violation");
        assert_eq!((violation.record, violation.claim), (4, Claim::Between), "{sequence:?}");
    }
}

#[test]
fn values_are_compared_with_what_is_shown() {
    let mut order = all_outcomes();
    order.operations[1].shown = shown(8);
    assert_eq!(order.violation().map(|found| found.claim), Some(Claim::Value));
    order.operations[1].shown = None;
    assert_eq!(order.violation().map(|found| found.claim), Some(Claim::Value));
    let Outcome::Finished { ref mut answer, .. } = order.operations[1].outcome else {
        panic!("finished")
    };
    *answer = Answer::Done;
    assert_eq!(order.violation().map(|found| found.claim), Some(Claim::Value));
}
