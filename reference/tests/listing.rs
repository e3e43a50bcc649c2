//! The order as text.

use crate::common;

use common::{across, examined, examined_with, list, records, sample};
use reference::fault::Right;
use reference::generate::Script;
use reference::listing::Listing;
use reference::order;
use reference::store::MAX_VALUE;

/// The text for a script, with some of the hub's answers replaced.
fn listing(script: &str, replaced: &[(usize, &str)]) -> String {
    let (order, violation) = examined(script, replaced);
    Listing::new(&order, violation.as_ref()).to_string()
}

/// The lines under the heads that begin so, up to a blank one, with one space between words.
fn rows(listing: &str, heads: &str) -> Vec<String> {
    let one_space = |line: &str| line.split_whitespace().collect::<Vec<_>>().join(" ");
    let lines = listing.lines().map(one_space).skip_while(|line| !line.starts_with(heads));
    lines.skip(1).take_while(|line| !line.is_empty()).collect()
}

#[test]
fn the_sample_is_what_the_tool_makes() {
    assert_eq!(listing(&sample("order.txt"), &[]), sample("order.listing"));
}

#[test]
fn one_row_for_each_operation_in_the_order() {
    let listing = listing("setup 2 1 3 5\n put 0 0 7\n step 0\n get 1 0\n step 1\n open 0", &[]);
    let expected = [
        // Stamped by the get's step, and unfinished.
        "1 put of 7 to register 0 0 1 4 - -",
        "2 get of register 0 1 3 4 4 value 7 0 7 0",
    ];
    assert_eq!(rows(&listing, "place operation"), expected, "{listing}");
    assert!(listing.ends_with(
        "an open snapshot needs, and none twice without its slot being taken in between.\n"
    ));
}

#[test]
fn refused_and_unfinished_operations_are_listed() {
    let script =
        "setup 2 1 1 4294967295\n put 0 0 7\n step 0\n open 0\n step 0\n collect 1\n step 1";
    let listing = listing(script, &[]);
    assert!(rows(&listing, "place operation").is_empty(), "{listing}");
    let expected = [
        "put of 7 to register 0 0 1 2 refused with 14: every slot is in some register's list",
        "open 0 3 4 refused with 15: the clock is at its last value",
        "collect 1 5 - unfinished and without effect: counts as not begun",
    ];
    assert_eq!(rows(&listing, "operation worker"), expected, "{listing}");
}

/// What is refused on reading is no operation; the values of those that are stand in full.
#[test]
fn puts_above_the_limit_are_not_listed() {
    let script = "setup 2 1 3 1\n put 0 0 1000000000000\n put 0 0 999999999999\n step 0 x3
        put 1 0 18446744073709551615\n get 1 0\n step 1";
    let listing = listing(script, &[]);
    let expected = [
        "1 put of 999999999999 to register 0 0 2 4 5 done",
        "2 get of register 0 1 7 8 8 value 999999999999 0 999999999999 0",
    ];
    assert_eq!(rows(&listing, "place operation"), expected, "{listing}");
    assert!(!listing.contains("1000000000000") && !listing.contains("Not in the order"));
    assert!(listing.contains("\n9 records, 2 operations: 2 finished, 0 refused, "), "{listing}");
}

#[test]
fn columns_line_up() {
    let values = [0, 9, 10, MAX_VALUE];
    let puts: String = values.iter().map(|x| format!("put 0 0 {x}\n step 0 x9\n")).collect();
    let listing = listing(&format!("setup 1 1 9 1\n {puts}"), &[]);
    let lines: Vec<&str> = listing
        .lines()
        .skip_while(|line| !line.starts_with("  place  operation"))
        .take(5)
        .collect();
    // The end of a column aligned to the right, the start of one aligned to the left.
    let end = lines[0].find("worker").unwrap() + "worker".len();
    let start = lines[0].find("answer").unwrap();
    for line in &lines[1..] {
        assert_eq!(&line[end - 3..end + 2], "  0  ", "{listing}");
        assert_eq!(&line[start - 2..], "  done", "{listing}");
    }
}

#[test]
fn a_broken_order_says_where() {
    let script = "setup 1 1 2 1\n get 0 0\n step 0\n get 0 0\n step 0";
    let broken = listing(script, &[(2, "value 3 0")]);
    let expected = [
        "1 get of register 0 0 1 2 2 value 3 0 no value",
        "2 get of register 0 0 3 4 4 none no value",
    ];
    assert_eq!(rows(&broken, "place operation"), expected, "{broken}");
    let verdict = "Not accepted: record 2: worker 0's get of register 0, begun by record 1, \
        answers `value 3 0` where no value is shown\n";
    assert!(broken.ends_with(verdict), "{broken}");
    // A read that was accepted without a snapshot.
    let script = "setup 1 1 2 1\n read 0 0\n step 0 x2";
    let replaced = [(1, "ok"), (2, "going"), (3, "value 0 0")];
    assert!(listing(script, &replaced).contains("value 0 0  no value\n"));
}

/// A put with the word of its status, but for 0; what is shown with its number; another one in words.
#[test]
fn statuses_are_listed() {
    let script = "setup 1 1 9 1\n put 0 0 7 estimated\n step 0 x8\n put 0 0 8 corrected\n step 0 x9
        get 0 0\n step 0";
    let (order, _) = examined(script, &[]);
    let last = order.records - 1;
    let listing = self::listing(script, &[]);
    let expected = [
        "1 put of 7, estimated, to register 0 0 1 3 9 done",
        "2 put of 8, corrected, to register 0 0 10 12 19 done",
        "3 get of register 0 0 20 21 21 value 8 2 8 2",
    ];
    assert_eq!(rows(&listing, "place operation"), expected, "{listing}");
    assert!(listing.contains("the value and status that a get or a read finds"), "{listing}");
    let broken = self::listing(script, &[(last, "value 8 1")]);
    assert!(broken.contains("value 8 1  8 2\n"), "{broken}");
    let verdict = "answers `value 8 1` where the put of 8 has status 2\n";
    assert!(broken.ends_with(verdict), "{broken}");
}

#[test]
fn a_slot_freed_twice_ends_the_order() {
    let script = "setup 1 1 3 1\n put 0 0 7\n step 0 x8\n collect 0\n step 0 x7";
    let (order, _) = examined(script, &[]);
    assert_eq!(order.freed, 1);
    let freed = order.steps.iter().position(|step| step.answer.to_string() == "freed 0").unwrap();
    let record = order.steps[freed].record;
    let listing = listing(script, &[(record + 1, "freed 0")]);
    let verdict = format!("\nNot accepted, and followed no further: record {}: slot 0", record + 1);
    assert!(listing.contains(&verdict), "{listing}");
}

/// Its rows in the order, and the registers of its group below.
#[test]
fn totals_are_listed_with_their_registers() {
    let rows = "3 + 0\n 3 - 1\n 3 - 1\n 4 - 0\n 5 + 1";
    let script =
        "setup 1 2 4 1\n put 0 1 7\n step 0 x9\n open 0\n step 0 x2\n total 0 3\n step 0 x6
        total 0 4\n step 0";
    let (order, violation) = examined_with(rows, script, &[]);
    let listing = Listing::new(&order, violation.as_ref()).to_string();
    let placed = self::rows(&listing, "place operation");
    assert_eq!(placed[2..], ["3 total of group 3 0 14 20 20 value -14 0 -14 0"], "{listing}");
    assert_eq!(
        self::rows(&listing, "operation worker"),
        ["total of group 4 0 21 - unfinished and without effect: counts as not begun"]
    );
    assert!(
        listing.contains("\nTotals:\n\n  group  sum\n      3  r0 - r1 - r1\n      4  -r0\n\n"),
        "{listing}"
    );
    assert!(listing.contains("every finished get, read and total answered"), "{listing}");
    assert!(listing.contains("a get, a read or a total finds"), "{listing}");
    // A wrong sum is told as a wrong value is.
    let (order, violation) = examined_with(rows, script, &[(20, "value 14 0")]);
    let listing = Listing::new(&order, violation.as_ref()).to_string();
    let verdict = "Not accepted: record 20: worker 0's total of group 3, begun by record 14, \
        answers `value 14 0` where -14 0 is shown\n";
    assert!(listing.ends_with(verdict), "{listing}");
}

#[test]
fn a_total_refused_with_18_is_listed() {
    let before = records("setup 1 1 4 1\n put 0 0 1000000000000\n step 0 x8\n open 0\n step 0 x2");
    let number = before.len() / 16;
    let records = [before, records("total 0 0\n step 0 x2")].concat();
    let script = Script { records, list: list("0 + 0"), ..Script::default() };
    let answers = across::<Right>(&script, number);
    let order =
        order::check(&script.records, &script.list, &script.table, &answers).expect("in order");
    let listing = Listing::new(&order, None).to_string();
    let why =
        "total of group 0 0 13 15 refused with 18: a value to be summed is above 999999999999";
    assert_eq!(rows(&listing, "operation worker"), [why], "{listing}");
}

/// Without a value in the column of the plain registers, and in the sentences only where there are
/// such.
#[test]
fn registers_without_a_value_are_listed() {
    let script = "setup 1 2 4 1\n get 0 1\n step 0\n put 0 0 0\n step 0 x8\n get 0 0\n step 0";
    let listing = listing(script, &[]);
    let expected = [
        "1 get of register 1 0 1 2 2 none no value",
        "2 put of 0 to register 0 0 3 5 11 done",
        "3 get of register 0 0 12 13 13 value 0 0 0 0",
    ];
    assert_eq!(rows(&listing, "place operation"), expected, "{listing}");
    let one_line = listing.split_whitespace().collect::<Vec<_>>().join(" ");
    assert!(one_line.contains("in this order; no value before the first put place"), "{listing}");
    let accepted = "answered what plain registers show, `none` where that is no value. No version";
    assert!(one_line.contains(accepted), "{listing}");
    // A wrong `none` is told as a wrong value is.
    let broken = self::listing(script, &[(13, "none")]);
    assert!(broken.ends_with("answers `none` where 0 0 is shown\n"), "{broken}");
}

/// With what each mark held below, and why an operation on a mark was refused at its step.
#[test]
fn marks_are_listed_with_what_they_held() {
    let script = "setup 2 1 4 5\n open 0\n step 0 x2\n mark 0 3\n step 0\n open 1\n step 1 x2\n mark 1 11
        step 1\n release 0 3\n marked 1 0 3\n step 1\n step 0\n step 1\n release 0 3\n release 1 3\n step 0
        step 1\n open 0\n mark 0 3\n mark 1 3\n step 0\n step 1";
    let listing = listing(script, &[]);
    let expected = [
        "1 open 0 1 3 3 at 5",
        "2 mark 3 0 4 5 5 done",
        "3 open 1 6 8 8 at 6",
        "4 mark 11 1 9 10 10 done",
        "5 read of register 0 at mark 3 1 12 15 15 none no value",
        "6 release of mark 3 0 16 18 18 done",
        "7 mark 3 0 21 23 23 done",
    ];
    assert_eq!(rows(&listing, "place operation"), expected, "{listing}");
    let expected = [
        "release of mark 3 0 11 14 refused with 21: a read of the mark runs",
        "release of mark 3 1 17 19 refused with 20: mark empty",
        "mark 3 1 22 24 refused with 19: mark in use",
    ];
    assert_eq!(rows(&listing, "operation worker"), expected, "{listing}");
    let expected = ["3 5 0 5 18", "11 6 1 10 -", "3 5 0 23 -"];
    assert_eq!(rows(&listing, "mark time"), expected, "{listing}");
    for words in ["a get, a read or a marked read finds", "or a held mark needs"] {
        assert!(listing.contains(words), "{listing}");
    }
}
