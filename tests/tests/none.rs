//! A5: registers without a reading, puts of 0 and what is between them, as words of the log.

use hublog_tests::{agree, printed};
use reference::generate::Script;
use reference::text;

/// Holds both programs to a script with a list, and the words after its setup to these.
fn holds(rows: &str, script: &str, words: &[&str]) {
    let records = text::pack(script.as_bytes()).expect("a well-formed script");
    let list = text::pack_list(rows.as_bytes()).expect("a well-formed list");
    let both = Script { records, list, ..Script::default() };
    agree(script, &both);
    let text = String::from_utf8(printed(&both.records, &both.list, &[])).expect("plain text");
    let told: Vec<&str> = text.lines().filter_map(|line| Some(line.split_once(' ')?.1)).collect();
    assert_eq!((told[0], &told[1..]), ("ok", words), "{script}");
}

#[test]
fn registers_start_without_a_reading() {
    holds(
        "",
        "setup 2 2 4 1\n get 0 0\n step 0\n get 0 1\n step 0\n open 1\n step 1 x2\n read 1 1\n step 1 x2
        mark 1 11\n step 1\n close 1\n step 1\n marked 0 0 11\n step 0 x2",
        &[
            "ok", "none", "ok", "none", "ok", "going", "at 1", "ok", "going", "none", "ok", "done",
            "ok", "done", "ok", "going", "none",
        ],
    );
    // All of the largest hub.
    let gets: String = (0..256).map(|register| format!("get 0 {register}\n step 0\n")).collect();
    holds("", &format!("setup 1 256 2048 1\n {gets}"), &["ok", "none"].repeat(256));
}

/// A put of 0 is `value 0 0`, by a get, a read and a marked read; the snapshot from before has none.
#[test]
fn a_put_of_0() {
    holds(
        "",
        "setup 3 1 4 1\n open 1\n step 1 x2\n put 0 0 0\n step 0 x3\n get 0 0\n step 0
        open 2\n step 2 x2\n read 2 0\n step 2 x2\n mark 2 0\n step 2\n marked 0 0 0\n step 0 x2
        read 1 0\n step 1 x3\n mark 1 1\n step 1\n marked 0 0 1\n step 0 x3",
        &[
            "ok",
            "going",
            "at 1",
            "ok",
            "going",
            "going",
            "done",
            "ok",
            "value 0 0",
            "ok",
            "going",
            "at 2",
            "ok",
            "going",
            "value 0 0",
            "ok",
            "done",
            "ok",
            "going",
            "value 0 0",
            "ok",
            "going",
            "going",
            "none",
            "ok",
            "done",
            "ok",
            "going",
            "going",
            "none",
        ],
    );
}

/// The first put is published and not yet stamped: a get stamps it and shows it, a read at an earlier
/// time stamps it and shows none.
#[test]
fn a_first_put_that_is_not_stamped() {
    let published = "setup 3 1 4 5\n open 1\n step 1 x2\n put 0 0 7\n step 0\n";
    let words = ["ok", "going", "at 5", "ok", "going"];
    let get = ["ok", "value 7 0", "going", "done"];
    holds("", &format!("{published} get 2 0\n step 2\n step 0 x2"), &[&words[..], &get].concat());
    let read = ["ok", "going", "going", "none", "ok", "value 7 0"];
    holds(
        "",
        &format!("{published} read 1 0\n step 1 x3\n get 2 0\n step 2"),
        &[&words[..], &read].concat(),
    );
}

/// Freed, the slot of a version from setup holds a reading as any other slot does.
#[test]
fn a_slot_from_setup_that_is_taken_again() {
    let going = |count: usize| vec!["going"; count];
    let words = [
        &["ok"][..],
        &going(7),
        &["done", "ok"],
        &going(4),
        &["freed 0", "done", "ok"],
        &going(7),
        &["done", "ok", "value 9 0", "ok", "value 5 0"],
    ];
    holds(
        "",
        "setup 1 2 3 1\n put 0 0 5\n step 0 x8\n collect 0\n step 0 x6\n put 0 1 9\n step 0 x8
        get 0 1\n step 0\n get 0 0\n step 0",
        &words.concat(),
    );
}

/// A total adds 0 for a register without a reading, and its answer is a value.
#[test]
fn totals_add_0() {
    let going = |count: usize| vec!["going"; count];
    let words = [
        &["ok", "going", "going", "done", "ok", "going", "at 1", "ok"][..],
        &going(5),
        &["value 20 0", "ok", "going", "value 0 0", "ok", "going", "going", "going", "value -20 0"],
    ];
    holds(
        "0 + 0\n 0 + 1\n 0 - 2\n 1 - 2\n 2 + 2\n 2 - 1",
        "setup 2 3 8 1\n put 0 1 20\n step 0 x3\n open 1\n step 1 x2\n total 1 0\n step 1 x6
        total 1 1\n step 1 x2\n total 1 2\n step 1 x4",
        &words.concat(),
    );
}
