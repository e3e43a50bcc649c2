//! A3: marks, releases and marked reads, and the flush that reads all marks, as words of the log.

use hublog_tests::{agree, printed};
use reference::generate::Script;
use reference::text;

fn records(script: &str) -> Vec<u8> {
    text::pack(script.as_bytes()).expect("a well-formed script")
}

/// Two workers, two registers. Worker 1 has a snapshot at 1 of 5 in register 0, in slot 2.
const SNAPSHOT: &str = "setup 2 2 9 1\n put 0 0 5\n step 0 x3\n open 1\n step 1 x2";

/// Holds both programs to a script after that, and its log to these words.
fn holds(script: &str, words: &[&str]) {
    let both = Script::plain(records(&format!("{SNAPSHOT}\n {script}")));
    agree(script, &both);
    let text = String::from_utf8(printed(&both.records, &[], &[])).expect("plain text");
    let first = records(SNAPSHOT).len() / 16;
    let told: Vec<&str> = text.lines().filter_map(|line| Some(line.split_once(' ')?.1)).collect();
    assert_eq!(told[first..], *words, "{script}");
}

/// The words of each command, `going xN` for so many.
fn told(commands: &[(&str, &[&str])]) {
    let script: Vec<&str> = commands.iter().map(|(script, _)| *script).collect();
    let mut words = Vec::new();
    for word in commands.iter().flat_map(|(_, words)| *words) {
        match word.split_once(" x") {
            Some((word, count)) => {
                let count = count.parse().expect("a number");
                words.extend(std::iter::repeat_n(word, count));
            }
            None => words.push(*word),
        }
    }
    holds(&script.join("\n"), &words);
}

/// The end of the month: what the export read is read again, and then freed.
#[test]
fn a_mark_keeps_a_moment() {
    told(&[
        ("mark 1 3\n step 1\n close 1\n step 1", &["ok", "done", "ok", "done"]),
        ("put 0 0 6\n step 0 x9", &["ok", "going x8", "done"]),
        ("put 0 0 7\n step 0 x3\n collect 0", &["ok", "going x2", "done", "ok"]),
        ("step 0 x7", &["going x5", "freed 0", "done"]),
        ("collect 0\n step 0 x7", &["ok", "going x5", "freed 3", "done"]),
        ("marked 1 0 3\n step 1 x3", &["ok", "going x2", "value 5 0"]),
        ("get 1 0\n step 1", &["ok", "value 7 0"]),
        ("release 1 3\n step 1\n marked 1 0 3", &["ok", "done", "no 20"]),
        ("collect 0\n step 0 x7", &["ok", "going x5", "freed 2", "done"]),
    ]);
}

/// The time goes from the worker to the mark while a flush reads: it is read in one place or the
/// other.
#[test]
fn a_time_that_moves_to_a_mark_is_read() {
    for steps in 0..3 {
        let (before, after) = (1 + steps, 5 - steps);
        let script = format!(
            "put 0 0 6\n step 0 x9\n collect 0\n step 0 x{before}\n mark 1 3\n step 1\n close 1\n step 1
            step 0 x{after}\n step 0\n marked 1 0 3\n step 1 x3"
        );
        let words = [
            &["ok"][..],
            &["going"; 8],
            &["done", "ok"],
            &vec!["going"; before],
            &["ok", "done", "ok", "done"],
            &vec!["going"; after - 1],
            &["freed 0", "done", "ok", "going", "going", "value 5 0"],
        ];
        holds(&script, &words.concat());
    }
}

/// A marked read on a version that is freed goes on with the older one.
#[test]
fn a_marked_read_moves_off_a_freed_version() {
    told(&[
        ("mark 1 3\n step 1\n close 1\n step 1", &["ok", "done", "ok", "done"]),
        (
            "put 0 0 6\n step 0 x9\n marked 1 0 3\n step 1",
            &["ok", "going x8", "done", "ok", "going"],
        ),
        ("put 0 0 7\n step 0 x3", &["ok", "going x2", "done"]),
        ("collect 0\n step 0 x7", &["ok", "going x5", "freed 0", "done"]),
        ("collect 0\n step 0 x7", &["ok", "going x5", "freed 3", "done"]),
        ("put 0 1 1000\n step 0 x3\n step 1", &["ok", "going x2", "done", "value 5 0"]),
    ]);
}

/// The mark's time and not the worker's own.
#[test]
fn a_marked_read_has_its_own_time() {
    told(&[
        ("mark 1 11\n step 1\n close 1\n step 1", &["ok", "done", "ok", "done"]),
        ("put 0 0 6\n step 0 x9", &["ok", "going x8", "done"]),
        ("open 1\n step 1 x2\n mark 1 0\n step 1", &["ok", "going", "at 2", "ok", "done"]),
        ("marked 1 0 11\n step 1 x3", &["ok", "going x2", "value 5 0"]),
        ("marked 1 0 0\n step 1 x2", &["ok", "going", "value 6 0"]),
        ("read 1 0\n step 1 x2", &["ok", "going", "value 6 0"]),
        ("marked 0 1 0\n step 0 x2", &["ok", "going", "none"]),
    ]);
}

/// 4, 10, 13, 19, 20 and 21 where the operation begins, with those before them.
#[test]
fn where_the_refusals_stand() {
    told(&[
        ("mark 1 3\n step 1", &["ok", "done"]),
        (
            "mark 1 3\n mark 0 3\n mark 0 4\n mark 0 12\n mark 2 12",
            &["no 19", "no 13 x2", "no 4", "no 3"],
        ),
        ("mark 1 12\n mark 1 256\n mark 1 259\n mark 1 65535", &["no 4 x4"]),
        ("release 0 4\n release 0 12\n release 0 259\n release 2 4", &["no 20", "no 4 x2", "no 3"]),
        ("marked 0 0 4\n marked 0 2 3\n marked 0 0 12\n marked 0 2 12", &["no 20", "no 4 x3"]),
        ("marked 0 0 255\n marked 2 0 3", &["no 4", "no 3"]),
        ("get 1 0\n mark 1 3\n mark 1 4\n mark 1 12", &["ok", "no 10 x2", "no 4"]),
        ("release 1 4\n release 1 12\n marked 1 0 4", &["no 10", "no 4", "no 10"]),
        ("marked 1 2 3\n marked 1 0 12\n step 1", &["no 4 x2", "value 5 0"]),
        ("marked 1 0 3\n release 0 3\n step 0", &["ok", "ok", "done"]),
        ("step 1\n step 1\n mark 1 3\n step 1", &["no 20", "no 11", "ok", "done"]),
        ("marked 1 0 3\n step 1\n release 0 3\n step 1", &["ok", "going", "no 21", "value 5 0"]),
        ("release 0 3\n step 0", &["ok", "done"]),
        ("bytes 09 01 03 00 01 00 00 00 00 00 00 00 00 00 00 00", &["no 2"]),
        ("bytes 0a 01 03 00 00 00 00 00 00 00 00 00 00 00 00 80", &["no 2"]),
        ("bytes 0b 01 00 00 03 01 00 00 00 00 00 00 00 00 00 00", &["no 2"]),
        ("bytes 0c 01 00 00 00 00 00 00 00 00 00 00 00 00 00 00", &["no 1"]),
        ("bytes 0b 01 00 00 03 00 00 00 00 00 00 00 00 00 00", &["no 6"]),
    ]);
    let before = Script::plain(records("mark 0 0\n mark 255 12\n release 0 0\n marked 0 0 0"));
    agree("before setup", &before);
    assert_eq!(printed(&before.records, &[], &[]), b"0 no 8\n1 no 8\n2 no 8\n3 no 8\n");
}

/// 19, 20 and 21 at a step: the worker goes idle.
#[test]
fn refusals_at_the_step() {
    told(&[
        ("open 0\n step 0 x2\n mark 0 3\n mark 1 3", &["ok", "going", "at 2", "ok x2"]),
        ("step 1\n step 0\n step 0\n mark 0 3", &["done", "no 19", "no 11", "no 19"]),
        ("release 0 3\n marked 1 0 3\n step 1", &["ok x2", "going"]),
        ("step 0\n step 0\n step 1", &["no 21", "no 11", "value 5 0"]),
        ("release 0 3\n release 1 3\n step 0\n step 1 x2", &["ok x2", "done", "no 20", "no 11"]),
        ("mark 0 3\n step 0\n marked 1 0 3\n release 0 3", &["ok", "done", "ok x2"]),
        ("step 0\n step 1 x2", &["done", "no 20", "no 11"]),
    ]);
}

/// All twelve, each with a time of its own.
#[test]
fn twelve_marks() {
    let mut script = "setup 1 1 30 1\n".to_string();
    for mark in 0..12 {
        script += &format!("put 0 0 {}\n step 0 x16\n open 0\n step 0 x2\n", 100 + mark);
        script += &format!("mark 0 {mark}\n step 0\n close 0\n step 0\n");
    }
    script += "put 0 0 999\n step 0 x16\n collect 0\n step 0 x16\n";
    (0..12).for_each(|mark| script += &format!("marked 0 0 {mark}\n step 0 x16\n"));
    let both = Script::plain(records(&script));
    agree("twelve marks", &both);
    let text = String::from_utf8(printed(&both.records, &[], &[])).expect("plain text");
    let shown: Vec<&str> = text.lines().filter(|line| line.contains("value")).collect();
    assert_eq!(shown.len(), 12);
    for (mark, line) in shown.iter().enumerate() {
        assert!(line.ends_with(&format!(" value {} 0", 100 + mark)), "{line}");
    }
}
