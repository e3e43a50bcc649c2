//! A8: the status of each version, 25 in its place, and what is shown through snapshots, marks and totals,
//! as words of the log.

use hublog_tests::{agree, printed_with};
use reference::generate::Script;
use reference::text;

fn records(script: &str) -> Vec<u8> {
    text::pack(script.as_bytes()).expect("a well-formed script")
}

/// Holds both programs to a script with a list and a table; gives the words of its log.
fn told(rows: &str, rights: &str, script: &str) -> Vec<String> {
    let list = text::pack_list(rows.as_bytes()).expect("a well-formed list");
    let table = text::pack_table(rights.as_bytes()).expect("a well-formed table");
    let both = Script { records: records(script), list, table };
    agree(script, &both);
    let text = printed_with(&both.records, &both.list, &both.table, &[]);
    let text = String::from_utf8(text).expect("plain text");
    text.lines().filter_map(|line| Some(line.split_once(' ')?.1.to_string())).collect()
}

/// The last of them.
fn last(rows: &str, script: &str) -> String {
    told(rows, "", script).pop().expect("a record")
}

/// Every value of byte 4, on an idle and on a busy worker; bytes 5 to 7 are still unused.
#[test]
fn every_status_of_a_put() {
    for status in 0..=255 {
        let script = format!(
            "setup 2 1 3 1\n put 0 0 7 {status}\n put 0 0 7 {status}\n step 0 x3\n get 1 0\n step 1"
        );
        let shown = format!("value 7 {status}");
        let expected = match status {
            ..3 => ["ok", "ok", "no 10", "going", "going", "done", "ok", &shown],
            _ => ["ok", "no 25", "no 25", "no 11", "no 11", "no 11", "ok", "none"],
        };
        assert_eq!(told("", "", &script), expected, "{status}");
    }
    for byte in ["00 01 00 00", "01 01 00 00", "02 00 01 00", "03 00 00 80", "ff 00 00 01"] {
        let put = format!("bytes 01 00 00 00 {byte} 07 00 00 00 00 00 00 00");
        assert_eq!(last("", &format!("setup 1 1 3 1\n {put}")), "no 2", "{byte}");
    }
}

/// Worker 1 may put to register 0 and not to register 1.
const RIGHTS: &str = "worker 0 put read registers 0 to 9\n worker 1 put read registers 0 to 0";

/// After 3, 4 and 16, before 23 and 10: each reason with and without the ones before and after it.
#[test]
fn where_25_stands() {
    let puts = "put 2 0 7 3\n put 1 2 7 3\n put 1 0 1000000000000 3\n put 1 1 1000000000000 3
        put 1 0 999999999999 3\n put 1 1 7 3\n put 1 1 7 255\n put 1 1 7 2\n put 1 0 7 4\n put 1 0 7 2";
    let before = ["no 3", "no 4", "no 16", "no 16", "no 25", "no 25", "no 25", "no 23", "no 25"];
    let idle = told("", RIGHTS, &format!("put 0 0 7 3\n setup 2 2 6 1\n {puts}"));
    assert_eq!(idle, [&["no 8", "ok"][..], &before, &["ok"]].concat());
    let busy = told("", RIGHTS, &format!("setup 2 2 6 1\n get 1 0\n {puts}\n step 1"));
    assert_eq!(busy, [&["ok", "ok"][..], &before, &["no 10", "none"]].concat());
    // 6, 1 and 2 come before it too.
    let bytes = "setup 1 1 2 1\n bytes 01 00 00 00 03 01 00 00 07 00 00 00 00 00 00 00
        bytes 0c 00 00 00 03 00 00 00 07 00 00 00 00 00 00 00
        bytes 01 00 00 00 03 00 00 00 07 00 00 00 00 00 00";
    assert_eq!(told("", "", bytes), ["ok", "no 2", "no 1", "no 6"]);
}

/// Register 0 has an estimate of 100, of which worker 1 has a snapshot and mark 0 keeps it; then the
/// correction of 90 comes.
const CORRECTION: &str = "setup 3 2 9 1\n put 0 0 100 estimated\n step 0 x3\n open 1\n step 1 x2
    mark 1 0\n step 1\n put 0 0 90 corrected\n step 0 x3";

/// By a snapshot, a mark and a total from before the correction, and by those from after it.
#[test]
fn an_old_value_has_its_old_status() {
    let shown = |script: &str| last("0 - 0\n 0 + 1", &format!("{CORRECTION}\n {script}"));
    assert_eq!(shown("get 2 0\n step 2"), "value 90 2");
    assert_eq!(shown("read 1 0\n step 1 x3"), "value 100 1");
    assert_eq!(shown("marked 2 0 0\n step 2 x3"), "value 100 1");
    assert_eq!(shown("total 1 0\n step 1 x5"), "value -100 1");
    let newer = "open 2\n step 2 x2\n mark 2 1\n step 2\n put 0 0 95\n step 0 x3";
    assert_eq!(shown(&format!("{newer}\n read 2 0\n step 2 x3")), "value 90 2");
    assert_eq!(shown(&format!("{newer}\n marked 0 0 1\n step 0 x3")), "value 90 2");
    assert_eq!(shown(&format!("{newer}\n total 2 0\n step 2 x5")), "value -90 2");
    assert_eq!(shown(&format!("{newer}\n read 1 0\n step 1 x4")), "value 100 1");
    assert_eq!(shown(&format!("{newer}\n get 2 0\n step 2")), "value 95 0");
}

/// Each pair of statuses, one after the other on a register: a get before, between and after the steps of
/// the second put, and a read from before it.
#[test]
fn each_status_over_each_other() {
    for (first, second) in (0..3).flat_map(|first| (0..3).map(move |second| (first, second))) {
        let script = format!(
            "setup 3 1 6 1\n put 0 0 7 {first}\n step 0 x3\n open 1\n step 1 x2\n put 0 0 8 {second}
            get 2 0\n step 2\n step 0\n get 2 0\n step 2\n step 0 x2\n get 2 0\n step 2\n read 1 0\n step 1 x3"
        );
        let words = told("", "", &script);
        let shown: Vec<&String> = words.iter().filter(|word| word.starts_with("value")).collect();
        let [old, new] = [format!("value 7 {first}"), format!("value 8 {second}")];
        assert_eq!(shown, [&old, &new, &new, &old], "{script}");
    }
}

/// A slot that held a correction is freed and taken by a put of status 0, and by one on another register.
#[test]
fn a_slot_that_is_taken_again() {
    let script = "setup 1 2 4 1\n put 0 0 5 corrected\n step 0 x8\n put 0 0 6 estimated\n step 0 x9
        collect 0\n step 0 x6\n put 0 1 9\n step 0 x9";
    assert!(told("", "", script).contains(&"freed 2".to_string()));
    assert_eq!(last("", &format!("{script}\n get 0 1\n step 0")), "value 9 0");
    assert_eq!(last("", &format!("{script}\n get 0 0\n step 0")), "value 6 1");
}

/// Registers 0 to 2 with 100, 20 and 3 of statuses 0, 1 and 2; registers 3 and 4 without a reading;
/// register 5 with 0 of status 2.
const STATUSES: &str = "setup 2 6 24 1\n put 0 0 100\n step 0 x3\n put 0 1 20 estimated\n step 0 x9
    put 0 2 3 corrected\n step 0 x3\n put 0 5 0 corrected\n step 0 x16\n open 1\n step 1 x2";

#[test]
fn a_total_shows_the_largest_status() {
    for (rows, answer) in [
        ("0 + 0", "value 100 0"),
        ("0 + 1", "value 20 1"),
        ("0 - 2", "value -3 2"),
        // The largest in the last row, in the first, and in the middle.
        ("0 + 0\n 0 + 1", "value 120 1"),
        ("0 + 1\n 0 + 0", "value 120 1"),
        ("0 - 1\n 0 - 2\n 0 - 0", "value -123 2"),
        ("0 + 2\n 0 + 1\n 0 + 0", "value 123 2"),
        ("0 + 0\n 0 + 1\n 0 - 2", "value 117 2"),
        // A register without a reading reads no status; one of 0 does.
        ("0 + 1\n 0 + 3", "value 20 1"),
        ("0 - 3\n 0 - 0\n 0 - 4", "value -100 0"),
        ("0 + 5\n 0 + 0", "value 100 2"),
        ("0 + 5", "value 0 2"),
        ("0 + 1\n 0 - 1", "value 0 1"),
        // No reading at all.
        ("0 + 3", "value 0 0"),
        ("0 - 3\n 0 + 4\n 0 - 3", "value 0 0"),
    ] {
        let steps = 2 * rows.lines().count();
        let script = format!("{STATUSES}\n total 1 0\n step 1 x{steps}");
        assert_eq!(last(rows, &script), answer, "{rows}");
    }
    // The rows of the longest group, one of which is corrected: at each place.
    for place in 0..32 {
        let rows: String =
            (0..32).map(|row| if row == place { "0 + 2\n" } else { "0 + 1\n" }).collect();
        let script = format!("{STATUSES}\n total 1 0\n step 1 x64");
        assert_eq!(last(&rows, &script), "value 623 2", "{place}");
    }
}

/// A total begins without a status, and a correction that comes under it is not in it.
#[test]
fn a_total_has_the_statuses_of_its_own_time() {
    let rows = "0 + 2\n 1 + 0\n 2 + 0\n 2 + 1";
    let two = format!("{STATUSES}\n total 1 0\n step 1 x2\n total 1 1\n step 1 x2");
    assert_eq!(last(rows, &two), "value 100 0");
    let under = format!(
        "{STATUSES}\n total 1 2\n step 1 x2\n put 0 1 21 corrected\n step 0 x3\n step 1 x3"
    );
    assert_eq!(last(rows, &under), "value 120 1");
    let later = format!("{under}\n close 1\n step 1\n open 1\n step 1 x2\n total 1 2\n step 1 x4");
    assert_eq!(last(rows, &later), "value 121 2");
}
