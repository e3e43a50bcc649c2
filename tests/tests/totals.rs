//! A2: the list of a setup, handed by a file, and totals, as words of the log.

use hublog_tests::{agree, hublog, printed, Named};
use reference::generate::Script;
use reference::{log, text, Hub};
use std::io::Write;
use std::path::Path;
use std::process::{Output, Stdio};

fn records(script: &str) -> Vec<u8> {
    text::pack(script.as_bytes()).expect("a well-formed script")
}

fn list(rows: &str) -> Vec<u8> {
    text::pack_list(rows.as_bytes()).expect("a well-formed list")
}

/// Holds both programs to a script with a list, and its log to these words.
fn holds(list: Vec<u8>, script: &str, words: &[&str]) {
    let both = Script { records: records(script), list, ..Script::default() };
    agree(script, &both);
    let expected: String =
        words.iter().enumerate().map(|(i, word)| format!("{i} {word}\n")).collect();
    let text = printed(&both.records, &both.list, &[]);
    assert_eq!(String::from_utf8(text).unwrap(), expected, "{script}, {:?}", both.list);
}

#[test]
fn one_register_after_another() {
    let readings =
        "setup 2 3 20 1\n put 0 0 100\n step 0 x3\n put 0 1 20\n step 0 x9\n open 1\n step 1 x2\n";
    let before = [
        &["ok", "ok", "going", "going", "done", "ok"][..],
        &["going"; 8],
        &["done", "ok", "going", "at 1", "ok"],
    ]
    .concat();
    let rows = "2 + 1\n 7 + 0\n 7 - 1\n 7 - 1\n 8 - 0\n 9 - 2\n 9 + 2";
    for (group, steps, answer) in
        [(2, 2, "value 20 0"), (7, 6, "value 60 0"), (8, 2, "value -100 0"), (9, 4, "value 0 0")]
    {
        let script = format!("{readings} total 1 {group}\n step 1 x{}", steps + 1);
        let steps = [&vec!["going"; steps - 1][..], &[answer, "no 11"]].concat();
        holds(list(rows), &script, &[&before[..], &steps].concat());
    }
}

/// The snapshot's values, though newer ones come before the total does, and under it.
#[test]
fn the_sum_is_of_one_time() {
    holds(
        list("0 + 0\n 0 - 1"),
        "setup 2 2 12 1\n put 0 0 5\n step 0 x3\n put 0 1 2\n step 0 x9\n open 1\n step 1 x2
        put 0 0 6\n step 0 x3\n total 1 0\n step 1\n put 0 1 9\n step 0\n step 1 x2\n put 0 0 4\n step 0 x2
        step 1\n put 0 1 3\n step 1 x2",
        &[
            "ok", "ok", "going", "going", "done", "ok", "going", "going", "going", "going", "going", "going",
            "going", "going", "done", "ok", "going", "at 1", "ok", "going", "going", "done", "ok", "going", "ok", "going",
            "going", "going", "no 10", "going", "going", "going", "no 10", "going", "value 3 0",
        ],
    );
}

/// A total on a version that is freed goes on with the older one.
#[test]
fn a_total_moves_off_a_freed_version() {
    let script =
        "setup 2 2 5 1\n put 0 0 5\n step 0 x3\n open 1\n step 1 x2\n put 0 0 6\n step 0 x9
        total 1 0\n step 1\n put 0 0 7\n step 0 x3\n collect 0\n step 0 x7\n collect 0\n step 0 x7
        put 0 1 1000\n step 0 x3\n step 1";
    let (records, list) = (records(script), list("0 + 0"));
    let both = Script { records, list, ..Script::default() };
    agree("a freed version", &both);
    let text = String::from_utf8(printed(&both.records, &both.list, &[])).unwrap();
    assert!(text.contains(" freed 3\n") && text.ends_with(" value 5 0\n"), "{text}");
}

#[test]
fn sums_at_the_extremes() {
    let script = "setup 1 1 8 1\n put 0 0 999999999999\n step 0 x8\n open 0\n step 0 x2\n total 0 3\n step 0 x64";
    for (rows, sum) in [
        ("3 + 0\n".repeat(32), "31999999999968"),
        ("3 - 0\n".repeat(32), "-31999999999968"),
        ("3 + 0\n".repeat(16) + &"3 - 0\n".repeat(16), "0"),
        ("3 - 0\n".repeat(16) + &"3 + 0\n".repeat(15), "-999999999999"),
    ] {
        let both = Script { records: records(script), list: list(&rows), ..Script::default() };
        agree(&rows, &both);
        let text = String::from_utf8(printed(&both.records, &both.list, &[])).unwrap();
        assert!(text.contains(&format!(" value {sum} 0\n")), "{sum}: {text}");
    }
}

/// 17 in the place of 4: after 3, before 10 and 13; and the group in bytes 2 and 3 alone.
#[test]
fn where_17_stands() {
    holds(
        list("0 + 0\n 2 + 0"),
        "total 0 1\n setup 2 1 4 1\n total 2 1\n total 0 1\n total 0 0\n get 0 0\n total 0 1\n total 0 0\n step 0
        open 0\n step 0 x2\n total 0 1\n total 0 32\n total 0 256\n total 0 258\n total 0 65535\n total 0 2
        total 0 0\n total 0 3\n step 0 x2
        bytes 08 00 00 00 01 00 00 00 00 00 00 00 00 00 00 00
        bytes 08 00 00 00 00 00 00 00 00 00 00 00 00 00 00 80
        bytes 0c 00 00 00 00 00 00 00 00 00 00 00 00 00 00 00
        bytes 08 00 00 00 00 00 00 00 00 00 00 00 00 00 00",
        &[
            "no 8", "ok", "no 3", "no 17", "no 13", "ok", "no 17", "no 10", "none", "ok", "going", "at 1",
            "no 17", "no 17", "no 17", "no 17", "no 17", "ok", "no 10", "no 17", "going", "value 0 0", "no 2",
            "no 2", "no 1", "no 6",
        ],
    );
}

/// Each row of a list that is none, alone and after one that fits; a setup's other reasons, and 9.
#[test]
fn lists_that_are_none() {
    let script = "setup 1 2 3 1\n setup 17 2 3 1\n total 0 0";
    for rows in [
        "bytes 00",
        "bytes 00 00",
        "bytes 00 00 00",
        "bytes 00 02 00 00",
        "bytes 00 ff 00 00",
        "0 + 2",
        "0 - 256",
        "0 + 65535",
        "32 + 0",
        "255 + 0",
    ] {
        holds(list(rows), script, &["no 5", "no 5", "no 8"]);
        holds(list(&format!("0 + 0\n {rows}")), script, &["no 5", "no 5", "no 8"]);
    }
    for rows in
        ["1 + 0\n 0 + 0", "4 + 0\n 31 + 0\n 30 + 0", &"0 + 0\n".repeat(33), &"31 - 1\n".repeat(33)]
    {
        holds(list(rows), script, &["no 5", "no 5", "no 8"]);
    }
    let fit = "setup 17 2 3 1\n setup 1 2 3 1\n setup 1 2 3 1\n setup 1 1 3 1\n setup 0 0 0 0";
    for rows in ["", "0 + 1", "0 + 0\n 0 + 0\n 31 - 1", &"31 - 1\n".repeat(32)] {
        holds(list(rows), fit, &["no 5", "ok", "no 9", "no 9", "no 9"]);
    }
}

/// One byte of a row at a time.
#[test]
fn every_byte_of_a_row() {
    for byte in 0..4 {
        for value in (0..10).chain([31, 32, 127, 128, 254, 255]) {
            let mut list = [4, 0, 2, 0, 6, 1, 0, 0, 8, 0, 1, 0];
            list[4 + byte] = value;
            let fits = match byte {
                0 => (4..=8).contains(&value),
                1 => value <= 1,
                2 => value <= 2,
                _ => value == 0,
            };
            holds(list.to_vec(), "setup 1 3 3 1", &[if fits { "ok" } else { "no 5" }]);
        }
    }
}

/// A put of 7, a snapshot, and totals of groups 0 and 31.
const SUMMED: &str = "setup 1 1 4 1\n put 0 0 7\n step 0 x8\n open 0\n step 0 x2\n total 0 0\n step 0 x64\n total 0 31\n step 0 x64";

/// What it prints for that with these arguments.
fn printed_with(arguments: &[&Path]) -> String {
    let output = hublog_on(arguments, &records(SUMMED));
    assert!(output.status.success() && output.stderr.is_empty(), "{output:?}");
    String::from_utf8(output.stdout).expect("plain text")
}

fn hublog_on(arguments: &[&Path], input: &[u8]) -> Output {
    let mut child = hublog().args(arguments).stderr(Stdio::piped()).spawn().expect("hublog starts");
    let mut stdin = child.stdin.take().expect("piped");
    // It may end before it has read anything.
    let _ = stdin.write_all(input);
    drop(stdin);
    child.wait_with_output().expect("it ends")
}

/// The log of the second program with this list.
fn expected(list: &[u8]) -> String {
    let answers = log::answers(&mut Hub::new(), &records(SUMMED), list);
    String::from_utf8(log::log_text(&answers)).expect("plain text")
}

#[test]
fn a_missing_argument_or_file_gives_no_list() {
    let plain = expected(&[]);
    assert!(plain.contains(" no 17\n") && plain.starts_with("0 ok\n"));
    assert_eq!(printed_with(&[]), plain);
    assert_eq!(printed_with(&[Named::nothing().as_ref()]), plain);
    assert_eq!(printed_with(&[Path::new("")]), plain);
    assert_eq!(printed_with(&[Named::file(&[]).as_ref()]), plain);
}

/// The longest list fits; a byte more or several millions do not.
#[test]
fn the_longest_list_and_longer_ones() {
    let longest: String = (0..32).map(|group| format!("{group} - 0\n").repeat(32)).collect();
    let longest = list(&longest);
    assert_eq!(longest.len(), 4096);
    let text = printed_with(&[Named::file(&longest).as_ref()]);
    assert_eq!(text, expected(&longest));
    assert_eq!(text.matches(" value -224 0\n").count(), 2);
    let refused = expected(&[0; 3]);
    assert!(refused.starts_with("0 no 5\n1 no 8\n"));
    for length in [4095, 4097, 4098, 4100, 8192, 3_000_000, 5_000_001] {
        let long: Vec<u8> = longest.iter().cycle().take(length).copied().collect();
        assert_eq!(printed_with(&[Named::file(&long).as_ref()]), refused, "{length} bytes");
    }
    // No more is read than is needed: this one has no end.
    assert_eq!(printed_with(&[Path::new("/dev/zero")]), refused);
}

/// A file that is there and cannot be read is an error, said before any record is read.
#[test]
fn a_list_that_cannot_be_read_is_an_error() {
    let fails = |name: &Path| {
        let Output { stdout, stderr, .. } = hublog_on(&[name], &records(SUMMED));
        assert!(stdout.is_empty(), "{name:?}");
        assert_eq!(stderr, b"hublog: cannot read the list of totals\n", "{name:?}");
        // It does not wait for standard input.
        let mut child = hublog().arg(name).stderr(Stdio::piped()).spawn().expect("it starts");
        let open = child.stdin.take();
        child.wait().expect("it ends");
        drop(open);
    };
    fails(Path::new("/"));
    fails(Path::new(env!("CARGO_TARGET_TMPDIR")));
    // What should be a directory is a file; a name of more bytes than a name may have.
    let plain = Named::file(&[]);
    fails(&plain.as_ref().join("list"));
    fails(Path::new(&"a".repeat(5000)));
    // A file without permission, but for somebody who may read every file.
    use std::os::unix::fs::PermissionsExt;
    let closed = Named::file(&list("0 + 0"));
    std::fs::set_permissions(&closed, std::fs::Permissions::from_mode(0o000))
        .expect("its own file");
    if std::fs::File::open(&closed).is_err() {
        fails(closed.as_ref());
    }
}
