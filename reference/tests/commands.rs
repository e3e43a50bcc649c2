//! The programs, as one runs them.

use crate::common;

use common::{list, records, sample, table};
use std::fs;
use std::io::{Read, Write};
use std::path::PathBuf;
use std::process::{Command, Output, Stdio};

const HUBLOG: &str = env!("CARGO_BIN_EXE_reference-hublog");
const RECORDS: &str = env!("CARGO_BIN_EXE_records");
const GENERATE: &str = env!("CARGO_BIN_EXE_generate");
const CHECK_ORDER: &str = env!("CARGO_BIN_EXE_check-order");
const ORDER: &str = env!("CARGO_BIN_EXE_order");

/// Runs a program with some input.
fn run(program: &str, arguments: &[&str], input: &[u8]) -> Output {
    let mut child = Command::new(program)
        .args(arguments)
        .stdin(Stdio::piped())
        .stdout(Stdio::piped())
        .stderr(Stdio::piped())
        .spawn()
        .unwrap();
    let mut stdin = child.stdin.take().unwrap();
    let input = input.to_vec();
    let writer = std::thread::spawn(move || drop(stdin.write_all(&input)));
    let output = child.wait_with_output().unwrap();
    writer.join().unwrap();
    output
}

fn text(bytes: &[u8]) -> &str {
    std::str::from_utf8(bytes).unwrap()
}

/// A file for this test run.
fn file(name: &str, contents: &[u8]) -> PathBuf {
    let path = PathBuf::from(env!("CARGO_TARGET_TMPDIR")).join(name);
    fs::write(&path, contents).unwrap();
    path
}

#[test]
fn hublog_prints_the_log() {
    let script =
        records("setup 1 1 2 1\n put 0 0 7\n step 0 x2\n put 0 0 1000000000000\n bytes 01");
    let output = run(HUBLOG, &[], &script);
    assert!(output.status.success());
    assert_eq!(text(&output.stdout), "0 ok\n1 ok\n2 going\n3 going\n4 no 16\n5 no 6\n");
    assert_eq!(text(&output.stderr), "");
    assert_eq!(run(HUBLOG, &[], &[]).stdout, b"");
}

#[test]
fn hublog_counts_what_it_reached() {
    let output = run(HUBLOG, &["--coverage"], &records("setup 1 1 2 1\n step 0\n step 0"));
    assert!(output.status.success());
    assert_eq!(text(&output.stdout), "0 ok\n1 no 11\n2 no 11\n");
    let counts = text(&output.stderr);
    assert!(counts.contains("           2  no 11\n"), "{counts}");
    assert!(counts.contains("           0  no 14\n"), "{counts}");
}

#[test]
fn hublog_ends_cleanly_when_its_output_is_closed() {
    let mut child = Command::new(HUBLOG)
        .stdin(Stdio::piped())
        .stdout(Stdio::piped())
        .stderr(Stdio::piped())
        .spawn()
        .unwrap();
    let mut stdin = child.stdin.take().unwrap();
    let mut stdout = child.stdout.take().unwrap();
    stdin.write_all(&records("setup 1 1 1 1")).unwrap();
    let mut first = [0; 5];
    stdout.read_exact(&mut first).unwrap();
    assert_eq!(&first, b"0 ok\n");
    drop(stdout);
    // The program may be gone before all is written.
    let steps = records("step 0 x200000");
    let _ = stdin.write_all(&steps);
    drop(stdin);
    let output = child.wait_with_output().unwrap();
    assert!(output.status.success(), "{:?}", output.status);
    assert_eq!(text(&output.stderr), "");
}

#[test]
fn records_packs_and_unpacks() {
    let script = "setup 1 1 2 1\nput 0 0 7\nstep 0 x2\nbytes 01\n";
    let packed = run(RECORDS, &["pack"], script.as_bytes());
    assert!(packed.status.success());
    assert_eq!(packed.stdout, records(script));
    let commented = script.replace("01\n", "01  # refused with 6: fewer than 16 bytes\n");
    let unpacked = run(RECORDS, &["unpack"], &packed.stdout);
    assert_eq!(text(&unpacked.stdout), commented);
    let path = file("packed", &packed.stdout);
    let unpacked = run(RECORDS, &["unpack", path.to_str().unwrap()], &[]);
    assert_eq!(text(&unpacked.stdout), commented);
}

#[test]
fn the_first_sample_has_its_log() {
    let packed = run(RECORDS, &["pack"], sample("first.txt").as_bytes());
    assert!(packed.status.success(), "{}", text(&packed.stderr));
    assert_eq!(text(&run(HUBLOG, &[], &packed.stdout).stdout), sample("first.log"));
}

/// A stairwell's figures, with the list in its readable form.
#[test]
fn the_sample_of_totals_has_its_log() {
    let packed = run(RECORDS, &["pack"], sample("stairwell.txt").as_bytes());
    let rows = run(RECORDS, &["pack-list"], sample("stairwell.list").as_bytes());
    assert!(packed.status.success() && rows.status.success(), "{}", text(&rows.stderr));
    let rows = file("stairwell", &rows.stdout);
    let log = run(HUBLOG, &[rows.to_str().unwrap()], &packed.stdout).stdout;
    assert_eq!(text(&log), sample("stairwell.log"));
    for words in [" value -500 0\n", " value 990 0\n", " value -595 0\n", " no 17\n", " no 13\n"] {
        assert!(text(&log).contains(words), "{words:?}");
    }
}

/// Billing reads at the mark what the export read, and what it held is freed after the release.
#[test]
fn the_sample_of_marks_has_its_log() {
    let script = records(&sample("month-end.txt"));
    let log = run(HUBLOG, &[], &script).stdout;
    assert_eq!(text(&log), sample("month-end.log"));
    assert_eq!(text(&log).matches(" value 1200 0\n").count(), 2);
    for words in [" value 1231 0\n", " value 800 0\n", " no 19\n", " no 20\n", " no 21\n"] {
        assert!(text(&log).contains(words), "{words:?}");
    }
    assert!(text(&log).contains(" freed 2\n"));
    let (script, log) = (file("mark-records", &script), file("mark-log", &log));
    let [script, log] = [&script, &log].map(|path| path.to_str().unwrap());
    let svg = run(ORDER, &["--svg", script, log], &[]);
    assert_eq!(text(&svg.stdout), sample("month-end.svg"), "{}", text(&svg.stderr));
}

/// An empty flat, its first reading of 0, and a snapshot and a total from before that.
#[test]
fn the_sample_of_an_empty_flat_has_its_log() {
    let script = records(&sample("empty-flat.txt"));
    let rows = run(RECORDS, &["pack-list"], sample("empty-flat.list").as_bytes()).stdout;
    let rows = file("empty-flat", &rows);
    let rows = rows.to_str().unwrap();
    let log = run(HUBLOG, &[rows], &script).stdout;
    assert_eq!(text(&log), sample("empty-flat.log"));
    let counts =
        [" none\n", " value 0 0\n", " value 1200 0\n"].map(|w| text(&log).matches(w).count());
    assert_eq!(counts, [3, 1, 1]);
    let (script, log) = (file("flat-records", &script), file("flat-log", &log));
    let [script, log] = [&script, &log].map(|path| path.to_str().unwrap());
    let listing = run(ORDER, &[script, log, rows], &[]);
    assert!(listing.status.success(), "{}", text(&listing.stderr));
    assert_eq!(text(&listing.stdout).matches("none          no value\n").count(), 3);
}

/// A display sees its tenant's registers and total, and gets 23 for all else.
#[test]
fn the_sample_of_a_display_has_its_log() {
    let script = records(&sample("display.txt"));
    let rows = run(RECORDS, &["pack-list"], sample("display.list").as_bytes()).stdout;
    let rights = run(RECORDS, &["pack-table"], sample("display.table").as_bytes());
    assert!(rights.status.success(), "{}", text(&rights.stderr));
    let (rows, rights) = (file("display-rows", &rows), file("display-table", &rights.stdout));
    let [rows, rights] = [&rows, &rights].map(|path| path.to_str().unwrap());
    let log = run(HUBLOG, &[rows, rights], &script);
    assert_eq!((text(&log.stdout), text(&log.stderr)), (&*sample("display.log"), ""));
    let log = log.stdout;
    let counted =
        [" value 1200 0\n", " value 300 0\n", " value 900 0\n", " value 800 0\n", " no 23\n"];
    let counts = counted.map(|words| text(&log).matches(words).count());
    assert_eq!(counts, [2, 1, 1, 1, 9]);
    assert!(text(&log).contains(" no 13\n") && text(&log).contains(" no 4\n"));
    let (script, log) = (file("display-records", &script), file("display-log", &log));
    let [script, log] = [&script, &log].map(|path| path.to_str().unwrap());
    let listing = run(ORDER, &[script, log, rows, rights], &[]);
    assert!(listing.status.success(), "{}", text(&listing.stderr));
    assert!(run(CHECK_ORDER, &[script, log, rows, rights], &[]).status.success());
}

/// An estimate, a snapshot of it, and the correction, which the snapshot does not have.
#[test]
fn the_sample_of_a_silent_meter_has_its_log() {
    let script = records(&sample("silent-meter.txt"));
    let rows = run(RECORDS, &["pack-list"], sample("silent-meter.list").as_bytes()).stdout;
    let rows = file("silent-meter", &rows);
    let rows = rows.to_str().unwrap();
    let log = run(HUBLOG, &[rows], &script).stdout;
    assert_eq!(text(&log), sample("silent-meter.log"));
    let counted = [
        " value 800 0\n",
        " value 830 1\n",
        " value 2030 1\n",
        " value 817 2\n",
        " value 2017 2\n",
    ];
    let counts = counted.map(|words| text(&log).matches(words).count());
    assert_eq!(counts, [1, 3, 2, 1, 1]);
    assert!(text(&log).ends_with(" no 25\n"));
    let (script, log) = (file("meter-records", &script), file("meter-log", &log));
    let [script, log] = [&script, &log].map(|path| path.to_str().unwrap());
    let listing = run(ORDER, &[script, log, rows], &[]);
    assert!(listing.status.success(), "{}", text(&listing.stderr));
    for words in ["put of 830, estimated, to register 1", "value 830 1   830 1\n"] {
        assert!(text(&listing.stdout).contains(words), "{}", text(&listing.stdout));
    }
    let svg = run(ORDER, &["--svg", script, log, rows], &[]);
    for words in [">put r1 = 817 2</text>", ">817 2</text>", ">2017 2</text>"] {
        assert!(text(&svg.stdout).contains(words), "{words}: {}", text(&svg.stdout));
    }
}

#[test]
fn records_packs_and_unpacks_tables() {
    let rows = "worker 3 read registers 0 to 7\nworker 0 put collect registers 2 to 255\n";
    let packed = run(RECORDS, &["pack-table"], format!("# a table\n\n{rows}").as_bytes());
    assert!(packed.status.success());
    assert_eq!(packed.stdout, [3, 2, 0, 0, 7, 0, 0, 0, 0, 5, 2, 0, 255, 0, 0, 0]);
    assert_eq!(text(&run(RECORDS, &["unpack-table"], &packed.stdout).stdout), rows);
    let output = run(RECORDS, &["pack-table"], b"worker 3 write registers 0 to 7\n");
    assert_eq!((output.status.code(), &output.stdout[..]), (Some(1), &b""[..]));
    let error =
        "records: standard input: line 1: \"write\" is not one of put, read, collect, marks\n";
    assert_eq!(text(&output.stderr), error);
}

/// What is logged, and said, for gets of two registers with these arguments.
fn asked(arguments: &[&str]) -> (String, String) {
    let script = records("setup 1 2 4 1\n get 0 0\n get 0 1\n step 0\n get 0 1");
    let output = run(HUBLOG, arguments, &script);
    assert!(output.status.success());
    (text(&output.stdout).replace('\n', " "), text(&output.stderr).to_string())
}

#[test]
fn hublog_takes_the_table_from_the_file_of_its_second_argument() {
    let named = |name: &str, contents: &[u8]| file(name, contents).to_str().unwrap().to_string();
    let told = |log: &str, said: &str| (log.to_string(), said.to_string());
    let all = told("0 ok 1 ok 2 no 10 3 none 4 ok ", "");
    let one = named("one-right", &table("worker 0 read registers 0 to 0"));
    for list in ["no/such/file", "", &named("no-rows", b"")] {
        assert_eq!(asked(&[list, &one]), told("0 ok 1 ok 2 no 23 3 none 4 no 23 ", ""));
        // Later arguments are not looked at.
        assert_eq!(asked(&[list, &one, "/"]), told("0 ok 1 ok 2 no 23 3 none 4 no 23 ", ""));
        for table in ["no/such/file", "", &named("no-rights", b"")] {
            assert_eq!(asked(&[list, table]), all);
        }
    }
    // Refused: said, and all stays allowed. No more is read than is needed.
    let refused = (all.0.clone(), "reference-hublog: the table is refused: 24\n".to_string());
    let row = table("worker 0 read registers 0 to 0");
    for (number, length) in [1, 7, 9, 511, 513, 520, 5_000_000].into_iter().enumerate() {
        let bytes: Vec<u8> = row.iter().cycle().take(length).copied().collect();
        let name = named(&format!("refused-{number}"), &bytes);
        assert_eq!(asked(&["", &name]), refused, "{length} bytes");
    }
    assert_eq!(asked(&["", "/dev/urandom"]), refused);
    assert_eq!(asked(&["", &named("longest-table", &row.repeat(64))]).1, "");
    let coverage = run(HUBLOG, &["--coverage", "", &one], &records("setup 1 2 4 1\n get 0 1"));
    assert!(text(&coverage.stdout).ends_with("1 no 23\n"));
    assert!(text(&coverage.stderr).contains("           1  a get gets 23\n"));
}

#[test]
fn hublog_says_where_it_cannot_read_the_table() {
    let directory = env!("CARGO_TARGET_TMPDIR");
    let output = run(HUBLOG, &["", directory], &records("setup 1 1 1 1"));
    assert_eq!((output.status.code(), &output.stdout[..]), (Some(1), &b""[..]));
    let error = text(&output.stderr);
    assert!(error.starts_with(&format!("reference-hublog: cannot read {directory}: ")), "{error}");
}

/// Without its table, a log may have an answer that does not fit: here a put that is allowed by none.
#[test]
fn order_takes_the_table() {
    let script = file("right-records", &records("setup 1 1 2 1\n put 0 0 7\n step 0"));
    let log = file("right-log", b"0 ok\n1 ok\n2 going\n");
    let rights = file("right-table", &table("worker 0 read registers 0 to 0"));
    let [script, log, rights] = [&script, &log, &rights].map(|path| path.to_str().unwrap());
    for program in [ORDER, CHECK_ORDER] {
        assert!(run(program, &[script, log], &[]).status.success());
        let output = run(program, &[script, log, "/dev/null", rights], &[]);
        assert_eq!(output.status.code(), Some(1));
        let sentence = "worker 0 has no right to its put of 7 to register 0, and begins it";
        assert!(text(&output.stderr).contains(sentence), "{}", text(&output.stderr));
        let output = run(program, &[script, log, "/dev/null", rights, rights], &[]);
        assert!(text(&output.stderr).contains("RECORDS LOG [LIST [TABLE]]"));
    }
}

#[test]
fn records_packs_and_unpacks_lists() {
    let rows = "0 + 3\n0 - 4\n31 + 0\n";
    let packed = run(RECORDS, &["pack-list"], format!("# a list\n\n{rows}").as_bytes());
    assert!(packed.status.success());
    assert_eq!(packed.stdout, [0, 0, 3, 0, 0, 1, 4, 0, 31, 0, 0, 0]);
    assert_eq!(text(&run(RECORDS, &["unpack-list"], &packed.stdout).stdout), rows);
    let path = file("packed-list", &packed.stdout);
    let unpacked = run(RECORDS, &["unpack-list", path.to_str().unwrap()], &[]);
    assert_eq!(text(&unpacked.stdout), rows);
    let output = run(RECORDS, &["pack-list"], b"0 + 3\n0 3\n");
    assert_eq!((output.status.code(), &output.stdout[..]), (Some(1), &b""[..]));
    let error =
        "records: standard input: line 2: not of the form: GROUP + REGISTER or GROUP - REGISTER\n";
    assert_eq!(text(&output.stderr), error);
}

/// A total of group 0 under a snapshot, in a hub of one register.
const SUMMED: &str =
    "setup 1 1 4 1\n put 0 0 7\n step 0 x8\n open 0\n step 0 x2\n total 0 0\n step 0 x2";

/// What is logged for that with these arguments: its setup's line and its last line.
fn summed(arguments: &[&str]) -> (String, String) {
    let output = run(HUBLOG, arguments, &records(SUMMED));
    assert!(output.status.success() && output.stderr.is_empty(), "{}", text(&output.stderr));
    let lines: Vec<&str> = text(&output.stdout).lines().collect();
    assert_eq!(lines.len(), 16);
    (lines[0].to_string(), lines[15].to_string())
}

#[test]
fn hublog_takes_the_list_from_the_file_of_its_first_argument() {
    let named = |name: &str, contents: &[u8]| file(name, contents).to_str().unwrap().to_string();
    let told = |setup: &str, last: &str| (setup.to_string(), last.to_string());
    let one = named("one-row", &list("0 - 0"));
    assert_eq!(summed(&[&one]), told("0 ok", "15 value -7 0"));
    // Arguments after the second are not looked at.
    assert_eq!(summed(&[&one, "no/such/file", "/"]), told("0 ok", "15 value -7 0"));
    // No argument, no such file, an empty file: no list.
    let empty = named("empty", b"");
    for arguments in [&[][..], &["no/such/file"], &["--other"], &[""], &[&empty]] {
        assert_eq!(summed(arguments), told("0 ok", "15 no 11"), "{arguments:?}");
    }
    let coverage = run(HUBLOG, &["--coverage", &one], &records(SUMMED));
    assert!(text(&coverage.stdout).ends_with("15 value -7 0\n"));
    assert!(text(&coverage.stderr).contains("           1  a total of one row begins\n"));
}

/// The longest list is one of 4096 bytes; a longer file is none, however long, and is not read whole.
#[test]
fn hublog_refuses_setups_with_a_long_list() {
    let longest: String = (0..32).map(|group| format!("{group} - 0\n").repeat(32)).collect();
    let longest = list(&longest);
    assert_eq!(longest.len(), 4096);
    let path = file("longest", &longest);
    let output = run(
        HUBLOG,
        &[path.to_str().unwrap()],
        &records(&SUMMED.replace("step 0 x2", "step 0 x64")),
    );
    assert!(text(&output.stdout).lines().any(|line| line.ends_with(" value -224 0")));
    for length in [4097, 4100, 8192, 5_000_000] {
        let path = file("long", &longest.iter().cycle().take(length).copied().collect::<Vec<_>>());
        let told = summed(&[path.to_str().unwrap()]);
        assert_eq!(told, ("0 no 5".to_string(), "15 no 8".to_string()), "{length} bytes");
    }
    // A file without an end.
    assert_eq!(summed(&["/dev/zero"]), ("0 no 5".to_string(), "15 no 8".to_string()));
}

#[test]
fn hublog_says_where_it_cannot_read_the_list() {
    let directory = env!("CARGO_TARGET_TMPDIR");
    // A directory, a name below a file, a name of more bytes than a name may have.
    let below = format!("{}/list", file("plain", b"").to_str().unwrap());
    for name in [directory, &below, &"a".repeat(5000)] {
        let output = run(HUBLOG, &[name], &records(SUMMED));
        assert_eq!((output.status.code(), &output.stdout[..]), (Some(1), &b""[..]), "{name}");
    }
    let output = run(HUBLOG, &[directory], &records(SUMMED));
    let error = text(&output.stderr);
    assert!(error.starts_with(&format!("reference-hublog: cannot read {directory}: ")), "{error}");
    // A file without permission, but for somebody who may read every file.
    use std::os::unix::fs::PermissionsExt;
    let closed = file("closed", &list("0 + 0"));
    fs::set_permissions(&closed, fs::Permissions::from_mode(0o000)).unwrap();
    if fs::File::open(&closed).is_err() {
        let output = run(HUBLOG, &[closed.to_str().unwrap()], &records(SUMMED));
        assert_eq!((output.status.code(), &output.stdout[..]), (Some(1), &b""[..]));
    }
    fs::remove_file(closed).unwrap();
}

#[test]
fn order_takes_the_list() {
    let log =
        run(HUBLOG, &[file("order-rows", &list("0 - 0")).to_str().unwrap()], &records(SUMMED));
    let (script, log) = (file("total-records", &records(SUMMED)), file("total-log", &log.stdout));
    let rows = file("order-rows", &list("0 - 0"));
    let [script, log, rows] = [&script, &log, &rows].map(|path| path.to_str().unwrap());
    let listing = run(ORDER, &[script, log, rows], &[]);
    assert!(text(&listing.stdout).contains("total of group 0 "), "{}", text(&listing.stderr));
    let svg = run(ORDER, &["--svg", script, log, rows], &[]);
    assert!(text(&svg.stdout).contains(">total g0</text>"), "{}", text(&svg.stderr));
    let checked = run(CHECK_ORDER, &[script, log, rows], &[]);
    assert!(checked.status.success(), "{}", text(&checked.stderr));
    // Without it the total is of a group that has no rows.
    for (program, name) in [(ORDER, "order"), (CHECK_ORDER, "check-order")] {
        let output = run(program, &[script, log], &[]);
        assert_eq!(output.status.code(), Some(1));
        assert!(text(&output.stderr).contains("group 0 has no rows"), "{}", text(&output.stderr));
        let output = run(program, &[script, log, "no/such/list"], &[]);
        assert!(text(&output.stderr).starts_with(&format!("{name}: no/such/list: ")));
    }
}

#[test]
fn records_names_file_line_and_reason() {
    let script = b"open 0\nopen\n";
    let path = file("unfit-script", script);
    let path = path.to_str().unwrap();
    for (arguments, input, name) in
        [(&["pack"][..], &script[..], "standard input"), (&["pack", path], &[], path)]
    {
        let output = run(RECORDS, arguments, input);
        assert_eq!(output.status.code(), Some(1));
        assert_eq!(output.stdout, b"");
        let error = format!("records: {name}: line 2: not of the form: open WORKER\n");
        assert_eq!(text(&output.stderr), error);
    }
    for command in ["pack", "unpack", "pack-list", "unpack-list", "pack-table", "unpack-table"] {
        let output = run(RECORDS, &[command, "no/such/file"], &[]);
        assert_eq!(output.status.code(), Some(1));
        assert!(text(&output.stderr).starts_with("records: no/such/file: "));
    }
    for arguments in [&[][..], &["press"], &["pack", path, path]] {
        let output = run(RECORDS, arguments, &[]);
        assert_eq!(output.status.code(), Some(1));
        let usage =
            "usage: records pack|unpack|pack-list|unpack-list|pack-table|unpack-table [FILE]";
        assert_eq!(text(&output.stderr), format!("records: {usage}\n"));
    }
}

#[test]
fn generate_is_the_same_for_the_same_seed() {
    let first = run(GENERATE, &["mixed", "5", "400"], &[]);
    let again = run(GENERATE, &["mixed", "5", "400"], &[]);
    let other = run(GENERATE, &["mixed", "6", "400"], &[]);
    assert!(first.status.success());
    assert_eq!(first.stdout.len().div_ceil(16), 400);
    assert_eq!(first.stdout, again.stdout);
    assert_ne!(first.stdout, other.stdout);
    assert_eq!(run(GENERATE, &["none", "5", "400"], &[]).status.code(), Some(1));
    // Its list goes to a file.
    let rows = file("generated-list", b"");
    let arguments = ["totals", "8", "400", rows.to_str().unwrap()];
    let script = run(GENERATE, &arguments, &[]);
    assert_eq!(script.stdout, run(GENERATE, &arguments[..3], &[]).stdout);
    let list = fs::read(&rows).unwrap();
    assert!(!list.is_empty() && list.len() % 4 == 0, "{list:?}");
    let log = run(HUBLOG, &[rows.to_str().unwrap()], &script.stdout).stdout;
    assert!(!text(&log).contains(" no 5\n") && text(&log).contains(" value -"));
    // Its table goes to another.
    let rights = file("generated-table", b"");
    let arguments = ["rights", "8", "400", rows.to_str().unwrap(), rights.to_str().unwrap()];
    assert_eq!(run(GENERATE, &arguments, &[]).stdout, run(GENERATE, &arguments[..3], &[]).stdout);
    let table = fs::read(&rights).unwrap();
    assert!(!table.is_empty() && table.len() % 8 == 0, "{table:?}");
    assert_eq!(run(GENERATE, &["totals", "5", "4", "x", "y", "z"], &[]).status.code(), Some(1));
    assert_eq!(run(GENERATE, &["totals", "5", "4", "no/such/d"], &[]).status.code(), Some(1));
}

#[test]
fn check_order_accepts_a_right_log_and_refuses_a_wrong_one() {
    let script = run(GENERATE, &["reads", "1", "3000"], &[]).stdout;
    let log = run(HUBLOG, &[], &script).stdout;
    let (script_file, log_file) = (file("order-records", &script), file("order-log", &log));
    let paths = [script_file.to_str().unwrap(), log_file.to_str().unwrap()];
    let output = run(CHECK_ORDER, &paths, &[]);
    assert!(output.status.success(), "{}", text(&output.stderr));
    assert!(text(&output.stdout).starts_with("3000 records, "));
    // Any value changed is found, and so is any status.
    let wrong = text(&log).replacen(" value ", " value 1", 1);
    fs::write(&log_file, wrong).unwrap();
    let output = run(CHECK_ORDER, &paths, &[]);
    assert_eq!(output.status.code(), Some(1));
    assert!(text(&output.stderr).contains(" answers `value 1"), "{}", text(&output.stderr));
    let shown = |line: &&str| line.contains(" value ") && line.ends_with(" 1");
    let line = text(&log).lines().find(shown).expect("an estimate");
    let other = format!("{} 2", line.strip_suffix(" 1").unwrap());
    fs::write(&log_file, text(&log).replacen(line, &other, 1)).unwrap();
    let output = run(CHECK_ORDER, &paths, &[]);
    assert_eq!(output.status.code(), Some(1));
    assert!(text(&output.stderr).contains(" has status 1"), "{}", text(&output.stderr));
    assert_eq!(run(CHECK_ORDER, &paths[..1], &[]).status.code(), Some(1));
}

#[test]
fn order_prints_the_sample_as_text_and_as_svg() {
    let script = records(&sample("order.txt"));
    let log = run(HUBLOG, &[], &script).stdout;
    let (script_file, log_file) = (file("sample-records", &script), file("sample-log", &log));
    let [script, log] = [&script_file, &log_file].map(|path| path.to_str().unwrap());
    for (arguments, expected) in
        [(&[script, log][..], "order.listing"), (&["--svg", script, log], "order.svg")]
    {
        let output = run(ORDER, arguments, &[]);
        assert!(output.status.success(), "{}", text(&output.stderr));
        assert_eq!(text(&output.stdout), sample(expected));
        assert_eq!(text(&output.stderr), "");
    }
}

#[test]
fn order_says_what_breaks_it() {
    let script = file("broken-records", &records("setup 1 1 1 1\n get 0 0\n step 0"));
    let log = file("broken-log", b"0 ok\n1 ok\n2 value 5 0\n");
    let [script, log] = [&script, &log].map(|path| path.to_str().unwrap());
    let sentence = "record 2: worker 0's get of register 0, begun by record 1, \
        answers `value 5 0` where no value is shown";
    for (arguments, shown) in
        [(&[script, log][..], "value 5 0  no value"), (&["--svg", script, log], "5 0 ≠ no value")]
    {
        let output = run(ORDER, arguments, &[]);
        assert_eq!(output.status.code(), Some(1));
        assert_eq!(text(&output.stderr), format!("order: not accepted: {sentence}\n"));
        assert!(text(&output.stdout).contains(sentence), "{}", text(&output.stdout));
        assert!(text(&output.stdout).contains(shown), "{}", text(&output.stdout));
    }
}

#[test]
fn order_names_file_line_and_reason() {
    let script = file("unfit-records", &records("setup 1 1 1 1\n get 0 0\n step 0"));
    let script = script.to_str().unwrap();
    let cases = [
        ("0 ok\n1 ok\n2 done\n", "log line 2 does not fit", "cannot answer `done` at its step 1"),
        ("0 ok\n1 ok\n", "log line 2 does not fit", "2 answers for 3 records"),
        ("0 ok\n1 fine\n2 none\n", "log line 1 has no answer of a log", "\"1 fine\""),
        ("0 ok\n2 ok\n", "log line 1 does not begin with its number", "\"2 ok\""),
    ];
    for (log, line, reason) in cases {
        let log = file("unfit-log", log.as_bytes());
        let log = log.to_str().unwrap();
        for arguments in [&[script, log][..], &["--svg", script, log]] {
            let output = run(ORDER, arguments, &[]);
            assert_eq!(output.status.code(), Some(1));
            assert_eq!(text(&output.stdout), "");
            let error = text(&output.stderr);
            assert!(error.starts_with(&format!("order: {log}: {line}")), "{error}");
            assert!(error.contains(reason), "{error}");
        }
    }
    let output = run(ORDER, &[script, "no/such/log"], &[]);
    assert_eq!(output.status.code(), Some(1));
    assert!(text(&output.stderr).starts_with("order: no/such/log: "));
    let output = run(ORDER, &["no/such/records", script], &[]);
    assert!(text(&output.stderr).starts_with("order: no/such/records: "));
    for arguments in [&[][..], &[script], &["--png", script, script], &["--svg", script]] {
        let output = run(ORDER, arguments, &[]);
        assert_eq!(output.status.code(), Some(1));
        assert!(text(&output.stderr).contains("order"), "{}", text(&output.stderr));
    }
}
