//! A7: the table of rights, handed by a file, and 23, as words of the log; and two runs that differ in
//! values put to one register.

use hublog_tests::{agree, hublog, printed_with, said, Named};
use reference::fault::Right;
use reference::generate::{script, Kind, Random, Script};
use reference::list::Groups;
use reference::reading::LAST_STATUS;
use reference::rights::{self, permits, Need};
use reference::{log, record, text, Reading, Record};
use std::io::Write;
use std::path::Path;
use std::process::{Output, Stdio};

fn records(script: &str) -> Vec<u8> {
    text::pack(script.as_bytes()).expect("a well-formed script")
}

fn table(rows: &str) -> Vec<u8> {
    text::pack_table(rows.as_bytes()).expect("a well-formed table")
}

fn list(rows: &str) -> Vec<u8> {
    text::pack_list(rows.as_bytes()).expect("a well-formed list")
}

/// Three registers, of which group 0 has 0 and 2. Worker 0 may do all, and keeps a time as mark 0; worker
/// 1 has a snapshot.
const HUB: &str = "setup 2 3 9 1\n open 1\n step 1 x2\n open 0\n step 0 x2\n mark 0 0\n step 0";
const OWNER: &str = "worker 0 put read collect marks registers 0 to 255";

/// Holds both programs to records of worker 1 after that, with these rows of its own, and the words of
/// these records to these.
fn holds(own: &str, script: &str, words: &[&str]) {
    let both = Script {
        records: records(&format!("{HUB}\n {script}")),
        list: list("0 + 0\n 0 - 2"),
        table: table(&format!("{OWNER}\n {own}")),
    };
    agree(script, &both);
    let text = printed_with(&both.records, &both.list, &both.table, &[]);
    let text = String::from_utf8(text).expect("plain text");
    let told: Vec<&str> = text.lines().filter_map(|line| Some(line.split_once(' ')?.1)).collect();
    assert_eq!(told[records(HUB).len() / record::LENGTH..], *words, "{script}, {own}");
}

const EACH: &str =
    "put 1 1 5\n get 1 1\n read 1 1\n marked 1 1 0\n total 1 0\n collect 1\n mark 1 1
    release 1 0";

/// Each operation with each right; the first that is allowed makes the worker busy.
#[test]
fn what_each_operation_needs() {
    let no = "no 23";
    holds("", EACH, &[no; 8]);
    holds("worker 1 nothing registers 0 to 255", EACH, &[no; 8]);
    let busy = "no 10";
    holds("worker 1 put registers 1 to 1", EACH, &["ok", no, no, no, no, no, no, no]);
    let reads = ["no 23", "ok", busy, busy, busy, no, no, no];
    holds("worker 1 read registers 0 to 2", EACH, &reads);
    holds("worker 1 read registers 1 to 1", EACH, &[no, "ok", busy, busy, no, no, no, no]);
    holds("worker 1 collect registers 99 to 99", EACH, &[no, no, no, no, no, "ok", no, no]);
    holds("worker 1 marks registers 0 to 2", EACH, &[no, no, no, no, no, no, "ok", busy]);
    holds("", "close 1\n step 1\n open 1\n step 1 x2", &["ok", "done", "ok", "going", "at 3"]);
}

/// Rows are joined register by register; a total and the marks need each register.
#[test]
fn rows_are_joined() {
    let no = "no 23";
    let two = "worker 1 read registers 0 to 0\n worker 1 read registers 2 to 2";
    holds(two, "total 1 0\n get 1 1", &["ok", no]);
    holds("worker 1 read registers 0 to 1", "total 1 0", &[no]);
    holds("worker 1 read registers 1 to 2", "total 1 0", &[no]);
    let crossed = "worker 1 read registers 0 to 0\n worker 1 put registers 1 to 1";
    holds(
        crossed,
        "put 1 0 5\n get 1 1\n get 1 0\n step 1\n put 1 1 5",
        &[no, no, "ok", "none", "ok"],
    );
    let marks = "worker 1 marks registers 2 to 9\n worker 1 nothing registers 0 to 255
        worker 1 marks registers 0 to 1";
    holds(marks, "mark 1 1\n step 1\n release 1 1\n step 1", &["ok", "done", "ok", "done"]);
    holds("worker 1 marks registers 1 to 255", "mark 1 1\n release 1 0", &[no, no]);
}

/// After 3, 4, 17 and 16; before 10, 13, 19 and 20.
#[test]
fn where_23_stands() {
    let own = "worker 1 read registers 0 to 0";
    holds(
        own,
        "put 2 0 5\n put 1 3 5\n get 1 256\n mark 1 12\n marked 1 1 12\n total 1 1
        put 1 0 1000000000000\n put 1 0 5\n mark 1 0\n release 1 1\n marked 1 1 1\n marked 1 0 1
        get 1 0\n put 1 0 1000000000000\n put 1 0 5\n get 1 0\n collect 1\n open 1\n step 1\n step 1
        close 1\n step 1\n read 1 1\n read 1 0\n total 1 0",
        &[
            "no 3", "no 4", "no 4", "no 4", "no 4", "no 17", "no 16", "no 23", "no 23", "no 23",
            "no 23", "no 20", "ok", "no 16", "no 23", "no 10", "no 23", "no 10", "none", "no 11",
            "ok", "done", "no 23", "no 13", "no 23",
        ],
    );
}

/// Worker 0 gets both of two registers.
const GETS: &str = "setup 1 2 4 1\n get 0 1\n get 0 0";

/// What it prints and says for that with these arguments.
fn told(arguments: &[&Path]) -> (String, String) {
    let Output { stdout, stderr, status } = hublog_on(arguments);
    assert!(status.success(), "{arguments:?}");
    let plain = |bytes| String::from_utf8(bytes).expect("plain text");
    (plain(stdout).replace('\n', " "), plain(stderr))
}

fn hublog_on(arguments: &[&Path]) -> Output {
    let mut child = hublog().args(arguments).stderr(Stdio::piped()).spawn().expect("hublog starts");
    let mut stdin = child.stdin.take().expect("piped");
    // It may end before it has read anything.
    let _ = stdin.write_all(&records(GETS));
    drop(stdin);
    child.wait_with_output().expect("it ends")
}

/// What it should print and say with this table.
fn expected(table: &[u8]) -> (String, String) {
    let answers =
        Script { records: records(GETS), list: Vec::new(), table: table.to_vec() }.answers();
    let text = String::from_utf8(log::log_text(&answers)).expect("plain text");
    (text.replace('\n', " "), said(table))
}

/// Register 0 alone.
const ONE: [u8; 8] = [0, 2, 0, 0, 0, 0, 0, 0];

#[test]
fn a_missing_argument_or_file_gives_no_table() {
    let allowed = ("0 ok 1 ok 2 no 10 ".to_string(), String::new());
    assert_eq!(expected(&[]), allowed);
    let (nothing, empty, one) = (Named::nothing(), Named::file(&[]), Named::file(&ONE));
    for first in [nothing.as_ref(), empty.as_ref(), Path::new("")] {
        assert_eq!(told(&[first]), allowed);
        for second in [nothing.as_ref(), empty.as_ref(), Path::new("")] {
            assert_eq!(told(&[first, second]), allowed);
        }
        assert_eq!(told(&[first, one.as_ref()]), expected(&ONE));
        assert_eq!(expected(&ONE), ("0 ok 1 no 23 2 ok ".to_string(), String::new()));
    }
}

/// Every length up to some rows, and those around the longest.
#[test]
fn tables_of_all_lengths() {
    let lengths = (0..=34).chain(503..=529).chain([1024, 65_536, 5_000_000]);
    for length in lengths {
        let bytes: Vec<u8> = ONE.iter().cycle().take(length).copied().collect();
        let fits = length % 8 == 0 && length <= 512;
        assert_eq!(expected(&bytes).1.is_empty(), fits, "{length} bytes");
        let file = Named::file(&bytes);
        assert_eq!(told(&[Path::new(""), file.as_ref()]), expected(&bytes), "{length} bytes");
    }
    // No more is read than is needed: this one has no end.
    assert_eq!(told(&[Path::new(""), Path::new("/dev/zero")]), expected(&[0; 513]));
}

/// One byte of a row at a time, in a row before and after others.
#[test]
fn every_byte_of_a_row() {
    for byte in 0..8 {
        for value in (0..8).chain([14, 15, 16, 17, 31, 127, 128, 254, 255]) {
            let mut rows = [[0, 2, 2, 0, 6, 0, 0, 0], [0, 2, 1, 0, 5, 0, 0, 0], ONE];
            rows[1][byte] = value;
            let fits = match byte {
                0 | 1 => value <= 15,
                2 => value <= 5,
                4 => value >= 1,
                _ => value == 0,
            };
            let bytes = rows.as_flattened();
            assert_eq!(expected(bytes).1.is_empty(), fits, "{bytes:?}");
            let file = Named::file(bytes);
            assert_eq!(told(&[Path::new(""), file.as_ref()]), expected(bytes), "{bytes:?}");
        }
    }
}

/// A file that is there and cannot be read is an error, said before any record is read.
#[test]
fn a_table_that_cannot_be_read_is_an_error() {
    let plain = Named::file(&[]);
    let below = plain.as_ref().join("table");
    let long = "a".repeat(5000);
    for name in [Path::new("/"), Path::new(env!("CARGO_TARGET_TMPDIR")), &below, Path::new(&long)] {
        let Output { stdout, stderr, .. } = hublog_on(&[Path::new(""), name]);
        assert!(stdout.is_empty(), "{name:?}");
        assert_eq!(stderr, b"hublog: cannot read the table of rights\n", "{name:?}");
    }
}

/// Scripts with their own tables, and with these damaged: a byte changed, cut off, or rows added.
#[test]
fn random_scripts_with_damaged_tables() {
    let (mut fits, mut refused) = (0, 0);
    for seed in 0..250 {
        let kind = [Kind::Rights, Kind::Mixed, Kind::Marks, Kind::Totals][seed as usize % 4];
        let mut script = script(kind, 30_000 + seed, 300);
        let mut random = Random::new(seed);
        for damage in 0..4 {
            let table = &mut script.table;
            match damage {
                1 if !table.is_empty() => {
                    let place = random.below(table.len() as u64) as usize;
                    table[place] = random.pick(&[0, 1, 2, 15, 16, 255]);
                }
                2 => table.truncate(random.below(table.len() as u64 + 1) as usize),
                3 => table.extend(ONE.repeat(random.between(1, 64) as usize)),
                _ => {}
            }
            agree(&format!("{kind:?} {seed}, damage {damage}"), &script);
            let fit = rights::read::<Right>(&script.table).is_ok();
            *(if fit { &mut fits } else { &mut refused }) += 1;
        }
    }
    assert!(fits > 200 && refused > 200, "{fits}, {refused}");
}

/// The records with other values and statuses put to this register, all within A1's limit and at most 2;
/// how many are others.
fn with_other_values(file: &[u8], register: u16, random: &mut Random) -> (Vec<u8>, usize) {
    const LIMIT: u64 = 999_999_999_999;
    let (mut changed, mut others) = (Vec::with_capacity(file.len()), 0);
    for bytes in file.chunks(record::LENGTH) {
        match Record::decode(bytes) {
            Ok(Record::Put { worker, register: put, reading })
                if put == register && reading.value <= LIMIT && reading.status <= LAST_STATUS =>
            {
                let (value, status) = (random.between(0, LIMIT), random.below(3) as u8);
                let reading = Reading { value, status };
                changed.extend(Record::Put { worker, register, reading }.encode());
                others += 1;
            }
            _ => changed.extend(bytes),
        }
    }
    (changed, others)
}

/// In two runs that differ only in values and statuses put to one register, workers without read on it get the same
/// answers throughout; what another is told differs in a value alone.
#[test]
fn two_runs_that_differ_in_one_register() {
    let (mut without, mut differing, mut changed) = (0, 0, 0);
    for seed in 0..300 {
        let kind = [Kind::Rights, Kind::Mixed, Kind::Marks, Kind::Totals][seed as usize % 4];
        let Script { records, list, table } = script(kind, 40_000 + seed, 1000);
        let Ok(rows) = rights::read::<Right>(&table) else { continue };
        let mut random = Random::new(seed);
        let register = random.below(3) as u16;
        let (others, count) = with_other_values(&records, register, &mut random);
        changed += count;
        let [one, other] = [&records, &others].map(|file| {
            String::from_utf8(printed_with(file, &list, &table, &[])).expect("plain text")
        });
        assert_eq!(one.lines().count(), other.lines().count());
        let lines = one.lines().zip(other.lines());
        for (bytes, (one, other)) in records.chunks(record::LENGTH).zip(lines) {
            let worker = *bytes.get(1).unwrap_or(&0);
            let may = permits(&rows, worker, Need::Read(register), 256, &Groups::default());
            without += usize::from(!may);
            if one != other {
                differing += 1;
                let told = format!("{kind:?} {seed}, worker {worker}: {one} and {other}");
                assert!(may && one.contains(" value ") && other.contains(" value "), "{told}");
            }
        }
    }
    assert!(
        without > 10_000 && differing > 300 && changed > 3000,
        "{without}, {differing}, {changed}"
    );
}
