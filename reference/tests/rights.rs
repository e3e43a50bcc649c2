//! A7: tables of rights and when one stands, 23 in its place, what each operation needs, and two runs
//! that differ in one register's values.

use crate::common;

use common::{list, no, records, table, words};
use reference::fault::Right;
use reference::generate::{script, Kind, Random, Script};
use reference::list::Groups;
use reference::record::LENGTH;
use reference::rights::{permits, read, Need, Rights, Row, Unfit, MAX_LENGTH};
use reference::{log, Answer, Hub, Reading, Record, Refusal};

/// The answers to a readable text with a list and a table, as words.
fn run(rows: &str, rights: &str, script: &str) -> Vec<String> {
    let mut hub = Hub::new();
    hub.give_table(&table(rights)).expect("a table");
    words(&log::answers(&mut hub, &records(script), &list(rows)))
}

/// The last of them.
fn last(rows: &str, rights: &str, script: &str) -> String {
    run(rows, rights, script).pop().expect("a record")
}

/// So many rows of worker 0 with no right.
fn rows(count: usize) -> Vec<u8> {
    table(&"worker 0 nothing registers 0 to 0\n".repeat(count))
}

#[test]
fn tables_that_fit() {
    for text in [
        "",
        "worker 0 put read collect marks registers 0 to 255",
        "worker 15 nothing registers 255 to 255",
        // Workers from P on, registers from V on, one row twice.
        "worker 9 put registers 3 to 200\n worker 9 put registers 3 to 200",
    ] {
        assert_eq!(Hub::new().give_table(&table(text)), Ok(()), "{text}");
    }
    assert_eq!(rows(64).len(), MAX_LENGTH);
    assert_eq!(Hub::new().give_table(&rows(64)), Ok(()));
}

#[test]
fn tables_that_are_none() {
    let cases: [(Unfit, Vec<u8>); 18] = [
        (Unfit::Part, vec![0]),
        (Unfit::Part, vec![0; 7]),
        (Unfit::Part, vec![0; 9]),
        (Unfit::Part, vec![0; 511]),
        (Unfit::Part, vec![0; 513]),
        (Unfit::Worker, vec![16, 0, 0, 0, 0, 0, 0, 0]),
        (Unfit::Worker, vec![255, 0, 0, 0, 0, 0, 0, 0]),
        (Unfit::Rights, vec![0, 16, 0, 0, 0, 0, 0, 0]),
        (Unfit::Rights, vec![0, 255, 0, 0, 0, 0, 0, 0]),
        (Unfit::Last, vec![0, 0, 0, 0, 0, 1, 0, 0]),
        (Unfit::Last, vec![0, 0, 255, 255, 255, 255, 0, 0]),
        (Unfit::Falling, vec![0, 0, 1, 0, 0, 0, 0, 0]),
        (Unfit::Falling, vec![0, 0, 0, 1, 255, 0, 0, 0]),
        (Unfit::Pair, vec![0, 0, 0, 0, 0, 0, 1, 0]),
        (Unfit::Pair, vec![0, 0, 0, 0, 0, 0, 0, 1]),
        (Unfit::Many, rows(65)),
        (Unfit::Many, vec![0; 520]),
        (Unfit::Many, vec![0; 5_000_000]),
    ];
    for (unfit, bytes) in cases {
        let start = &bytes[..bytes.len().min(40)];
        assert_eq!(read::<Right>(&bytes), Err(unfit), "{start:?}");
        assert_eq!(Hub::new().give_table(&bytes), Err(Refusal::Table), "{start:?}");
        // After a row that fits as well.
        let after = [&rows(1)[..], &bytes].concat();
        assert_eq!(Hub::new().give_table(&after), Err(Refusal::Table), "{start:?}");
    }
}

/// Each byte of each row decides: with one changed, a table is one exactly where the sentences say so.
#[test]
fn every_byte_of_a_row() {
    for (place, byte, value) in
        (0..3).flat_map(|p| (0..8).flat_map(move |b| (0..=255).map(move |v| (p, b, v))))
    {
        let mut bytes = [[3, 5, 4, 0, 9, 0, 0, 0]; 3];
        bytes[place][byte] = value;
        let fits = match byte {
            0 | 1 => value <= 15,
            2 => value <= 9,
            4 => value >= 4,
            _ => value == 0,
        };
        let expected = if fits { Ok(()) } else { Err(Refusal::Table) };
        assert_eq!(Hub::new().give_table(bytes.as_flattened()), expected, "{bytes:?}");
    }
}

const FIRST: &str = "worker 0 read registers 0 to 0";
const SECOND: &str = "worker 0 read registers 1 to 1";

#[test]
fn a_good_table_replaces_the_earlier_one() {
    let mut hub = Hub::new();
    assert_eq!(hub.give_table(&table(FIRST)), Ok(()));
    assert_eq!(hub.give_table(&table(SECOND)), Ok(()));
    let answers = log::answers(&mut hub, &records("setup 1 2 4 1\n get 0 0\n get 0 1"), &[]);
    assert_eq!(words(&answers), ["ok", "no 23", "ok"]);
    // An empty one replaces it too, and allows all.
    let mut hub = Hub::new();
    hub.give_table(&table(FIRST)).expect("a table");
    hub.give_table(&[]).expect("an empty table");
    let answers = log::answers(&mut hub, &records("setup 1 2 4 1\n get 0 1"), &[]);
    assert_eq!(words(&answers), ["ok", "ok"]);
}

#[test]
fn a_refused_table_leaves_the_earlier_one() {
    for damaged in [&[0; 7][..], &[16, 0, 0, 0, 0, 0, 0, 0], &rows(65)] {
        let mut hub = Hub::new();
        hub.give_table(&table(FIRST)).expect("a table");
        assert_eq!(hub.give_table(damaged), Err(Refusal::Table));
        let answers = log::answers(&mut hub, &records("setup 1 2 4 1\n get 0 1\n get 0 0"), &[]);
        assert_eq!(words(&answers), ["ok", "no 23", "ok"]);
        // With none before, all stays allowed.
        let mut hub = Hub::new();
        assert_eq!(hub.give_table(damaged), Err(Refusal::Table));
        let answers = log::answers(&mut hub, &records("setup 1 2 4 1\n get 0 1"), &[]);
        assert_eq!(words(&answers), ["ok", "ok"]);
    }
}

/// 9 comes before 24, and changes nothing; setups that are refused leave the table.
#[test]
fn a_table_when_set_up_gets_9() {
    let mut hub = Hub::new();
    hub.give_table(&table(FIRST)).expect("a table");
    assert_eq!(common::last(&mut hub, "setup 0 2 4 1"), no(5));
    assert_eq!(common::last(&mut hub, "setup 1 2 4 1"), Answer::Ok);
    for given in [&table(SECOND)[..], &[], &[7], &rows(65)] {
        assert_eq!(hub.give_table(given), Err(Refusal::SetUp));
        let answers = log::answers(&mut hub, &records("get 0 1\n get 0 0\n step 0"), &[]);
        assert_eq!(words(&answers), ["no 23", "ok", "none"]);
    }
}

/// A new call empties the hub of setup and table; both may be given again.
#[test]
fn a_new_call_empties_the_hub() {
    let mut hub = Hub::new();
    hub.give_table(&table(FIRST)).expect("a table");
    let answers = log::answers(&mut hub, &records("setup 1 2 4 1\n get 0 1"), &list("0 + 1"));
    assert_eq!(words(&answers), ["ok", "no 23"]);
    hub.empty();
    assert!(hub.store().is_none());
    let script = "get 0 1\n setup 1 2 4 1\n get 0 1\n step 0\n open 0\n step 0 x2\n total 0 0";
    let answers = log::answers(&mut hub, &records(script), &[]);
    let expected = ["no 8", "ok", "ok", "none", "ok", "going", "at 1", "no 17"];
    assert_eq!(words(&answers), expected);
    hub.empty();
    hub.give_table(&table(SECOND)).expect("a table again");
    let answers = log::answers(&mut hub, &records("setup 1 2 4 1\n get 0 0\n get 0 1"), &[]);
    assert_eq!(words(&answers), ["ok", "no 23", "ok"]);
    // Emptied before any setup, the table is gone as well.
    let mut hub = Hub::new();
    hub.give_table(&table(FIRST)).expect("a table");
    hub.empty();
    let answers = log::answers(&mut hub, &records("setup 1 2 4 1\n get 0 1"), &[]);
    assert_eq!(words(&answers), ["ok", "ok"]);
}

/// Two workers, three registers; worker 0 may do all, worker 1 has a snapshot, and mark 0 keeps it.
const HUB: &str = "setup 2 3 9 1\n open 1\n step 1 x2\n open 0\n step 0 x2\n mark 0 0\n step 0";

/// The answer to a record of worker 1 after that, with these rows of its own.
fn told(own: &str, record: &str) -> String {
    let rights = format!("worker 0 put read collect marks registers 0 to 255\n {own}");
    last("0 + 0\n 0 - 2\n 1 + 1", &rights, &format!("{HUB}\n {record}"))
}

/// Each operation with each right alone, on all registers.
#[test]
fn what_each_operation_needs() {
    let operations = [
        ("put 1 1 5", "put"),
        ("read 1 1", "read"),
        ("get 1 1", "read"),
        ("marked 1 1 0", "read"),
        ("total 1 0", "read"),
        ("collect 1", "collect"),
        ("mark 1 1", "marks"),
        ("release 1 0", "marks"),
        ("close 1", ""),
    ];
    for (record, needed) in operations {
        for right in ["put", "read", "collect", "marks", "nothing"] {
            let allowed = right == needed || needed.is_empty();
            let expected = if allowed { "ok" } else { "no 23" };
            let own = format!("worker 1 {right} registers 0 to 2");
            assert_eq!(told(&own, record), expected, "{record} with {right}");
        }
        // All but the right, and no rows at all.
        let others = ["put", "read", "collect", "marks"].into_iter().filter(|&r| r != needed);
        let own = format!("worker 1 {} registers 0 to 255", others.collect::<Vec<_>>().join(" "));
        let expected = if needed.is_empty() { "ok" } else { "no 23" };
        assert_eq!(told(&own, record), expected, "{record} without {needed}");
        assert_eq!(told("", record), expected, "{record} without rows");
    }
    assert_eq!(told("", "close 1\n step 1\n open 1"), "ok");
}

/// First and last are included, and rows are joined register by register.
#[test]
fn on_which_registers() {
    let own = "worker 1 read registers 1 to 2";
    let gets = [0, 1, 2].map(|register| told(own, &format!("get 1 {register}")));
    assert_eq!(gets, ["no 23", "ok", "ok"]);
    // Read on 0 and put on 1 is neither put on 0 nor read on 1.
    let own = "worker 1 read registers 0 to 0\n worker 1 put registers 1 to 1";
    let answers = ["get 1 0", "get 1 1", "put 1 0 5", "put 1 1 5"].map(|record| told(own, record));
    assert_eq!(answers, ["ok", "no 23", "no 23", "ok"]);
    // A later row takes nothing away.
    let own = "worker 1 read registers 0 to 2\n worker 1 put registers 1 to 1
        worker 1 nothing registers 0 to 255";
    assert_eq!(told(own, "get 1 1"), "ok");
    assert_eq!(told(own, "put 1 1 5"), "ok");
}

#[test]
fn a_total_needs_each_register() {
    let total = |own: &str| told(own, "total 1 0");
    assert_eq!(total("worker 1 read registers 0 to 2"), "ok");
    assert_eq!(total("worker 1 read registers 0 to 1"), "no 23");
    assert_eq!(total("worker 1 read registers 1 to 2"), "no 23");
    // Its registers are 0 and 2: by two rows, and without register 1.
    let two = "worker 1 read registers 0 to 0\n worker 1 read registers 2 to 2";
    assert_eq!(total(two), "ok");
    assert_eq!(told(two, "total 1 1"), "no 23");
    // 17 has nothing that a right is needed for.
    assert_eq!(told("", "total 1 2"), "no 17");
    assert_eq!(told(two, "total 1 2"), "no 17");
}

#[test]
fn marks_need_every_register() {
    for record in ["mark 1 1", "release 1 0"] {
        let answer = |own: &str| told(own, record);
        assert_eq!(answer("worker 1 marks registers 0 to 2"), "ok");
        assert_eq!(answer("worker 1 marks registers 0 to 1"), "no 23");
        assert_eq!(answer("worker 1 marks registers 1 to 255"), "no 23");
        let three = "worker 1 marks registers 2 to 9\n worker 1 put registers 0 to 255
            worker 1 marks registers 1 to 1\n worker 1 marks read registers 0 to 0";
        assert_eq!(answer(three), "ok");
        assert_eq!(answer(&three.replace("1 to 1", "3 to 3")), "no 23");
    }
}

#[test]
fn collect_needs_its_right_in_any_row() {
    let collect = |own: &str| told(own, "collect 1");
    assert_eq!(collect("worker 1 collect registers 1 to 1"), "ok");
    assert_eq!(collect("worker 1 collect registers 200 to 255"), "ok");
    assert_eq!(collect("worker 1 put registers 0 to 2\n worker 1 collect registers 3 to 3"), "ok");
    assert_eq!(collect("worker 1 put read marks registers 0 to 255"), "no 23");
}

/// After 3, 4 and 16, before 10, 12, 13, 19 and 20; a step never gets it.
#[test]
fn where_23_stands() {
    assert_eq!(last("", "worker 0 nothing registers 0 to 0", "get 0 0"), "no 8");
    let own = "worker 1 read registers 0 to 0";
    assert_eq!(told(own, "put 2 0 5"), "no 3");
    assert_eq!(told(own, "put 1 3 5"), "no 4");
    assert_eq!(told(own, "get 1 300"), "no 4");
    assert_eq!(told(own, "mark 1 12"), "no 4");
    assert_eq!(told(own, "marked 1 1 12"), "no 4");
    assert_eq!(told(own, "put 1 0 1000000000000"), "no 16");
    assert_eq!(told(own, "put 1 0 999999999999"), "no 23");
    let busy = |record: &str| told(own, &format!("get 1 0\n {record}"));
    let forbidden =
        ["put 1 0 5", "get 1 1", "read 1 1", "marked 1 1 0", "total 1 0", "collect 1", "mark 1 1"];
    for record in forbidden {
        assert_eq!(busy(record), "no 23", "{record}");
    }
    assert_eq!(busy("get 1 0"), "no 10");
    assert_eq!(busy("put 1 0 1000000000000"), "no 16");
    assert_eq!(busy("put 1 3 5"), "no 4");
    assert_eq!(busy("open 1"), "no 10");
    let closed = |record: &str| told(own, &format!("close 1\n step 1\n {record}"));
    assert_eq!(closed("read 1 1"), "no 23");
    assert_eq!(closed("read 1 0"), "no 13");
    assert_eq!(closed("total 1 0"), "no 23");
    assert_eq!(told(own, "mark 1 0"), "no 23");
    assert_eq!(told(own, "release 1 1"), "no 23");
    assert_eq!(told(own, "marked 1 1 1"), "no 23");
    assert_eq!(told(own, "marked 1 0 1"), "no 20");
    assert_eq!(told("", "step 1"), "no 11");
}

/// 23 changes nothing, and what a worker has begun goes on.
#[test]
fn it_changes_nothing() {
    let own = "worker 1 read registers 0 to 0";
    assert_eq!(told(own, "get 1 0\n put 1 0 5\n collect 1\n step 1"), "none");
    assert_eq!(told(own, "put 1 0 5\n step 1"), "no 11");
}

/// One bit says what the rows say, for every worker, need and register of random tables.
#[test]
fn rights_are_what_the_rows_permit() {
    let mut asked = [0; 2];
    for seed in 0..600 {
        let script = script([Kind::Rights, Kind::Sizes][seed as usize % 2], seed, 0);
        let Ok(rows) = read::<Right>(&script.table) else { continue };
        let (workers, registers) = (1 + seed as usize % 16, 1 + (seed * 7 % 256) as u16);
        let groups = Groups::read::<Right>(&script.list, registers).unwrap_or_default();
        let rights = Rights::new::<Right>(&rows, workers, registers, &groups);
        for worker in 0..workers as u8 {
            let on =
                (0..registers).flat_map(|register| [Need::Put(register), Need::Read(register)]);
            let of = (0..32).filter(|&group| !groups.rows(group).is_empty()).map(Need::Total);
            for need in on.chain(of).chain([Need::Collect, Need::Marks, Need::Nothing]) {
                let allowed = rights.allow(worker, need);
                assert_eq!(allowed, permits(&rows, worker, need, registers, &groups), "{need:?}");
                asked[usize::from(allowed)] += 1;
            }
        }
    }
    assert!(asked[0] > 20_000 && asked[1] > 20_000, "{asked:?}");
}

/// The longest table, and spans that begin and end at each word.
#[test]
fn spans_at_the_bounds_of_words() {
    for (first, last) in [(0, 63), (63, 64), (64, 127), (0, 255), (255, 255), (127, 193), (0, 0)] {
        let row = Row { worker: 3, rights: 2, first, last };
        let rights = Rights::new::<Right>(&[row; 64], 4, 256, &Groups::default());
        for register in 0..256 {
            let inside = (first..=last).contains(&register);
            assert_eq!(rights.allow(3, Need::Read(register)), inside, "{register} in {row:?}");
            assert!(
                !rights.allow(3, Need::Put(register)) && !rights.allow(2, Need::Read(register))
            );
        }
    }
}

/// The script with other values and statuses put to this register, all within A1's limit and at most 2;
/// how many are others.
fn with_other_values(records: &[u8], register: u16, random: &mut Random) -> (Vec<u8>, usize) {
    let mut others = 0;
    let other = |bytes: &[u8]| match Record::decode(bytes) {
        Ok(Record::Put { worker, register: r, reading })
            if r == register && reading.value < 1_000_000_000_000 && reading.status < 3 =>
        {
            let value = random.below(1_000_000_000_000);
            let reading = Reading { value, status: random.below(3) as u8 };
            others += 1;
            Record::Put { worker, register, reading }.encode().to_vec()
        }
        _ => bytes.to_vec(),
    };
    let changed: Vec<u8> = records.chunks(LENGTH).flat_map(other).collect();
    (changed, others)
}

/// In two runs that differ only in values and statuses put to one register, workers without read on it get the same
/// answers throughout, and so do all others to what is not a value.
#[test]
fn two_runs_that_differ_in_one_register() {
    let (mut kept, mut seen, mut changed) = (0, 0, 0);
    for seed in 0..400 {
        let kind = [Kind::Rights, Kind::Mixed, Kind::Marks, Kind::Totals][seed as usize % 4];
        let first = script(kind, 20_000 + seed, 1500);
        let Ok(rows) = read::<Right>(&first.table) else { continue };
        let mut random = Random::new(seed);
        let register = random.below(3) as u16;
        let (records, others) = with_other_values(&first.records, register, &mut random);
        let second = Script { records, ..first.clone() };
        changed += others;
        let answers = first.answers().into_iter().zip(second.answers());
        for (bytes, (one, other)) in first.records.chunks(LENGTH).zip(answers) {
            let worker = *bytes.get(1).unwrap_or(&0);
            if one == other {
                kept += 1;
                continue;
            }
            seen += 1;
            let may = permits(&rows, worker, Need::Read(register), 256, &Groups::default());
            assert!(may, "{kind:?} {seed}: worker {worker} is told {one} and {other}");
            let shown = |answer: Answer| answer.shown().is_some();
            assert!(shown(one) && shown(other), "{one} and {other}");
        }
    }
    assert!(kept > 200_000 && seen > 500 && changed > 5000, "{kept}, {seen}, {changed}");
}
