//! A2: the list of a setup, totals step by step, 17 and 18 in their places, and what a total answers.

use crate::common;

use common::{across, hub_with, last, list, no, records, run, run_with, store, words};
use reference::fault::Right;
use reference::generate::{script_across, Kind, Random, Script};
use reference::list::{Groups, Row, Unfit, GROUPS, MAX_LENGTH, MAX_ROWS};
use reference::order;
use reference::record::LENGTH;
use reference::store::{Doing, Slot, MAX_VALUE};
use reference::{Answer, Hub, Reading, Record};

/// The answer to a setup of V registers with this list.
fn set_up(registers: u16, list: &[u8]) -> Answer {
    let setup = Record::Setup { workers: 1, registers, slots: registers, clock: 1 };
    let mut hub = Hub::new();
    let answer = hub.take_record(setup, list);
    assert_eq!(hub.store().is_some(), answer == Answer::Ok);
    answer
}

/// Rows one after another, as bytes.
fn rows(rows: impl IntoIterator<Item = [u8; 4]>) -> Vec<u8> {
    rows.into_iter().flatten().collect()
}

/// Every group with all its rows, of register 0.
fn longest() -> Vec<u8> {
    rows((0..GROUPS as u8).flat_map(|group| [[group, 0, 0, 0]; MAX_ROWS]))
}

#[test]
fn lists_that_fit() {
    let cases: [(u16, Vec<u8>); 10] = [
        (1, vec![]),
        (1, vec![0, 0, 0, 0]),
        (1, vec![31, 1, 0, 0]),
        (256, vec![0, 1, 255, 0]),
        // A register twice, with either sign; groups left out.
        (2, rows([[3, 0, 1, 0], [3, 0, 1, 0], [3, 1, 1, 0], [9, 0, 0, 0]])),
        (1, rows([[5, 0, 0, 0]; 32])),
        (1, rows([[5, 0, 0, 0]; 32].into_iter().chain([[6, 0, 0, 0]; 32]))),
        (1, rows((0..32).map(|group| [group, group % 2, 0, 0]))),
        (1, longest()),
        (256, rows((0..=255).map(|register| [register / 8, 0, register, 0]))),
    ];
    for (registers, list) in cases {
        assert_eq!(set_up(registers, &list), Answer::Ok, "V {registers}, {list:?}");
    }
    assert_eq!((longest().len(), MAX_LENGTH), (4096, 4096));
}

#[test]
fn lists_that_are_none() {
    let long = |more: &[u8]| [&longest(), more].concat();
    let cases: [(Unfit, u16, Vec<u8>); 24] = [
        // Any length that is no multiple of four.
        (Unfit::Part, 1, vec![0]),
        (Unfit::Part, 1, vec![0, 0]),
        (Unfit::Part, 1, vec![0, 0, 0]),
        (Unfit::Part, 1, vec![0, 0, 0, 0, 0]),
        (Unfit::Part, 1, vec![0, 0, 0, 0, 1, 0, 0]),
        (Unfit::Part, 1, longest()[..4095].to_vec()),
        (Unfit::Part, 1, long(&[0])),
        (Unfit::Sign, 1, vec![0, 2, 0, 0]),
        (Unfit::Sign, 1, vec![0, 255, 0, 0]),
        (Unfit::Sign, 1, vec![0, 0, 0, 0, 0, 2, 0, 0]),
        (Unfit::Group, 1, vec![32, 0, 0, 0]),
        (Unfit::Group, 1, vec![255, 0, 0, 0]),
        // V itself, and its low byte alone.
        (Unfit::Register, 1, vec![0, 0, 1, 0]),
        (Unfit::Register, 7, vec![0, 0, 7, 0]),
        (Unfit::Register, 7, vec![0, 0, 6, 1]),
        (Unfit::Register, 256, vec![0, 0, 0, 1]),
        (Unfit::Register, 256, vec![0, 0, 255, 255]),
        (Unfit::Falling, 1, vec![1, 0, 0, 0, 0, 0, 0, 0]),
        (Unfit::Falling, 1, vec![0, 0, 0, 0, 31, 0, 0, 0, 30, 0, 0, 0]),
        (Unfit::Falling, 1, vec![4, 0, 0, 0, 5, 0, 0, 0, 4, 0, 0, 0]),
        (Unfit::Many, 1, rows([[0, 0, 0, 0]; 33])),
        (Unfit::Many, 1, rows([[31, 0, 0, 0]; 33])),
        (Unfit::Many, 1, long(&[31, 0, 0, 0])),
        (Unfit::Many, 1, vec![0; 5_000_000]),
    ];
    for (unfit, registers, list) in cases {
        let start = &list[..list.len().min(40)];
        assert_eq!(Groups::read::<Right>(&list, registers), Err(unfit), "{start:?}");
        assert_eq!(set_up(registers, &list), no(5), "V {registers}, {start:?}");
    }
}

/// Each byte of each row decides: with one changed, a list is one exactly where the sentences say so.
#[test]
fn every_byte_of_a_row() {
    for place in 0..3 {
        for byte in 0..4 {
            for value in 0..=255 {
                let mut list = [[4, 0, 2, 0], [6, 1, 0, 0], [8, 0, 1, 0]];
                list[place][byte] = value;
                let groups = list.map(|row| row[0]);
                let fits = match byte {
                    0 => groups.is_sorted() && value <= 31,
                    1 => value <= 1,
                    2 => value <= 2,
                    _ => value == 0,
                };
                let expected = if fits { Answer::Ok } else { no(5) };
                assert_eq!(set_up(3, &rows(list)), expected, "{list:?}");
            }
        }
    }
}

/// The list is lent with every record, looked at by a setup alone, and kept from the one that is
/// accepted.
#[test]
fn only_an_accepted_setup_takes_its_list() {
    let (first, second, none) = (list("0 + 0"), list("0 + 1\n1 + 0"), vec![7]);
    let mut hub = Hub::new();
    let mut take = |script: &str, list: &[u8]| -> Vec<String> {
        words(&records(script).chunks(LENGTH).map(|r| hub.take(r, list)).collect::<Vec<_>>())
    };
    // Refused for its list and for its sizes; neither is kept.
    assert_eq!(take("setup 1 2 8 1", &none), ["no 5"]);
    assert_eq!(take("setup 0 2 8 1", &second), ["no 5"]);
    assert_eq!(take("total 0 0\n step 0", &first), ["no 8", "no 8"]);
    assert_eq!(take("setup 1 2 8 1", &first), ["ok"]);
    // 9 whatever the list, and the first one stays.
    for list in [&first, &second, &none, &vec![]] {
        assert_eq!(take("setup 1 2 8 1\n setup 0 0 0 0", list), ["no 9", "no 9"]);
    }
    assert_eq!(
        take("put 0 0 5\n step 0 x8\n open 0\n step 0 x2", &none)[8..],
        ["done", "ok", "going", "at 1"]
    );
    assert_eq!(take("total 0 1\n total 0 0\n step 0", &second), ["no 17", "ok", "going"]);
    assert_eq!(take("step 0", &none), ["value 5 0"]);
}

#[test]
fn an_empty_list_is_a_plain_setup() {
    let script =
        "setup 1 1 4 1\n open 0\n step 0 x2\n total 0 0\n total 0 31\n read 0 0\n step 0 x2";
    let expected = ["ok", "ok", "going", "at 1", "no 17", "no 17", "ok", "going", "none"];
    assert_eq!(run(script), expected);
}

/// Three registers with 100, 20 and 3, and a snapshot of worker 1.
const READINGS: &str = "setup 3 3 20 1\n put 0 0 100\n step 0 x3\n put 0 1 20\n step 0 x3
    put 0 2 3\n step 0 x3\n open 1\n step 1 x2";

/// The words that a worker's total of this group gets after the readings: its begin and its steps.
fn total(rows: &str, group: u16) -> Vec<String> {
    let mut hub = hub_with(rows, READINGS);
    let mut answers = vec![last(&mut hub, &format!("total 1 {group}"))];
    while answers.last() == Some(&Answer::Ok) || answers.last() == Some(&Answer::Going) {
        answers.push(last(&mut hub, "step 1"));
    }
    words(&answers)
}

/// Two steps a row where nothing is newer, and only the last one answers.
#[test]
fn one_register_after_another() {
    assert_eq!(total("0 + 0", 0), ["ok", "going", "value 100 0"]);
    assert_eq!(total("0 - 0", 0), ["ok", "going", "value -100 0"]);
    assert_eq!(total("0 + 0\n 0 - 1", 0), ["ok", "going", "going", "going", "value 80 0"]);
    let three = ["ok", "going", "going", "going", "going", "going"];
    let rows = "2 + 1\n 7 + 0\n 7 - 1\n 7 + 2\n 8 + 0";
    assert_eq!(total(rows, 7), [&three[..], &["value 83 0"]].concat());
    assert_eq!(total(rows, 2), ["ok", "going", "value 20 0"]);
    assert_eq!(total(rows, 8), ["ok", "going", "value 100 0"]);
    for group in [0, 1, 3, 6, 9, 31, 32, 255, 256, 258, 65535] {
        assert_eq!(total(rows, group), ["no 17"], "group {group}");
    }
}

/// A register twice counts twice, with the same sign or another.
#[test]
fn a_register_twice() {
    assert_eq!(total("0 + 1\n 0 + 1", 0).last().unwrap(), "value 40 0");
    assert_eq!(total("0 - 1\n 0 - 1\n 0 - 1", 0).last().unwrap(), "value -60 0");
    assert_eq!(total("0 + 1\n 0 - 1", 0).last().unwrap(), "value 0 0");
    assert_eq!(total("0 + 1\n 0 + 0\n 0 + 1\n 0 - 2", 0).last().unwrap(), "value 137 0");
}

/// Both ends of what a total can answer, and zero on the way.
#[test]
fn sums_at_the_extremes() {
    let most =
        "setup 1 2 8 1\n put 0 0 999999999999\n step 0 x9\n open 0\n step 0 x2\n total 0 3\n";
    for (sign, expected) in [("+", "value 31999999999968 0"), ("-", "value -31999999999968 0")] {
        let rows = format!("3 {sign} 0\n").repeat(32);
        let script = format!("{most} step 0 x64");
        assert_eq!(run_with(&rows, &script).last().unwrap(), expected);
    }
    let half = "3 + 0\n".repeat(16) + &"3 - 0\n".repeat(16);
    assert_eq!(run_with(&half, &format!("{most} step 0 x64")).last().unwrap(), "value 0 0");
    let rows = "3 - 0\n".repeat(31) + "3 - 1";
    assert_eq!(
        run_with(&rows, &format!("{most} step 0 x64")).last().unwrap(),
        "value -30999999999969 0"
    );
    assert_eq!(run_with(&rows, &format!("{most} step 0 x63")).last().unwrap(), "going");
}

/// Each row stamps its register at its own first step, and no sooner.
#[test]
fn each_row_stamps_its_register() {
    let mut hub = hub_with("0 + 0\n 0 + 1", "setup 3 2 8 5\n open 1\n step 1 x2");
    // Both published and unstamped, after the snapshot.
    last(&mut hub, "put 0 0 7\n step 0\n put 2 1 8\n step 2\n total 1 0");
    let low =
        |hub: &Hub, register: usize| store(hub).slots[usize::from(store(hub).newest[register])].low;
    assert_eq!((low(&hub, 0), low(&hub, 1)), (None, None));
    last(&mut hub, "step 1");
    assert_eq!((low(&hub, 0), low(&hub, 1)), (Some(6), None));
    // Above the time: it moves, takes the older value, and only then is register 1's turn.
    assert_eq!(last(&mut hub, "step 1"), Answer::Going);
    assert_eq!(last(&mut hub, "step 1"), Answer::Going);
    assert_eq!(low(&hub, 1), None);
    assert_eq!(last(&mut hub, "step 1"), Answer::Going);
    assert_eq!(low(&hub, 1), Some(6));
    assert_eq!(last(&mut hub, "step 1"), Answer::Going);
    assert_eq!(last(&mut hub, "step 1"), Answer::value(0, 0));
}

/// The sum is that of the snapshot, whatever is put while the total is under way.
#[test]
fn the_sum_is_of_one_time() {
    let mut hub = hub_with("0 + 0\n 0 - 1\n 0 + 2", READINGS);
    last(&mut hub, "total 1 0");
    let mut steps = 0;
    let answer = loop {
        let register = steps % 3;
        last(&mut hub, &format!("put 0 {register} {}\n step 0 x3", 1000 + steps));
        steps += 1;
        match last(&mut hub, "step 1") {
            Answer::Going => {}
            answer => break answer,
        }
    };
    assert_eq!(answer, Answer::value(83, 0));
    assert!(steps > 6, "it passed newer versions: {steps} steps");
    assert_eq!(last(&mut hub, "total 1 0\n step 1 x40"), no(11), "idle again");
}

/// A total that stands on a version which is freed moves to the older one: at its first row, and at a
/// later one.
#[test]
fn a_total_moves_off_a_freed_version() {
    // Slot 2 has the snapshot's reading, slot 3 the newest, on which the total will stand.
    let script = "setup 2 2 5 1\n put 0 0 5\n step 0 x3\n open 1\n step 1 x2
        put 0 0 6\n step 0 x9\n total 1 0";
    for (rows, steps) in [("0 + 0", 1), ("0 - 1\n 0 + 0", 3)] {
        let mut hub = hub_with(rows, script);
        last(&mut hub, &format!("step 1 x{steps}"));
        let stands = |hub: &Hub, on| matches!(store(hub).workers[1].doing, Doing::TotalAt { slot, .. } if slot == on);
        assert!(stands(&hub, 3));
        // A put covers it and hands it in.
        last(&mut hub, "put 0 0 7\n step 0 x3");
        assert_eq!(last(&mut hub, "collect 0\n step 0 x6"), Answer::Freed(0));
        assert_eq!(last(&mut hub, "step 0\n collect 0\n step 0 x6"), Answer::Freed(3));
        assert!(stands(&hub, 2));
        // The slot has another register's reading by now.
        last(&mut hub, "step 0\n put 0 1 1000\n step 0 x3");
        assert_eq!(store(&hub).slots[3].reading, Some(Reading::read(1000)));
        assert_eq!(last(&mut hub, "step 1"), Answer::value(5, 0));
    }
}

/// Records that deserve 17 and another refusal: with each neighbour in the order.
#[test]
fn where_17_stands() {
    let rows = "0 + 0\n 2 + 0";
    let busy = "setup 2 1 4 1\n get 0 0";
    let snapshot = "setup 2 1 4 1\n open 0\n step 0 x2";
    let snapshot_busy = "setup 2 1 4 1\n open 0\n step 0 x2\n total 0 0";
    let cases = [
        ("", "bytes 08 00 01 00 00 00 00 00 00 00 00 00 00 00 00", 6),
        ("", "bytes 0c 00 01 00 00 00 00 00 00 00 00 00 00 00 00 00", 1),
        // The group is in bytes 2 and 3 and nowhere else.
        (busy, "bytes 08 00 01 00 01 00 00 00 00 00 00 00 00 00 00 00", 2),
        (busy, "bytes 08 00 00 00 00 00 00 00 00 00 00 00 00 00 00 01", 2),
        ("", "total 0 1", 8),
        ("", "total 255 65535", 8),
        (busy, "total 2 1", 3),
        (busy, "total 255 32", 3),
        (busy, "total 0 1", 17),
        (busy, "total 0 0", 10),
        (busy, "total 1 1", 17),
        (busy, "total 1 0", 13),
        (snapshot, "total 0 1", 17),
        (snapshot, "total 0 32", 17),
        (snapshot, "total 0 256", 17),
        (snapshot, "total 0 258", 17),
        (snapshot, "total 0 65535", 17),
        (snapshot, "total 1 2", 13),
        (snapshot_busy, "total 0 1", 17),
        (snapshot_busy, "total 0 0", 10),
        (snapshot_busy, "total 0 2", 10),
        (snapshot_busy, "read 0 1", 4),
    ];
    for (before, record, number) in cases {
        let mut hub = hub_with(rows, before);
        let earlier = hub.store().cloned();
        assert_eq!(last(&mut hub, record), no(number), "{record:?} after {before:?}");
        assert_eq!(hub.store(), earlier.as_ref(), "{record:?} after {before:?}");
    }
    // Registers from V on have nothing to do with groups.
    let mut hub = hub_with("31 + 0", "setup 1 1 1 1\n open 0\n step 0 x2");
    assert_eq!(last(&mut hub, "total 0 31"), Answer::Ok);
}

/// The words after a text from before A1, and the hub that they leave.
fn over(rows: &str, before: &str, after: &str) -> Vec<String> {
    let (before, after) = (records(before), records(after));
    let number = before.len() / LENGTH;
    let records = [before, after].concat();
    let script = Script { records, list: list(rows), ..Script::default() };
    let answers = across::<Right>(&script, number);
    order::check(&script.records, &script.list, &script.table, &answers).expect("in order");
    words(&answers[number..])
}

/// 18 comes at the answering step of the row whose value is above the limit.
#[test]
fn refusal_18_at_its_step() {
    let before = |value: u64| {
        format!("setup 2 3 12 1\n put 0 0 4\n step 0 x3\n put 0 1 {value}\n step 0 x9\n open 1\n step 1 x2")
    };
    let large = before(MAX_VALUE + 1);
    let total = "total 1 0\n step 1 x7";
    // At the first row, a middle one and the last: the worker is idle then.
    let going = |steps: usize| {
        [vec!["ok"], vec!["going"; steps], vec!["no 18"], vec!["no 11"; 6 - steps]].concat()
    };
    assert_eq!(over("0 + 1\n 0 + 0\n 0 + 2", &large, total), going(1));
    assert_eq!(over("0 + 0\n 0 - 1\n 0 + 2", &large, total), going(3));
    assert_eq!(over("0 + 0\n 0 + 2\n 0 + 1", &large, total), going(5));
    assert_eq!(over("0 + 1", &large, total), going(1));
    // The limit itself is summed; the largest value of all is not.
    let limit = over("0 + 1\n 0 + 0", &before(MAX_VALUE), "total 1 0\n step 1 x4");
    assert_eq!(limit.last().unwrap(), "value 1000000000003 0");
    assert_eq!(over("0 - 1", &before(u64::MAX), total), going(1));
    // A group without that register has its sum.
    assert_eq!(over("0 + 0\n 1 + 1", &large, "total 1 0\n step 1 x2").last().unwrap(), "value 4 0");
}

/// What the snapshot shows is tested, not what is newest, and only where it is to be summed.
#[test]
fn refusal_18_is_of_the_value_to_be_summed() {
    // The large value is newer than the snapshot: the total passes it.
    let newer = "setup 2 1 8 1\n put 0 0 4\n step 0 x3\n open 1\n step 1 x2\n put 0 0 1000000000000\n step 0 x9";
    assert_eq!(
        over("0 + 0", newer, "total 1 0\n step 1 x3"),
        ["ok", "going", "going", "value 4 0"]
    );
    // It is older, and covered by a smaller one since: the total meets it.
    let older = "setup 2 1 8 1\n put 0 0 1000000000000\n step 0 x3\n open 1\n step 1 x2";
    let after = "put 0 0 4\n step 0 x3\n total 1 0\n step 1 x3\n step 1";
    assert_eq!(over("0 + 0", older, after)[4..], ["ok", "going", "going", "no 18", "no 11"]);
}

/// The worker goes idle, and nothing else changes; its snapshot stays and reads show the value.
#[test]
fn refusal_18_changes_nothing_but_the_worker() {
    let mut hub = Hub::new();
    hub.max_value = u64::MAX;
    let list = list("0 + 0\n 0 + 1");
    let mut take = |script: &str| {
        let answers: Vec<_> = records(script).chunks(LENGTH).map(|r| hub.take(r, &list)).collect();
        (answers, hub.store().unwrap().clone())
    };
    take("setup 3 2 12 1\n put 0 1 1000000000000\n step 0 x3\n open 1\n step 1 x2");
    // Others are under way, and a version of the register is unstamped.
    let (answers, before) = take("get 0 0\n total 1 0\n step 1 x3\n put 2 1 9\n step 2");
    assert_eq!(words(&answers), ["ok", "ok", "going", "going", "going", "ok", "going"]);
    let (answers, after) = take("step 1");
    assert_eq!(answers, [no(18)]);
    let mut expected = before;
    expected.workers[1].doing = Doing::Idle;
    assert_eq!(after, expected);
    let (answers, _) = take("step 1\n open 1\n read 1 1\n step 1 x3\n close 1\n step 1");
    let shown = "value 1000000000000 0";
    assert_eq!(words(&answers), ["no 11", "no 12", "ok", "going", "going", shown, "ok", "done"]);
}

/// A step's record is 16 bytes like any other, and a worker's record stays as small as it was; so do a
/// slot and an answer with a status.
#[test]
fn a_total_takes_no_more_room() {
    assert_eq!(size_of::<Doing>(), 16);
    assert_eq!(size_of::<Row>(), 4);
    assert_eq!((size_of::<Slot>(), size_of::<Answer>(), size_of::<Record>()), (40, 16, 16));
}

/// Totals along random scripts, by the plain registers: all that ended, by sign, and those with 18.
#[test]
fn random_totals_show_the_sum_over_the_copy() {
    let (mut above, mut below, mut refused) = (0, 0, 0);
    for kind in [Kind::Totals, Kind::Lists, Kind::Mixed, Kind::Large] {
        for seed in 0..60 {
            let before = if seed % 2 == 0 { 0 } else { 400 };
            let script = script_across(kind, 3000 + seed, 1200, before);
            let answers = across::<Right>(&script, before);
            let order = order::check(&script.records, &script.list, &script.table, &answers);
            let order = order.unwrap_or_else(|violation| panic!("{kind:?} {seed}: {violation}"));
            for operation in &order.operations {
                if let order::Action::Total { .. } = operation.action {
                    let shown = operation.answer().and_then(Answer::shown);
                    above += usize::from(shown.is_some_and(|shown| shown.value > 0));
                    below += usize::from(shown.is_some_and(|shown| shown.value < 0));
                    refused += usize::from(operation.answer() == Some(no(18)));
                    assert_eq!(shown, operation.shown);
                }
            }
        }
    }
    assert!(above > 500 && below > 300 && refused > 150, "{above}, {below}, {refused}");
}

/// The groups that a hub keeps are the list's, group by group and row by row.
#[test]
fn groups_have_their_rows() {
    let mut random = Random::new(8);
    for _ in 0..200 {
        let mut all: Vec<Row> = (0..random.below(60))
            .map(|_| Row {
                group: random.below(32) as u8,
                minus: random.chance(500),
                register: random.below(9) as u16,
            })
            .collect();
        all.sort_by_key(|row| row.group);
        let list: Vec<u8> = all.iter().flat_map(|row| row.encode()).collect();
        let groups = Groups::read::<Right>(&list, 9).expect("a list");
        assert_eq!(groups.all(), all);
        for group in (0..40).chain([255, 256, 65535]) {
            let own: Vec<Row> =
                all.iter().filter(|row| u16::from(row.group) == group).copied().collect();
            assert_eq!(groups.rows(group), own);
            let first = groups.first::<Right>(group);
            assert_eq!(first.map(|place| usize::from(place.left) + 1).unwrap_or(0), own.len());
            assert_eq!(first.map(|place| groups.row(place)), own.first().copied());
        }
    }
}
