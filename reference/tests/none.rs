//! A5: a version from setup holds no reading. Get, read and marked read answer `none` for it, a total
//! adds 0, and the row writer leaves its buffer as it is. A put of 0 is a reading.

use crate::common;

use common::{examined, hub_after, last, no, records, run, run_with, store};
use reference::generate::{script, Kind, Random};
use reference::order::{self, Action, Claim, Outcome};
use reference::row::{write_row, Written, LENGTH, REGISTERS};
use reference::{Answer, Reading, Refusal};

/// The last of the words that a script is answered with.
fn told(script: &str) -> String {
    run(script).pop().expect("a record")
}

#[test]
fn every_register_starts_without_a_reading() {
    for registers in [1, 2, 256] {
        let mut hub = hub_after(&format!("setup 2 {registers} {registers} 1\n open 0\n step 0 x2"));
        last(&mut hub, "mark 0 0\n step 0");
        for register in 0..registers {
            assert_eq!(store(&hub).slots[register].reading, None);
            for begin in [
                format!("get 1 {register}"),
                format!("read 0 {register}\n step 0"),
                format!("marked 1 {register} 0\n step 1"),
            ] {
                let worker = if begin.starts_with("read") { 0 } else { 1 };
                let answer = last(&mut hub, &format!("{begin}\n step {worker}"));
                assert_eq!(answer, Answer::None, "{begin}");
            }
        }
    }
}

#[test]
fn a_put_of_0_is_a_reading() {
    let put = "setup 2 2 6 1\n put 0 0 0\n step 0 x3\n open 1\n step 1 x2";
    assert_eq!(told(&format!("{put}\n get 1 0\n step 1")), "value 0 0");
    assert_eq!(told(&format!("{put}\n read 1 0\n step 1 x2")), "value 0 0");
    assert_eq!(told(&format!("{put}\n mark 1 0\n step 1\n marked 0 0 0\n step 0 x2")), "value 0 0");
    // The other register has still none.
    assert_eq!(told(&format!("{put}\n get 1 1\n step 1")), "none");
    assert_eq!(told(&format!("{put}\n read 1 1\n step 1 x2")), "none");
}

/// Published and not yet stamped: a get stamps it and shows it, whatever its value. A snapshot from
/// before that shows none, one from after it the value.
#[test]
fn a_first_put_that_is_not_stamped() {
    for value in [0, 7] {
        let published = format!("setup 3 1 4 5\n open 1\n step 1 x2\n put 0 0 {value}\n step 0");
        let shown = format!("value {value} 0");
        assert_eq!(told(&format!("{published}\n get 2 0\n step 2")), shown);
        assert_eq!(told(&format!("{published}\n read 1 0\n step 1 x3")), "none");
        // The read stamps it at 7, after its own snapshot of 6.
        let newer = format!("{published}\n open 2\n step 2 x2");
        assert_eq!(told(&format!("{newer}\n read 2 0\n step 2 x3")), "none");
        let stamped = format!("{published}\n step 0\n open 2\n step 2 x2");
        assert_eq!(told(&format!("{stamped}\n read 2 0\n step 2 x2")), shown);
        assert_eq!(told(&format!("{stamped}\n read 1 0\n step 1 x3")), "none");
        assert_eq!(
            told(&format!("{stamped}\n mark 1 4\n step 1\n marked 2 0 4\n step 2 x3")),
            "none"
        );
    }
}

/// A put that found no slot wrote nothing; nor did one that is refused on reading.
#[test]
fn a_put_that_is_refused_leaves_no_reading() {
    assert_eq!(told("setup 1 1 1 1\n put 0 0 7\n step 0\n get 0 0\n step 0"), "none");
    assert_eq!(told("setup 1 1 3 1\n put 0 0 1000000000000\n get 0 0\n step 0"), "none");
    assert_eq!(told("setup 2 1 3 1\n put 0 0 7\n get 1 0\n step 1"), "none", "only begun");
}

/// The slot of a version from setup is freed, and a put on another register takes it: a reading.
#[test]
fn a_slot_from_setup_that_is_taken_again() {
    let freed = "setup 1 2 3 1\n put 0 0 5\n step 0 x8\n collect 0\n step 0 x5";
    assert_eq!(told(freed), "freed 0");
    let taken = format!("{freed}\n step 0\n put 0 1 9\n step 0 x8");
    let mut hub = hub_after(&taken);
    assert_eq!((store(&hub).newest[1], store(&hub).slots[0].reading), (0, Some(Reading::read(9))));
    assert_eq!(last(&mut hub, "get 0 1\n step 0"), Answer::value(9, 0));
    assert_eq!(last(&mut hub, "open 0\n step 0 x2\n read 0 1\n step 0 x2"), Answer::value(9, 0));
}

/// A mark keeps a version without a reading as it keeps any other; released, its slot goes.
#[test]
fn a_mark_keeps_the_time_before_the_first_put() {
    let mut hub = hub_after(
        "setup 2 1 6 1\n open 1\n step 1 x2\n mark 1 3\n step 1\n close 1\n step 1
        put 0 0 5\n step 0 x3\n put 0 0 6\n step 0 x9\n collect 0\n step 0 x7",
    );
    assert_eq!(last(&mut hub, "marked 1 0 3\n step 1 x3"), Answer::None);
    assert_eq!(last(&mut hub, "get 1 0\n step 1"), Answer::value(6, 0));
    let freed = last(&mut hub, "release 1 3\n step 1\n collect 0\n step 0 x6");
    assert_eq!(freed, Answer::Freed(0));
}

#[test]
fn a_total_adds_0_for_no_reading() {
    let readings = "setup 2 4 12 1\n put 0 1 20\n step 0 x3\n put 0 3 0\n step 0 x9";
    let total = |rows: &str| {
        let count = 2 * rows.lines().count();
        let script = format!("{readings}\n open 1\n step 1 x2\n total 1 0\n step 1 x{count}");
        run_with(rows, &script).pop().expect("a record")
    };
    for (rows, sum) in [
        ("0 + 0", "value 0 0"),
        ("0 - 0", "value 0 0"),
        ("0 + 0\n 0 - 2\n 0 + 0", "value 0 0"),
        ("0 + 3", "value 0 0"),
        ("0 + 0\n 0 + 1", "value 20 0"),
        ("0 + 1\n 0 - 0", "value 20 0"),
        ("0 - 1\n 0 + 2\n 0 + 3", "value -20 0"),
        ("0 + 1\n 0 - 2\n 0 + 1\n 0 - 0", "value 40 0"),
    ] {
        assert_eq!(total(rows), sum, "{rows}");
    }
}

/// As of its snapshot: what is put after that adds nothing.
#[test]
fn a_total_from_before_the_first_put() {
    let script =
        "setup 2 2 8 1\n open 1\n step 1 x2\n put 0 0 100\n step 0 x3\n put 0 1 30\n step 0
        total 1 0\n step 1 x6";
    assert_eq!(run_with("0 + 0\n 0 - 1", script).pop().unwrap(), "value 0 0");
    let later = format!("{script}\n close 1\n step 1\n open 1\n step 1 x2\n total 1 0\n step 1 x4");
    assert_eq!(run_with("0 + 0\n 0 - 1", &later).pop().unwrap(), "value 70 0");
}

/// The checker: `none` exactly where no value is shown, for each of the three that may answer it.
#[test]
fn none_and_values_are_told_apart_by_the_checker() {
    let cases = [
        ("get 1 0\n step 1", "none"),
        ("get 1 1\n step 1", "value 0 0"),
        ("read 1 0\n step 1 x2", "none"),
        ("read 1 1\n step 1 x2", "value 0 0"),
        ("mark 1 0\n step 1\n marked 0 0 0\n step 0 x2", "none"),
        ("mark 1 0\n step 1\n marked 0 1 0\n step 0 x2", "value 0 0"),
    ];
    for (script, right) in cases {
        let script =
            format!("setup 2 2 6 1\n put 0 1 0\n step 0 x3\n open 1\n step 1 x2\n {script}");
        let record = records(&script).len() / 16 - 1;
        for answer in ["none", "value 0 0", "value 1 0"] {
            let (_, violation) = examined(&script, &[(record, answer)]);
            let broken = violation.map(|found| (found.record, found.claim));
            let expected = (answer != right).then_some((record, Claim::Value));
            assert_eq!(broken, expected, "{script}: {answer}");
        }
    }
}

/// 4, then 7, then `none`; the buffer stays as it is with each of the three.
#[test]
fn a_row_of_no_reading() {
    for (register, length, answer) in [
        (0, 16, Ok(Written::None)),
        (0, 15, Err(Refusal::Buffer)),
        (0, 0, Err(Refusal::Buffer)),
        (1, 32, Ok(Written::None)),
        (1, 31, Err(Refusal::Buffer)),
        (255, 4096, Ok(Written::None)),
        (255, 4095, Err(Refusal::Buffer)),
        (256, 8192, Err(Refusal::Register)),
        (256, 0, Err(Refusal::Register)),
        (65535, 15, Err(Refusal::Register)),
    ] {
        let mut buffer = vec![0xaa; length];
        assert_eq!(write_row(&mut buffer, register, 7, None), answer, "{register}, {length}");
        assert!(buffer.iter().all(|&byte| byte == 0xaa), "{register}, {length}");
    }
    // A reading of 0 is written.
    let mut buffer = [0xaa; 16];
    assert_eq!(write_row(&mut buffer, 0, 7, Some(Reading::read(0))), Ok(Written::Row));
    assert_eq!(buffer, [0, 0, 0, 0, 7, 0, 0, 0, 0, 0, 0, 0, 0, 0, 0, 0]);
}

/// Random rows: each outcome often, and what the buffer holds after it.
#[test]
fn random_rows() {
    let mut random = Random::new(5);
    let (mut written, mut none, mut register_refused, mut short, mut no_status) = (0, 0, 0, 0, 0);
    for _ in 0..4000 {
        let register = random.between(0, 300) as u16;
        let length = random.between(0, 2 * 16 * u64::from(register) + 40) as usize;
        let value = random.bits() >> random.below(64);
        let status = random.pick(&[0, 0, 0, 0, 1, 2, 3, 255]);
        let reading = random.chance(500).then_some(Reading { value, status });
        let time = random.bits() as u32;
        let before: Vec<u8> = (0..length).map(|_| random.bits() as u8).collect();
        let mut buffer = before.clone();
        let answer = write_row(&mut buffer, register, time, reading);
        let start = LENGTH * usize::from(register);
        match (answer, reading) {
            (Ok(Written::Row), Some(Reading { value, status: status @ ..3 })) => {
                written += 1;
                let row = &mut buffer[start..start + LENGTH];
                let expected =
                    [&register.to_le_bytes()[..], &[status, 0], &time.to_le_bytes()].concat();
                assert_eq!((&row[..8], &row[8..]), (&expected[..], &value.to_le_bytes()[..]));
                row.copy_from_slice(&before[start..start + LENGTH]);
            }
            (Ok(Written::None), None) => none += 1,
            (Err(Refusal::Register), _) if register >= REGISTERS => register_refused += 1,
            (Err(Refusal::Buffer), _) if length < start + LENGTH => short += 1,
            (Err(Refusal::Status), Some(Reading { status: 3.., .. })) => no_status += 1,
            _ => panic!("{register}, {length} bytes, {reading:?}: {answer:?}"),
        }
        assert_eq!(buffer, before);
    }
    let counts = [written, none, register_refused, short];
    assert!(counts.iter().all(|&count| count > 400) && no_status > 100, "{counts:?}, {no_status}");
}

/// Along random scripts, by the plain registers: who answers `none` and who a value.
#[test]
fn random_scripts_answer_none_exactly_where_no_value_is_shown() {
    let mut counts = [[0; 2]; 3];
    for kind in [Kind::Empty, Kind::Mixed, Kind::Marks, Kind::Large] {
        for seed in 0..60 {
            let script = script(kind, 1500 + seed, 1200);
            let order =
                order::check(&script.records, &script.list, &script.table, &script.answers());
            let order = order.unwrap_or_else(|violation| panic!("{kind:?} {seed}: {violation}"));
            for operation in &order.operations {
                let Outcome::Finished { answer, .. } = operation.outcome else { continue };
                let place = match operation.action {
                    Action::Get { .. } => 0,
                    Action::Read { .. } => 1,
                    Action::Marked { .. } => 2,
                    // A sum is always a value.
                    Action::Total { .. } => {
                        assert!(operation.shown.is_some() && answer != Answer::None);
                        continue;
                    }
                    _ => continue,
                };
                assert_eq!(answer == Answer::None, operation.shown.is_none());
                counts[place][usize::from(operation.shown.is_some())] += 1;
            }
        }
    }
    for [none, value] in counts {
        assert!(none > 1000 && value > 1000, "{counts:?}");
    }
}

/// Nothing else has that answer: a refused record, a put, an open, a close, a collect, a mark.
#[test]
fn only_gets_and_reads_answer_none() {
    let script = "get 0 0\n setup 1 1 4 1\n step 0\n put 0 0 7\n step 0 x8\n open 0\n step 0 x2
        mark 0 0\n step 0\n collect 0\n step 0 x6\n release 0 0\n step 0\n close 0\n step 0";
    assert!(!run(script).contains(&"none".to_string()));
    assert_eq!(last(&mut hub_after("setup 1 1 4 1"), "read 0 0"), no(13));
}
