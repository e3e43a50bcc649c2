//! A3: marks, releases and marked reads step by step, 4, 13, 19, 20 and 21 in their places, when
//! they begin and again at a step, the flush that reads all marks, and what a marked read answers.

use crate::common;

use common::{hub_after, last, no, records, run, store, words};
use reference::generate::{script, Kind};
use reference::marks::MARKS;
use reference::order::{self, Action, Outcome};
use reference::store::Doing;
use reference::{log, Answer, Hub, Reading};

/// Two workers, two registers. Worker 1 has a snapshot at 1 of 5 in register 0, in slot 2.
const SNAPSHOT: &str = "setup 2 2 9 1\n put 0 0 5\n step 0 x3\n open 1\n step 1 x2";

fn hub(script: &str) -> Hub {
    hub_after(&format!("{SNAPSHOT}\n {script}"))
}

/// The words of a script after the snapshot; demand 3 holds of both together.
fn after(script: &str) -> Vec<String> {
    let file = records(&format!("{SNAPSHOT}\n {script}"));
    let answers = log::answers(&mut Hub::new(), &file, &[]);
    order::check(&file, &[], &[], &answers).expect("in order");
    words(&answers[records(SNAPSHOT).len() / 16..])
}

#[test]
fn marks_are_empty_at_setup() {
    let hub = hub_after("setup 16 1 1 1");
    assert_eq!(store(&hub).marks, [None; 12]);
    for mark in 0..12 {
        let script = format!("setup 1 1 1 1\n release 0 {mark}\n marked 0 0 {mark}");
        assert_eq!(run(&script), ["ok", "no 20", "no 20"], "{mark}");
    }
}

/// All twelve are there, each with its own time, and there are no more.
#[test]
fn twelve_marks() {
    let mut hub = hub_after("setup 1 1 30 1");
    for mark in 0..MARKS {
        let value = 100 + mark;
        last(&mut hub, &format!("put 0 0 {value}\n step 0 x20\n open 0\n step 0 x2"));
        assert_eq!(last(&mut hub, &format!("mark 0 {mark}\n step 0")), Answer::Done);
        assert_eq!(store(&hub).marks[mark], Some(1 + mark as u32));
        assert_eq!(last(&mut hub, "close 0\n step 0"), Answer::Done);
    }
    assert_eq!(last(&mut hub, "put 0 0 999\n step 0 x20\n collect 0\n step 0 x20"), no(11));
    for mark in 0..MARKS {
        let shown = last(&mut hub, &format!("marked 0 0 {mark}\n step 0 x{}", 14 - mark));
        assert_eq!(shown, Answer::value(100 + mark as u64, 0), "{mark}");
    }
    assert_eq!(last(&mut hub, "open 0\n step 0 x2\n mark 0 12"), no(4));
}

/// One step each, answered `done`, and the worker's own time stays.
#[test]
fn a_mark_and_a_release_take_one_step() {
    assert_eq!(after("mark 1 3\n step 1\n step 1"), ["ok", "done", "no 11"]);
    assert_eq!(after("mark 1 3\n step 1\n release 0 3\n step 0 x2")[2..], ["ok", "done", "no 11"]);
    let mut hub = hub("mark 1 3");
    assert_eq!(store(&hub).marks, [None; 12], "nothing is marked before the step");
    assert_eq!(last(&mut hub, "step 1"), Answer::Done);
    let mut marks = [None; 12];
    marks[3] = Some(1);
    assert_eq!(store(&hub).marks, marks);
    assert_eq!(store(&hub).workers[1].announced, Some(1));
    // Any worker releases, and the mark can be used again.
    assert_eq!(last(&mut hub, "release 0 3"), Answer::Ok);
    assert_eq!(store(&hub).marks, marks);
    assert_eq!(last(&mut hub, "step 0"), Answer::Done);
    assert_eq!(store(&hub).marks, [None; 12]);
    assert_eq!(last(&mut hub, "mark 1 3\n step 1"), Answer::Done);
}

/// Its worker's close takes nothing from a mark, and one snapshot may have several.
#[test]
fn a_mark_outlives_its_snapshot() {
    let mut hub = hub("mark 1 3\n step 1\n mark 1 4\n step 1\n close 1\n step 1");
    assert_eq!((store(&hub).marks[3], store(&hub).marks[4]), (Some(1), Some(1)));
    // Released, the other stays.
    assert_eq!(last(&mut hub, "release 0 3\n step 0"), Answer::Done);
    assert_eq!((store(&hub).marks[3], store(&hub).marks[4]), (None, Some(1)));
    assert_eq!(last(&mut hub, "marked 1 0 4\n step 1 x2"), Answer::value(5, 0));
}

/// The mark's time, whatever the worker's own is, and with none; any register.
#[test]
fn a_marked_read_is_at_the_marks_time() {
    let newer =
        "mark 1 3\n step 1\n close 1\n step 1\n put 0 0 6\n step 0 x9\n put 0 1 7\n step 0 x3";
    let read = |begin: &str, steps: usize| {
        let words = after(&format!("{newer}\n {begin}\n step 1 x{steps}"));
        words[words.len() - steps..].to_vec()
    };
    assert_eq!(read("marked 1 0 3", 4), ["going", "going", "value 5 0", "no 11"]);
    assert_eq!(read("marked 1 1 3", 4), ["going", "going", "none", "no 11"]);
    assert_eq!(read("open 1\n step 1 x2\n marked 1 0 3", 3), ["going", "going", "value 5 0"]);
    assert_eq!(read("open 1\n step 1 x2\n read 1 0", 3), ["going", "value 6 0", "no 11"]);
    assert_eq!(read("open 1\n step 1 x2\n read 1 1", 2), ["going", "value 7 0"]);
}

/// As read (1) does.
#[test]
fn a_marked_read_stamps_at_its_first_step() {
    let mut hub = hub("mark 1 3\n step 1\n put 0 0 6\n step 0\n marked 1 0 3");
    let low = |hub: &Hub| store(hub).slots[usize::from(store(hub).newest[0])].low;
    assert_eq!(low(&hub), None);
    assert_eq!(last(&mut hub, "step 1"), Answer::Going);
    assert_eq!(low(&hub), Some(2));
}

/// Records that deserve 4, 13, 19, 20 or 21 and another refusal: with each neighbour in the order.
#[test]
fn where_the_refusals_stand() {
    let held = "mark 1 3\n step 1";
    let busy = "mark 1 3\n step 1\n get 1 0";
    let read = "mark 1 3\n step 1\n marked 1 0 3\n step 1";
    let cases = [
        (held, "bytes 09 01 03 00 00 00 00 00 00 00 00 00 00 00 00", 6),
        (held, "bytes 0c 01 03 00 00 00 00 00 00 00 00 00 00 00 00 00", 1),
        (held, "bytes 09 01 03 00 01 00 00 00 00 00 00 00 00 00 00 00", 2),
        (held, "bytes 0a 01 03 00 00 00 00 00 01 00 00 00 00 00 00 00", 2),
        (held, "bytes 0b 01 00 00 03 01 00 00 00 00 00 00 00 00 00 00", 2),
        (held, "bytes 0b 01 00 00 03 00 00 00 00 00 00 00 00 00 00 01", 2),
        (held, "mark 2 12", 3),
        (held, "release 2 0", 3),
        (held, "marked 2 2 12", 3),
        // 4 for the mark, with both of its bytes, and for the register.
        (busy, "mark 1 12", 4),
        (busy, "mark 1 256", 4),
        (busy, "mark 1 259", 4),
        (busy, "mark 1 65535", 4),
        (busy, "release 1 12", 4),
        (busy, "release 1 259", 4),
        (busy, "marked 1 0 12", 4),
        (busy, "marked 1 0 255", 4),
        (busy, "marked 1 2 3", 4),
        (busy, "marked 1 2 12", 4),
        (held, "mark 0 12", 4),
        (held, "marked 0 2 0", 4),
        (busy, "mark 1 3", 10),
        (busy, "release 1 0", 10),
        (busy, "marked 1 0 0", 10),
        (read, "release 1 3", 10),
        // 13 before 19; a release and a marked read need no snapshot.
        (held, "mark 0 0", 13),
        (held, "mark 0 3", 13),
        (held, "mark 1 3", 19),
        (held, "release 0 0", 20),
        (held, "release 1 0", 20),
        (held, "marked 0 0 0", 20),
        (held, "marked 1 1 11", 20),
        (read, "release 0 3", 21),
        (read, "release 0 4", 20),
        (read, "mark 0 3", 13),
    ];
    for (before, record, number) in cases {
        let mut hub = hub(before);
        let earlier = hub.store().cloned();
        assert_eq!(last(&mut hub, record), no(number), "{record:?} after {before:?}");
        assert_eq!(hub.store(), earlier.as_ref(), "{record:?} after {before:?}");
    }
    for record in ["mark 0 0", "mark 255 12", "release 0 0", "marked 0 0 0", "marked 9 9 99"] {
        assert_eq!(run(record), ["no 8"], "{record}");
    }
}

/// A read runs from its first step to its end, not before and not after.
#[test]
fn a_release_waits_for_reads_that_run() {
    let mut hub =
        hub("mark 1 3\n step 1\n mark 1 4\n step 1\n put 0 0 6\n step 0 x9\n marked 1 0 3");
    let try_release = |hub: &Hub, mark: u8| last(&mut hub.clone(), &format!("release 0 {mark}"));
    assert_eq!(try_release(&hub, 3), Answer::Ok);
    for expected in [Answer::Going, Answer::Going] {
        assert_eq!(last(&mut hub, "step 1"), expected);
        assert_eq!(try_release(&hub, 3), no(21));
        assert_eq!(try_release(&hub, 4), Answer::Ok);
    }
    assert_eq!(last(&mut hub, "step 1"), Answer::value(5, 0));
    assert_eq!(try_release(&hub, 3), Answer::Ok);
}

/// Two of three workers read one mark: 21 until both have ended.
#[test]
fn a_release_waits_for_every_read() {
    let mut hub = hub_after(
        "setup 3 1 4 1\n open 0\n step 0 x2\n mark 0 0\n step 0\n marked 1 0 0\n marked 2 0 0
        step 1\n step 2",
    );
    assert_eq!(last(&mut hub, "release 0 0"), no(21));
    assert_eq!(last(&mut hub, "step 1"), Answer::None);
    assert_eq!(last(&mut hub, "release 0 0"), no(21));
    assert_eq!(last(&mut hub, "step 2"), Answer::None);
    assert_eq!(last(&mut hub, "release 0 0\n step 0"), Answer::Done);
}

/// The last step meets the refusal: its worker goes idle, and nothing else changes.
fn refused_at_step(script: &str, worker: usize, number: u64) {
    let mut hub = hub(script);
    let mut expected = store(&hub).clone();
    expected.workers[worker].doing = Doing::Idle;
    assert_eq!(last(&mut hub, &format!("step {worker}")), no(number), "{script}");
    assert_eq!(store(&hub), &expected, "{script}");
    assert_eq!(last(&mut hub, &format!("step {worker}")), no(11), "{script}");
}

#[test]
fn refusals_are_tested_again_at_the_step() {
    // 19: two workers mark the same, and the second step comes too late.
    refused_at_step("open 0\n step 0 x2\n mark 0 3\n mark 1 3\n step 0", 1, 19);
    refused_at_step("open 0\n step 0 x2\n mark 0 3\n mark 1 3\n step 1", 0, 19);
    // 20: two releases; a read that begins before a release.
    refused_at_step("mark 1 3\n step 1\n release 0 3\n release 1 3\n step 1", 0, 20);
    refused_at_step("mark 1 3\n step 1\n marked 0 0 3\n release 1 3\n step 1", 0, 20);
    // The register has an unstamped version, which stays unstamped.
    let unstamped = "setup 3 1 4 1\n open 1\n step 1 x2\n mark 1 3\n step 1\n put 2 0 6\n step 2
        marked 0 0 3\n release 1 3\n step 1";
    let mut hub = hub_after(unstamped);
    assert_eq!(last(&mut hub, "step 0"), no(20));
    assert_eq!(store(&hub).slots[1].low, None);
    // 21: a read takes its first step after the release has begun.
    refused_at_step("mark 1 3\n step 1\n release 0 3\n marked 1 0 3\n step 1", 0, 21);
}

/// A mark that is emptied and used again between begin and step: the step finds what is there then.
#[test]
fn a_marked_read_takes_the_mark_of_its_first_step() {
    let mut hub = hub_after(
        "setup 3 1 9 1\n open 0\n step 0 x2\n mark 0 3\n step 0\n put 1 0 6\n step 1 x3
        marked 2 0 3\n release 0 3\n step 0\n close 0\n step 0\n open 0\n step 0 x2\n mark 0 3\n step 0",
    );
    assert_eq!(store(&hub).marks[3], Some(2));
    assert_eq!(last(&mut hub, "step 2 x2"), Answer::value(6, 0));
}

/// After the workers' times, one step for all marks, held or not; then the split.
#[test]
fn a_flush_reads_all_marks_in_one_step() {
    for workers in [1, 2, 5, 16] {
        let mut hub = hub_after(&format!("setup {workers} 1 2 1\n collect 0\n step 0"));
        for next in 0..workers {
            assert_eq!(store(&hub).workers[0].doing, Doing::FlushTimes { next });
            assert_eq!(last(&mut hub, "step 0"), Answer::Going);
        }
        assert_eq!(store(&hub).workers[0].doing, Doing::FlushMarks);
        assert_eq!(last(&mut hub, "step 0"), Answer::Going);
        assert_eq!(store(&hub).workers[0].doing, Doing::FlushSplit);
        assert_eq!(last(&mut hub, "step 0 x2"), Answer::Done);
    }
    let marks = "mark 1 0\n step 1\n mark 1 11\n step 1\n close 1\n step 1\n open 1\n step 1 x2
        mark 1 5\n step 1\n collect 0\n step 0 x3";
    let mut hub = hub(marks);
    assert_eq!(store(&hub).workers[0].times, [2]);
    last(&mut hub, "step 0");
    assert_eq!(store(&hub).workers[0].times, [2, 1, 2, 1]);
    // What is marked or released later does not count for this flush.
    let mut late = hub_after(&format!("{SNAPSHOT}\n {marks}\n step 0\n release 1 0\n step 1"));
    assert_eq!(store(&late).workers[0].times, [2, 1, 2, 1]);
    assert_eq!(last(&mut late, "step 0 x2"), Answer::Done);
}

/// A version that a mark alone needs is kept through flushes, and goes with the release.
#[test]
fn a_mark_keeps_what_it_needs() {
    let script =
        "mark 1 3\n step 1\n close 1\n step 1\n put 0 0 6\n step 0 x9\n put 0 0 7\n step 0 x3";
    let mut hub = hub(script);
    // Slot 0 is needless; slot 2 has 5 with the range 1 to 2; slot 3 has 6, covered at once.
    assert_eq!(last(&mut hub, "collect 0\n step 0 x6"), Answer::Freed(0));
    assert_eq!(last(&mut hub, "step 0\n collect 0\n step 0 x6"), Answer::Freed(3));
    assert_eq!(last(&mut hub, "step 0\n collect 0\n step 0 x6"), Answer::Done);
    assert_eq!(last(&mut hub, "marked 1 0 3\n step 1 x3"), Answer::value(5, 0));
    assert_eq!(last(&mut hub, "release 1 3\n step 1\n collect 0\n step 0 x6"), Answer::Freed(2));
}

/// The worker marks and closes while the flush is between the two: the marks come last, so that the
/// time is read in one place or the other.
#[test]
fn a_time_that_moves_to_a_mark_is_read() {
    let queued = "put 0 0 6\n step 0 x9\n collect 0\n step 0";
    for steps in 0..3 {
        let mut hub = hub(queued);
        for _ in 0..steps {
            last(&mut hub, "step 0");
        }
        last(&mut hub, "mark 1 3\n step 1\n close 1\n step 1");
        for _ in steps..4 {
            assert_eq!(last(&mut hub, "step 0"), Answer::Going, "{steps}");
        }
        assert_eq!(last(&mut hub, "step 0"), Answer::Freed(0), "{steps}");
        assert_eq!(last(&mut hub, "step 0"), Answer::Done, "{steps}");
        assert_eq!(last(&mut hub, "marked 1 0 3\n step 1 x3"), Answer::value(5, 0), "{steps}");
    }
}

/// A marked read that stands on a version which is freed moves to the older one.
#[test]
fn a_marked_read_moves_off_a_freed_version() {
    let script =
        "mark 1 3\n step 1\n close 1\n step 1\n put 0 0 6\n step 0 x9\n marked 1 0 3\n step 1";
    let mut hub = hub(script);
    let stands = |hub: &Hub| store(hub).workers[1].doing;
    let at = |slot, first| Doing::MarkedAt { slot, first, mark: 3, time: 1 };
    assert_eq!(stands(&hub), at(3, true));
    assert_eq!(last(&mut hub, "put 0 0 7\n step 0 x3\n collect 0\n step 0 x6"), Answer::Freed(0));
    assert_eq!(last(&mut hub, "step 0\n collect 0\n step 0 x6"), Answer::Freed(3));
    assert_eq!(stands(&hub), at(2, false));
    // The slot has another register's reading by now.
    last(&mut hub, "step 0\n put 0 1 1000\n step 0 x3");
    assert_eq!(store(&hub).slots[3].reading, Some(Reading::read(1000)));
    assert_eq!(last(&mut hub, "step 1"), Answer::value(5, 0));
}

/// A worker's record stays as small as it was.
#[test]
fn a_marked_read_takes_no_more_room() {
    assert_eq!(size_of::<Doing>(), 16);
}

/// Marked reads along random scripts, by the plain registers: what they show, and how marks end.
#[test]
fn random_marked_reads_show_what_the_snapshot_saw() {
    let (mut shown, mut old, mut refused) = (0, 0, [0; 3]);
    for kind in [Kind::Marks, Kind::Held, Kind::Mixed, Kind::Large] {
        for seed in 0..60 {
            let script = script(kind, 2000 + seed, 1500);
            let order =
                order::check(&script.records, &script.list, &script.table, &script.answers());
            let order = order.unwrap_or_else(|violation| panic!("{kind:?} {seed}: {violation}"));
            for operation in &order.operations {
                match (operation.action, operation.outcome) {
                    (Action::Marked { .. }, Outcome::Finished { answer, .. }) => {
                        assert_eq!(answer.shown(), operation.shown);
                        shown += 1;
                        old += usize::from(operation.end().unwrap() > operation.begin + 2);
                    }
                    (_, Outcome::Refused { refusal, .. }) if refusal.number() > 18 => {
                        refused[usize::from(refusal.number()) - 19] += 1;
                    }
                    _ => {}
                }
            }
        }
    }
    assert!(shown > 5000 && old > 2000, "{shown}, {old}");
    assert!(refused.iter().all(|&count| count > 20), "19, 20, 21 at a step: {refused:?}");
}
