//! Document 01's four ways to get it nearly right: each is caught by comparing logs with the
//! right hub, and the third and fourth by the order checker, which sees only records and log. Then
//! the near misses of A1, A2, A3 and A5: each by a short script, by random ones, and some by the
//! order checker; those of the row writer by single rows.

use crate::common;

use common::{across, list, records, words};
use reference::fault::*;
use reference::generate::{script, script_across, Kind, Script};
use reference::order::{self, Claim};
use reference::record::LENGTH;
use reference::row::{write_row, write_row_with, Written};
use reference::Refusal;

const SEEDS: u64 = 200;
const RECORDS: usize = 1500;
const KINDS: [Kind; 7] = [
    Kind::Mixed,
    Kind::Slots,
    Kind::Snapshots,
    Kind::Collects,
    Kind::Reads,
    Kind::Batches,
    Kind::Stalled,
];

fn scripts() -> impl Iterator<Item = Script> {
    KINDS.iter().flat_map(|&kind| (0..SEEDS).map(move |seed| script(kind, seed, RECORDS)))
}

/// In how many scripts the fault's log differs, and which claims the checker finds broken.
fn caught<F: Fault>() -> (usize, Vec<Claim>) {
    caught_in::<F>(scripts(), 0)
}

/// The same for scripts whose first `before` records come before A1.
fn caught_in<F: Fault>(
    scripts: impl Iterator<Item = Script>,
    before: usize,
) -> (usize, Vec<Claim>) {
    let mut differing = 0;
    let mut claims = Vec::new();
    for script in scripts {
        let log = across::<F>(&script, before);
        differing += usize::from(log != across::<Right>(&script, before));
        let found = order::check(&script.records, &script.list, &script.table, &log).err();
        claims.extend(found.map(|violation| violation.claim));
    }
    (differing, claims)
}

#[test]
fn keeping_everything_newer_than_the_oldest_snapshot() {
    let (differing, claims) = caught::<NewerThanOldest>();
    assert!(differing > 500);
    assert_eq!(claims, [], "keeps too much, frees nothing needed");
}

#[test]
fn counting_high_as_inside() {
    let (differing, claims) = caught::<HighInside>();
    assert!(differing > 500);
    assert_eq!(claims, [], "keeps too much, frees nothing needed");
}

#[test]
fn looking_up_the_covering_versions_low() {
    let (differing, claims) = caught::<CoveringLow>();
    assert!(differing > 20);
    assert_eq!(claims, [], "keeps too much, frees nothing needed");
}

#[test]
fn reading_the_times_before_taking_the_pools() {
    let (differing, claims) = caught::<TimesFirst>();
    assert!(differing > 500);
    assert!(claims.len() > 50);
    assert!(claims.iter().all(|&claim| claim == Claim::NeededFreed));
}

#[test]
fn leaving_a_read_on_an_unlinked_version() {
    let (differing, claims) = caught::<LeaveRead>();
    assert!(differing > 100);
    assert!(claims.len() > 50);
    assert!(claims.iter().all(|&claim| claim == Claim::Value));
}

/// Scripts for the near misses of A1.
const LIMIT_KINDS: [Kind; 4] = [Kind::Mixed, Kind::Invalid, Kind::Collects, Kind::Values];
const LIMIT_SEEDS: u64 = 50;
const BEFORE: usize = 300;

/// In how many of them the log differs where A1 holds throughout, and in how many where the first
/// records come before it; and the claims that the checker finds broken in the latter.
fn caught_by_limit<F: Fault>() -> (usize, usize, Vec<Claim>) {
    let scripts = |before| {
        let seeded = move |kind| {
            (0..LIMIT_SEEDS).map(move |seed| script_across(kind, 4000 + seed, 800, before))
        };
        LIMIT_KINDS.into_iter().flat_map(seeded)
    };
    let (throughout, _) = caught_in::<F>(scripts(0), 0);
    let (over, claims) = caught_in::<F>(scripts(BEFORE), BEFORE);
    (throughout, over, claims)
}

/// The last answers of the right hub and of the fault to two texts, the first from before A1.
fn told<F: Fault>(before: &str, after: &str) -> [String; 2] {
    told_with::<F>(Vec::new(), before, after)
}

/// The same with a list.
fn told_with<F: Fault>(list: Vec<u8>, before: &str, after: &str) -> [String; 2] {
    let (before, after) = (records(before), records(after));
    let number = before.len() / LENGTH;
    let script = Script { records: [before, after].concat(), list, ..Script::default() };
    let last = |answers: &[_]| words(answers).pop().expect("a record");
    [last(&across::<Right>(&script, number)), last(&across::<F>(&script, number))]
}

#[test]
fn a_short_script_for_each_near_miss_of_a1() {
    let hub = |script: &str| format!("setup 1 1 3 1\n {script}");
    let on_busy = hub("get 0 0\n put 0 0 1000000000000");
    assert_eq!(told::<LimitRefused>("", &hub("put 0 0 999999999999")), ["ok", "no 16"]);
    assert_eq!(told::<NextAccepted>("", &hub("put 0 0 1000000000000")), ["no 16", "ok"]);
    assert_eq!(told::<SixBytes>("", &hub("put 0 0 281474976710663")), ["no 16", "ok"]);
    assert_eq!(told::<ValueFirst>("", "put 0 0 1000000000000"), ["no 8", "no 16"]);
    assert_eq!(told::<ValueFirst>("", &hub("put 1 0 1000000000000")), ["no 3", "no 16"]);
    assert_eq!(told::<ValueBeforeRegister>("", &hub("put 0 1 1000000000000")), ["no 4", "no 16"]);
    assert_eq!(told::<ValueAfterBusy>("", &on_busy), ["no 16", "no 10"]);
    assert_eq!(told::<ValueIdles>("", &format!("{on_busy}\n step 0")), ["none", "no 11"]);
    let begun = hub("put 0 0 1000000000000");
    assert_eq!(told::<ValueAtStep>(&begun, "step 0"), ["going", "no 16"]);
    let stored = format!("{begun}\n step 0 x8");
    let shown = ["value 1000000000000 0", "value 999999999999 0"];
    assert_eq!(told::<GetHides>(&stored, "get 0 0\n step 0"), shown);
    assert_eq!(told::<ReadHides>(&stored, "open 0\n step 0 x2\n read 0 0\n step 0 x2"), shown);
    let freed = "put 0 0 5\n step 0 x9\n collect 0\n step 0 x5";
    assert_eq!(told::<LargeKept>(&stored, freed), ["freed 1", "going"]);
    assert_eq!(told::<LargeNotSetUp>(&stored, "get 0 0"), ["ok", "no 8"]);
}

/// Random scripts tell them too: these wherever A1 holds.
#[test]
fn random_scripts_for_each_near_miss_of_a1() {
    let near_misses = [
        caught_by_limit::<LimitRefused>,
        caught_by_limit::<NextAccepted>,
        caught_by_limit::<SixBytes>,
        caught_by_limit::<ValueFirst>,
        caught_by_limit::<ValueBeforeRegister>,
        caught_by_limit::<ValueAfterBusy>,
        caught_by_limit::<ValueIdles>,
    ];
    for (number, caught) in near_misses.iter().enumerate() {
        let (throughout, over, _) = caught();
        assert!(throughout > 80 && over > 80, "{number}: {throughout}, {over}");
    }
}

/// And these only where records come before A1, for no others store a larger value.
#[test]
fn random_scripts_for_near_misses_with_values_from_before_a1() {
    fn over<F: Fault>() -> (usize, Vec<Claim>) {
        let (throughout, over, claims) = caught_by_limit::<F>();
        assert!(throughout == 0 && over > 30, "{throughout}, {over}");
        (over, claims)
    }
    // Each of these breaks the order.
    let (differing, claims) = over::<GetHides>();
    assert_eq!(claims, vec![Claim::Value; differing]);
    let (differing, claims) = over::<ReadHides>();
    assert_eq!(claims, vec![Claim::Value; differing]);
    let (differing, claims) = over::<ValueAtStep>();
    assert_eq!(claims, vec![Claim::Fit; differing], "a step answered 16");
    let (_, claims) = over::<LargeKept>();
    assert_eq!(claims, [], "keeps too much, frees nothing needed");
    let (_, claims) = over::<LargeNotSetUp>();
    assert!(
        claims.len() > 30 && claims.iter().all(|&claim| claim == Claim::Fit),
        "a step answered 8"
    );
}

/// Two registers with 100 and 20, and worker 1's snapshot of them.
const READINGS: &str = "setup 2 2 9 1\n put 0 0 100\n step 0 x3\n put 0 1 20\n step 0 x9
    open 1\n step 1 x2";

/// The last answers of the right hub and of the fault after the readings, with this list.
fn summed<F: Fault>(rows: &str, script: &str) -> [String; 2] {
    told_with::<F>(list(rows), "", &format!("{READINGS}\n {script}"))
}

#[test]
fn a_short_script_for_each_near_miss_of_a_total() {
    let two = "0 + 0\n 0 - 1\n 1 + 1";
    let total = "total 1 0\n step 1 x4";
    assert_eq!(summed::<SumWithoutLast>(two, total), ["value 80 0", "value 100 0"]);
    assert_eq!(summed::<SignsExchanged>(two, total), ["value 80 0", "value -80 0"]);
    assert_eq!(summed::<NextGroupToo>(two, total), ["value 80 0", "going"]);
    assert_eq!(summed::<NextGroupToo>(two, "total 1 0\n step 1 x6"), ["no 11", "value 100 0"]);
    assert_eq!(summed::<TwiceOnce>("0 + 1\n 0 + 1", total), ["value 40 0", "value 20 0"]);
    let newer = "put 0 0 7\n step 0 x3\n total 1 0\n step 1 x5";
    assert_eq!(summed::<TotalNewest>(two, newer), ["value 80 0", "no 11"]);
    let newer = newer.replace("x5", "x4");
    assert_eq!(summed::<TotalNewest>(two, &newer), ["going", "value -13 0"]);
    // The script of `a_total_moves_off_a_freed_version` in the tests of totals.
    let freed = "setup 2 2 5 1\n put 0 0 5\n step 0 x3\n open 1\n step 1 x2\n put 0 0 6\n step 0 x9
        total 1 0\n step 1\n put 0 0 7\n step 0 x3\n collect 0\n step 0 x7\n collect 0\n step 0 x7
        put 0 1 1000\n step 0 x3\n step 1";
    let left = told_with::<LeaveTotal>(list("0 + 0"), "", freed);
    assert_eq!(left, ["value 5 0", "going"]);
    let left = told_with::<LeaveTotal>(list("0 + 0"), "", &format!("{freed}\n step 1"));
    assert_eq!(left, ["no 11", "value 0 0"]);
}

#[test]
fn a_short_script_for_each_near_miss_of_17_and_18() {
    let rows = "0 + 0\n 2 + 0";
    assert_eq!(summed::<GroupByte>(rows, "total 1 256"), ["no 17", "ok"]);
    assert_eq!(summed::<GroupByte>(rows, "total 1 257"), ["no 17", "no 17"]);
    assert_eq!(summed::<GroupAfterBusy>(rows, "get 0 0\n total 0 1"), ["no 17", "no 10"]);
    assert_eq!(summed::<GroupAfterBusy>(rows, "total 0 1"), ["no 17", "no 17"]);
    assert_eq!(summed::<GroupAfterSnapshot>(rows, "total 0 1"), ["no 17", "no 13"]);
    assert_eq!(summed::<GroupAfterSnapshot>(rows, "total 1 1"), ["no 17", "no 17"]);
    let limit = "setup 2 1 4 1\n put 0 0 999999999999\n step 0 x3\n open 1\n step 1 x2";
    let total = "total 1 0\n step 1 x2";
    let told = told_with::<LimitNotSummed>(list("0 + 0"), limit, total);
    assert_eq!(told, ["value 999999999999 0", "no 18"]);
    // The large value is newer than the snapshot.
    let before = format!("{READINGS}\n put 0 0 1000000000000\n step 0 x3");
    assert_eq!(told_with::<LargeAtBegin>(list(rows), &before, "total 1 0"), ["ok", "no 18"]);
    let told = told_with::<LargeAtBegin>(list(rows), &before, "total 1 0\n step 1 x3");
    assert_eq!(told, ["value 100 0", "no 11"]);
}

#[test]
fn a_short_list_for_each_near_miss_of_a_list() {
    fn set_up<F: Fault>(list: Vec<u8>) -> [String; 2] {
        told_with::<F>(list, "", "setup 1 2 2 1")
    }
    assert_eq!(set_up::<FallingGroup>(list("1 + 0\n 0 + 0")), ["no 5", "ok"]);
    assert_eq!(set_up::<Row33>(list(&"0 + 0\n".repeat(33))), ["no 5", "ok"]);
    assert_eq!(set_up::<Row33>(list(&"0 + 0\n".repeat(34))), ["no 5", "no 5"]);
    assert_eq!(set_up::<RegisterV>(list("0 + 2")), ["no 5", "ok"]);
    assert_eq!(set_up::<RegisterV>(list("0 + 3")), ["no 5", "no 5"]);
    assert_eq!(set_up::<SignTwo>(vec![0, 2, 0, 0]), ["no 5", "ok"]);
    assert_eq!(set_up::<SignTwo>(vec![0, 3, 0, 0]), ["no 5", "no 5"]);
}

/// Scripts for the near misses of A2, half of them over from before A1.
fn caught_by_totals<F: Fault>() -> (usize, Vec<Claim>) {
    const TOTAL_KINDS: [Kind; 4] = [Kind::Mixed, Kind::Invalid, Kind::Totals, Kind::Lists];
    let scripts = |before| {
        let seeded =
            move |kind| (0..40).map(move |seed| script_across(kind, 6000 + seed, 800, before));
        TOTAL_KINDS.into_iter().flat_map(seeded)
    };
    let (throughout, mut claims) = caught_in::<F>(scripts(0), 0);
    let (over, more) = caught_in::<F>(scripts(BEFORE), BEFORE);
    claims.extend(more);
    (throughout + over, claims)
}

/// Random scripts tell the near misses of totals, and the checker finds other values than are shown.
#[test]
fn random_scripts_for_each_near_miss_of_a_total() {
    fn caught<F: Fault>(least: usize, least_values: usize) {
        let (differing, claims) = caught_by_totals::<F>();
        let values = claims.iter().filter(|&&claim| claim == Claim::Value).count();
        assert!(differing > least && values > least_values, "{differing}, {values}");
        // One that reads in other steps may stamp other versions, and free what is needed.
        assert!(claims.len() - values < 10, "{claims:?}");
    }
    caught::<SumWithoutLast>(80, 80);
    caught::<SignsExchanged>(80, 80);
    caught::<TotalNewest>(80, 80);
    caught::<TwiceOnce>(60, 60);
    caught::<NextGroupToo>(20, 10);
    caught::<LeaveTotal>(20, 5);
}

#[test]
fn random_scripts_for_each_near_miss_of_17_and_18() {
    // The begin is answered as a step is.
    let (differing, claims) = caught_by_totals::<LargeAtBegin>();
    assert!(differing > 50);
    assert_eq!(claims, vec![Claim::Fit; differing]);
    for caught in [
        caught_by_totals::<LimitNotSummed>,
        caught_by_totals::<GroupByte>,
        caught_by_totals::<GroupAfterBusy>,
        caught_by_totals::<GroupAfterSnapshot>,
    ] {
        let (differing, _) = caught();
        assert!(differing > 15, "{differing}");
    }
}

/// A setup that is accepted with a list that is none does not fit.
#[test]
fn random_lists_for_each_near_miss_of_a_list() {
    fn caught<F: Fault>() {
        let scripts = (0..800).map(|seed| script(Kind::Lists, 6000 + seed, 30));
        let (differing, claims) = caught_in::<F>(scripts, 0);
        assert!(differing > 10, "{differing}");
        assert_eq!(claims, vec![Claim::Fit; differing]);
    }
    caught::<FallingGroup>();
    caught::<Row33>();
    caught::<RegisterV>();
    caught::<SignTwo>();
}

/// Two workers, two registers. Worker 1 has a snapshot at 1 of 5 in register 0, in slot 2.
const SNAPSHOT: &str = "setup 2 2 9 1\n put 0 0 5\n step 0 x3\n open 1\n step 1 x2";

/// The last answers of the right hub and of the fault after that.
fn marked<F: Fault>(script: &str) -> [String; 2] {
    told::<F>("", &format!("{SNAPSHOT}\n {script}"))
}

/// After that too: register 0 gets 6, worker 1 keeps its time as mark 0 and closes, and the range
/// of 5, from 1 to 2, is queued.
const QUEUED: &str = "put 0 0 6\n step 0 x9\n mark 1 0\n step 1\n close 1\n step 1";

#[test]
fn a_short_script_for_each_near_miss_of_marks_in_a_flush() {
    // The split of the next flush keeps slot 2; the range of slot 0 is needless.
    let flush = format!("{QUEUED}\n collect 0\n step 0 x7");
    assert_eq!(marked::<MarksNotRead>(&flush), ["done", "freed 2"]);
    assert_eq!(marked::<CloseEmpties>(&flush), ["done", "freed 2"]);
    assert_eq!(marked::<MarkClock>(&flush), ["done", "freed 2"]);
    assert_eq!(
        marked::<MarksWithLast>(&format!("{QUEUED}\n collect 0\n step 0 x5")),
        ["going", "freed 0"]
    );
    // The mark is made between the step that reads the marks and the one that reads worker 1.
    let between = "put 0 0 6\n step 0 x9\n collect 0\n step 0 x2\n mark 1 0\n step 1\n close 1
        step 1\n step 0 x5";
    assert_eq!(marked::<MarksFirst>(between), ["done", "freed 2"]);
}

#[test]
fn a_short_script_for_each_near_miss_of_a_marked_read() {
    let newer = "mark 1 0\n step 1\n close 1\n step 1\n put 0 0 6\n step 0 x9\n open 1\n step 1 x2";
    let read = format!("{newer}\n marked 1 0 0\n step 1 x2");
    assert_eq!(marked::<MarkedOwnTime>(&read), ["going", "value 6 0"]);
    assert_eq!(marked::<MarkedOwnTime>(&format!("{read}\n step 1")), ["value 5 0", "no 11"]);
    let read = "mark 1 0\n step 1\n put 0 0 6\n step 0 x9\n marked 1 0 0\n step 1 x3";
    assert_eq!(marked::<MarkClock>(read), ["value 5 0", "no 11"]);
    // The mark is emptied between the begin and the first step.
    let emptied = "mark 1 0\n step 1\n marked 0 0 0\n release 1 0\n step 1\n step 0";
    assert_eq!(marked::<MarkedNewest>(emptied), ["no 20", "going"]);
    // The read stands on 6, in slot 3, when 7 covers it and its slot is freed and taken again.
    let freed = "mark 1 0\n step 1\n put 0 0 6\n step 0 x9\n marked 1 0 0\n step 1\n put 0 0 7
        step 0 x3\n collect 0\n step 0 x7\n collect 0\n step 0 x7\n put 0 1 1000\n step 0 x3\n step 1";
    assert_eq!(marked::<LeaveMarked>(freed), ["value 5 0", "going"]);
    let left = marked::<LeaveMarked>(&format!("{freed}\n step 1"));
    assert_eq!(left, ["no 11", "none"]);
}

#[test]
fn a_short_script_for_each_near_miss_of_19_20_and_21() {
    // Both begin while the mark is empty; the second step finds it in use.
    let both = "open 0\n step 0 x2\n mark 0 0\n mark 1 0\n step 0\n step 1";
    assert_eq!(marked::<UsedAtBegin>(both), ["no 19", "done"]);
    let both = "mark 1 0\n step 1\n release 0 0\n release 1 0\n step 0\n step 1";
    assert_eq!(marked::<EmptyAtBegin>(both), ["no 20", "done"]);
    let read = "mark 1 0\n step 1\n release 0 0\n marked 1 0 0\n step 1\n step 0";
    assert_eq!(marked::<ReadAtBegin>(read), ["no 21", "done"]);
    assert_eq!(marked::<ReleaseUnderRead>(read), ["no 21", "done"]);
    let read = "mark 1 0\n step 1\n marked 1 0 0\n step 1\n release 0 0";
    assert_eq!(marked::<ReadAtBegin>(read), ["no 21", "no 21"]);
    assert_eq!(marked::<ReleaseUnderRead>(read), ["no 21", "ok"]);
    let begun = "mark 1 0\n step 1\n marked 1 0 0\n release 0 0";
    assert_eq!(marked::<ReadFromBegin>(begun), ["ok", "no 21"]);
    assert_eq!(marked::<UsedBeforeSnapshot>("mark 1 0\n step 1\n mark 0 0"), ["no 13", "no 19"]);
    for on_busy in ["mark 1 12", "release 1 12", "marked 1 0 12"] {
        let on_busy = format!("get 1 0\n {on_busy}");
        assert_eq!(marked::<MarkAfterBusy>(&on_busy), ["no 4", "no 10"], "{on_busy}");
    }
    assert_eq!(marked::<MarkByte>("mark 1 256"), ["no 4", "ok"]);
    assert_eq!(marked::<MarkByte>("mark 1 0\n step 1\n release 1 256"), ["no 4", "ok"]);
    assert_eq!(marked::<MarkTwelve>("mark 1 12"), ["no 4", "ok"]);
    assert_eq!(marked::<MarkTwelve>("mark 1 13"), ["no 4", "no 4"]);
}

/// Scripts for the near misses of A3: in how many the log differs, and the claims that are broken.
fn caught_by_marks<F: Fault>() -> (usize, Vec<Claim>) {
    const MARK_KINDS: [Kind; 5] =
        [Kind::Mixed, Kind::Invalid, Kind::Collects, Kind::Marks, Kind::Held];
    let seeded = |kind| (0..50).map(move |seed| script(kind, 8000 + seed, 1200));
    caught_in::<F>(MARK_KINDS.into_iter().flat_map(seeded), 0)
}

/// Each of these breaks the order: it frees what a mark needs, or shows something else.
#[test]
fn random_scripts_for_near_misses_of_a3_that_break_the_order() {
    fn caught<F: Fault>(least: usize, needed: usize, values: usize) {
        let (differing, claims) = caught_by_marks::<F>();
        let count = |claim| claims.iter().filter(|&&found| found == claim).count();
        let found = (differing, count(Claim::NeededFreed), count(Claim::Value));
        assert!(found.0 >= least && found.1 >= needed && found.2 >= values, "{found:?}");
    }
    caught::<MarksFirst>(20, 1, 0);
    caught::<MarksNotRead>(80, 80, 0);
    caught::<CloseEmpties>(80, 80, 0);
    caught::<MarkClock>(100, 10, 100);
    caught::<MarkedOwnTime>(100, 0, 100);
    caught::<LeaveMarked>(40, 0, 10);
    caught::<UsedAtBegin>(15, 0, 1);
    caught::<MarkedNewest>(20, 0, 20);
    caught::<ReadAtBegin>(10, 0, 10);
    caught::<ReleaseUnderRead>(60, 0, 60);
}

/// These keep it, so that only the log tells them, but for a mark that does not exist.
#[test]
fn random_scripts_for_near_misses_of_a3_that_keep_the_order() {
    fn caught<F: Fault>(least: usize, exists: bool) {
        let (differing, claims) = caught_by_marks::<F>();
        assert!(differing >= least, "{differing}");
        assert!(claims.iter().all(|&claim| claim == Claim::Fit && !exists), "{claims:?}");
        assert_eq!(claims.is_empty(), exists);
    }
    caught::<MarksWithLast>(150, true);
    caught::<EmptyAtBegin>(10, true);
    caught::<ReadFromBegin>(20, true);
    caught::<UsedBeforeSnapshot>(15, true);
    caught::<MarkAfterBusy>(50, true);
    caught::<MarkByte>(40, false);
    caught::<MarkTwelve>(10, false);
}

/// Two workers, two registers and worker 1's snapshot of both without a reading, which mark 0 keeps.
const BEFORE_METERS: &str = "setup 2 2 9 1\n open 1\n step 1 x2\n mark 1 0\n step 1";

/// The last answers of the right hub and of the fault after that, with group 0 of both registers.
fn metered<F: Fault>(script: &str) -> [String; 2] {
    told_with::<F>(list("0 + 0\n 0 + 1"), "", &format!("{BEFORE_METERS}\n {script}"))
}

#[test]
fn a_short_script_for_each_near_miss_of_none() {
    let (get, read) = ("get 0 0\n step 0", "read 1 0\n step 1 x2");
    let marked = "marked 0 0 0\n step 0 x2";
    assert_eq!(metered::<GetZero>(get), ["none", "value 0 0"]);
    assert_eq!(metered::<ReadZero>(read), ["none", "value 0 0"]);
    assert_eq!(metered::<MarkedZero>(marked), ["none", "value 0 0"]);
    // A put of 0, seen by a get and by a snapshot from after it.
    let zero = "put 0 0 0\n step 0 x3\n close 1\n step 1\n open 1\n step 1 x2\n mark 1 1\n step 1";
    for script in [get, read, "marked 0 0 1\n step 0 x2"] {
        assert_eq!(metered::<ZeroNone>(&format!("{zero}\n {script}")), ["value 0 0", "none"]);
    }
    // The first put is stamped: the snapshot from before it shows none all the same.
    for (script, worker) in [(read, 1), (marked, 0)] {
        let script = format!("put 0 0 7\n step 0 x3\n {script}\n step {worker}");
        assert_eq!(metered::<NoneByRegister>(&script), ["none", "value 0 0"]);
        assert_eq!(metered::<ZeroNone>(&script), ["none", "none"]);
    }
    // It is published and not yet stamped: a get stamps it, and shows it.
    let published = "put 0 0 7\n step 0\n get 1 0\n step 1";
    assert_eq!(metered::<FirstPutNone>(published), ["value 7 0", "none"]);
    // Its version covers a put, so that the fault has nothing to do with it.
    let second = "put 0 0 7\n step 0 x3\n put 0 0 8\n step 0\n get 1 0\n step 1";
    assert_eq!(metered::<FirstPutNone>(second), ["value 8 0", "value 8 0"]);
    // Slot 0 is freed, and a put on register 1 takes it.
    let taken =
        "setup 1 2 3 1\n put 0 0 5\n step 0 x8\n collect 0\n step 0 x6\n put 0 1 9\n step 0 x8
        get 0 1\n step 0";
    assert_eq!(told::<NoneBySlot>("", taken), ["value 9 0", "none"]);
}

#[test]
fn a_short_script_for_each_near_miss_of_a_total_without_a_reading() {
    let total = |steps: usize| format!("put 0 1 20\n step 0 x3\n total 1 0\n step 1 x{steps}");
    assert_eq!(metered::<TotalRefusesNone>(&total(2)), ["going", "no 18"]);
    assert_eq!(metered::<TotalNone>(&total(2)), ["going", "none"]);
    assert_eq!(metered::<TotalRefusesNone>(&total(5)), ["value 0 0", "no 11"]);
    // As of a snapshot in which register 0 has a reading, and register 1 none.
    let half =
        "put 0 0 20\n step 0 x3\n close 1\n step 1\n open 1\n step 1 x2\n total 1 0\n step 1 x4";
    assert_eq!(metered::<TotalRefusesNone>(half), ["value 20 0", "no 18"]);
    assert_eq!(metered::<TotalNone>(half), ["value 20 0", "none"]);
}

/// What the right row writer and the fault do with no reading, in a buffer of so many bytes.
fn rows<F: Fault>(length: usize, register: u16) -> [(Result<Written, Refusal>, bool); 2] {
    let mut buffers = [vec![9; length], vec![9; length]];
    let right = write_row(&mut buffers[0], register, 7, None);
    let wrong = write_row_with::<F>(&mut buffers[1], register, 7, None);
    let untouched = buffers.map(|buffer| buffer.iter().all(|&byte| byte == 9));
    [(right, untouched[0]), (wrong, untouched[1])]
}

#[test]
fn a_row_for_each_near_miss_of_the_row_writer() {
    let none = (Ok(Written::None), true);
    assert_eq!(rows::<RowOfNone>(32, 1), [none, (Ok(Written::None), false)]);
    let (no_register, short) = ((Err(Refusal::Register), true), (Err(Refusal::Buffer), true));
    assert_eq!(rows::<RowNoneFirst>(4096, 256), [no_register, none]);
    assert_eq!(rows::<RowNoneFirst>(31, 1), [short, none]);
    assert_eq!(rows::<RowNoneBeforeBuffer>(31, 1), [short, none]);
    assert_eq!(rows::<RowNoneBeforeBuffer>(31, 256), [no_register, no_register]);
    assert_eq!(rows::<RowNoneBeforeBuffer>(32, 1), [none, none]);
}

/// Random scripts tell them too, and the checker finds each: another value than is shown, or a total
/// that cannot be answered so.
#[test]
fn random_scripts_for_each_near_miss_of_a5() {
    fn caught<F: Fault>(least: usize) -> (usize, Vec<Claim>) {
        const EMPTY_KINDS: [Kind; 3] = [Kind::Mixed, Kind::Marks, Kind::Empty];
        let seeded = |kind| (0..80).map(move |seed| script(kind, 8000 + seed, 1000));
        let (differing, claims) = caught_in::<F>(EMPTY_KINDS.into_iter().flat_map(seeded), 0);
        assert!(differing > least, "{differing}");
        (differing, claims)
    }
    for (differing, claims) in [
        caught::<GetZero>(100),
        caught::<ReadZero>(80),
        caught::<MarkedZero>(80),
        caught::<ZeroNone>(100),
        caught::<NoneByRegister>(80),
        caught::<NoneBySlot>(50),
        caught::<FirstPutNone>(15),
    ] {
        assert_eq!(claims, vec![Claim::Value; differing]);
    }
    let (differing, claims) = caught::<TotalNone>(80);
    assert_eq!(claims, vec![Claim::Fit; differing]);
    // The checker leaves a total that met 18 out: other versions may be stamped after that.
    let (_, claims) = caught::<TotalRefusesNone>(80);
    assert!(claims.len() < 10, "{claims:?}");
}
