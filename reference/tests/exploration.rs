//! Complete exploration of small hubs near the end of the clock.
//!
//! The counts are those of the whole reachable space; another reading of the documents would
//! change them. The larger ones are ignored by default: `cargo test --release -- --ignored`.

use reference::explore::{explore, Explored, Size};
use reference::fault::*;
use reference::store::MAX_VALUE;

/// A hub whose clock is set up so many below its last value.
fn size(workers: u8, registers: u16, slots: u16, below: u32, values: &'static [u64]) -> Size {
    let clock = u32::MAX - below;
    let (list, table, max_values, marks): (_, _, &[u64], _) = (&[], &[], &[MAX_VALUE], 0);
    let statuses = &[0];
    Size { workers, registers, slots, clock, list, table, values, statuses, max_values, marks }
}

fn states(size: Size) -> usize {
    let Explored { states, records } = explore::<Right>(size, true).unwrap();
    println!("{size:?}: {states} states, {records} records");
    states
}

#[test]
fn one_worker() {
    assert_eq!(states(size(1, 1, 2, 1, &[1, 2])), 1101);
    assert_eq!(states(size(1, 1, 3, 2, &[1, 2])), 19_038);
    assert_eq!(states(size(1, 1, 4, 3, &[1, 2])), 175_881);
}

#[test]
fn one_worker_two_registers() {
    assert_eq!(states(size(1, 2, 4, 1, &[1, 2])), 244_860);
}

#[test]
fn two_workers_two_slots() {
    assert_eq!(states(size(2, 1, 2, 2, &[1, 2])), 370_449);
}

#[test]
fn two_workers_three_slots() {
    assert_eq!(states(size(2, 1, 3, 1, &[1])), 345_159);
}

#[test]
fn two_workers_two_registers() {
    assert_eq!(states(size(2, 2, 3, 1, &[1])), 235_686);
}

#[test]
#[ignore = "half a minute, a quarter of a gigabyte"]
fn two_workers_three_slots_two_values() {
    assert_eq!(states(size(2, 1, 3, 1, &[1, 2])), 2_511_418);
}

#[test]
#[ignore = "half a minute, a quarter of a gigabyte"]
fn two_workers_three_slots_three_times() {
    assert_eq!(states(size(2, 1, 3, 2, &[1])), 2_165_012);
}

#[test]
#[ignore = "a minute, half a gigabyte"]
fn two_workers_four_slots() {
    assert_eq!(states(size(2, 1, 4, 1, &[1])), 5_775_923);
}

/// The third fault breaks demand 3 in a small hub already.
#[test]
fn times_before_pools_frees_what_is_needed() {
    let reason = explore::<TimesFirst>(size(2, 1, 3, 1, &[1]), false).unwrap_err();
    assert!(reason.contains("is freed, 4294967294 needs it"), "{reason}");
}

/// The first two faults keep demand 3: only the log tells them from the right hub.
#[test]
fn faults_that_keep_demand_3() {
    let small = size(2, 1, 2, 2, &[1]);
    explore::<NewerThanOldest>(small, false).unwrap();
    explore::<HighInside>(small, false).unwrap();
    explore::<CoveringLow>(small, false).unwrap();
}

/// Two values that A1 tells apart.
const AT_LIMIT: &[u64] = &[MAX_VALUE, MAX_VALUE + 1];

/// A put above the limit changes nothing: as many states as without it.
#[test]
fn puts_above_the_limit_lead_nowhere() {
    let hub = |values| size(2, 1, 2, 2, values);
    assert_eq!(states(hub(AT_LIMIT)), states(hub(&[1])));
}

/// Before A1 and after it, in any turn.
fn across(size: Size) -> Size {
    Size { max_values: &[u64::MAX, MAX_VALUE], ..size }
}

/// Every record with A1 in every state that records left before it, and so on: the states are those of
/// two values without A1.
#[test]
fn every_state_from_before_a1() {
    assert_eq!(states(across(size(1, 1, 3, 2, AT_LIMIT))), 19_038);
    assert_eq!(states(across(size(2, 1, 2, 2, AT_LIMIT))), 370_449);
}

/// Those near misses of A1 that show where no worker and no register is missing.
#[test]
fn near_misses_of_a1_are_found() {
    fn found<F: Fault + Clone>(size: Size) -> String {
        let reason = explore::<F>(size, false).unwrap_err();
        reason.lines().next().unwrap_or_default().to_string()
    }
    let small = size(1, 1, 2, 1, AT_LIMIT);
    assert!(found::<LimitRefused>(small).ends_with("No(Value), not Ok"));
    assert!(found::<NextAccepted>(small).ends_with("Ok, not No(Value)"));
    assert!(found::<ValueAfterBusy>(small).ends_with("No(Busy), not No(Value)"));
    assert_eq!(found::<ValueIdles>(small), "a refused record changes the store");
    let small = across(small);
    assert!(found::<ValueAtStep>(small).ends_with("14 is not exact: No(Value)"));
    assert!(found::<GetHides>(small).starts_with("a get: value 999999999999 0, not"));
    assert!(found::<ReadHides>(small).starts_with("a read: value 999999999999 0, not"));
}

/// With a list: every total of its groups, and of one that has no rows.
fn with_list(size: Size, list: &'static [u8]) -> Size {
    Size { list, ..size }
}

/// One register that is subtracted; one twice, added and subtracted; two registers; two groups.
const MINUS: &[u8] = &[0, 1, 0, 0];
const TWICE: &[u8] = &[0, 0, 0, 0, 0, 1, 0, 0];
const TWO: &[u8] = &[0, 0, 0, 0, 0, 1, 1, 0];
const GROUPS: &[u8] = &[0, 0, 0, 0, 1, 1, 0, 0];

#[test]
fn totals_of_one_worker() {
    assert_eq!(states(with_list(size(1, 1, 2, 1, &[1, 2]), TWICE)), 1221);
    assert_eq!(states(with_list(size(1, 1, 3, 2, &[1, 2]), TWICE)), 21_590);
    assert_eq!(states(with_list(size(1, 2, 4, 1, &[1]), TWO)), 25_202);
}

#[test]
fn totals_of_two_workers() {
    assert_eq!(states(with_list(size(2, 1, 2, 2, &[1]), TWICE)), 134_688);
}

/// Versions are freed under them.
#[test]
fn totals_with_three_slots() {
    assert_eq!(states(with_list(size(2, 1, 3, 1, &[1]), MINUS)), 399_012);
}

#[test]
fn totals_of_values_from_before_a1() {
    assert_eq!(states(across(with_list(size(1, 1, 3, 2, AT_LIMIT), TWICE))), 20_998);
}

#[test]
#[ignore = "a few seconds"]
fn totals_of_two_registers() {
    assert_eq!(states(with_list(size(2, 2, 3, 1, &[1]), TWO)), 283_404);
}

#[test]
fn near_misses_of_a2_are_found() {
    fn found<F: Fault + Clone>(size: Size) -> String {
        let reason = explore::<F>(size, false).unwrap_err();
        reason.lines().next().unwrap_or_default().to_string()
    }
    let small = |list| with_list(size(1, 1, 3, 2, &[1, 2]), list);
    let sums = [
        found::<SumWithoutLast>(small(TWICE)),
        found::<SignsExchanged>(small(MINUS)),
        found::<TotalNewest>(small(MINUS)),
        found::<TwiceOnce>(small(TWICE)),
        found::<NextGroupToo>(small(GROUPS)),
        found::<LimitNotSummed>(across(with_list(size(1, 1, 2, 1, AT_LIMIT), MINUS))),
    ];
    for reason in &sums {
        assert!(reason.starts_with("a total: "), "{sums:?}");
    }
    let begin = found::<LargeAtBegin>(across(with_list(size(1, 1, 2, 1, AT_LIMIT), MINUS)));
    assert!(begin.ends_with("No(Summand), not Ok"), "{begin}");
    assert!(found::<GroupAfterBusy>(small(MINUS)).ends_with("No(Busy), not No(Group)"));
    assert!(found::<GroupAfterSnapshot>(small(MINUS)).ends_with("not No(Group)"));
}

/// With so many marks: every mark, release and marked read of them, and of mark 12.
fn with_marks(size: Size, marks: u8) -> Size {
    Size { marks, ..size }
}

#[test]
fn marks_of_one_worker() {
    assert_eq!(states(with_marks(size(1, 1, 2, 1, &[1, 2]), 1)), 1976);
    assert_eq!(states(with_marks(size(1, 1, 3, 2, &[1, 2]), 1)), 55_791);
    assert_eq!(states(with_marks(size(1, 1, 3, 2, &[1]), 2)), 29_248);
    assert_eq!(states(with_marks(size(1, 2, 4, 1, &[1]), 1)), 42_085);
}

#[test]
fn marks_of_two_workers() {
    assert_eq!(states(with_marks(size(2, 1, 2, 1, &[1]), 1)), 61_011);
}

#[test]
fn marks_with_three_slots() {
    assert_eq!(states(with_marks(size(2, 1, 3, 1, &[1]), 1)), 972_150);
}

#[test]
fn near_misses_of_a3_are_found() {
    fn found<F: Fault + Clone>(size: Size) -> String {
        let reason = explore::<F>(size, false).unwrap_err();
        reason.lines().next().unwrap_or_default().to_string()
    }
    let small = with_marks(size(2, 1, 3, 1, &[1]), 1);
    for reason in
        [found::<MarksFirst>(small), found::<MarksNotRead>(small), found::<TimesFirst>(small)]
    {
        assert!(reason.ends_with("is freed, 4294967294 needs it"), "{reason}");
    }
    // The mark copies another time than it should keep, and is empty where it should hold one.
    assert!(found::<MarkClock>(small).ends_with("is freed, 4294967294 needs it"));
    assert!(found::<CloseEmpties>(small).ends_with("No(MarkEmpty), not Ok"));
    let times = with_marks(size(1, 1, 3, 2, &[1]), 1);
    assert_eq!(found::<MarkedOwnTime>(times), "a marked read: value 1 0, not none");
    assert_eq!(found::<UsedAtBegin>(small), "Mark { mark: 0 }: Done, not No(MarkUsed)");
    assert_eq!(found::<EmptyAtBegin>(small), "Release { mark: 0 }: Done, not No(MarkEmpty)");
    assert!(found::<MarkedNewest>(small).ends_with("Going, not No(MarkEmpty)"));
    assert_eq!(found::<ReadAtBegin>(small), "Release { mark: 0 }: Done, not No(MarkRead)");
    assert!(found::<ReleaseUnderRead>(small).ends_with("Ok, not No(MarkRead)"));
    assert!(found::<ReadFromBegin>(small).ends_with("No(MarkRead), not Ok"));
    assert!(found::<UsedBeforeSnapshot>(small).ends_with("No(MarkUsed), not No(NotAnnounced)"));
    assert!(found::<MarkAfterBusy>(small).ends_with("No(Busy), not No(Register)"));
    assert!(found::<MarkTwelve>(small).ends_with("not No(Register)"));
}

/// A put of 0 is a value like any other, and no reading is none: as many states as with other values.
#[test]
fn puts_of_0() {
    assert_eq!(states(size(1, 1, 3, 2, &[0, 1])), 19_038);
    assert_eq!(states(with_list(size(1, 2, 4, 1, &[0]), TWO)), 25_202);
    assert_eq!(states(with_marks(size(2, 1, 2, 1, &[0]), 1)), 61_011);
}

/// With these statuses, of each value.
fn with_statuses(size: Size, statuses: &'static [u8]) -> Size {
    Size { statuses, ..size }
}

/// A status tells versions apart as a value does: as many states as with two values. One above 2
/// changes nothing.
#[test]
fn puts_of_statuses() {
    assert_eq!(states(with_statuses(size(1, 1, 3, 2, &[1]), &[1, 2])), 19_038);
    assert_eq!(states(with_statuses(size(1, 1, 3, 2, &[1]), &[0, 1, 3, 255])), 19_038);
    assert_eq!(states(with_statuses(size(2, 1, 2, 2, &[1]), &[0, 2])), 370_449);
    assert_eq!(states(with_marks(with_statuses(size(1, 1, 3, 2, &[1]), &[0, 1]), 1)), 55_791);
}

/// Totals of two registers and of one twice, with the largest status so far on the way.
#[test]
fn totals_of_statuses() {
    let two = with_list(size(1, 2, 3, 1, &[1]), TWO);
    assert_eq!(states(with_statuses(two, &[0, 2])), 22_752);
    let twice = with_list(size(1, 1, 3, 2, &[1]), TWICE);
    assert_eq!(states(with_statuses(twice, &[0, 1])), 21_590);
}

#[test]
fn near_misses_of_a8_are_found() {
    fn found<F: Fault + Clone>(size: Size) -> String {
        let reason = explore::<F>(size, false).unwrap_err();
        reason.lines().next().unwrap_or_default().to_string()
    }
    let small = with_statuses(size(2, 1, 3, 1, &[1]), &[0, 2]);
    assert_eq!(found::<StatusOfCovered>(small).split_once(": ").unwrap().0, "a get");
    for reason in [
        found::<StatusOfNewer>(small),
        found::<LowLosesStatus>(small),
        found::<HighLosesStatus>(small),
    ] {
        assert!(["a get: ", "a read: "].iter().any(|start| reason.starts_with(start)), "{reason}");
        assert!(reason.contains("value 1 0") && reason.contains("value 1 2"), "{reason}");
    }
    assert!(found::<PublishLosesStatus>(small).starts_with("a put publishes "));
    let two = with_statuses(with_list(size(1, 2, 4, 1, &[1]), TWO), &[0, 2]);
    assert_eq!(found::<TotalLastStatus>(two), "a total: value 0 0, not value 0 2");
    let limit = with_statuses(size(1, 1, 2, 1, AT_LIMIT), &[2, 3]);
    assert!(found::<CorrectedRefused>(limit).ends_with("No(Status), not Ok"));
    assert!(found::<ThreeAccepted>(limit).ends_with("Ok, not No(Status)"));
    assert!(found::<StatusBeforeValue>(limit).ends_with("No(Status), not No(Value)"));
    assert!(found::<StatusAfterBusy>(limit).ends_with("No(Busy), not No(Status)"));
    assert_eq!(found::<StatusIdles>(limit), "a refused record changes the store");
    let lower = with_table(with_statuses(size(1, 2, 3, 1, &[1]), &[2, 3]), LOWER);
    assert!(found::<StatusAfterForbidden>(lower).ends_with("No(Forbidden), not No(Status)"));
}

#[test]
fn near_misses_of_a5_are_found() {
    fn found<F: Fault + Clone>(size: Size) -> String {
        let reason = explore::<F>(size, false).unwrap_err();
        reason.lines().next().unwrap_or_default().to_string()
    }
    let small = size(2, 1, 2, 1, &[0, 1]);
    let marked = with_marks(small, 1);
    assert_eq!(found::<GetZero>(small), "a get: value 0 0, not none");
    assert_eq!(found::<ReadZero>(small), "a read: value 0 0, not none");
    assert_eq!(found::<MarkedZero>(marked), "a marked read: value 0 0, not none");
    assert!(found::<ZeroNone>(small).ends_with(": none, not value 0 0"));
    assert!(found::<NoneByRegister>(small).ends_with(": value 0 0, not none"));
    assert!(found::<FirstPutNone>(small).starts_with("a get: none, not value "));
    let three = size(1, 1, 3, 1, &[1]);
    assert!(found::<NoneBySlot>(three).ends_with(": none, not value 1 0"));
    let summed = with_list(size(1, 1, 2, 1, &[1]), MINUS);
    assert_eq!(found::<TotalNone>(summed), "a total: none, not value 0 0");
    assert_eq!(found::<TotalRefusesNone>(summed), "a total: no 18, not value 0 0");
}

/// With a table, each record's right too.
fn with_table(size: Size, table: &'static [u8]) -> Size {
    Size { table, ..size }
}

/// Worker 0 may do all, in one row or in one for each of two registers.
const OWNER: &[u8] = &[0, 15, 0, 0, 255, 0, 0, 0];
const BY_TWO: &[u8] = &[0, 15, 0, 0, 0, 0, 0, 0, 0, 15, 1, 0, 1, 0, 0, 0];
/// Worker 0 may do all on register 0 alone, and collect.
const LOWER: &[u8] = &[0, 11, 0, 0, 0, 0, 0, 0, 0, 4, 9, 0, 9, 0, 0, 0];
/// Worker 0 may do all, worker 1 may read.
const READER: &[u8] = &[0, 15, 0, 0, 255, 0, 0, 0, 1, 2, 0, 0, 0, 0, 0, 0];

/// A table that allows all leads to the states of none; one that forbids, to fewer.
#[test]
fn tables_of_one_worker() {
    let two = with_marks(with_list(size(1, 2, 3, 1, &[1]), TWO), 1);
    let all = states(two);
    assert_eq!(states(with_table(two, OWNER)), all);
    assert_eq!(states(with_table(two, BY_TWO)), all);
    assert_eq!((all, states(with_table(two, LOWER))), (6171, 353));
}

/// A worker that may only read changes nothing but what a read stamps.
#[test]
fn tables_of_two_workers() {
    assert_eq!(states(with_table(size(2, 1, 2, 2, &[1, 2]), READER)), 64_895);
    assert_eq!(states(with_table(with_marks(size(2, 1, 2, 1, &[1]), 1), READER)), 11_983);
}

#[test]
fn near_misses_of_a7_are_found() {
    fn found<F: Fault + Clone>(size: Size) -> String {
        let reason = explore::<F>(size, false).unwrap_err();
        reason.lines().next().unwrap_or_default().to_string()
    }
    let two = with_marks(with_list(size(1, 2, 3, 1, &[1]), TWO), 1);
    let (by_two, lower) = (with_table(two, BY_TWO), with_table(two, LOWER));
    for reason in [
        found::<LastRowOnly>(by_two),
        found::<FirstExcluded>(by_two),
        found::<LastExcluded>(by_two),
        found::<MarksOneRow>(by_two),
        found::<CollectEverywhere>(lower),
        found::<EmptyForbids>(two),
    ] {
        assert!(reason.contains("No(Forbidden), not "), "{reason}");
    }
    for reason in [
        found::<TotalFirstOnly>(lower),
        found::<MarksOneRegister>(lower),
        found::<GetFree>(lower),
        found::<ForbiddenAfterBusy>(lower),
        found::<NoRowsAllowed>(with_table(size(2, 1, 2, 1, &[1]), OWNER)),
    ] {
        assert!(reason.ends_with("not No(Forbidden)"), "{reason}");
    }
}
