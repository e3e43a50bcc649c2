//! The seeded random suite reaches every answer, every refusal of a log, every branch, hubs of all
//! sizes, lists and tables of all kinds.

use crate::common;

use reference::coverage::{Branch, Coverage};
use reference::fault::Right;
use reference::generate::{script, script_across, Kind};
use reference::list::Groups;
use reference::rights;
use reference::store::MAX_REGISTERS;

#[test]
fn the_random_suite_reaches_everything() {
    let mut total = Coverage::default();
    for (kind, _) in Kind::ALL {
        for seed in 0..100 {
            // Every fifth of them comes over from before A1.
            let before = if seed % 5 == 4 { 400 } else { 0 };
            let script = script_across(kind, seed, 2000, before);
            let (answers, coverage) = common::covered(&script, before);
            // Watching changes nothing.
            assert_eq!(answers, common::across::<Right>(&script, before));
            total.add(&coverage);
        }
    }
    println!("{total}");
    assert_eq!(total.missing(), Vec::<String>::new());
    let least = |branches: &[Branch], least: u64| {
        for &branch in branches {
            let met = total.branches[branch as usize];
            assert!(met >= least, "{branch:?} met {met} times");
        }
    };
    least(&Branch::OF_LIMIT, 1000);
    least(&Branch::OF_TOTAL, 40);
    least(&Branch::OF_SUMMAND, 200);
    least(&Branch::OF_LIST, 1000);
    least(&Branch::of_marks().collect::<Vec<_>>(), 40);
    // Totals that ended: with an answer on either side of 0, with 18, and refused with 17 or by a list.
    let refusals = |number: usize| total.refusals[number];
    let answers = |name: &str| total.answered_with(name);
    assert!(answers("value below 0") > 4000 && refusals(17) > 4000 && refusals(18) > 800);
    assert!(total.lists.iter().all(|&met| met > 30), "{:?}", total.lists);
    // Refusals of marks, releases and marked reads, when they begin and at a step.
    assert!(refusals(19) > 300 && refusals(20) > 1500 && refusals(21) > 2000);
    // Both of what a get, a read or a marked read may answer, and a total may add.
    assert!(answers("none") > 30_000 && answers("value") > 100_000);
    let met = |branch: Branch| total.branches[branch as usize];
    use Branch::{GetFirstPut, GetNone, GetZero, MarkedNone, MarkedNoneSince, MarkedZero};
    use Branch::{ReadNone, ReadNoneSince, ReadZero, TotalNone, TotalNoneSince, TotalZero};
    assert!(met(GetNone) > 9000 && met(GetZero) > 1500 && met(GetFirstPut) > 80);
    assert!(met(ReadNone) > 8000 && met(ReadNoneSince) > 2500 && met(ReadZero) > 2000);
    assert!(met(MarkedNone) > 7000 && met(MarkedNoneSince) > 4000 && met(MarkedZero) > 1500);
    assert!(met(TotalNone) > 30_000 && met(TotalNoneSince) > 8000 && met(TotalZero) > 4000);
    // What a table forbids, to each operation, and what its rows allow together; tables that are none.
    least(&Branch::of_rights().collect::<Vec<_>>(), 200);
    least(&Branch::of_tables().collect::<Vec<_>>(), 15);
    assert!(refusals(23) > 50_000 && refusals(24) == 0, "{} and {}", refusals(23), refusals(24));
    assert!(total.tables.iter().all(|&met| met > 30), "{:?}", total.tables);
    // Puts of every status, 25 with each other reason, and each status wherever one is shown.
    least(&Branch::of_statuses().collect::<Vec<_>>(), 200);
    assert!(refusals(25) > 10_000, "{}", refusals(25));
    use Branch::{TotalOfNothing, TotalStatusEarlier, TotalStatusLast};
    assert!(met(TotalStatusEarlier) > 2000 && met(TotalStatusLast) > 1000);
    assert!(met(TotalOfNothing) > 1000);
}

/// About three scripts in ten have a table, some of them one that is refused.
#[test]
fn scripts_have_tables_and_lists_in_every_mix() {
    let mut met = [[0; 3]; 3];
    for (kind, _) in Kind::ALL {
        for seed in 0..100 {
            let script = script(kind, seed, 0);
            let of = |bytes: &[u8], fits: bool| match bytes {
                [] => 0,
                _ => 1 + usize::from(!fits),
            };
            let list = Groups::read::<Right>(&script.list, MAX_REGISTERS).is_ok();
            let table = rights::read::<Right>(&script.table).is_ok();
            met[of(&script.list, list)][of(&script.table, table)] += 1;
        }
    }
    // Missing, fit and damaged lists, and beside each of them such tables.
    assert!(met.as_flattened().iter().all(|&count| count >= 10), "{met:?}");
    let with_table: usize = met.iter().map(|tables| tables[1] + tables[2]).sum();
    assert!((600..900).contains(&with_table), "{with_table} of 2300 scripts have a table");
}

/// Hubs of middle sizes are used, not only set up: their slots run out, and are freed and taken again.
#[test]
fn hubs_of_middle_sizes_are_used() {
    let (mut refused, mut freed) = (0, 0);
    for seed in 0..100 {
        let (_, coverage) = common::covered(&script(Kind::Full, seed, 1000), 0);
        let named = |name: &str| coverage.counts().iter().any(|(other, n)| other == name && *n > 0);
        if named("V 17 to 255 with N 137 to 2047") {
            refused += usize::from(coverage.branches[Branch::PutRefused as usize] > 0);
            freed += usize::from(named("answer freed"));
        }
    }
    assert!(refused >= 20 && freed >= 20, "{refused} run out of slots, {freed} free some");
}

#[test]
fn counts_have_a_name_each() {
    let counts = Coverage::default().counts();
    let mut names: Vec<_> = counts.iter().map(|(name, _)| name).collect();
    names.sort();
    names.dedup();
    assert_eq!(names.len(), counts.len());
    // Eight answers, refusals 1 to 25 but 7, 22 and 24, the branches, the sizes, the lists and the tables.
    assert!(names.contains(&&"no 6".to_string()) && !names.contains(&&"no 7".to_string()));
    assert_eq!(Coverage::default().missing().len(), counts.len());
}
