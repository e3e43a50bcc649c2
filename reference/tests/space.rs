//! Old versions are counted rightly, the hub stays within document 001's bound, and what is checked
//! in says so.

use reference::census::{bound, Census, Counts};
use reference::fault::NewerThanOldest;
use reference::generate::{script, Kind, Script};
use reference::space::{self, held, Run};
use reference::store::{Slot, Store, MAX_SLOTS};
use reference::workload::Records;
use reference::{plot, Hub};

/// The counts straight from their sentences, given every high that was ever closed.
fn plain(store: &Store, highs: &[u32]) -> Counts {
    let announced = store.workers.iter().filter_map(|worker| worker.announced);
    let times: Vec<u32> = announced.chain(store.marks.into_iter().flatten()).collect();
    let old: Vec<&Slot> = store.slots.iter().filter(|slot| slot.newer.is_some()).collect();
    let needed = |slot: &&&Slot| {
        let high = slot.high.map_or(u64::MAX, u64::from);
        times.iter().any(|&time| slot.low <= Some(time) && u64::from(time) < high)
    };
    let newer = |high: &&u32| times.iter().any(|time| time < high);
    let open = old.iter().filter(|slot| slot.high.is_none()).count();
    Counts {
        kept: old.len(),
        needed: old.iter().filter(needed).count(),
        newer_than_oldest: highs.iter().filter(newer).count() + open,
    }
}

#[test]
fn the_census_counts_what_the_sentences_say() {
    let mut most = Counts::default();
    for kind in [
        Kind::Mixed,
        Kind::Snapshots,
        Kind::Stalled,
        Kind::Reads,
        Kind::Large,
        Kind::Slots,
        Kind::Totals,
        Kind::Marks,
        Kind::Held,
    ] {
        for seed in 0..20 {
            let mut hub = Hub::new();
            let mut census = None;
            let mut highs = Vec::new();
            let script = script(kind, seed, 2_000);
            script.give(&mut hub);
            let Script { records, list, .. } = script;
            for bytes in records.chunks(16) {
                let before: Vec<Slot> = hub.store().map_or(Vec::new(), |store| store.slots.clone());
                hub.take(bytes, &list);
                let Some(store) = hub.store() else { continue };
                let census = census.get_or_insert_with(|| Census::new(store));
                for (before, after) in before.iter().zip(&store.slots) {
                    if before.high.is_none() {
                        highs.extend(after.high);
                    }
                }
                let counts = census.follow(store);
                assert_eq!(counts, plain(store, &highs), "{kind:?} {seed}");
                assert!(counts.needed <= counts.kept.min(counts.newer_than_oldest));
                assert!(counts.kept <= bound(store.workers.len(), census.most_needed));
                most.needed = most.needed.max(counts.needed);
                most.kept = most.kept.max(counts.kept);
            }
        }
    }
    assert!(most.needed > 50 && most.kept > 100, "{most:?}");
}

#[test]
fn bounds() {
    assert_eq!([1, 2, 4, 8, 16].map(|workers| bound(workers, 0)), [25, 100, 800, 4800, 25600]);
    assert_eq!(bound(4, 10), 820);
}

/// So the bound says something.
#[test]
fn the_old_rule_breaks_the_bound() {
    let run = Run { workers: 2, registers: 64, life: 1000, marks: false };
    let mut hub = Hub::<NewerThanOldest>::with_row(usize::from(MAX_SLOTS));
    let mut records = Records::new(&run.shape(), &[], 1);
    records.next().map(|setup| hub.take(&setup, &[]));
    let mut census = Census::new(hub.store().unwrap());
    let broken = records.take(100_000).any(|bytes| {
        hub.take(&bytes, &[]);
        let counts = census.follow(hub.store().unwrap());
        counts.kept > bound(2, census.most_needed)
    });
    assert!(broken);
}

#[test]
fn every_run_stays_within_the_bound_and_the_report_has_its_table() {
    let (table, within) = space::table();
    assert!(within, "{table}");
    let report = include_str!("../../docs/PERFORMANCE.md");
    assert!(report.contains(&table.to_string()), "docs/PERFORMANCE.md has another table:\n{table}");
}

#[test]
fn a_long_snapshot_costs_the_hub_little_and_the_old_rule_everything() {
    let counts = held::counts();
    let open = &counts[held::OPEN];
    assert!(counts.iter().all(|(counts, bound)| counts.kept <= *bound));
    assert!(open.iter().all(|(counts, _)| counts.kept < 4 * usize::from(held::REGISTERS)));
    assert!(open.last().unwrap().0.newer_than_oldest > usize::from(MAX_SLOTS));
}

#[test]
fn the_plot_is_the_one_checked_in() {
    assert!(plot::svg() == include_str!("../../docs/space.svg"), "space --svg > docs/space.svg");
}
