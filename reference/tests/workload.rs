//! The record files for measuring are the same for the same seed and have what they are meant to have.

use crate::common;

use reference::answer::Answer;
use reference::coverage::{Branch, Coverage};
use reference::fault::Right;
use reference::generate::Script;
use reference::list::{Groups, MAX_ROWS};
use reference::record::{Record, LENGTH};
use reference::store::{Doing, MAX_SLOTS};
use reference::workload::Workload;
use reference::{log, Hub};

/// Long enough for the shape to settle.
const COUNT: usize = 1_000_000;

fn file(workload: Workload, seed: u64, count: usize) -> Vec<u8> {
    let mut file = Vec::new();
    workload.write(seed, count, &mut file).unwrap();
    file
}

/// Long enough for the workloads of growth, which are settled sooner.
const SHORTER: usize = 100_000;

/// What a run over a workload's records met.
struct Met {
    records: usize,
    coverage: Coverage,
    /// By operation number.
    begun: [u64; 12],
    /// On average where a flush takes its pools.
    pools_queued: f64,
    ranges_taken: f64,
    snapshots: f64,
}

impl Met {
    fn of(workload: Workload) -> Met {
        Met::over(workload, COUNT)
    }

    fn over(workload: Workload, records: usize) -> Met {
        let mut hub = Hub::<Right, Coverage>::with_row(usize::from(MAX_SLOTS));
        let list = workload.list(1);
        let mut begun = [0; 12];
        let (mut takes, mut pools, mut ranges, mut snapshots) = (0, 0, 0, 0);
        for bytes in workload.records(1).take(records) {
            begun[usize::from(bytes[0])] += 1;
            if let (Some(store), Ok(Record::Step { worker })) =
                (hub.store(), Record::decode(&bytes))
            {
                if store.workers[usize::from(worker)].doing == Doing::FlushTake {
                    takes += 1;
                    pools += store.queue.len();
                    ranges += store.queue.pools().take(2).map(<[_]>::len).sum::<usize>();
                    snapshots += store.workers.iter().filter(|w| w.announced.is_some()).count();
                }
            }
            let answer = hub.take(&bytes, &list);
            hub.observer.answered(answer);
        }
        let refused: u64 = hub.observer.refusals.iter().sum();
        assert_eq!(refused, 0, "{workload:?} has no refused record");
        let mean = |sum| sum as f64 / takes as f64;
        Met {
            records,
            coverage: hub.observer,
            begun,
            pools_queued: mean(pools),
            ranges_taken: mean(ranges),
            snapshots: mean(snapshots),
        }
    }

    fn branch(&self, branch: Branch) -> f64 {
        self.coverage.branches[branch as usize] as f64
    }

    /// The share of an operation among those begun.
    fn share(&self, operation: usize) -> f64 {
        let all = self.begun[PUT..].iter().sum::<u64>() - self.begun[STEP];
        self.begun[operation] as f64 / all as f64
    }

    /// The share of an answer: ok, going, freed, at, value, done.
    fn answer(&self, kind: usize) -> f64 {
        self.coverage.answers[kind] as f64 / self.records as f64
    }
}

const PUT: usize = 1;
const COLLECT: usize = 6;
const STEP: usize = 7;
const MARK: usize = 9;
const RELEASE: usize = 10;
const MARKED: usize = 11;

#[test]
fn the_same_seed_gives_the_same_records() {
    for workload in Workload::ALL {
        let short = file(workload, 7, 2_000);
        assert_eq!(short.len(), 2_000 * LENGTH);
        assert_eq!(short, file(workload, 7, 4_000)[..short.len()], "{workload:?}");
        assert_ne!(short, file(workload, 8, 2_000), "{workload:?}");
    }
}

#[test]
fn names_are_read_back() {
    for workload in Workload::ALL {
        assert_eq!(Workload::named(&workload.name()), Some(workload));
    }
    assert_eq!(Workload::named("growth-17"), None);
}

/// Of sixteen puts one is an estimate and one a correction, in every file that has puts.
#[test]
fn some_puts_are_estimates_and_corrections() {
    for workload in Workload::ALL.into_iter().filter(|&workload| workload != Workload::Uniform) {
        let mut met = [0; 3];
        for bytes in workload.records(1).take(60_000) {
            if let Ok(Record::Put { reading, .. }) = Record::decode(&bytes) {
                met[usize::from(reading.status)] += 1;
            }
        }
        let puts: usize = met.iter().sum();
        let share = |count: usize| (40..90).contains(&(1000 * count / puts.max(1)));
        let told = format!("{workload:?}: {met:?}");
        assert!(share(met[1]) && share(met[2]) && met[0] > 3 * puts / 4, "{told}");
    }
}

#[test]
fn each_begins_with_its_setup() {
    let sizes = [
        (2, 4, 16),
        (16, 256, 2048),
        (2, 16, 256),
        (16, 2, 2048),
        (16, 256, 2048),
        (16, 256, 2048),
        (16, 64, 2048),
        (16, 256, 2048),
    ];
    for (workload, (workers, registers, slots)) in Workload::ALL.into_iter().zip(sizes) {
        let setup = Record::Setup { workers, registers, slots, clock: 1 };
        assert_eq!(file(workload, 1, 1), setup.encode(), "{workload:?}");
    }
}

#[test]
fn small_and_large_have_a_bit_of_everything() {
    for workload in [Workload::Small, Workload::Large] {
        let met = Met::of(workload);
        let least = [0.1, 0.4, 0.05, 0.004, 0.05, 0.05];
        for (kind, least) in least.into_iter().enumerate() {
            assert!(met.answer(kind) > least, "{workload:?}: {:?}", met.coverage.answers);
        }
        assert!(met.begun[1..7].iter().all(|&begun| begun > 500), "{workload:?}: {:?}", met.begun);
    }
}

#[test]
fn puts_are_puts_in_small_batches() {
    let met = Met::of(Workload::Puts);
    assert!(met.share(PUT) > 0.9, "{:?}", met.begun);
    let puts = met.branch(Branch::PutDone) + met.branch(Branch::PutFlushes);
    let flushing = met.branch(Branch::PutFlushes) / puts;
    assert!((0.45..0.55).contains(&flushing), "{flushing}");
}

#[test]
fn reads_walk_far() {
    let met = Met::of(Workload::Reads);
    let moves = met.branch(Branch::ReadMoves);
    let found = met.branch(Branch::ReadFound) + met.branch(Branch::ReadFoundAtOnce);
    assert!(moves / found > 150.0, "{}", moves / found);
    assert!(moves / COUNT as f64 > 0.7, "{moves}");
}

#[test]
fn collects_meet_a_full_queue() {
    let met = Met::of(Workload::Collects);
    assert!(met.share(COLLECT) > 0.8, "{:?}", met.begun);
    assert!(met.pools_queued > 8.0, "{}", met.pools_queued);
    assert!(met.ranges_taken > 150.0, "{}", met.ranges_taken);
    // They find next to nothing to free.
    assert!(met.answer(2) < 0.01, "{:?}", met.coverage.answers);
}

#[test]
fn totals_are_of_the_longest_list() {
    let groups = Groups::read::<Right>(&Workload::Totals.list(1), 256).unwrap();
    assert!((0..32).all(|group| groups.rows(group).len() == MAX_ROWS));
    let minus = groups.all().iter().filter(|row| row.minus).count();
    assert!((300..500).contains(&minus), "{minus}");
    let listed = Workload::ALL.into_iter().filter(|workload| !workload.list(1).is_empty());
    assert!(listed.eq([Workload::Totals]));
    let met = Met::of(Workload::Totals);
    assert_eq!(met.begun[COLLECT], 0, "there is a slot for every put");
    let moves = met.branch(Branch::TotalMoves);
    let found = met.branch(Branch::TotalFound) + met.branch(Branch::TotalFoundAtOnce);
    assert!((0.7..0.9).contains(&(moves / found)), "{}", moves / found);
    assert!((moves + 2.0 * found) / COUNT as f64 > 0.7, "{found}");
    let [below, above] = [Branch::TotalBelow0, Branch::TotalAbove0].map(|sum| met.branch(sum));
    assert!(below > 1_000.0 && above > 5_000.0, "{below}, {above}");
}

#[test]
fn rights_are_the_longest_table_and_allow_all() {
    let tabled = Workload::ALL.into_iter().filter(|workload| !workload.table().is_empty());
    assert!(tabled.eq([Workload::Rights]));
    let mut hub: Hub = Hub::new();
    assert_eq!(Workload::Rights.table().len(), 512);
    assert!(hub.give_table(&Workload::Rights.table()).is_ok());
    let records = file(Workload::Rights, 1, COUNT);
    assert_eq!(records, file(Workload::Large, 1, COUNT));
    let mut answers = records.chunks(LENGTH).map(|record| hub.take(record, &[]));
    assert!(answers.all(|answer| !matches!(answer, Answer::No(_))));
}

#[test]
fn marks_outlive_their_snapshots() {
    let met = Met::of(Workload::Marks);
    assert_eq!(met.begun[COLLECT], 0, "there is a slot for every put");
    assert!(met.begun[MARK] > 400 && met.begun[RELEASE] > 400, "{:?}", met.begun);
    assert!(met.share(MARKED) > 0.08, "{:?}", met.begun);
    let found = met.branch(Branch::MarkedFound) + met.branch(Branch::MarkedFoundAtOnce);
    assert!(met.branch(Branch::MarkedMoves) / found > 10.0, "{found}");
    assert!(met.branch(Branch::MarkedClosed) / found > 0.8, "{found}");
    // Mostly all are in use, and versions are kept for them alone.
    let [all, some] = [Branch::FlushAllMarks, Branch::FlushMarks].map(|marks| met.branch(marks));
    assert!(all > 4.0 * some && met.branch(Branch::RangeOfMark) > 50_000.0, "{all}, {some}");
}

#[test]
fn uniform_bytes_are_refused() {
    let records = file(Workload::Uniform, 1, COUNT);
    let (_, coverage) = common::covered(&Script::plain(records), 0);
    assert_eq!(coverage.answers.iter().sum::<u64>(), 1);
    assert!(coverage.refusals[1] > COUNT as u64 * 95 / 100);
    assert_eq!(coverage.refusals[1] + coverage.refusals[2], COUNT as u64 - 1);
}

#[test]
fn growth_differs_only_in_the_setup() {
    let small = file(Workload::Small, 1, 50_000);
    let answers = log::answers(&mut Hub::new(), &small, &[]);
    for slots in [16, 64, 256, 1024, 2048] {
        let growth = file(Workload::Growth { slots }, 1, 50_000);
        let setup = Record::Setup { workers: 2, registers: 4, slots, clock: 1 };
        assert_eq!(growth[..LENGTH], setup.encode());
        assert!(growth[LENGTH..] == small[LENGTH..]);
        assert!(log::answers(&mut Hub::new(), &growth, &[]) == answers);
    }
}

#[test]
fn plain_is_one_worker_without_a_snapshot() {
    for workers in [2, 4, 8, 16] {
        let met = Met::over(Workload::Plain { workers }, SHORTER);
        assert_eq!(met.share(PUT), 1.0, "{:?}", met.begun);
        assert_eq!(met.snapshots, 0.0);
        assert!(met.pools_queued <= 1.0, "{workers}: {}", met.pools_queued);
        let file = file(Workload::Plain { workers }, 1, 1_000);
        assert!(file.chunks(LENGTH).skip(1).all(|bytes| bytes[1] == 0));
    }
}

#[test]
fn some_has_renewed_snapshots_of_all_workers() {
    for workers in [2, 4, 8, 16] {
        let met = Met::over(Workload::Some { workers }, SHORTER);
        assert!(met.share(PUT) > 0.95, "{:?}", met.begun);
        assert_eq!(met.begun[COLLECT], 0, "there is a slot for every put");
        assert!(met.snapshots > 0.9 * f64::from(workers), "{workers}: {}", met.snapshots);
        assert!(met.branch(Branch::Close) > 240.0, "{workers}: {}", met.branch(Branch::Close));
    }
}

#[test]
fn held_fills_the_queue_that_is_empty_without_snapshots() {
    for (workers, least) in [(1, 240.0), (2, 280.0), (3, 170.0), (4, 170.0)] {
        let empty = Met::over(Workload::Empty { workers }, SHORTER);
        let held = Met::over(Workload::Held { workers }, SHORTER);
        assert_eq!((empty.snapshots, empty.share(PUT)), (0.0, 1.0));
        assert!(empty.pools_queued < 3.0, "{workers}: {}", empty.pools_queued);
        assert!(held.snapshots > 0.9 * f64::from(workers), "{workers}: {}", held.snapshots);
        assert!(held.share(COLLECT) < if workers < 4 { 1e-9 } else { 0.05 }, "{:?}", held.begun);
        assert!(held.pools_queued > least, "{workers}: {}", held.pools_queued);
        // All else is alike: what each answers, to within two in a hundred records.
        for kind in 0..6 {
            let (empty, held) = (empty.answer(kind), held.answer(kind));
            assert!((empty - held).abs() < 0.02, "{workers}, {kind}: {empty}, {held}");
        }
    }
}
