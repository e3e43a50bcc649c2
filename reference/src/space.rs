//! Long random runs with long-lived snapshots: how many old versions the hub keeps in them.

use crate::census::{bound, Census, Counts};
use crate::markdown::Table;
use crate::marks::MARKS;
use crate::store::MAX_SLOTS;
use crate::workload::{Records, Role, Shape, Weights};

/// A random run: half of the workers, rounded up, hold each snapshot for `life` operations of
/// their own on average, the others for ten. All put. In a run with marks they mark their
/// snapshots too and seldom release one, so that mostly all marks are held.
#[derive(Clone, Copy, Debug)]
pub struct Run {
    pub workers: u8,
    pub registers: u16,
    pub life: u64,
    pub marks: bool,
}

impl Run {
    /// The runs of the table.
    pub const ALL: [Run; 17] = {
        const fn run(workers: u8, registers: u16, life: u64) -> Run {
            Run { workers, registers, life, marks: false }
        }
        const fn marking(workers: u8, registers: u16, life: u64) -> Run {
            Run { workers, registers, life, marks: true }
        }
        [
            run(1, 64, 100),
            run(1, 64, 1000),
            run(2, 64, 100),
            run(2, 64, 1000),
            run(4, 64, 100),
            run(4, 64, 1000),
            run(4, 256, 1000),
            run(8, 64, 100),
            run(8, 64, 1000),
            run(8, 128, 1000),
            run(16, 64, 100),
            run(16, 64, 1000),
            marking(1, 64, 100),
            marking(1, 96, 100),
            marking(2, 96, 100),
            marking(4, 64, 100),
            marking(16, 32, 100),
        ]
    };

    /// The hub and its workers' habits.
    pub fn shape(self) -> Shape {
        let marks = u64::from(self.marks);
        let weights = |life| Weights {
            put: 8 * life,
            open: 10 * life,
            read: life,
            close: 10,
            get: life,
            mark: marks * life,
            release: marks,
            ..Weights::NONE
        };
        let holders = self.workers.div_ceil(2);
        let roles = vec![
            Role::alike(holders, weights(self.life)),
            Role::alike(self.workers - holders, weights(10)),
        ];
        Shape { registers: self.registers, slots: MAX_SLOTS, roles }
    }

    /// Makes so many records and counts after each.
    pub fn measure(self, seed: u64, count: usize) -> Peak {
        let mut records = Records::new(&self.shape(), &[], seed);
        let mut census = Census::new(records.store());
        let mut peak = Peak::default();
        for _ in 0..count {
            records.next_record();
            let counts = census.follow(records.store());
            if counts.kept > peak.at.kept {
                peak.at = counts;
            }
            peak.newer_than_oldest = peak.newer_than_oldest.max(counts.newer_than_oldest);
            peak.pools = peak.pools.max(records.store().queue.len());
            let bound = bound(usize::from(self.workers), census.most_needed);
            peak.beyond_bound |= counts.kept > bound;
            (peak.most_needed, peak.bound) = (census.most_needed, bound);
        }
        peak
    }
}

/// What a run came to.
#[derive(Clone, Copy, Debug, Default)]
pub struct Peak {
    /// The counts where the hub kept most, for the first time.
    pub at: Counts,
    /// H.
    pub most_needed: usize,
    pub bound: usize,
    /// The most that the old rule would have kept.
    pub newer_than_oldest: usize,
    /// The most pools on the queue.
    pub pools: usize,
    /// Did the hub ever keep more than the bound with H as it was then?
    pub beyond_bound: bool,
}

/// Records in each run of the table.
pub const COUNT: usize = 500_000;
/// Seeds for each line of the table, which shows the run that kept most.
pub const SEEDS: [u64; 2] = [1, 2];

/// The table of all runs, and whether each stayed within the bound.
pub fn table() -> (Table, bool) {
    let mut table = Table::new(&[
        "P",
        "V",
        "marks",
        "snapshot life",
        "kept at most",
        "needed then",
        "H",
        "2H + 25 P² log P",
        "old rule then",
        "old rule at most",
        "pools at most",
    ]);
    let mut within = true;
    for run in Run::ALL {
        let peaks = SEEDS.map(|seed| run.measure(seed, COUNT));
        within &= peaks.iter().all(|peak| !peak.beyond_bound);
        let peak = peaks.iter().max_by_key(|peak| peak.at.kept).expect("a seed");
        let cells = [
            usize::from(run.workers),
            usize::from(run.registers),
            usize::from(run.marks) * MARKS,
            run.life as usize,
            peak.at.kept,
            peak.at.needed,
            peak.most_needed,
            peak.bound,
            peak.at.newer_than_oldest,
            peak.newer_than_oldest,
            peak.pools,
        ];
        table.row(cells.iter().map(usize::to_string).collect());
    }
    (table, within)
}

/// The run of the plot: worker 0 does nothing but hold one snapshot for most of it; the others put,
/// with a short snapshot now and then.
pub mod held {
    use crate::census::{bound, Census, Counts};
    use crate::record::Record;
    use crate::store::MAX_SLOTS;
    use crate::workload::{Records, Role, Shape, Weights};
    use std::ops::Range;

    pub const WORKERS: u8 = 4;
    pub const REGISTERS: u16 = 64;
    pub const COUNT: usize = 24_000;
    /// The records after which the snapshot is open.
    pub const OPEN: Range<usize> = 2_000..20_000;

    /// The counts and the bound after each record.
    pub fn counts() -> Vec<(Counts, usize)> {
        let weights = Weights { put: 80, open: 3, read: 10, close: 10, get: 10, ..Weights::NONE };
        let roles = vec![Role { workers: 1, turns: 0, weights }, Role::alike(WORKERS - 1, weights)];
        let shape = Shape { registers: REGISTERS, slots: MAX_SLOTS, roles };
        let mut records = Records::new(&shape, &[], 1);
        let mut census = Census::new(records.store());
        let each = |place| {
            match of_worker_0(place) {
                Some(record) => records.insert(record),
                None => drop(records.next_record()),
            }
            let counts = census.follow(records.store());
            (counts, bound(usize::from(WORKERS), census.most_needed))
        };
        (0..COUNT).map(each).collect()
    }

    /// An open of two steps, much later a close of one.
    fn of_worker_0(place: usize) -> Option<Record> {
        const BEGIN: usize = OPEN.start - 1;
        const PASS: usize = OPEN.start + 1;
        const END: usize = OPEN.end - 1;
        match place {
            BEGIN => Some(Record::Open { worker: 0 }),
            END => Some(Record::Close { worker: 0 }),
            _ if [OPEN.start, PASS, OPEN.end].contains(&place) => Some(Record::Step { worker: 0 }),
            _ => None,
        }
    }
}
