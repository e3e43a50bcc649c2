//! What is measured of a workload, and the figures made of it.

use crate::compare::Logs;
use crate::process::Times;
use reference::workload::Workload;
use std::time::Duration;

/// What is found out about a workload.
pub struct Measured {
    pub workload: Workload,
    /// Pools in the queue, on average over the records.
    pub pools: f64,
    pub logs: Logs,
    /// Of `hublog` and of the second program, by round.
    pub times: [Vec<Times>; 2],
    /// Of both, where they are counted.
    pub instructions: [u64; 2],
}

impl Measured {
    pub fn figures(&self, records: usize) -> [Figures; 2] {
        [0, 1].map(|program| Figures::of(&self.times[program], records))
    }
}

/// The times of one program on one file, in ns a record.
pub struct Figures {
    pub best: f64,
    pub median: f64,
    /// The median of user and system time.
    pub processor: f64,
}

impl Figures {
    pub fn of(times: &[Times], records: usize) -> Figures {
        let sorted = |time: fn(&Times) -> Duration| {
            let each = times.iter().map(|times| time(times).as_nanos() as f64 / records as f64);
            let mut each: Vec<f64> = each.collect();
            each.sort_by(f64::total_cmp);
            each
        };
        let median = |sorted: &[f64]| {
            let last = sorted.len() - 1;
            (sorted[last / 2] + sorted[last.div_ceil(2)]) / 2.0
        };
        let wall = sorted(|times| times.wall);
        let processor = sorted(|times| times.processor);
        Figures { best: wall[0], median: median(&wall), processor: median(&processor) }
    }
}
