//! The tables of docs/PERFORMANCE.md that come of times, counts and logs.

use crate::compare::WORDS;
use crate::measured::Measured;
use reference::markdown::Table;
use reference::workload::Shape;

fn ns(time: f64) -> String {
    format!("{time:.1}")
}

pub fn ratio(numerator: f64, denominator: f64) -> String {
    format!("{:.2}", numerator / denominator)
}

/// The times of both programs and their ratio.
pub fn speed(measured: &[&Measured], records: usize) -> Table {
    let mut table = Table::new(&[
        "File",
        "hublog best",
        "hublog median",
        "second best",
        "second median",
        "ratio of bests",
        "ratio of medians",
        "hublog cpu",
        "second cpu",
    ]);
    for measured in measured {
        let [hublog, second] = measured.figures(records);
        let shape = measured.workload.shape();
        let Shape { registers, slots, .. } = shape;
        let name = measured.workload.name();
        table.row(vec![
            format!("{name} (P {}, V {registers}, N {slots})", shape.workers()),
            ns(hublog.best),
            ns(hublog.median),
            ns(second.best),
            ns(second.median),
            ratio(hublog.best, second.best),
            ratio(hublog.median, second.median),
            ns(hublog.processor),
            ns(second.processor),
        ]);
    }
    table
}

/// The times of workloads in series, and the ratio of the bests to those of the series' first.
pub fn growth(measured: &[&Measured], records: usize) -> Table {
    let mut table = Table::new(&[
        "File",
        "pools queued",
        "hublog best",
        "hublog median",
        "second best",
        "second median",
        "hublog grows by",
        "second grows by",
    ]);
    let mut first = [1.0, 1.0];
    for measured in measured {
        let [hublog, second] = measured.figures(records);
        if measured.workload.begins_series() {
            first = [hublog.best, second.best];
        }
        table.row(vec![
            measured.workload.name(),
            format!("{:.0}", measured.pools),
            ns(hublog.best),
            ns(hublog.median),
            ns(second.best),
            ns(second.median),
            ratio(hublog.best, first[0]),
            ratio(second.best, first[1]),
        ]);
    }
    table
}

/// The instructions a record of both programs, their ratio, and the growth where there is a series.
pub fn instructions(measured: &[&Measured], records: usize) -> Table {
    let titles =
        ["File", "pools queued", "hublog", "second", "ratio", "hublog grows by", "second grows by"];
    // Without a series there is no growth.
    let series = measured.iter().any(|measured| measured.workload.begins_series());
    let columns = if series { 7 } else { 5 };
    let mut table = Table::new(&titles[..columns]);
    let mut first = [1.0, 1.0];
    for measured in measured {
        let [hublog, second] = measured.instructions.map(|count| count as f64 / records as f64);
        if measured.workload.begins_series() {
            first = [hublog, second];
        }
        let mut row = vec![
            measured.workload.name(),
            format!("{:.0}", measured.pools),
            format!("{hublog:.0}"),
            format!("{second:.0}"),
            ratio(hublog, second),
            ratio(hublog, first[0]),
            ratio(second, first[1]),
        ];
        row.truncate(columns);
        table.row(row);
    }
    table
}

/// The shares of the answers, in percent.
pub fn answers(measured: &[&Measured]) -> Table {
    let mut table = Table::new(&[&["File"][..], &WORDS].concat());
    for &Measured { workload, logs, .. } in measured {
        let total = logs.counts.iter().sum::<u64>() as f64;
        let share = |count| format!("{:.1}", 100.0 * count as f64 / total);
        table.row([vec![workload.name()], logs.counts.map(share).to_vec()].concat());
    }
    table
}

/// The peak memory of both programs.
pub fn memory(measured: &[&Measured]) -> Table {
    let mut table = Table::new(&["File", "hublog", "second"]);
    for &Measured { workload, logs, .. } in measured {
        let peaks = logs.peaks.map(|peak| peak.to_string());
        table.row([vec![workload.name()], peaks.to_vec()].concat());
    }
    table
}
