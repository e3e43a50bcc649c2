//! The plot of old versions over one run, as SVG.

use crate::census::Counts;
use crate::space::held;
use crate::store::MAX_SLOTS;
use std::fmt::{self, Write};

const WIDTH: usize = 800;
const HEIGHT: usize = 460;
/// The plot's own corner, left and top, and its size.
const LEFT: usize = 72;
const TOP: usize = 44;
const ACROSS: usize = WIDTH - LEFT - 24;
const DOWN: usize = HEIGHT - TOP - 56;

/// Records between two points of a curve.
const EVERY: usize = 50;
/// Records between two marks of the horizontal axis, versions between two of the vertical one.
const RECORDS_MARK: usize = 4_000;
const VERSIONS_MARK: usize = 500;

/// Behind the curves where the snapshot is open.
const SHADE: &str = "#f0f0f0";

/// A curve: its name in the legend, its stroke, and its value at a record.
struct Curve {
    name: &'static str,
    stroke: &'static str,
    value: fn(&(Counts, usize)) -> usize,
}

/// In the order in which they are drawn. They run together where no snapshot is old: the first is
/// the widest, so that it is seen on both sides of those over it.
const CURVES: [Curve; 4] = [
    Curve {
        name: "everything newer than the oldest snapshot (the old rule)",
        stroke: "stroke=\"#f0a35e\" stroke-width=\"7\"",
        value: |(counts, _)| counts.newer_than_oldest,
    },
    Curve {
        name: "bound 2H + 25 P² log P of document 001",
        stroke: "stroke=\"#777777\" stroke-width=\"1.5\" stroke-dasharray=\"7 4\"",
        value: |&(_, bound)| bound,
    },
    Curve {
        name: "kept by the hub",
        stroke: "stroke=\"#0072b2\" stroke-width=\"2.5\"",
        value: |(counts, _)| counts.kept,
    },
    Curve {
        name: "needed",
        stroke: "stroke=\"#009e73\" stroke-width=\"1.5\"",
        value: |(counts, _)| counts.needed,
    },
];

/// The plot of `space::held`.
pub fn svg() -> String {
    let mut text = String::new();
    write(&mut text, &held::counts()).expect("a string takes all");
    text
}

/// From records and versions to the picture's own units.
struct Scale {
    records: usize,
    versions: usize,
}

impl Scale {
    fn x(&self, record: usize) -> f64 {
        LEFT as f64 + (ACROSS * record) as f64 / self.records as f64
    }

    fn y(&self, version: usize) -> f64 {
        (TOP + DOWN) as f64 - (DOWN * version) as f64 / self.versions as f64
    }
}

fn write(text: &mut String, counts: &[(Counts, usize)]) -> fmt::Result {
    let values = CURVES.iter().flat_map(|curve| counts.iter().map(curve.value));
    let most = values.max().unwrap_or(0);
    let scale =
        Scale { records: counts.len(), versions: most.next_multiple_of(VERSIONS_MARK).max(1) };
    writeln!(
        text,
        "<svg xmlns=\"http://www.w3.org/2000/svg\" width=\"{WIDTH}\" height=\"{HEIGHT}\" \
         viewBox=\"0 0 {WIDTH} {HEIGHT}\" font-family=\"sans-serif\" font-size=\"13\">"
    )?;
    writeln!(text, "<rect width=\"{WIDTH}\" height=\"{HEIGHT}\" fill=\"white\"/>")?;
    let (workers, registers) = (held::WORKERS, held::REGISTERS);
    writeln!(
        text,
        "<text x=\"{LEFT}\" y=\"26\" font-size=\"15\">Old versions while one snapshot stays open \
         (P {workers}, V {registers}, N {MAX_SLOTS})</text>"
    )?;
    write_snapshot(text, &scale)?;
    write_axes(text, &scale)?;
    write_slots(text, &scale)?;
    for Curve { stroke, value, .. } in CURVES {
        write!(text, "<polyline fill=\"none\" stroke-linejoin=\"round\" {stroke} points=\"")?;
        for (record, counts) in counts.iter().enumerate().step_by(EVERY) {
            write!(text, "{:.1},{:.1} ", scale.x(record), scale.y(value(counts)))?;
        }
        writeln!(text, "\"/>")?;
    }
    write_legend(text)?;
    writeln!(text, "</svg>")
}

/// The time for which the snapshot is open.
fn write_snapshot(text: &mut String, scale: &Scale) -> fmt::Result {
    let (from, to) = (scale.x(held::OPEN.start), scale.x(held::OPEN.end));
    let across = to - from;
    writeln!(
        text,
        "<rect x=\"{from:.1}\" y=\"{TOP}\" width=\"{across:.1}\" height=\"{DOWN}\" fill=\"{SHADE}\"/>"
    )
}

fn write_axes(text: &mut String, scale: &Scale) -> fmt::Result {
    let (right, bottom) = (LEFT + ACROSS, TOP + DOWN);
    for versions in (0..=scale.versions).step_by(VERSIONS_MARK) {
        let y = scale.y(versions);
        writeln!(
            text,
            "<path d=\"M{LEFT} {y:.1}H{right}\" stroke=\"#dddddd\"/>\
             <text x=\"{}\" y=\"{:.1}\" text-anchor=\"end\">{versions}</text>",
            LEFT - 8,
            y + 4.5
        )?;
    }
    for records in (0..=scale.records).step_by(RECORDS_MARK) {
        let x = scale.x(records);
        writeln!(
            text,
            "<path d=\"M{x:.1} {bottom}v5\" stroke=\"black\"/>\
             <text x=\"{x:.1}\" y=\"{}\" text-anchor=\"middle\">{records}</text>",
            bottom + 20
        )?;
    }
    writeln!(text, "<path d=\"M{LEFT} {TOP}V{bottom}H{right}\" fill=\"none\" stroke=\"black\"/>")?;
    let (middle, height) = (LEFT + ACROSS / 2, TOP + DOWN / 2);
    writeln!(
        text,
        "<text x=\"{middle}\" y=\"{}\" text-anchor=\"middle\">records</text>",
        HEIGHT - 12
    )?;
    writeln!(
        text,
        "<text transform=\"translate(18 {height}) rotate(-90)\" text-anchor=\"middle\">\
         old versions</text>"
    )
}

/// The slots that a hub has for old versions.
fn write_slots(text: &mut String, scale: &Scale) -> fmt::Result {
    let slots = usize::from(MAX_SLOTS - held::REGISTERS);
    let (y, right) = (scale.y(slots), LEFT + ACROSS);
    writeln!(
        text,
        "<path d=\"M{LEFT} {y:.1}H{right}\" stroke=\"black\" stroke-dasharray=\"2 3\"/>\
         <text x=\"{}\" y=\"{:.1}\">slots there are for them: N − V = {slots}</text>",
        LEFT + 8,
        y + 17.0
    )
}

fn write_legend(text: &mut String) -> fmt::Result {
    let (x, step) = (LEFT + 12, 20);
    let mut y = TOP + 18;
    for Curve { name, stroke, .. } in CURVES {
        write!(text, "<path d=\"M{x} {y}h30\" {stroke}/>")?;
        writeln!(text, "<text x=\"{}\" y=\"{}\">{name}</text>", x + 38, y + 4)?;
        y += step;
    }
    write!(text, "<rect x=\"{x}\" y=\"{}\" width=\"30\" height=\"12\" ", y - 6)?;
    write!(text, "fill=\"{SHADE}\" stroke=\"#bbbbbb\"/>")?;
    writeln!(text, "<text x=\"{}\" y=\"{}\">the snapshot is open</text>", x + 38, y + 4)
}
