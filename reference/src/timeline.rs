//! The order of demand 3 as an SVG timeline: a lane for each worker and for each mark that is used,
//! a column for each record.
//!
//! An operation is a bar from the record of its begin to the one of its end. The number on it
//! stands at its effect and is its place in the order. In a mark's lane a bar shows while it holds
//! a time.

use crate::answer::Answer;
use crate::order::{Action, Operation, Order, Outcome, Violation};
use crate::reading::{Reading, READ};
use std::collections::BTreeSet;
use std::fmt::{self, Display, Formatter};

// Lengths in pixels.
const MIN_WIDTH: usize = 900;
const MARGIN: usize = 16;
/// Room for the workers' names left of the lanes, for the heading and for the legend.
const LEFT: usize = 78;
const TOP: usize = 58;
const BOTTOM: usize = 84;
const LANE: usize = 68;
/// The height of a mark's lane, with bars at its upper edge.
const MARK_LANE: usize = 26;
/// From a lane's upper edge to its bars.
const BAR_TOP: usize = 24;
const BAR: usize = 20;
/// A record is as wide as the labels need, within these bounds.
const MIN_COLUMN: usize = 22;
const MAX_COLUMN: usize = 44;
/// Kept free after bars and labels.
const GAP: usize = 4;
/// The width of a sign in the legend.
const SIGN: usize = 24;

const STYLE: &str = "\
text { font: 12px Helvetica, Arial, sans-serif; fill: #24292f }
.heading { font-size: 14px; font-weight: bold }
.page { fill: #ffffff; stroke: #d0d7de; stroke-width: 2 }
.lane { fill: #f6f8fa }
.grid { stroke: #dfe4e9 }
.record { fill: #57606a; text-anchor: middle }
.violation { stroke: #c5221f; stroke-width: 2 }
.snapshot { stroke: #c9b6e4; stroke-width: 5 }
.held { fill: #e5daf3; stroke: #6f4aa3 }
.kept { font-size: 11px }
.bar { stroke: #57606a; stroke-width: 1.2; fill: #eaeef2 }
.put { stroke: #2a66ab; fill: #cfe1f7 }
.get, .read { stroke: #2e7d43; fill: #d3ecd6 }
.open, .close, .mark, .release { stroke: #6f4aa3; fill: #e5daf3 }
.collect { stroke: #a8691a; fill: #f7e4c3 }
.refused { stroke: #c5221f; fill: #ffffff }
.unfinished { stroke-dasharray: 4 3; fill-opacity: 0.4 }
.label, .answer { paint-order: stroke; stroke: #f6f8fa; stroke-width: 4px }
.answer { font-weight: bold }
.wrong { fill: #c5221f }
.link { stroke: #24292f; stroke-width: 1.2; stroke-dasharray: 2 3 }
.tick { stroke: #57606a; stroke-width: 1.2 }
.freed { fill: #a8691a }
.slot { font-size: 10px; fill: #a8691a; text-anchor: middle }
.effect { fill: #24292f }
.place { font-size: 10px; font-weight: bold; fill: #ffffff; text-anchor: middle }
";

/// Draws a sign at a left edge and an upper edge.
type Sign = fn(&mut Formatter, usize, usize) -> fmt::Result;

const LEGEND: [&[(Sign, &str)]; 2] = [
    &[
        (|f, x, y| rect(f, "bar", x, y, SIGN, BAR, 4), "operation, from its begin to its end"),
        (|f, x, y| marker(f, x + SIGN / 2, y, 1), "its effect, and its place in the order"),
        (|f, x, y| link(f, x + SIGN / 2, y, y + BAR), "effect by another worker's step"),
    ],
    &[
        (|f, x, y| rect(f, "bar unfinished", x, y, SIGN, BAR, 4), "unfinished"),
        (|f, x, y| rect(f, "bar refused", x, y, SIGN, BAR, 4), "refused"),
        (|f, x, y| tick(f, x + SIGN / 2, y - 12), "step"),
        (|f, x, y| diamond(f, x + SIGN / 2, y), "step that frees a slot, with its number"),
        (|f, x, y| snapshot(f, x, x + SIGN, y), "snapshot open"),
        (|f, x, y| rect(f, "held", x, y + 2, SIGN, BAR - 4, 2), "mark held"),
    ],
];

/// An order with what breaks it, if anything does. `Display` writes the SVG.
#[derive(Clone, Debug)]
pub struct Timeline<'a> {
    order: &'a Order,
    violation: Option<&'a Violation>,
    /// For each operation, the record at which its worker begins the next one.
    next: Vec<Option<usize>>,
    /// The marks that ever held a time, lowest first: they have lanes.
    marks: Vec<u16>,
    /// Records that are drawn.
    records: usize,
    /// The width of each.
    column: usize,
    /// The width of the page.
    width: usize,
}

impl Display for Timeline<'_> {
    fn fmt(&self, f: &mut Formatter) -> fmt::Result {
        let (width, height) = (self.width, self.base() + BOTTOM);
        writeln!(f, r#"<svg xmlns="http://www.w3.org/2000/svg" role="img""#)?;
        writeln!(f, r#"width="{width}" height="{height}" viewBox="0 0 {width} {height}">"#)?;
        writeln!(f, "<title>The order of demand 3</title>\n<style>\n{STYLE}</style>")?;
        rect(f, "page", 0, 0, width, height, 6)?;
        self.write_heading(f)?;
        self.write_lanes(f)?;
        self.write_snapshots(f)?;
        self.write_marks(f)?;
        self.write_links(f)?;
        for (operation, next) in self.order.operations.iter().zip(&self.next) {
            self.write_operation(f, operation, *next)?;
        }
        self.write_steps(f)?;
        self.write_places(f)?;
        self.write_legend(f)?;
        writeln!(f, "</svg>")
    }
}

impl<'a> Timeline<'a> {
    pub fn new(order: &'a Order, violation: Option<&'a Violation>) -> Timeline<'a> {
        let mut begins = vec![None; usize::from(order.workers)];
        let last_first = order.operations.iter().rev();
        let mut next: Vec<Option<usize>> =
            last_first.map(|o| begins[usize::from(o.worker)].replace(o.begin)).collect();
        next.reverse();
        let marks: BTreeSet<u16> = order.held.iter().map(|held| held.mark).collect();
        let marks = marks.into_iter().collect();
        // Following stops at some violations: they have a column too.
        let records = order.records.max(violation.map_or(0, |violation| violation.record + 1));
        let mut timeline = Timeline { order, violation, next, marks, records, column: 0, width: 0 };
        timeline.column = timeline.column_width();
        timeline.width = timeline.page_width();
        timeline
    }

    /// Wide enough for every label before its worker's next one, within the bounds; short files
    /// fill the page.
    fn column_width(&self) -> usize {
        let labels =
            self.order.operations.iter().zip(&self.next).filter_map(|(operation, next)| {
                Some(labels_width(operation).div_ceil((*next)? - operation.begin))
            });
        let page = (MIN_WIDTH - LEFT - MARGIN) / self.records.max(1);
        labels.max().unwrap_or(0).max(page).clamp(MIN_COLUMN, MAX_COLUMN)
    }

    /// Its lanes are wide enough for the records and for every worker's last label.
    fn page_width(&self) -> usize {
        let operations = self.order.operations.iter().zip(&self.next);
        let last = operations.filter(|(_, next)| next.is_none());
        let labels =
            last.map(|(operation, _)| self.left(operation.begin) + labels_width(operation));
        let lanes = labels.max().unwrap_or(0).max(self.left(self.records));
        MIN_WIDTH.max(lanes + MARGIN)
    }

    /// The right edge of the lanes.
    fn right(&self) -> usize {
        self.width - MARGIN
    }

    /// The left edge of a record's column.
    fn left(&self, record: usize) -> usize {
        LEFT + record * self.column
    }

    fn middle(&self, record: usize) -> usize {
        self.left(record) + (self.column - GAP) / 2
    }

    /// The lower edge of the lanes.
    fn base(&self) -> usize {
        self.mark_lane(self.marks.len())
    }

    /// The upper edge of a mark's lane, below those of the workers; the marks are counted from 0.
    fn mark_lane(&self, place: usize) -> usize {
        lane(self.order.workers) + place * MARK_LANE
    }

    fn write_heading(&self, f: &mut Formatter) -> fmt::Result {
        let (verdict, class, line) = match self.violation {
            None => ("accepted", "summary", self.order.to_string()),
            Some(violation) => ("not accepted", "wrong", violation.to_string()),
        };
        text(f, "heading", MARGIN, 25, &format!("The order of demand 3: {verdict}"))?;
        text(f, class, MARGIN, 45, &shortened(&line, self.right() - MARGIN))
    }

    /// Lanes with their workers, and the numbers of the records below them.
    fn write_lanes(&self, f: &mut Formatter) -> fmt::Result {
        for worker in 0..self.order.workers {
            rect(f, "lane", LEFT, lane(worker), self.right() - LEFT, LANE - GAP, 3)?;
            text(f, "worker", MARGIN, bar(worker) + 14, &format!("worker {worker}"))?;
        }
        for (place, mark) in self.marks.iter().enumerate() {
            let y = self.mark_lane(place);
            rect(f, "lane", LEFT, y, self.right() - LEFT, MARK_LANE - GAP, 3)?;
            text(f, "worker", MARGIN, y + 15, &format!("mark {mark}"))?;
        }
        let base = self.base();
        text(f, "worker", MARGIN, base + 12, "record")?;
        for record in (0..self.records).step_by(5) {
            let x = self.middle(record);
            path(f, "grid", &format!("M{x} {TOP}V{base}"))?;
            text(f, "record", x, base + 12, &record.to_string())?;
        }
        match self.violation.map(|violation| self.middle(violation.record)) {
            Some(x) => path(f, "violation", &format!("M{x} {TOP}V{base}")),
            None => Ok(()),
        }
    }

    /// A snapshot is open from the step that announces its time to the step of its close.
    fn write_snapshots(&self, f: &mut Formatter) -> fmt::Result {
        let mut announced = vec![None; usize::from(self.order.workers)];
        for step in &self.order.steps {
            let Operation { worker, action, .. } = self.order.operations[step.operation];
            let x = self.middle(step.record);
            match (action, step.answer) {
                (Action::Open, Answer::Going) => announced[usize::from(worker)] = Some(x),
                (Action::Close, Answer::Done) => {
                    if let Some(from) = announced[usize::from(worker)].take() {
                        snapshot(f, from, x, bar(worker))?;
                    }
                }
                _ => {}
            }
        }
        for (worker, from) in (0..).zip(announced) {
            if let Some(from) = from {
                snapshot(f, from, self.left(self.records), bar(worker))?;
            }
        }
        Ok(())
    }

    /// A mark is held from its step to the one of its release.
    fn write_marks(&self, f: &mut Formatter) -> fmt::Result {
        for held in &self.order.held {
            let place = self.marks.binary_search(&held.mark).unwrap_or_default();
            let (x, y) = (self.middle(held.from), self.mark_lane(place) + 3);
            let end = held.until.map_or(self.left(self.records), |record| self.middle(record));
            rect(f, "held", x, y, end - x, MARK_LANE - GAP - 6, 2)?;
            let words = format!("time {} of worker {}", held.time, held.worker);
            text(f, "kept", x + 5, y + 12, &shortened(&words, (end - x).saturating_sub(8)))?;
        }
        Ok(())
    }

    /// From the worker whose step was an operation's effect to the operation, if it is another's.
    fn write_links(&self, f: &mut Formatter) -> fmt::Result {
        let Order { operations, steps, .. } = self.order;
        for Operation { worker, effect, .. } in operations {
            let Some(record) = *effect else { continue };
            let Ok(step) = steps.binary_search_by_key(&record, |step| step.record) else {
                continue;
            };
            let by = operations[steps[step].operation].worker;
            if by != *worker {
                link(f, self.middle(record), bar(by) + BAR / 2, bar(*worker) + BAR / 2)?;
            }
        }
        Ok(())
    }

    /// The bar with its label above it and its answer below.
    fn write_operation(
        &self,
        f: &mut Formatter,
        operation: &Operation,
        next: Option<usize>,
    ) -> fmt::Result {
        let kind = classes(operation.action);
        let (x, y) = (self.left(operation.begin), bar(operation.worker));
        let width = |end| self.left(end + 1) - x - GAP;
        match operation.outcome {
            Outcome::Finished { record, .. } => {
                rect(f, &format!("bar {kind}"), x, y, width(record), BAR, 4)?;
            }
            Outcome::Refused { record, .. } => rect(f, "bar refused", x, y, width(record), BAR, 4)?,
            Outcome::Unfinished => {
                let (end, base) = (self.left(self.records), y + BAR);
                let line = format!("M{end} {y}H{x}V{base}H{end}");
                path(f, &format!("bar {kind} unfinished"), &line)?;
            }
        }
        let room = next.map_or(self.right(), |next| self.left(next)) - x - GAP;
        text(f, "label", x, y - 7, &shortened(&label(operation), room))?;
        match answer(operation) {
            (_, words) if words.is_empty() => Ok(()),
            (class, words) => text(f, class, x, y + BAR + 16, &shortened(&words, room)),
        }
    }

    fn write_steps(&self, f: &mut Formatter) -> fmt::Result {
        for step in &self.order.steps {
            let y = bar(self.order.operations[step.operation].worker);
            let x = self.middle(step.record);
            match step.answer {
                Answer::Freed(slot) => {
                    diamond(f, x, y)?;
                    text(f, "slot", x, y + BAR + 15, &slot.to_string())?;
                }
                _ => tick(f, x, y)?,
            }
        }
        Ok(())
    }

    fn write_places(&self, f: &mut Formatter) -> fmt::Result {
        let placed = self.order.sequence.iter().map(|&index| &self.order.operations[index]);
        for (place, operation) in (1..).zip(placed) {
            if let Some(record) = operation.effect {
                marker(f, self.middle(record), bar(operation.worker), place)?;
            }
        }
        Ok(())
    }

    fn write_legend(&self, f: &mut Formatter) -> fmt::Result {
        for (row, signs) in LEGEND.iter().enumerate() {
            let (mut x, y) = (MARGIN, self.base() + 26 + 26 * row);
            for (sign, words) in *signs {
                sign(f, x, y)?;
                text(f, "legend", x + SIGN + 6, y + 14, words)?;
                x += SIGN + 6 + text_width(words) + MARGIN;
            }
        }
        Ok(())
    }
}

/// The upper edge of a worker's lane.
fn lane(worker: u8) -> usize {
    TOP + usize::from(worker) * LANE
}

/// The upper edge of a worker's bars.
fn bar(worker: u8) -> usize {
    lane(worker) + BAR_TOP
}

fn kind(action: Action) -> &'static str {
    match action {
        Action::Put { .. } => "put",
        Action::Open => "open",
        Action::Read { .. } => "read",
        Action::Close => "close",
        Action::Get { .. } => "get",
        Action::Collect => "collect",
        Action::Total { .. } => "total",
        Action::Mark { .. } => "mark",
        Action::Release { .. } => "release",
        Action::Marked { .. } => "marked",
    }
}

/// The classes of its bar: a total is drawn as the reads that it consists of, a marked read as a
/// read.
fn classes(action: Action) -> &'static str {
    match action {
        Action::Total { .. } => "read total",
        Action::Marked { .. } => "read marked",
        action => kind(action),
    }
}

/// An operation in few letters; a put's status is left out where it is read.
fn label(operation: &Operation) -> String {
    let kind = kind(operation.action);
    match operation.action {
        Action::Total { group } => format!("{kind} g{group}"),
        Action::Mark { mark } | Action::Release { mark } => format!("{kind} m{mark}"),
        Action::Marked { register, mark } => format!("{kind} r{register} m{mark}"),
        Action::Put { register, reading: Reading { value, status } } => match status {
            READ => format!("{kind} r{register} = {value}"),
            _ => format!("{kind} r{register} = {value} {status}"),
        },
        Action::Read { register } | Action::Get { register } => format!("{kind} r{register}"),
        Action::Open | Action::Close | Action::Collect => kind.to_string(),
    }
}

/// The class and the words of its answer: none for `done`, of a value the number and its status, and
/// with a wrong one also what plain registers show.
fn answer(operation: &Operation) -> (&'static str, String) {
    match operation.answer() {
        None | Some(Answer::Done) => ("answer", String::new()),
        Some(answer @ Answer::No(_)) => ("answer wrong", answer.to_string()),
        Some(answer) => {
            let words = answer.shown().map_or(answer.to_string(), |shown| shown.to_string());
            match operation.shows() && !operation.answered_by(answer) {
                false => ("answer", words),
                true => ("answer wrong", format!("{words} \u{2260} {}", operation.shown_words())),
            }
        }
    }
}

/// The width of the wider of its label and its answer.
fn labels_width(operation: &Operation) -> usize {
    text_width(&label(operation)).max(text_width(&answer(operation).1)) + GAP
}

/// The width of text in the usual fonts, rather too much than too little.
fn text_width(text: &str) -> usize {
    text.chars().map(|c| if "filrt ,.:;".contains(c) { 5 } else { 8 }).sum()
}

/// The text, or as much of its beginning as fits.
fn shortened(text: &str, room: usize) -> String {
    if text_width(text) <= room {
        return text.to_string();
    }
    let mut text = text.to_string();
    while text.pop().is_some() && text_width(&text) + 12 > room {}
    text + "\u{2026}"
}

fn rect(
    f: &mut Formatter,
    class: &str,
    x: usize,
    y: usize,
    width: usize,
    height: usize,
    radius: usize,
) -> fmt::Result {
    write!(f, r#"<rect class="{class}" x="{x}" y="{y}" "#)?;
    writeln!(f, r#"width="{width}" height="{height}" rx="{radius}"/>"#)
}

fn path(f: &mut Formatter, class: &str, line: &str) -> fmt::Result {
    writeln!(f, r#"<path class="{class}" d="{line}"/>"#)
}

fn text(f: &mut Formatter, class: &str, x: usize, y: usize, words: &str) -> fmt::Result {
    let words = words.replace('&', "&amp;").replace('<', "&lt;").replace('>', "&gt;");
    writeln!(f, r#"<text class="{class}" x="{x}" y="{y}">{words}</text>"#)
}

// Signs on a bar, by their middle and the bar's upper edge.

fn marker(f: &mut Formatter, x: usize, y: usize, place: usize) -> fmt::Result {
    let place = place.to_string();
    let width = 16.max(6 + 7 * place.len());
    rect(f, "effect", x - width / 2, y + 2, width, BAR - 4, 8)?;
    text(f, "place", x, y + 14, &place)
}

fn tick(f: &mut Formatter, x: usize, y: usize) -> fmt::Result {
    path(f, "tick", &format!("M{x} {}v5", y + BAR))
}

fn diamond(f: &mut Formatter, x: usize, y: usize) -> fmt::Result {
    path(f, "freed", &format!("M{x} {}l6 6l-6 6l-6 -6z", y + BAR / 2 - 6))
}

fn link(f: &mut Formatter, x: usize, from: usize, to: usize) -> fmt::Result {
    path(f, "link", &format!("M{x} {from}V{to}"))
}

fn snapshot(f: &mut Formatter, from: usize, to: usize, y: usize) -> fmt::Result {
    path(f, "snapshot", &format!("M{from} {}H{to}", y + BAR / 2))
}
