//! The order of demand 3 as text: a line for each operation.

use crate::answer::Refusal;
use crate::list::Row;
use crate::order::{Action, Held, Operation, Order, Outcome, Violation};
use std::collections::BTreeSet;
use std::fmt::{self, Display, Formatter};

const MEANING: &str = "\
One order of the operations, each between its begin and its end. Records are numbered from 0, as in
the log.

  place                 the operation's place in the order
  begin                 the record that began it
  effect                the record at which it takes its place, by its own worker's step or another's
  end                   the record of its last step, - where the records end before
  answer                what the log says at its end
";

/// Lines are not longer than this.
const WIDTH: usize = 100;

/// The sentences that depend on which operations there are.
struct Sentences {
    totals: bool,
    marked: bool,
    /// Is there one for which no value is shown?
    without: bool,
}

impl Sentences {
    /// The operations that plain registers show something for, with this before each of them.
    fn showing(&self, article: &str, and: &str) -> String {
        let all =
            [("get", true), ("read", true), ("marked read", self.marked), ("total", self.totals)];
        let mut names = all.iter().filter(|(_, there)| *there).map(|(name, _)| name).peekable();
        let mut words = String::new();
        while let Some(name) = names.next() {
            words += &match (words.is_empty(), names.peek()) {
                (true, _) => format!("{article}{name}"),
                (_, Some(_)) => format!(", {article}{name}"),
                (_, None) => format!(" {and} {article}{name}"),
            };
        }
        words
    }

    /// The meaning of the last column.
    fn shown(&self) -> String {
        let showing = self.showing("a ", "or");
        let without = match self.without {
            true => "; no value before the first put",
            false => "",
        };
        let words = format!(
            "the value and status that {showing} finds in plain registers, which are fed the \
             operations in this order{without}"
        );
        wrapped("  plain registers show  ", 24, &words)
    }

    fn accepted(&self) -> String {
        let showing = self.showing("", "and");
        let holders = match self.marked {
            true => "an open snapshot or a held mark",
            false => "an open snapshot",
        };
        let without = match self.without {
            true => ", `none` where that is no value",
            false => "",
        };
        let words = format!(
            "every finished {showing} answered what plain registers show{without}. No version was \
             freed that {holders} needs, and none twice without its slot being taken in between."
        );
        wrapped("Accepted: ", 0, &words)
    }
}

/// The words after this beginning, in lines that are indented so far.
fn wrapped(beginning: &str, indent: usize, words: &str) -> String {
    let mut text = beginning.to_string();
    let mut width = beginning.len();
    for word in words.split(' ') {
        if width + word.len() > WIDTH {
            text.truncate(text.trim_end().len());
            text += &format!("\n{:indent$}", "");
            width = indent;
        }
        text += word;
        text.push(' ');
        width += word.len() + 1;
    }
    text.trim_end().to_string()
}

/// An order with what breaks it, if anything does. `Display` writes the text.
#[derive(Clone, Copy, Debug)]
pub struct Listing<'a> {
    order: &'a Order,
    violation: Option<&'a Violation>,
}

impl<'a> Listing<'a> {
    pub fn new(order: &'a Order, violation: Option<&'a Violation>) -> Listing<'a> {
        Listing { order, violation }
    }
}

impl Display for Listing<'_> {
    fn fmt(&self, f: &mut Formatter) -> fmt::Result {
        let Order { operations, sequence, groups, held, .. } = self.order;
        let totals: BTreeSet<u16> = operations.iter().filter_map(group_of).collect();
        let marked = operations.iter().any(|o| matches!(o.action, Action::Marked { .. }));
        let marked = marked || !held.is_empty();
        let mut ordered = sequence.iter().map(|&index| &operations[index]);
        let without = ordered.any(|o| o.shows() && o.shown.is_none());
        let sentences = Sentences { totals: !totals.is_empty(), marked, without };
        writeln!(f, "{MEANING}{}\n", sentences.shown())?;
        let in_order = (1..).zip(sequence).map(|(place, &index)| placed(place, &operations[index]));
        write_columns(f, PLACED, "><>>>><<", in_order)?;

        let mut others = operations.iter().filter(|o| o.effect.is_none()).map(left_out).peekable();
        if others.peek().is_some() {
            writeln!(f, "\nNot in the order:\n")?;
            write_columns(f, LEFT_OUT, "<>>><", others)?;
        }

        if !totals.is_empty() {
            writeln!(f, "\nTotals:\n")?;
            let rows = totals.iter().map(|&group| summed(group, groups.rows(group)));
            write_columns(f, SUMMED, "><", rows)?;
        }

        if !held.is_empty() {
            writeln!(f, "\nMarks:\n")?;
            write_columns(f, KEPT, ">>>>>", held.iter().map(kept))?;
        }

        writeln!(f, "\n{}", self.order)?;
        match self.violation {
            None => writeln!(f, "{}", sentences.accepted()),
            // Following stops at a slot that must not be freed.
            Some(violation) if violation.record == self.order.records => {
                writeln!(f, "Not accepted, and followed no further: {violation}")
            }
            Some(violation) => writeln!(f, "Not accepted: {violation}"),
        }
    }
}

const PLACED: [&str; 8] =
    ["place", "operation", "worker", "begin", "effect", "end", "answer", "plain registers show"];

/// An operation in the order.
fn placed(place: usize, operation: &Operation) -> [String; 8] {
    [
        place.to_string(),
        operation.action.to_string(),
        operation.worker.to_string(),
        operation.begin.to_string(),
        or_dash(operation.effect),
        or_dash(operation.end()),
        or_dash(operation.answer()),
        if operation.shows() { operation.shown_words() } else { String::new() },
    ]
}

const LEFT_OUT: [&str; 5] = ["operation", "worker", "begin", "end", "why"];

/// An operation that is not in the order.
fn left_out(operation: &Operation) -> [String; 5] {
    let why = match operation.outcome {
        Outcome::Refused { refusal: Refusal::NoFreeSlot, .. } => {
            "refused with 14: every slot is in some register's list"
        }
        Outcome::Refused { refusal: Refusal::Summand, .. } => {
            "refused with 18: a value to be summed is above 999999999999"
        }
        Outcome::Refused { refusal: Refusal::MarkUsed, .. } => "refused with 19: mark in use",
        Outcome::Refused { refusal: Refusal::MarkEmpty, .. } => "refused with 20: mark empty",
        Outcome::Refused { refusal: Refusal::MarkRead, .. } => {
            "refused with 21: a read of the mark runs"
        }
        Outcome::Refused { .. } => "refused with 15: the clock is at its last value",
        Outcome::Unfinished => "unfinished and without effect: counts as not begun",
        Outcome::Finished { .. } => "finished without effect",
    };
    [
        operation.action.to_string(),
        operation.worker.to_string(),
        operation.begin.to_string(),
        or_dash(operation.end()),
        why.to_string(),
    ]
}

/// The group of a total.
fn group_of(operation: &Operation) -> Option<u16> {
    match operation.action {
        Action::Total { group } => Some(group),
        _ => None,
    }
}

const SUMMED: [&str; 2] = ["group", "sum"];

/// A group with its registers.
fn summed(group: u16, rows: &[Row]) -> [String; 2] {
    let mut sum = String::new();
    for Row { minus, register, .. } in rows {
        sum += match (sum.is_empty(), minus) {
            (true, false) => "r",
            (true, true) => "-r",
            (false, false) => " + r",
            (false, true) => " - r",
        };
        sum += &register.to_string();
    }
    [group.to_string(), sum]
}

const KEPT: [&str; 5] = ["mark", "time", "of worker", "held from", "to"];

/// What a mark held, and from which record to which.
fn kept(held: &Held) -> [String; 5] {
    [
        held.mark.to_string(),
        held.time.to_string(),
        held.worker.to_string(),
        held.from.to_string(),
        or_dash(held.until),
    ]
}

fn or_dash(cell: Option<impl Display>) -> String {
    cell.map_or("-".to_string(), |cell| cell.to_string())
}

/// Writes rows under their heads, each column as wide as its widest cell; `>` in `sides` aligns a
/// column to the right.
fn write_columns<const N: usize>(
    f: &mut Formatter,
    heads: [&str; N],
    sides: &str,
    rows: impl Iterator<Item = [String; N]>,
) -> fmt::Result {
    let rows: Vec<[String; N]> = std::iter::once(heads.map(String::from)).chain(rows).collect();
    let widths: [usize; N] =
        std::array::from_fn(|column| rows.iter().map(|row| row[column].len()).max().unwrap_or(0));
    for row in &rows {
        let mut line = String::new();
        for ((cell, width), side) in row.iter().zip(widths).zip(sides.chars()) {
            line += &match side {
                '>' => format!("  {cell:>width$}"),
                _ => format!("  {cell:<width$}"),
            };
        }
        writeln!(f, "{}", line.trim_end())?;
    }
    Ok(())
}
