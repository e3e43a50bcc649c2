//! Prints the order that demand 3 promises for a record file, its log, the list that came with it and
//! the table given before, as a listing or, with `--svg`, as a timeline.

use reference::listing::Listing;
use reference::order::Claim;
use reference::timeline::Timeline;
use reference::{log, order};
use std::error::Error;
use std::io::{self, ErrorKind, Write};
use std::process::ExitCode;

fn main() -> ExitCode {
    match run() {
        Ok(()) => ExitCode::SUCCESS,
        Err(error) => {
            eprintln!("order: {error}");
            ExitCode::FAILURE
        }
    }
}

fn run() -> Result<(), Box<dyn Error>> {
    let arguments: Vec<String> = std::env::args().skip(1).collect();
    let (svg, files) = match &arguments[..] {
        [option, files @ ..] if option == "--svg" => (true, files),
        files => (false, files),
    };
    let (records, log_file, lent) = match files {
        [records, log_file, lent @ ..] if lent.len() <= 2 => (records, log_file, lent),
        _ => return Err("usage: order [--svg] RECORDS LOG [LIST [TABLE]]".into()),
    };
    let read = |name: &String| std::fs::read(name).map_err(|error| format!("{name}: {error}"));
    let file = read(records)?;
    let list = lent.first().map_or(Ok(Vec::new()), read)?;
    let table = lent.get(1).map_or(Ok(Vec::new()), read)?;
    let text = std::fs::read_to_string(log_file).map_err(|error| format!("{log_file}: {error}"))?;
    let answers = log::parse_log(&text).map_err(|error| format!("{log_file}: {error}"))?;
    let (order, violation) = order::examine(&file, &list, &table, &answers);
    let violation = violation.as_ref();
    if let Some(unfit) = violation.filter(|violation| violation.claim == Claim::Fit) {
        // A record's answer is the log line with its number.
        let (line, reason) = (unfit.record, &unfit.sentence);
        return Err(format!("{log_file}: log line {line} does not fit {records}: {reason}").into());
    }
    let output = if svg {
        Timeline::new(&order, violation).to_string()
    } else {
        Listing::new(&order, violation).to_string()
    };
    let mut out = io::stdout().lock();
    match out.write_all(output.as_bytes()).and_then(|()| out.flush()) {
        Err(error) if error.kind() != ErrorKind::BrokenPipe => return Err(error.into()),
        _ => {}
    }
    match violation {
        Some(violation) => Err(format!("not accepted: {violation}").into()),
        None => Ok(()),
    }
}
