//! Checks demand 3 for a record file, its log, the list that came with it and the table given before.

use reference::{log, order};
use std::process::ExitCode;

fn main() -> ExitCode {
    match run() {
        Ok(summary) => {
            println!("{summary}");
            ExitCode::SUCCESS
        }
        Err(error) => {
            eprintln!("check-order: {error}");
            ExitCode::FAILURE
        }
    }
}

fn run() -> Result<String, Box<dyn std::error::Error>> {
    let arguments: Vec<String> = std::env::args().skip(1).collect();
    let (records, log_file, lent) = match &arguments[..] {
        [records, log_file, lent @ ..] if lent.len() <= 2 => (records, log_file, lent),
        _ => return Err("usage: check-order RECORDS LOG [LIST [TABLE]]".into()),
    };
    let named = |name: &str, error: std::io::Error| format!("{name}: {error}");
    let read = |name: &String| std::fs::read(name).map_err(|error| named(name, error));
    let records = read(records)?;
    let list = lent.first().map_or(Ok(Vec::new()), read)?;
    let table = lent.get(1).map_or(Ok(Vec::new()), read)?;
    let text = std::fs::read_to_string(log_file).map_err(|error| named(log_file, error))?;
    let answers = log::parse_log(&text)?;
    Ok(order::check(&records, &list, &table, &answers)?.to_string())
}
