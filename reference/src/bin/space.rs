//! Prints the table of the old versions that are kept; with `--svg`, the plot of one run.

use reference::{plot, space};
use std::process::ExitCode;

fn main() -> ExitCode {
    let arguments: Vec<String> = std::env::args().skip(1).collect();
    match arguments.iter().map(String::as_str).collect::<Vec<_>>()[..] {
        [] => {
            let (table, within) = space::table();
            print!("{table}");
            if !within {
                eprintln!("space: a run kept more than the bound");
                return ExitCode::FAILURE;
            }
        }
        ["--svg"] => print!("{}", plot::svg()),
        _ => {
            eprintln!("usage: space [--svg]");
            return ExitCode::FAILURE;
        }
    }
    ExitCode::SUCCESS
}
