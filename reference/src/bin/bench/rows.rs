//! `rows` and its second program on the same files of rows, one in each form: their outputs are compared
//! with the rows in the other form, then they are timed, or their instructions are counted.

use crate::instructions;
use crate::measured::Figures;
use crate::process::{self, Input, Times};
use crate::tables::ratio;
use crate::{machine, Options};
use reference::bcd::Way;
use reference::buffers::valid;
use reference::generate::Random;
use reference::markdown::Table;
use std::fs;
use std::path::Path;
use std::process::Command;

/// Rows in the longest buffer that the programs take.
pub const MOST: usize = 262_144;

/// A file of rows and what is found out about it.
struct Measured {
    name: String,
    rows: usize,
    input: Input,
    times: [Vec<Times>; 2],
    instructions: [u64; 2],
}

/// A file of rows to be moved one way, on which both programs write the rows in the other form.
fn prepare(options: &Options, way: Way, rows: usize) -> Result<Measured, String> {
    let name = if rows == 0 { format!("{}, no rows", way.name()) } else { way.name().to_string() };
    let file = options.directory.join(format!("rows-{}-{rows}", way.name()));
    let [begin, end] = valid(way, rows, &mut Random::new(options.seed));
    let made = fs::create_dir_all(&options.directory).and_then(|()| fs::write(&file, begin));
    made.map_err(|error| format!("{}: {error}", file.display()))?;
    let input = Input { file, arguments: vec![way.name().into()] };
    for program in &options.programs {
        if written(program, &input)? != end {
            let (program, file) = (program.display(), input.file.display());
            return Err(format!("{program} writes other rows for {file}"));
        }
    }
    Ok(Measured { name, rows, input, times: Default::default(), instructions: [0; 2] })
}

/// What a program writes for a file.
fn written(program: &Path, input: &Input) -> Result<Vec<u8>, String> {
    let output = Command::new(program).args(&input.arguments).stdin(input.open()?).output();
    Ok(output.map_err(|error| format!("{}: {error}", program.display()))?.stdout)
}

pub fn run(options: &Options) -> Result<(), String> {
    let Options { records: rows, rounds, seed, .. } = *options;
    let files = [(Way::ToNew, rows), (Way::ToOld, rows), (Way::ToNew, 0)];
    let prepared = files.map(|(way, rows)| prepare(options, way, rows));
    let mut all = prepared.into_iter().collect::<Result<Vec<_>, _>>()?;
    if options.instructions {
        for Measured { input, instructions, .. } in &mut all {
            for (program, count) in options.programs.iter().zip(instructions) {
                *count = instructions::count(program, input)?;
            }
        }
        println!("Instructions by callgrind; {rows} rows a file, seed {seed}.");
        println!("Both programs write the same rows.\n\n{}", counts(&all));
        return Ok(());
    }
    for round in 0..rounds {
        for Measured { input, times, .. } in &mut all {
            // Neither program is always the first.
            for program in [round % 2, 1 - round % 2] {
                times[program].push(process::time(&options.programs[program], input)?);
            }
        }
    }
    println!("{}; {rows} rows a file, seed {seed}, {rounds} rounds.", machine());
    println!("Both programs write the same rows.\n");
    println!("Time in µs a run, wall clock; cpu is the median of user and system time. Without rows it is");
    println!("what a run takes to start and end.\n\n{}", speed(&all));
    Ok(())
}

/// The times of both programs and their ratio.
fn speed(all: &[Measured]) -> Table {
    let mut table = Table::new(&[
        "File",
        "rows best",
        "rows median",
        "second best",
        "second median",
        "ratio of bests",
        "ratio of medians",
        "rows cpu",
        "second cpu",
    ]);
    for Measured { name, times, .. } in all {
        // In µs: as ns by a thousand.
        let [first, second] = [0, 1].map(|program| Figures::of(&times[program], 1000));
        let micros = |time: f64| format!("{time:.0}");
        table.row(vec![
            name.clone(),
            micros(first.best),
            micros(first.median),
            micros(second.best),
            micros(second.median),
            ratio(first.best, second.best),
            ratio(first.median, second.median),
            micros(first.processor),
            micros(second.processor),
        ]);
    }
    table
}

/// The instructions of both programs, in all and for a row, and their ratio.
fn counts(all: &[Measured]) -> Table {
    let mut table = Table::new(&["File", "rows", "second", "rows a row", "second a row", "ratio"]);
    for Measured { name, rows, instructions, .. } in all {
        let [first, second] = instructions.map(|count| count as f64);
        let a_row = |count: f64| match rows {
            0 => "-".to_string(),
            &rows => format!("{:.1}", count / rows as f64),
        };
        table.row(vec![
            name.clone(),
            format!("{first:.0}"),
            format!("{second:.0}"),
            a_row(first),
            a_row(second),
            ratio(first, second),
        ]);
    }
    table
}
