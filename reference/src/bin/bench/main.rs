//! Times two programs on the same record files and prints the tables of docs/PERFORMANCE.md.
//! First the logs of both are compared on every file; where they differ, the run fails. With `--rows` the
//! programs are those that move stored rows.

mod compare;
mod instructions;
mod measured;
mod process;
mod rows;
mod tables;

use compare::compare;
use measured::Measured;
use process::Input;
use reference::workload::{Topic, Workload};
use std::fs::{self, File};
use std::io::{self, BufWriter, Write};
use std::path::PathBuf;
use std::process::ExitCode;

const USAGE: &str =
    "usage: bench HUBLOG SECOND DIRECTORY [--records N] [--rounds N] [--seed N] [--instructions]
       bench --rows ROWS SECOND DIRECTORY [--records N] [--rounds N] [--seed N] [--instructions]
HUBLOG and SECOND are the two programs, DIRECTORY is where the record files, lists and tables go;
with --rows they move stored rows, N of them, at most 262144;
with --instructions callgrind counts, and nothing is timed";

/// The tables of growth, each with a sentence. Growth is that of the bests.
const GROWTH: [(Topic, &str); 3] = [
    (Topic::Slots, "Growth with N: the same script (P 2, V 4) at each N."),
    (
        Topic::Workers,
        "Growth with P (V 64, N 2048): plain is one worker that puts without a snapshot, some is all
workers that put under snapshots, renewed now and then.",
    ),
    (
        Topic::Queue,
        "Growth with the queue (V 256, N 2048): all of 1 to 4 workers put; empty is without a snapshot,
held with a snapshot of each worker that stays open. Growth is from empty to held.",
    ),
];

struct Options {
    /// `hublog` and the second program.
    programs: [PathBuf; 2],
    directory: PathBuf,
    records: usize,
    rounds: usize,
    seed: u64,
    /// Count instructions and time nothing.
    instructions: bool,
    /// The programs move stored rows.
    rows: bool,
}

impl Options {
    fn parse(mut arguments: impl Iterator<Item = String>) -> Option<Options> {
        let mut paths = Vec::new();
        let (mut records, mut rounds, mut seed) = (None, None, 1);
        let (mut instructions, mut rows) = (false, false);
        while let Some(argument) = arguments.next() {
            let mut number = || arguments.next()?.parse().ok();
            match argument.as_str() {
                "--records" => records = Some(number().filter(|&n| n > 0)?),
                "--rounds" => rounds = Some(number().filter(|&n| n > 0)?),
                "--seed" => seed = number()? as u64,
                "--instructions" => instructions = true,
                "--rows" => rows = true,
                option if option.starts_with("--") => return None,
                _ => paths.push(PathBuf::from(argument)),
            }
        }
        let [hublog, second, directory] = paths.try_into().ok()?;
        let (most, usual) = match (rows, instructions) {
            (true, _) => (rows::MOST, rows::MOST),
            (false, true) => (usize::MAX, 100_000),
            (false, false) => (usize::MAX, 10_000_000),
        };
        let records = records.or(Some(usual)).filter(|&records| records <= most)?;
        // A run on rows takes some milliseconds.
        let rounds = rounds.unwrap_or(if rows { 200 } else { 5 });
        let programs = [hublog, second];
        Some(Options { programs, directory, records, rounds, seed, instructions, rows })
    }

    /// A workload's file, and those of its list and its table where it has one; without a list the
    /// table's stands behind an empty one.
    fn input(&self, workload: Workload) -> Input {
        let file = self.directory.join(workload.name());
        let mut arguments = Vec::new();
        if !workload.list(self.seed).is_empty() {
            arguments.push(file.with_extension("list"));
        }
        if !workload.table().is_empty() {
            arguments.resize(1, PathBuf::from("/dev/null"));
            arguments.push(file.with_extension("table"));
        }
        Input { arguments, file }
    }

    /// Makes a workload's file, its list's and its table's, and compares the logs of both programs on it.
    fn prepare(&self, workload: Workload) -> Result<Measured, String> {
        let input = self.input(workload);
        let file = input.file.display();
        eprintln!("comparing the logs of {file}");
        let pools = self.write(workload, &input).map_err(|error| format!("{file}: {error}"))?;
        let logs = compare(&self.programs, &input, self.records)?;
        Ok(Measured {
            workload,
            pools,
            logs,
            times: [Vec::new(), Vec::new()],
            instructions: [0; 2],
        })
    }

    /// Writes a workload's file, its list's and its table's; how many pools are queued, on average?
    fn write(&self, workload: Workload, Input { file, .. }: &Input) -> io::Result<f64> {
        fs::create_dir_all(&self.directory)?;
        let (list, table) = (workload.list(self.seed), workload.table());
        if !list.is_empty() {
            fs::write(file.with_extension("list"), list)?;
        }
        if !table.is_empty() {
            fs::write(file.with_extension("table"), table)?;
        }
        let mut output = BufWriter::with_capacity(1 << 16, File::create(file)?);
        let mut records = workload.records(self.seed);
        let mut pools = 0;
        for _ in 0..self.records {
            output.write_all(&records.next().expect("without end"))?;
            pools += records.store().queue.len();
        }
        output.flush()?;
        Ok(pools as f64 / self.records as f64)
    }

    /// Runs both programs once on every file.
    fn round(&self, round: usize, all: &mut [Measured]) -> Result<(), String> {
        eprintln!("round {} of {}", round + 1, self.rounds);
        for measured in all {
            let input = self.input(measured.workload);
            // Neither program is always the first.
            for program in [round % 2, 1 - round % 2] {
                measured.times[program].push(process::time(&self.programs[program], &input)?);
            }
        }
        Ok(())
    }

    /// Counts the instructions of both programs on every file.
    fn count(&self, all: &mut [Measured]) -> Result<(), String> {
        for Measured { workload, instructions, .. } in all {
            let input = self.input(*workload);
            eprintln!("counting on {}", input.file.display());
            for (program, count) in self.programs.iter().zip(instructions) {
                *count = instructions::count(program, &input)?;
            }
        }
        Ok(())
    }
}

/// The processor, the number of cores and the memory, as Linux tells them.
fn machine() -> String {
    let field = |path: &str, name: &str| {
        let text = fs::read_to_string(path).ok()?;
        let line = text.lines().find(|line| line.starts_with(name))?;
        Some(line.split_once(':')?.1.trim().to_string())
    };
    let processor = field("/proc/cpuinfo", "model name").unwrap_or("unknown processor".into());
    let cores = std::thread::available_parallelism().map_or(0, |cores| cores.get());
    let memory = field("/proc/meminfo", "MemTotal").unwrap_or_default();
    let kib = memory.trim_end_matches(" kB").parse::<f64>().unwrap_or(0.0);
    format!("{processor}, {cores} cores, {:.0} GiB", kib / 1024.0 / 1024.0)
}

/// Those of a topic.
fn of(all: &[Measured], topic: Topic) -> Vec<&Measured> {
    all.iter().filter(|measured| measured.workload.topic() == topic).collect()
}

fn print_times(all: &[Measured], &Options { records, rounds, seed, .. }: &Options) {
    println!("{}; {records} records a file, seed {seed}, {rounds} rounds.", machine());
    println!("The logs of both programs are equal on every file.\n");
    println!("Time in ns a record, wall clock; cpu is the median of user and system time.\n");
    let files = of(all, Topic::Speed);
    println!("{}", tables::speed(&files, records));
    for (topic, title) in GROWTH {
        println!("{title}\n\n{}", tables::growth(&of(all, topic), records));
    }
    println!("Peak memory in KiB.\n\n{}", tables::memory(&files));
    println!("Answers in each file, percent.\n\n{}", tables::answers(&files));
}

fn print_instructions(all: &[Measured], &Options { records, seed, .. }: &Options) {
    println!("Instructions a record, by callgrind; {records} records a file, seed {seed}.");
    println!("The logs of both programs are equal on every file.\n");
    println!("{}", tables::instructions(&of(all, Topic::Speed), records));
    for (topic, title) in GROWTH {
        println!("{title}\n\n{}", tables::instructions(&of(all, topic), records));
    }
}

fn run(options: &Options) -> Result<(), String> {
    if options.rows {
        return rows::run(options);
    }
    let prepared = Workload::ALL.into_iter().map(|workload| options.prepare(workload));
    let mut all = prepared.collect::<Result<Vec<_>, _>>()?;
    if options.instructions {
        options.count(&mut all)?;
        print_instructions(&all, options);
        return Ok(());
    }
    for round in 0..options.rounds {
        options.round(round, &mut all)?;
    }
    print_times(&all, options);
    Ok(())
}

fn main() -> ExitCode {
    let Some(options) = Options::parse(std::env::args().skip(1)) else {
        eprintln!("{USAGE}");
        return ExitCode::FAILURE;
    };
    match run(&options) {
        Ok(()) => ExitCode::SUCCESS,
        Err(error) => {
            eprintln!("bench: {error}");
            ExitCode::FAILURE
        }
    }
}
