//! Reads records from standard input and prints the log. The first argument names the file of the list
//! that comes with a setup, the second that of the table of rights that is given before; without them, or
//! without such a file, they are empty. A table that is refused is said on standard error, and leaves all
//! allowed. With `--coverage` before them, counts of what the run reached go to standard error.

use reference::coverage::{Coverage, Observer};
use reference::fault::Right;
use reference::log::Failure;
use reference::store::MAX_SLOTS;
use reference::{list, log, rights, Hub};
use std::ffi::{OsStr, OsString};
use std::fs::File;
use std::io::{self, ErrorKind, Read};
use std::path::Path;
use std::process::ExitCode;

fn main() -> ExitCode {
    let mut arguments = std::env::args_os().skip(1).peekable();
    let coverage = arguments.next_if(|first| first == OsStr::new("--coverage")).is_some();
    let lent = [list::MAX_LENGTH, rights::MAX_LENGTH].map(|most| read_lent(arguments.next(), most));
    let [list, table] = match lent {
        [Ok(list), Ok(table)] => [list, table],
        [Err(sentence), _] | [_, Err(sentence)] => return failed(&sentence),
    };
    let sentence = match run(&list, &table, coverage) {
        Ok(()) => return ExitCode::SUCCESS,
        // Whoever read the log has seen enough.
        Err(Failure::Write(error)) if error.kind() == ErrorKind::BrokenPipe => {
            return ExitCode::SUCCESS
        }
        Err(Failure::Write(error)) => format!("cannot write standard output: {error}"),
        Err(Failure::Read(error)) => format!("cannot read standard input: {error}"),
    };
    failed(&sentence)
}

fn failed(sentence: &str) -> ExitCode {
    eprintln!("reference-hublog: {sentence}");
    ExitCode::FAILURE
}

/// What the file has that an argument names; an error is a sentence.
fn read_lent(argument: Option<OsString>, most: usize) -> Result<Vec<u8>, String> {
    let Some(name) = argument else { return Ok(Vec::new()) };
    let name = Path::new(&name);
    read(name, most).map_err(|error| format!("cannot read {}: {error}", name.display()))
}

/// What a file has, nothing where there is no such file. One byte more than the longest has is read at
/// most: that is enough to be none.
fn read(name: &Path, most: usize) -> io::Result<Vec<u8>> {
    let file = match File::open(name) {
        Err(error) if error.kind() == ErrorKind::NotFound => return Ok(Vec::new()),
        file => file?,
    };
    let mut contents = Vec::new();
    file.take(most as u64 + 1).read_to_end(&mut contents)?;
    Ok(contents)
}

/// Gives a hub its table. A refused one is said, and leaves all allowed.
fn give<O: Observer>(hub: &mut Hub<Right, O>, table: &[u8]) {
    if let Err(refusal) = hub.give_table(table) {
        eprintln!("reference-hublog: the table is refused: {}", refusal.number());
    }
}

fn run(list: &[u8], table: &[u8], coverage: bool) -> Result<(), Failure> {
    let mut input = io::stdin().lock();
    let mut output = io::stdout().lock();
    if !coverage {
        let mut hub = Hub::new();
        give(&mut hub, table);
        return log::run(&mut hub, list, &mut input, &mut output, |_, _| {});
    }
    let mut hub = Hub::<Right, Coverage>::with_row(usize::from(MAX_SLOTS));
    give(&mut hub, table);
    let result = log::run(&mut hub, list, &mut input, &mut output, |hub, answer| {
        hub.observer.answered(answer)
    });
    eprint!("{}", hub.observer);
    result
}
