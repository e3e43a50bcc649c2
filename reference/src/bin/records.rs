//! Turns readable text into a record file, a list or a table, and back; see the module `text` for the forms.

use reference::text;
use std::error::Error;
use std::io::{self, ErrorKind, Read, Write};
use std::process::ExitCode;

const USAGE: &str =
    "usage: records pack|unpack|pack-list|unpack-list|pack-table|unpack-table [FILE]";

fn main() -> ExitCode {
    match run() {
        Ok(()) => ExitCode::SUCCESS,
        Err(error) => {
            eprintln!("records: {error}");
            ExitCode::FAILURE
        }
    }
}

fn run() -> Result<(), Box<dyn Error>> {
    let arguments: Vec<String> = std::env::args().skip(1).collect();
    let (command, file) = match &arguments[..] {
        [command] => (command.as_str(), None),
        [command, file] => (command.as_str(), Some(file.as_str())),
        _ => ("", None),
    };
    let name = file.unwrap_or("standard input");
    let input = || input(file).map_err(|error| format!("{name}: {error}"));
    let output = match command {
        "pack" => text::pack(&input()?).map_err(|error| format!("{name}: {error}"))?,
        "unpack" => text::unpack(&input()?).into_bytes(),
        "pack-list" => text::pack_list(&input()?).map_err(|error| format!("{name}: {error}"))?,
        "unpack-list" => text::unpack_list(&input()?).into_bytes(),
        "pack-table" => text::pack_table(&input()?).map_err(|error| format!("{name}: {error}"))?,
        "unpack-table" => text::unpack_table(&input()?).into_bytes(),
        _ => return Err(USAGE.into()),
    };
    let mut out = io::stdout().lock();
    match out.write_all(&output).and_then(|()| out.flush()) {
        Err(error) if error.kind() == ErrorKind::BrokenPipe => Ok(()),
        result => Ok(result.map_err(|error| format!("standard output: {error}"))?),
    }
}

/// The whole file, or standard input.
fn input(file: Option<&str>) -> io::Result<Vec<u8>> {
    let mut bytes = Vec::new();
    match file {
        Some(name) => bytes = std::fs::read(name)?,
        None => drop(io::stdin().lock().read_to_end(&mut bytes)?),
    }
    Ok(bytes)
}
