//! Writes a seeded random script to standard output, and its list and its table to files.

use reference::generate::{script, Kind, Script};
use std::io::{self, ErrorKind, Write};
use std::process::ExitCode;

fn main() -> ExitCode {
    let arguments: Vec<String> = std::env::args().skip(1).collect();
    let (parsed, files) = match &arguments[..] {
        [kind, seed, count, files @ ..] if files.len() <= 2 => {
            (Kind::named(kind).zip(seed.parse().ok()).zip(count.parse().ok()), files)
        }
        _ => (None, &[][..]),
    };
    let Some(((kind, seed), count)) = parsed else {
        let kinds = Kind::ALL.map(|(_, name)| name).join(" ");
        eprintln!("usage: generate KIND SEED COUNT [LIST [TABLE]]\nkinds: {kinds}");
        return ExitCode::FAILURE;
    };
    match write(script(kind, seed, count), files) {
        Err(error) if error.kind() != ErrorKind::BrokenPipe => {
            eprintln!("generate: {error}");
            ExitCode::FAILURE
        }
        _ => ExitCode::SUCCESS,
    }
}

fn write(Script { records, list, table }: Script, files: &[String]) -> io::Result<()> {
    for (name, contents) in files.iter().zip([list, table]) {
        std::fs::write(name, contents)?;
    }
    let mut out = io::stdout().lock();
    out.write_all(&records)?;
    out.flush()
}
