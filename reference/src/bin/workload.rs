//! Writes a record file for measuring to standard output.

use reference::workload::Workload;
use std::io::{self, BufWriter, ErrorKind};
use std::process::ExitCode;

fn main() -> ExitCode {
    let arguments: Vec<String> = std::env::args().skip(1).collect();
    let parsed = match &arguments[..] {
        [kind, seed, count] => Workload::named(kind).zip(seed.parse().ok()).zip(count.parse().ok()),
        _ => None,
    };
    let Some(((workload, seed), count)) = parsed else {
        let kinds = Workload::ALL.map(Workload::name).join(" ");
        eprintln!("usage: workload KIND SEED COUNT\nkinds: {kinds}");
        return ExitCode::FAILURE;
    };
    let mut output = BufWriter::with_capacity(1 << 16, io::stdout().lock());
    match workload.write(seed, count, &mut output) {
        Err(error) if error.kind() != ErrorKind::BrokenPipe => {
            eprintln!("workload: {error}");
            ExitCode::FAILURE
        }
        _ => ExitCode::SUCCESS,
    }
}
