//! A longer run: scripts of every kind, `hublog` against the second program and demand 3.

use hublog_tests::agree;
use reference::coverage::Coverage;
use reference::generate::{script, Kind};
use std::process::ExitCode;

fn main() -> ExitCode {
    let arguments: Vec<u64> =
        std::env::args().skip(1).filter_map(|word| word.parse().ok()).collect();
    let &[seed, count] = &arguments[..] else {
        eprintln!("usage: soak SEED COUNT\nCOUNT scripts of each kind, with seeds from SEED on");
        return ExitCode::FAILURE;
    };
    let mut total = Coverage::default();
    for seed in seed..seed.saturating_add(count) {
        for (kind, name) in Kind::ALL {
            let length = if seed % 16 == 0 { 100_000 } else { 5_000 };
            total.add(&agree(&format!("{name} {seed}"), &script(kind, seed, length)));
        }
        println!("seed {seed}: agreed");
    }
    println!("{total}");
    ExitCode::SUCCESS
}
