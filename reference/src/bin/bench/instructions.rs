//! Instructions as callgrind counts them, where valgrind is installed.

use crate::process::Input;
use std::path::Path;
use std::process::{Command, Stdio};

/// How many instructions a program takes on a file.
pub fn count(program: &Path, input: &Input) -> Result<u64, String> {
    let output = Command::new("valgrind")
        .args(["--tool=callgrind", "--callgrind-out-file=/dev/null"])
        .arg(program)
        .args(&input.arguments)
        .stdin(input.open()?)
        .stdout(Stdio::null())
        .output()
        .map_err(|error| format!("valgrind: {error}"))?;
    let told = String::from_utf8_lossy(&output.stderr);
    let collected = told.lines().find_map(|line| line.split_once("Collected : "));
    match collected.and_then(|(_, number)| number.trim().parse().ok()) {
        Some(number) if output.status.success() => Ok(number),
        _ => Err(format!("valgrind fails on {} with {}", program.display(), input.file.display())),
    }
}
