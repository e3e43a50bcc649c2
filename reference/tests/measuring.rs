//! The programs that measure, as one runs them. What they print is looked at, no time is.

use reference::workload::Workload;
use std::fs;
use std::path::{Path, PathBuf};
use std::process::{Command, Output};

const HUBLOG: &str = env!("CARGO_BIN_EXE_reference-hublog");
const WORKLOAD: &str = env!("CARGO_BIN_EXE_workload");
const BENCH: &str = env!("CARGO_BIN_EXE_bench");
const ROWS: &str = env!("CARGO_BIN_EXE_reference-rows");
const SPACE: &str = env!("CARGO_BIN_EXE_space");

fn run(program: &str, arguments: &[&str]) -> Output {
    Command::new(program).args(arguments).output().unwrap()
}

fn text(bytes: &[u8]) -> &str {
    std::str::from_utf8(bytes).unwrap()
}

fn directory(name: &str) -> PathBuf {
    PathBuf::from(env!("CARGO_TARGET_TMPDIR")).join(name)
}

#[test]
fn workload_writes_so_many_records() {
    let first = run(WORKLOAD, &["puts", "5", "300"]);
    assert!(first.status.success());
    assert_eq!(first.stdout.len(), 16 * 300);
    assert_eq!(first.stdout, run(WORKLOAD, &["puts", "5", "300"]).stdout);
    let none = run(WORKLOAD, &["none", "5", "300"]);
    assert_eq!(none.status.code(), Some(1));
    assert!(text(&none.stderr).contains("growth-2048"), "{}", text(&none.stderr));
}

#[test]
fn bench_prints_its_tables() {
    let files = directory("bench");
    let options = ["--records", "5000", "--rounds", "2"];
    let output = run(BENCH, &[&[HUBLOG, HUBLOG, files.to_str().unwrap()], &options[..]].concat());
    assert!(output.status.success(), "{}", text(&output.stderr));
    let printed = text(&output.stdout);
    for line in [
        "small (P 2, V 4, N 16)",
        "totals (P 16, V 256, N 2048)",
        "marks (P 16, V 64, N 2048)",
        "uniform (P 16, V 256, N 2048)",
        "growth-2048",
        "plain-16",
        "some-16",
        "held-4",
        "collects",
    ] {
        assert!(printed.contains(&format!("\n| {line} ")), "no {line} in\n{printed}");
    }
    assert!(printed.contains("5000 records a file, seed 1, 2 rounds."), "{printed}");
    assert_eq!(fs::metadata(files.join("reads")).unwrap().len(), 16 * 5000);
    assert_eq!(fs::metadata(files.join("totals.list")).unwrap().len(), 4 * 1024);
    // With the list no total is refused.
    let totals = printed.lines().filter(|line| line.starts_with("| totals ")).last().unwrap();
    assert!(totals.ends_with("   0.0 |"), "{printed}");
    // On the largest hub many registers have no reading yet, and that is no refusal.
    let share = |name: &str, column: usize| -> f64 {
        let line = printed.lines().rfind(|line| line.starts_with(&format!("| {name} ")));
        let cell = line.expect("its line").split('|').nth(column);
        cell.expect("a cell").trim().parse().expect("a share")
    };
    let (none, no) = (7, 9);
    assert!(printed.contains("|  at | value | none | done | "), "{printed}");
    assert!(share("large", none) > 1.0 && share("uniform", no) > 99.0, "{printed}");
    assert_eq!((share("large", no), share("uniform", none)), (0.0, 0.0), "{printed}");
}

#[test]
fn bench_fails_where_the_logs_differ() {
    let files = directory("bench-differs");
    // Writes back the records.
    let output = run(BENCH, &[HUBLOG, "cat", files.to_str().unwrap(), "--records", "5000"]);
    assert_eq!(output.status.code(), Some(1));
    assert!(text(&output.stderr).contains("the logs differ near record 0"));
    assert_eq!(output.stdout, b"");
    assert_eq!(run(BENCH, &[HUBLOG, HUBLOG]).status.code(), Some(1));
    assert_eq!(run(BENCH, &[HUBLOG, HUBLOG, "x", "--rounds", "0"]).status.code(), Some(1));
}

/// A stand-in for valgrind, which need not be installed and would take long.
fn valgrind(directory: &Path, script: &str) {
    use std::os::unix::fs::PermissionsExt;
    fs::create_dir_all(directory).unwrap();
    let program = directory.join("valgrind");
    fs::write(&program, format!("#!/bin/sh\n{script}\n")).unwrap();
    fs::set_permissions(program, fs::Permissions::from_mode(0o755)).unwrap();
}

#[test]
fn bench_counts_instructions() {
    let files = directory("bench-instructions");
    let programs = directory("bench-valgrind");
    let count = || {
        let options = ["--records", "1000", "--instructions"];
        let paths = [HUBLOG, HUBLOG, files.to_str().unwrap()];
        let arguments = [&paths[..], &options[..]].concat();
        Command::new(BENCH).args(arguments).env("PATH", &programs).output().unwrap()
    };
    // Only `totals` comes with a list, and only `rights` with a table, behind an empty list.
    let number = "case $4$5 in '') echo 250000;; */totals.list) echo 350000;; \
                  /dev/null*/rights.table) echo 450000;; esac";
    valgrind(&programs, &format!("echo \"==7== Collected : $({number})\" >&2"));
    let output = count();
    assert!(output.status.success(), "{}", text(&output.stderr));
    let printed = text(&output.stdout);
    let counted = |number: &str| {
        let line = |line: &&str| line.contains(number) && line.contains(" 1.00 ");
        printed.lines().filter(line).count()
    };
    let counts = [" 250 ", " 350 ", " 450 "].map(counted);
    assert_eq!(counts, [Workload::ALL.len() - 2, 1, 1], "{printed}");
    valgrind(&programs, "exit 1");
    assert!(text(&count().stderr).contains("valgrind fails on"));
    fs::remove_file(programs.join("valgrind")).unwrap();
    assert_eq!(count().status.code(), Some(1));
}

#[test]
fn bench_times_rows() {
    let files = directory("bench-rows");
    let paths = ["--rows", ROWS, ROWS, files.to_str().unwrap()];
    let bench = |options: &[&str]| run(BENCH, &[&paths[..], options].concat());
    let output = bench(&["--records", "500", "--rounds", "3"]);
    assert!(output.status.success(), "{}", text(&output.stderr));
    let printed = text(&output.stdout);
    for name in ["to-new", "to-old", "to-new, no rows"] {
        assert!(printed.contains(&format!("\n| {name:<15} | ")), "no {name} in\n{printed}");
    }
    assert!(printed.contains("500 rows a file, seed 1, 3 rounds."), "{printed}");
    assert_eq!(fs::metadata(files.join("rows-to-old-500")).unwrap().len(), 16 * 500);
    assert_eq!(bench(&["--records", "262145"]).status.code(), Some(1));
    // One that writes back what it reads.
    let other = files.join("other");
    fs::write(&other, "#!/bin/sh\nexec cat\n").unwrap();
    use std::os::unix::fs::PermissionsExt;
    fs::set_permissions(&other, fs::Permissions::from_mode(0o755)).unwrap();
    let paths = ["--rows", ROWS, other.to_str().unwrap(), files.to_str().unwrap()];
    let output = run(BENCH, &[&paths[..], &["--records", "5"]].concat());
    assert_eq!((output.status.code(), text(&output.stdout)), (Some(1), ""));
    assert!(text(&output.stderr).contains("other writes other rows for "));
}

#[test]
fn bench_counts_instructions_of_rows() {
    let (files, programs) = (directory("bench-rows-counted"), directory("bench-rows-valgrind"));
    valgrind(&programs, "echo \"==7== Collected : 25000\" >&2");
    let arguments = ["--rows", ROWS, ROWS, files.to_str().unwrap(), "--records", "1000"];
    let mut command = Command::new(BENCH);
    command.args(arguments).arg("--instructions").env("PATH", &programs);
    let output = command.output().unwrap();
    assert!(output.status.success(), "{}", text(&output.stderr));
    let printed = text(&output.stdout);
    let line = printed.lines().find(|line| line.starts_with("| to-old ")).expect("its line");
    let cells: Vec<&str> = line.split('|').map(str::trim).collect();
    assert_eq!(cells[2..7], ["25000", "25000", "25.0", "25.0", "1.00"], "{printed}");
}

#[test]
fn space_prints_the_plot() {
    let plot = run(SPACE, &["--svg"]);
    assert!(plot.status.success());
    assert!(text(&plot.stdout).starts_with("<svg ") && plot.stdout.ends_with(b"</svg>\n"));
    assert_eq!(run(SPACE, &["--png"]).status.code(), Some(1));
}
