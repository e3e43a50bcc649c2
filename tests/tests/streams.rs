//! Input in pieces of any size, files that end at or just after a block, input and output that fail or are
//! closed, and a reader of the log that goes away.

use hublog_tests::{hublog, printed, printed_with};
use reference::generate::{script, Kind};
use reference::{log, Hub};
use std::fs::File;
use std::io::{Read, Write};
use std::path::Path;
use std::process::{Command, ExitStatus, Output, Stdio};
use std::thread;

#[test]
fn pieces_of_any_size() {
    let script = script(Kind::Tails, 5, 40_000);
    let expected = log::log_text(&script.answers());
    for pieces in [&[1][..], &[7], &[16], &[15, 2, 31], &[4095], &[262_143, 1, 262_145], &[262_144]]
    {
        assert!(
            printed_with(&script.records, &script.list, &script.table, pieces) == expected,
            "{pieces:?}"
        );
    }
}

#[test]
fn lines_across_many_chunks() {
    let script = script(Kind::Mixed, 8, 200_000);
    let text = printed_with(&script.records, &script.list, &script.table, &[]);
    assert!(text == log::log_text(&script.answers()));
}

/// Whole blocks, and a rest of 1 to 15 bytes just after one, from a file, so that a read brings a block.
#[test]
fn files_that_end_at_a_block() {
    const LENGTHS: [usize; 4] = [65_536, 262_144, 2 * 65_536, 2 * 262_144];
    let whole = script(Kind::Mixed, 11, 2 * 16_384 + 1).records;
    let path = Path::new(env!("CARGO_TARGET_TMPDIR")).join("blocks");
    for length in LENGTHS.iter().flat_map(|length| length - 1..=length + 16) {
        let file = &whole[..length];
        let expected = log::log_text(&log::answers(&mut Hub::new(), file, &[]));
        std::fs::write(&path, file).expect("a file for the test");
        let input = File::open(&path).expect("that file");
        let output = hublog().stdin(input).output().expect("it ends");
        assert!(output.status.success() && output.stdout == expected, "{length} bytes from a file");
    }
    for length in LENGTHS.iter().flat_map(|length| [length - 1, *length, length + 1]) {
        let expected = log::log_text(&log::answers(&mut Hub::new(), &whole[..length], &[]));
        assert!(printed(&whole[..length], &[], &[]) == expected, "{length} bytes from a pipe");
    }
}

/// Lets it run with these words of the shell before it, its reader going away after the first bytes; what it
/// says, and how it ends.
fn abandoned(words: &str) -> (Vec<u8>, ExitStatus) {
    let mut child = shell(&format!("{words} exec \"$HUBLOG\"")).spawn().expect("a shell");
    let mut output = child.stdout.take().expect("piped");
    let mut input = child.stdin.take().expect("piped");
    // It stops reading: the pipe breaks long before this much is written.
    let writer = thread::spawn(move || {
        let block = vec![7; 256 * 1024];
        (0..100_000).any(|_| input.write_all(&block).is_err())
    });
    let mut first = [0; 4];
    output.read_exact(&mut first).expect("a line");
    assert_eq!(&first, b"0 no");
    drop(output);
    assert!(writer.join().expect("no panic"), "it reads on");
    let Output { stderr, status, .. } = child.wait_with_output().expect("it ends");
    (stderr, status)
}

#[test]
fn a_reader_that_goes_away_ends_it() {
    // What the program starts with ignores the pipe's signal, whatever its parent did: the write fails like any other.
    for words in ["", "trap '' PIPE;"] {
        let (said, status) = abandoned(words);
        assert_eq!(said, b"hublog: cannot write standard output\n");
        assert!(status.success());
    }
}

#[test]
fn closed_input_ends_it() {
    let output = hublog().stdin(Stdio::null()).output().expect("it ends");
    assert!(output.status.success() && output.stdout.is_empty());
}

/// A command of the shell, with pipes, that finds the program in `HUBLOG`.
fn shell(words: &str) -> Command {
    let mut command = Command::new("sh");
    command.args(["-c", words]).env("HUBLOG", hublog().get_program());
    command.stdin(Stdio::piped()).stdout(Stdio::piped()).stderr(Stdio::piped());
    command
}

/// Descriptors that are closed from the start.
#[test]
fn closed_descriptors() {
    const CANNOT_READ: &[u8] = b"hublog: cannot read standard input\n";
    const CANNOT_WRITE: &[u8] = b"hublog: cannot write standard output\n";
    let cases: [(&str, &[u8]); 5] = [
        ("exec \"$HUBLOG\" <&-", CANNOT_READ),
        ("exec \"$HUBLOG\" <&- >&-", CANNOT_READ),
        ("exec \"$HUBLOG\" <&- 2>&-", b""),
        ("printf 0123456789abcdef | \"$HUBLOG\" >&-", CANNOT_WRITE),
        // No record, so nothing to write.
        ("exec \"$HUBLOG\" </dev/null >&-", b""),
    ];
    for (words, said) in cases {
        let Output { stdout, stderr, status } = shell(words).output().expect("a shell");
        assert_eq!((&stdout[..], &stderr[..]), (&b""[..], said), "{words}");
        assert!(status.success(), "{words}: {status}");
    }
}

/// What it says on standard error where a read or a write fails; what was read before is logged.
#[test]
fn failures_are_said() {
    let directory = std::fs::File::open("/").expect("a directory");
    let output = hublog().stdin(directory).output().expect("it ends");
    assert_eq!(output.stderr, b"hublog: cannot read standard input\n");
    assert!(output.stdout.is_empty());

    let full = std::fs::File::options().write(true).open("/dev/full").expect("a full device");
    let mut child = hublog()
        .stdin(Stdio::piped())
        .stdout(full)
        .stderr(Stdio::piped())
        .spawn()
        .expect("it starts");
    child.stdin.take().expect("piped").write_all(&[7; 16]).expect("read");
    let output = child.wait_with_output().expect("it ends");
    assert_eq!(output.stderr, b"hublog: cannot write standard output\n");
}
