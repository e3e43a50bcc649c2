//! Runs `hublog` and holds its log against the second program and the checker of demand 3; runs `rows`
//! on buffers of stored rows.

use reference::coverage::Coverage;
use reference::fault::Right;
use reference::generate::Script;
use reference::store::MAX_SLOTS;
use reference::{log, order, rights, Hub, Refusal};
use std::ffi::OsString;
use std::io::{Read, Write};
use std::path::{Path, PathBuf};
use std::process::{Child, Command, Output, Stdio};
use std::sync::atomic::{AtomicUsize, Ordering};
use std::thread;

/// A program named by the environment.
fn program(variable: &str) -> OsString {
    std::env::var_os(variable).unwrap_or_else(|| {
        panic!(
            "{variable} is not set: run in the top folder, which proves and builds the programs first, \
             `HUBLOG=$(tools/program hublog) EACHLOG=$(tools/program eachlog) ROWS=$(tools/program rows) \
             cargo test --offline --manifest-path tests/Cargo.toml`"
        )
    })
}

fn started(command: &mut Command) -> Child {
    let child = command.spawn();
    child.unwrap_or_else(|error| panic!("{command:?}: {error}; is the path a whole one?"))
}

/// The program under test: the environment's `HUBLOG`.
pub fn hublog() -> Command {
    let mut command = Command::new(program("HUBLOG"));
    command.stdin(Stdio::piped()).stdout(Stdio::piped());
    command
}

/// A file of this run, gone when this is.
pub struct Named(PathBuf);

impl Named {
    /// One with these contents.
    pub fn file(contents: &[u8]) -> Named {
        let named = Named::nothing();
        std::fs::write(&named, contents).unwrap_or_else(|error| panic!("{:?}: {error}", named.0));
        named
    }

    /// A name that no file has.
    pub fn nothing() -> Named {
        static COUNT: AtomicUsize = AtomicUsize::new(0);
        let number = COUNT.fetch_add(1, Ordering::Relaxed);
        Named(std::env::temp_dir().join(format!("hublog-{}-{number}", std::process::id())))
    }
}

impl AsRef<Path> for Named {
    fn as_ref(&self) -> &Path {
        &self.0
    }
}

impl Drop for Named {
    fn drop(&mut self) {
        let _ = std::fs::remove_file(&self.0);
    }
}

/// The files that lend a list and a table, to be named by arguments. What is empty is lent in turn by no
/// argument, where none follows, by a name that no file has, and by an empty file.
fn lent(list: &[u8], table: &[u8]) -> Vec<Named> {
    static TURN: AtomicUsize = AtomicUsize::new(0);
    let mut files: Vec<Named> = Vec::new();
    // The table first: what is before an argument cannot be left out.
    for bytes in [table, list] {
        let turn = if bytes.is_empty() { TURN.fetch_add(1, Ordering::Relaxed) % 3 } else { 2 };
        match turn {
            0 if files.is_empty() => {}
            0 | 1 => files.insert(0, Named::nothing()),
            _ => files.insert(0, Named::file(bytes)),
        }
    }
    files
}

/// What `hublog` says on standard error of a table: one line where it is refused.
pub fn said(table: &[u8]) -> String {
    match rights::read::<Right>(table) {
        Ok(_) => String::new(),
        Err(_) => format!("hublog: the table is refused: {}\n", Refusal::Table.number()),
    }
}

/// What it prints for a file, with this list and without a table, that is written to it in pieces of
/// these sizes, the last one repeated.
pub fn printed(file: &[u8], list: &[u8], pieces: &[usize]) -> Vec<u8> {
    printed_with(file, list, &[], pieces)
}

/// The same with a table. What it says of the table is tested.
pub fn printed_with(file: &[u8], list: &[u8], table: &[u8], pieces: &[usize]) -> Vec<u8> {
    let lent = lent(list, table);
    let mut command = hublog();
    let child = started(command.args(lent.iter().map(Named::as_ref)).stderr(Stdio::piped()));
    let (text, told) = printed_by(child, file, pieces);
    assert_eq!(told, said(table), "{table:?}");
    text
}

/// What `eachlog`, the environment's `EACHLOG`, prints for a script with a row of so many slots, and of
/// another number from a record on. Its arguments are these three numbers, all of them where a list
/// or a table follows, and then the files of these.
pub fn each_printed(script: &Script, slots: usize, change: Option<(usize, usize)>) -> Vec<u8> {
    let mut command = Command::new(program("EACHLOG"));
    command.stdin(Stdio::piped()).stdout(Stdio::piped()).stderr(Stdio::piped());
    let lent = lent(&script.list, &script.table);
    match (change, &lent[..]) {
        (None, []) if slots == usize::from(MAX_SLOTS) => {}
        (None, []) => drop(command.arg(slots.to_string())),
        _ => {
            let (record, later) = change.unwrap_or((0, slots));
            command.args([slots, record, later].map(|number| number.to_string()));
        }
    }
    command.args(lent.iter().map(Named::as_ref));
    let (text, told) = printed_by(started(&mut command), &script.records, &[]);
    let refused = !said(&script.table).is_empty();
    assert!(told.is_empty() || refused, "{told}, {:?}", script.table);
    text
}

/// What `rows`, the environment's `ROWS`, does with an input; it need not read it to its end.
pub fn moved(arguments: &[&str], input: &[u8]) -> Output {
    let mut command = Command::new(program("ROWS"));
    command.args(arguments).stdin(Stdio::piped()).stdout(Stdio::piped()).stderr(Stdio::piped());
    let mut child = started(&mut command);
    let mut stdin = child.stdin.take().expect("piped");
    thread::scope(|scope| {
        scope.spawn(move || drop(stdin.write_all(input)));
        child.wait_with_output().expect("rows ends")
    })
}

/// What a program prints and what it says, for a file in pieces of these sizes.
fn printed_by(mut child: Child, file: &[u8], pieces: &[usize]) -> (Vec<u8>, String) {
    let mut input = child.stdin.take().expect("piped");
    let mut output = child.stdout.take().expect("piped");
    let mut errors = child.stderr.take().expect("piped");
    let (mut text, mut told) = (Vec::new(), String::new());
    thread::scope(|scope| {
        scope.spawn(move || {
            let mut rest = file;
            let mut sizes = pieces.iter();
            let mut size = usize::MAX;
            while !rest.is_empty() {
                size = sizes.next().copied().unwrap_or(size);
                let (piece, later) = rest.split_at(size.min(rest.len()));
                input.write_all(piece).expect("hublog reads to the end");
                rest = later;
            }
        });
        output.read_to_end(&mut text).expect("hublog's log");
    });
    // A line at most, so that it waits for nobody.
    errors.read_to_string(&mut told).expect("plain text");
    assert!(child.wait().expect("hublog ends").success());
    (text, told)
}

/// Holds `hublog` against the second program on one script, and its own log against demand 3; gives
/// what the script reached.
pub fn agree(name: &str, script: &Script) -> Coverage {
    let Script { records, list, table } = script;
    let mut hub = Hub::<Right, Coverage>::with_row(usize::from(MAX_SLOTS));
    script.give(&mut hub);
    let answers = log::answers(&mut hub, records, list);
    answers.iter().for_each(|&answer| hub.observer.answered(answer));
    let expected = log::log_text(&answers);
    let text = printed_with(records, list, table, &[]);
    if text != expected {
        let lines = |text: &[u8]| -> Vec<String> {
            String::from_utf8_lossy(text).lines().map(String::from).collect()
        };
        let (ours, theirs) = (lines(&text), lines(&expected));
        let at = ours.iter().zip(&theirs).take_while(|(a, b)| a == b).count();
        panic!(
            "{name}: line {at}: hublog {:?}, the second program {:?}",
            ours.get(at),
            theirs.get(at)
        );
    }
    let text = String::from_utf8(text).expect("plain text");
    let own = log::parse_log(&text).unwrap_or_else(|error| panic!("{name}: {error}"));
    if let Err(violation) = order::check(records, list, table, &own) {
        panic!("{name}: {violation}");
    }
    hub.observer
}
