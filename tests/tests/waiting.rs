//! Writers that wait: each line is there once the whole record is, a record may come in several reads, and a read
//! that fails makes no record of what was left over.

use hublog_tests::{hublog, Named};
use reference::generate::{script, Kind, Random};
use reference::{log, Answer, Hub};
use std::io::{BufRead, BufReader, Write};
use std::os::fd::OwnedFd;
use std::os::unix::net::UnixStream;
use std::process::{Child, ChildStdin, Stdio};
use std::sync::mpsc::{self, Receiver, RecvTimeoutError};
use std::thread;
use std::time::Duration;

/// A program that waits for more than this has gone wrong: far more than a line takes.
const LIMIT: Duration = Duration::from_secs(10);

/// The program under way, with its lines as they come.
struct Talk {
    /// The file of its list.
    _list: Named,
    child: Child,
    input: Option<ChildStdin>,
    lines: Receiver<String>,
}

impl Talk {
    fn start() -> Talk {
        Talk::with_list(&[])
    }

    fn with_list(list: &[u8]) -> Talk {
        let list = Named::file(list);
        let mut child = hublog().arg(list.as_ref()).spawn().expect("hublog starts");
        let output = BufReader::new(child.stdout.take().expect("piped"));
        let input = child.stdin.take();
        let (sender, lines) = mpsc::channel();
        thread::spawn(move || {
            let lines = output.lines().map_while(Result::ok);
            lines.take_while(|line| sender.send(line.clone()).is_ok()).for_each(drop);
        });
        Talk { _list: list, child, input, lines }
    }

    fn send(&mut self, bytes: &[u8]) {
        let input = self.input.as_mut().expect("not closed");
        input.write_all(bytes).expect("hublog reads");
    }

    /// Waits for this line.
    fn expect(&self, line: &str) {
        match self.lines.recv_timeout(LIMIT) {
            Ok(found) => assert_eq!(found, line),
            Err(error) => panic!("{line:?} is not there: {error}"),
        }
    }

    /// Is there no line for a little while?
    fn is_silent(&self) -> bool {
        self.lines.recv_timeout(Duration::from_millis(20)) == Err(RecvTimeoutError::Timeout)
    }

    /// Closes the input and waits for the end of the log.
    fn close(mut self) {
        drop(self.input.take());
        assert_eq!(self.lines.recv_timeout(LIMIT), Err(RecvTimeoutError::Disconnected));
        assert!(self.child.wait().expect("it ends").success());
    }
}

/// One that was given up on is not left behind.
impl Drop for Talk {
    fn drop(&mut self) {
        let _ = self.child.kill();
        let _ = self.child.wait();
    }
}

/// The lines of a file's log, without a list.
fn lines(file: &[u8]) -> Vec<String> {
    log_lines(&log::answers(&mut Hub::new(), file, &[]))
}

fn log_lines(answers: &[Answer]) -> Vec<String> {
    let text = log::log_text(answers);
    String::from_utf8(text).expect("plain text").lines().map(String::from).collect()
}

#[test]
fn a_writer_waits_for_each_line() {
    for kind in [Kind::Totals, Kind::Marks] {
        let script = script(kind, 7, 500);
        let mut talk = Talk::with_list(&script.list);
        for (record, line) in script.records.chunks(16).zip(log_lines(&script.answers())) {
            talk.send(record);
            talk.expect(&line);
        }
        talk.close();
    }
}

#[test]
fn each_read_has_its_lines() {
    // Pieces of any size: the lines of the records that are whole by then, and no other.
    let file = script(Kind::Reads, 22, 400).records;
    let expected = lines(&file);
    let mut random = Random::new(22);
    let mut talk = Talk::start();
    let (mut sent, mut told) = (0, 0);
    while sent < file.len() {
        let piece = random.between(1, 70).min((file.len() - sent) as u64) as usize;
        talk.send(&file[sent..sent + piece]);
        sent += piece;
        while told < sent / 16 {
            talk.expect(&expected[told]);
            told += 1;
        }
    }
    talk.close();
}

#[test]
fn a_record_in_parts_has_its_line_with_the_last() {
    let file = script(Kind::Mixed, 23, 5).records;
    let expected = lines(&file);
    // One record in three parts, two with the half of a fourth, the fourth in three parts, and a rest of 13 bytes.
    let mut talk = Talk::start();
    let mut from = 0;
    for (to, told) in
        [(1, 0..0), (15, 0..0), (16, 0..1), (56, 1..3), (63, 3..3), (64, 3..4), (77, 4..4)]
    {
        talk.send(&file[from..to]);
        from = to;
        expected[told].iter().for_each(|line| talk.expect(line));
        assert!(talk.is_silent(), "after {to} bytes");
    }
    // The end of the input makes the rest a record.
    drop(talk.input.take());
    talk.expect("4 no 6");
    talk.close();
}

/// Cut anywhere, with pauses, and nobody waits for the lines.
#[test]
fn pauses_change_nothing() {
    for seed in 0..4 {
        let file = script(Kind::Tails, 30 + seed, 300).records;
        let mut random = Random::new(seed);
        let mut talk = Talk::start();
        let mut rest = &file[..];
        while !rest.is_empty() {
            let (piece, later) = rest.split_at(rest.len().min(random.between(1, 90) as usize));
            talk.send(piece);
            thread::sleep(Duration::from_millis(random.below(3)));
            rest = later;
        }
        drop(talk.input.take());
        lines(&file).iter().for_each(|line| talk.expect(line));
        talk.close();
    }
}

/// An input that gives these bytes and then fails: the other end of a pair of sockets was closed before it had
/// read everything.
fn failing(bytes: &[u8]) -> OwnedFd {
    let (mut far, mut near) = UnixStream::pair().expect("a pair of sockets");
    near.write_all(b"?").expect("room");
    far.write_all(bytes).expect("room");
    drop(far);
    near.into()
}

#[test]
fn a_read_that_fails_makes_no_record_of_a_rest() {
    let file = script(Kind::Mixed, 24, 1500).records;
    let expected = lines(&file);
    // Rests of every length after none to three records, and one after many.
    for length in (0..=48).chain([file.len() - 11]) {
        let child = hublog().stdin(failing(&file[..length])).stderr(Stdio::piped()).spawn();
        let output = child.expect("hublog starts").wait_with_output().expect("it ends");
        let whole: String =
            expected[..length / 16].iter().map(|line| format!("{line}\n")).collect();
        assert_eq!(String::from_utf8_lossy(&output.stdout), whole, "{length} bytes");
        // The second program says its own name and the reason too.
        let said = String::from_utf8_lossy(&output.stderr);
        assert!(said.contains("hublog: cannot read standard input"), "{length} bytes: {said:?}");
    }
}
