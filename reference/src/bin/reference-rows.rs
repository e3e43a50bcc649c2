//! Moves stored rows from the old form to the new one or back: standard input to standard output. A
//! buffer that is refused gives nothing on standard output and its refusal on standard error; the
//! status is 0 in every case.

use reference::bcd::{self, Way};
use std::io::{self, ErrorKind, Read, Write};

/// The longest buffer: 262,144 rows.
const LONGEST: usize = 4_194_304;

fn main() {
    let mut arguments = std::env::args_os().skip(1);
    let (first, more) = (arguments.next(), arguments.next().is_some());
    let way = first.as_ref().and_then(|name| Way::named(name.to_str()?)).filter(|_| !more);
    let sentence = match way {
        None => "usage: rows to-new | to-old".to_string(),
        Some(way) => match run(way) {
            Ok(()) => return,
            Err(sentence) => sentence,
        },
    };
    eprintln!("{sentence}");
}

/// An error is what standard error gets.
fn run(way: Way) -> Result<(), String> {
    // One byte more than the longest is enough to be too long.
    let mut buffer = Vec::with_capacity(LONGEST + 1);
    let mut input = io::stdin().lock().take(LONGEST as u64 + 1);
    let read = input.read_to_end(&mut buffer);
    read.map_err(|error| format!("rows: cannot read standard input: {error}"))?;
    if buffer.len() > LONGEST {
        return Err(format!("rows: more than {LONGEST} bytes"));
    }
    bcd::convert(way, &mut buffer).map_err(|refusal| format!("no {}", refusal.number()))?;
    let mut output = io::stdout().lock();
    match output.write_all(&buffer).and_then(|()| output.flush()) {
        // Whoever read the rows has seen enough.
        Err(error) if error.kind() == ErrorKind::BrokenPipe => Ok(()),
        written => written.map_err(|error| format!("rows: cannot write standard output: {error}")),
    }
}
