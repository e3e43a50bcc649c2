//! A program run on a file of records or rows, for its time or for its log.

use std::ffi::{c_int, c_long};
use std::fs::{self, File};
use std::io::{self, Read};
use std::path::{Path, PathBuf};
use std::process::{Child, Command, Stdio};
use std::time::{Duration, Instant};

/// C's `struct timeval` on 64-bit Linux.
#[repr(C)]
#[derive(Default)]
struct Timeval {
    seconds: c_long,
    microseconds: c_long,
}

impl Timeval {
    fn duration(&self) -> Duration {
        Duration::from_micros(self.seconds as u64 * 1_000_000 + self.microseconds as u64)
    }
}

/// C's `struct rusage`: the processor times, and fourteen numbers of which none is used here.
/// Its peak memory is at least that of the process that started the program, so it is no measure.
#[repr(C)]
#[derive(Default)]
struct Usage {
    user: Timeval,
    system: Timeval,
    rest: [c_long; 14],
}

extern "C" {
    fn wait4(pid: c_int, status: *mut c_int, options: c_int, usage: *mut Usage) -> c_int;
}

/// The times of one run.
#[derive(Clone, Copy, Debug)]
pub struct Times {
    pub wall: Duration,
    /// User and system time together.
    pub processor: Duration,
}

/// What a program is run on.
pub struct Input {
    /// The file of records or rows, which is its standard input.
    pub file: PathBuf,
    /// Its arguments: the files of the list of totals and of the table of rights, or which way rows are
    /// moved.
    pub arguments: Vec<PathBuf>,
}

impl Input {
    pub fn open(&self) -> Result<File, String> {
        File::open(&self.file).map_err(|error| format!("{}: {error}", self.file.display()))
    }
}

fn start(program: &Path, input: &Input, output: Stdio) -> Result<Child, String> {
    let records = input.open()?;
    let child = Command::new(program).args(&input.arguments).stdin(records).stdout(output).spawn();
    child.map_err(|error| format!("{}: {error}", program.display()))
}

/// Runs a program on a file, its log thrown away.
pub fn time(program: &Path, input: &Input) -> Result<Times, String> {
    let begin = Instant::now();
    let child = start(program, input, Stdio::null())?;
    let (mut status, mut usage) = (0, Usage::default());
    // SAFETY: both pointers are to live values of the types that `wait4` writes, and the child has
    // not been waited for.
    let waited = unsafe { wait4(child.id() as c_int, &mut status, 0, &mut usage) };
    let wall = begin.elapsed();
    if waited != child.id() as c_int || status != 0 {
        return Err(format!("{} failed on {}", program.display(), input.file.display()));
    }
    Ok(Times { wall, processor: usage.user.duration() + usage.system.duration() })
}

/// A program whose log is read while it runs.
pub struct Logging {
    child: Child,
    /// The greatest memory seen, in KiB.
    pub peak: u64,
}

impl Logging {
    pub fn start(program: &Path, input: &Input) -> Result<Logging, String> {
        Ok(Logging { child: start(program, input, Stdio::piped())?, peak: 0 })
    }

    /// Reads on in the log until the buffer is full or the log ends; says how far it is full.
    pub fn read(&mut self, buffer: &mut [u8]) -> io::Result<usize> {
        let output = self.child.stdout.as_mut().expect("a pipe");
        let mut filled = 0;
        while filled < buffer.len() {
            match output.read(&mut buffer[filled..])? {
                0 => break,
                got => filled += got,
            }
        }
        self.peak = self.peak.max(self.resident_peak().unwrap_or(0));
        Ok(filled)
    }

    /// The greatest resident memory so far, in KiB, while the program runs.
    fn resident_peak(&self) -> Option<u64> {
        let status = fs::read_to_string(format!("/proc/{}/status", self.child.id())).ok()?;
        let line = status.lines().find_map(|line| line.strip_prefix("VmHWM:"))?;
        line.split_whitespace().next()?.parse().ok()
    }

    /// Waits for the end; did the program succeed?
    pub fn end(mut self) -> io::Result<bool> {
        Ok(self.child.wait()?.success())
    }
}
