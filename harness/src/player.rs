//! The proved program at work: where it is, how it is fed, its lines, and what became of it.

use std::env;
use std::ffi::OsString;
use std::fs;
use std::io::{self, BufRead, BufReader, Read, Write};
use std::os::unix::fs::PermissionsExt;
use std::os::unix::process::ExitStatusExt;
use std::path::{self, Path, PathBuf};
use std::process::{Child, ChildStderr, ChildStdin, ChildStdout, Command, ExitStatus, Stdio};
use std::sync::Arc;
use std::thread::{self, JoinHandle};

use crate::line::{Ending, LONGEST_LINE};
use crate::plain::plain;

/// As many bytes as a pipe gives at once.
const PART: usize = 1 << 16;
/// More bytes than the monitor ever complains with.
const COMPLAINT: u64 = 1000;
/// The signal that ends a program which leaves its memory, as with too small a stack.
const LEFT_ITS_MEMORY: i32 = 11;
const SMALL_STACK: &str = ": it needs a stack of a megabyte (see ulimit -s)";

/// Why a tape was not played to its end.
#[derive(Clone, Debug, PartialEq, Eq)]
pub enum Lost {
    /// The monitor's lines break off, and what became of the monitor says why.
    BrokenOff,
    /// Something else, in words. The monitor is ended, since nothing more is wanted of it.
    Because(String),
}

/// An output that takes no more.
pub fn unwritten(error: io::Error) -> Lost {
    Lost::Because(format!("the lines can't be written: {}", plain(&error)))
}

/// The proved program: what `MONITOR` names, or else the file `monitor` beside this program.
pub fn monitor() -> Result<PathBuf, String> {
    if let Some(name) = env::var_os("MONITOR") {
        return named(name);
    }
    let lost = |error: io::Error| format!("this program can't find its own folder: {error}");
    let beside = env::current_exe().map_err(lost)?.with_file_name("monitor");
    let missing = || format!("there is no monitor beside this program: {}", beside.display());
    found(&beside).ok_or_else(missing)
}

/// The program that `MONITOR` names so.
pub fn named(name: OsString) -> Result<PathBuf, String> {
    let path = PathBuf::from(name);
    found(&path).ok_or_else(|| format!("MONITOR names no program that can run: {path:?}"))
}

/// The whole path of a program that can run: a name alone would be looked for elsewhere.
fn found(path: &Path) -> Option<PathBuf> {
    let runs = |file: fs::Metadata| file.is_file() && file.permissions().mode() & 0o111 != 0;
    path::absolute(path).ok().filter(|path| fs::metadata(path).is_ok_and(runs))
}

/// The monitor under way.
pub struct Player {
    monitor: Child,
    lines: BufReader<ChildStdout>,
    complaint: JoinHandle<String>,
}

impl Player {
    /// Starts the monitor. It answers a call as soon as it is written to the input.
    pub fn start(monitor: &Path) -> Result<(Player, ChildStdin), String> {
        let mut command = Command::new(monitor);
        command.stdin(Stdio::piped()).stdout(Stdio::piped()).stderr(Stdio::piped());
        let failed = |what: String| format!("{}: {what}", monitor.display());
        let mut monitor = command.spawn().map_err(|error| failed(error.to_string()))?;
        let streams = (monitor.stdin.take(), monitor.stdout.take(), monitor.stderr.take());
        let (Some(input), Some(lines), Some(errors)) = streams else {
            return Err(failed("a stream is missing".to_string()));
        };
        let complaint = thread::spawn(move || complaint(errors));
        Ok((Player { monitor, lines: BufReader::with_capacity(PART, lines), complaint }, input))
    }

    /// Starts the monitor, and feeds it the tape beside the reading of its lines.
    pub fn with_tape(monitor: &Path, tape: Arc<Vec<u8>>) -> Result<Player, String> {
        let (player, mut input) = Player::start(monitor)?;
        // A monitor that takes no more has stopped at a fault or is lost, and its lines tell which.
        thread::spawn(move || input.write_all(&tape).is_ok());
        Ok(player)
    }

    /// Passes on what has come of the lines, some bytes at least; at their end, nothing.
    pub fn part(&mut self, pass_on: impl FnOnce(&[u8]) -> Result<(), Lost>) -> Result<(), Lost> {
        let part = self.lines.fill_buf().map_err(|_| Lost::BrokenOff)?;
        let passed = pass_on(part);
        let length = part.len();
        self.lines.consume(length);
        passed
    }

    /// The next line, without its line's end.
    pub fn line(&mut self) -> Result<String, Lost> {
        let mut line = Vec::new();
        let mut room = (&mut self.lines).take(LONGEST_LINE as u64);
        room.read_until(b'\n', &mut line).map_err(|_| Lost::BrokenOff)?;
        match line.strip_suffix(b"\n") {
            Some(line) => Ok(String::from_utf8_lossy(line).into_owned()),
            None if line.len() < LONGEST_LINE => Err(Lost::BrokenOff),
            None => Err(Lost::Because("a line of the monitor's does not end".to_string())),
        }
    }

    /// Whether the next line has to be waited for: a half of it may have come.
    pub fn is_quiet(&self) -> bool {
        !self.lines.buffer().contains(&b'\n')
    }

    /// What came of the tape, once the monitor has ended too.
    pub fn finish(mut self, played: Result<Ending, Lost>) -> Result<Ending, String> {
        if let Err(Lost::Because(_)) = played {
            // It may have ended by itself by now; then there is nothing to end.
            self.monitor.kill().ok();
        }
        // Nobody reads on: a monitor that is still telling something must not wait for a reader.
        drop(self.lines);
        let status =
            self.monitor.wait().map_err(|error| format!("the monitor is lost: {error}"))?;
        let complaint = self.complaint.join().unwrap_or_default();
        match (played, blame(status, &complaint)) {
            (Err(Lost::Because(what)), _) => Err(what),
            (_, Some(blame)) => Err(blame),
            (Err(Lost::BrokenOff), None) => Err("the monitor's lines break off".to_string()),
            (Ok(ending), None) => Ok(ending),
        }
    }
}

/// What the monitor says on its standard error. The rest of a long complaint is read too, so that
/// it need not wait.
fn complaint(mut errors: ChildStderr) -> String {
    let mut said = Vec::new();
    let read = (&mut errors).take(COMPLAINT).read_to_end(&mut said);
    read.and_then(|_| io::copy(&mut errors, &mut io::sink())).ok();
    String::from_utf8_lossy(&said).into_owned()
}

/// What is wrong with a monitor that ended so, if anything.
fn blame(status: ExitStatus, complaint: &str) -> Option<String> {
    if let Some(signal) = status.signal() {
        let why = if signal == LEFT_ITS_MEMORY { SMALL_STACK } else { "" };
        return Some(format!("the monitor was ended by signal {signal}{why}"));
    }
    if let Some(line) = complaint.lines().next() {
        return Some(line.to_string());
    }
    let code = status.code().filter(|&code| code != 0)?;
    Some(format!("the monitor ended with status {code}"))
}
