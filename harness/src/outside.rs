//! A tape program from outside: where the proved one is, what it tells, how much memory it takes.

use std::env;
use std::ffi::OsString;
use std::fmt::Display;
use std::fs;
use std::io::{self, Read, Write};
use std::path::{Path, PathBuf};
use std::process::{Child, ChildStdin, Command, ExitStatus, Output, Stdio};
use std::sync::mpsc;
use std::thread;
use std::time::{Duration, Instant};

use crate::line::LONGEST_LINE;
use crate::tape::SHORTEST_CALL;
use crate::{player, program, stored};

/// Longer than any program may take to end.
pub const PATIENCE: Duration = Duration::from_secs(30);

/// The proved monitor program: what `MONITOR` names, or else what the build has left.
pub fn monitor() -> io::Result<PathBuf> {
    monitor_named(env::var_os("MONITOR"))
}

/// The same for a name that is given or not. A name that can't be run is an error: a comparison
/// with nothing would say nothing.
pub fn monitor_named(name: Option<OsString>) -> io::Result<PathBuf> {
    let Some(name) = name else {
        return Ok(stored::file("target/bin/monitor"));
    };
    player::named(name).map_err(io::Error::other)
}

/// Starts a program. An error names it.
pub fn start(command: &mut Command) -> io::Result<Child> {
    let started = command.spawn();
    started.map_err(|error| failed(command.get_program().as_ref(), error))
}

/// The error of a program that has not started or not ended well.
pub fn failed(program: &Path, what: impl Display) -> io::Error {
    io::Error::other(format!("{}: {what}", program.display()))
}

/// The lines that a program gives for this tape. It must end well.
pub fn told(program: &Path, tape: &[u8]) -> io::Result<String> {
    told_as_fed(program, tape, |input| input.write_all(tape))
}

/// The same for a tape that comes as `feed` writes it.
pub fn told_as_fed(
    program: &Path,
    tape: &[u8],
    feed: impl FnOnce(&mut ChildStdin) -> io::Result<()> + Send,
) -> io::Result<String> {
    let mut command = Command::new(program);
    command.stdin(Stdio::piped()).stdout(Stdio::piped());
    let output = output(command, PATIENCE, most_lines(tape), |input| feed(&mut piped(input)?))?;
    if !output.status.success() {
        return Err(failed(program, output.status));
    }
    String::from_utf8(output.stdout).map_err(|error| failed(program, error))
}

/// Feeds these bytes to a program whose input is piped.
pub fn bytes(input: &[u8]) -> impl FnOnce(Option<ChildStdin>) -> io::Result<()> + Send {
    |stdin| piped(stdin)?.write_all(input)
}

fn piped(input: Option<ChildStdin>) -> io::Result<ChildStdin> {
    input.ok_or_else(|| io::Error::other("the program's input is not piped"))
}

/// A tape's lines never have more bytes than this, whatever is on it.
pub fn most_lines(tape: &[u8]) -> usize {
    (tape.len() / SHORTEST_CALL + 1) * LONGEST_LINE
}

/// How a program ends, and what it tells on the streams that are piped. It is fed beside the
/// reading, so that neither side waits for the other. One that takes longer than the patience is
/// stopped; that is an error, and so is a stream of more than `most` bytes.
pub fn output(
    mut command: Command,
    patience: Duration,
    most: usize,
    feed: impl FnOnce(Option<ChildStdin>) -> io::Result<()> + Send,
) -> io::Result<Output> {
    let mut child = start(&mut command)?;
    // The program's own ends of its streams are now with the program alone.
    drop(command);
    let (input, told, errors) = (child.stdin.take(), child.stdout.take(), child.stderr.take());
    let heard = within(patience, &mut child, || heard(most, told, errors, || feed(input)));
    let (stdout, stderr) = heard.flatten().or_else(|error| stopped(&mut child).and(Err(error)))?;
    let status = ended_within(patience, &mut child)?;
    Ok(Output { status, stdout, stderr })
}

/// All that two streams have while the program is fed. One that stops at a fault goes before the
/// tape's end.
fn heard(
    most: usize,
    told: Option<impl Read>,
    errors: Option<impl Read + Send>,
    feed: impl FnOnce() -> io::Result<()> + Send,
) -> io::Result<(Vec<u8>, Vec<u8>)> {
    thread::scope(|scope| {
        let feeder = scope.spawn(|| unless_gone(feed()));
        let errors = errors.map(|errors| scope.spawn(move || at_most(most, errors)));
        let told = told.map(|told| at_most(most, told));
        let unread = |_| Err(io::Error::other("the errors could not be read"));
        let errors = errors.map(|errors| errors.join().unwrap_or_else(unread));
        let unfed = |_| Err(io::Error::other("the tape could not be fed"));
        feeder.join().unwrap_or_else(unfed)?;
        Ok((told.transpose()?.unwrap_or_default(), errors.transpose()?.unwrap_or_default()))
    })
}

/// All that a stream has, where it is no more than this.
fn at_most(most: usize, stream: impl Read) -> io::Result<Vec<u8>> {
    let mut bytes = Vec::new();
    stream.take(most as u64 + 1).read_to_end(&mut bytes)?;
    match bytes.len() <= most {
        true => Ok(bytes),
        false => Err(io::Error::other(format!("the program tells more than {most} bytes"))),
    }
}

/// What some work at a program's streams gives. Where it takes longer than the patience, the
/// program is stopped, so that the work ends, and that is an error.
pub fn within<T: Send>(
    patience: Duration,
    child: &mut Child,
    work: impl FnOnce() -> T + Send,
) -> io::Result<T> {
    let (tell, told) = mpsc::channel();
    thread::scope(|scope| {
        scope.spawn(move || tell.send(work()));
        told.recv_timeout(patience).or_else(|_| Err(stopped(child)?))
    })
}

/// Stops a program, and gives the error of one that does not end.
fn stopped(child: &mut Child) -> io::Result<io::Error> {
    child.kill()?;
    child.wait()?;
    Ok(io::Error::other("the program does not end"))
}

/// Asserts that the second program gives these lines for the tape. Where it does not, the first
/// line that differs is told.
pub fn assert_second_tells(tape: &[u8], lines: &str) {
    let expected = program::play_bytes(tape).expect("memory can be read and written");
    if lines.as_bytes() == expected {
        return;
    }
    let expected = String::from_utf8_lossy(&expected);
    for (line, expected) in lines.lines().zip(expected.lines()) {
        assert_eq!(line, expected);
    }
    panic!("{} lines, not {}", lines.lines().count(), expected.lines().count());
}

/// What a write gives, where a reader that has gone is no error. A datagram is then refused.
fn unless_gone(written: io::Result<()>) -> io::Result<()> {
    use io::ErrorKind::{BrokenPipe, ConnectionRefused, ConnectionReset};
    match written.as_ref().map_err(io::Error::kind) {
        Err(BrokenPipe | ConnectionRefused | ConnectionReset) => Ok(()),
        _ => written,
    }
}

/// How the program has ended. One that does not end is stopped, and that is an error.
pub fn ended(child: &mut Child) -> io::Result<ExitStatus> {
    ended_within(PATIENCE, child)
}

/// The same with another patience. The pauses between the looks grow from very short ones: most
/// programs end at once.
fn ended_within(patience: Duration, child: &mut Child) -> io::Result<ExitStatus> {
    let deadline = Instant::now() + patience;
    let mut pause = Duration::from_micros(10);
    while Instant::now() < deadline {
        if let Some(status) = child.try_wait()? {
            return Ok(status);
        }
        thread::sleep(pause);
        pause = (2 * pause).min(Duration::from_millis(2));
    }
    Err(stopped(child)?)
}

/// The most memory, in kB, that a program has had once it has taken the whole tape.
pub fn peak_memory(program: &Path, tape: &[u8]) -> io::Result<u64> {
    let mut command = Command::new(program);
    let mut child = start(command.stdin(Stdio::piped()).stdout(Stdio::null()))?;
    let mut input = piped(child.stdin.take())?;
    let fed = within(PATIENCE, &mut child, || input.write_all(tape)).flatten();
    let peak = fed.and_then(|()| peak_when_idle(&child));
    drop(input);
    ended(&mut child)?;
    peak
}

/// A program whose output never waits sleeps only when it has taken all of its input.
fn peak_when_idle(child: &Child) -> io::Result<u64> {
    let deadline = Instant::now() + PATIENCE;
    while Instant::now() < deadline {
        let status = fs::read_to_string(format!("/proc/{}/status", child.id()))?;
        if field(&status, "State:") == Some("S") {
            let peak = field(&status, "VmHWM:").and_then(|number| number.parse().ok());
            return peak.ok_or_else(|| io::Error::other("the system tells no peak memory"));
        }
        thread::sleep(Duration::from_millis(1));
    }
    Err(io::Error::other("the program takes no more of its tape"))
}

/// The first word of a field of a process's status.
fn field<'a>(status: &'a str, name: &str) -> Option<&'a str> {
    let line = status.lines().find_map(|line| line.strip_prefix(name))?;
    line.split_whitespace().next()
}
