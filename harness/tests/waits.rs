//! The proved monitor program where the system makes it wait: calls that a signal interrupts, an
//! input and an output that are not ready. No line is lost. And what it says to its arguments.

mod monitored;

use std::io::{self, Read, Write};
use std::os::fd::OwnedFd;
use std::os::unix::net::UnixStream;
use std::process::{Command, Output, Stdio};
use std::sync::Once;
use std::thread;
use std::time::Duration;

use monitored::{monitor, output};
use second::load::ORDINARY;
use second::outside::{self, PATIENCE, assert_second_tells};
use second::stored;

/// What the library says at the end of a program whose reads and writes it has failed. Without it
/// nothing was tried: a program may well be built so that no library comes before it.
const FAILED: &str = "interrupted: reads and writes have failed\n";

/// The library that fails reads and writes, by its name in its folder: the system takes a blank in
/// a longer path for the end of that path.
const LIBRARY: &str = "./interrupted.so";
const FOLDER: &str = env!("CARGO_TARGET_TMPDIR");

fn build_library() {
    let mut compiler = Command::new("gcc");
    compiler.args(["-std=gnu11", "-Wall", "-Wextra", "-Werror", "-shared", "-fPIC", "-o", LIBRARY]);
    compiler.arg(stored::file("harness/c/interrupted.c")).current_dir(FOLDER);
    assert!(compiler.status().expect("gcc is there").success());
}

/// The program behind the library, which is built once for all tests.
fn interrupted_monitor() -> Command {
    static BUILT: Once = Once::new();
    BUILT.call_once(build_library);
    let mut command = Command::new(monitor());
    command.env("LD_PRELOAD", LIBRARY).current_dir(FOLDER);
    command
}

#[test]
fn interrupted_calls_are_made_again() {
    for tape in [vec![], vec![1], ORDINARY.tape(100), ORDINARY.tape(100_000)] {
        let mut command = interrupted_monitor();
        command.stdin(Stdio::piped()).stdout(Stdio::piped()).stderr(Stdio::piped());
        let output = output(command, &tape, outside::bytes(&tape));
        assert_second_tells(&tape, &String::from_utf8_lossy(&output.stdout));
        assert_eq!(String::from_utf8_lossy(&output.stderr), FAILED, "{} bytes", tape.len());
    }
}

/// Two ends of a socket: ours waits, and theirs never does.
fn hasty_socket() -> (UnixStream, UnixStream) {
    let (ours, theirs) = UnixStream::pair().expect("two sockets");
    theirs.set_nonblocking(true).expect("a socket that does not wait");
    ours.set_write_timeout(Some(PATIENCE)).expect("a patience");
    ours.set_read_timeout(Some(PATIENCE)).expect("a patience");
    (ours, theirs)
}

fn pause() {
    thread::sleep(Duration::from_millis(5));
}

#[test]
fn an_input_that_is_not_ready_yet() {
    let tape = ORDINARY.tape(2_000);
    let (mut ours, theirs) = hasty_socket();
    let mut command = Command::new(monitor());
    command.stdin(OwnedFd::from(theirs)).stdout(Stdio::piped()).stderr(Stdio::piped());
    let output = output(command, &tape, |_| {
        for part in tape.chunks(1_000) {
            pause();
            ours.write_all(part)?;
        }
        drop(ours);
        Ok(())
    });
    assert_second_tells(&tape, &String::from_utf8_lossy(&output.stdout));
    assert!(output.stderr.is_empty());
}

/// All that comes, taken slower than the program tells it.
fn read_slowly(mut from: impl Read) -> io::Result<Vec<u8>> {
    let (mut all, mut part) = (Vec::new(), [0; 50_000]);
    loop {
        pause();
        match from.read(&mut part)? {
            0 => return Ok(all),
            length => all.extend(&part[..length]),
        }
    }
}

#[test]
fn an_output_that_is_not_ready_yet() {
    let tape = ORDINARY.tape(100_000);
    let (ours, theirs) = hasty_socket();
    let mut command = Command::new(monitor());
    command.stdin(Stdio::piped()).stdout(OwnedFd::from(theirs)).stderr(Stdio::piped());
    let reader = thread::spawn(move || read_slowly(ours));
    let output = output(command, &tape, outside::bytes(&tape));
    let lines = reader.join().expect("the reader ends").expect("the lines come");
    assert_second_tells(&tape, &String::from_utf8_lossy(&lines));
    assert!(output.stderr.is_empty());
}

/// What the program tells and says to these arguments.
fn answered(arguments: &[&str]) -> (String, String) {
    let mut command = Command::new(monitor());
    command.args(arguments).stdin(Stdio::null()).stdout(Stdio::piped()).stderr(Stdio::piped());
    let Output { stdout, stderr, .. } = output(command, &[0; 100], |_| Ok(()));
    let text = |bytes| String::from_utf8(bytes).expect("lines are text");
    (text(stdout), text(stderr))
}

/// The library fails the first line of the help for good, as not ready, and the second half of each
/// other line. What is lost of one takes nothing of the next with it.
#[test]
fn a_line_of_the_help_that_is_lost() {
    let mut command = interrupted_monitor();
    command.arg("--help").stdin(Stdio::null()).stdout(Stdio::piped()).stderr(Stdio::piped());
    let told = output(command, &[0; 100], |_| Ok(())).stdout;
    let told = String::from_utf8(told).expect("lines are text");
    assert!(told.starts_with("Plays a tape of calls"), "{told}");
    assert!(told.ends_with("The stack must h"), "{told}");
}

#[test]
fn how_it_is_used() {
    let (told, said) = answered(&["--help"]);
    assert!(told.starts_with("usage: monitor < TAPE\n"), "{told}");
    assert_eq!(said, "");
    let refusal = "monitor: it takes no arguments, only a tape on standard input; \
                   monitor --help tells more\n";
    for word in ["my.tape", "", "--hel", "--helpful", "--help me, as it is a long word"] {
        assert_eq!(answered(&[word]), (String::new(), refusal.to_string()), "{word}");
    }
}
