//! The second program and those commands of `tape` that play nothing: their streams, their
//! messages and their exit statuses.

mod called;

use std::fs::{self, File};
use std::path::{Path, PathBuf};
use std::process::{Command, Output, Stdio};

use called::{TAPE, Told, told, told_into};
use second::outside::{self, PATIENCE};

const SECOND: &str = env!("CARGO_BIN_EXE_second");
/// More bytes than any program here tells.
const MOST: usize = 1000;

fn run(program: &str, arguments: &[&str], input: &[u8]) -> Output {
    let mut command = Command::new(program);
    command.args(arguments);
    command.stdin(Stdio::piped()).stdout(Stdio::piped()).stderr(Stdio::piped());
    let output = outside::output(command, PATIENCE, MOST, outside::bytes(input));
    output.unwrap_or_else(|error| panic!("{error}"))
}

/// These commands need no monitor.
fn tape(arguments: &[&str]) -> Command {
    called::tape(Path::new("no-monitor"), arguments)
}

/// Asserts that nothing is printed, the status is 2, and each message begins so.
fn fails(told: Told, messages: &[&str]) {
    assert_eq!((told.output.as_str(), told.status), ("", Some(2)), "{}", told.errors);
    assert_eq!(told.errors.lines().count(), messages.len(), "{}", told.errors);
    for (line, message) in told.errors.lines().zip(messages) {
        assert!(line.starts_with(message), "'{line}' is not '{message}'");
    }
}

/// A file with these contents.
fn stored(name: &str, contents: &[u8]) -> PathBuf {
    let path = Path::new(env!("CARGO_TARGET_TMPDIR")).join(name);
    fs::write(&path, contents).expect("the folder can be written");
    path
}

#[test]
fn text_to_tape_to_lines() {
    let text = b"setup 1 start 0 shares 1 limits 1\nopen 0\nadvance 0 0\n";
    let tape = run(TAPE, &["encode"], text);
    assert!(tape.status.success());
    assert_eq!(run(TAPE, &["decode"], &tape.stdout).stdout, text);
    let lines = run(SECOND, &[], &tape.stdout);
    assert!(lines.status.success());
    assert_eq!(lines.stdout, b"1 ready 1\n2 seat 0\n3 timed 0\nend 3\n");
}

#[test]
fn a_bad_tape_is_told_on_standard_output() {
    let lines = run(SECOND, &[], b"\x01\x00\x02\x01\x00\x00");
    assert!(lines.status.success());
    assert_eq!(lines.stdout, b"1 refused 1\nstopped 32 5\n");
}

#[test]
fn hex_digits_to_tape() {
    for arguments in [&["encode"][..], &["encode", "-"], &["bytes", "-"]] {
        let tape = run(TAPE, arguments, b"01 # version\n0002 01fF\n\n");
        assert!(tape.status.success());
        assert_eq!(tape.stdout, [1, 0, 2, 1, 255]);
    }
    fails(told(tape(&["encode"]), b"01\n0 2"), &["tape: standard input: line 2: "]);
}

/// A file's content says what it is: text, hex digits, or a tape already. Its name says nothing.
#[test]
fn files_by_their_content() {
    let tape = [1, 0, 2, 1, 0];
    for (name, contents) in
        [("a.tape", &b"open 0\n"[..]), ("a.txt", b"01 0002 0100"), ("a.hex", &tape), ("a", &tape)]
    {
        let path = stored(name, contents);
        let path = path.to_str().expect("a plain path");
        assert_eq!(run(TAPE, &["bytes", path], b"").stdout, tape, "{name}");
        assert_eq!(run(TAPE, &["encode", path], b"").stdout, tape, "{name}");
        assert_eq!(run(TAPE, &["decode", path], b"").stdout, b"open 0\n", "{name}");
    }
}

#[test]
fn a_file_that_is_no_tape_is_told_with_its_name_and_line() {
    let bad = stored("bad.txt", b"open 0\nopen\n");
    let message = format!("tape: {}: line 2: ", bad.display());
    let bad = bad.to_str().expect("a plain path");
    for command in ["bytes", "encode", "decode", "run", "show"] {
        fails(told(tape(&[command, bad]), b""), &[&message]);
        let missing = "tape: no-such-tape: there is no such file";
        fails(told(tape(&[command, "no-such-tape"]), b""), &[missing]);
    }
    fails(told(tape(&["encode", "/"]), b""), &["tape: /: this is a folder, and a file is wanted"]);
    fails(told(tape(&["encode", ""]), b""), &["tape: the name of the file is empty"]);
    fails(told(tape(&["encode"]), b"\xff"), &["tape: standard input: "]);
}

/// The calls before the fault come as text that can be played again, and then the fault.
#[test]
fn a_faulty_tape_is_text_up_to_its_fault() {
    for (faulty, calls) in [(&b"\x01\0\x02\x01\0\0"[..], "open 0\n"), (b"00 0002 0100", "")] {
        let told = told(tape(&["decode"]), faulty);
        assert_eq!((told.errors.as_str(), told.status), ("", Some(1)));
        let remark = told.output.strip_prefix(calls).expect("the calls before the fault");
        assert!(remark.starts_with("# ") && remark.lines().count() == 1, "{remark}");
        assert_eq!(run(TAPE, &["encode"], told.output.as_bytes()).stdout[0], 1);
    }
}

#[test]
fn help_lists_every_command() {
    let help = told(tape(&["help"]), b"");
    assert_eq!((help.errors.as_str(), help.status), ("", Some(0)));
    for command in ["run", "show", "try", "encode", "decode", "bytes", "help"] {
        let listed = help.output.lines().any(|line| line.starts_with(&format!("tape {command} ")));
        assert!(listed, "{command}");
    }
    assert_eq!(told(tape(&["--help"]), b"").output, help.output);
    for arguments in
        [&[][..], &["play"], &["hex"], &["encode", "a", "b"], &["bytes"], &["try", "a"]]
    {
        let wrong = told(tape(arguments), b"");
        assert_eq!((wrong.output.as_str(), wrong.status), ("", Some(2)), "{arguments:?}");
        assert_eq!(wrong.errors, help.output, "{arguments:?}");
    }
}

#[test]
fn an_output_that_is_full() {
    for arguments in [&["help"][..], &["encode"], &["decode"]] {
        let full = File::options().write(true).open("/dev/full").expect("a device that is full");
        let told = told_into(full, tape(arguments), b"open 0\n");
        fails(told, &["tape: standard output: there is no room left"]);
    }
}

/// A device that never ends, by its name and as the input.
#[test]
fn a_file_that_does_not_end() {
    let told_of =
        |name: &str| format!("tape: {name}: longer than 256 MiB: give its bytes to monitor itself");
    let zeros = || File::open("/dev/zero").expect("a device that never ends");
    let mut from_input = tape(&["encode"]);
    from_input.stdin(zeros());
    let said = |mut command: Command| command.output().expect("it runs");
    let (by_name, from_input) = (said(tape(&["encode", "/dev/zero"])), said(from_input));
    for (output, name) in [(by_name, "/dev/zero"), (from_input, "standard input")] {
        assert_eq!(String::from_utf8_lossy(&output.stderr), told_of(name) + "\n");
        assert_eq!(output.status.code(), Some(2));
    }
}
