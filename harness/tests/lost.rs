//! `tape run`, `show` and `try` where the monitor is missing, dies, complains or tells something
//! else. A script stands for the monitor.

mod called;

use std::fs;
use std::io::{BufRead, BufReader};
use std::path::{Path, PathBuf};
use std::process::{Command, Stdio};

use called::{TAPE, Told, tape, told};
use second::outside::{self, PATIENCE};

/// Two calls of a text tape.
const TEXT: &[u8] = b"setup 1 start 0 shares 1 limits 1\nopen 0\n";

/// A text tape of no calls.
const NO_CALLS: &[u8] = b"# nothing\n";

/// A folder of this test's own.
fn folder(name: &str) -> PathBuf {
    let folder = Path::new(env!("CARGO_TARGET_TMPDIR")).join("lost").join(name);
    fs::create_dir_all(&folder).expect("the folder can be made");
    folder
}

/// A program that does as the script says. Another program writes it: what this one has open for
/// writing could not be run by a test beside it.
fn script(name: &str, script: &str) -> PathBuf {
    let path = folder(name).join("monitor");
    let write = "printf '#!/bin/sh\\n%s\\n' \"$1\" > \"$0\" && chmod +x \"$0\"";
    let written = Command::new("sh").args(["-c", write]).arg(&path).arg(script).status();
    assert!(written.is_ok_and(|status| status.success()), "{name}");
    path
}

/// Asserts that both `run` and `show` end with status 2 and this message. Gives what they print.
fn both_say(monitor: &Path, message: &str) -> [String; 2] {
    ["run", "show"].map(|command| {
        let Told { output, errors, status } = told(tape(monitor, &[command]), TEXT);
        assert_eq!(errors, format!("tape: {message}\n"), "{command}");
        assert_eq!(status, Some(2), "{command}");
        output
    })
}

/// The same for a monitor that does as the script says.
fn both_say_of(name: &str, told: &str, message: &str) -> [String; 2] {
    both_say(&script(name, told), message)
}

#[test]
fn the_monitor_stands_beside_the_program() {
    let path = script("beside", "cat > /dev/null; echo 'end 0'").with_file_name("tape");
    // A second name for the program, since a copy could be busy when it is run.
    fs::remove_file(&path).ok();
    fs::hard_link(TAPE, &path).expect("a second name");
    let run = || {
        let mut command = Command::new(&path);
        command.arg("run").env_remove("MONITOR");
        told(command, NO_CALLS)
    };
    assert_eq!(run().output, "end 0\n");
    let monitor = path.with_file_name("monitor");
    fs::remove_file(&monitor).expect("it was there");
    let without = run();
    let missing = format!("tape: there is no monitor beside this program: {}\n", monitor.display());
    assert_eq!((without.errors, without.status), (missing, Some(2)));
}

/// A name alone is a file of the folder where the program is called.
#[test]
fn a_monitor_by_its_name_alone() {
    let monitor = script("alone", "cat > /dev/null; echo 'end 0'");
    let mut command = tape(Path::new("monitor"), &["run"]);
    command.current_dir(monitor.parent().expect("its folder"));
    assert_eq!(told(command, NO_CALLS).output, "end 0\n");
}

#[test]
fn a_monitor_that_is_not_there() {
    let nothing = folder("nothing").join("no-monitor");
    let message = format!("MONITOR names no program that can run: {nothing:?}");
    assert_eq!(both_say(&nothing, &message), ["", ""]);
    let tried = told(tape(&nothing, &["try"]), b"");
    assert_eq!((tried.errors, tried.status), (format!("tape: {message}\n"), Some(2)));
    both_say(Path::new(""), "MONITOR names no program that can run: \"\"");
}

/// What it told before is passed on.
#[test]
fn a_monitor_that_is_ended_by_a_signal() {
    let [run, show] = both_say_of(
        "killed",
        "echo '1 ready 1'; kill -KILL $$",
        "the monitor was ended by signal 9",
    );
    assert_eq!(run, "1 ready 1\n");
    assert!(show.ends_with("ready 1         1 record, which is 0, at time 0\n"), "{show}");
    let small =
        "the monitor was ended by signal 11: it needs a stack of a megabyte (see ulimit -s)";
    both_say_of("small", "kill -SEGV $$", small);
    // Also after its last line.
    both_say_of(
        "late",
        "echo '1 ready 1'; echo '2 seat 0'; echo 'end 2'; kill -TERM $$",
        "the monitor was ended by signal 15",
    );
}

#[test]
fn a_monitor_that_complains_or_fails() {
    let unread = "monitor: the tape can't be read";
    both_say_of("unread", &format!("echo \"{unread}\" >&2"), unread);
    let whole = "echo '1 ready 1'; echo '2 seat 0'; echo 'end 2'";
    both_say_of("whole-unread", &format!("{whole}; echo \"{unread}\" >&2"), unread);
    both_say_of("whole-3", &format!("{whole}; exit 3"), "the monitor ended with status 3");
    let many = "n=0; until test $n = 3000; do echo oh >&2; n=$((n + 1)); done";
    let long = format!("{many}; {whole}");
    both_say_of("long-complaint", &long, "oh");
}

#[test]
fn lines_that_break_off() {
    let break_off = "the monitor's lines break off";
    assert_eq!(both_say_of("silent", "cat > /dev/null", break_off)[0], "");
    let half = both_say_of("half", "printf '1 ready 1\\n2 sea'", break_off);
    assert_eq!(half[0], "1 ready 1\n2 sea");
    assert!(half[1].ends_with("1 record, which is 0, at time 0\n"), "{}", half[1]);
    let last = "printf '1 ready 1\\n2 seat 0\\nend 2'";
    both_say_of("half-end", last, break_off);
    both_say_of("no-end", "printf '1 ready 1\\n2 seat 0\\n'", break_off);
    // `show` reads no further than the last line.
    let blank = script("blank", "printf '1 ready 1\\n2 seat 0\\nend 2\\n\\n'");
    assert_eq!(told(tape(&blank, &["run"]), TEXT).errors, format!("tape: {break_off}\n"));
}

/// `run` passes on what it is told, whatever it is; `show` has no words for it.
#[test]
fn lines_that_answer_another_call_have_no_words() {
    for (number, line) in [
        "1 seat 0",
        "1 value 0",
        "1 aborted 21",
        "1 refused 12",
        "0 ready 1",
        "2 ready 1",
        "1 ready x",
        "1 ready",
        "ready 1",
        "end 0",
        "stopped 32 1",
        "",
    ]
    .iter()
    .enumerate()
    {
        let monitor = script(&format!("odd-{number}"), &format!("echo '{line}'; exec sleep 100"));
        let shown = told(tape(&monitor, &["show"]), TEXT);
        let odd = format!("tape: this is no line of the monitor's, or not here: '{line}'\n");
        assert_eq!((shown.errors, shown.status), (odd, Some(2)));
    }
    let unseen = script("unseen", "printf '1 \\033[31mready 1\\n'");
    let shown = told(tape(&unseen, &["show"]), TEXT).errors;
    assert!(shown.ends_with(" '1 \\u{1b}[31mready 1'\n"), "{shown}");
    let more = script("more", "printf '1 ready 1\\n2 seat 0\\n3 seat 1\\nend 3\\n'");
    assert!(told(tape(&more, &["show"]), TEXT).errors.ends_with(" '3 seat 1'\n"));
    assert_eq!(told(tape(&more, &["run"]), TEXT).status, Some(0));
    let fewer = script("fewer", "printf '1 ready 1\\n2 seat 0\\nend 1\\n'");
    assert!(told(tape(&fewer, &["show"]), TEXT).errors.ends_with(" 'end 1'\n"));
}

/// It tells more after its last line, and nobody reads that.
#[test]
fn a_monitor_that_goes_on_is_ended() {
    let on = script("on", "printf '1 ready 1\\n2 seat 0\\nend 2\\n'; exec yes");
    let shown = told(tape(&on, &["show"]), TEXT);
    assert_eq!(shown.errors, "tape: the monitor was ended by signal 13\n");
    assert_eq!(shown.status, Some(2));
}

#[test]
fn a_line_without_an_end_is_not_waited_for() {
    let endless = script("endless", "exec tr '\\0' x < /dev/zero");
    let shown = told(tape(&endless, &["show"]), TEXT);
    assert_eq!(shown.errors, "tape: a line of the monitor's does not end\n");
    assert_eq!(shown.status, Some(2));
}

/// Whether this text comes, and nothing behind it is waited for.
fn comes(text: &str, from: impl BufRead) -> bool {
    let mut come = Vec::new();
    from.bytes().map_while(Result::ok).any(|byte| {
        come.push(byte);
        come.ends_with(text.as_bytes())
    })
}

/// The monitor tells a line and a half, and goes on only once they have come through. `show` has no
/// words for half a line.
#[test]
fn lines_are_passed_on_as_they_come() {
    for (command, text) in [("run", "1 ready 1\n2 se"), ("show", "at time 0\n")] {
        let go = folder(command).join("go");
        fs::remove_file(&go).ok();
        let wait = format!("until test -e '{}'; do sleep 0.02; done", go.display());
        let (first, rest) = ("printf '1 ready 1\\n2 se'", "printf 'at 0\\nend 2\\n'");
        let monitor = script(command, &format!("{first}; {wait}; {rest}"));
        let mut front = tape(&monitor, &[command]);
        front.stdin(Stdio::piped()).stdout(Stdio::piped());
        let mut front = outside::start(&mut front).unwrap_or_else(|error| panic!("{error}"));
        let feed = outside::bytes(TEXT);
        feed(front.stdin.take()).expect("it is fed");
        let mut output = BufReader::new(front.stdout.take().expect("its output is piped"));
        let first = outside::within(PATIENCE, &mut front, || comes(text, &mut output));
        fs::write(&go, "").expect("the folder can be written");
        let status = outside::ended(&mut front).expect("it ends");
        assert!(first.is_ok_and(|came| came), "{command}");
        assert_eq!(status.code(), Some(0), "{command}");
    }
}

/// Nothing is sent for a line that is no call, and a monitor that is gone is told.
#[test]
fn a_monitor_that_is_lost_while_calls_are_typed() {
    let gone = script("gone", "echo '1 ready 1'; exec cat > /dev/null");
    let tried = told(tape(&gone, &["try"]), b"opn\nsetup 1 start 0 shares 1 limits 1\n");
    assert_eq!(
        (tried.errors.as_str(), tried.status),
        ("tape: the monitor's lines break off\n", Some(2))
    );
    assert!(tried.output.ends_with("1 record, which is 0, at time 0\n"), "{}", tried.output);
    let dead = script("dead", "kill -KILL $$");
    let tried = told(tape(&dead, &["try"]), TEXT);
    assert_eq!(tried.errors, "tape: the monitor was ended by signal 9\n");
    assert_eq!(tried.status, Some(2));
}

/// The null device in place of an output that is closed would lose every line without a word.
#[test]
fn an_output_that_is_closed() {
    for arguments in [&["run"][..], &["show"], &["try"], &["encode"], &["decode"], &["help"]] {
        let mut command = Command::new("sh");
        command.args(["-c", "exec \"$0\" \"$@\" >&-", TAPE]).args(arguments);
        let Told { errors, status, .. } = told(command, TEXT);
        assert_eq!(errors, "tape: standard output is closed\n", "{arguments:?}");
        assert_eq!(status, Some(2), "{arguments:?}");
    }
}
