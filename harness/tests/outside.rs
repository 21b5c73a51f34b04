//! What the comparisons rest on: programs that never end, never stop telling or end badly are
//! found, and no variable of the environment turns a comparison into nothing.

use std::ffi::{OsStr, OsString};
use std::fs;
use std::io;
use std::path::{Path, PathBuf};
use std::process::{Command, Output, Stdio};
use std::time::{Duration, Instant};

use second::answer::Answer::{self, *};
use second::lively::to_the_end;
use second::outside::{self, PATIENCE};
use second::random;
use second::row::MOST_ADVANCES;

/// The shell takes its input for a script: so it is a program that does as the tape says.
const SHELL: &str = "/bin/sh";
const MOST: usize = 1000;
/// For programs that do not end: so they are soon found.
const LITTLE: Duration = Duration::from_millis(300);

/// What comes of a program that does as the script says.
fn shell_output(script: &str, patience: Duration) -> io::Result<Output> {
    let mut command = Command::new(SHELL);
    command.stdin(Stdio::piped()).stdout(Stdio::piped()).stderr(Stdio::piped());
    outside::output(command, patience, MOST, outside::bytes(script.as_bytes()))
}

/// Asserts that the program is found not to end, and soon. By itself it ends much later.
fn does_not_end(script: &str) {
    let started = Instant::now();
    let error = shell_output(script, LITTLE).expect_err("it does not end").to_string();
    assert_eq!(error, "the program does not end");
    assert!(started.elapsed() < Duration::from_secs(10), "found late");
}

#[test]
fn a_program_that_ends() {
    let output = shell_output("echo told; echo said >&2; exit 3", PATIENCE).expect("it ends");
    assert_eq!((output.stdout, output.stderr), (b"told\n".to_vec(), b"said\n".to_vec()));
    assert_eq!(output.status.code(), Some(3));
}

#[test]
fn a_program_that_does_not_end() {
    does_not_end("exec sleep 20\n");
    // It closes all of its streams, and only then does not end.
    does_not_end("exec sleep 20 <&- >&- 2>&-\n");
}

/// As much as is allowed on one of the streams, and a byte more from a program that goes on.
#[test]
fn a_program_that_tells_too_much() {
    for (stream, other) in [(1, 2), (2, 1)] {
        let script = format!("exec head -c 1000 /dev/zero >&{stream}\n");
        assert!(shell_output(&script, PATIENCE).is_ok());
        let script = format!("head -c 1001 /dev/zero >&{stream}; exec sleep 20 {other}>&-\n");
        let started = Instant::now();
        let error = shell_output(&script, PATIENCE).expect_err("too much").to_string();
        assert_eq!(error, "the program tells more than 1000 bytes");
        assert!(started.elapsed() < Duration::from_secs(10), "found late");
    }
}

/// It takes nothing of a tape that is longer than any pipe.
#[test]
fn a_program_that_is_not_fed() {
    let long = format!("exec sleep 20\n{}", "#\n".repeat(1_000_000));
    does_not_end(&long);
}

#[test]
fn a_program_that_ends_badly_tells_no_lines() {
    let told = |script: &str| outside::told(Path::new(SHELL), script.as_bytes());
    assert_eq!(told("echo end 0\n").expect("it ends well"), "end 0\n");
    let error = told("echo end 0; exit 1\n").expect_err("exit 1").to_string();
    assert_eq!(error, "/bin/sh: exit status: 1");
    let error = told("echo end 0; kill -KILL $$\n").expect_err("killed").to_string();
    assert!(error.starts_with("/bin/sh: signal: 9"), "{error}");
}

/// No tape gives more: every call gives one line, and then comes a last one.
#[test]
fn the_most_bytes_of_lines() {
    assert_eq!(outside::most_lines(&[]), 50);
    assert_eq!(outside::most_lines(&[1, 0, 2, 1, 0]), 100);
    let longest = format!("{} refused {}\n", u64::MAX, u64::MAX);
    assert_eq!(longest.len(), 50);
}

/// Gives these answers in turn, and the last one ever after. It counts how often it was asked.
fn to_the_end_of(answers: &[Answer], asked: &mut usize) -> Result<Answer, String> {
    to_the_end(|| {
        *asked += 1;
        answers[(*asked - 1).min(answers.len() - 1)]
    })
}

#[test]
fn commits_that_never_end_are_found() {
    let mut asked = 0;
    assert_eq!(to_the_end_of(&[Timed(0), Sealed(0), Done(0)], &mut asked), Ok(Done(0)));
    assert_eq!(to_the_end_of(&[Aborted(21)], &mut 0), Ok(Aborted(21)));
    assert_eq!(asked, 3);
    let refused = to_the_end_of(&[Locked(0), Refused(4)], &mut 0);
    assert_eq!(refused, Err("an Advance is refused 4".into()));
    let mut asked = 0;
    let endless = to_the_end_of(&[Locked(0)], &mut asked);
    assert_eq!(endless, Err("not at its end after 35 Advances".into()));
    assert_eq!((asked, MOST_ADVANCES), (35, 35));
    // One more than any transaction takes is too much.
    let mut late = vec![Locked(0); 34];
    late.push(Done(1));
    assert_eq!(to_the_end_of(&late, &mut 0), Ok(Done(1)));
    late.insert(0, Locked(0));
    assert!(to_the_end_of(&late, &mut 0).is_err());
}

fn monitor_named(name: &str) -> Result<PathBuf, String> {
    outside::monitor_named(Some(OsString::from(name))).map_err(|error| error.to_string())
}

#[test]
fn a_monitor_that_can_not_run_is_an_error() {
    let folder = Path::new(env!("CARGO_TARGET_TMPDIR"));
    let plain = folder.join("no-program");
    fs::write(&plain, "no program").expect("the folder can be written");
    for name in ["", "no-such-program", &plain.to_string_lossy(), &folder.to_string_lossy()] {
        let error = format!("MONITOR names no program that can run: {name:?}");
        assert_eq!(monitor_named(name), Err(error));
    }
    assert_eq!(monitor_named(SHELL), Ok(PathBuf::from(SHELL)));
    let built = outside::monitor_named(None).expect("what the build has left");
    assert!(built.ends_with("target/bin/monitor"));
}

#[test]
fn a_soak_of_nothing_is_an_error() {
    let times = |said| random::times(Some(OsStr::new(said)));
    for said in ["", "0", "00", "-1", "ten", "1.5", "5 ", "99999999999999999999"] {
        let error = format!("SOAK must be a number above 0, not {said:?}");
        assert_eq!(times(said), Err(error));
    }
    assert_eq!(times("1"), Ok(1));
    assert_eq!(times("50"), Ok(50));
    assert_eq!(random::times(None), Ok(1));
}
