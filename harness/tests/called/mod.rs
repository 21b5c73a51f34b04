//! The program `tape` from outside: what it tells, and its exit status.

use std::path::Path;
use std::process::{Command, Stdio};

use second::outside::{self, PATIENCE};

pub const TAPE: &str = env!("CARGO_BIN_EXE_tape");
/// More bytes than any test here is told.
const MOST: usize = 100_000_000;

/// What a program told on its two streams, and its exit status.
pub struct Told {
    pub output: String,
    pub errors: String,
    pub status: Option<i32>,
}

/// A command of `tape`, with this program for the monitor.
pub fn tape(monitor: &Path, arguments: &[&str]) -> Command {
    let mut command = Command::new(TAPE);
    command.args(arguments).env("MONITOR", monitor).env_remove("NO_COLOR");
    command
}

/// What a program tells for this input.
pub fn told(command: Command, input: &[u8]) -> Told {
    told_into(Stdio::piped(), command, input)
}

/// The same where its output goes elsewhere.
pub fn told_into(output: impl Into<Stdio>, mut command: Command, input: &[u8]) -> Told {
    command.stdin(Stdio::piped()).stdout(output).stderr(Stdio::piped());
    let told = outside::output(command, PATIENCE, MOST, outside::bytes(input));
    let told = told.unwrap_or_else(|error| panic!("{error}"));
    let text = |bytes| String::from_utf8(bytes).expect("text");
    Told { output: text(told.stdout), errors: text(told.stderr), status: told.status.code() }
}
