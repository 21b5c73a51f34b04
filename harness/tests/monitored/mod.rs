//! The proved monitor program from outside: where it is, and what it makes of a tape.

use std::io;
use std::path::PathBuf;
use std::process::{ChildStdin, Command, Output};

use second::outside::{self, PATIENCE, most_lines};

pub fn monitor() -> PathBuf {
    outside::monitor().unwrap_or_else(|error| panic!("{error}"))
}

/// How a command that plays this tape ends, and what it tells on the streams that are piped. The
/// tape comes as `feed` writes it.
pub fn output(
    command: Command,
    tape: &[u8],
    feed: impl FnOnce(Option<ChildStdin>) -> io::Result<()> + Send,
) -> Output {
    let output = outside::output(command, PATIENCE, most_lines(tape), feed);
    output.unwrap_or_else(|error| panic!("{error}"))
}
