//! The second program: a tape on standard input, one line to each call on standard output.

use std::io;
use std::process::ExitCode;

use second::program;

fn main() -> ExitCode {
    match program::play(io::stdin().lock(), io::stdout().lock()) {
        Ok(()) => ExitCode::SUCCESS,
        Err(error) => {
            eprintln!("second: {error}");
            ExitCode::FAILURE
        }
    }
}
