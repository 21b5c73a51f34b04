//! Plays a text tape, for tests that say what is told line by line.

use second::{program, text};

/// The lines that the program prints for this text tape.
pub fn told(tape: &str) -> String {
    let tape = text::to_tape(tape).unwrap_or_else(|error| panic!("{error}"));
    let lines = program::play_bytes(&tape).expect("memory can be read and written");
    String::from_utf8(lines).expect("lines are text")
}

/// Asserts that each call, one to a line, is answered as written after its colon.
pub fn play(script: &str) {
    let lines: Vec<&str> = script.lines().map(str::trim).filter(|line| !line.is_empty()).collect();
    let (calls, answers): (Vec<&str>, Vec<&str>) =
        lines.iter().map(|line| line.split_once(": ").expect("a call, a colon, an answer")).unzip();
    let told = told(&calls.join("\n"));
    for ((number, answer), line) in answers.iter().enumerate().zip(told.lines()) {
        assert_eq!(line, format!("{} {answer}", number + 1), "answers '{}'", calls[number]);
    }
    assert_eq!(told.lines().last(), Some(&format!("end {}", calls.len())[..]));
}
