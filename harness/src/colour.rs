//! Colour for the words that say what came of a call. The word is always there: colour only helps
//! the eye to find it.

use std::ffi::OsStr;

/// Whether there is colour.
#[derive(Clone, Copy, Debug, PartialEq, Eq)]
pub enum Colour {
    On,
    Off,
}

impl Colour {
    /// For an output that is a terminal or not, and for what `NO_COLOR` says.
    pub fn wanted(terminal: bool, no_color: Option<&OsStr>) -> Colour {
        match terminal && no_color.is_none_or(OsStr::is_empty) {
            true => Colour::On,
            false => Colour::Off,
        }
    }

    /// The text with its first word in the colour of that word, where it has one.
    pub fn paint(self, text: &str) -> String {
        let (word, rest) = text.split_at(text.find(' ').unwrap_or(text.len()));
        match code(word).filter(|_| self == Colour::On) {
            Some(code) => format!("\x1b[{code}m{word}\x1b[0m{rest}"),
            None => text.to_string(),
        }
    }
}

/// The terminal's number of a word's colour.
fn code(word: &str) -> Option<u8> {
    const RED: u8 = 31;
    const GREEN: u8 = 32;
    const YELLOW: u8 = 33;
    const BLUE: u8 = 34;
    match word {
        "aborted" | "stopped" => Some(RED),
        "done" | "end" => Some(GREEN),
        "refused" => Some(YELLOW),
        "dropped" => Some(BLUE),
        _ => None,
    }
}
