//! A file that holds a tape: as text, as hex digits or as bytes, told apart by its content.

use std::str;

use crate::text::{self, Written};
use crate::text_line::TextError;
use crate::{hex, tape};

/// How many bytes of a file that is no tape are shown.
const MOST_SHOWN: usize = 4;
/// What a tape begins with.
const BEGINNINGS: &str = "a text tape begins with a call or a remark, hex digits with the word \
                          hex or a digit, and a tape of bytes with the byte 01";

/// What a file holds.
#[derive(Clone, Debug, PartialEq, Eq)]
pub enum Source {
    /// A text tape: its calls, each with its line.
    Text(Vec<Written>),
    /// A tape as bytes, good or faulty; from a file of hex digits or from the tape itself.
    Bytes(Vec<u8>),
}

impl Source {
    /// The tape that the monitor is given.
    pub fn tape(&self) -> Vec<u8> {
        match self {
            Source::Text(written) => {
                let calls: Vec<tape::TapeCall> =
                    written.iter().map(|written| written.call).collect();
                tape::encode(&calls)
            }
            Source::Bytes(tape) => tape.clone(),
        }
    }
}

/// What these bytes of a file hold, or one line to each error.
pub fn source(bytes: Vec<u8>) -> Result<Source, Vec<String>> {
    if bytes.first() == Some(&tape::VERSION) {
        return Ok(Source::Bytes(bytes));
    }
    let text = to_text(&bytes).map_err(|what| vec![what])?;
    if hex::is_hex(text) {
        return hex::to_bytes(text).map(Source::Bytes).map_err(|errors| errors.told());
    }
    text::written(text).map(Source::Text).map_err(|errors| errors.told())
}

/// The text in these bytes, or why they hold none.
fn to_text(bytes: &[u8]) -> Result<&str, String> {
    let Some(&first) = bytes.first() else {
        return Err(format!("the file is empty: {BEGINNINGS}"));
    };
    if bytes.starts_with(b"\xef\xbb\xbf") {
        let what = "the file begins with a byte order mark: save it as UTF-8 without one";
        return Err(told(1, what));
    }
    if is_utf_16(bytes) {
        return Err(told(1, "the file is UTF-16: save it as UTF-8"));
    }
    if is_control(first) {
        return Err(no_tape(bytes));
    }
    str::from_utf8(bytes).map_err(|error| not_utf_8(bytes, error.valid_up_to()))
}

/// What is told of bytes that are UTF-8 only up to here.
fn not_utf_8(bytes: &[u8], valid: usize) -> String {
    if bytes.iter().any(|&byte| is_control(byte)) {
        return no_tape(bytes);
    }
    let line = 1 + bytes[..valid].iter().filter(|&&byte| byte == b'\n').count();
    let what = "is not UTF-8, perhaps Latin-1: save the file as UTF-8";
    told(line, &format!("byte {:02X} {what}", bytes[valid]))
}

fn told(line: usize, what: &str) -> String {
    TextError { line, what: what.to_string() }.to_string()
}

/// Whether a text is in UTF-16, by its mark or by the zero bytes of its first two letters.
fn is_utf_16(bytes: &[u8]) -> bool {
    let is_letter = |byte: u8| !is_control(byte) && byte.is_ascii();
    let first = &bytes[..bytes.len().min(4)];
    let pairs = || first.chunks(2);
    bytes.starts_with(b"\xff\xfe")
        || bytes.starts_with(b"\xfe\xff")
        || pairs().all(|pair| matches!(*pair, [letter, 0] if is_letter(letter)))
        || pairs().all(|pair| matches!(*pair, [0, letter] if is_letter(letter)))
}

/// Whether a byte stands in no text: it neither shows nor parts words or lines.
fn is_control(byte: u8) -> bool {
    byte.is_ascii_control() && !matches!(byte, b'\t' | b'\n' | b'\r')
}

/// What is told of a picture or a program.
fn no_tape(bytes: &[u8]) -> String {
    let first: Vec<String> =
        bytes.iter().take(MOST_SHOWN).map(|byte| format!("{byte:02X}")).collect();
    format!(
        "the file is no tape: it begins with the bytes {}, but {BEGINNINGS}; \
         save a text tape as plain text",
        first.join(" ")
    )
}
