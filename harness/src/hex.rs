//! A tape written as hex digits, for the bytes that a text tape has no call for.

use crate::text_line::{self, TextErrors, begins_with_0x, shown};

/// The word that a file of hex digits may begin with.
pub const MARK: &str = "hex";

/// Whether a text is one of hex digits: its first word is `hex`, or begins with a digit.
pub fn is_hex(text: &str) -> bool {
    let first = text_line::first_word(text);
    first.is_some_and(|word| word == MARK || word.starts_with(|first: char| first.is_ascii_digit()))
}

/// The bytes of the digits. Spaces may stand between bytes, and '#' begins a remark.
pub fn to_bytes(text: &str) -> Result<Vec<u8>, TextErrors> {
    let mut begun = false;
    let lines = text_line::each(text, |_, content| {
        let words = text_line::words(content)?;
        let mark = usize::from(!begun && words.first() == Some(&MARK));
        begun |= !words.is_empty();
        words[mark..].iter().map(|word| pairs(word)).collect::<Result<Vec<_>, _>>()
    })?;
    Ok(lines.concat().concat())
}

fn pairs(word: &str) -> Result<Vec<u8>, String> {
    let digits: Option<Vec<u32>> = word.chars().map(|digit| digit.to_digit(16)).collect();
    let Some(digits) = digits else {
        return Err(no_digits(word));
    };
    if !digits.len().is_multiple_of(2) {
        return Err(no_byte(word, "has a digit too few or too many"));
    }
    Ok(digits.chunks(2).map(|pair| (pair[0] * 16 + pair[1]) as u8).collect())
}

fn no_digits(word: &str) -> String {
    if begins_with_0x(word) {
        return format!("'{}' begins with 0x: write the hex digits alone", shown(word));
    }
    no_byte(word, "is no byte")
}

/// A text tape that begins with a digit by mistake is met here too.
fn no_byte(word: &str, why: &str) -> String {
    format!(
        "'{}' {why}, and this file is read as hex digits: a byte is two of 0 to 9 and a to f",
        shown(word)
    )
}
