//! The lines of a file that a person writes: their words, and their errors, told all at once.

use std::fmt;

/// How many errors of a file are told. The others are counted.
const MOST_TOLD: usize = 20;
/// How many characters of a word are shown. The greatest number has 20.
const MOST_SHOWN: usize = 24;
/// The comma, and the wide one of other keyboards.
const COMMAS: [char; 2] = [',', '，'];

/// What is wrong with a line, counted from 1.
#[derive(Clone, Debug, PartialEq, Eq)]
pub struct TextError {
    pub line: usize,
    pub what: String,
}

impl fmt::Display for TextError {
    fn fmt(&self, f: &mut fmt::Formatter<'_>) -> fmt::Result {
        write!(f, "line {}: {}", self.line, self.what)
    }
}

/// The errors of a file: the first twenty, and how many more there are.
#[derive(Clone, Debug, Default, PartialEq, Eq)]
pub struct TextErrors {
    first: Vec<TextError>,
    more: usize,
}

impl TextErrors {
    fn add(&mut self, error: TextError) {
        if self.first.len() < MOST_TOLD {
            self.first.push(error);
        } else {
            self.more += 1;
        }
    }

    /// One line to each error, and a last one where there are more than twenty.
    pub fn told(&self) -> Vec<String> {
        let more = match self.more {
            0 => None,
            1 => Some("1 more error".to_string()),
            more => Some(format!("{more} more errors")),
        };
        self.first.iter().map(TextError::to_string).chain(more).collect()
    }
}

impl fmt::Display for TextErrors {
    fn fmt(&self, f: &mut fmt::Formatter<'_>) -> fmt::Result {
        f.write_str(&self.told().join("\n"))
    }
}

/// What each line holds, read with its number; or the errors of all lines, one to a line.
pub fn each<T>(
    text: &str,
    mut read: impl FnMut(usize, &str) -> Result<T, String>,
) -> Result<Vec<T>, TextErrors> {
    let (mut held, mut errors) = (Vec::new(), TextErrors::default());
    for (index, content) in text.lines().enumerate() {
        let line = index + 1;
        match read(line, content) {
            Ok(read) => held.push(read),
            Err(what) => errors.add(TextError { line, what }),
        }
    }
    if errors.first.is_empty() { Ok(held) } else { Err(errors) }
}

/// A line without its remark and the spaces around it.
pub fn code(line: &str) -> &str {
    line.split('#').next().unwrap_or_default().trim()
}

/// The first word of a text that is not in a remark.
pub fn first_word(text: &str) -> Option<&str> {
    text.lines().find_map(|line| code(line).split_whitespace().next())
}

/// The words of a line, without its remark.
pub fn words(line: &str) -> Result<Vec<&str>, String> {
    if let Some(unseen) = line.trim_end().chars().find(|&character| is_unseen(character)) {
        return Err(told_unseen(unseen));
    }
    let words: Vec<&str> = code(line).split_whitespace().collect();
    match words.iter().find(|word| word.contains(COMMAS)) {
        Some(word) => {
            Err(format!("'{}' has a comma: put spaces between numbers, and no commas", shown(word)))
        }
        None => Ok(words),
    }
}

/// A character that can't be seen has no place in a remark either: some programs end a line at
/// it, and a call could hide behind it.
fn is_unseen(character: char) -> bool {
    (character.is_control() && character != '\t') || matches!(character, '\u{2028}' | '\u{2029}')
}

fn told_unseen(unseen: char) -> String {
    if unseen == '\r' {
        return "the line ends as on an old Mac: save the file with Unix or Windows line ends"
            .to_string();
    }
    format!("the character {} can't be seen: take it out", unseen.escape_debug())
}

/// Whether a word begins as hex digits do in many programs, but not here.
pub fn begins_with_0x(word: &str) -> bool {
    word.starts_with("0x") || word.starts_with("0X")
}

/// A word as an error shows it: shortened, and without characters that can't be seen.
pub fn shown(word: &str) -> String {
    let mut shown = String::new();
    for (index, character) in word.chars().enumerate() {
        if index == MOST_SHOWN {
            return shown + "...";
        }
        match character {
            '\'' | '"' | '\\' => shown.push(character),
            _ => shown.extend(character.escape_debug()),
        }
    }
    shown
}
