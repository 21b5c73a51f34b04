//! The text tape: one call to a line, turned into a tape and back.

use std::fmt;

use crate::hex;
use crate::nearest::nearest;
use crate::number::{COUNT, Field, LIMIT, OWNER, RECORD, SEAT, SHARE, START, VALUE, number};
use crate::plan::OWNERS;
use crate::tape::{self, Stop, TapeCall};
use crate::text_line::{self, TextErrors, shown};

/// The names of the calls.
const CALLS: [&str; 6] = ["setup", "open", "read", "write", "advance", "abandon"];
/// A good Setup, to write another by.
const A_SETUP: &str = "setup 2 start 0 shares 1 1 limits 2 2";

/// A call of a text tape: its line, counted from 1, its words as written there, and the call.
#[derive(Clone, Debug, PartialEq, Eq)]
pub struct Written {
    pub line: usize,
    pub words: String,
    pub call: TapeCall,
}

/// The calls of a text tape, each with its line.
pub fn written(text: &str) -> Result<Vec<Written>, TextErrors> {
    let lines = text_line::each(text, |line, content| {
        let words = text_line::code(content).to_string();
        Ok(parse_line(content)?.map(|call| Written { line, words, call }))
    })?;
    Ok(lines.into_iter().flatten().collect())
}

/// The calls of a text tape.
pub fn calls(text: &str) -> Result<Vec<TapeCall>, TextErrors> {
    Ok(written(text)?.iter().map(|written| written.call).collect())
}

pub fn to_tape(text: &str) -> Result<Vec<u8>, TextErrors> {
    Ok(tape::encode(&calls(text)?))
}

/// A tape as canonical text. Where the tape stops before its end, a remark after the calls says
/// why, and so does `stop`.
#[derive(Debug)]
pub struct Decoded {
    pub text: String,
    pub stop: Option<Stop>,
}

/// The text of a tape, good or faulty.
pub fn from_tape(tape: &[u8]) -> Decoded {
    let mut text = String::new();
    let stop = tape::each_call(tape, |call| text += &format!("{call}\n")).err();
    if let Some(stop) = &stop {
        text += &format!("# {stop}\n");
    }
    Decoded { text, stop }
}

/// The call of one line, or None where the line is blank or a remark.
pub fn parse_line(line: &str) -> Result<Option<TapeCall>, String> {
    let words = text_line::words(line)?;
    match words[..] {
        [] => Ok(None),
        ["setup", ref fields @ ..] => Fields(fields).setup().map(Some),
        [name, ref fields @ ..] => parse_call(name, fields).map(Some),
    }
}

fn parse_call(name: &str, fields: &[&str]) -> Result<TapeCall, String> {
    match (name, fields) {
        ("open", &[owner]) => Ok(TapeCall::Open { owner: number(&OWNER, owner)? }),
        ("read", &[owner, seat, record]) => Ok(TapeCall::Read {
            owner: number(&OWNER, owner)?,
            seat: number(&SEAT, seat)?,
            record: number(&RECORD, record)?,
        }),
        ("write", &[owner, seat, record, value]) => Ok(TapeCall::Write {
            owner: number(&OWNER, owner)?,
            seat: number(&SEAT, seat)?,
            record: number(&RECORD, record)?,
            value: number(&VALUE, value)?,
        }),
        ("advance", &[owner, seat]) => {
            Ok(TapeCall::Advance { owner: number(&OWNER, owner)?, seat: number(&SEAT, seat)? })
        }
        ("abandon", &[owner, seat]) => {
            Ok(TapeCall::Abandon { owner: number(&OWNER, owner)?, seat: number(&SEAT, seat)? })
        }
        _ => Err(wrong_call(name, fields.len())),
    }
}

/// Why a name with so many words after it is none of the calls that take numbers alone.
fn wrong_call(name: &str, given: usize) -> String {
    let (takes, example) = match name {
        "open" => ("one number, the owner", "open 0"),
        "read" => ("three numbers, owner, seat and record", "read 0 0 1"),
        "write" => ("four numbers, owner, seat, record and value", "write 0 0 1 7"),
        "advance" => ("two numbers, owner and seat", "advance 0 0"),
        "abandon" => ("two numbers, owner and seat", "abandon 0 0"),
        _ => return not_a_call(name),
    };
    let given = match given {
        0 => "here is none".to_string(),
        1 => "here is 1".to_string(),
        _ => format!("here are {given}"),
    };
    format!("{name} takes {takes}, but {given}; for example: {example}")
}

fn not_a_call(name: &str) -> String {
    let found = shown(name);
    let small = name.to_lowercase();
    if small == hex::MARK {
        return format!("'{found}' is not a call: a file of hex digits begins with the word hex");
    }
    if CALLS.contains(&&small[..]) {
        return format!("'{found}' is not a call: calls are written in small letters, as {small}");
    }
    let advice = match nearest(name, &CALLS) {
        Some(call) => format!("; did you mean {call}?"),
        None if name.starts_with(char::is_alphanumeric) => String::new(),
        None => "; a remark begins with #".to_string(),
    };
    format!("'{found}' is not a call: the calls are {}{advice}", CALLS.join(", "))
}

/// The words of a Setup that are not yet taken.
struct Fields<'a>(&'a [&'a str]);

impl<'a> Fields<'a> {
    fn setup(mut self) -> Result<TapeCall, String> {
        let count = self.number(&COUNT)?;
        self.part("start")?;
        let start = self.number(&START)?;
        let shares = self.sixteen("shares", &SHARE)?;
        let limits = self.sixteen("limits", &LIMIT)?;
        if !self.0.is_empty() {
            return Err(self.instead_of("its end"));
        }
        Ok(TapeCall::Setup { count, start, shares, limits })
    }

    fn number<T: TryFrom<u64>>(&mut self, field: &Field) -> Result<T, String> {
        let word = self.take(&format!("the {}", field.name), |word| !is_part(word))?;
        number(field, word)
    }

    fn part(&mut self, part: &str) -> Result<(), String> {
        self.take(&format!("'{part}'"), |word| word == part)?;
        Ok(())
    }

    /// The part's word and up to sixteen numbers, one to an owner. Those left out are 0.
    fn sixteen(&mut self, part: &str, field: &Field) -> Result<[u8; OWNERS], String> {
        self.part(part)?;
        let given = self.0.iter().position(|word| is_part(word)).unwrap_or(self.0.len());
        let (words, rest) = self.0.split_at(given);
        if given == 0 {
            return Err(format!("'{part}' has no number: write at least one, as {part} 0"));
        }
        if given > OWNERS {
            return Err(format!("setup takes up to sixteen {part}, but here are {given}"));
        }
        let mut numbers = [0; OWNERS];
        for (place, word) in numbers.iter_mut().zip(words) {
            *place = number(field, word)?;
        }
        self.0 = rest;
        Ok(numbers)
    }

    /// Takes the next word, if it is one of those that are wanted here.
    fn take(&mut self, wanted: &str, fits: impl Fn(&str) -> bool) -> Result<&'a str, String> {
        match self.0 {
            [word, rest @ ..] if fits(word) => {
                self.0 = rest;
                Ok(word)
            }
            _ => Err(self.instead_of(wanted)),
        }
    }

    fn instead_of(&self, wanted: &str) -> String {
        let found = match self.0 {
            [] => "ends".to_string(),
            [word, ..] => format!("has '{}'", shown(word)),
        };
        format!("setup {found} where {wanted} is wanted; for example: {A_SETUP}")
    }
}

/// Whether a word is meant to begin a part of a Setup, if with a capital or without its last s.
fn is_part(word: &str) -> bool {
    let small = word.to_lowercase();
    ["start", "share", "limit"].iter().any(|part| small.starts_with(part))
}

impl fmt::Display for TapeCall {
    fn fmt(&self, f: &mut fmt::Formatter<'_>) -> fmt::Result {
        match self {
            TapeCall::Setup { count, start, shares, limits } => {
                let (shares, limits) = (listed(shares), listed(limits));
                write!(f, "setup {count} start {start} shares {shares} limits {limits}")
            }
            TapeCall::Open { owner } => write!(f, "open {owner}"),
            TapeCall::Read { owner, seat, record } => write!(f, "read {owner} {seat} {record}"),
            TapeCall::Write { owner, seat, record, value } => {
                write!(f, "write {owner} {seat} {record} {value}")
            }
            TapeCall::Advance { owner, seat } => write!(f, "advance {owner} {seat}"),
            TapeCall::Abandon { owner, seat } => write!(f, "abandon {owner} {seat}"),
        }
    }
}

/// The numbers without the zeros at their end, but at least one.
fn listed(numbers: &[u8; OWNERS]) -> String {
    let last = numbers.iter().rposition(|&number| number != 0).unwrap_or(0);
    let texts: Vec<String> = numbers[..=last].iter().map(u8::to_string).collect();
    texts.join(" ")
}
