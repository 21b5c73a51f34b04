//! A line of the monitor: what a call is answered, or how the tape came to its end.

use crate::answer::Answer;

/// The bytes of the longest line: two numbers of 20 digits, a spelling of 7 letters, two blanks and
/// a line's end.
pub const LONGEST_LINE: usize = 20 + 7 + 20 + 3;

#[derive(Clone, Copy, Debug, PartialEq, Eq)]
pub enum Line {
    /// The call's number, counted from 1, and its answer.
    Answer { call: u64, answer: Answer },
    /// The tape was played whole: so many calls.
    End { calls: u64 },
    /// The tape has a fault at this byte.
    Stopped { fault: u64, offset: u64 },
}

/// How a tape came to its end.
#[derive(Clone, Copy, Debug, PartialEq, Eq)]
pub enum Ending {
    Ended,
    Stopped,
}

impl Line {
    /// What a line says, without its line's end. None where the monitor has no such line.
    pub fn parse(line: &str) -> Option<Line> {
        let parts: Vec<&str> = line.split(' ').collect();
        match parts[..] {
            ["end", calls] => Some(Line::End { calls: number(calls)? }),
            ["stopped", fault, offset] => {
                Some(Line::Stopped { fault: number(fault)?, offset: number(offset)? })
            }
            [call, spelling, carried] => {
                let answer = Answer::spelled(spelling, number(carried)?)?;
                Some(Line::Answer { call: number(call)?, answer })
            }
            _ => None,
        }
    }

    /// How the tape came to its end, where this is a last line.
    pub fn ending(self) -> Option<Ending> {
        match self {
            Line::Answer { .. } => None,
            Line::End { .. } => Some(Ending::Ended),
            Line::Stopped { .. } => Some(Ending::Stopped),
        }
    }
}

fn number(digits: &str) -> Option<u64> {
    digits.parse().ok()
}
