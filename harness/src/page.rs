//! The rows of an annotated run: what a call is answered, and beside it what that means.

use std::io::{self, Write};

use crate::colour::Colour;

/// A list is folded at this width.
const WIDTH: usize = 120;
/// As wide as an answer is but for very great numbers.
const ANSWER: usize = 14;
/// Two columns are as far apart.
const GAP: usize = 2;

pub struct Page<W> {
    output: W,
    colour: Colour,
}

impl<W: Write> Page<W> {
    pub fn new(output: W, colour: Colour) -> Page<W> {
        Page { output, colour }
    }

    /// Writes a row, which is one line: what stands at the left, the answer, and its words.
    pub fn row(&mut self, left: &str, answer: &str, words: &str) -> io::Result<()> {
        writeln!(self.output, "{left}{}{}{words}", self.colour.paint(answer), gap(answer))
    }

    /// Writes a name and its items, in as many lines as they need, each below the first.
    pub fn list<'a>(&mut self, name: &str, items: impl Iterator<Item = &'a str>) -> io::Result<()> {
        let gap = gap(name);
        let items = folded(name.len() + gap.len(), items);
        writeln!(self.output, "{name}{gap}{items}")
    }

    /// Writes text as it is.
    pub fn text(&mut self, text: &str) -> io::Result<()> {
        self.output.write_all(text.as_bytes())
    }

    /// Sends off all that was written.
    pub fn flush(&mut self) -> io::Result<()> {
        self.output.flush()
    }
}

/// What stands between an answer and its words.
fn gap(answer: &str) -> String {
    " ".repeat(ANSWER.saturating_sub(answer.len()) + GAP)
}

/// The items behind each other from this column on. One that would pass the width begins a new
/// line at that column.
fn folded<'a>(column: usize, items: impl Iterator<Item = &'a str>) -> String {
    let (mut text, mut at) = (String::new(), column);
    for item in items {
        if !text.is_empty() && at + 1 + item.len() > WIDTH {
            text.push('\n');
            text.push_str(&" ".repeat(column));
            at = column;
        } else if !text.is_empty() {
            text.push(' ');
            at += 1;
        }
        text.push_str(item);
        at += item.len();
    }
    text
}
