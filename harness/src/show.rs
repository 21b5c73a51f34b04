//! An annotated run: each call of a tape beside its answer, and what that means.

use std::borrow::Cow;
use std::io::Write;
use std::iter;
use std::path::Path;
use std::sync::Arc;

use crate::account::Account;
use crate::line::Ending;
use crate::page::Page;
use crate::player::{Lost, Player, unwritten};
use crate::source::Source;
use crate::tape::{SHORTEST_CALL, TapeCall, TapeReader};
use crate::text::Written;

/// As wide as a call is but for a Setup and very great numbers. A longer one moves the rest of its row.
const CALL: usize = 26;
/// The headings of the columns with numbers, which are at least as wide.
const LINE: &str = "line";
const NUMBER: &str = "no";

/// A call of the tape, with its words and the line of a text tape that it stands on.
struct Played<'a> {
    line: Option<usize>,
    words: Cow<'a, str>,
    call: TapeCall,
}

/// Plays a tape, and writes the account of it.
pub fn show(monitor: &Path, source: Source, page: Page<impl Write>) -> Result<Ending, String> {
    match source {
        Source::Text(ref written) => {
            let last = written.last().map_or(0, |written| written.line);
            let columns = Columns::new(Some(last), written.len());
            play(monitor, Arc::new(source.tape()), page, columns, of_text(written))
        }
        Source::Bytes(tape) => {
            let tape = Arc::new(tape);
            let columns = Columns::new(None, tape.len() / SHORTEST_CALL);
            play(monitor, Arc::clone(&tape), page, columns, of_bytes(&tape))
        }
    }
}

fn play<'a>(
    monitor: &Path,
    tape: Arc<Vec<u8>>,
    page: Page<impl Write>,
    columns: Columns,
    calls: impl Iterator<Item = Played<'a>>,
) -> Result<Ending, String> {
    let mut player = Player::with_tape(monitor, tape)?;
    let shown = rows(&mut player, Account::new(page), columns, calls);
    player.finish(shown)
}

/// Writes a row to each call, the last line and the totals. The last line comes where the calls
/// end: at the end of the tape, or before its fault.
fn rows<'a>(
    player: &mut Player,
    mut account: Account<impl Write>,
    columns: Columns,
    calls: impl Iterator<Item = Played<'a>>,
) -> Result<Ending, Lost> {
    account.page.row(&columns.heading(), "answer", "what it means").map_err(unwritten)?;
    for (number, played) in (1..).zip(calls) {
        let line = next_line(player, &mut account)?;
        account.answer(&columns.of(number, &played), &played.call, &line)?;
    }
    let line = next_line(player, &mut account)?;
    account.last(&columns.empty(), &line)
}

/// The next line. What was written before is sent off where the line has to be waited for.
fn next_line(player: &mut Player, account: &mut Account<impl Write>) -> Result<String, Lost> {
    if player.is_quiet() {
        account.page.flush().map_err(unwritten)?;
    }
    player.line()
}

fn of_text(written: &[Written]) -> impl Iterator<Item = Played<'_>> {
    written.iter().map(|&Written { line, ref words, call }| Played {
        line: Some(line),
        words: Cow::Borrowed(words),
        call,
    })
}

/// The calls before the end or the fault, which the monitor tells.
fn of_bytes(tape: &[u8]) -> impl Iterator<Item = Played<'static>> {
    let mut reader = TapeReader::new(tape).ok();
    let calls = iter::from_fn(move || reader.as_mut()?.next_call().ok().flatten());
    calls.map(|call| Played { line: None, words: call.to_string().into(), call })
}

/// The columns before the answer: a call's line, where the tape is a text, its number, as the
/// monitor's lines have it, and its words.
struct Columns {
    line_width: Option<usize>,
    number_width: usize,
}

impl Columns {
    /// With room for lines up to the last, and for so many calls.
    fn new(last_line: Option<usize>, calls: usize) -> Columns {
        let width = |heading: &str, most: usize| most.to_string().len().max(heading.len());
        Columns {
            line_width: last_line.map(|last| width(LINE, last)),
            number_width: width(NUMBER, calls),
        }
    }

    fn heading(&self) -> String {
        self.row(LINE, NUMBER, "call")
    }

    fn of(&self, number: usize, played: &Played) -> String {
        let line = played.line.map_or_else(String::new, |line| line.to_string());
        let words: Vec<&str> = played.words.split_whitespace().collect();
        self.row(&line, &number.to_string(), &words.join(" "))
    }

    fn empty(&self) -> String {
        self.row("", "", "")
    }

    fn row(&self, line: &str, number: &str, call: &str) -> String {
        let line = self.line_width.map_or_else(String::new, |width| format!("{line:>width$}  "));
        let width = self.number_width;
        format!("{line}{number:>width$}  {call:<CALL$}  ")
    }
}
