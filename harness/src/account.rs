//! An account of a run: each answer with its words, and the totals at the end. It is made from the
//! calls and the monitor's lines alone.

use std::io::{self, Write};

use crate::line::{Ending, Line};
use crate::meaning::{ABORTED, Meaning, REFUSED};
use crate::observer::Observer;
use crate::page::Page;
use crate::player::{Lost, unwritten};
use crate::tape::TapeCall;
use crate::text_line::shown;
use crate::words;

pub struct Account<W> {
    pub page: Page<W>,
    observer: Observer,
}

impl<W: Write> Account<W> {
    pub fn new(page: Page<W>) -> Account<W> {
        Account { page, observer: Observer::default() }
    }

    /// Writes what the monitor's line answers to the next call.
    pub fn answer(&mut self, left: &str, call: &TapeCall, line: &str) -> Result<(), Lost> {
        let next = self.observer.answers().calls() + 1;
        let answer = match Line::parse(line) {
            Some(Line::Answer { call, answer }) if call == next => answer,
            _ => return Err(odd(line)),
        };
        let call = call.call();
        let words = words::answered(&self.observer, &call, answer).ok_or_else(|| odd(line))?;
        self.observer.hear(&call, answer);
        self.page.row(left, &answer.to_string(), &words).map_err(unwritten)
    }

    /// Writes what the monitor's last line means, and the totals.
    pub fn last(&mut self, left: &str, line: &str) -> Result<Ending, Lost> {
        let calls = self.observer.answers().calls();
        let said = Line::parse(line);
        let words = match said {
            Some(Line::End { calls: told }) if told == calls => Some(words::ended(calls)),
            Some(Line::Stopped { fault, offset }) => words::stopped(fault, offset, calls),
            _ => None,
        };
        let words = words.ok_or_else(|| odd(line))?;
        let ending = said.and_then(Line::ending).ok_or_else(|| odd(line))?;
        let written = self.page.row(left, line, &words).and_then(|()| self.totals());
        written.map(|()| ending).map_err(unwritten)
    }

    fn totals(&mut self) -> io::Result<()> {
        self.page.text("\n")?;
        self.total("done")?;
        self.totals_by_number("aborted", &ABORTED)?;
        self.totals_by_number("refused", &REFUSED)?;
        self.total("dropped")?;
        self.total_list("still open", self.open_seats())?;
        self.total_list("records", self.records())?;
        self.page.flush()
    }

    fn total(&mut self, name: &str) -> io::Result<()> {
        self.page.row("", name, &self.observer.answers().counted(name).to_string())
    }

    /// One total to each number that was met, and a 0 where none was.
    fn totals_by_number(&mut self, spelling: &str, table: &[Meaning]) -> io::Result<()> {
        let names = table.iter().map(|(number, _)| format!("{spelling} {number}"));
        let met: Vec<String> =
            names.filter(|name| self.observer.answers().counted(name) > 0).collect();
        if met.is_empty() {
            return self.total(spelling);
        }
        met.iter().try_for_each(|name| self.total(name))
    }

    fn total_list(&mut self, name: &str, mut items: Vec<String>) -> io::Result<()> {
        let last = items.len().saturating_sub(1);
        items[..last].iter_mut().for_each(|item| item.push(','));
        self.page.list(name, items.iter().map(String::as_str))
    }

    fn open_seats(&self) -> Vec<String> {
        let seats = self.observer.open_seats();
        let told: Vec<String> =
            seats.map(|(seat, owner)| format!("seat {seat} of owner {owner}")).collect();
        if told.is_empty() { vec!["no seat".to_string()] } else { told }
    }

    fn records(&self) -> Vec<String> {
        let changed = self.observer.changed();
        let mut told: Vec<String> =
            changed.map(|(record, value)| format!("record {record} is {value}")).collect();
        match (self.observer.records(), told.len() as u64) {
            (0, _) => told.push("there are none".to_string()),
            (_, 0) => told.push("all are 0".to_string()),
            (records, changed) if changed < records => told.push("all others are 0".to_string()),
            _ => {}
        }
        told
    }
}

/// A line that does not answer its call. The proved program gives none such, and what another
/// program tells may be anything.
fn odd(line: &str) -> Lost {
    Lost::Because(format!("this is no line of the monitor's, or not here: '{}'", shown(line)))
}
