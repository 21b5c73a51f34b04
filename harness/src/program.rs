//! The tape program: plays a tape to a monitor and prints one line to each call.

use std::io::{self, BufWriter, Read, Write};

use crate::answer::{Answer, Refusal};
use crate::clock::Widths;
use crate::monitor::Monitor;
use crate::tape::{Stop, TapeCall, TapeReader};

pub struct Program {
    monitor: Monitor,
    ready: bool,
}

impl Program {
    /// Before Setup has succeeded the program lends tables of no records.
    pub fn before_setup() -> Program {
        Program { monitor: Monitor::new(Widths::REAL, &[]), ready: false }
    }

    pub fn monitor(&self) -> &Monitor {
        &self.monitor
    }

    pub fn answer(&mut self, call: &TapeCall) -> Answer {
        match *call {
            TapeCall::Setup { .. } if self.ready => Refusal::SecondSetup.into(),
            TapeCall::Setup { count, .. } => self.set_up(count, call),
            _ => self.monitor.answer(&call.call()),
        }
    }

    /// A count that no table may have needs no test here: the monitor refuses such tables.
    fn set_up(&mut self, count: u16, call: &TapeCall) -> Answer {
        let mut monitor = Monitor::new(Widths::REAL, &vec![0; usize::from(count)]);
        let answer = monitor.answer(&call.call());
        if let Answer::Ready(_) = answer {
            self.monitor = monitor;
            self.ready = true;
        }
        answer
    }
}

/// Plays the tape, streaming. An error is one of input or output; a bad tape is none.
pub fn play(tape: impl Read, lines: impl Write) -> io::Result<()> {
    let mut lines = BufWriter::new(lines);
    match play_calls(tape, &mut lines) {
        Ok(count) => writeln!(lines, "end {count}")?,
        Err(Stop::Fault(fault)) => writeln!(lines, "stopped {} {}", fault.number(), fault.offset)?,
        Err(Stop::Io(error)) => return Err(error),
    }
    lines.flush()
}

/// The lines that a tape in memory gives.
pub fn play_bytes(tape: &[u8]) -> io::Result<Vec<u8>> {
    let mut lines = Vec::new();
    play(tape, &mut lines)?;
    Ok(lines)
}

fn play_calls(tape: impl Read, lines: &mut impl Write) -> Result<u64, Stop> {
    let mut reader = TapeReader::new(tape)?;
    let mut program = Program::before_setup();
    let mut count = 0;
    while let Some(call) = reader.next_call()? {
        count += 1;
        writeln!(lines, "{count} {}", program.answer(&call))?;
    }
    Ok(count)
}
