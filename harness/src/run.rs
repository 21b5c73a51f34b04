//! A tape played by the monitor, its lines passed on as they come.

use std::io::Write;
use std::path::Path;
use std::str;
use std::sync::Arc;

use crate::line::{Ending, LONGEST_LINE, Line};
use crate::player::{Lost, Player, unwritten};

/// Plays a tape, and writes the monitor's lines to the output byte by byte as they are.
pub fn run(monitor: &Path, tape: Vec<u8>, output: impl Write) -> Result<Ending, String> {
    let mut player = Player::with_tape(monitor, Arc::new(tape))?;
    let passed = pass_on(&mut player, output);
    player.finish(passed)
}

fn pass_on(player: &mut Player, mut output: impl Write) -> Result<Ending, Lost> {
    let mut tail = Tail::default();
    while !tail.has_ended {
        player.part(|part| {
            tail.take(part);
            output.write_all(part).and_then(|()| output.flush()).map_err(unwritten)
        })?;
    }
    tail.ending().ok_or(Lost::BrokenOff)
}

/// The last bytes of the lines, as many as a line can have.
#[derive(Default)]
struct Tail {
    bytes: Vec<u8>,
    has_ended: bool,
}

impl Tail {
    /// Nothing more is the end of the lines.
    fn take(&mut self, part: &[u8]) {
        self.has_ended = part.is_empty();
        self.bytes.extend(&part[part.len().saturating_sub(LONGEST_LINE)..]);
        self.bytes.drain(..self.bytes.len().saturating_sub(LONGEST_LINE));
    }

    /// How the tape came to its end, where the last line is whole and says so.
    fn ending(&self) -> Option<Ending> {
        let lines = self.bytes.strip_suffix(b"\n")?;
        let last = lines.rsplit(|&byte| byte == b'\n').next()?;
        Line::parse(str::from_utf8(last).ok()?)?.ending()
    }
}
