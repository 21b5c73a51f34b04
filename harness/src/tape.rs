//! The tape: its calls, how they are written as bytes, and the reader that finds its faults.

use std::fmt;
use std::io::{self, BufReader, Read};

use crate::call::Call;
use crate::meaning::{STOPPED, meaning};
use crate::plan::{OWNERS, Plan};

pub const VERSION: u8 = 1;
/// The bytes of the shortest call: its length, its kind and an owner.
pub const SHORTEST_CALL: usize = 2 + 1 + 1;
const LONGEST_FRAME: usize = u16::MAX as usize;

/// A call with each number as wide as its field on the tape.
#[derive(Clone, Copy, Debug, PartialEq, Eq)]
pub enum TapeCall {
    Setup { count: u16, start: u64, shares: [u8; OWNERS], limits: [u8; OWNERS] },
    Open { owner: u8 },
    Read { owner: u8, seat: u8, record: u16 },
    Write { owner: u8, seat: u8, record: u16, value: u64 },
    Advance { owner: u8, seat: u8 },
    Abandon { owner: u8, seat: u8 },
}

impl TapeCall {
    /// The call that the monitor takes; a Setup's record count is for the program alone.
    pub fn call(&self) -> Call {
        match *self {
            TapeCall::Setup { start, shares, limits, .. } => {
                let plan = Plan { shares: shares.map(u64::from), limits: limits.map(u64::from) };
                Call::Setup { start, plan }
            }
            TapeCall::Open { owner } => Call::Open { owner: owner.into() },
            TapeCall::Read { owner, seat, record } => {
                Call::Read { owner: owner.into(), seat: seat.into(), record: record.into() }
            }
            TapeCall::Write { owner, seat, record, value } => {
                Call::Write { owner: owner.into(), seat: seat.into(), record: record.into(), value }
            }
            TapeCall::Advance { owner, seat } => {
                Call::Advance { owner: owner.into(), seat: seat.into() }
            }
            TapeCall::Abandon { owner, seat } => {
                Call::Abandon { owner: owner.into(), seat: seat.into() }
            }
        }
    }

    /// The tape's form of a call, where each number fits its field. A Setup is given this count.
    pub fn fitting(call: &Call, count: u16) -> Option<TapeCall> {
        match *call {
            Call::Setup { start, plan } => {
                let (shares, limits) = (to_bytes(plan.shares)?, to_bytes(plan.limits)?);
                Some(TapeCall::Setup { count, start, shares, limits })
            }
            Call::Open { owner } => Some(TapeCall::Open { owner: fit(owner)? }),
            Call::Read { owner, seat, record } => {
                Some(TapeCall::Read { owner: fit(owner)?, seat: fit(seat)?, record: fit(record)? })
            }
            Call::Write { owner, seat, record, value } => {
                let (owner, seat, record) = (fit(owner)?, fit(seat)?, fit(record)?);
                Some(TapeCall::Write { owner, seat, record, value })
            }
            Call::Advance { owner, seat } => {
                Some(TapeCall::Advance { owner: fit(owner)?, seat: fit(seat)? })
            }
            Call::Abandon { owner, seat } => {
                Some(TapeCall::Abandon { owner: fit(owner)?, seat: fit(seat)? })
            }
        }
    }

    /// The kind byte and the fields, without the length.
    fn body(&self) -> Vec<u8> {
        match *self {
            TapeCall::Setup { count, start, shares, limits } => {
                let numbers = [&[0][..], &count.to_be_bytes(), &start.to_be_bytes()];
                [&numbers.concat()[..], &shares, &limits].concat()
            }
            TapeCall::Open { owner } => vec![1, owner],
            TapeCall::Read { owner, seat, record } => {
                [&[2, owner, seat][..], &record.to_be_bytes()].concat()
            }
            TapeCall::Write { owner, seat, record, value } => {
                [&[3, owner, seat][..], &record.to_be_bytes(), &value.to_be_bytes()].concat()
            }
            TapeCall::Advance { owner, seat } => vec![4, owner, seat],
            TapeCall::Abandon { owner, seat } => vec![5, owner, seat],
        }
    }
}

fn fit<T: TryFrom<u64>>(number: u64) -> Option<T> {
    number.try_into().ok()
}

fn to_bytes(numbers: [u64; OWNERS]) -> Option<[u8; OWNERS]> {
    let mut bytes = [0; OWNERS];
    for (byte, number) in bytes.iter_mut().zip(numbers) {
        *byte = fit(number)?;
    }
    Some(bytes)
}

/// The whole tape of these calls.
pub fn encode(calls: &[TapeCall]) -> Vec<u8> {
    let mut tape = vec![VERSION];
    for call in calls {
        append(&mut tape, call);
    }
    tape
}

/// Puts one more call at the end of a tape.
pub fn append(tape: &mut Vec<u8>, call: &TapeCall) {
    let body = call.body();
    tape.extend((body.len() as u16).to_be_bytes());
    tape.extend(body);
}

/// What is wrong with a tape.
#[derive(Clone, Copy, Debug, PartialEq, Eq)]
pub enum FaultKind {
    NoVersion = 31,
    CutShort = 32,
    WrongLength = 33,
    UnknownKind = 34,
}

/// A fault and the offset of the version byte or of the length of the call it lies in.
#[derive(Clone, Copy, Debug, PartialEq, Eq)]
pub struct Fault {
    pub kind: FaultKind,
    pub offset: u64,
}

impl Fault {
    pub fn number(&self) -> u64 {
        self.kind as u64
    }
}

impl fmt::Display for Fault {
    fn fmt(&self, f: &mut fmt::Formatter<'_>) -> fmt::Result {
        let sentence = meaning(&STOPPED, self.number()).unwrap_or_default();
        write!(f, "stopped {} at byte {}: {sentence}", self.number(), self.offset)
    }
}

/// Why no further call comes from a tape that has not ended.
#[derive(Debug)]
pub enum Stop {
    Fault(Fault),
    Io(io::Error),
}

impl From<io::Error> for Stop {
    fn from(error: io::Error) -> Stop {
        Stop::Io(error)
    }
}

impl fmt::Display for Stop {
    fn fmt(&self, f: &mut fmt::Formatter<'_>) -> fmt::Result {
        match self {
            Stop::Fault(fault) => fault.fmt(f),
            Stop::Io(error) => error.fmt(f),
        }
    }
}

/// Reads a tape call by call, and keeps the offset that a fault is told with.
pub struct TapeReader<R> {
    input: BufReader<R>,
    offset: u64,
    frame: Box<[u8]>,
}

impl<R: Read> TapeReader<R> {
    /// Takes the version byte.
    pub fn new(input: R) -> Result<TapeReader<R>, Stop> {
        let frame = vec![0; LONGEST_FRAME].into_boxed_slice();
        let mut reader = TapeReader { input: BufReader::new(input), offset: 0, frame };
        if reader.fill(1)? < 1 || reader.frame[0] != VERSION {
            return Err(reader.fault(FaultKind::NoVersion));
        }
        reader.offset = 1;
        Ok(reader)
    }

    /// The next call, or None where the tape ends.
    pub fn next_call(&mut self) -> Result<Option<TapeCall>, Stop> {
        match self.fill(2)? {
            0 => return Ok(None),
            1 => return Err(self.fault(FaultKind::CutShort)),
            _ => {}
        }
        let length = usize::from(u16::from_be_bytes([self.frame[0], self.frame[1]]));
        if self.fill(length)? < length {
            return Err(self.fault(FaultKind::CutShort));
        }
        let call = decode(&self.frame[..length]).map_err(|kind| self.fault(kind))?;
        self.offset += 2 + length as u64;
        Ok(Some(call))
    }

    fn fault(&self, kind: FaultKind) -> Stop {
        Stop::Fault(Fault { kind, offset: self.offset })
    }

    /// Fills the frame with the next bytes; gives fewer than `length` only at the tape's end.
    fn fill(&mut self, length: usize) -> io::Result<usize> {
        let mut filled = 0;
        while filled < length {
            match self.input.read(&mut self.frame[filled..length]) {
                Ok(0) => break,
                Ok(more) => filled += more,
                Err(error) if error.kind() == io::ErrorKind::Interrupted => {}
                Err(error) => return Err(error),
            }
        }
        Ok(filled)
    }
}

/// Gives each call of a tape on, up to the tape's end or its fault.
pub fn each_call(tape: &[u8], mut take: impl FnMut(TapeCall)) -> Result<(), Stop> {
    let mut reader = TapeReader::new(tape)?;
    while let Some(call) = reader.next_call()? {
        take(call);
    }
    Ok(())
}

/// All calls of a tape without faults.
pub fn calls(tape: &[u8]) -> Result<Vec<TapeCall>, Stop> {
    let mut calls = Vec::new();
    each_call(tape, |call| calls.push(call))?;
    Ok(calls)
}

fn decode(frame: &[u8]) -> Result<TapeCall, FaultKind> {
    let (&kind, fields) = frame.split_first().ok_or(FaultKind::WrongLength)?;
    let mut fields = Fields(fields);
    let call = match kind {
        0 => fields.setup(),
        1 => fields.open(),
        2 => fields.read(),
        3 => fields.write(),
        4 => fields.advance(),
        5 => fields.abandon(),
        _ => return Err(FaultKind::UnknownKind),
    };
    call.filter(|_| fields.0.is_empty()).ok_or(FaultKind::WrongLength)
}

/// The fields not yet taken. Taking one that is not there gives None.
struct Fields<'a>(&'a [u8]);

impl Fields<'_> {
    fn bytes<const N: usize>(&mut self) -> Option<[u8; N]> {
        let (&taken, rest) = self.0.split_first_chunk()?;
        self.0 = rest;
        Some(taken)
    }

    fn byte(&mut self) -> Option<u8> {
        self.bytes().map(u8::from_be_bytes)
    }

    fn two(&mut self) -> Option<u16> {
        self.bytes().map(u16::from_be_bytes)
    }

    fn eight(&mut self) -> Option<u64> {
        self.bytes().map(u64::from_be_bytes)
    }

    fn setup(&mut self) -> Option<TapeCall> {
        let (count, start) = (self.two()?, self.eight()?);
        Some(TapeCall::Setup { count, start, shares: self.bytes()?, limits: self.bytes()? })
    }

    fn open(&mut self) -> Option<TapeCall> {
        Some(TapeCall::Open { owner: self.byte()? })
    }

    fn read(&mut self) -> Option<TapeCall> {
        Some(TapeCall::Read { owner: self.byte()?, seat: self.byte()?, record: self.two()? })
    }

    fn write(&mut self) -> Option<TapeCall> {
        let (owner, seat, record) = (self.byte()?, self.byte()?, self.two()?);
        Some(TapeCall::Write { owner, seat, record, value: self.eight()? })
    }

    fn advance(&mut self) -> Option<TapeCall> {
        Some(TapeCall::Advance { owner: self.byte()?, seat: self.byte()? })
    }

    fn abandon(&mut self) -> Option<TapeCall> {
        Some(TapeCall::Abandon { owner: self.byte()?, seat: self.byte()? })
    }
}
