//! What a caller is told: the answers, the reasons to refuse and the reasons to abort.

use std::fmt;

#[derive(Clone, Copy, Debug, PartialEq, Eq)]
pub enum Answer {
    Ready(u64),
    Seat(u64),
    Value(u64),
    Noted(u64),
    Locked(u64),
    Timed(u64),
    Checked(u64),
    Sealed(u64),
    Stored(u64),
    Done(u64),
    Dropped(u64),
    Refused(u64),
    Aborted(u64),
}

/// The answers in the order in which the boundary numbers their spellings.
pub const ANSWERS: [fn(u64) -> Answer; 13] = [
    Answer::Ready,
    Answer::Seat,
    Answer::Value,
    Answer::Noted,
    Answer::Locked,
    Answer::Timed,
    Answer::Checked,
    Answer::Sealed,
    Answer::Stored,
    Answer::Done,
    Answer::Dropped,
    Answer::Refused,
    Answer::Aborted,
];

impl Answer {
    pub fn spelling(self) -> &'static str {
        self.parts().0
    }

    pub fn number(self) -> u64 {
        self.parts().1
    }

    /// The answer with this word and number, as a line of the monitor has them.
    pub fn spelled(spelling: &str, number: u64) -> Option<Answer> {
        let mut numbered = ANSWERS.iter().map(|answer| answer(number));
        numbered.find(|answer| answer.spelling() == spelling)
    }

    pub fn is_refused(self) -> bool {
        matches!(self, Answer::Refused(_))
    }

    fn parts(self) -> (&'static str, u64) {
        match self {
            Answer::Ready(count) => ("ready", count),
            Answer::Seat(seat) => ("seat", seat),
            Answer::Value(value) => ("value", value),
            Answer::Noted(record) => ("noted", record),
            Answer::Locked(record) => ("locked", record),
            Answer::Timed(time) => ("timed", time),
            Answer::Checked(record) => ("checked", record),
            Answer::Sealed(time) => ("sealed", time),
            Answer::Stored(record) => ("stored", record),
            Answer::Done(time) => ("done", time),
            Answer::Dropped(seat) => ("dropped", seat),
            Answer::Refused(number) => ("refused", number),
            Answer::Aborted(number) => ("aborted", number),
        }
    }
}

impl fmt::Display for Answer {
    fn fmt(&self, f: &mut fmt::Formatter<'_>) -> fmt::Result {
        let (spelling, number) = self.parts();
        write!(f, "{spelling} {number}")
    }
}

/// Why a call is refused. A refusal leaves every table as it was.
#[derive(Clone, Copy, Debug, PartialEq, Eq)]
pub enum Refusal {
    Lengths = 1,
    OutOfRange = 2,
    Damaged = 3,
    NotYours = 4,
    WrongPhase = 5,
    AtLimit = 6,
    NoSeat = 7,
    ReadsFull = 8,
    WritesFull = 9,
    RecordLocked = 10,
    BadPlan = 11,
    SecondSetup = 35,
}

impl From<Refusal> for Answer {
    fn from(refusal: Refusal) -> Answer {
        Answer::Refused(refusal as u64)
    }
}

/// Why an Advance aborts. An abort clears the seat's locks and frees its row.
#[derive(Clone, Copy, Debug, PartialEq, Eq)]
pub enum Abort {
    LockMet = 21,
    Overwritten = 22,
    LockedByAnother = 23,
    EndOfTime = 24,
}

impl From<Abort> for Answer {
    fn from(abort: Abort) -> Answer {
        Answer::Aborted(abort as u64)
    }
}
