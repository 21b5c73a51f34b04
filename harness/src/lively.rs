//! Random tapes: lively histories, stray numbers, Setups that fail or repeat, long climbs of a
//! record's time, and damage to the bytes.

use crate::answer::Answer;
use crate::call::Call;
use crate::clock::Widths;
use crate::crowd::{Crowd, Holder, sound_plan};
use crate::plan::OWNERS;
use crate::program::Program;
use crate::random::Random;
use crate::row::MOST_ADVANCES;
use crate::tape::{self, TapeCall, VERSION};

const TOP: u64 = Widths::REAL.greatest_time();

/// Writes calls down as it plays them, so that each call can follow from what was told before.
pub struct Recorder {
    program: Program,
    crowd: Crowd,
    tape: Vec<u8>,
    write_times: Vec<u64>,
    moved: u64,
}

impl Recorder {
    /// A crowd that calls for this many records, before any Setup.
    fn new(random: &mut Random, records: u16) -> Recorder {
        Recorder {
            program: Program::before_setup(),
            crowd: Crowd::new(random, records.into()),
            tape: vec![VERSION],
            write_times: Vec::new(),
            moved: 0,
        }
    }

    fn call(&mut self, call: TapeCall) -> Answer {
        tape::append(&mut self.tape, &call);
        let answer = self.program.answer(&call);
        self.crowd.hear(&call.call(), answer);
        self.watch(answer);
        answer
    }

    /// What the crowd calls next.
    fn crowd_call(&self, random: &mut Random) -> TapeCall {
        let call = self.crowd.next_call(random);
        TapeCall::fitting(&call, 0).expect("a crowd's numbers fit")
    }

    /// So many calls of the crowd.
    fn crowd_calls(&mut self, random: &mut Random, calls: u64) {
        for _ in 0..calls {
            let call = self.crowd_call(random);
            self.call(call);
        }
    }

    /// Advances every seat until none is held, so that no record is locked.
    fn settle(&mut self) {
        for Holder { owner, seat, .. } in self.crowd.holders().to_vec().into_iter().rev() {
            self.commit(owner as u8, seat as u8);
        }
    }

    /// Writes a record in so many commits of owner 0, each at a time one later than the last.
    /// Ends early where no time is left.
    fn climb(&mut self, record: u16, commits: u64) {
        for value in 0..commits {
            let Answer::Seat(seat) = self.call(TapeCall::Open { owner: 0 }) else {
                return;
            };
            let (owner, seat) = (0, seat as u8);
            self.call(TapeCall::Write { owner, seat, record, value });
            let Answer::Done(_) = self.commit(owner, seat) else {
                return;
            };
        }
    }

    /// Advances a seat to its end, and gives the last answer.
    fn commit(&mut self, owner: u8, seat: u8) -> Answer {
        let ended = to_the_end(|| self.call(TapeCall::Advance { owner, seat }));
        ended.unwrap_or_else(|what| panic!("seat {seat}: {what}"))
    }

    /// Counts the write times that an extension has moved. Only Checked can tell of one.
    fn watch(&mut self, answer: Answer) {
        let Some(tables) = self.program.monitor().tables() else {
            return;
        };
        let write_time = |record: u64| tables.records[record as usize].word.write_time();
        match answer {
            Answer::Ready(count) => self.write_times = (0..count).map(write_time).collect(),
            Answer::Stored(record) => self.write_times[record as usize] = write_time(record),
            Answer::Checked(record) => {
                let (last, now) = (&mut self.write_times[record as usize], write_time(record));
                self.moved += u64::from(*last != now);
                *last = now;
            }
            _ => {}
        }
    }

    /// How many write times an extension has moved.
    pub fn moved(&self) -> u64 {
        self.moved
    }

    pub fn tape(self) -> Vec<u8> {
        self.tape
    }
}

/// Advances a seat until it is given back, and gives the last answer. It is an error where an
/// Advance is refused, or where more are taken than any transaction needs.
pub fn to_the_end(mut advance: impl FnMut() -> Answer) -> Result<Answer, String> {
    for _ in 0..MOST_ADVANCES {
        match advance() {
            ended @ (Answer::Done(_) | Answer::Aborted(_)) => return Ok(ended),
            Answer::Refused(number) => return Err(format!("an Advance is refused {number}")),
            _ => {}
        }
    }
    Err(format!("not at its end after {MOST_ADVANCES} Advances"))
}

/// A tape of about so many calls. Most of them make sense.
pub fn tape(random: &mut Random, calls: u64) -> Vec<u8> {
    let records = random.pick(&[1, 2, 3, 5, 24, 1024]).unwrap_or(1);
    let mut recorder = Recorder::new(random, records);
    while random.once_in(4) {
        let call = if random.once_in(2) { any_call(random) } else { odd_setup(random) };
        recorder.call(call);
    }
    recorder.call(sound_setup(random, records));
    for _ in 0..calls / 2 + random.below(calls) {
        let call = match random.below(100) {
            0 => any_call(random),
            1 => odd_setup(random),
            _ => recorder.crowd_call(random),
        };
        recorder.call(call);
    }
    recorder.tape()
}

/// A history in which so many commits move one record's time past the others', with lively work
/// before and after.
pub fn climb(random: &mut Random, start: u64, commits: u64) -> Recorder {
    let count = 100;
    let mut recorder = Recorder::new(random, count);
    let (shares, limits) = ([4; OWNERS], [64; OWNERS]);
    recorder.call(TapeCall::Setup { count, start, shares, limits });
    recorder.crowd_calls(random, 300);
    recorder.settle();
    recorder.climb(random.below(count.into()) as u16, commits);
    recorder.crowd_calls(random, 10_000);
    recorder
}

/// A tape on which seat 0 keeps its read of record 1 from time 2, another seat's check extends
/// that record to this time, and then seat 0 checks its read at a later time.
pub fn far_check(time: u64) -> Vec<u8> {
    let mut recorder = Recorder::new(&mut Random::new(0), 2);
    let (shares, limits) = ([4; OWNERS], [64; OWNERS]);
    recorder.call(TapeCall::Setup { count: 2, start: 2, shares, limits });
    recorder.call(TapeCall::Open { owner: 1 });
    recorder.call(TapeCall::Read { owner: 1, seat: 0, record: 1 });
    recorder.climb(0, time - 2);
    recorder.call(TapeCall::Open { owner: 2 });
    recorder.call(TapeCall::Read { owner: 2, seat: 1, record: 0 });
    recorder.call(TapeCall::Read { owner: 2, seat: 1, record: 1 });
    recorder.commit(2, 1);
    recorder.call(TapeCall::Write { owner: 1, seat: 0, record: 0, value: 7 });
    recorder.commit(1, 0);
    recorder.tape()
}

/// A start near 0, near T, or anywhere between.
pub fn start(random: &mut Random) -> u64 {
    match random.below(4) {
        0 => TOP - random.below(3),
        1 => random.below(TOP),
        _ => random.below(3),
    }
}

fn sound_setup(random: &mut Random, count: u16) -> TapeCall {
    let setup = Call::Setup { start: start(random), plan: sound_plan(random) };
    TapeCall::fitting(&setup, count).expect("a sound plan's numbers fit")
}

/// A Setup that mostly fails, by its count, its start or its plan.
fn odd_setup(random: &mut Random) -> TapeCall {
    let sound = sound_setup(random, 3);
    let TapeCall::Setup { mut count, mut start, mut shares, mut limits } = sound else {
        return sound;
    };
    let owner = random.below(OWNERS as u64) as usize;
    let edge = random.pick(&[0, 1, 33, 64, 65, 255]).unwrap_or(0);
    match random.below(4) {
        0 => count = random.pick(&[0, 1, 1024, 1025, u16::MAX]).unwrap_or(0),
        1 => start = random.pick(&[TOP, TOP + 1, u64::MAX]).unwrap_or(TOP),
        2 => shares[owner] = edge,
        _ => limits[owner] = edge,
    }
    TapeCall::Setup { count, start, shares, limits }
}

/// A call whose fields are any numbers at all, and often the greatest.
pub fn any_call(random: &mut Random) -> TapeCall {
    let (owner, seat) = (random.number() as u8, random.number() as u8);
    let (record, value) = (random.number() as u16, random.number() >> random.below(64));
    match random.below(6) {
        0 => TapeCall::Setup {
            count: record,
            start: value,
            shares: std::array::from_fn(|_| random.number() as u8 & owner),
            limits: std::array::from_fn(|place| if place < 9 { seat } else { 0 }),
        },
        1 => TapeCall::Open { owner },
        2 => TapeCall::Read { owner, seat, record },
        3 => TapeCall::Write { owner, seat, record, value },
        4 => TapeCall::Advance { owner, seat },
        _ => TapeCall::Abandon { owner, seat },
    }
}

/// Damages a tape: a byte changed, the end cut off, or bytes put after it.
pub fn damage(random: &mut Random, tape: &mut Vec<u8>) {
    let length = tape.len() as u64;
    if length == 0 {
        return;
    }
    // The first bytes are few, but matter as much as all others.
    let within = if random.once_in(8) { length.min(4) } else { length };
    let place = random.below(within) as usize;
    match random.below(3) {
        0 => tape[place] ^= 1 + random.below(255) as u8,
        1 => tape.truncate(place),
        _ => tape.extend((0..=random.below(6)).map(|_| random.below(8) as u8)),
    }
}
