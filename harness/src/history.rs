//! A judge of histories: from calls and answers alone it finds whether seats were given by the
//! plan, whether each refusal was due, whether commits took exactly their steps in order, and
//! whether a serial order exists.

use std::collections::BTreeMap;

use crate::answer::{Abort, Answer, Refusal};
use crate::call::Call;
use crate::plan::{OWNERS, Plan, SEATS};
use crate::row::{READS, WRITES};

/// A sealed transaction: what it read first of each record, and what it leaves.
#[derive(Clone, Debug, PartialEq, Eq)]
pub struct Sealed {
    pub time: u64,
    pub reads: Vec<(u64, u64)>,
    pub writes: BTreeMap<u64, u64>,
}

/// An open transaction, as its caller knows it.
#[derive(Clone, Debug, Default)]
struct Transaction {
    owner: u64,
    reads: Vec<(u64, u64)>,
    writes: BTreeMap<u64, u64>,
    advances: usize,
    time: Option<u64>,
    sealed: bool,
}

/// What one Advance has to do.
#[derive(Clone, Copy, Debug, PartialEq, Eq)]
enum Step {
    Lock(u64),
    Time,
    Check(u64),
    Seal,
    Store(u64),
    End,
}

/// Watches from just after one Setup; the next Setup needs a new judge.
#[derive(Clone, Debug)]
pub struct Judge {
    plan: Plan,
    opening: Vec<u64>,
    seats: Vec<Option<Transaction>>,
    sealed: Vec<Sealed>,
}

impl Judge {
    pub fn new(opening: &[u64], plan: Plan) -> Judge {
        Judge { plan, opening: opening.to_vec(), seats: vec![None; SEATS], sealed: Vec::new() }
    }

    /// Takes note of one answer; an error says what it breaks.
    pub fn observe(&mut self, call: &Call, answer: Answer) -> Result<(), String> {
        let heard = match *call {
            _ if answer == Refusal::Damaged.into() => Err("damage after Setup".into()),
            Call::Setup { .. } => refused(answer),
            Call::Open { owner } => self.hear_open(owner, answer),
            Call::Read { owner, seat, record } => self.hear_read(owner, seat, record, answer),
            Call::Write { owner, seat, record, value } => {
                self.hear_write(owner, seat, record, value, answer)
            }
            Call::Advance { owner, seat } => self.hear_advance(owner, seat, answer),
            Call::Abandon { owner, seat } => self.hear_abandon(owner, seat, answer),
        };
        heard.map_err(|what| format!("{call:?}, answer {answer}: {what}"))
    }

    /// The transactions sealed so far, in order of sealing.
    pub fn sealed(&self) -> &[Sealed] {
        &self.sealed
    }

    /// Whether a sealed transaction is not yet Done.
    pub fn store_is_left(&self) -> bool {
        self.seats.iter().flatten().any(|transaction| transaction.sealed)
    }

    /// Replays the sealed transactions by time, ties by sealing, from the opening values: each
    /// first read must find its value, and with no store left the values must be the final ones.
    pub fn verdict(&self, values: &[u64]) -> Result<(), String> {
        let mut serial: Vec<&Sealed> = self.sealed.iter().collect();
        serial.sort_by_key(|sealed| sealed.time);
        let mut replayed = self.opening.clone();
        for sealed in serial {
            replay(sealed, &mut replayed)?;
        }
        if !self.store_is_left() && replayed != values {
            return Err(format!(
                "the serial run ends with {replayed:?}, the tables with {values:?}"
            ));
        }
        Ok(())
    }

    fn hear_open(&mut self, owner: u64, answer: Answer) -> Result<(), String> {
        let lawful = self.lawful_open(owner);
        if answer != lawful {
            return Err(format!("the plan says {lawful}"));
        }
        if let Answer::Seat(seat) = answer {
            self.seats[seat as usize] = Some(Transaction { owner, ..Transaction::default() });
        }
        Ok(())
    }

    fn lawful_open(&self, owner: u64) -> Answer {
        if owner >= OWNERS as u64 {
            return Refusal::OutOfRange.into();
        }
        let owner = owner as usize;
        let held = self.held(owner);
        let claimed: u64 =
            (0..OWNERS).map(|each| self.held(each).max(self.plan.shares[each])).sum();
        if held >= self.plan.limits[owner] {
            return Refusal::AtLimit.into();
        }
        if held >= self.plan.shares[owner] && claimed == SEATS as u64 {
            return Refusal::NoSeat.into();
        }
        let lowest = self.seats.iter().position(Option::is_none);
        lowest.map_or(Refusal::NoSeat.into(), |seat| Answer::Seat(seat as u64))
    }

    fn held(&self, owner: usize) -> u64 {
        let held = self.seats.iter().flatten().filter(|held| held.owner == owner as u64);
        held.count() as u64
    }

    fn hear_read(
        &mut self,
        owner: u64,
        seat: u64,
        record: u64,
        answer: Answer,
    ) -> Result<(), String> {
        if let Err(refusal) = self.may_read(owner, seat, record) {
            return due(refusal, answer);
        }
        let Answer::Value(value) = answer else {
            return Err("a value is due".into());
        };
        let transaction = self.transaction(seat)?;
        match transaction.known(record) {
            Some(known) if known != value => Err(format!("the transaction knows {known}")),
            Some(_) => Ok(()),
            None => {
                transaction.reads.push((record, value));
                Ok(())
            }
        }
    }

    fn hear_write(
        &mut self,
        owner: u64,
        seat: u64,
        record: u64,
        value: u64,
        answer: Answer,
    ) -> Result<(), String> {
        if let Err(refusal) = self.may_write(owner, seat, record) {
            return due(refusal, answer);
        }
        if answer != Answer::Noted(record) {
            return Err(format!("{} is due", Answer::Noted(record)));
        }
        self.transaction(seat)?.writes.insert(record, value);
        Ok(())
    }

    fn hear_advance(&mut self, owner: u64, seat: u64, answer: Answer) -> Result<(), String> {
        if let Err(refusal) = self.held_by(owner, seat, 0) {
            return due(refusal, answer);
        }
        let transaction = self.transaction(seat)?;
        transaction.advance(answer)?;
        match answer {
            Answer::Timed(time) => transaction.time = Some(time),
            Answer::Sealed(time) => {
                transaction.sealed = true;
                let sealed = transaction.seal(time);
                self.sealed.push(sealed);
            }
            Answer::Done(_) | Answer::Aborted(_) => self.clear(seat),
            _ => {}
        }
        Ok(())
    }

    fn hear_abandon(&mut self, owner: u64, seat: u64, answer: Answer) -> Result<(), String> {
        if let Err(refusal) = self.may_leave(owner, seat) {
            return due(refusal, answer);
        }
        if answer != Answer::Dropped(seat) {
            return Err(format!("{} is due", Answer::Dropped(seat)));
        }
        self.clear(seat);
        Ok(())
    }

    /// The owner's transaction on the seat, or why a call that names them is refused: a number out
    /// of range, or a seat that is not the owner's.
    fn held_by(&self, owner: u64, seat: u64, record: u64) -> Result<&Transaction, Refusal> {
        if owner >= OWNERS as u64 || seat >= SEATS as u64 || record >= self.opening.len() as u64 {
            return Err(Refusal::OutOfRange);
        }
        let held = self.seats[seat as usize].as_ref();
        held.filter(|transaction| transaction.owner == owner).ok_or(Refusal::NotYours)
    }

    /// The same for a call that comes too late once the commit has begun.
    fn working(&self, owner: u64, seat: u64, record: u64) -> Result<&Transaction, Refusal> {
        let transaction = self.held_by(owner, seat, record)?;
        if transaction.advances > 0 { Err(Refusal::WrongPhase) } else { Ok(transaction) }
    }

    fn may_read(&self, owner: u64, seat: u64, record: u64) -> Result<(), Refusal> {
        let transaction = self.working(owner, seat, record)?;
        if transaction.known(record).is_some() {
            return Ok(());
        }
        if transaction.reads.len() == READS {
            return Err(Refusal::ReadsFull);
        }
        let locked = self.seats.iter().flatten().any(|other| other.holds(record));
        if locked { Err(Refusal::RecordLocked) } else { Ok(()) }
    }

    fn may_write(&self, owner: u64, seat: u64, record: u64) -> Result<(), Refusal> {
        let transaction = self.working(owner, seat, record)?;
        let is_full = transaction.writes.len() == WRITES;
        if is_full && !transaction.writes.contains_key(&record) {
            return Err(Refusal::WritesFull);
        }
        Ok(())
    }

    fn may_leave(&self, owner: u64, seat: u64) -> Result<(), Refusal> {
        let transaction = self.held_by(owner, seat, 0)?;
        if transaction.sealed { Err(Refusal::WrongPhase) } else { Ok(()) }
    }

    fn transaction(&mut self, seat: u64) -> Result<&mut Transaction, String> {
        let place = usize::try_from(seat).ok().and_then(|seat| self.seats.get_mut(seat));
        place.and_then(Option::as_mut).ok_or_else(|| "no such seat is open".into())
    }

    fn clear(&mut self, seat: u64) {
        self.seats[seat as usize] = None;
    }
}

impl Transaction {
    /// What the transaction must be told of a record it has met: its own write, or its first read.
    fn known(&self, record: u64) -> Option<u64> {
        let read = self.reads.iter().find(|&&(known, _)| known == record);
        self.writes.get(&record).copied().or(read.map(|&(_, value)| value))
    }

    /// Whether it was answered Locked for the record, and has not stored it since.
    fn holds(&self, record: u64) -> bool {
        let script = self.script();
        let taken = |step| script[..self.advances].contains(&step);
        taken(Step::Lock(record)) && !taken(Step::Store(record))
    }

    /// Every step from the first Advance to Done: 2w + r + 3 of them.
    fn script(&self) -> Vec<Step> {
        let written = || self.writes.keys().copied();
        let mut script: Vec<Step> = written().map(Step::Lock).collect();
        script.push(Step::Time);
        script.extend(self.reads.iter().map(|&(record, _)| Step::Check(record)));
        script.push(Step::Seal);
        script.extend(written().map(Step::Store));
        script.push(Step::End);
        script
    }

    /// Counts one Advance; an error says why it may not be answered so.
    fn advance(&mut self, answer: Answer) -> Result<(), String> {
        let script = self.script();
        let step = *script.get(self.advances).ok_or("every step is taken")?;
        self.advances += 1;
        if self.allows(step, answer) {
            return Ok(());
        }
        let (number, steps) = (self.advances, script.len());
        Err(self.disorder(answer).unwrap_or(format!("Advance {number} of {steps} is {step:?}")))
    }

    /// Whether the step may be answered so. Each abort belongs to one kind of step.
    fn allows(&self, step: Step, answer: Answer) -> bool {
        match (step, answer) {
            (Step::Lock(record), Answer::Locked(told))
            | (Step::Check(record), Answer::Checked(told))
            | (Step::Store(record), Answer::Stored(told)) => record == told,
            (Step::Seal, Answer::Sealed(time)) | (Step::End, Answer::Done(time)) => {
                self.time == Some(time)
            }
            (Step::Time, Answer::Timed(_)) => true,
            (Step::Lock(_), Answer::Aborted(abort)) => abort == Abort::LockMet as u64,
            (Step::Time, Answer::Aborted(abort)) => abort == Abort::EndOfTime as u64,
            (Step::Check(_), Answer::Aborted(abort)) => {
                [Abort::Overwritten as u64, Abort::LockedByAnother as u64].contains(&abort)
            }
            _ => false,
        }
    }

    /// What is wrong with an answer that stands on the wrong side of Sealed.
    fn disorder(&self, answer: Answer) -> Option<String> {
        let spelling = answer.spelling();
        match answer {
            Answer::Sealed(_) if self.sealed => Some("sealed twice".into()),
            Answer::Locked(_) | Answer::Timed(_) | Answer::Checked(_) | Answer::Aborted(_)
                if self.sealed =>
            {
                Some(format!("{spelling} after sealed"))
            }
            Answer::Stored(_) | Answer::Done(_) if !self.sealed => {
                Some(format!("{spelling} before sealed"))
            }
            _ => None,
        }
    }

    fn seal(&self, time: u64) -> Sealed {
        Sealed { time, reads: self.reads.clone(), writes: self.writes.clone() }
    }
}

/// The refusal that is due is the only lawful answer.
fn due(refusal: Refusal, answer: Answer) -> Result<(), String> {
    let lawful = Answer::from(refusal);
    if answer == lawful { Ok(()) } else { Err(format!("{lawful} is due")) }
}

/// A Setup that succeeds needs a new judge.
fn refused(answer: Answer) -> Result<(), String> {
    if answer.is_refused() { Ok(()) } else { Err("another judge is due".into()) }
}

fn replay(sealed: &Sealed, values: &mut [u64]) -> Result<(), String> {
    for &(record, value) in &sealed.reads {
        let found = values[record as usize];
        if found != value {
            return Err(format!("{sealed:?} should have read {found} of record {record}"));
        }
    }
    for (&record, &value) in &sealed.writes {
        values[record as usize] = value;
    }
    Ok(())
}
