//! The monitor: lent tables and the calls on them, exact for tables of any lengths and contents.

use crate::answer::{Answer, Refusal};
use crate::call::Call;
use crate::clock::Widths;
use crate::flat::{Flat, SEAT_TABLE, count_fits};
use crate::plan::{Plan, SEATS};
use crate::row::Row;
use crate::tables::{Record, Tables};

#[derive(Clone, Debug, PartialEq, Eq)]
pub struct Monitor {
    lent: Lent,
}

/// No call changes a length, so refusal 1 is settled when the tables are lent.
#[derive(Clone, Debug, PartialEq, Eq)]
enum Lent {
    Fit(Box<Tables>),
    Unfit(Flat),
}

impl Monitor {
    /// Tables with these values and zero everywhere else.
    pub fn new(widths: Widths, values: &[u64]) -> Monitor {
        if !count_fits(values.len()) {
            let (words, seats) = (vec![0; values.len()], vec![0; SEAT_TABLE]);
            return Monitor { lent: Lent::Unfit(Flat { values: values.to_vec(), words, seats }) };
        }
        let word = widths.unpack(0);
        let records = values.iter().map(|&value| Record { value, word }).collect();
        let rows = Box::new([Row::default(); SEATS]);
        let tables = Tables { widths, records, plan: Plan::default(), rows };
        Monitor { lent: Lent::Fit(Box::new(tables)) }
    }

    /// The monitor that these tables are lent to. Tables of wrong lengths are kept as they are, for
    /// a monitor that refuses every call.
    pub fn load(flat: &Flat) -> Monitor {
        let unfit = || Lent::Unfit(flat.clone());
        Monitor { lent: flat.tables().map_or_else(unfit, |tables| Lent::Fit(Box::new(tables))) }
    }

    /// The tables as they were lent, after the calls so far.
    pub fn unload(&self) -> Flat {
        match &self.lent {
            Lent::Fit(tables) => Flat::from(&**tables),
            Lent::Unfit(flat) => flat.clone(),
        }
    }

    /// The tables, where their lengths are right.
    pub fn tables(&self) -> Option<&Tables> {
        match &self.lent {
            Lent::Fit(tables) => Some(tables),
            Lent::Unfit(_) => None,
        }
    }

    pub fn values(&self) -> Vec<u64> {
        match &self.lent {
            Lent::Fit(tables) => tables.values(),
            Lent::Unfit(flat) => flat.values.clone(),
        }
    }

    pub fn setup(&mut self, start: u64, plan: Plan) -> Answer {
        self.told(|tables| tables.setup(start, plan))
    }

    pub fn open(&mut self, owner: u64) -> Answer {
        self.told(|tables| tables.open(owner))
    }

    pub fn read(&mut self, owner: u64, seat: u64, record: u64) -> Answer {
        self.told(|tables| tables.read(owner, seat, record))
    }

    pub fn write(&mut self, owner: u64, seat: u64, record: u64, value: u64) -> Answer {
        self.told(|tables| tables.write(owner, seat, record, value))
    }

    pub fn advance(&mut self, owner: u64, seat: u64) -> Answer {
        self.told(|tables| tables.advance(owner, seat))
    }

    pub fn abandon(&mut self, owner: u64, seat: u64) -> Answer {
        self.told(|tables| tables.abandon(owner, seat))
    }

    pub fn answer(&mut self, call: &Call) -> Answer {
        match *call {
            Call::Setup { start, plan } => self.setup(start, plan),
            Call::Open { owner } => self.open(owner),
            Call::Read { owner, seat, record } => self.read(owner, seat, record),
            Call::Write { owner, seat, record, value } => self.write(owner, seat, record, value),
            Call::Advance { owner, seat } => self.advance(owner, seat),
            Call::Abandon { owner, seat } => self.abandon(owner, seat),
        }
    }

    fn told(&mut self, call: impl FnOnce(&mut Tables) -> Result<Answer, Refusal>) -> Answer {
        match &mut self.lent {
            Lent::Fit(tables) => call(tables).unwrap_or_else(Answer::from),
            Lent::Unfit(_) => Refusal::Lengths.into(),
        }
    }
}
