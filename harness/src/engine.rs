//! The proved engine, called through its C boundary on flat tables.

use crate::answer::{ANSWERS, Answer};
use crate::call::Call;
use crate::flat::Flat;
use crate::plan::{OWNERS, Plan};

/// A table, a place for one number or a plan, as the boundary takes it: where it starts.
type Lent = *const u64;
type LentMut = *mut u64;
type LentPlan = *const [u64; 2 * OWNERS];

/// A call of the boundary as it is declared here: its name, its parameters, each by its name and
/// its type, and its result. A test holds it beside the C header and the engine's own source.
pub struct Declared {
    pub call: &'static str,
    pub parameters: &'static [(&'static str, &'static str)],
    pub result: &'static str,
}

/// Declares the calls of the boundary. All take the three tables first and the answer's number
/// last; they differ in whether values and words may change, and in the fields between. Nothing
/// lent to a call may overlap anything else that is lent to it, plan and number included.
macro_rules! declare {
    ($($call:ident($values:ty, $words:ty $(, $field:ident: $type:ty)*);)*) => {
        declare_whole! {
            $($call(
                values: $values, values_len: usize, words: $words, words_len: usize,
                seats: LentMut, seats_len: usize, $($field: $type,)* number: LentMut,
            ) -> u64;)*
        }
    };
}

/// Declares them twice from one text: for the linker, and as names that a test can read.
macro_rules! declare_whole {
    ($($call:ident($($field:ident: $type:ty,)*) -> $result:ty;)*) => {
        unsafe extern "C" {
            $(fn $call($($field: $type,)*) -> $result;)*
        }

        pub const DECLARED: &[Declared] = &[$(Declared {
            call: stringify!($call),
            parameters: &[$((stringify!($field), stringify!($type)),)*],
            result: stringify!($result),
        },)*];
    };
}

declare! {
    ponsevran_setup(Lent, LentMut, start: u64, plan: LentPlan);
    ponsevran_open(Lent, Lent, owner: u64);
    ponsevran_read(Lent, Lent, owner: u64, seat: u64, record: u64);
    ponsevran_write(Lent, Lent, owner: u64, seat: u64, record: u64, value: u64);
    ponsevran_advance(LentMut, LentMut, owner: u64, seat: u64);
    ponsevran_abandon(Lent, LentMut, owner: u64, seat: u64);
}

/// Lends the three tables to a call of the boundary. Each is lent with its own length, and none
/// overlaps another, nor the number or the plan, which are made for the call: that is all that the
/// boundary asks.
macro_rules! lend {
    ($call:ident, $tables:expr $(, $field:expr)*) => {{
        let Flat { values, words, seats } = $tables;
        let mut number = 0;
        let spelling = unsafe {
            $call(
                values.as_mut_ptr(), values.len(), words.as_mut_ptr(), words.len(),
                seats.as_mut_ptr(), seats.len(), $($field,)* &mut number,
            )
        };
        told(spelling, number)
    }};
}

/// The engine's answer to a call on these tables.
pub fn answer(tables: &mut Flat, call: &Call) -> Answer {
    match *call {
        Call::Setup { start, plan } => {
            lend!(ponsevran_setup, tables, start, &flat_plan(&plan))
        }
        Call::Open { owner } => lend!(ponsevran_open, tables, owner),
        Call::Read { owner, seat, record } => lend!(ponsevran_read, tables, owner, seat, record),
        Call::Write { owner, seat, record, value } => {
            lend!(ponsevran_write, tables, owner, seat, record, value)
        }
        Call::Advance { owner, seat } => lend!(ponsevran_advance, tables, owner, seat),
        Call::Abandon { owner, seat } => lend!(ponsevran_abandon, tables, owner, seat),
    }
}

/// Sixteen shares, then sixteen limits.
fn flat_plan(plan: &Plan) -> [u64; 2 * OWNERS] {
    let mut numbers = [0; 2 * OWNERS];
    numbers[..OWNERS].copy_from_slice(&plan.shares);
    numbers[OWNERS..].copy_from_slice(&plan.limits);
    numbers
}

/// The answer of a spelling's number, and the number that it carries.
fn told(spelling: u64, number: u64) -> Answer {
    ANSWERS[spelling as usize](number)
}
