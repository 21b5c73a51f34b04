//! The six calls of the monitor. Every number may be any u64.

use crate::plan::Plan;

#[derive(Clone, Copy, Debug, PartialEq, Eq)]
#[allow(clippy::large_enum_variant, reason = "Setups are few, and a call stays plain numbers")]
pub enum Call {
    Setup { start: u64, plan: Plan },
    Open { owner: u64 },
    Read { owner: u64, seat: u64, record: u64 },
    Write { owner: u64, seat: u64, record: u64, value: u64 },
    Advance { owner: u64, seat: u64 },
    Abandon { owner: u64, seat: u64 },
}

impl Call {
    /// The seat that the call names, where it names one.
    pub fn seat(&self) -> Option<u64> {
        match *self {
            Call::Setup { .. } | Call::Open { .. } => None,
            Call::Read { seat, .. }
            | Call::Write { seat, .. }
            | Call::Advance { seat, .. }
            | Call::Abandon { seat, .. } => Some(seat),
        }
    }
}
