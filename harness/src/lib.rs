//! The independent second program: the monitor, its tape and its text tape, written from the
//! scope document alone, and a judge of the histories that the monitor tells.
//!
//! The state is kept in structures and not in the flat tables; `flat` turns the one into the
//! other, so that each call can be compared with an engine that works on lent tables.
//!
//! Beside it stands the front of the proved program: `run`, `show` and `typed` play tapes by that
//! program, through `player`, and know of it no more than its lines.

mod account;
mod advance;
pub mod answer;
pub mod answer_counts;
pub mod call;
pub mod clock;
pub mod colour;
pub mod crowd;
#[cfg(feature = "engine")]
pub mod engine;
pub mod flat;
pub mod hex;
pub mod history;
pub mod line;
pub mod lively;
pub mod load;
pub mod meaning;
pub mod monitor;
mod nearest;
mod number;
pub mod observer;
pub mod odd;
pub mod outside;
pub mod page;
pub mod plain;
pub mod plan;
pub mod player;
pub mod program;
pub mod random;
#[cfg(feature = "engine")]
pub mod replay;
pub mod row;
pub mod run;
pub mod show;
pub mod source;
pub mod stored;
pub mod tables;
pub mod tape;
pub mod text;
mod text_line;
pub mod typed;
pub mod words;
