//! How often each answer was met: by its spelling, and refusals, aborts and faults by their number.

use std::collections::BTreeMap;

use crate::answer::Answer;

/// What calls can be answered from a Setup on. Refusal 3 is none of it.
pub const FROM_SETUP: [&str; 23] = [
    "ready",
    "seat",
    "value",
    "noted",
    "locked",
    "timed",
    "checked",
    "sealed",
    "stored",
    "done",
    "dropped",
    "refused 2",
    "refused 4",
    "refused 5",
    "refused 6",
    "refused 7",
    "refused 8",
    "refused 9",
    "refused 10",
    "aborted 21",
    "aborted 22",
    "aborted 23",
    "aborted 24",
];

/// What a tape can be told beyond that: its refusals around Setup, its end and its faults.
pub const FROM_A_TAPE: [&str; 8] = [
    "refused 1",
    "refused 11",
    "refused 35",
    "end",
    "stopped 31",
    "stopped 32",
    "stopped 33",
    "stopped 34",
];

#[derive(Clone, Debug, Default)]
pub struct AnswerCounts {
    counts: BTreeMap<String, u64>,
    calls: u64,
}

impl AnswerCounts {
    pub fn count(&mut self, answer: Answer) {
        self.calls += 1;
        match answer {
            Answer::Refused(_) | Answer::Aborted(_) => self.add(&answer.to_string()),
            _ => self.add(answer.spelling()),
        }
    }

    /// Counts the lines that a tape gave.
    pub fn count_lines(&mut self, lines: &str) {
        for line in lines.lines() {
            let mut parts = line.split(' ');
            match (parts.next(), parts.next(), parts.next()) {
                (Some("end"), ..) => self.add("end"),
                (Some("stopped"), Some(fault), _) => self.add(&format!("stopped {fault}")),
                (Some(_), Some(spelling), Some(number)) => self.count_call(spelling, number),
                _ => self.add(line),
            }
        }
    }

    fn count_call(&mut self, spelling: &str, number: &str) {
        self.calls += 1;
        match spelling {
            "refused" | "aborted" => self.add(&format!("{spelling} {number}")),
            _ => self.add(spelling),
        }
    }

    fn add(&mut self, name: &str) {
        match self.counts.get_mut(name) {
            Some(count) => *count += 1,
            None => {
                self.counts.insert(name.to_string(), 1);
            }
        }
    }

    pub fn calls(&self) -> u64 {
        self.calls
    }

    pub fn counted(&self, name: &str) -> u64 {
        self.counts.get(name).copied().unwrap_or(0)
    }

    /// Asserts that this answer was met at least so often.
    pub fn met_often(&self, name: &str, least: u64) {
        at_least(name, self.counted(name), least);
    }

    /// Prints the counts, and asserts that each of these was met.
    pub fn met(&self, names: &[&str]) {
        println!("{} calls compared: {:?}", self.calls, self.counts);
        for &name in names {
            assert!(self.counted(name) > 0, "'{name}' was never answered");
        }
    }
}

/// Prints a count, and asserts that it is at least this.
pub fn at_least(what: &str, count: u64, least: u64) {
    println!("{what}: {count}");
    assert!(count >= least, "only {count} of {what}, not {least}");
}
