//! What each number after `refused`, `aborted` and `stopped` means: one plain sentence to each.
//! docs/MONITOR.md has the same sentences, and a test holds the two together.

/// A number and its sentence.
pub type Meaning = (u64, &'static str);

/// A refused call changes nothing.
pub const REFUSED: [Meaning; 12] = [
    (
        1,
        "There are no records to work on: no setup is ready yet, or this one asks for 0 records or for more than 1024.",
    ),
    (
        2,
        "A number is out of range: an owner above 15, a seat above 63, a record that is not there, or a start that is too late.",
    ),
    (3, "The seat's row or the plan is damaged. Calls alone never do that."),
    (4, "The seat is free, or it is another owner's."),
    (
        5,
        "It is too late for this call: reads and writes end with the first advance, and a sealed seat can't be abandoned.",
    ),
    (6, "The owner holds as many seats as its limit allows."),
    (7, "The owner has its share, and every other seat is taken or kept for others' shares."),
    (8, "The seat has read 16 records, and this would be one more."),
    (9, "The seat writes 8 records, and this would be one more."),
    (10, "The record is locked by a seat that is about to write it."),
    (
        11,
        "The plan can't be kept: a share above its limit, a limit above 64, or shares of more than 64 seats in all.",
    ),
    (35, "A setup is in force already, and a tape has one."),
];

/// An aborted call frees its seat and clears the seat's locks; nothing it wanted to write is written.
pub const ABORTED: [Meaning; 4] = [
    (21, "Another seat has locked a record that this seat is to write."),
    (22, "A record that this seat has read was stored over since, or its write time was moved on."),
    (
        23,
        "A record that this seat has read is locked by another, and no read of it is later than this seat's time.",
    ),
    (24, "No time is left above the last read of a record that this seat is to write."),
];

/// A stopped tape is played up to its fault, and no further.
pub const STOPPED: [Meaning; 4] = [
    (31, "The tape does not begin with the version byte 1."),
    (32, "The tape ends in the middle of a call."),
    (33, "A call's length is 0, or it is not the one of its kind."),
    (34, "A call's kind is none of the six."),
];

/// The sentence of a number, where the table has one.
pub fn meaning(table: &[Meaning], number: u64) -> Option<&'static str> {
    table.iter().find(|row| row.0 == number).map(|row| row.1)
}
