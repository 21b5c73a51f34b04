//! The clock word: its parts, its packing into 64 bits, and its extension to a later time.

use crate::answer::Refusal;

/// How many bits the distance and the write time take. The lock is the bit just above them.
#[derive(Clone, Copy, Debug, PartialEq, Eq)]
pub struct Widths {
    distance_bits: u32,
    time_bits: u32,
}

/// The parts of a clock word. Only `Widths` makes one, so no part is wider than its place.
#[derive(Clone, Copy, Debug, PartialEq, Eq)]
pub struct Word {
    locked: bool,
    distance: u64,
    write_time: u64,
}

impl Widths {
    /// The widths of the document's word. Every 64-bit number is a word of these widths.
    pub const REAL: Widths = Widths { distance_bits: 15, time_bits: 48 };

    /// None where distance, time and lock together are wider than 64 bits.
    pub fn new(distance_bits: u32, time_bits: u32) -> Option<Widths> {
        let both = distance_bits.checked_add(time_bits)?;
        (both < 64).then_some(Widths { distance_bits, time_bits })
    }

    pub const fn greatest_distance(self) -> u64 {
        (1 << self.distance_bits) - 1
    }

    /// The greatest time, T.
    pub const fn greatest_time(self) -> u64 {
        (1 << self.time_bits) - 1
    }

    /// The word of these parts; refusal 2 where a part is wider than its place.
    pub fn word(self, locked: bool, distance: u64, write_time: u64) -> Result<Word, Refusal> {
        if distance > self.greatest_distance() || write_time > self.greatest_time() {
            return Err(Refusal::OutOfRange);
        }
        Ok(Word { locked, distance, write_time })
    }

    /// The unlocked word with both times equal to `time`.
    pub fn at(self, time: u64) -> Result<Word, Refusal> {
        self.word(false, 0, time)
    }

    /// The word whose read time has become `time`; refusal 2 where the word can't take it.
    pub fn extend(self, word: Word, time: u64) -> Result<Word, Refusal> {
        if time < word.write_time || time > self.greatest_time() {
            return Err(Refusal::OutOfRange);
        }
        // What the distance has no room for moves the write time up.
        let whole = time - word.write_time;
        let distance = whole & self.greatest_distance();
        self.word(word.locked, distance, word.write_time + (whole - distance))
    }

    pub fn pack(self, word: Word) -> u64 {
        let lock = u64::from(word.locked) << (self.distance_bits + self.time_bits);
        lock | word.distance << self.time_bits | word.write_time
    }

    /// Bits above the lock, which narrow words have, are not looked at.
    pub fn unpack(self, bits: u64) -> Word {
        Word {
            locked: bits >> (self.distance_bits + self.time_bits) & 1 == 1,
            distance: bits >> self.time_bits & self.greatest_distance(),
            write_time: bits & self.greatest_time(),
        }
    }
}

impl Word {
    pub fn locked(self) -> bool {
        self.locked
    }

    pub fn distance(self) -> u64 {
        self.distance
    }

    pub fn write_time(self) -> u64 {
        self.write_time
    }

    /// May be above T, in words that calls can't make.
    pub fn read_time(self) -> u64 {
        self.write_time + self.distance
    }

    /// The same times, locked or not.
    pub fn with_lock(self, locked: bool) -> Word {
        Word { locked, ..self }
    }
}
