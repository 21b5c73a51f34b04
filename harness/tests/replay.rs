//! The proved routine for a whole tape beside the second program: the count and every byte of the
//! buffer, whatever room the buffer has.

use std::collections::BTreeSet;

use second::answer_counts::{AnswerCounts, FROM_A_TAPE, FROM_SETUP};
use second::lively;
use second::load::{CONTENDED, ORDINARY};
use second::program;
use second::random::{Random, each_seed, seeds};
use second::replay::{self, NO_ROOM};
use second::stored;

/// Lines of up to so many bytes are tried with every room there is.
const SHORT: usize = 4_000;
/// For longer ones: all rooms within so many bytes of none and of enough, and as many between.
const NEAR: usize = 30;

/// What was compared: the lines by their answers, and how many buffers were lent.
#[derive(Default)]
struct Compared {
    answers: AnswerCounts,
    tapes: u64,
    buffers: u64,
}

impl Compared {
    /// Plays the tape with buffers of these lengths.
    fn tape(&mut self, tape: &[u8], rooms: impl FnOnce(usize) -> BTreeSet<usize>) {
        let lines = program::play_bytes(tape).expect("memory can be read and written");
        for room in rooms(lines.len()) {
            compare(tape, &lines, room);
            self.buffers += 1;
        }
        self.answers.count_lines(&String::from_utf8_lossy(&lines));
        self.tapes += 1;
    }

    fn print(&self) {
        println!("{} tapes in {} buffers", self.tapes, self.buffers);
    }
}

/// Bytes that no line has, each unlike its neighbours: one that is written or moved shows.
fn marked(room: usize) -> Vec<u8> {
    (0..room).map(|place| 0x80 | (place % 0x7f) as u8).collect()
}

/// Asserts the answer and each byte of a buffer with this room.
fn compare(tape: &[u8], lines: &[u8], room: usize) {
    let (mut out, mut expected) = (marked(room), marked(room));
    let mut length = NO_ROOM;
    if let Some(front) = expected.get_mut(..lines.len()) {
        front.copy_from_slice(lines);
        length = lines.len() as u64;
    }
    let needed = lines.len();
    assert_eq!(replay::run(tape, &mut out), length, "{needed} bytes of lines, room for {room}");
    assert!(out == expected, "another buffer: {needed} bytes of lines, room for {room}");
}

/// Every length from none to one more than enough.
fn every_room(needed: usize) -> BTreeSet<usize> {
    (0..=needed + 1).collect()
}

/// A few lengths around none and enough, and one anywhere.
fn some_rooms(random: &mut Random, needed: usize) -> BTreeSet<usize> {
    let between = random.below(needed as u64) as usize;
    [0, 1, between, needed - 1, needed, needed + 1, needed + 1000].into()
}

/// Lengths around none and enough, and some of those between.
fn rooms(needed: usize) -> BTreeSet<usize> {
    if needed <= SHORT {
        return every_room(needed);
    }
    let mut random = Random::new(needed as u64);
    let between = (0..NEAR).map(|_| random.below(needed as u64) as usize);
    let near = (0..NEAR).chain(needed - NEAR..needed + NEAR);
    near.chain(between).collect()
}

#[test]
fn every_stored_tape_in_every_room() {
    let mut compared = Compared::default();
    for stored in stored::all().unwrap_or_else(|error| panic!("{error}")) {
        assert!(stored.lines.len() <= SHORT, "tapes/{} is not short", stored.name);
        compared.tape(&stored.tape, rooms);
    }
    compared.print();
    compared.answers.met(&[&FROM_SETUP[..], &FROM_A_TAPE].concat());
}

/// Every cut of Tape X, in every room.
#[test]
fn a_cut_at_every_byte() {
    let stored = stored::all().unwrap_or_else(|error| panic!("{error}"));
    let tape_x = stored.into_iter().find(|stored| stored.name == "tape-x").expect("Tape X").tape;
    let mut compared = Compared::default();
    for length in 0..=tape_x.len() {
        compared.tape(&tape_x[..length], every_room);
    }
    compared.print();
    compared.answers.met(&["end", "stopped 31", "stopped 32"]);
}

/// A random tape, as often as not damaged or cut.
fn random_tape(random: &mut Random) -> Vec<u8> {
    let calls = random.pick(&[20, 80, 300]).unwrap_or(80);
    let mut tape = lively::tape(random, calls);
    for _ in 0..random.below(3) {
        lively::damage(random, &mut tape);
    }
    tape
}

#[test]
fn many_tapes_in_some_rooms() {
    let mut compared = Compared::default();
    each_seed(seeds(2_000), |random| {
        let tape = random_tape(random);
        compared.tape(&tape, |needed| some_rooms(random, needed));
    });
    compared.print();
    compared.answers.met(&[&FROM_SETUP[..], &FROM_A_TAPE].concat());
    assert_eq!(compared.answers.counted("refused 3"), 0, "damage from Setup on");
}

/// Lines of more than half a million bytes.
#[test]
fn long_tapes() {
    let mut compared = Compared::default();
    for load in [ORDINARY, CONTENDED] {
        compared.tape(&load.tape(40_000), rooms);
    }
    compared.print();
    compared.answers.met(&["done", "aborted 21", "end"]);
}
