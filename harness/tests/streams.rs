//! The proved monitor program at its streams: pieces, cuts, an input that fails, an output that is
//! closed or full, a big tape.

mod monitored;

use std::fs::{self, File};
use std::io::{Read, Write};
use std::os::fd::OwnedFd;
use std::os::unix::net::{UnixDatagram, UnixStream};
use std::path::Path;
use std::process::{ChildStdin, Command, Output, Stdio};
use std::slice;
use std::thread;
use std::time::Duration;

use monitored::{monitor, output};
use second::lively;
use second::load::ORDINARY;
use second::outside::{self, PATIENCE, assert_second_tells};
use second::program;
use second::random::{Random, each_seed, seeds};
use second::stored;

/// What the program says on standard error where a read or a write fails.
const UNREAD: &str = "monitor: the tape can't be read\n";
const UNWRITTEN: &str = "monitor: the lines can't be written\n";

fn told(tape: &[u8]) -> String {
    outside::told(&monitor(), tape).unwrap_or_else(|error| panic!("{error}"))
}

fn tape_x() -> Vec<u8> {
    let stored = stored::all().unwrap_or_else(|error| panic!("{error}"));
    stored.into_iter().find(|stored| stored.name == "tape-x").expect("Tape X").tape
}

/// How the program ends and what it tells, where `input` gives it the tape.
fn output_from(input: impl Into<Stdio>, tape: &[u8]) -> Output {
    let mut command = Command::new(monitor());
    command.stdin(input).stdout(Stdio::piped()).stderr(Stdio::piped());
    output(command, tape, |_| Ok(()))
}

/// The lines of a tape that comes in random pieces, with pauses between some of them.
fn told_in_pieces(random: &mut Random, tape: &[u8], longest: u64) -> String {
    let lines = outside::told_as_fed(&monitor(), tape, |input| {
        let mut rest = tape;
        while !rest.is_empty() {
            let length = 1 + random.below(longest) as usize;
            let (piece, later) = rest.split_at(length.min(rest.len()));
            input.write_all(piece)?;
            rest = later;
            if random.once_in(16) {
                thread::sleep(Duration::from_micros(50));
            }
        }
        Ok(())
    });
    lines.unwrap_or_else(|error| panic!("{error}"))
}

#[test]
fn a_tape_in_pieces() {
    each_seed(seeds(300), |random| {
        let tape = lively::tape(random, 60);
        let longest = random.pick(&[1, 2, 7, 100]).unwrap_or(1);
        assert_second_tells(&tape, &told_in_pieces(random, &tape, longest));
    });
    each_seed(seeds(4), |random| {
        let tape = ORDINARY.tape(50_000);
        assert_second_tells(&tape, &told_in_pieces(random, &tape, 9_000));
    });
}

/// One read of a datagram socket gives one datagram, whatever room there is, and an empty one is
/// the end. With a byte in each, a program that reads no more than 100,000 times does not come to
/// this tape's end.
#[test]
fn a_tape_in_more_than_100_000_parts() {
    let tape = ORDINARY.tape(20_000);
    assert!(tape.len() > 110_000, "only {} parts", tape.len());
    let (ours, theirs) = UnixDatagram::pair().expect("two sockets");
    ours.set_write_timeout(Some(PATIENCE)).expect("a patience");
    let mut command = Command::new(monitor());
    command.stdin(OwnedFd::from(theirs)).stdout(Stdio::piped());
    let output = output(command, &tape, |_| {
        for byte in &tape {
            ours.send(slice::from_ref(byte))?;
        }
        ours.send(&[]).map(drop)
    });
    println!("{} parts", tape.len());
    assert_second_tells(&tape, &String::from_utf8_lossy(&output.stdout));
    assert!(output.status.success());
}

#[test]
fn an_empty_input() {
    assert_eq!(told(&[]), "stopped 31 0\n");
}

#[test]
fn a_cut_at_every_byte() {
    for tape in [tape_x(), ORDINARY.tape(200)] {
        for length in 0..=tape.len() {
            assert_second_tells(&tape[..length], &told(&tape[..length]));
        }
    }
}

/// The longest calls that a length can name: none of them is good, and each is taken whole.
#[test]
fn the_longest_call() {
    for kind in [0, 1, 6] {
        let mut tape = vec![1, 0, 2, 1, 0, 255, 255, kind];
        tape.resize(5 + 2 + 65_535, 0);
        let fault = if kind == 6 { 34 } else { 33 };
        assert_eq!(told(&tape), format!("1 refused 1\nstopped {fault} 5\n"));
        tape.pop();
        assert_eq!(told(&tape), "1 refused 1\nstopped 32 5\n");
    }
}

/// Sends calls for as long as the program takes them: until it ends or is stopped.
fn feed_on(mut input: ChildStdin) {
    let tape = ORDINARY.tape(10_000);
    let mut sent = input.write_all(&tape);
    while sent.is_ok() {
        sent = input.write_all(&tape[1..]);
    }
}

/// What the program says on standard error, where the reader of its output takes so many bytes and
/// goes. It must end, though its input does not.
fn said_without_reader(mut command: Command, taken: usize) -> String {
    command.stdin(Stdio::piped()).stdout(Stdio::piped()).stderr(Stdio::piped());
    let mut child = outside::start(&mut command).unwrap_or_else(|error| panic!("{error}"));
    let input = child.stdin.take().expect("its input is piped");
    let feeder = thread::spawn(move || feed_on(input));
    let mut output = child.stdout.take().expect("its output is piped");
    let read =
        outside::within(PATIENCE, &mut child, move || output.read_exact(&mut vec![0; taken]));
    let ended = outside::ended(&mut child);
    feeder.join().expect("the feeder ends with the program");
    read.flatten().expect("it has told so much");
    ended.unwrap_or_else(|error| panic!("{error}"));
    let mut said = String::new();
    let errors = child.stderr.take().expect("its errors are piped");
    errors.take(1000).read_to_string(&mut said).expect("text");
    said
}

#[test]
fn an_output_that_is_closed() {
    for taken in [0, 1, 100_000] {
        said_without_reader(Command::new(monitor()), taken);
    }
}

/// Where the system refuses the lines but does not stop the program, it stops by itself.
#[test]
fn an_output_that_is_closed_without_a_signal() {
    for taken in [0, 1, 100_000] {
        let mut deaf = Command::new("sh");
        deaf.args(["-c", "trap '' PIPE; exec \"$0\""]).arg(monitor());
        assert_eq!(said_without_reader(deaf, taken), UNWRITTEN, "after {taken} bytes");
    }
}

/// Tapes whose first line, whose last line, or whose lines in the middle can't be written.
fn tapes_to_write() -> [Vec<u8>; 5] {
    [vec![], vec![1], tape_x(), ORDINARY.tape(1000), ORDINARY.tape(100_000)]
}

/// Asserts that the program says once that its lines can't be written, for each of these tapes.
fn says_unwritten(command: impl Fn() -> Command) {
    for tape in tapes_to_write() {
        let mut command = command();
        command.stdin(Stdio::piped()).stderr(Stdio::piped());
        let output = output(command, &tape, outside::bytes(&tape));
        assert_eq!(String::from_utf8_lossy(&output.stderr), UNWRITTEN, "{} bytes", tape.len());
    }
}

#[test]
fn an_output_that_is_full() {
    says_unwritten(|| {
        let full = File::options().write(true).open("/dev/full").expect("a device that is full");
        let mut command = Command::new(monitor());
        command.stdout(full);
        command
    });
}

/// A disk that fills up takes a part of the lines first. Here the system lets no file grow past a
/// small size.
#[test]
fn an_output_that_fills_up() {
    let tape = ORDINARY.tape(100_000);
    let path = Path::new(env!("CARGO_TARGET_TMPDIR")).join("small.lines");
    let mut command = Command::new("sh");
    command.args(["-c", "trap '' XFSZ; ulimit -f 99; exec \"$0\""]).arg(monitor());
    command.stdin(Stdio::piped()).stderr(Stdio::piped());
    command.stdout(File::create(&path).expect("the folder can be written"));
    let output = output(command, &tape, outside::bytes(&tape));
    let (whole, part) = (program::play_bytes(&tape), fs::read(&path));
    let (whole, part) = (whole.expect("memory can be written"), part.expect("the file is there"));
    assert!(part.len() >= 99 * 512 && part.len() < whole.len(), "{} bytes", part.len());
    assert!(whole.starts_with(&part), "other lines");
    assert_eq!(String::from_utf8_lossy(&output.stderr), UNWRITTEN);
}

#[test]
fn no_output_at_all() {
    says_unwritten(|| {
        let mut command = Command::new("sh");
        command.args(["-c", "exec \"$0\" >&-"]).arg(monitor());
        command
    });
}

/// An input that can't be read is no end of a tape: no line is told, and the error is.
#[test]
fn an_input_that_cannot_be_read() {
    let folder = File::open(env!("CARGO_TARGET_TMPDIR")).expect("the folder is there");
    let output = output_from(folder, &[]);
    assert!(output.stdout.is_empty());
    assert_eq!(String::from_utf8_lossy(&output.stderr), UNREAD);
}

#[test]
fn no_input_at_all() {
    let mut command = Command::new("sh");
    command.args(["-c", "exec \"$0\" <&-"]).arg(monitor());
    command.stdout(Stdio::piped()).stderr(Stdio::piped());
    let output = output(command, &[], |_| Ok(()));
    assert!(output.stdout.is_empty());
    assert_eq!(String::from_utf8_lossy(&output.stderr), UNREAD);
}

/// Asserts that the lines of the whole calls are told, no last line, and then the error, where an
/// input gives these bytes and fails. A socket fails after its last byte, where the other end was
/// closed with something unread.
fn says_unread_after(part: &[u8]) {
    let (mut ours, mut theirs) = UnixStream::pair().expect("two sockets");
    theirs.write_all(b"unread").expect("room for a word");
    ours.set_write_timeout(Some(PATIENCE)).expect("a patience");
    ours.write_all(part).expect("room for the part");
    drop(ours);
    let output = output_from(OwnedFd::from(theirs), part);
    let lines = program::play_bytes(part).expect("memory can be read and written");
    let lines = String::from_utf8(lines).expect("lines are text");
    let last = lines.lines().last().map_or(0, |line| line.len() + 1);
    let expected = &lines[..lines.len() - last];
    let length = part.len();
    assert!(output.stdout == expected.as_bytes(), "other lines, failing after {length} bytes");
    assert_eq!(String::from_utf8_lossy(&output.stderr), UNREAD, "failing after {length} bytes");
}

/// The read fails at every byte of Tape X, and in the middle of tapes of one buffer and of two.
#[test]
fn an_input_that_fails_in_mid_tape() {
    let tape_x = tape_x();
    for length in 0..=tape_x.len() {
        says_unread_after(&tape_x[..length]);
    }
    let long = ORDINARY.tape(30_000);
    for length in [1_000, 60_001, 70_002] {
        says_unread_after(&long[..length]);
    }
}

/// A file gives as much at once as is asked for, where a pipe gives what it has.
#[test]
fn a_big_tape_from_a_file() {
    let tape = ORDINARY.tape(1_000_000);
    let path = Path::new(env!("CARGO_TARGET_TMPDIR")).join("big.tape");
    fs::write(&path, &tape).expect("the tape is stored");
    let output = output_from(File::open(&path).expect("the tape is there"), &tape);
    assert!(output.status.success());
    assert_second_tells(&tape, &String::from_utf8_lossy(&output.stdout));
}

/// The system counts memory in steps of some hundred kB. One byte kept of each call would show.
#[test]
fn memory_stays_flat() {
    let peak = |calls| {
        let peak = outside::peak_memory(&monitor(), &ORDINARY.tape(calls));
        peak.unwrap_or_else(|error| panic!("{error}"))
    };
    let (short, long) = (peak(10_000), peak(1_000_000));
    println!("peak memory: {short} kB at 10^4 calls, {long} kB at 10^6");
    assert!(long <= short + 512, "{short} kB at 10^4 calls, {long} kB at 10^6");
}
