//! The tape and its program: Tape X byte for byte, the program's own refusals, every fault.

mod common;

use common::{play, told};
use second::clock::Widths;
use second::crowd::{Crowd, sound_plan};
use second::monitor::Monitor;
use second::program::play_bytes;
use second::random::each_seed;
use second::tape::{TapeCall, calls, encode};
use second::text;

const TAPE_X: &str = "\
setup 2 start 2 shares 1 1 limits 2 2
open 0
open 1
read 0 0 0
write 1 1 0 7
advance 1 1
advance 1 1
advance 1 1
advance 1 1
advance 1 1
advance 0 0
advance 0 0
advance 0 0
advance 0 0
";

const LINES_X: &str = "\
1 ready 2
2 seat 0
3 seat 1
4 value 0
5 noted 0
6 locked 0
7 timed 3
8 sealed 3
9 stored 0
10 done 3
11 timed 2
12 checked 0
13 sealed 2
14 done 2
end 14
";

fn bytes_x() -> Vec<u8> {
    let mut tape = vec![1, 0, 43, 0, 0, 2, 0, 0, 0, 0, 0, 0, 0, 2];
    tape.extend([1, 1, 0, 0, 0, 0, 0, 0, 0, 0, 0, 0, 0, 0, 0, 0]);
    tape.extend([2, 2, 0, 0, 0, 0, 0, 0, 0, 0, 0, 0, 0, 0, 0, 0]);
    tape.extend([0, 2, 1, 0, 0, 2, 1, 1]);
    tape.extend([0, 5, 2, 0, 0, 0, 0]);
    tape.extend([0, 13, 3, 1, 1, 0, 0, 0, 0, 0, 0, 0, 0, 0, 7]);
    tape.extend([0, 3, 4, 1, 1].repeat(5));
    tape.extend([0, 3, 4, 0, 0].repeat(4));
    tape
}

fn lines(tape: &[u8]) -> String {
    String::from_utf8(play_bytes(tape).unwrap()).unwrap()
}

/// Asserts the last line of a tape that begins with one good call, at byte 1 to 4.
fn stops(frames: &[u8], last: &str) {
    let tape = [&[1, 0, 2, 1, 0], frames].concat();
    assert_eq!(lines(&tape), format!("1 refused 1\n{last}\n"), "{frames:?}");
}

#[test]
fn tape_x() {
    assert_eq!(text::to_tape(TAPE_X), Ok(bytes_x()));
    assert_eq!(lines(&bytes_x()), LINES_X);
    assert_eq!(told(TAPE_X), LINES_X);
}

#[test]
fn an_empty_tape_ends() {
    assert_eq!(lines(&[1]), "end 0\n");
}

#[test]
fn before_setup_every_call_is_refused_1() {
    play(
        "open 0: refused 1
         read 200 200 9999: refused 1
         write 200 200 9999 1: refused 1
         advance 200 200: refused 1
         abandon 200 200: refused 1
         setup 0 start 0 shares 1 limits 1: refused 1
         setup 1025 start 0 shares 1 limits 1: refused 1
         setup 65535 start 18446744073709551615 shares 9 limits 1: refused 1
         setup 2 start 281474976710656 shares 9 limits 1: refused 2
         setup 2 start 0 shares 9 limits 1: refused 11
         open 0: refused 1
         setup 1024 start 0 shares 1 limits 1: ready 1024
         open 0: seat 0",
    );
}

#[test]
fn refusal_35_comes_before_any_other() {
    play(
        "setup 2 start 0 shares 1 limits 1: ready 2
         setup 2 start 0 shares 1 limits 1: refused 35
         setup 0 start 18446744073709551615 shares 9 limits 1: refused 35
         open 0: seat 0
         read 0 0 1: value 0
         read 0 0 2: refused 2
         open 16: refused 2
         abandon 0 64: refused 2",
    );
}

#[test]
fn fault_31_no_version_byte() {
    for tape in [&[][..], &[0], &[2], &[0, 1], &[255, 0, 2, 1, 0]] {
        assert_eq!(lines(tape), "stopped 31 0\n");
    }
}

#[test]
fn fault_32_cut_short() {
    for frames in [&[0][..], &[0, 1], &[0, 2, 1], &[0, 43, 0], &[255, 255, 9, 9]] {
        stops(frames, "stopped 32 5");
    }
    // Before 34 and 33.
    stops(&[0, 2, 9], "stopped 32 5");
    stops(&[0, 9, 1, 0], "stopped 32 5");
}

#[test]
fn fault_34_unknown_kind() {
    // The first of them before 33: no kind is one byte long.
    for frames in [&[0, 1, 6][..], &[0, 1, 255], &[0, 3, 7, 0, 0]] {
        stops(frames, "stopped 34 5");
    }
    let long = [&[255, 255][..], &[6; 65535]].concat();
    stops(&long, "stopped 34 5");
}

#[test]
fn fault_33_wrong_length() {
    stops(&[0, 0], "stopped 33 5");
    stops(&[0, 0, 0, 2, 1, 0], "stopped 33 5");
    for (kind, right) in [(0, 43), (1, 2), (2, 5), (3, 13), (4, 3), (5, 3)] {
        for wrong in (1..60).filter(|&length| length != right) {
            let mut frame = vec![0; 2 + usize::from(wrong)];
            (frame[1], frame[2]) = (wrong, kind);
            stops(&frame, "stopped 33 5");
        }
    }
}

#[test]
fn the_offset_is_that_of_the_calls_length() {
    let mut tape = bytes_x();
    let offset = tape.len();
    tape.extend([0, 3, 4, 0, 0, 0, 1, 6]);
    let stopped = format!("15 refused 4\nstopped 34 {}\n", offset + 5);
    assert_eq!(lines(&tape), LINES_X.replace("end 14\n", &stopped));
}

#[test]
fn every_cut_of_tape_x_stops_or_ends() {
    let tape = bytes_x();
    for length in 1..tape.len() {
        let last = lines(&tape[..length]).lines().last().unwrap().to_string();
        let whole = calls(&tape[..length]).is_ok();
        assert_eq!(last.starts_with("end "), whole, "{length}");
        assert_eq!(last.starts_with("stopped 32 "), !whole, "{length}");
    }
}

#[test]
fn a_random_tape_tells_what_the_monitor_tells() {
    each_seed(0..500, |random| {
        let records = 1 + random.below(30);
        let mut monitor = Monitor::new(Widths::REAL, &vec![0; records as usize]);
        let setup = second::call::Call::Setup { start: random.below(9), plan: sound_plan(random) };
        let mut crowd = Crowd::new(random, records);
        let (mut tape, mut expected) = (Vec::new(), String::new());
        for number in 1..=400 {
            let call = if number == 1 { setup } else { crowd.next_call(random) };
            let answer = monitor.answer(&call);
            crowd.hear(&call, answer);
            tape.push(TapeCall::fitting(&call, records as u16).unwrap());
            expected += &format!("{number} {answer}\n");
        }
        let tape = encode(&tape);
        assert_eq!(lines(&tape), expected + "end 400\n");
        assert_eq!(text::to_tape(&text::from_tape(&tape).text), Ok(tape));
    });
}
