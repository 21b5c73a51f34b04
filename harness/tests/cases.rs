//! The document's cases: P5 to P10 and the two unmarked ones, told line by line.

mod common;

use common::play;

#[test]
fn p5_no_reads_or_writes() {
    play(
        "setup 1 start 7 shares 1 limits 1: ready 1
         open 0: seat 0
         advance 0 0: timed 0
         advance 0 0: sealed 0
         advance 0 0: done 0",
    );
}

#[test]
fn p6_no_time_is_left_for_a_write() {
    play(
        "setup 1 start 281474976710655 shares 1 limits 1: ready 1
         open 0: seat 0
         write 0 0 0 5: noted 0
         advance 0 0: locked 0
         advance 0 0: aborted 24
         open 0: seat 0
         read 0 0 0: value 0",
    );
}

#[test]
fn p7_a_read_at_the_greatest_time() {
    play(
        "setup 1 start 281474976710655 shares 1 limits 1: ready 1
         open 0: seat 0
         read 0 0 0: value 0
         advance 0 0: timed 281474976710655
         advance 0 0: checked 0
         advance 0 0: sealed 281474976710655
         advance 0 0: done 281474976710655",
    );
}

#[test]
fn p8_crossed_reads_and_writes() {
    play(
        "setup 2 start 0 shares 1 1 limits 1 1: ready 2
         open 0: seat 0
         open 1: seat 1
         read 0 0 0: value 0
         write 0 0 1 5: noted 1
         read 1 1 1: value 0
         write 1 1 0 6: noted 0
         advance 0 0: locked 1
         advance 1 1: locked 0
         advance 0 0: timed 1
         advance 1 1: timed 1
         advance 0 0: aborted 23
         advance 1 1: checked 1
         advance 1 1: sealed 1
         advance 1 1: stored 0
         advance 1 1: done 1",
    );
}

#[test]
fn p9_the_version_read_was_overwritten() {
    play(
        "setup 2 start 2 shares 1 1 limits 2 2: ready 2
         open 0: seat 0
         open 1: seat 1
         read 0 0 0: value 0
         write 1 1 0 7: noted 0
         write 0 0 1 8: noted 1
         advance 1 1: locked 0
         advance 1 1: timed 3
         advance 1 1: sealed 3
         advance 1 1: stored 0
         advance 1 1: done 3
         advance 0 0: locked 1
         advance 0 0: timed 3
         advance 0 0: aborted 22",
    );
}

#[test]
fn p10_a_pending_write_is_read_back() {
    play(
        "setup 1 start 0 shares 1 limits 1: ready 1
         open 0: seat 0
         write 0 0 0 9: noted 0
         read 0 0 0: value 9
         advance 0 0: locked 0
         advance 0 0: timed 1
         advance 0 0: sealed 1
         advance 0 0: stored 0
         advance 0 0: done 1",
    );
}

#[test]
fn own_lock_is_not_anothers() {
    play(
        "setup 1 start 3 shares 1 limits 1: ready 1
         open 0: seat 0
         read 0 0 0: value 0
         write 0 0 0 9: noted 0
         advance 0 0: locked 0
         advance 0 0: timed 4
         advance 0 0: checked 0
         advance 0 0: sealed 4
         advance 0 0: stored 0
         advance 0 0: done 4",
    );
}

#[test]
fn sixteen_reads_and_eight_writes_take_35_advances() {
    let mut script = String::from("setup 26 start 0 shares 1 limits 1: ready 26\nopen 0: seat 0\n");
    // Written from the highest record down: the entries stand in ascending order all the same.
    for record in (16..24).rev() {
        script += &format!("write 0 0 {record} 1: noted {record}\n");
    }
    for record in 0..16 {
        script += &format!("read 0 0 {record}: value 0\n");
    }
    script += "read 0 0 24: refused 8\nwrite 0 0 24 1: refused 9\n";
    script += "read 0 0 3: value 0\nwrite 0 0 20 2: noted 20\nread 0 0 20: value 2\n";
    let locks = (16..24).map(|record| format!("locked {record}"));
    let checks = (0..16).map(|record| format!("checked {record}"));
    let stores = (16..24).map(|record| format!("stored {record}"));
    let mut steps: Vec<String> = locks.collect();
    steps.push("timed 1".into());
    steps.extend(checks);
    steps.push("sealed 1".into());
    steps.extend(stores);
    steps.push("done 1".into());
    assert_eq!(steps.len(), 35);
    for step in steps {
        script += &format!("advance 0 0: {step}\n");
    }
    play(&script);
}

#[test]
fn a_share_is_kept_for_its_owner() {
    let mut script = String::from("setup 1 start 0 shares 2 3 limits 64 3: ready 1\n");
    for seat in 0..61 {
        script += &format!("open 0: seat {seat}\n");
    }
    script += "open 0: refused 7\nopen 2: refused 6\n";
    for seat in 61..64 {
        script += &format!("open 1: seat {seat}\n");
    }
    script += "open 1: refused 6\nopen 0: refused 7\n";
    // A seat given back is the lowest free one.
    script += "abandon 0 5: dropped 5\nabandon 0 40: dropped 40\nopen 0: seat 5\nopen 0: seat 40\n";
    play(&script);
}

#[test]
fn an_abort_keeps_extensions_and_clears_locks() {
    play(
        "setup 3 start 0 shares 2 1 limits 2 1: ready 3
         open 0: seat 0
         open 0: seat 1
         open 1: seat 2
         read 0 0 0: value 0
         read 0 0 1: value 0
         write 0 0 2 5: noted 2
         write 1 2 1 6: noted 1
         advance 1 2: locked 1
         read 0 1 1: refused 10
         advance 0 0: locked 2
         advance 0 0: timed 1
         advance 0 0: checked 0
         advance 0 0: aborted 23
         read 0 0 2: refused 4
         read 0 1 2: value 0
         write 0 1 0 7: noted 0
         advance 0 1: locked 0
         advance 0 1: timed 2",
    );
}
