//! The proved routine for a whole tape, called through its C boundary: bytes in, lines out.

unsafe extern "C" {
    fn replay_run(tape: *const u8, tape_len: usize, out: *mut u8, out_len: usize) -> u64;
}

/// The answer where the lines do not fit.
pub const NO_ROOM: u64 = u64::MAX;

/// Plays the tape: its lines go to the front of `out`, and the answer is their length. Where they
/// do not fit, `out` stays and the answer is `NO_ROOM`.
pub fn run(tape: &[u8], out: &mut [u8]) -> u64 {
    // Each is lent with its own length, and they do not overlap: that is all that it asks.
    unsafe { replay_run(tape.as_ptr(), tape.len(), out.as_mut_ptr(), out.len()) }
}
