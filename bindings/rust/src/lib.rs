//! The slack table store's replay for Rust callers: a script of calls in, an answer a line out.
//!
//! # The format
//!
//! A script is lines of fields with a tab between them, each ended by a line feed: `B 0` begins a
//! transaction at place 0, `W 0 3 415` writes key 415 to row 3, `C 0 u` commits. An answer is the line's
//! number, the number of what happened (0: done) and a value; a conflict, number 7, also names its
//! [`Cause`]. `docs/SCRIPT.md` has every form, and what the value is for each; `docs/NUMBERS.md` has
//! the numbers, whose texts [`Refusal`] shows.
//! Any bytes will do: a line that is none of the forms is answered 2 and changes nothing. Each replay
//! starts from the empty store.
//!
//! # Example
//!
//! Two forecasters correct the same row. The first commits; the second is refused, and nothing of
//! hers is kept.
//!
//! ```
//! let script = b"B\t0\nW\t0\t3\t415\nC\t0\tl\n\
//!     B\t1\nB\t2\nR\t1\t3\nR\t2\t3\nW\t1\t3\t421\nW\t2\t3\t418\nC\t1\tl\nC\t2\tl\n";
//! let answers: Vec<slack::Answer> = slack::answers(script).collect();
//! assert_eq!(answers[6].result(), Ok(Some(415)));
//! assert_eq!(answers[9].result(), Ok(Some(13)));
//! let refusal = answers[10].result().unwrap_err();
//! assert_eq!((answers[10].line, refusal.number()), (11, 7));
//! assert!(refusal.to_string().starts_with("7: Somebody else was quicker"));
//! ```
//!
//! # Stack
//!
//! A replay has no heap and no state between calls: the store and the transactions are on the caller's
//! stack, some 296 KB at the deepest call, however long the script (measured on threads of given
//! sizes: `examples/stack.rs`). A Rust thread of default size, 2 MB, does, and so does one of 512 KB:
//! a test runs on each.
//!
//! # What is trusted
//!
//! The work is done by `crates/replay_core`, whose functions are proved to meet their contracts, as are
//! the two of `crates/replay_core_c` that export them (`docs/DECISIONS.md`, "Called from Rust"). What
//! the proof can't see is this file: that the two functions are declared as they are exported, and
//! called with what a Rust slice guarantees, and how [`Answers`] reads the answers' text.

#![warn(missing_docs)]

mod answer;
mod refusal;

pub use answer::{Answer, Answers, Cause};
pub use refusal::Refusal;

use std::error::Error;
use std::fmt;

// A slice crosses as its pointer and its length. Neither function keeps a pointer, allocates, unwinds
// or has state between calls, and neither asks anything of the bytes.
unsafe extern "C" {
    fn slack_room(script: *const u8, script_len: usize) -> usize;
    fn slack_replay(script: *const u8, script_len: usize, out: *mut u8, out_len: usize) -> usize;
}

/// [`replay_into`] was given a buffer shorter than [`room`] says; nothing was replayed.
#[derive(Clone, Copy, Debug, PartialEq, Eq)]
pub struct Short {
    /// The bytes that are asked for.
    pub room: usize,
    /// The bytes that there were.
    pub len: usize,
}

impl fmt::Display for Short {
    fn fmt(&self, f: &mut fmt::Formatter<'_>) -> fmt::Result {
        write!(
            f,
            "a buffer of {} bytes, where {} are asked for",
            self.len, self.room
        )
    }
}

impl Error for Short {}

/// So many bytes surely hold the answers to `script`: 105 for each line feed and 105 more, or
/// `usize::MAX` where that is no `usize`.
pub fn room(script: &[u8]) -> usize {
    // SAFETY: pointer and length are those of a slice, which is only read, during the call.
    unsafe { slack_room(script.as_ptr(), script.len()) }
}

/// Replays `script` from the empty store. The answers are the first bytes of `out`, as many as this
/// returns; what stands behind them stays as it was.
///
/// # Errors
///
/// [`Short`] where `out` is shorter than [`room`] says; then `out` stays as it was.
pub fn replay_into(script: &[u8], out: &mut [u8]) -> Result<usize, Short> {
    let room = room(script);
    if out.len() < room {
        return Err(Short {
            room,
            len: out.len(),
        });
    }
    // SAFETY: pointers and lengths are those of two slices; `out` is lent for this call alone, so
    // they don't overlap.
    Ok(unsafe { slack_replay(script.as_ptr(), script.len(), out.as_mut_ptr(), out.len()) })
}

/// The answers to `script`, replayed from the empty store, as text: the very bytes that
/// `./run replay` writes. The vector has no more room than they need.
///
/// # Panics
///
/// Where no vector of [`room`] bytes can be had.
pub fn replay(script: &[u8]) -> Vec<u8> {
    let mut out = vec![0; room(script)];
    let count = replay_into(script, &mut out).expect("the vector has the room");
    out.truncate(count);
    out.shrink_to_fit();
    out
}

/// The answers to `script`, replayed from the empty store, one for each line.
///
/// # Panics
///
/// As [`replay`].
pub fn answers(script: &[u8]) -> Answers {
    Answers::of(replay(script))
}
