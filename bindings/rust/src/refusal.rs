//! The numbers' texts, from the one table that has them: `docs/NUMBERS.md`, which `build.rs` reads.

use std::error::Error;
use std::fmt;

/// What happened and what to do next, for each number that a call answers, rising from 0.
static TABLE: &[(u8, &str, &str)] = include!(concat!(env!("OUT_DIR"), "/numbers.rs"));

/// Why a call was refused: a number of `docs/NUMBERS.md` from 1 on, with its texts there.
#[derive(Clone, Copy, Debug, PartialEq, Eq, Hash)]
pub struct Refusal(u8);

impl Refusal {
    /// The refusal of that number; none for 0, which is no refusal, and for a number that no call answers.
    pub fn new(number: u8) -> Option<Refusal> {
        (number != 0 && place(number).is_some()).then_some(Refusal(number))
    }

    /// Its number.
    pub fn number(self) -> u8 {
        self.0
    }

    /// What happened, and what is left of table and transaction.
    pub fn meaning(self) -> &'static str {
        self.row().1
    }

    /// What to do next.
    pub fn advice(self) -> &'static str {
        self.row().2
    }

    fn row(self) -> &'static (u8, &'static str, &'static str) {
        &TABLE[place(self.0).expect("a refusal has a row")]
    }
}

/// Where a number's row stands.
fn place(number: u8) -> Option<usize> {
    TABLE.binary_search_by_key(&number, |row| row.0).ok()
}

impl fmt::Display for Refusal {
    fn fmt(&self, f: &mut fmt::Formatter<'_>) -> fmt::Result {
        write!(f, "{}: {} {}", self.0, self.meaning(), self.advice())
    }
}

impl Error for Refusal {}
