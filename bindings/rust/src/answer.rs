//! The answers' text taken apart.

use std::fmt;
use std::iter::FusedIterator;

use crate::Refusal;

/// What a script's line was answered: its [`Display`](fmt::Display) is the line that `./run replay` writes, without
/// the line feed.
#[derive(Clone, Copy, Debug, PartialEq, Eq, Hash)]
pub struct Answer {
    /// The line's number in the script, from 1.
    pub line: u64,
    /// 0 where the call did what was asked, else the refusal's number.
    pub number: u8,
    /// What the line asks for: the txid (B), the key (R; none where the row shows none), the slot (W),
    /// the number of rows (L), the number of stores (C, refused or not); 0 for any other line or refusal.
    pub value: Option<u64>,
    /// What a conflict met: on number 7 only.
    pub cause: Option<Cause>,
}

/// Which test refused a commit, and where: an answer's fourth field and its fifth.
#[derive(Clone, Copy, Debug, PartialEq, Eq, Hash)]
pub struct Cause {
    /// The test that said yes, 11 to 14; 0 for a busy guard.
    pub test: u8,
    /// The place of the first entry that conflicts: for test 11 a set index_conflict is 0 and the index
    /// reads follow from 1, for 12 and 14 the place in the write list, for 13 in the read list, from 0; 0 for a
    /// busy guard.
    pub place: u64,
}

impl Answer {
    /// The value, or why the call was refused. A refused commit's stores are in `value` alone.
    ///
    /// # Panics
    ///
    /// Where `number` is none of `docs/NUMBERS.md`, which no replay answers.
    pub fn result(&self) -> Result<Option<u64>, Refusal> {
        match self.number {
            0 => Ok(self.value),
            number => Err(Refusal::new(number).expect("a number has a row")),
        }
    }
}

impl fmt::Display for Answer {
    fn fmt(&self, f: &mut fmt::Formatter<'_>) -> fmt::Result {
        write!(f, "{}\t{}\t", self.line, self.number)?;
        match self.value {
            Some(value) => write!(f, "{value}")?,
            None => f.write_str("-")?,
        }
        match self.cause {
            Some(Cause { test, place }) => write!(f, "\t{test}\t{place}"),
            None => Ok(()),
        }
    }
}

/// A script's answers in order, one for each line; made by [`answers`](crate::answers).
#[derive(Clone, Debug)]
pub struct Answers {
    text: Vec<u8>,
    at: usize,
}

impl Answers {
    pub(crate) fn of(text: Vec<u8>) -> Answers {
        Answers { text, at: 0 }
    }

    /// The next line without its line feed, which is passed over.
    fn line(&mut self) -> &str {
        let rest = &self.text[self.at..];
        let count = rest
            .iter()
            .position(|&byte| byte == b'\n')
            .expect("an answer ends with a line feed");
        self.at += count + 1;
        std::str::from_utf8(&rest[..count]).expect("an answer is ASCII")
    }
}

impl Iterator for Answers {
    type Item = Answer;

    fn next(&mut self) -> Option<Answer> {
        if self.at == self.text.len() {
            return None;
        }
        let mut fields = self.line().split('\t');
        let mut field = || fields.next().expect("an answer has three fields or five");
        let line = field().parse().expect("a line's number has 64 bits");
        let number = field().parse().expect("a number has 8 bits");
        let value = match field() {
            "-" => None,
            digits => Some(digits.parse().expect("a value has 64 bits")),
        };
        let cause = (number == 7).then(|| Cause {
            test: field().parse().expect("a test has 8 bits"),
            place: field().parse().expect("a place has 64 bits"),
        });
        assert_eq!(fields.next(), None, "an answer has no further field");
        Some(Answer {
            line,
            number,
            value,
            cause,
        })
    }

    fn size_hint(&self) -> (usize, Option<usize>) {
        let left = self.text[self.at..]
            .iter()
            .filter(|&&byte| byte == b'\n')
            .count();
        (left, Some(left))
    }
}

impl ExactSizeIterator for Answers {}

impl FusedIterator for Answers {}
