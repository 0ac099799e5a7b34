//! Why a job is refused.

use std::error::Error;
use std::fmt;

/// A refusal by its number, 1 to 16.
#[derive(Clone, Copy, Debug, PartialEq, Eq, Hash)]
pub struct Refusal {
    number: u32,
}

const REASONS: [&str; 16] = [
    "the job has under 5 or over 65,536 bytes, or its length field does not name the rest",
    "a work slice has under 8,000 floats",
    "the version is not 1",
    "a value of the head is outside its range",
    "the number after a kind 0 is not 0",
    "the job ends inside an item",
    "bytes are left over at the job's end",
    "an obstacle count or number is outside its range",
    "a count or a key length is outside its range",
    "a key byte is not A-Z, a-z, 0-9",
    "a key is not above the last one in byte order",
    "the marks are over 2,000 together",
    "a vertex coordinate is outside its range",
    "the sheet buffer is too short",
    "a deepest-point search has over 1,600 cells waiting",
    "the ceiling of the radius is under 2^-10",
];

impl Refusal {
    pub(crate) fn of(number: u32) -> Self {
        Self { number }
    }

    pub fn number(self) -> u32 {
        self.number
    }

    pub fn reason(self) -> &'static str {
        let row = (self.number as usize).checked_sub(1);
        row.and_then(|row| REASONS.get(row)).copied().unwrap_or("for no known reason")
    }
}

impl fmt::Display for Refusal {
    fn fmt(&self, out: &mut fmt::Formatter<'_>) -> fmt::Result {
        write!(out, "refused {}: {}", self.number, self.reason())
    }
}

impl Error for Refusal {}
