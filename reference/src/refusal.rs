//! Refusals: number, stream, place and key, as in the table of document 01.

use std::fmt::{self, Display};

/// Which of the lent byte runs a refusal speaks of.
pub const PROBLEM: u8 = 0;
/// The first (or only) certificate.
pub const FIRST: u8 = 1;
/// The second certificate.
pub const SECOND: u8 = 2;
/// Request 12: the streams of the second problem come after those of the first.
pub const OTHER: u8 = 3;

/// A lent table or output is too short.
pub const SHORT: u8 = 1;
/// Stream ends in a command or without its end, or goes on after it.
pub const CUT: u8 = 2;
/// Command unknown in this stream or misplaced.
pub const MISPLACED: u8 = 3;
/// Operand outside its rule.
pub const OPERAND: u8 = 4;
/// Monomial repeated, or index not rising.
pub const REPEATED: u8 = 5;
/// One more than a count allows.
pub const COUNT: u8 = 6;
/// Closed S with zero above 2,048.
pub const SUPPORT: u8 = 7;
/// A row in two blocks.
pub const BLOCKS: u8 = 8;
/// Identity false.
pub const IDENTITY: u8 = 9;
/// In a pair, first side not 0 or second not 1.
pub const SIDES: u8 = 10;
/// Request 02: both certificates are accepted and their sides differ.
pub const DIFFERENT_SIDES: u8 = 11;
/// Request 07: a record is cut short, or a byte comes after the 64th.
pub const RECORDS: u8 = 12;
/// Request 12: the regions of two problems differ.
pub const REGIONS: u8 = 15;
/// Request 13: some variable has no inequality that is exactly 1 - x_i².
pub const NO_BOX: u8 = 16;
/// Request 13: an upper certificate.
pub const NOT_LOWER: u8 = 17;
/// Request 10: the buffer can't hold all notes.
pub const NOTES: u8 = 13;

/// The four fields of a refusal.
#[derive(Clone, Copy, Debug, PartialEq, Eq)]
pub struct Refusal {
    pub number: u8,
    pub stream: u8,
    pub place: usize,
    pub key: u64,
}

impl Refusal {
    /// A refusal with key 0, as all but number 9 have.
    pub fn new(number: u8, stream: u8, place: usize) -> Self {
        Refusal {
            number,
            stream,
            place,
            key: 0,
        }
    }
}

impl Display for Refusal {
    fn fmt(&self, out: &mut fmt::Formatter) -> fmt::Result {
        let Refusal {
            number,
            stream,
            place,
            key,
        } = self;
        write!(out, "refused {number} {stream} {place} {key}")
    }
}
