//! Request 07: a week's pairs in one report; request 14: one of its records for a C program.

use std::fmt::{Display, Formatter};

use super::calls::{pair, Fraction, Pair};
use crate::records::hexadecimal;
use crate::refusal::{Refusal, PROBLEM, RECORDS, SHORT};

/// "up to 64 pairs"
const PAIRS: usize = 64;
/// "32 bytes per record"
const BYTES: usize = 32;

/// "The result gives how many were accepted, the smallest lower and largest upper bound, first record
/// on ties, and none as 0 over 0"; and the output at exit.
pub struct Report {
    accepted: usize,
    lower: Fraction,
    upper: Fraction,
    output: Vec<u8>,
}

/// The call on the records' bytes and an output as lent. "Checks, before any record's own: 1 for a work
/// table, then 12 .., then 1 for an output below 32 bytes per record".
pub fn report(bytes: &[u8], lent: &[u8]) -> Result<Report, Refusal> {
    let records = records(bytes)?;
    if lent.len() < BYTES * records.len() {
        return Err(Refusal::new(SHORT, PROBLEM, 0));
    }
    let mut output = lent.to_vec();
    let mut accepted: Vec<Pair> = Vec::new();
    for (position, [problem, low, high]) in records.into_iter().enumerate() {
        let verdict = pair(problem, low, high);
        output[BYTES * position..][..BYTES].copy_from_slice(&record_bytes(&verdict));
        accepted.extend(verdict);
    }
    let none = Fraction {
        numerator: 0,
        denominator: 0,
    };
    let lowers = accepted.iter().map(|pair| pair.lower);
    let uppers = accepted.iter().map(|pair| pair.upper);
    let smaller = |one: Fraction, other: Fraction| if other.is_below(one) { other } else { one };
    let larger = |one: Fraction, other: Fraction| if one.is_below(other) { other } else { one };
    Ok(Report {
        accepted: accepted.len(),
        lower: lowers.reduce(smaller).unwrap_or(none),
        upper: uppers.reduce(larger).unwrap_or(none),
        output,
    })
}

/// "Input is records: three u16 lengths, then problem, low and high." 12 "for a record cut short or a
/// byte after the 64th, at that record's or byte's offset, stream 0".
fn records(bytes: &[u8]) -> Result<Vec<[&[u8]; 3]>, Refusal> {
    let mut all = Vec::new();
    let mut place = 0;
    while place < bytes.len() {
        let refusal = Refusal::new(RECORDS, PROBLEM, place);
        if all.len() == PAIRS {
            return Err(refusal);
        }
        let (record, length) = record(&bytes[place..]).ok_or(refusal)?;
        all.push(record);
        place += length;
    }
    Ok(all)
}

/// The first record of these bytes, and its length.
fn record(bytes: &[u8]) -> Option<([&[u8]; 3], usize)> {
    let mut place = 6;
    let mut runs = [bytes; 3];
    for (number, run) in runs.iter_mut().enumerate() {
        let length = bytes.get(2 * number..2 * number + 2)?;
        let length = usize::from(u16::from_le_bytes([length[0], length[1]]));
        *run = bytes.get(place..place + length)?;
        place += length;
    }
    Some((runs, place))
}

/// Request 14: "It passes three byte runs and 32 lent bytes, filled as one record of Req 07"; the
/// returned number, and the output at exit. "Fewer than 32 bytes give 1 as the returned number and
/// nothing written; bytes past 32 are untouched; otherwise the returned number is the refusal or 0."
pub fn record_for_c(runs: [&[u8]; 3], lent: &[u8]) -> (u8, Vec<u8>) {
    let mut output = lent.to_vec();
    if output.len() < BYTES {
        return (SHORT, output);
    }
    let [problem, low, high] = runs;
    let verdict = pair(problem, low, high);
    output[..BYTES].copy_from_slice(&record_bytes(&verdict));
    (verdict.err().map_or(0, |refusal| refusal.number), output)
}

/// "refusal u32 (0 if accepted), p i32, q u32, P i32, Q u32, stream u32, place u32, key as its lowest
/// 32 bits. Numbers are little-endian; on refusal p, q, P and Q are 0, otherwise stream, place and key
/// are."
fn record_bytes(verdict: &Result<Pair, Refusal>) -> [u8; BYTES] {
    let fields: [i64; 8] = match verdict {
        Ok(Pair { lower, upper, .. }) => [
            0,
            lower.numerator,
            lower.denominator,
            upper.numerator,
            upper.denominator,
            0,
            0,
            0,
        ],
        Err(refusal) => [
            i64::from(refusal.number),
            0,
            0,
            0,
            0,
            i64::from(refusal.stream),
            refusal.place as i64,
            refusal.key as i64,
        ],
    };
    let mut bytes = [0; BYTES];
    for (place, field) in fields.iter().enumerate() {
        bytes[4 * place..][..4].copy_from_slice(&field.to_le_bytes()[..4]);
    }
    bytes
}

impl Display for Report {
    fn fmt(&self, out: &mut Formatter) -> std::fmt::Result {
        let Report {
            accepted,
            lower,
            upper,
            output,
        } = self;
        let digits = hexadecimal(output);
        write!(
            out,
            "report {accepted} lower {lower} upper {upper} {digits}"
        )
    }
}
