//! Request 07: refusals of a report.

use super::{case, case_f, Case};
use crate::generate::requests::packed;
use crate::records::REPORT;
use crate::refusal::{Refusal, PROBLEM, RECORDS, SHORT};

const CUT: &str = "Req 07: 12 for a record cut short or a byte after the 64th, at that record's or byte's offset, stream 0";
const OUTPUT: &str =
    "Req 07: then 1 for an output below 32 bytes per record; no output byte is written on any";

/// Case F as a record has 6 bytes of lengths, 2 + 13 + 1 + 22 + 30 + 1 = 69 of the problem and 31 of
/// each certificate.
const LENGTH: usize = 137;

/// The reports are of case F, once or more.
pub fn cases() -> Vec<Case> {
    let f = packed(&case_f());
    let twice = f.repeat(2);
    let full = f.repeat(64);
    let enough = vec![7; 2_048];
    let cut = |bytes: &[u8], count: usize| bytes[..count].to_vec();
    #[rustfmt::skip]
    let all = vec![
        met((RECORDS, 0), "one byte", "one byte of a first length", CUT, [vec![0], enough.clone()]),
        met((RECORDS, 0), "lengths cut", "five bytes of three lengths", CUT, [cut(&f, 5), enough.clone()]),
        met((RECORDS, 0), "runs cut", "a record without its last byte", CUT, [cut(&f, LENGTH - 1), enough.clone()]),
        met((RECORDS, 0), "lengths alone", "the lengths of a record, and none of its runs", CUT, [cut(&f, 6), enough.clone()]),
        met((RECORDS, LENGTH), "second record, one byte", "a record, and one byte", CUT, [cut(&twice, LENGTH + 1), enough.clone()]),
        met((RECORDS, LENGTH), "second record cut", "a record, and one without its last byte", CUT, [cut(&twice, 2 * LENGTH - 1), enough.clone()]),
        met((RECORDS, 64 * LENGTH), "after the 64th", "64 records, and a byte", CUT, [[full.clone(), vec![0]].concat(), enough.clone()]),
        met((RECORDS, 64 * LENGTH), "record 65", "65 records", CUT, [f.repeat(65), vec![7; 65 * 32]]),
        met((RECORDS, 0), "12 before 1", "a cut record, and no output", OUTPUT, [cut(&f, 6), Vec::new()]),
        met((SHORT, 0), "output of 31 bytes", "a record, and 31 bytes of output", OUTPUT, [f.clone(), vec![7; 31]]),
        met((SHORT, 0), "output of 63 bytes", "two records, and 63 bytes of output", OUTPUT, [twice, vec![7; 63]]),
        met((SHORT, 0), "no output", "a record, and no output", OUTPUT, [f, Vec::new()]),
        met((SHORT, 0), "output of 2,047 bytes", "64 records, and 2,047 bytes of output", OUTPUT, [full, vec![7; 2_047]]),
    ];
    all
}

fn met(
    (number, place): (u8, usize),
    name: &'static str,
    what: &'static str,
    words: &'static str,
    [report, output]: [Vec<u8>; 2],
) -> Case {
    let runs = [report, output, Vec::new()];
    Case {
        calls: &[REPORT],
        ..case(
            Refusal::new(number, PROBLEM, place),
            name,
            what,
            words,
            runs,
        )
    }
}
