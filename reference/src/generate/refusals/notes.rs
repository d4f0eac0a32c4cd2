//! Request 10: refusals of a certificate with notes, and what is accepted beside them.

use super::{bytes, case, case_f, Accepted, Case};
use crate::generate::samples;
use crate::records::{CHECK, OFFICE};
use crate::refusal::{Refusal, FIRST};

const STRICT: &str = "Req 10: The strict check refuses it as before, with 3.";
const ELSEWHERE: &str = "Req 10: allowed anywhere between commands after command 10 and before command 13; elsewhere it is no note";
const CUT: &str = "Req 10: A note cut short is refusal 2 at its start.";
const SENT: &str = "Req 10: places count the bytes as sent";
const BUFFER: &str = "Req 10: 13 when the buffer can't hold all notes, stream 1 and place 0, after every refusal of the strict check";

/// Number and place of the refusal, the name, what the certificate has, the words, the certificate for
/// case F and the length of the buffer.
#[rustfmt::skip]
const LINES: &[(u8, usize, &str, &str, &str, &str, usize)] = &[
    (3, 0, "a note first", "a note before 10", ELSEWHERE, "40 00 00 00 00 00 00 00 00 | 10 00 02 00 FF FF FF FF 01 00 | 13", 8),
    (2, 11, "a note after 13", "a note after 13", ELSEWHERE, "10 00 02 00 FF FF FF FF 01 00 | 13 | 40 00 00 00 00 00 00 00 00", 8),
    (2, 10, "a note cut", "a note without its last byte", CUT, "10 00 02 00 FF FF FF FF 01 00 | 40 00 00 00 00 00 00 00", 8),
    (2, 19, "a second note cut", "a note, and the first byte of another", CUT, "10 00 02 00 FF FF FF FF 01 00 | 40 00 00 00 00 00 00 00 00 | 40", 16),
    (2, 19, "no end after a note", "a note, and no end", SENT, "10 00 02 00 FF FF FF FF 01 00 | 40 00 00 00 00 00 00 00 00", 8),
    (2, 19, "the end in a note", "a note whose last byte is 13, and no end", SENT, "10 00 02 00 FF FF FF FF 01 00 | 40 00 00 00 00 00 00 00 13", 8),
    (2, 20, "on after 13, with a note", "a note, the end, and a byte", SENT, "10 00 02 00 FF FF FF FF 01 00 | 40 00 00 00 00 00 00 00 00 | 13 | 00", 8),
    (2, 19, "11 cut after a note", "a note, and a row without its last byte", SENT, "10 00 02 00 FF FF FF FF 01 00 | 40 00 00 00 00 00 00 00 00 | 11 00 01", 8),
    (3, 19, "12 before 11, with a note", "an entry before any row, after a note", SENT, "10 00 02 00 FF FF FF FF 01 00 | 40 00 00 00 00 00 00 00 00 | 12 00 01 00 | 13", 8),
    (3, 19, "unknown after a note", "00, which is no command, after a note", SENT, "10 00 02 00 FF FF FF FF 01 00 | 40 00 00 00 00 00 00 00 00 | 00 | 13", 8),
    (4, 23, "index 2 after a note", "index 2 in basis 0, after a note", SENT, "10 00 02 00 FF FF FF FF 01 00 | 40 00 00 00 00 00 00 00 00 | 11 00 01 00 | 12 02 01 00 | 13", 8),
    (4, 10, "4 before a cut note", "a row with weight 0, and a cut note", SENT, "10 00 02 00 FF FF FF FF 01 00 | 11 00 00 00 | 40", 8),
    (5, 27, "index again after a note", "index 0 again, with a note between", SENT, "10 00 02 00 FF FF FF FF 01 00 | 11 00 01 00 | 12 00 01 00 | 40 00 00 00 00 00 00 00 00 | 12 00 01 00 | 13", 8),
    (9, 0, "9 before 13", "no rows, a note, and no buffer", BUFFER, "10 00 02 00 FF FF FF FF 01 00 | 40 00 00 00 00 00 00 00 00 | 13", 0),
    (13, 0, "buffer of 7 bytes", "a note, and a buffer of 7 bytes", BUFFER, "10 00 02 00 FF FF FF FF 01 00 | 40 00 00 00 00 00 00 00 00 | 11 00 01 00 | 12 00 01 00 | 12 01 01 00 | 11 01 01 00 | 12 00 01 00 | 13", 7),
    (13, 0, "buffer of 15 bytes", "two notes, and a buffer of 15 bytes", BUFFER, "10 00 02 00 FF FF FF FF 01 00 | 40 00 00 00 00 00 00 00 00 | 11 00 01 00 | 12 00 01 00 | 12 01 01 00 | 11 01 01 00 | 12 00 01 00 | 40 00 00 00 00 00 00 00 00 | 13", 15),
    (13, 0, "no buffer", "a note, and no buffer", BUFFER, "10 00 02 00 FF FF FF FF 01 00 | 11 00 01 00 | 12 00 01 00 | 12 01 01 00 | 40 00 00 00 00 00 00 00 00 | 11 01 01 00 | 12 00 01 00 | 13", 0),
];

/// Case F, and its lower certificate: as it is; with notes after 10, in a row and before 13; and with
/// other notes there.
const F: &str =
    "01 01 | 02 01 0⁷ 01 00 00 00 | 03 | 04 0⁸ 01 00 | 04 02 0⁷ FF FF | 05 00 0⁸ | 05 00 01 0⁷ \
    | 05 01 0⁸ | 06";
const LOW: &str =
    "10 00 02 00 FF FF FF FF 01 00 | 11 00 01 00 | 12 00 01 00 | 12 01 01 00 | 11 01 01 00 \
    | 12 00 01 00 | 13";
pub const LOW_NOTED: &str =
    "10 00 02 00 FF FF FF FF 01 00 | 40 01 02 03 04 05 06 07 08 | 11 00 01 00 \
    | 12 00 01 00 | 40 13 13 13 13 13 13 13 13 | 12 01 01 00 | 11 01 01 00 | 12 00 01 00 \
    | 40 40 40 40 40 40 40 40 40 | 13";
const LOW_OTHERS: &str =
    "10 00 02 00 FF FF FF FF 01 00 | 40 0⁸ | 11 00 01 00 | 12 00 01 00 | 40 0⁷ 12 \
    | 12 01 01 00 | 11 01 01 00 | 12 00 01 00 | 40 13 0⁷ | 13";

/// What is accepted, with the buffer as lent, and the line.
pub const ACCEPTED: &[Accepted] = &[
    Accepted {
        name: "no notes, no buffer",
        what: "case F, a certificate without notes and no buffer",
        words: "Req 10: its verdict is the strict one on the stream with notes removed",
        kind: OFFICE,
        streams: [F, LOW, ""],
        line: "office 0 -1/1 rounds 2 rule 1 notes 0 ",
    },
    Accepted {
        name: "no notes, a buffer",
        what: "the same with a buffer of two bytes",
        words: "Req 10: bytes past the notes are untouched always",
        kind: OFFICE,
        streams: [F, LOW, "01 02"],
        line: "office 0 -1/1 rounds 2 rule 1 notes 0 0102",
    },
    Accepted {
        name: "three notes",
        what: "notes after 10, in a row and before 13, and a buffer of 24 bytes",
        words: "Req 10: copies them in order to a lent buffer and returns their number",
        kind: OFFICE,
        streams: [F, LOW_NOTED, "0⁸ 0⁸ 0⁸"],
        line: "office 0 -1/1 rounds 2 rule 1 notes 3 010203040506070813131313131313134040404040404040",
    },
    Accepted {
        name: "three notes, a longer buffer",
        what: "the same with a buffer of 26 bytes",
        words: "Req 10: bytes past the notes are untouched always",
        kind: OFFICE,
        streams: [F, LOW_NOTED, "0⁸ 0⁸ 0⁸ EE EE"],
        line: "office 0 -1/1 rounds 2 rule 1 notes 3 010203040506070813131313131313134040404040404040eeee",
    },
    Accepted {
        name: "other notes",
        what: "other notes at the same places",
        words: "Req 10: Different notes at the same positions give the same verdict.",
        kind: OFFICE,
        streams: [F, LOW_OTHERS, "0⁸ 0⁸ 0⁸"],
        line: "office 0 -1/1 rounds 2 rule 1 notes 3 000000000000000000000000000000121300000000000000",
    },
];

/// Case D: a row on x1 and x2, with a note between, is in two blocks.
const SPLIT: &str = "10 00 01 00 00 00 00 00 01 00 | 11 00 01 00 | 12 01 01 00 \
    | 40 00 00 00 00 00 00 00 00 | 12 02 01 00 | 13";
const NOTED: &str = "10 00 02 00 FF FF FF FF 01 00 | 40 00 00 00 00 00 00 00 00 | 13";

pub fn cases() -> Vec<Case> {
    let [f, ..] = case_f();
    let mut all: Vec<Case> = Vec::new();
    for &(number, place, name, what, words, text, buffer) in LINES {
        let runs = [f.clone(), bytes(text), vec![0xEE; buffer]];
        let expected = Refusal::new(number, FIRST, place);
        all.push(Case {
            text: Some(text),
            calls: &[OFFICE],
            ..case(expected, name, what, words, runs)
        });
    }
    let runs = [samples::d().bytes(), bytes(SPLIT), vec![0xEE; 8]];
    let what = "case D, a row on x1 and x2 with a note between";
    all.push(Case {
        text: Some(SPLIT),
        calls: &[OFFICE],
        ..case(
            Refusal::new(8, FIRST, 27),
            "x1, a note and x2",
            what,
            SENT,
            runs,
        )
    });
    let what = "a note, which the strict check does not know";
    all.push(Case {
        text: Some(NOTED),
        calls: &[CHECK],
        ..case(
            Refusal::new(3, FIRST, 10),
            "a note in the strict check",
            what,
            STRICT,
            [f, bytes(NOTED), Vec::new()],
        )
    });
    all
}
