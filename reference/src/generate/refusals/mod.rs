//! Every way to be refused, each with the answer that document 01 gives or a request of document 02,
//! found by hand.
//!
//! The answers stand in the lists and not in the program: the test below holds the reference to
//! them, and the stored corpus holds the proved calls to them.

pub mod adjusted;
mod certificates;
pub mod equalities;
pub mod gaps;
pub mod joining_rules;
pub mod notes;
mod order;
mod problems;
pub mod regions;
pub mod reports;
pub mod sparse_orders;
mod sums;
pub mod superseding;
pub mod symmetries;
mod table;
pub mod wide_factors;
pub mod windows;

use crate::generate::samples;
use crate::records::{Record, BLOCKS, CHECK, OFFICE, PAIR, SYMMETRIES, TIGHTER};
use crate::refusal::Refusal;
pub use table::print;

/// Words of document 01 on both kinds of stream.
const TWO: &str = "stream ends in a command or without its end, or goes on after it";
const THREE: &str = "command unknown in this stream or misplaced";
const ONLY: &str = "First, and only first.";
const BEFORE: &str = "a 12 before any row, is misplaced.";
const NEVER: &str = "Coefficients and factors are never 0.";

/// One way to be refused.
#[derive(Clone)]
pub struct Case {
    pub name: &'static str,
    /// What the refused stream has.
    pub what: &'static str,
    /// The words of document 01 that it comes from, or those of a request with its number.
    pub words: &'static str,
    /// The refused stream as document 01 writes bytes, when it is short.
    pub text: Option<&'static str>,
    /// The byte runs of the calls that meet it; a call of fewer streams leaves out the last.
    pub runs: Vec<Vec<u8>>,
    /// The kinds of the calls that meet it.
    pub calls: &'static [u8],
    /// The answer by those words.
    pub expected: Refusal,
}

impl Case {
    /// The record of a call that meets it.
    pub fn record(&self, call: u8) -> Record {
        let run = |place: usize| self.runs[place].clone();
        match call {
            BLOCKS => Record::blocks(run(0)),
            SYMMETRIES => Record::symmetries(run(0)),
            CHECK => Record::check(run(0), run(1)),
            PAIR => Record::pair(run(0), run(1), run(2)),
            // A refusal of the first certificate is seen only where the second is refused as well.
            TIGHTER if self.calls.len() > 1 => Record::tighter(run(0), run(1), run(1)),
            // What the check refuses the office refuses, whatever its buffer.
            OFFICE if self.calls.len() > 1 => Record::office(run(0), run(1), Vec::new()),
            kind => Record {
                kind,
                runs: self.runs.clone(),
            },
        }
    }
}

/// Something accepted that stands beside the refusals: its name, what it has, the words, the kind of
/// the call, its streams, the last of which is the buffer for notes, and the line; the bytes of a
/// blocks call end there with the last that is not 255.
pub struct Accepted {
    pub name: &'static str,
    pub what: &'static str,
    pub words: &'static str,
    pub kind: u8,
    pub streams: [&'static str; 3],
    pub line: &'static str,
}

impl Accepted {
    /// Its record.
    pub fn record(&self) -> Record {
        let [problem, first, second] = self.streams.map(bytes);
        match self.kind {
            BLOCKS => Record::blocks(problem),
            CHECK => Record::check(problem, first),
            OFFICE => Record::office(problem, first, second),
            _ => Record::pair(problem, first, second),
        }
    }
}

/// A line of a list: number and place of the refusal, the name, what the stream has, the words of
/// document 01, and the stream. The key is 0.
type Line = (
    u8,
    usize,
    &'static str,
    &'static str,
    &'static str,
    &'static str,
);

/// The lists of cases: document 01's as number 0, then those of the requests by their numbers, in the
/// order in which these landed.
const LISTS: &[(u8, fn() -> Vec<Case>)] = &[
    (0, scope),
    (4, equalities::cases),
    (5, wide_factors::cases),
    (2, superseding::cases),
    (8, joining_rules::cases),
    (9, sparse_orders::cases),
    (7, reports::cases),
    (12, regions::cases),
    (13, adjusted::cases),
    (10, notes::cases),
];

/// All cases, by the order of the lists.
pub fn cases() -> Vec<Case> {
    LISTS.iter().flat_map(|(_, list)| list()).collect()
}

/// The cases of the lists up to that of this request. The records of the corpus for a request's call
/// are made from these, so that they stay when another request lands.
pub fn cases_to(request: u8) -> Vec<Case> {
    let last = LISTS.iter().position(|&(number, _)| number == request);
    let lists = &LISTS[..=last.expect("a request with a list")];
    lists.iter().flat_map(|(_, list)| list()).collect()
}

/// The cases of document 01.
fn scope() -> Vec<Case> {
    [
        problems::cases(),
        certificates::cases(),
        sums::cases(),
        order::cases(),
    ]
    .concat()
}

/// The records of one kind of call for the cases of document 01.
pub fn records(call: u8) -> Vec<Record> {
    met(scope(), call)
}

/// The records of one kind of call for these cases.
pub fn met(cases: Vec<Case>, call: u8) -> Vec<Record> {
    let met = cases.iter().filter(|case| case.calls.contains(&call));
    met.map(|case| case.record(call)).collect()
}

/// The bytes of a text as document 01 writes them: hexadecimal, with 0⁷ for seven zero bytes and 0⁸
/// for eight; a bar stands between commands.
pub fn bytes(text: &str) -> Vec<u8> {
    let mut all = Vec::new();
    for word in text.split_whitespace() {
        match word {
            "|" => {}
            "0⁷" => all.extend([0; 7]),
            "0⁸" => all.extend([0; 8]),
            _ => all.push(u8::from_str_radix(word, 16).expect("two hexadecimal digits")),
        }
    }
    all
}

/// The streams of case F: problem, lower and upper certificate.
pub fn case_f() -> [Vec<u8>; 3] {
    let certificates = [0, 1].map(samples::f_certificate);
    let [lower, upper] = certificates;
    [samples::f().bytes(), lower, upper]
}

/// A case with these streams, which every call meets that reads the refused one.
fn case(
    expected: Refusal,
    name: &'static str,
    what: &'static str,
    words: &'static str,
    runs: [Vec<u8>; 3],
) -> Case {
    Case {
        name,
        what,
        words,
        text: None,
        runs: runs.into(),
        calls: calls(expected.stream),
        expected,
    }
}

/// A case for a line with the stream written out, put in the place `stream` of these runs.
fn written(line: &Line, stream: u8, mut runs: [Vec<u8>; 3]) -> Case {
    let &(number, place, name, what, words, text) = line;
    runs[usize::from(stream)] = bytes(text);
    let expected = Refusal::new(number, stream, place);
    Case {
        text: Some(text),
        ..case(expected, name, what, words, runs)
    }
}

/// The calls that meet a refusal of this stream.
fn calls(stream: u8) -> &'static [u8] {
    [b"bcptsn".as_slice(), b"cptn", b"p"][usize::from(stream)]
}

#[cfg(test)]
mod tests {
    use super::*;
    use crate::plain::{answer, line};
    use std::collections::BTreeSet;

    #[test]
    fn the_reference_gives_what_is_written_down() {
        for case in cases() {
            for &call in case.calls {
                let refusal = answer(&case.record(call)).err();
                let (number, name) = (case.expected.number, case.name);
                assert_eq!(refusal, Some(case.expected), "{number}: {name}");
            }
        }
    }

    /// What is accepted beside the refusals, of all requests.
    fn accepted() -> impl Iterator<Item = &'static Accepted> {
        [
            equalities::ACCEPTED,
            gaps::ACCEPTED,
            joining_rules::ACCEPTED,
            sparse_orders::ACCEPTED,
            notes::ACCEPTED,
        ]
        .into_iter()
        .flatten()
    }

    #[test]
    fn the_reference_accepts_what_is_written_down() {
        for accepted in accepted() {
            let line = line(&accepted.record());
            let shown = match accepted.kind {
                BLOCKS => line.trim_end_matches("ff"),
                _ => &line,
            };
            assert_eq!(shown, accepted.line, "{}", accepted.name);
        }
    }

    #[test]
    fn names_tell_what_is_accepted_apart() {
        let names: BTreeSet<&str> = accepted().map(|accepted| accepted.name).collect();
        assert_eq!(names.len(), accepted().count());
    }

    #[test]
    fn every_refusal_has_a_case_in_every_stream() {
        let met: BTreeSet<(u8, u8)> = cases()
            .iter()
            .map(|case| (case.expected.number, case.expected.stream))
            .collect();
        let in_problem = (2..=7).map(|number| (number, 0));
        let in_certificate = [2, 3, 4, 5, 6, 8, 9, 10];
        let in_certificate = in_certificate.iter().flat_map(|&n| [(n, 1), (n, 2)]);
        let of_requests = [
            (11, 2),
            (1, 0),
            (12, 0),
            (15, 0),
            (2, 3),
            (2, 4),
            (2, 5),
            (10, 4),
            (10, 5),
            (16, 0),
            (17, 0),
            (13, 1),
        ];
        let all = in_problem.chain(in_certificate).chain(of_requests);
        assert_eq!(met, all.collect());
    }

    #[test]
    fn names_tell_the_cases_apart() {
        let mut names = BTreeSet::new();
        for case in cases() {
            let Refusal { number, stream, .. } = case.expected;
            assert!(names.insert((number, stream, case.name)), "{}", case.name);
        }
    }

    #[test]
    fn texts_are_read_as_document_01_writes_them() {
        assert_eq!(bytes("01 0A | 0⁷ FF"), [1, 10, 0, 0, 0, 0, 0, 0, 0, 255]);
        let text = "01 01 | 02 01 0⁷ 01 00 00 00 | 03 | 04 0⁸ 01 00 | 04 02 0⁷ FF FF | 05 00 0⁸ \
                    | 05 00 01 0⁷ | 05 01 0⁸ | 06";
        let low = "10 00 02 00 FF FF FF FF 01 00 | 11 00 01 00 | 12 00 01 00 | 12 01 01 00 \
                   | 11 01 01 00 | 12 00 01 00 | 13";
        assert_eq!(case_f()[..2], [bytes(text), bytes(low)]);
    }
}
