//! What the plain version says of the corpus.

use super::accepting::difference;
use super::answer;
use super::calls::{close, Closed};
use super::certificate::Certificate;
use super::joining::Joined;
use super::problem::Problem;
use super::symmetries::{meets_evenly, symmetries};
use crate::baseline::Checker;
use crate::generate::corpus;
use crate::records::Record;
use crate::refusal::{Refusal, IDENTITY, MISPLACED, PROBLEM};

/// The baseline knows document 01 alone: it refuses by 3 a command that came with a request, says a
/// gap below 0, and says no rule, which is 1 in all that it answers.
#[test]
fn the_baseline_answers_alike() {
    let checker = &mut Checker::default();
    for record in corpus("bcp") {
        let other = checker.answer(&record).map(with_mark);
        let unknown = matches!(other, Err(refusal) if is_of_a_request(&record, refusal));
        let plain = answer(&record).map(|line| line.replacen(" rule 1", "", 1));
        assert!(unknown || other == plain, "{other:?}");
    }
}

/// The line of document 01 with `empty` for a gap below 0, as request 06 has it.
fn with_mark(line: String) -> String {
    match line.split_once(" gap -") {
        Some((bounds, rest)) => format!("{bounds} gap empty rounds {}", rounds(rest)),
        None => line,
    }
}

/// The number of rounds at the end of a line.
fn rounds(line: &str) -> &str {
    line.rsplit(' ').next().unwrap_or_default()
}

/// Whether it is refusal 3 at a 07, an 08 or a 09 of the problem, or at a 14 or a 15 of a certificate,
/// behind the first command.
fn is_of_a_request(record: &Record, refusal: Refusal) -> bool {
    let commands: &[u8] = if refusal.stream == PROBLEM {
        &[0x07, 0x08, 0x09]
    } else {
        &[0x14, 0x15]
    };
    let stream = &record.runs[usize::from(refusal.stream)];
    refusal.number == MISPLACED && refusal.place > 0 && commands.contains(&stream[refusal.place])
}

/// The problems of the blocks calls that can be read.
fn problems() -> impl Iterator<Item = Problem> {
    let records = corpus("b").into_iter();
    records.filter_map(|record| Problem::read(&record.runs[0]).ok())
}

/// "the rounds are at most N - B + 2": N commands 05 with B different j.
#[test]
fn rounds_are_few() {
    let mut closed = 0;
    for problem in problems() {
        let sizes: Vec<usize> = problem.bases.iter().map(Vec::len).collect();
        let n: usize = sizes.iter().sum();
        let b = sizes.iter().filter(|&&size| size > 0).count();
        assert!(Joined::of(&problem).rounds <= n - b + 2);
        closed += 1;
    }
    assert!(closed > 1_000, "{closed} problems");
}

/// A rule by which each basis adds to S before the next one joins has other rounds.
#[test]
fn the_corpus_tells_whether_all_bases_join_by_the_same_s() {
    let tells = |problem: &Problem| {
        let rounds = Joined::of(problem).rounds;
        rounds < 30 && rounds != Joined::by(problem, Joined::round_basis_by_basis).rounds
    };
    let telling = problems().filter(tells).take(50).count();
    assert_eq!(telling, 50);
}

/// "Two monomials of one block must give a sum that every listed mask meets evenly" (Req 01).
#[test]
fn symmetries_meet_the_blocks_evenly() {
    let mut split = 0;
    for record in corpus("s") {
        let Ok(listed) = symmetries(&record.runs[0]) else {
            continue;
        };
        let Closed { problem, joined } = close(&record.runs[0]).unwrap();
        for (basis, blocks) in problem.bases.iter().zip(&joined.blocks) {
            for (b, block) in basis.iter().zip(blocks) {
                let sum = b.times(&basis[*block]);
                let masks = listed.bytes[..listed.count].iter();
                assert!(masks.into_iter().all(|&mask| meets_evenly(mask, &sum)));
            }
        }
        split += usize::from(listed.count > 1 && joined.count() > 1);
    }
    assert!(
        split > 100,
        "{split} problems with more than one mask and block"
    );
}

/// The difference of the two sides of a record that is refused with 9, where it is one at a single
/// monomial, and the stream that is refused.
fn single_difference(record: &Record) -> Option<(u8, i128)> {
    let refusal = answer(record).err()?;
    if refusal.number != IDENTITY {
        return None;
    }
    let stream = refusal.stream;
    let problem = Problem::read(&record.runs[0]).unwrap();
    let certificate = &record.runs[usize::from(stream)];
    let certificate = Certificate::read(certificate, stream, &problem).unwrap();
    let difference = difference(&certificate, &problem);
    let mut differing = difference.coefficients();
    let (_, first) = differing.next()?;
    differing.next().is_none().then_some((stream, first))
}

/// A sum that is kept in 32, 60 or 64 bits would pass these for equal.
#[test]
fn the_corpus_has_differences_that_narrow_sums_miss() {
    for (kind, streams) in [("c", 1..=1), ("p", 1..=2)] {
        let records = corpus(kind);
        let found: Vec<(u8, i128)> = records.iter().filter_map(single_difference).collect();
        for stream in streams {
            for zeros in [32..60, 60..64, 64..128] {
                let fitting =
                    |&(s, d): &(u8, i128)| s == stream && zeros.contains(&d.trailing_zeros());
                assert!(found.iter().any(fitting), "{kind}, {stream}, {zeros:?}");
            }
        }
    }
}
