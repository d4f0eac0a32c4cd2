//! Request 08: both editions of the joining rule.

use super::Streams;
use crate::generate::draft::{rule, Draft, SUPPORT_MEMBERS};
use crate::generate::refusals::joining_rules::{cases, ACCEPTED};
use crate::generate::refusals::met;
use crate::generate::rng::Rng;
use crate::generate::samples;
use crate::generate::support::{joined, like_h};
use crate::records::{Record, BLOCKS};

/// The refusals, what stands beside them and is accepted, and problems at the limit.
pub fn special(kind: u8) -> Vec<Record> {
    let mut all = met(cases(), kind);
    let accepted = ACCEPTED.iter().filter(|accepted| accepted.kind == kind);
    all.extend(accepted.map(|accepted| accepted.record()));
    if kind == BLOCKS {
        all.extend(at_the_limit().into_iter().map(Record::blocks));
    }
    all
}

/// The samples under rule 2, and problems with 2,047 to 2,049 members under either rule.
fn at_the_limit() -> Vec<Vec<u8>> {
    let rng = &mut Rng::new(8);
    let drafts = [samples::a(), samples::c(), samples::d(), samples::h()];
    let mut all: Vec<Vec<u8>> = drafts.iter().map(|draft| under(draft, 2)).collect();
    for zero in [false, true] {
        for size in SUPPORT_MEMBERS - 1..=SUPPORT_MEMBERS + 1 {
            all.push(under(&like_h(rng, size, zero), 2));
        }
    }
    for over in [0, 1] {
        let draft = joined(rng, over);
        all.extend([1, 2].map(|number| under(&draft, number)));
    }
    all
}

/// A problem under a rule.
fn under(draft: &Draft, number: u8) -> Vec<u8> {
    let mut commands = draft.commands();
    commands.insert(1, rule(number));
    commands.concat()
}

/// Puts the rule after 01, rule 2 most often; now and then elsewhere, or with another number.
pub fn put(rng: &mut Rng, streams: &mut Streams) {
    let problem = &mut streams[0];
    let number = *rng.pick(&[1, 2, 2, 2, 2, 2]);
    let (number, place) = match rng.below(24) {
        0 => (*rng.pick(&[0, 3, 255]), 1),
        1 => (number, rng.below(problem.len() + 1)),
        _ => (number, 1),
    };
    problem.insert(place.min(problem.len()), rule(number));
}

#[cfg(test)]
mod tests {
    use super::*;
    use crate::generate::corpus;
    use crate::plain::{answer, line};

    /// Case H with 2,048, its likes without and with zero, and a problem that is too large under
    /// rule 1 alone.
    #[test]
    fn the_limit_is_met_under_both_rules() {
        let number = |problem: &Vec<u8>| {
            let refusal = answer(&Record::blocks(problem.clone())).err();
            refusal.map(|refusal| refusal.number)
        };
        let numbers: Vec<Option<u8>> = at_the_limit().iter().map(number).collect();
        assert_eq!(numbers[3], None);
        let sizes = [None, Some(7), Some(7), None, None, Some(7)];
        assert_eq!(numbers[4..10], sizes);
        assert_eq!(numbers[10..], [None, None, Some(7), None]);
    }

    /// Among the records that the request brought.
    #[test]
    fn the_corpus_has_both_rules() {
        for (kind, most) in [("b", 100), ("c", 24), ("p", 24)] {
            let records = corpus(kind);
            let first = met(cases(), kind.as_bytes()[0])[0].clone();
            let first = records.iter().position(|record| *record == first);
            let lines: Vec<String> = records[first.unwrap()..].iter().map(line).collect();
            let count = |word: &str| lines.iter().filter(|line| line.contains(word)).count();
            assert!(count(" rule 1") >= most / 12 && count(" rule 2") >= most);
        }
    }
}
