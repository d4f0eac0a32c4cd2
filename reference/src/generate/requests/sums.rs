//! Request 12: two problems over one region, with a pair for each.

use super::superseding::{double, loosen};
use super::{Change, Streams};
use crate::generate::accepted::{case, Case};
use crate::generate::blocks;
use crate::generate::certificates::streams;
use crate::generate::damage::{self, damaged};
use crate::generate::draft::{equality, rule};
use crate::generate::refusals::regions::{record as added, ADDED};
use crate::generate::refusals::{case_f, cases_to, met};
use crate::generate::rng::Rng;
use crate::monomial::Monomial;
use crate::records::{Record, PAIR, SUM};
use crate::refusal::{Refusal, OTHER};

/// What is accepted, the refusals, and every refusal of a pair as one of the second problem's.
pub fn special() -> Vec<Record> {
    let mut all: Vec<Record> = ADDED.iter().map(added).collect();
    all.extend(met(cases_to(12), SUM));
    all.extend(of_second().map(|(record, _)| record));
    all
}

/// The refusals of a pair, behind case F, and what is said of them there.
fn of_second() -> impl Iterator<Item = (Record, Refusal)> {
    let cases = cases_to(12).into_iter();
    let met = cases.filter(|case| case.calls.contains(&PAIR));
    met.map(|case| {
        let [problem, low, high] = [0, 1, 2].map(|place| case.runs[place].clone());
        let expected = Refusal {
            stream: OTHER + case.expected.stream,
            ..case.expected
        };
        (Record::sum(case_f(), [problem, low, high]), expected)
    })
}

/// A case, and another over the same region: its objective moved by a constant, bounds that are looser
/// or have another denominator, and commands of some of these requests in both. Now and then the
/// region of one is changed, or a stream is damaged.
pub fn random(rng: &mut Rng, mut changes: Vec<&'static Change>) -> Record {
    let first = case(rng);
    let mut second = moved(&first, rng.nonzero(50));
    for certificate in [&mut second.lower, &mut second.upper] {
        match rng.below(4) {
            0 => double(certificate),
            1 => loosen(&first.problem, certificate, rng.between(1, 3) as i32),
            _ => {}
        }
    }
    let mut both = [&first, &second].map(streams);
    rng.shuffle(&mut changes);
    changes.truncate(rng.below(3));
    for change in changes {
        let seed = rng.next();
        for streams in &mut both {
            // The same choices in both, as far as their commands are the same.
            (change.put)(&mut Rng::new(seed), streams);
        }
    }
    if rng.once_in(2) {
        let changed = rng.below(2);
        change_one(rng, &mut both[changed][0]);
    }
    let mut runs = both
        .each_ref()
        .map(|streams| streams.each_ref().map(|commands| commands.concat()));
    if rng.once_in(6) {
        let (pair, stream) = (rng.below(2), rng.below(3));
        runs[pair][stream] = damaged_stream(rng, &both[pair], stream);
    } else if rng.once_in(20) {
        runs[rng.below(2)].swap(1, 2);
    } else if rng.once_in(20) {
        runs[rng.below(2)][0] = blocks::problem(rng);
    }
    let [one, other] = runs;
    Record::sum(one, other)
}

fn damaged_stream(rng: &mut Rng, streams: &Streams, stream: usize) -> Vec<u8> {
    let way = rng.below(damage::WAYS);
    let kind = [damage::PROBLEM, damage::CERTIFICATE][stream.min(1)];
    damaged(rng, kind, &streams[stream], way)
}

/// The same case with c added to the objective and to both bounds.
fn moved(case: &Case, c: i32) -> Case {
    let mut moved = case.clone();
    let objective = &mut moved.problem.objective;
    match objective.iter_mut().find(|(m, _)| *m == Monomial::ONE) {
        Some((_, sum)) if *sum + c != 0 => *sum += c,
        Some(_) => return moved,
        None => objective.push((Monomial::ONE, c)),
    }
    for certificate in [&mut moved.lower, &mut moved.upper] {
        certificate.p += c * i32::from(certificate.q);
    }
    moved
}

/// Changes one problem: its rule, which leaves the region, the number of variables or of conditions,
/// the order of two terms, a coefficient, or the kind of a condition.
fn change_one(rng: &mut Rng, problem: &mut Vec<Vec<u8>>) {
    let terms: Vec<usize> = (1..problem.len())
        .filter(|&place| problem[place][0] == 0x04)
        .collect();
    match rng.below(7) {
        0 | 1 => problem.insert(1, rule(2)),
        2 => problem[0][1] = (problem[0][1] % 8) + 1,
        3 => {
            let condition = if rng.once_in(2) {
                equality()
            } else {
                vec![0x03]
            };
            let end = problem.len() - 1;
            problem.insert(end, condition);
        }
        4 => {
            let beside = |place: &&usize| terms.contains(&(*place - 1));
            let pairs: Vec<usize> = terms.iter().filter(beside).copied().collect();
            if !pairs.is_empty() {
                let place = *rng.pick(&pairs);
                problem.swap(place - 1, place);
            }
        }
        5 if !terms.is_empty() => problem[*rng.pick(&terms)][9] ^= 2,
        _ => {
            let begun = super::places(problem, 0x03);
            if !begun.is_empty() {
                problem[*rng.pick(&begun)] = equality();
            }
        }
    }
}

#[cfg(test)]
mod tests {
    use super::*;
    use crate::generate::corpus;
    use crate::plain::line;

    #[test]
    fn sums_found_by_hand() {
        for sum in ADDED {
            assert_eq!(line(&added(sum)), sum.5, "{}", sum.0);
        }
    }

    #[test]
    fn refusals_of_the_second_pair_have_streams_3_to_5() {
        for (record, expected) in of_second() {
            assert_eq!(line(&record), expected.to_string());
        }
    }

    #[test]
    fn the_corpus_has_sums_and_regions_that_differ() {
        let lines: Vec<String> = corpus("d").iter().map(line).collect();
        let count = |word: &str| lines.iter().filter(|line| line.starts_with(word)).count();
        assert!(count("sum") >= 60 && count("refused 15") >= 60);
    }
}
