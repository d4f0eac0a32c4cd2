//! Request 09: rounds that end early.

use super::Streams;
use crate::generate::cascade::{longest, Plan};
use crate::generate::draft::{
    basis_monomial, bound, certificate_end, constraint_term, entry, equality, equality_row,
    objective_term, order, power, problem_end, row, rule, variables, Draft,
};
use crate::generate::refusals::met;
use crate::generate::refusals::sparse_orders::{cases, ACCEPTED};
use crate::generate::rng::Rng;
use crate::generate::support::late;
use crate::monomial::Monomial;
use crate::plain::blocks;
use crate::records::{Record, BLOCKS, CHECK, PAIR};

/// The refusals, what stands beside them and is accepted, problems at the limit, and one of many
/// rounds.
pub fn special(kind: u8) -> Vec<Record> {
    let mut all = met(cases(), kind);
    let accepted = ACCEPTED.iter().filter(|accepted| accepted.kind == kind);
    all.extend(accepted.map(|accepted| accepted.record()));
    if kind == BLOCKS {
        let problems = at_the_limit().into_iter().chain(near_the_end());
        all.extend(problems.map(Record::blocks));
    } else {
        all.extend(late_joins(kind));
    }
    all
}

/// A problem at an order, under rule 1 or 2 or without 08.
fn at(draft: &Draft, rounds: u8, number: Option<u8>) -> Vec<u8> {
    let mut commands = draft.commands();
    commands.insert(1, order(rounds));
    if let Some(number) = number {
        commands.insert(1, rule(number));
    }
    commands.concat()
}

/// 2,047 to 2,049 members with zero after round 1, and one more after round 2: at the orders 1 and 2,
/// at the largest and without 09.
fn at_the_limit() -> Vec<Vec<u8>> {
    let mut all = Vec::new();
    for size in 2_041..=2_043 {
        let draft = late(size);
        all.extend([1, 2, 255].map(|rounds| at(&draft, rounds, None)));
        all.push(at(&draft, 1, Some(2)));
        all.push(draft.bytes());
    }
    all
}

/// A problem of many rounds, at the first orders, at those next to the number of its rounds, and at
/// the largest.
fn near_the_end() -> Vec<Vec<u8>> {
    let plan = Plan {
        variables: 8,
        constraints: 3,
        basis: 32,
        block: 4,
        terms: 2,
        rounds: 40,
    };
    let draft = longest(&mut Rng::new(9), &plan, 20);
    let joined = blocks(&draft.bytes()).expect("a cascade is within the limits");
    let full = u8::try_from(joined.rounds).expect("at most 42 rounds");
    let orders = [1, 2, 3, 8, 9, full - 2, full - 1, full, full + 1, 255];
    orders.map(|rounds| at(&draft, rounds, None)).into()
}

/// Certificates that need a join of round 2, at the orders 1 to 3, at the largest and without 09:
/// checks of the lower one, pairs, and the lower one twice.
fn late_joins(kind: u8) -> Vec<Record> {
    let rng = &mut Rng::new(u64::from(kind));
    let record = |rounds: Option<u8>| {
        let [mut problem, lower, upper] = across(rng);
        if let Some(rounds) = rounds {
            problem.insert(1, order(rounds));
        }
        let [problem, lower, upper] = [problem, lower, upper].map(|commands| commands.concat());
        match kind {
            CHECK => Record::check(problem, lower),
            PAIR => Record::pair(problem, lower, upper),
            _ => Record::tighter(problem, lower.clone(), lower),
        }
    };
    let orders = [Some(1), Some(1), Some(2), Some(3), Some(255), None];
    orders.repeat(4).into_iter().map(record).collect()
}

/// w (c² + d² y⁶) where y = 0, and y a power of a variable, with two certificates on the bases 1, y³ and
/// y, y², y³. The lower one is w (c + d y³)² − 2 w c d × y × y². Round 1 adds y³ to S as y × y × y, and
/// round 2 joins 1 with y³. The upper one is 4 (w c² − objective), from y times squares of y² ± y³,
/// which round 1 joins.
fn across(rng: &mut Rng) -> Streams {
    let count = rng.between(1, 3);
    let (variable, e) = (rng.between(1, count), rng.between(1, 2) as u8);
    let y = |exponent: u8| power(variable, exponent * e);
    let [w, c, d] = [0; 3].map(|_| rng.between(1, 9) as i16);
    let problem = vec![
        variables(count as u8),
        objective_term(Monomial::ONE, i32::from(w * c * c)),
        objective_term(y(6), i32::from(w * d * d)),
        equality(),
        constraint_term(y(1), 1),
        basis_monomial(0, Monomial::ONE),
        basis_monomial(0, y(3)),
        basis_monomial(1, y(1)),
        basis_monomial(1, y(2)),
        basis_monomial(1, y(3)),
        problem_end(),
    ];
    let lower = vec![
        bound(0, 1, 0, 1),
        row(0, w as u16),
        entry(0, c),
        entry(1, d),
        equality_row(1, -2 * w * c * d),
        entry(0, 1),
        certificate_end(),
    ];
    let upper = vec![
        bound(1, 4, i32::from(w * c * c), 1),
        equality_row(1, -w * d * d),
        entry(1, 1),
        entry(2, 1),
        equality_row(1, w * d * d),
        entry(1, 1),
        entry(2, -1),
        certificate_end(),
    ];
    [problem, lower, upper]
}

/// Puts a small order after 01 or 08; now and then elsewhere, or with another number.
pub fn put(rng: &mut Rng, streams: &mut Streams) {
    let problem = &mut streams[0];
    let after_rule = problem.get(1).is_some_and(|command| command[0] == 0x08);
    let place = 1 + usize::from(after_rule);
    let rounds = *rng.pick(&[1, 1, 1, 2, 2, 3, 4, 5, 8, 20, 255]);
    let (rounds, place) = match rng.below(24) {
        0 => (0, place),
        1 => (rounds, rng.below(problem.len() + 1)),
        _ => (rounds, place),
    };
    problem.insert(place.min(problem.len()), order(rounds));
}

#[cfg(test)]
mod tests {
    use super::*;
    use crate::generate::corpus;
    use crate::plain::{answer, line};
    use crate::records::TIGHTER;

    /// 2,048 is met after the round that is the last, and not before.
    #[test]
    fn the_limit_counts_what_is_reached() {
        let number = |problem: &Vec<u8>| {
            let refusal = answer(&Record::blocks(problem.clone())).err();
            refusal.map(|refusal| refusal.number)
        };
        let numbers: Vec<Option<u8>> = at_the_limit().iter().map(number).collect();
        assert_eq!(numbers[..5], [None; 5]);
        assert_eq!(numbers[5..10], [None, Some(7), Some(7), None, Some(7)]);
        assert_eq!(numbers[10..13], [Some(7); 3]);
    }

    /// Many rounds, and fewer blocks at larger orders.
    #[test]
    fn a_cascade_ends_at_its_order() {
        let streams = near_the_end();
        let made = |stream: &Vec<u8>| blocks(stream).map(|b| (b.rounds, b.count)).unwrap();
        let made: Vec<(usize, usize)> = streams.iter().map(made).collect();
        let full = made[9].0;
        assert!(full >= 20, "{full} rounds");
        let done = [1, 2, 3, 8, 9, full - 2, full - 1, full, full, full];
        assert_eq!(done.to_vec(), made.iter().map(|m| m.0).collect::<Vec<_>>());
        assert!(made.windows(2).all(|w| w[0].1 >= w[1].1) && made[0].1 > made[5].1);
    }

    /// What round 2 joins is in two blocks at the order 1, and in one at every larger one.
    #[test]
    fn late_joins_need_round_2() {
        for kind in [CHECK, PAIR, TIGHTER] {
            for (place, record) in late_joins(kind).iter().enumerate() {
                let line = line(record);
                let split = line.starts_with("refused 8 1 18 ");
                assert_eq!(split, place % 6 < 2, "{line}");
                assert!(split || !line.starts_with("refused"), "{line}");
            }
        }
    }

    /// Among the records that the request brought: accepted at an order that ends the rounds.
    #[test]
    fn the_corpus_has_rounds_that_end_early() {
        for (kind, most) in [("b", 60), ("c", 20), ("p", 15)] {
            let records = corpus(kind);
            let first = met(cases(), kind.as_bytes()[0])[0].clone();
            let first = records.iter().position(|record| *record == first);
            let new = &records[first.unwrap()..];
            let early = |record: &&Record| {
                let full = without(&record.runs[0]).map(|stream| blocks(&stream));
                let made = blocks(&record.runs[0]);
                matches!((made, full), (Ok(m), Some(Ok(f))) if m.rounds < f.rounds)
                    && !line(record).starts_with("refused")
            };
            let count = new.iter().filter(early).count();
            assert!(count >= most, "{kind}: {count}");
        }
    }

    /// The stream with its 09 left out.
    fn without(stream: &[u8]) -> Option<Vec<u8>> {
        let place = [2, 4]
            .into_iter()
            .find(|&place| stream.get(place) == Some(&0x09))?;
        let mut stream = stream.to_vec();
        stream.drain(place..(place + 2).min(stream.len()));
        Some(stream)
    }
}
