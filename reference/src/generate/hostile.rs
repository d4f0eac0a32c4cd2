//! Accepted pairs that are made to be slow, each in another way, and a problem whose blocks are.
//!
//! The objective of a pair is a constant, and the conditions come in pairs g, -g with the same basis and the
//! same rows, so that all squares cancel and both bounds are the constant. Basis 0 is that of the
//! conditions. What is left to choose are the monomials of the basis and of g: how many different
//! sums they have, and what remainders.

use std::collections::{HashMap, HashSet};

use crate::generate::draft::{
    basis_monomial, bound, certificate_end, constraint, constraint_term, entry, equality,
    equality_row, objective_term, problem_end, product, row, variables, wide_entry,
};
use crate::generate::problems::all_monomials;
use crate::generate::rng::Rng;
use crate::generate::search::kept;
use crate::monomial::Monomial;
use crate::records::{Record, PAIR, REPORT, RUN, SUM};

/// The divisor that the index of the support has as a rule, and that of the index of pairs.
const SUPPORT: u64 = 3_821;
const PAIRS: u64 = 2_039;

/// The most members of the support.
const MOST: usize = 2_048;

/// The monomials of all nine bases, and the terms of the conditions 1 and 2, 3 and 4, 5 and 6, 7 and 8.
struct Shape {
    variables: u8,
    basis: Vec<Monomial>,
    terms: [Vec<Monomial>; 4],
}

/// Factors of 16 or of 32 bits, and inequalities or equalities.
#[derive(Clone, Copy)]
struct Kind {
    wide: bool,
    equal: bool,
}

/// The hostile pair of a name: `colliding`, `chained` or `sums`, and then nothing, `-wide` or `-wide-equal`;
/// those that the search has, `searched` and `staged`, each also `-wide`; any of these with `-sum` or `-report`
/// behind, the same pair for two problems or as often as a report's run has room; and the hostile problem
/// `pairs`.
pub fn hostile(rng: &mut Rng, name: &str) -> Option<Vec<Record>> {
    if let Some(name) = name.strip_suffix("-sum") {
        return Some(hostile(rng, name)?.iter().map(twice).collect());
    }
    if let Some(name) = name.strip_suffix("-report") {
        return Some(hostile(rng, name)?.iter().map(reported).collect());
    }
    if name == "pairs" {
        return Some(vec![Record::blocks(pairs(rng))]);
    }
    let record = kept(rng, name).or_else(|| pair(rng, name))?;
    Some(vec![record])
}

/// Two problems over one region, with this pair for each.
fn twice(pair: &Record) -> Record {
    Record {
        kind: SUM,
        runs: [&pair.runs[..], &pair.runs[..]].concat(),
    }
}

/// A report on this pair, as often as its run has room.
fn reported(pair: &Record) -> Record {
    let lengths = pair.runs.iter().flat_map(|run| (run.len() as u16).to_le_bytes());
    let one: Vec<u8> = lengths.chain(pair.runs.concat()).collect();
    let count = RUN / one.len();
    Record {
        kind: REPORT,
        runs: vec![one.repeat(count), vec![0; 32 * count], Vec::new()],
    }
}

/// A pair of the shapes that are made by hand.
fn pair(rng: &mut Rng, name: &str) -> Option<Record> {
    let (shape, kind) = name.split_once('-').unwrap_or((name, ""));
    let kind = match kind {
        "" => (false, false),
        "wide" => (true, false),
        "wide-equal" => (true, true),
        _ => return None,
    };
    let kind = Kind {
        wide: kind.0,
        equal: kind.1,
    };
    let shape = match shape {
        "colliding" => colliding(rng),
        "chained" => chained(rng),
        "sums" => sums(rng),
        _ => return None,
    };
    Some(shape.record(rng, kind))
}

/// Every product has one of two remainders in the index of the support, and nearly all the same one.
fn colliding(rng: &mut Rng) -> Shape {
    let basis = largest_class(&all_monomials(8, 8), SUPPORT);
    let links = basis[1..].iter().map(|&b| product(basis[0], b)).collect();
    fitting(8, basis, links, neutral(rng))
}

/// Every sum of the basis has with all terms one remainder in the index of the support.
fn chained(rng: &mut Rng) -> Shape {
    let basis: Vec<Monomial> = (0..32).map(|e| spread([e % 4, e / 4 % 4, e / 16])).collect();
    let links = basis[1..].to_vec();
    fitting(3, basis, links, neutral(rng))
}

/// The most different sums: 64 monomials of degree 8 at most in 3 variables, and 32 terms of low degree.
fn sums(rng: &mut Rng) -> Shape {
    let all = all_monomials(3, 8);
    let low: Vec<Monomial> = all_monomials(3, 4).into_iter().take(32).collect();
    let mut best = named(3, all[..64].to_vec(), &low);
    for _ in 0..400 {
        // Hill climbing: some monomials of the basis are changed, and kept where the sums are not fewer.
        let mut basis = best.basis.clone();
        for _ in 0..rng.between(1, 4) {
            let place = 1 + rng.below(63);
            let other = *rng.pick(&all);
            if !basis.contains(&other) {
                basis[place] = other;
            }
        }
        let next = named(3, basis, &low);
        if sums_of(&next.basis).len() >= sums_of(&best.basis).len() && next.members() <= MOST {
            best = next;
        }
    }
    best
}

/// The shape whose first conditions have the given terms. The last ones name the monomials of the basis,
/// which makes it one block.
fn named(variables: u8, basis: Vec<Monomial>, low: &[Monomial]) -> Shape {
    let names = |from: usize| {
        let named = basis.iter().skip(from).take(31);
        [Monomial::ONE].iter().chain(named).copied().collect()
    };
    Shape {
        variables,
        terms: [low.to_vec(), low.to_vec(), names(1), names(32)],
        basis,
    }
}

/// The problem of one basis of 62 monomials, one block, whose pairs have few remainders in their own index.
fn pairs(rng: &mut Rng) -> Vec<u8> {
    let mut by_rest: HashMap<u64, Vec<Monomial>> = HashMap::new();
    for m in all_monomials(8, 8) {
        by_rest.entry(m.key() % PAIRS).or_default().push(m);
    }
    // Classes in arithmetic progression, so that the sums of two are few.
    let mut best: Vec<Monomial> = Vec::new();
    for _ in 0..4_000 {
        let (from, step) = (rng.next() % PAIRS, 1 + rng.next() % (PAIRS - 1));
        let classes = (0..6).map(|i| (from + i * step) % PAIRS);
        let next: Vec<Monomial> = classes
            .flat_map(|rest| by_rest.get(&rest).cloned().unwrap_or_default())
            .filter(|&m| m != Monomial::ONE)
            .take(61)
            .collect();
        if next.len() > best.len() {
            best = next;
        }
    }
    let mut all = vec![variables(8)];
    all.extend(best.iter().map(|&m| objective_term(m, 1)));
    all.push(basis_monomial(0, Monomial::ONE));
    all.extend(best.iter().map(|&m| basis_monomial(0, m)));
    all.push(problem_end());
    all.concat()
}

fn spread([a, b, c]: [u8; 3]) -> Monomial {
    Monomial([a, b, c, 0, 0, 0, 0, 0])
}

/// The monomials with the remainder that most of them have.
fn largest_class(all: &[Monomial], divisor: u64) -> Vec<Monomial> {
    let mut classes: HashMap<u64, Vec<Monomial>> = HashMap::new();
    for &m in all {
        classes.entry(m.key() % divisor).or_default().push(m);
    }
    let mut classes: Vec<(u64, Vec<Monomial>)> = classes.into_iter().collect();
    classes.sort_by_key(|(rest, class)| (usize::MAX - class.len(), *rest));
    classes.swap_remove(0).1
}

/// Terms of degree 16 at most that change no remainder, in random order.
fn neutral(rng: &mut Rng) -> Vec<Monomial> {
    let mut all = Vec::new();
    while all.len() < 64 {
        let m = crate::generate::draft::random_monomial(rng, 8, 16);
        if m != Monomial::ONE && m.key() % SUPPORT == 0 && !all.contains(&m) {
            all.push(m);
        }
    }
    all
}

/// The shape with as many of the neutral terms as the support has room for. The links stand in the last
/// two conditions, and make the basis one block.
fn fitting(variables: u8, basis: Vec<Monomial>, links: Vec<Monomial>, neutral: Vec<Monomial>) -> Shape {
    let variables = if neutral.is_empty() { variables } else { 8 };
    let mut count = 31;
    loop {
        let mut terms = vec![Monomial::ONE];
        terms.extend(&neutral[..count]);
        let mut last = vec![Monomial::ONE];
        last.extend(&links);
        last.truncate(32);
        let shape = Shape {
            variables,
            basis: basis.clone(),
            terms: [terms.clone(), terms.clone(), terms, last],
        };
        if shape.members() <= MOST {
            return shape;
        }
        count -= 1;
    }
}

/// The keys of all products of two.
fn sums_of(basis: &[Monomial]) -> HashSet<u64> {
    let all = basis.iter().flat_map(|a| basis.iter().map(move |b| a.key() + b.key()));
    all.collect()
}

impl Shape {
    /// How many keys the support has when every basis is one block.
    fn members(&self) -> usize {
        let sums = sums_of(&self.basis);
        let mut all = sums.clone();
        for t in self.terms.iter().flatten() {
            all.insert(t.key());
            all.extend(sums.iter().map(|s| s + t.key()));
        }
        all.len()
    }

    fn record(&self, rng: &mut Rng, kind: Kind) -> Record {
        let constant = 1 + rng.below(1_000) as i32;
        let runs = vec![
            self.problem(rng, kind, constant),
            self.certificate(rng, kind, constant, 0),
            self.certificate(rng, kind, constant, 1),
        ];
        Record { kind: PAIR, runs }
    }

    fn problem(&self, rng: &mut Rng, kind: Kind, constant: i32) -> Vec<u8> {
        let mut all = vec![variables(self.variables), objective_term(Monomial::ONE, constant)];
        for terms in &self.terms {
            let g: Vec<i16> = terms.iter().map(|_| rng.nonzero(999) as i16).collect();
            for sign in [1, -1] {
                all.push(if kind.equal { equality() } else { constraint() });
                all.extend(terms.iter().zip(&g).map(|(&m, c)| constraint_term(m, sign * c)));
            }
        }
        for j in 0..9 {
            all.extend(self.basis.iter().map(|&m| basis_monomial(j, m)));
        }
        all.push(problem_end());
        all.concat()
    }

    /// 128 full rows on the conditions in turn.
    fn certificate(&self, rng: &mut Rng, kind: Kind, constant: i32, side: u8) -> Vec<u8> {
        let mut all = vec![bound(side, 1, constant, 1)];
        for place in 0..64 {
            let weight = 1 + rng.below(30_000) as u16;
            let entries: Vec<Vec<u8>> = (0..self.basis.len() as u8)
                .map(|i| match kind.wide {
                    true => wide_entry(i, rng.nonzero(i32::MAX)),
                    false => entry(i, rng.nonzero(32_767) as i16),
                })
                .collect();
            for j in [1, 2] {
                let j = 2 * (place % 4) + j;
                all.push(match kind.equal {
                    true => equality_row(j, weight as i16),
                    false => row(j, weight),
                });
                all.extend(entries.iter().cloned());
            }
        }
        all.push(certificate_end());
        all.concat()
    }
}

#[cfg(test)]
mod tests {
    use super::*;
    use crate::plain::line;

    #[test]
    fn hostile_pairs_are_accepted() {
        for shape in ["colliding", "chained", "sums"] {
            for kind in ["", "-wide", "-wide-equal"] {
                let name = format!("{shape}{kind}");
                let records = hostile(&mut Rng::new(2), &name).expect("it is a name");
                let line = line(&records[0]);
                assert!(line.starts_with("pair "), "{name}: {line}");
            }
        }
        for name in ["searched", "searched-wide", "staged", "staged-wide"] {
            let records = hostile(&mut Rng::new(2), name).expect("it is a name");
            let line = line(&records[0]);
            assert!(line.starts_with("pair "), "{name}: {line}");
        }
        let sum = hostile(&mut Rng::new(2), "colliding-sum").expect("it is a name");
        assert!(line(&sum[0]).starts_with("sum "), "{}", line(&sum[0]));
        let report = hostile(&mut Rng::new(2), "colliding-report").expect("it is a name");
        assert!(line(&report[0]).starts_with("report 4 "), "{}", line(&report[0]));
        let blocks = hostile(&mut Rng::new(2), "pairs").expect("it is a name");
        assert!(line(&blocks[0]).starts_with("blocks "), "{}", line(&blocks[0]));
        assert!(hostile(&mut Rng::new(2), "colliding-narrow").is_none());
    }
}
