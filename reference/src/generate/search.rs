//! The search for pairs that are slow: hill climbing over the structure of a problem by the model of
//! the index in `walks`.
//!
//! A shape is one basis and one list of terms, which most conditions have; the sum of these is 0, so that
//! rows which stand on all of them cancel, and both bounds are the constant that the objective is. The
//! other conditions, if any, are there to move the index on: their keys have one remainder modulo the
//! divisor that it has by then.

use std::collections::HashMap;
use std::time::{Duration, Instant};

use crate::baseline::{Blocks, Checker};
use crate::generate::draft::{
    basis_monomial, bound, certificate_end, constraint, constraint_term, entry, objective_term,
    problem_end, random_monomial, row, variables, wide_entry, ROWS, SUPPORT_MEMBERS,
};
use crate::generate::problems::all_monomials;
use crate::generate::rng::Rng;
use crate::generate::walks::{allowed, count, divisor, Counted, Seen, SeenBasis, DIVISORS};
use crate::monomial::Monomial;
use crate::records::{Record, PAIR};

/// "at most 8 of both", 64 monomials of a basis, 32 terms of a condition.
const CONDITIONS: usize = 8;
const BASIS: usize = 64;
const TERMS: usize = 32;

/// The best that was found, as `reference search` writes it.
const BEST: &str = include_str!("searched.txt");
/// Three variables, as most sums have them, behind conditions that move the index past three divisors: with
/// divisors 210 apart it took most, as 256^7 is 2 modulo 3,191.
const STAGED: &str = include_str!("staged.txt");

/// What a shape is made of: the number of divisors that are passed, and the lists of most conditions.
#[derive(Clone)]
pub struct Shape {
    passed: u64,
    basis: Vec<Monomial>,
    terms: Vec<Monomial>,
}

/// A condition's terms and its basis.
type Condition = (Vec<Monomial>, Vec<Monomial>);

/// The pair of a shape that was kept: `searched`, `staged`, and either with `-wide` behind.
pub fn kept(rng: &mut Rng, name: &str) -> Option<Record> {
    let (name, wide) = name.strip_suffix("-wide").map_or((name, false), |name| (name, true));
    let text = match name {
        "searched" => BEST,
        "staged" => STAGED,
        _ => return None,
    };
    let shape = read(text).expect("it is a shape");
    shape.record(rng, wide)
}

/// Searches for so many seconds with this seed, and prints the best shape.
pub fn search(seconds: u64, seed: u64) {
    let mut climber = Climber::new(seed);
    let until = Instant::now() + Duration::from_secs(seconds);
    let mut best: Option<(Counted, Shape)> = None;
    while Instant::now() < until {
        let found = climber.climb(until);
        if let Some((counted, shape)) = found {
            let better = best.as_ref().is_none_or(|(before, _)| before.pair(true) < counted.pair(true));
            if better {
                eprintln!(
                    "cost {} narrow {} blocks {} divisor {} keys {} basis {} terms {}",
                    counted.pair(true),
                    counted.pair(false),
                    counted.blocks,
                    divisor(counted.divisor),
                    counted.keys,
                    shape.basis.len(),
                    shape.terms.len()
                );
                best = Some((counted, shape));
            }
        }
    }
    if let Some((_, shape)) = best {
        print!("{}", shape.written());
    }
}

/// The shape that was written: a line for the divisors, and one for each monomial, b or t and exponents.
fn read(text: &str) -> Option<Shape> {
    let mut shape = Shape {
        passed: 0,
        basis: Vec::new(),
        terms: Vec::new(),
    };
    for line in text.lines() {
        let (word, rest) = line.split_once(' ')?;
        let numbers: Result<Vec<u8>, _> = rest.split(' ').map(str::parse).collect();
        let numbers = numbers.ok()?;
        match word {
            "passed" => shape.passed = u64::from(numbers[0]),
            "b" => shape.basis.push(Monomial(numbers.try_into().ok()?)),
            "t" => shape.terms.push(Monomial(numbers.try_into().ok()?)),
            _ => return None,
        }
    }
    Some(shape)
}

/// The conditions that move the index past its first divisors: the last has only terms of one remainder, and
/// each other one squares of one remainder modulo the divisor that the index has when they come, with a basis
/// of these monomials.
fn passing(low: &[Monomial], passed: u64) -> Vec<Condition> {
    let rng = &mut Rng::new(passed);
    let mut all = Vec::new();
    for number in 1..passed {
        let d = divisor(number);
        let most = allowed(number) + 2;
        let bases = most.div_ceil(TERMS);
        let basis = largest_class(low, d, bases);
        all.push((class(rng, d, most.div_ceil(bases)), basis));
    }
    if passed > 0 {
        all.push((class(rng, divisor(0), allowed(0) + 2), Vec::new()));
    }
    all
}

/// So many monomials with the remainder that most of these have.
fn largest_class(all: &[Monomial], d: u64, count: usize) -> Vec<Monomial> {
    let mut classes: HashMap<u64, Vec<Monomial>> = HashMap::new();
    for &m in all {
        classes.entry(m.key() % d).or_default().push(m);
    }
    let largest = classes.into_iter().max_by_key(|(rest, class)| (class.len(), *rest));
    largest.expect("there is one").1.into_iter().take(count).collect()
}

/// So many terms of one remainder, of degree 16 at most.
fn class(rng: &mut Rng, d: u64, count: usize) -> Vec<Monomial> {
    let mut all: Vec<Monomial> = vec![random_monomial(rng, 8, 16)];
    while all.len() < count {
        let m = random_monomial(rng, 8, 16);
        if m.key() % d == all[0].key() % d && !all.contains(&m) {
            all.push(m);
        }
    }
    all
}

impl Shape {
    /// A line for the divisors, and one for each monomial.
    fn written(&self) -> String {
        let mut text = format!("passed {}\n", self.passed);
        let lists = [("b", &self.basis), ("t", &self.terms)];
        for (word, m) in lists.iter().flat_map(|(word, list)| list.iter().map(move |m| (word, m))) {
            let exponents: Vec<String> = m.0.iter().map(u8::to_string).collect();
            text += &format!("{word} {}\n", exponents.join(" "));
        }
        text
    }

    /// All conditions: those that move the index come first, as their bases do.
    fn conditions(&self, passing: &[Condition]) -> Vec<Condition> {
        let mut all = passing.to_vec();
        all.resize(CONDITIONS, (self.terms.clone(), self.basis.clone()));
        all
    }

    /// The problem of these conditions, with a constant as its objective.
    fn problem(&self, rng: &mut Rng, conditions: &[Condition], constant: i32) -> Vec<u8> {
        let mut all = vec![variables(8), objective_term(Monomial::ONE, constant)];
        let mut sums: HashMap<u64, i16> = HashMap::new();
        let passing = conditions.iter().filter(|(terms, _)| *terms != self.terms).count();
        for (place, (terms, _)) in conditions.iter().enumerate() {
            all.push(constraint());
            for &m in terms {
                let sum = sums.entry(m.key()).or_default();
                // The last coefficient takes the sum to 0; before it the sum is below 0.
                let c = match (place < passing, place + 1 == CONDITIONS) {
                    (true, _) => rng.nonzero(999) as i16,
                    (false, false) => -(1 + rng.below(999) as i16),
                    (false, true) => -*sum,
                };
                *sum += if place < passing { 0 } else { c };
                all.push(constraint_term(m, c));
            }
        }
        all.extend(self.basis.iter().map(|&m| basis_monomial(0, m)));
        for (j, (_, basis)) in (1..).zip(conditions) {
            all.extend(basis.iter().map(|&m| basis_monomial(j, m)));
        }
        all.push(problem_end());
        all.concat()
    }

    /// What the index takes, where the support has room.
    fn counted(&self, checker: &mut Checker, passing: &[Condition]) -> Option<Counted> {
        let conditions = self.conditions(passing);
        let problem = self.problem(&mut Rng::new(0), &conditions, 1);
        let blocks = checker.blocks(&problem).ok()?;
        let first = (vec![Monomial::ONE], self.basis.clone());
        let bases = [first].into_iter().chain(conditions).enumerate();
        let seen = Seen {
            objective: vec![0],
            bases: bases.map(|(j, (terms, basis))| seen(&blocks, j, &terms, &basis)).collect(),
        };
        let counted = count(&seen);
        (counted.keys <= SUPPORT_MEMBERS).then_some(counted)
    }

    /// The pair: full rows on the blocks, each on all conditions whose sum is 0.
    fn record(&self, rng: &mut Rng, wide: bool) -> Option<Record> {
        let passing = passing(&all_monomials(8, 8), self.passed);
        let constant = 1 + rng.below(1_000) as i32;
        let problem = self.problem(rng, &self.conditions(&passing), constant);
        let blocks = Checker::default().blocks(&problem).ok()?;
        let mut certificate = |side: u8| {
            let mut all = vec![bound(side, 1, constant, 1)];
            all.extend(self.rows(rng, &blocks, passing.len() + 1, wide));
            all.push(certificate_end());
            all.concat()
        };
        let (low, high) = (certificate(0), certificate(1));
        Some(Record {
            kind: PAIR,
            runs: vec![problem, low, high],
        })
    }

    /// Rows on the blocks in turn, the largest first, and on all conditions from the first of the shape's
    /// own on, as many as there may be.
    fn rows(&self, rng: &mut Rng, blocks: &Blocks, first: usize, wide: bool) -> Vec<Vec<u8>> {
        let mut own = of_basis(blocks, first, self.basis.len());
        own.sort_by_key(|block| usize::MAX - block.len());
        let mut all = Vec::new();
        for block in own.iter().cycle().take(ROWS / (CONDITIONS + 1 - first)) {
            let weight = 1 + rng.below(30_000) as u16;
            let factor = |&i: &usize| match wide {
                true => wide_entry(i as u8, rng.nonzero(i32::MAX)),
                false => entry(i as u8, rng.nonzero(32_767) as i16),
            };
            let entries = block.iter().map(factor).collect::<Vec<_>>().concat();
            for j in first..=CONDITIONS {
                all.extend([row(j as u8, weight), entries.clone()]);
            }
        }
        all
    }
}

/// A basis as the index sees it: its monomials by their blocks.
fn seen(blocks: &Blocks, j: usize, terms: &[Monomial], basis: &[Monomial]) -> SeenBasis {
    let of = |indices: Vec<usize>| indices.into_iter().map(|i| basis[i].key()).collect();
    SeenBasis {
        exponents: terms.iter().map(Monomial::key).collect(),
        blocks: of_basis(blocks, j, basis.len()).into_iter().map(of).collect(),
    }
}

/// The blocks of a basis, as lists of indices.
fn of_basis(blocks: &Blocks, j: usize, size: usize) -> Vec<Vec<usize>> {
    let label = |i: usize| blocks.bytes[BASIS * j + i];
    let numbers = (0..size).filter(|&i| (0..i).all(|k| label(k) != label(i)));
    let block = |first: usize| (0..size).filter(|&i| label(i) == label(first)).collect();
    numbers.map(block).collect()
}

/// The climber: what it draws from, and the conditions that pass so many divisors.
struct Climber {
    rng: Rng,
    checker: Checker,
    passing: HashMap<u64, Vec<Condition>>,
}

impl Climber {
    fn new(seed: u64) -> Self {
        let low = all_monomials(8, 8);
        let numbers = 0..DIVISORS.min(CONDITIONS as u64);
        Climber {
            rng: Rng::new(seed),
            checker: Checker::default(),
            passing: numbers.map(|n| (n, passing(&low, n))).collect(),
        }
    }

    fn counted(&mut self, shape: &Shape) -> Option<Counted> {
        shape.counted(&mut self.checker, &self.passing[&shape.passed])
    }

    /// From a random shape upwards, until nothing better was found for a while.
    fn climb(&mut self, until: Instant) -> Option<(Counted, Shape)> {
        let mut best = self.begun();
        let mut counted = loop {
            // What has too many keys is made smaller.
            match self.counted(&best) {
                Some(counted) => break counted,
                None if best.basis.len() + best.terms.len() < 4 => return None,
                None if best.basis.len() > 2 * best.terms.len() => drop(best.basis.pop()),
                None => drop(best.terms.pop()),
            }
        };
        let mut idle = 0;
        while idle < 400 && Instant::now() < until {
            let next = self.changed(&best);
            idle += 1;
            if let Some(now) = self.counted(&next) {
                if now.pair(true) >= counted.pair(true) {
                    idle = if now.pair(true) > counted.pair(true) { 0 } else { idle };
                    (best, counted) = (next, now);
                }
            }
        }
        Some((counted, best))
    }

    /// A basis and terms on a lattice of some directions, or those that were kept, in other variables.
    fn begun(&mut self) -> Shape {
        let passed = self.rng.below(self.passing.len()) as u64;
        if self.rng.once_in(2) {
            let mut shape = read(if self.rng.once_in(2) { BEST } else { STAGED }).expect("it is a shape");
            let mut order: [usize; 8] = std::array::from_fn(|i| i);
            self.rng.shuffle(&mut order);
            let lists = shape.basis.iter_mut().chain(&mut shape.terms);
            lists.for_each(|m| *m = Monomial(order.map(|i| m.0[i])));
            return Shape { passed, ..shape };
        }
        let directions: Vec<[i16; 8]> = match self.rng.below(3) {
            // Some variables, each a direction.
            0 => {
                let mut all: Vec<usize> = (0..8).collect();
                self.rng.shuffle(&mut all);
                let count = self.rng.between(2, 5);
                all[..count].iter().map(|&i| std::array::from_fn(|k| i16::from(k == i))).collect()
            }
            // Differences that change no remainder, modulo the divisor that the index has at last.
            1 => self.neutral(divisor(passed)),
            _ => {
                let count = self.rng.between(2, 5);
                (0..count).map(|_| self.direction()).collect()
            }
        };
        let from = random_monomial(&mut self.rng, 8, 8);
        let (size, terms) = (self.rng.between(8, BASIS), self.rng.between(8, TERMS));
        let from = if directions.iter().flatten().all(|&e| e >= 0) { Monomial::ONE } else { from };
        Shape {
            passed,
            basis: ball(from, &directions, 8, size),
            terms: ball(Monomial::ONE, &directions, 16, terms),
        }
    }

    /// A small difference of monomials.
    fn direction(&mut self) -> [i16; 8] {
        let up = random_monomial(&mut self.rng, 8, 2);
        let down = random_monomial(&mut self.rng, 8, 2);
        std::array::from_fn(|i| i16::from(up.0[i]) - i16::from(down.0[i]))
    }

    /// Small differences whose keys are divided by d.
    fn neutral(&mut self, d: u64) -> Vec<[i16; 8]> {
        let mut all: Vec<[i16; 8]> = Vec::new();
        let count = self.rng.between(2, 4);
        for _ in 0..200_000 {
            let up = random_monomial(&mut self.rng, 8, 6);
            let down = random_monomial(&mut self.rng, 8, 6);
            if up != down && up.key() % d == down.key() % d {
                all.push(std::array::from_fn(|i| i16::from(up.0[i]) - i16::from(down.0[i])));
                if all.len() == count {
                    break;
                }
            }
        }
        all
    }

    /// The shape with a change: monomials exchanged, one more or fewer, or another number of divisors.
    fn changed(&mut self, shape: &Shape) -> Shape {
        let mut next = shape.clone();
        match self.rng.below(8) {
            0 => next.passed = self.rng.below(self.passing.len()) as u64,
            1 => {
                // All monomials with two variables exchanged.
                let (i, k) = (self.rng.below(8), self.rng.below(8));
                let lists = next.basis.iter_mut().chain(&mut next.terms);
                lists.for_each(|m| m.0.swap(i, k));
            }
            2 | 3 => self.exchange(&mut next.terms, 16, TERMS),
            _ => self.exchange(&mut next.basis, 8, BASIS),
        }
        next
    }

    /// Some monomials of a list taken out or exchanged, or one put in, by the difference of two others.
    fn exchange(&mut self, list: &mut Vec<Monomial>, degree: u32, most: usize) {
        for _ in 0..self.rng.between(1, 3) {
            let [a, b, c] = [(); 3].map(|()| *self.rng.pick(list));
            let step: [i16; 8] = std::array::from_fn(|i| i16::from(b.0[i]) - i16::from(c.0[i]));
            let other = match self.rng.once_in(4) {
                true => shifted(a, &self.direction(), degree),
                false => shifted(a, &step, degree),
            };
            let other = other.filter(|m| !list.contains(m));
            let place = self.rng.below(list.len());
            match other {
                Some(m) if list.len() < most && self.rng.once_in(2) => list.push(m),
                Some(m) => list[place] = m,
                None if list.len() > 4 && self.rng.once_in(4) => {
                    list.swap_remove(place);
                }
                None => {}
            }
        }
    }
}

/// A monomial times a difference, where the exponents stay exponents of this degree at most.
fn shifted(m: Monomial, step: &[i16; 8], degree: u32) -> Option<Monomial> {
    let all: [i16; 8] = std::array::from_fn(|i| i16::from(m.0[i]) + step[i]);
    let next = Monomial(all.map(|e| e.clamp(0, 255) as u8));
    (all.iter().all(|&e| e >= 0) && next.degree() <= degree).then_some(next)
}

/// So many monomials that are reached from one by the directions, the nearest first.
fn ball(from: Monomial, directions: &[[i16; 8]], degree: u32, count: usize) -> Vec<Monomial> {
    let mut all = vec![from];
    let mut place = 0;
    while place < all.len() && all.len() < count {
        for step in directions {
            let back = step.map(|e| -e);
            for step in [step, &back] {
                if let Some(next) = shifted(all[place], step, degree) {
                    if !all.contains(&next) && all.len() < count {
                        all.push(next);
                    }
                }
            }
        }
        place += 1;
    }
    all
}
