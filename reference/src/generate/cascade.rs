//! Problems of many rounds: each round's sums allow exactly the next join.

use std::collections::BTreeSet;

use crate::baseline::Checker;
use crate::generate::draft::{random_monomial, Draft, SUPPORT_MEMBERS};
use crate::generate::rng::Rng;
use crate::monomial::{divides, Monomial};

/// What a cascade may use.
pub struct Plan {
    pub variables: usize,
    pub constraints: usize,
    /// Most monomials of a basis, and of a block.
    pub basis: usize,
    pub block: usize,
    /// Most terms of a constraint.
    pub terms: usize,
    pub rounds: usize,
}

/// A basis that is being filled, block by block, and the exponents of its multiplier.
struct Growing {
    exponents: Vec<u64>,
    blocks: Vec<Vec<u64>>,
    size: usize,
}

/// What a step would add: a new block, or one monomial to an old block.
struct Step {
    basis: usize,
    /// The block to grow; none for a new one.
    block: Option<usize>,
    monomials: Vec<u64>,
    /// A sum that the objective has to hold, so that the new block's first pair is joined at once.
    given: Option<u64>,
}

/// The sums that a step brings.
struct Sums {
    /// In S after the first round.
    early: Vec<u64>,
    /// In S by this step.
    risen: Vec<u64>,
    /// Of monomials in two blocks; they must never be in S.
    apart: Vec<u64>,
}

struct Cascade<'a> {
    rng: &'a mut Rng,
    plan: &'a Plan,
    bases: Vec<Growing>,
    objective: Vec<u64>,
    early: BTreeSet<u64>,
    risen: BTreeSet<u64>,
    apart: BTreeSet<u64>,
}

/// A problem made by a plan; it ends where no further step is found.
pub fn cascade(rng: &mut Rng, plan: &Plan) -> Draft {
    let mut cascade = Cascade::new(rng, plan);
    let first = cascade.random(14, 16);
    cascade.objective.push(first);
    cascade.early.insert(first);
    let mut frontier = vec![first];
    for _ in 0..plan.rounds {
        match cascade.advance(&frontier) {
            Some(risen) => frontier = risen,
            None => break,
        }
        cascade.rng.shuffle(&mut frontier);
    }
    cascade.draft()
}

/// The problem with most rounds of some made by a plan.
pub fn longest(rng: &mut Rng, plan: &Plan, tries: usize) -> Draft {
    let mut checker = Checker::default();
    let drafts = (0..tries).map(|_| cascade(rng, plan));
    let rounds = |draft: &Draft| checker.blocks(&draft.bytes()).map_or(0, |b| b.rounds);
    drafts.max_by_key(rounds).expect("one try at least")
}

impl<'a> Cascade<'a> {
    fn new(rng: &'a mut Rng, plan: &'a Plan) -> Self {
        let mut cascade = Cascade {
            rng,
            plan,
            bases: Vec::new(),
            objective: Vec::new(),
            early: BTreeSet::new(),
            risen: BTreeSet::new(),
            apart: BTreeSet::new(),
        };
        for j in 0..=plan.constraints {
            let mut exponents = if j == 0 { vec![0] } else { Vec::new() };
            while j > 0 && exponents.len() < plan.terms {
                let next = cascade.random(0, 2);
                if !exponents.contains(&next) {
                    exponents.push(next);
                }
            }
            cascade.early.extend(&exponents);
            cascade.bases.push(Growing {
                exponents,
                blocks: Vec::new(),
                size: 0,
            });
        }
        cascade
    }

    /// The key of a random monomial with a degree in this range.
    fn random(&mut self, low: u32, high: u32) -> u64 {
        loop {
            let m = random_monomial(self.rng, self.plan.variables, high as usize);
            if m.degree() >= low {
                return m.key();
            }
        }
    }

    /// One step by a member of the frontier; gives the sums that it raised.
    fn advance(&mut self, frontier: &[u64]) -> Option<Vec<u64>> {
        for &sum in frontier {
            let mut steps = self.growing_steps(sum);
            self.rng.shuffle(&mut steps);
            for _ in 0..12 {
                steps.extend(self.founding_step(sum));
            }
            for step in steps {
                if let Some(sums) = self.admit(&step, sum) {
                    return Some(self.take(step, sums));
                }
            }
        }
        None
    }

    /// The steps that bring a monomial a to an old block by t + a + b = `sum`.
    fn growing_steps(&self, sum: u64) -> Vec<Step> {
        let mut steps = Vec::new();
        let bases = self.bases.iter().enumerate();
        for (basis, growing) in bases.filter(|(_, growing)| growing.size < self.plan.basis) {
            let blocks = growing.blocks.iter().enumerate();
            for (block, members) in blocks.filter(|(_, members)| members.len() < self.plan.block) {
                let found = cofactors(&growing.exponents, members, sum);
                steps.extend(found.map(|monomial| Step {
                    basis,
                    block: Some(block),
                    monomials: vec![monomial],
                    given: None,
                }));
            }
        }
        steps
    }

    /// A step that begins a block with t + a + b = `sum`.
    ///
    /// With one exponent t a pair raises nothing new, so a third monomial c comes with it, joined
    /// to b by an objective term.
    fn founding_step(&mut self, sum: u64) -> Option<Step> {
        let basis = self.rng.below(self.bases.len());
        let t = *self.rng.pick(&self.bases[basis].exponents);
        if !divides(t, sum) {
            return None;
        }
        let part = self.divisor(sum - t)?;
        let rest = sum - t - part;
        let alone = self.bases[basis].exponents.len() == 1;
        let mut monomials = vec![rest, part];
        let mut given = None;
        if alone {
            let third = self.random(5, 8);
            monomials.push(third);
            given = Some(t + part + third);
        }
        let room = self.bases[basis].size + monomials.len() <= self.plan.basis;
        let terms = self.objective.len() < 256 || given.is_none();
        (room && terms).then_some(Step {
            basis,
            block: None,
            monomials,
            given,
        })
    }

    /// A divisor of degree at most 8 whose cofactor has degree at most 8 too.
    fn divisor(&mut self, key: u64) -> Option<u64> {
        let total = degree(key);
        if !(2..=16).contains(&total) {
            return None;
        }
        let exponents = key.to_le_bytes();
        let mut factors: Vec<usize> = (0..8)
            .flat_map(|i| std::iter::repeat_n(i, usize::from(exponents[i])))
            .collect();
        self.rng.shuffle(&mut factors);
        let count = self.rng.between(
            total.saturating_sub(8).max(1) as usize,
            8.min(total - 1) as usize,
        );
        let mut divisor = [0; 8];
        for &i in &factors[..count] {
            divisor[i] += 1;
        }
        Some(u64::from_le_bytes(divisor))
    }

    /// The sums of a step, when it joins what it should and nothing else.
    fn admit(&self, step: &Step, sum: u64) -> Option<Sums> {
        let growing = &self.bases[step.basis];
        let new = &step.monomials;
        let old = growing.blocks.iter().flatten();
        let taken = old.clone().any(|b| new.contains(b));
        let twice = (1..new.len()).any(|i| new[..i].contains(&new[i]));
        if taken || twice {
            return None;
        }
        let sums = self.sums(step, sum);
        let members = self.early.len() + self.risen.len();
        if members + sums.early.len() + sums.risen.len() >= SUPPORT_MEMBERS {
            return None;
        }
        let early = |key: &u64| self.early.contains(key) || sums.early.contains(key);
        let risen = |key: &u64| self.risen.contains(key) || sums.risen.contains(key);
        let apart = |key: &u64| self.apart.contains(key) || sums.apart.contains(key);
        let fresh = |key: &u64| !early(key) && !self.risen.contains(key) && !apart(key);
        let good = !sums.risen.is_empty()
            && sums.risen.iter().all(fresh)
            && sums.early.iter().all(|key| !risen(key) && !apart(key))
            && sums.apart.iter().all(|key| !early(key) && !risen(key));
        good.then_some(sums)
    }

    fn sums(&self, step: &Step, sum: u64) -> Sums {
        let growing = &self.bases[step.basis];
        let mut sums = Sums {
            early: step.given.into_iter().collect(),
            risen: Vec::new(),
            apart: Vec::new(),
        };
        for &t in &growing.exponents {
            for (place, &a) in step.monomials.iter().enumerate() {
                sums.early.push(t + 2 * a);
                for (block, members) in growing.blocks.iter().enumerate() {
                    let inside = step.block == Some(block);
                    let list = if inside {
                        &mut sums.risen
                    } else {
                        &mut sums.apart
                    };
                    list.extend(members.iter().map(|b| t + a + b));
                }
                let pairs = step.monomials[..place].iter().map(|b| t + a + b);
                sums.risen.extend(pairs);
            }
        }
        sums.risen
            .retain(|&key| key != sum && Some(key) != step.given);
        sums
    }

    fn take(&mut self, step: Step, sums: Sums) -> Vec<u64> {
        let growing = &mut self.bases[step.basis];
        growing.size += step.monomials.len();
        match step.block {
            Some(block) => growing.blocks[block].extend(&step.monomials),
            None => growing.blocks.push(step.monomials),
        }
        let given = step.given.filter(|key| !self.objective.contains(key));
        self.objective.extend(given);
        self.early.extend(&sums.early);
        self.risen.extend(&sums.risen);
        self.apart.extend(&sums.apart);
        sums.risen
    }

    /// The problem, with the monomials of each basis in random order.
    fn draft(self) -> Draft {
        let monomial = |key: u64| Monomial(key.to_le_bytes());
        let mut draft = Draft::new(self.plan.variables, 0);
        draft.bases.clear();
        for growing in &self.bases {
            let basis = growing.blocks.iter().flatten();
            let mut basis: Vec<Monomial> = basis.map(|&key| monomial(key)).collect();
            self.rng.shuffle(&mut basis);
            draft.bases.push(basis);
        }
        for growing in &self.bases[1..] {
            let terms = growing.exponents.iter();
            let terms = terms.map(|&key| (monomial(key), self.rng.nonzero(99) as i16));
            draft.constraints.push(terms.collect());
        }
        for &key in &self.objective {
            draft.objective.push((monomial(key), self.rng.nonzero(999)));
        }
        draft
    }
}

/// The monomials a of degree at most 8 with t + a + b = `sum` for some t and b of these.
fn cofactors<'a>(
    exponents: &'a [u64],
    members: &'a [u64],
    sum: u64,
) -> impl Iterator<Item = u64> + 'a {
    let divisors = exponents
        .iter()
        .flat_map(move |t| members.iter().map(move |b| t + b));
    let cofactors = divisors
        .filter(move |&divisor| divides(divisor, sum))
        .map(move |divisor| sum - divisor);
    cofactors.filter(|&cofactor| degree(cofactor) <= 8)
}

fn degree(key: u64) -> u32 {
    Monomial(key.to_le_bytes()).degree()
}

#[cfg(test)]
mod tests {
    use super::*;
    use crate::generate::blocks::long_plan;

    #[test]
    fn each_step_takes_a_round() {
        let draft = longest(&mut Rng::new(5), &long_plan(), 4);
        let rounds = Checker::default().blocks(&draft.bytes()).unwrap().rounds;
        let named: Vec<usize> = draft.bases.iter().map(Vec::len).collect();
        let monomials: usize = named.iter().sum();
        let bases = named.iter().filter(|&&size| size > 0).count();
        assert!(rounds > 300, "{rounds} rounds");
        assert!(rounds <= monomials - bases + 2);
    }
}
