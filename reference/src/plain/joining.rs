//! "Joining rule": blocks, S and the number of rounds.

use std::collections::BTreeSet;

use super::problem::{monomials, Problem};
use crate::monomial::Monomial;

/// What the rounds lead to.
pub struct Joined {
    /// The block number of index i in basis j: "A block's number is its lowest index."
    pub blocks: Vec<Vec<usize>>,
    /// S.
    pub support: BTreeSet<Monomial>,
    pub rounds: usize,
}

/// "The limit of 2,048 counts the closed S with the zero exponent and all in-block products
/// t + b + b'" (Req 08), and at an order "the S reached, with zero and its in-block products" (Req 09).
/// Under rule 1 these products are in S.
const MEMBERS: usize = 2_048;

impl Joined {
    /// The rounds of a problem. They end early where S is too large, as S only grows.
    pub fn of(problem: &Problem) -> Joined {
        Joined::by(problem, Joined::round)
    }

    /// "Rounds repeat until one changes neither a block nor S; that one counts too"; an order k "ends
    /// the rounds after k, if they haven't ended sooner" (Req 09).
    pub fn by(problem: &Problem, round: fn(&mut Joined, &Problem)) -> Joined {
        let mut joined = start(problem);
        loop {
            let before = (joined.blocks.clone(), joined.support.len());
            round(&mut joined, problem);
            joined.rounds += 1;
            let after = (joined.blocks.clone(), joined.support.len());
            let ended = before == after || problem.order == Some(joined.rounds);
            if ended || joined.support.len() > MEMBERS {
                return joined;
            }
        }
    }

    /// Whether S with the zero exponent and the in-block products has too many members.
    pub fn is_too_large(&self, problem: &Problem) -> bool {
        let mut counted = self.support.clone();
        counted.insert(Monomial::ONE);
        for j in 0..problem.bases.len() {
            counted.extend(self.products(problem, j));
        }
        counted.len() > MEMBERS
    }

    /// The number of blocks of all bases.
    pub fn count(&self) -> usize {
        let first = |&(index, &block): &(usize, &usize)| index == block;
        let basis = |blocks: &Vec<usize>| blocks.iter().enumerate().filter(first).count();
        self.blocks.iter().map(basis).sum()
    }

    /// One round: all bases join by the same S, and then all add to it; by rule 2, which "adds to S
    /// only the products of basis 0", that one alone.
    fn round(&mut self, problem: &Problem) {
        for j in 0..problem.bases.len() {
            self.join(problem, j);
        }
        let adding = if problem.rule == 1 {
            problem.bases.len()
        } else {
            1
        };
        for j in 0..adding {
            self.support.extend(self.products(problem, j));
        }
    }

    /// Another rule, for the tests: each basis adds to S before the next one joins.
    #[cfg(test)]
    pub fn round_basis_by_basis(&mut self, problem: &Problem) {
        for j in 0..problem.bases.len() {
            self.join(problem, j);
            self.support.extend(self.products(problem, j));
        }
    }

    /// "put b and b' of basis j in one block when some exponent t of g_j has t + b + b' in S, and
    /// complete connected components"
    fn join(&mut self, problem: &Problem, j: usize) {
        let (basis, exponents) = (&problem.bases[j], problem.exponents(j));
        for (i, b) in basis.iter().enumerate() {
            for (k, c) in basis.iter().enumerate().take(i) {
                let in_support = |t: &Monomial| self.support.contains(&t.times(b).times(c));
                let (low, high) = (self.blocks[j][k], self.blocks[j][i]);
                if low != high && exponents.iter().any(in_support) {
                    let number = low.min(high);
                    let joined = self.blocks[j].iter_mut();
                    let joined = joined.filter(|block| [low, high].contains(block));
                    joined.for_each(|block| *block = number);
                }
            }
        }
    }

    /// "every t + b + b' with b, b' in one block of the same j (b = b' included) and t an
    /// exponent of g_j"
    fn products(&self, problem: &Problem, j: usize) -> BTreeSet<Monomial> {
        let mut products = BTreeSet::new();
        let (basis, exponents) = (&problem.bases[j], problem.exponents(j));
        for (i, b) in basis.iter().enumerate() {
            for (k, c) in basis.iter().enumerate().take(i + 1) {
                if self.blocks[j][i] == self.blocks[j][k] {
                    let sums = exponents.iter().map(|t| t.times(b).times(c));
                    products.extend(sums);
                }
            }
        }
        products
    }
}

/// "S starts as all exponents of the objective and constraints, and 2b for each b in basis 0. Every
/// basis starts as single blocks."
fn start(problem: &Problem) -> Joined {
    let objective = monomials(&problem.objective);
    let conditions = problem.conditions.iter();
    let constraints = conditions.flat_map(|condition| monomials(&condition.terms));
    let doubled = problem.bases[0].iter().map(|b| b.times(b));
    let single = |basis: &Vec<Monomial>| (0..basis.len()).collect();
    Joined {
        blocks: problem.bases.iter().map(single).collect(),
        support: objective.chain(constraints).chain(doubled).collect(),
        rounds: 0,
    }
}
