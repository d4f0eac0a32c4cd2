//! The joining rule: blocks, support set S and the number of rounds.

use super::pairs::Pairs;
use super::parity::{parity, Parities, Shifts};
use super::partition::{bits, Partition};
use super::problem::{Problem, BASES, BASIS};
use super::sums::Sums;
use super::table::KeyTable;
use crate::monomial::divides;
use crate::refusal::{Refusal, PROBLEM, SUPPORT};

/// "The closed S with the zero exponent added may have at most 2,048 members."
pub const SUPPORT_MEMBERS: usize = 2_048;

const NOWHERE: u8 = u8::MAX;

/// From so many exponents of g_j on, each sum b + b' is looked at and added once only, and looked at
/// by parity first.
const MANY_EXPONENTS: usize = 4;

/// The closed blocks and S of a problem. The room it holds serves the next problem too.
#[derive(Default)]
pub struct Closure {
    support: KeyTable,
    /// The part of S, in order of arrival, that the last round added.
    fresh: std::ops::Range<usize>,
    partitions: [Partition; BASES],
    /// The parities of the first members of S, and how many those are.
    parities: Parities,
    noted: usize,
    /// The sums b + b' of one basis that need not be looked at again in this round.
    seen: KeyTable,
    /// All basis monomials, and the index of each in every basis.
    monomials: KeyTable,
    indices: Vec<[u8; BASES]>,
    pairs: [Pairs; BASES],
    sums: [Sums; BASES],
    rounds: usize,
}

impl Closure {
    /// The closed S with the zero exponent added.
    pub fn support(&self) -> &KeyTable {
        &self.support
    }

    /// The number of a sum b + b' of basis j with b, b' in one block.
    #[inline]
    pub fn number(&mut self, problem: &Problem, j: usize, sum: u64) -> usize {
        self.sums[j].add(sum, &problem.multipliers[j].support, &mut self.support)
    }

    /// The places in S of t + b + b' for the exponents t of g_j, by the number of b + b'.
    pub fn places(&self, problem: &Problem, j: usize) -> impl Iterator<Item = &[u16]> {
        self.sums[j].places(problem.multipliers[j].support.len())
    }

    /// The number of rounds; the last, which changes nothing, counts too.
    pub fn rounds(&self) -> usize {
        self.rounds
    }

    /// The block number of an index in a basis.
    pub fn block(&self, basis: usize, index: usize) -> u8 {
        self.partitions[basis].block(index)
    }

    /// The number of blocks of all bases.
    pub fn count(&self, problem: &Problem) -> usize {
        problem.in_use().map(|j| self.partitions[j].count()).sum()
    }

    /// Closes the blocks and S of a problem, or refuses with 7.
    pub fn close(&mut self, problem: &Problem) -> Result<(), Refusal> {
        self.start(problem);
        loop {
            self.rounds += 1;
            let mut joined = false;
            for j in problem.in_use() {
                joined |= self.join(problem, j);
            }
            let before = self.support.len();
            for j in problem.in_use() {
                self.spread(problem, j)?;
            }
            self.fresh = before..self.support.len();
            if !joined && self.fresh.is_empty() {
                break;
            }
        }
        limit(&self.support)?;
        self.support.insert(0);
        Ok(())
    }

    /// "S starts as all exponents of the objective and constraints, and 2b for b in basis 0."
    fn start(&mut self, problem: &Problem) {
        self.rounds = 0;
        self.noted = 0;
        self.parities = Parities::default();
        self.support.clear();
        self.monomials.clear();
        self.indices.clear();
        let constraints = &problem.multipliers[1..=problem.constraints()];
        let supports = constraints.iter().flat_map(|g| &g.support);
        for &key in problem.objective.support.iter().chain(supports) {
            self.support.insert(key);
        }
        for &key in &problem.bases[0] {
            self.support.insert(2 * key);
        }
        self.fresh = 0..self.support.len();
        for j in problem.in_use() {
            let size = problem.bases[j].len();
            self.partitions[j].start(size);
            self.pairs[j].clear();
            self.sums[j].start(size);
        }
    }

    /// The first half of a round for basis j; tells whether a block changed.
    ///
    /// A pair in two blocks can be joined only by a member of S that the last round added. So
    /// either the pairs are looked up in S or the fresh members are taken apart, whichever is less.
    fn join(&mut self, problem: &Problem, j: usize) -> bool {
        let (basis, exponents) = (&problem.bases[j], &problem.multipliers[j].support);
        let partition = &mut self.partitions[j];
        let (split, count) = (partition.split(), partition.count());
        if split == 0 || self.fresh.is_empty() || exponents.is_empty() {
            return false;
        }
        if 2 * self.fresh.len() * basis.len() >= split {
            self.join_by_pairs(problem, j);
        } else if self.pairs[j].serve(basis, self.fresh.len() * exponents.len() * basis.len()) {
            let members = &self.support.keys()[self.fresh.clone()];
            self.pairs[j].join(members, exponents, partition);
        } else {
            self.join_by_fresh(problem, j);
        }
        self.partitions[j].count() != count
    }

    /// Joins b and b' when some exponent t of g_j has t + b + b' in S.
    fn join_by_pairs(&mut self, problem: &Problem, j: usize) {
        let basis = &problem.bases[j];
        let exponents = &problem.multipliers[j].support;
        let many = exponents.len() >= MANY_EXPONENTS;
        if many {
            self.note_parities();
            self.seen.clear();
        }
        let shifts = if many {
            Shifts::of(exponents)
        } else {
            Shifts::default()
        };
        let partition = &mut self.partitions[j];
        let all = u64::MAX >> (BASIS - basis.len());
        for (first, &key) in basis.iter().enumerate() {
            let mut rest = all & (u64::MAX << first) & !partition.block_of(first);
            while rest != 0 {
                let second = rest.trailing_zeros() as usize;
                rest &= rest - 1;
                let sum = key + basis[second];
                if many && (!shifts.reach(sum, &self.parities) || self.seen.contains(sum)) {
                    continue;
                }
                if exponents.iter().any(|t| self.support.contains(t + sum)) {
                    partition.join(first, second);
                    rest &= !partition.block_of(first);
                } else if many {
                    self.seen.insert(sum);
                }
            }
        }
    }

    /// Brings the parities up to date with S.
    fn note_parities(&mut self) {
        for &key in &self.support.keys()[self.noted..] {
            self.parities.insert(parity(key));
        }
        self.noted = self.support.len();
    }

    /// Joins b and b' when a fresh member of S is t + b + b' for some exponent t of g_j.
    fn join_by_fresh(&mut self, problem: &Problem, j: usize) {
        if self.monomials.len() == 0 {
            self.index_monomials(problem);
        }
        let basis = &problem.bases[j];
        let partition = &mut self.partitions[j];
        for &member in &self.support.keys()[self.fresh.clone()] {
            for &t in &problem.multipliers[j].support {
                if !divides(t, member) {
                    continue;
                }
                let sum = member - t;
                for (first, &key) in basis.iter().enumerate() {
                    if !divides(key, sum) {
                        continue;
                    }
                    let number = self.monomials.find(sum - key);
                    let second = number.map_or(NOWHERE, |number| self.indices[number][j]);
                    if second != NOWHERE {
                        partition.join(first, usize::from(second));
                    }
                }
            }
        }
    }

    fn index_monomials(&mut self, problem: &Problem) {
        for j in problem.in_use() {
            for (index, &key) in problem.bases[j].iter().enumerate() {
                let number = self.monomials.insert(key);
                if number == self.indices.len() {
                    self.indices.push([NOWHERE; BASES]);
                }
                self.indices[number][j] = index as u8;
            }
        }
    }

    /// The second half of a round for basis j: adds to S every t + b + b' with b, b' in one block.
    fn spread(&mut self, problem: &Problem, j: usize) -> Result<(), Refusal> {
        let (basis, exponents) = (&problem.bases[j], &problem.multipliers[j].support);
        let (partition, sums) = (&mut self.partitions[j], &mut self.sums[j]);
        if exponents.is_empty() || !partition.take_change() {
            return Ok(());
        }
        for (first, &key) in basis.iter().enumerate() {
            for second in bits(partition.take_partners(first)) {
                let sum = key + basis[second];
                if exponents.len() >= MANY_EXPONENTS {
                    sums.add(sum, exponents, &mut self.support);
                } else {
                    for &t in exponents {
                        self.support.insert(t + sum);
                    }
                }
            }
            limit(&self.support)?;
        }
        Ok(())
    }
}

/// Refusal 7. S only grows, so it may be given as soon as S is too large.
fn limit(support: &KeyTable) -> Result<(), Refusal> {
    let zero = usize::from(!support.contains(0));
    if support.len() + zero > SUPPORT_MEMBERS {
        return Err(Refusal::new(SUPPORT, PROBLEM, 0));
    }
    Ok(())
}
