//! Problems whose closed S has a given number of members.

use crate::baseline::Checker;
use crate::generate::draft::{power, product, Draft, SUPPORT_MEMBERS};
use crate::generate::problems::{grid, monomials};
use crate::generate::rng::Rng;
use crate::generate::samples::subsets;
use crate::monomial::Monomial;

/// How many members the closed S with zero has, when at most 2,048.
pub fn members(draft: &Draft) -> Option<usize> {
    Checker::default().members(&draft.bytes()).ok()
}

/// Case H with other counts: nothing joins, and S is all t + 2b and the objective.
///
/// `size` members of S itself, with or without the zero exponent among them.
pub fn like_h(rng: &mut Rng, size: usize, zero: bool) -> Draft {
    let shift = if zero { 0 } else { 1 };
    let rows = rng.between(15, 16) as u8;
    let mut basis = subsets();
    rng.shuffle(&mut basis);
    let terms = (0..rows).flat_map(|i| [(i, shift), (i, shift + 1)]);
    let mut terms: Vec<(u8, u8)> = terms.filter(|(i, k)| i + k <= 16).collect();
    terms.truncate(size / basis.len());
    let mut draft = Draft::new(8, 0);
    draft.objective = outside(rng, size - terms.len() * basis.len());
    let term = |&(i, k): &(u8, u8)| (product(power(7, i), power(8, k)), 1);
    draft.constrain(terms.iter().map(term).collect(), basis);
    draft
}

/// Objective terms with x8 to the fourth or more, which are no t + b + b' here.
fn outside(rng: &mut Rng, count: usize) -> Vec<(Monomial, i32)> {
    let mut all: Vec<(Monomial, i32)> = Vec::new();
    while all.len() < count {
        let top = power(8, rng.between(4, 20) as u8);
        let rest = monomials(rng, 1, 7, 12)[0];
        let monomial = product(top, rest);
        if all.iter().all(|&(m, _)| m != monomial) {
            all.push((monomial, rng.nonzero(9)));
        }
    }
    all
}

/// A problem whose S with zero has `size` + 6 members after round 1, one more after round 2, and then
/// no more. Most are those of a problem like H in which all have x8, and where nothing joins. Beside
/// them, without x8: the constraint x1 on the basis x1 adds x1³ in round 1, which in round 2 joins 1
/// with x1³ on the basis of the constraint 1 + x2, and these add x1³ x2.
pub fn late(size: usize) -> Draft {
    let mut draft = like_h(&mut Rng::new(size as u64), size, false);
    draft.constrain(vec![(power(1, 1), 1)], vec![power(1, 1)]);
    let terms = vec![(Monomial::ONE, 1), (power(2, 1), 1)];
    draft.constrain(terms, vec![Monomial::ONE, power(1, 3)]);
    draft
}

/// A problem with joined blocks, filled up by objective terms to 2,048 members with zero, or more.
pub fn joined(rng: &mut Rng, over: usize) -> Draft {
    loop {
        let mut draft = grown(rng);
        let Some(members) = members(&draft) else {
            continue;
        };
        let missing = SUPPORT_MEMBERS + over - members;
        if draft.objective.len() + missing <= 256 {
            let terms = outside(rng, missing);
            draft.objective.extend(terms);
            return draft;
        }
    }
}

/// A problem in the first seven variables whose S is large.
fn grown(rng: &mut Rng) -> Draft {
    let mut draft = Draft::new(8, 0);
    let grid = grid([4, 4, 2, 2], 1);
    for m in monomials(rng, 6, 6, 6) {
        draft.objective.push((m, 1));
    }
    for _ in 0..rng.between(1, 3) {
        let count = rng.between(4, 12);
        let terms = monomials(rng, count, 5, 6);
        let mut basis = grid.clone();
        rng.shuffle(&mut basis);
        basis.truncate(rng.between(24, 64));
        draft.constrain(terms.into_iter().map(|m| (m, 1)).collect(), basis);
    }
    draft
}

#[cfg(test)]
mod tests {
    use super::*;

    #[test]
    fn sizes_are_exact() {
        for seed in 0..20 {
            let rng = &mut Rng::new(seed);
            for size in SUPPORT_MEMBERS - 1..=SUPPORT_MEMBERS + 1 {
                assert_eq!(members(&like_h(rng, size, true)), fitting(size));
                assert_eq!(members(&like_h(rng, size, false)), fitting(size + 1));
            }
            let over = rng.below(2);
            let draft = joined(rng, over);
            assert_eq!(members(&draft), fitting(SUPPORT_MEMBERS + over));
        }
    }

    fn fitting(members: usize) -> Option<usize> {
        (members <= SUPPORT_MEMBERS).then_some(members)
    }
}
