//! Problems in the box 1 - x_v² >= 0 with certificates as a solver's, that hold by construction.
//!
//! The objective is p + Q with Q a sum of squares over basis 0, Q = sum of G_ik b_i b_k. The other
//! side takes -2 G_ik b_i b_k = |G_ik| (b_i ∓ b_k)² - |G_ik| (b_i² + b_k²), and then
//! -c b² = c (1 - b²) - c with 1 - (x_v m)² = (1 - m²) + m² (1 - x_v²), down to m = 1.

use crate::generate::accepted::{add, Case};
use crate::generate::draft::{power, product, Draft, DraftCertificate, DraftRow};
use crate::generate::problems::all_monomials;
use crate::generate::rng::Rng;
use crate::monomial::Monomial;

/// The matrix G of a sum of squares.
type Gram = Vec<Vec<i32>>;

/// A random case in a box; for `turned` the squares bound the objective from above.
pub fn boxed(rng: &mut Rng, turned: bool) -> Case {
    let variables = rng.between(2, 4);
    let mut problem = empty_box(rng, variables);
    let size = problem.bases[0].len();
    let rows = square_rows(rng, size);
    let gram = gram(&rows, size);
    let p = rng.nonzero(1_000);
    let sign = if turned { -1 } else { 1 };
    problem.objective = objective(&problem.bases[0], &gram, p, sign);
    let total: i32 = (0..size).map(|i| row_sum(&gram, i)).sum();
    let far_rows = complement(&problem, &gram);
    let squares = certificate(u8::from(turned), p, rows);
    let far = certificate(u8::from(!turned), p + sign * total, far_rows);
    let (lower, upper) = if turned {
        (far, squares)
    } else {
        (squares, far)
    };
    Case {
        problem,
        lower,
        upper,
        focus: rng.below(2),
    }
}

fn certificate(side: u8, p: i32, rows: Vec<DraftRow>) -> DraftCertificate {
    DraftCertificate {
        side,
        denominator: 1,
        p,
        q: 1,
        rows,
    }
}

/// The box with all monomials of degree at most 2 in basis 0, and at most 1 in the others.
fn empty_box(rng: &mut Rng, variables: usize) -> Draft {
    let mut draft = Draft::new(variables, 0);
    let mut basis = all_monomials(variables, 2);
    while basis.len() > 12 {
        basis.remove(rng.between(1, basis.len() - 1));
    }
    draft.bases[0] = basis;
    for v in 1..=variables {
        let terms = vec![(Monomial::ONE, 1), (power(v, 2), -1)];
        draft.constrain(terms, all_monomials(variables, 1));
    }
    draft
}

/// Rows on basis 0 with a few small factors each.
fn square_rows(rng: &mut Rng, size: usize) -> Vec<DraftRow> {
    let mut rows = Vec::new();
    for _ in 0..rng.between(3, 10) {
        let mut entries = Vec::new();
        let sparse = rng.between(1, 3);
        for index in 0..size {
            if rng.below(4) >= sparse {
                entries.push((index as u8, rng.nonzero(20) as i16));
            }
        }
        rows.push(DraftRow::new(0, rng.between(1, 4) as u16, &entries));
    }
    rows
}

fn gram(rows: &[DraftRow], size: usize) -> Gram {
    let mut gram = vec![vec![0; size]; size];
    for row in rows {
        for &(i, l) in &row.entries {
            for &(k, m) in &row.entries {
                let product = i32::from(row.weight) * i32::from(l) * i32::from(m);
                gram[usize::from(i)][usize::from(k)] += product;
            }
        }
    }
    gram
}

/// The sum of the sizes of row i of G.
fn row_sum(gram: &Gram, i: usize) -> i32 {
    gram[i].iter().map(|g| g.abs()).sum()
}

fn objective(basis: &[Monomial], gram: &Gram, p: i32, sign: i32) -> Vec<(Monomial, i32)> {
    let mut terms = vec![(Monomial::ONE, p)];
    for (i, row) in gram.iter().enumerate() {
        for (k, &g) in row.iter().enumerate() {
            add(&mut terms, product(basis[i], basis[k]), sign * g);
        }
    }
    terms
}

/// The rows of the other side: differences of pairs, and monomials on the constraints.
fn complement(problem: &Draft, gram: &Gram) -> Vec<DraftRow> {
    let mut rows = Vec::new();
    for (i, row) in gram.iter().enumerate() {
        for (k, &g) in row[..i].iter().enumerate() {
            if g != 0 {
                let entries = [(k as u8, 1), (i as u8, -g.signum() as i16)];
                rows.push(DraftRow::new(0, g.unsigned_abs() as u16, &entries));
            }
        }
    }
    let mut weights = vec![[0; 8]; problem.bases.len()];
    for (i, &b) in problem.bases[0].iter().enumerate() {
        let mut rest = b;
        while let Some(v) = rest.0.iter().position(|&e| e > 0) {
            rest.0[v] -= 1;
            let localizing = &problem.bases[v + 1];
            let index = localizing.iter().position(|&m| m == rest);
            weights[v + 1][index.expect("it has degree 1 or 0")] += row_sum(gram, i);
        }
    }
    for (j, weights) in weights.iter().enumerate() {
        let used = weights.iter().enumerate().filter(|(_, &w)| w > 0);
        rows.extend(used.map(|(i, &w)| DraftRow::new(j, w as u16, &[(i as u8, 1)])));
    }
    rows
}
