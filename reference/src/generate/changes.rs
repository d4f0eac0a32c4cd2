//! Changes of a case: near misses, wide sums, other rows and other problems.

use crate::generate::accepted::Case;
use crate::generate::draft::*;
use crate::generate::rng::Rng;
use crate::monomial::Monomial;

/// How many changes there are.
pub const CHANGES: usize = 15;

/// Changes a case: by one in some number, by large multiples, in its rows or its problem.
pub fn change_case(rng: &mut Rng, case: &mut Case, change: usize) {
    match change {
        0 => near_certificate(rng, case),
        1 => near_rows(rng, case),
        2 => near_problem(rng, case),
        3 => leaving(rng, case),
        4 => multiple(rng, case, 1, 1),
        5 => multiple(rng, case, -32_768, 1),
        6 => multiple(rng, case, -32_768, 16),
        7 => multiple(rng, case, -32_768, 32),
        8 => wide_left(rng, case),
        9 => across(rng, case),
        10 => cancelling(rng, case),
        11 => trivial(rng, case),
        12 => constant(rng, case),
        13 => empty_region(rng, case),
        _ => zero_constraint(rng, case),
    }
}

/// One off in D, p or q.
fn near_certificate(rng: &mut Rng, case: &mut Case) {
    let up = rng.once_in(2);
    let operand = rng.below(3);
    let certificate = case.focused();
    match operand {
        0 => certificate.p += if up { 1 } else { -1 },
        1 => certificate.q = near(certificate.q, up),
        _ => certificate.denominator = near(certificate.denominator, up),
    }
}

fn near(value: u16, up: bool) -> u16 {
    if up || value == 1 {
        value.saturating_add(1)
    } else {
        value - 1
    }
}

/// One off in a weight, a factor or an index, or a row left out.
fn near_rows(rng: &mut Rng, case: &mut Case) {
    let (operand, up) = (rng.below(4), rng.once_in(2));
    let pick = rng.next() as usize;
    let rows = &mut case.focused().rows;
    let place = pick % rows.len();
    let row = &mut rows[place];
    match (operand, row.entries.is_empty()) {
        (0, _) | (_, true) => row.weight = near(row.weight, up),
        (1, _) => {
            let entry = pick / 7 % row.entries.len();
            row.entries[entry].1 += if up { 1 } else { -1 };
        }
        (2, _) => {
            let entry = pick / 7 % row.entries.len();
            row.entries[entry].0 ^= 1;
        }
        _ => {
            rows.remove(place);
        }
    }
}

/// One off in a coefficient of the problem.
fn near_problem(rng: &mut Rng, case: &mut Case) {
    let problem = &mut case.problem;
    if rng.once_in(2) && !problem.objective.is_empty() {
        let place = rng.below(problem.objective.len());
        problem.objective[place].1 += 1;
    } else {
        let constraint = rng.below(problem.constraints.len());
        let terms = &mut problem.constraints[constraint];
        let place = rng.below(terms.len());
        terms[place].1 -= 1;
    }
}

/// A monomial in the variables of the problem for a new constraint.
fn some_monomial(rng: &mut Rng, case: &Case) -> Monomial {
    random_monomial(rng, usize::from(case.problem.variables), 6)
}

/// Rows whose sum leaves 64 bits and comes back: on two constraints of opposite signs.
fn leaving(rng: &mut Rng, case: &mut Case) {
    let (m, b) = (some_monomial(rng, case), some_monomial(rng, case));
    let up = case.problem.constrain(vec![(m, 32_767)], vec![b]);
    let down = case.problem.constrain(vec![(m, -32_767)], vec![b]);
    let count = rng.between(9, 20);
    let certificate = case.focused();
    for (basis, factor) in [(up, -32_768), (down, -32_768)] {
        let row = DraftRow::new(basis, 65_535, &[(0, factor)]);
        certificate.rows.extend(vec![row; count]);
    }
}

/// Equal rows on a constraint of one term, which move T at one monomial alone: with the
/// coefficient 1 each row has weight 4 and adds 4 x 2^30 = 2^32; with -2^15 each has weight 2^15
/// and takes 2^15 x 2^30 x 2^15 = 2^60 away, so 16 rows take 2^64 and 32 rows 2^65.
fn multiple(rng: &mut Rng, case: &mut Case, coefficient: i16, count: usize) {
    let (m, b) = (some_monomial(rng, case), some_monomial(rng, case));
    let basis = case.problem.constrain(vec![(m, coefficient)], vec![b]);
    let weight = if coefficient == 1 { 4 } else { 32_768 };
    let row = DraftRow::new(basis, weight, &[(0, -32_768)]);
    case.focused().rows.extend(vec![row; count]);
}

/// A left side that is off by 2^60 at one monomial, or by 2^32 at the constant.
fn wide_left(rng: &mut Rng, case: &mut Case) {
    case.problem = Draft::new(2, 0);
    for certificate in [&mut case.lower, &mut case.upper] {
        certificate.rows.clear();
        (certificate.denominator, certificate.q) = (32_768, 32_768);
        certificate.p = if rng.once_in(2) { 1 << 17 } else { 0 };
    }
    if rng.once_in(2) {
        let coefficient = *rng.pick(&[1 << 30, i32::MIN]);
        case.problem.objective = vec![(power(2, 3), coefficient)];
    }
}

/// A row over two monomials, one of which meets nothing.
fn across(rng: &mut Rng, case: &mut Case) {
    let problem = &mut case.problem;
    if problem.variables == 8 {
        return;
    }
    problem.variables += 1;
    let alone = power(usize::from(problem.variables), 1);
    let basis = rng.below(problem.bases.len());
    problem.bases[basis].push(alone);
    let last = problem.bases[basis].len() as u8 - 1;
    let entries = [(0, 1), (last, 1)];
    let start = usize::from(last == 0);
    let row = DraftRow::new(basis, 1, &entries[start..]);
    let place = rng.next() as usize;
    let rows = &mut case.focused().rows;
    rows.insert(place % (rows.len() + 1), row);
}

/// A constraint -m² whose rows cancel squares of basis 0.
fn cancelling(rng: &mut Rng, case: &mut Case) {
    let basis = &case.problem.bases[0];
    let index = rng.below(basis.len());
    let m = basis[index];
    let terms = vec![(product(m, m), -1)];
    let number = case.problem.constrain(terms, vec![Monomial::ONE]);
    let (weight, factor) = (rng.between(1, 65_535) as u16, rng.nonzero(32_767) as i16);
    let rows = &mut case.focused().rows;
    rows.push(DraftRow::new(number, weight, &[(0, factor)]));
    rows.push(DraftRow::new(0, weight, &[(index as u8, factor)]));
}

/// Certificates without rows for an empty objective, now and then with a bound that is not 0.
fn trivial(rng: &mut Rng, case: &mut Case) {
    case.problem.objective.clear();
    for certificate in [&mut case.lower, &mut case.upper] {
        certificate.rows.clear();
        certificate.p = 0;
    }
    if rng.once_in(3) {
        case.focused().p = rng.nonzero(i32::MAX);
    }
}

/// Certificates without rows for a constant objective, up to the largest bounds.
fn constant(rng: &mut Rng, case: &mut Case) {
    let small = (rng.nonzero(1_000), rng.between(1, 30) as u16);
    let extremes = [(i32::MIN, 1), (i32::MAX, 1), (-32_768, 65_535)];
    let (value, q) = *rng.pick(&[small, extremes[0], extremes[1], extremes[2]]);
    case.problem.objective = vec![(Monomial::ONE, value)];
    for certificate in [&mut case.lower, &mut case.upper] {
        certificate.rows.clear();
        (certificate.p, certificate.q) = (value * i32::from(q), q);
    }
    if rng.once_in(3) {
        let certificate = case.focused();
        certificate.p ^= 1;
    }
}

/// A negative constraint, which no point meets: the lower bound lies above the upper one.
fn empty_region(rng: &mut Rng, case: &mut Case) {
    let problem = &mut case.problem;
    problem.objective.clear();
    let terms = vec![(Monomial::ONE, -1)];
    let basis = problem.constrain(terms, vec![Monomial::ONE]);
    for (certificate, sign) in [(&mut case.lower, 1), (&mut case.upper, -1)] {
        let weight = rng.between(1, 65_535) as u16;
        let factor = rng.nonzero(32_767) as i16;
        certificate.rows = vec![DraftRow::new(basis, weight, &[(0, factor)])];
        certificate.denominator = weight;
        certificate.p = sign * i32::from(factor) * i32::from(factor);
        certificate.q = rng.between(1, 65_535) as u16;
    }
}

/// A constraint without terms: its rows add nothing, and no two of its monomials are joined.
fn zero_constraint(rng: &mut Rng, case: &mut Case) {
    let basis = vec![power(1, 1), Monomial::ONE];
    let number = case.problem.constrain(Vec::new(), basis);
    let entries = [(0, 5), (1, -5)];
    let count = rng.between(0, 2);
    let row = DraftRow::new(number, 9, &entries[..count]);
    let place = rng.next() as usize;
    let rows = &mut case.focused().rows;
    rows.insert(place % (rows.len() + 1), row);
}
