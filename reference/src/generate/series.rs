//! Workloads that grow in one measure, so that the growth of the time can be seen.

use crate::generate::accepted::Case;
use crate::generate::blocks::long_plan;
use crate::generate::cascade::{longest, Plan};
use crate::generate::certificates::plain;
use crate::generate::draft::{Draft, DraftCertificate, DraftRow};
use crate::generate::problems::grid;
use crate::generate::rng::Rng;
use crate::monomial::Monomial;
use crate::records::{Record, CHECK};

/// The workload `rows-ROWS-ENTRIES-TERMS` or `rounds-ROUNDS`.
pub fn series(rng: &mut Rng, name: &str) -> Option<Vec<Record>> {
    let (kind, numbers) = name.split_once('-')?;
    let numbers: Result<Vec<usize>, _> = numbers.split('-').map(str::parse).collect();
    match (kind, &numbers.ok()?[..]) {
        ("rows", &[rows, entries, terms]) if within(rows, entries, terms) => {
            let case = rows_case(rng, rows, entries, terms);
            Some(vec![plain(CHECK, &case)])
        }
        ("rounds", &[rounds]) => Some(vec![rounds_record(rng, rounds)]),
        _ => None,
    }
}

fn within(rows: usize, entries: usize, terms: usize) -> bool {
    rows <= 128 && (1..=64).contains(&entries) && (1..=32).contains(&terms)
}

/// Rows in turn on two constraints of opposite signs, so that they cancel two by two. Two more
/// constraints name the monomials of the bases, which joins each of them with 1.
fn rows_case(rng: &mut Rng, rows: usize, entries: usize, terms: usize) -> Case {
    let mut problem = Draft::new(8, 0);
    let basis: Vec<Monomial> = grid([4, 4, 2, 2], 1).into_iter().take(entries).collect();
    let g = grid([2, 4, 2, 2], 1).into_iter().take(terms);
    let g: Vec<(Monomial, i16)> = g.map(|m| (m, rng.nonzero(999) as i16)).collect();
    let opposite = g.iter().map(|&(m, c)| (m, -c)).collect();
    problem.constrain(g, basis.clone());
    problem.constrain(opposite, basis.clone());
    for part in basis.chunks(32) {
        problem.constrain(part.iter().map(|&m| (m, 1)).collect(), Vec::new());
    }
    let mut all = Vec::new();
    for _ in 0..rows.div_ceil(2) {
        let full = (0..entries).map(|i| (i as u8, rng.nonzero(32_767) as i16));
        let full: Vec<(u8, i16)> = full.collect();
        let weight = rng.between(1, 65_535) as u16;
        all.extend([1, 2].map(|basis| DraftRow::new(basis, weight, &full)));
    }
    let lower = DraftCertificate {
        side: 0,
        denominator: 1,
        p: 0,
        q: 1,
        rows: all,
    };
    Case {
        problem,
        upper: lower.clone(),
        lower,
        focus: 0,
    }
}

/// A problem of about so many rounds.
fn rounds_record(rng: &mut Rng, rounds: usize) -> Record {
    let plan = Plan {
        rounds,
        ..long_plan()
    };
    Record::blocks(longest(rng, &plan, 8).bytes())
}

#[cfg(test)]
mod tests {
    use super::*;
    use crate::plain::answer;

    #[test]
    fn series_are_accepted() {
        for name in ["rows-128-64-32", "rows-8-1-1", "rows-2-33-5", "rounds-20"] {
            let records = series(&mut Rng::new(2), name).unwrap();
            assert!(answer(&records[0]).is_ok(), "{name}");
        }
        assert!(series(&mut Rng::new(2), "rows-129-1-1").is_none());
    }
}
