//! The samples A to I of document 01.

use crate::generate::draft::{monomial, power, product, Draft, DraftCertificate, DraftRow};
use crate::monomial::Monomial;
use crate::records::Record;

/// A lower or upper certificate with D, p and q, and its rows.
fn certificate(side: u8, bound: (u16, i32, u16), rows: Vec<DraftRow>) -> Vec<u8> {
    let (denominator, p, q) = bound;
    DraftCertificate {
        side,
        denominator,
        p,
        q,
        rows,
    }
    .bytes()
}

/// A problem in one variable: objective and basis 0 by exponents.
fn univariate(objective: &[(u8, i32)], basis: &[u8]) -> Draft {
    let mut draft = Draft::new(1, 0);
    draft.objective = objective.iter().map(|&(e, c)| (power(1, e), c)).collect();
    draft.bases[0] = basis.iter().map(|&e| power(1, e)).collect();
    draft
}

/// A: x² - 2x + 3, basis 1, x.
pub fn a() -> Draft {
    univariate(&[(2, 1), (1, -2), (0, 3)], &[0, 1])
}

/// The certificate of A with the bound p; B is the one with p = 3.
pub fn a_certificate(p: i32) -> Vec<u8> {
    let rows = vec![DraftRow::new(0, 1, &[(0, -1), (1, 1)])];
    certificate(0, (1, p, 1), rows)
}

/// C: 1 + x + x⁴, basis 1, x, x².
pub fn c() -> Draft {
    univariate(&[(0, 1), (1, 1), (4, 1)], &[0, 1, 2])
}

/// D: x1² + x2², basis 1, x1, x2.
pub fn d() -> Draft {
    let mut draft = Draft::new(2, 0);
    draft.objective = vec![(power(1, 2), 1), (power(2, 2), 1)];
    draft.bases[0] = vec![Monomial::ONE, power(1, 1), power(2, 1)];
    draft
}

/// A row on x1 and x2 for D.
pub fn d_certificate() -> Vec<u8> {
    let rows = vec![DraftRow::new(0, 1, &[(1, 1), (2, 1)])];
    certificate(0, (1, 0, 1), rows)
}

/// E: objective x⁶, constraint x, basis 0: 1, x³; basis 1: x.
pub fn e() -> Draft {
    let mut draft = univariate(&[(6, 1)], &[0, 3]);
    draft.constrain(vec![(power(1, 1), 1)], vec![power(1, 1)]);
    draft
}

/// F: objective x, constraint 1 - x², bases {1, x} and {1}.
pub fn f() -> Draft {
    let mut draft = univariate(&[(1, 1)], &[0, 1]);
    let terms = vec![(Monomial::ONE, 1), (power(1, 2), -1)];
    draft.constrain(terms, vec![Monomial::ONE]);
    draft
}

/// The certificates of F, the lower one for side 0 and the upper one for side 1.
pub fn f_certificate(side: u8) -> Vec<u8> {
    let sign = if side == 0 { 1 } else { -1 };
    let rows = vec![
        DraftRow::new(0, 1, &[(0, 1), (1, sign)]),
        DraftRow::new(1, 1, &[(0, 1)]),
    ];
    certificate(side, (2, -i32::from(sign), 1), rows)
}

/// H: S has exactly 2,048 members.
pub fn h() -> Draft {
    let mut draft = Draft::new(8, 0);
    let powers = (0..16).map(|i| power(7, i));
    let terms = powers.flat_map(|m| [(m, 1), (product(m, power(8, 1)), 1)]);
    draft.constrain(terms.collect(), subsets());
    draft
}

/// H with the objective term x1, which makes one member more.
pub fn h_with_objective() -> Draft {
    let mut draft = h();
    draft.objective.push((power(1, 1), 1));
    draft
}

/// The 64 products of subsets of x1..x6.
pub fn subsets() -> Vec<Monomial> {
    let bit = |set: u8, i: u8| (set >> i) & 1;
    let subset = |set: u8| monomial(&[0, 1, 2, 3, 4, 5].map(|i| bit(set, i)));
    (0..64).map(subset).collect()
}

/// I: the certificate of A with q = 0.
pub fn i_certificate() -> Vec<u8> {
    certificate(0, (1, 2, 0), Vec::new())
}

/// The problems of the samples.
pub fn problems() -> Vec<Vec<u8>> {
    let drafts = [a(), c(), d(), e(), f(), h(), h_with_objective()];
    let mut all: Vec<Vec<u8>> = drafts.iter().map(Draft::bytes).collect();
    all.push(Vec::new());
    all
}

/// The samples as checks.
pub fn checks() -> Vec<Record> {
    let record = |draft: Draft, certificate| Record::check(draft.bytes(), certificate);
    vec![
        record(a(), a_certificate(2)),
        record(a(), a_certificate(3)),
        record(d(), d_certificate()),
        record(f(), f_certificate(0)),
        record(f(), f_certificate(1)),
        record(h(), certificate(0, (1, 0, 1), Vec::new())),
        record(h_with_objective(), Vec::new()),
        record(a(), i_certificate()),
        record(a(), Vec::new()),
        Record::check(Vec::new(), a_certificate(2)),
    ]
}

/// The samples as pairs.
pub fn pairs() -> Vec<Record> {
    let record = |draft: Draft, first, second| Record::pair(draft.bytes(), first, second);
    vec![
        record(f(), f_certificate(0), f_certificate(1)),
        record(f(), f_certificate(1), f_certificate(0)),
        record(f(), f_certificate(0), f_certificate(0)),
        record(f(), f_certificate(1), f_certificate(1)),
        record(f(), f_certificate(1), Vec::new()),
        record(f(), Vec::new(), f_certificate(1)),
        record(a(), a_certificate(3), Vec::new()),
        record(a(), a_certificate(2), a_certificate(2)),
        record(a(), i_certificate(), i_certificate()),
        record(h_with_objective(), Vec::new(), Vec::new()),
    ]
}

#[cfg(test)]
mod tests {
    use super::*;
    use crate::plain::{self, line};

    /// The count, the rounds and the first block numbers of basis 0.
    fn blocks(draft: Draft, first: &[u8]) -> (usize, usize) {
        let blocks = plain::blocks(&draft.bytes()).unwrap();
        assert_eq!(&blocks.bytes[..first.len()], first);
        assert_eq!(blocks.bytes[first.len()], 255);
        (blocks.count, blocks.rounds)
    }

    #[test]
    fn blocks_of_the_samples() {
        assert_eq!(blocks(a(), &[0, 0]), (1, 2));
        assert_eq!(blocks(c(), &[0, 0, 0]), (1, 2));
        assert_eq!(blocks(d(), &[0, 1, 2]), (3, 1));
        assert_eq!(blocks(e(), &[0, 0]), (2, 3));
        assert_eq!(blocks(f(), &[0, 0]), (2, 2));
    }

    #[test]
    fn case_h_is_full_and_no_more() {
        let blocks = plain::blocks(&h().bytes()).unwrap();
        assert_eq!((blocks.count, blocks.rounds), (64, 2));
        let refused = line(&Record::blocks(h_with_objective().bytes()));
        assert_eq!(refused, "refused 7 0 0 0");
    }

    #[test]
    fn checks_of_the_samples() {
        let lines: Vec<String> = checks().iter().map(line).collect();
        let expected = [
            "check 0 2/1 rounds 2 rule 1",
            "refused 9 1 0 0",
            "refused 8 1 18 0",
            "check 0 -1/1 rounds 2 rule 1",
            "check 1 1/1 rounds 2 rule 1",
            "check 0 0/1 rounds 2 rule 1",
            "refused 7 0 0 0",
            "refused 4 1 0 0",
            "refused 2 1 0 0",
            "refused 2 0 0 0",
        ];
        assert_eq!(lines, expected);
    }

    #[test]
    fn pairs_of_the_samples() {
        let lines: Vec<String> = pairs().iter().map(line).collect();
        let expected = [
            "pair -1/1 1/1 gap 2/1 rounds 2 rule 1",
            "refused 10 1 0 0",
            "refused 10 2 0 0",
            "refused 10 1 0 0",
            "refused 2 2 0 0",
            "refused 2 1 0 0",
            "refused 9 1 0 0",
            "refused 10 2 0 0",
            "refused 4 1 0 0",
            "refused 7 0 0 0",
        ];
        assert_eq!(lines, expected);
    }

    #[test]
    fn examples_of_the_table() {
        let refusal = |bytes: &[u8]| line(&Record::blocks(bytes.to_vec()));
        assert_eq!(refusal(&[1, 1]), "refused 2 0 2 0");
        assert_eq!(refusal(&[7]), "refused 3 0 0 0");
        assert_eq!(refusal(&[1, 0]), "refused 4 0 0 0");
        assert_eq!(refusal(&[6]), "refused 3 0 0 0");
        assert_eq!(refusal(&[1, 1, 6, 1]), "refused 2 0 3 0");
    }
}
