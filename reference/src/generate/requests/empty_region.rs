//! Request 06: regions with no points, and gaps below 0, of 0 and above it.

use super::{places, Streams};
use crate::generate::draft::*;
use crate::generate::refusals::gaps::ACCEPTED;
use crate::generate::rng::Rng;
use crate::monomial::Monomial;
use crate::records::Record;

/// "at most 8" conditions, of which two are put in.
const CONDITIONS: usize = 8;

/// Those found by hand.
pub fn special(kind: u8) -> Vec<Record> {
    let of_kind = ACCEPTED.iter().filter(|accepted| accepted.kind == kind);
    of_kind.map(|accepted| accepted.record()).collect()
}

/// Puts x1^a ≥ 0 and −x1^a − 1 ≥ 0 in, where there is room for both, and moves one of the two bounds:
/// to the other, just past it, or anywhere. Rows of weight D and factor l on both take D l² off the
/// right side, so that l² more is a lower bound, and l² less an upper one.
pub fn put(rng: &mut Rng, streams: &mut Streams) {
    let [problem, certificates @ ..] = streams;
    let begun = places(problem, 0x03).len() + places(problem, 0x07).len();
    if begun + 2 > CONDITIONS {
        return;
    }
    let numbers = [begun as u8 + 1, begun as u8 + 2];
    contradict(problem, power(1, rng.between(1, 4) as u8), numbers);
    let [lower, upper] = certificates.each_ref().map(|commands| bound_of(commands));
    let gap = i64::from(upper.0) * lower.1 - i64::from(lower.0) * upper.1;
    let moved = rng.below(2);
    // The gap falls by the other bound's denominator with each 1 that a bound is moved.
    let step = [upper.1, lower.1][moved].max(1);
    let most = *rng.pick(&[3, 1_000, 1 << 31]);
    let by = match rng.below(4) {
        0 => gap.div_euclid(step),
        1 => gap.div_euclid(step) + 1,
        _ => rng.below(most) as i64,
    };
    move_bound(&mut certificates[moved], by, numbers);
}

/// The two conditions with these numbers before the end, and 1 in their bases.
fn contradict(problem: &mut Vec<Vec<u8>>, x: Monomial, numbers: [u8; 2]) {
    let end = problem.len() - 1;
    let conditions = [
        constraint(),
        constraint_term(x, 1),
        constraint(),
        constraint_term(x, -1),
        constraint_term(Monomial::ONE, -1),
    ];
    let members = numbers.map(|number| basis_monomial(number, Monomial::ONE));
    problem.splice(end..end, conditions.into_iter().chain(members));
}

/// The bound p/q of a certificate.
fn bound_of(certificate: &[Vec<u8>]) -> (i32, i64) {
    let header = &certificate[0];
    let p = i32::from_le_bytes([header[4], header[5], header[6], header[7]]);
    let q = u16::from_le_bytes([header[8], header[9]]);
    (p, i64::from(q))
}

/// A bound moved by so much, up on side 0 and down on side 1, where it stays within 32 bits.
fn move_bound(certificate: &mut Vec<Vec<u8>>, by: i64, numbers: [u8; 2]) {
    let (p, q) = bound_of(certificate);
    let [_, side, low, high, ..] = certificate[0][..] else {
        return;
    };
    let weight = u16::from_le_bytes([low, high]);
    let to = i64::from(p) + if side == 0 { by } else { -by };
    let (0.., Ok(to)) = (by, i32::try_from(to)) else {
        return;
    };
    certificate[0] = bound(side, weight, to, q as u16);
    let rows = factors(by).into_iter().flat_map(|l| {
        let on = |number| [row(number, weight), entry(0, l)];
        numbers.map(on).concat()
    });
    let rows: Vec<Vec<u8>> = rows.collect();
    let end = certificate.len() - 1;
    certificate.splice(end..end, rows);
}

/// Factors whose squares add up to a number: the largest each time.
fn factors(mut number: i64) -> Vec<i16> {
    let mut all = Vec::new();
    while number > 0 {
        let factor = number.isqrt().min(i16::MAX.into());
        all.push(factor as i16);
        number -= factor * factor;
    }
    all
}

#[cfg(test)]
mod tests {
    use super::*;
    use crate::generate::corpus;
    use crate::plain::line;

    #[test]
    fn squares_add_up() {
        for number in [0, 1, 2, 3, 12, 1_000, i64::from(i32::MAX), 1 << 32] {
            let sum: i64 = factors(number).iter().map(|&l| i64::from(l).pow(2)).sum();
            assert_eq!(sum, number);
        }
    }

    /// Among the pairs that the request brought.
    #[test]
    fn the_corpus_has_gaps_on_both_sides_of_0() {
        let pairs = corpus("p");
        let first = pairs.iter().position(|pair| *pair == ACCEPTED[0].record());
        let lines: Vec<String> = pairs[first.unwrap()..].iter().map(line).collect();
        let count = |is: fn(&str) -> bool| {
            let gaps = lines.iter().filter_map(|line| line.split(" gap ").nth(1));
            gaps.filter(|gap| is(gap)).count()
        };
        let [below, at, all] = [
            count(|gap| gap.starts_with("empty ")),
            count(|gap| gap.starts_with("0/")),
            count(|_| true),
        ];
        assert!(below >= 48 && at >= 12 && all - below - at >= 24);
    }
}
