//! Request 05: entries with factors of 32 bits.

use super::{places, Streams};
use crate::generate::certificates::{as_record, streams};
use crate::generate::draft::*;
use crate::generate::largest::{extreme, largest};
use crate::generate::problems::grid;
use crate::generate::refusals::{met, wide_factors};
use crate::generate::rng::Rng;
use crate::monomial::Monomial;
use crate::records::Record;

/// The refusals found by hand, the largest certificates, and sums that leave a power of two.
pub fn special(kind: u8) -> Vec<Record> {
    let mut all = met(wide_factors::cases(), kind);
    let mut cases = largest_cases();
    cases.extend(POWERS.iter().flat_map(power_cases));
    let bytes = cases
        .into_iter()
        .map(|case| case.map(|stream| stream.concat()));
    all.extend(bytes.map(|bytes| as_record(kind, 0, bytes)));
    all
}

/// Certificates of 128 rows with wide factors: sums that cancel, as the conditions stand in pairs of
/// opposite signs with the same rows, of many factors and, up to 2^108, of one; the same off by one
/// in one factor; and sums of one sign with all factors at a limit.
fn largest_cases() -> Vec<Streams> {
    let full = streams(&largest(&mut Rng::new(5)));
    let limits = |l: i16| if l > 0 { i32::MAX } else { i32::MIN };
    let spread = |l: i16| i32::from(l) * 65_536 + i32::from(l);
    let mut cases = vec![widened(&full, limits), widened(&full, spread)];
    for turned in [0, 1, 16, 31] {
        let mut near = widened(&full, spread);
        for certificate in &mut near[1..] {
            let last = *places(certificate, 0x15)
                .last()
                .expect("rows on conditions");
            certificate[last] = wide_entry(63, factor_of(&certificate[last]) ^ (1 << turned));
        }
        cases.push(near);
    }
    for sign in [1, -1] {
        let one_sign = streams(&extreme(sign));
        cases.push(widened(&one_sign, |_| i32::MIN));
        cases.push(widened(&one_sign, |_| i32::MAX));
    }
    for factor in [i32::MIN, -i32::MAX, i32::MAX] {
        cases.extend([factor, factor ^ 1].map(|last| opposite(factor, last)));
    }
    cases
}

/// No objective and the bound 0, and two opposite conditions of 32 terms with 64 full rows each, all
/// of one factor but for the last entry. Where that is the same, the sums at the middle monomials
/// come to 64 x 65,535 x 2^62 x 32,767 x 756, above 2^108, and back to 0.
fn opposite(factor: i32, last: i32) -> Streams {
    let (terms, basis) = (grid([2, 4, 2, 2], 1), grid([4, 4, 2, 2], 1));
    let mut problem = Draft::new(4, 0);
    for sign in [1, -1] {
        let terms = terms.iter().map(|&m| (m, sign * i16::MAX)).collect();
        problem.constrain(terms, basis.clone());
    }
    let mut certificate = vec![bound(0, 1, 0, 1)];
    for number in 0..128 {
        certificate.push(row(if number < 64 { 1 } else { 2 }, 65_535));
        let full = if number < 127 { factor } else { last };
        certificate.extend((0..63).map(|i| wide_entry(i, factor)));
        certificate.push(wide_entry(63, full));
    }
    certificate.push(certificate_end());
    [problem.commands(), certificate.clone(), certificate]
}

/// The streams with wide entries in all rows that are not on basis 0.
fn widened(streams: &Streams, factor_for: fn(i16) -> i32) -> Streams {
    let mut all = streams.clone();
    for certificate in &mut all[1..] {
        let mut on_condition = false;
        for command in certificate.iter_mut() {
            match command[0] {
                0x11 => on_condition = command[1] > 0,
                0x12 if on_condition => {
                    *command = wide_entry(command[1], factor_for(factor(command)));
                }
                _ => {}
            }
        }
    }
    all
}

/// Rows whose products sum to a power of two: the number of its condition below, weight, factor, and
/// how many rows.
type Power = (u8, u16, i32, usize);

/// 2^32, 2^60, 2^62, 2^64, 2^80, 2^96 and 2^97.
const POWERS: &[Power] = &[
    (1, 1, 1 << 16, 1),
    (1, 1, 1 << 30, 1),
    (1, 1, i32::MIN, 1),
    (1, 4, i32::MIN, 1),
    (3, 16, i32::MIN, 1),
    (3, 32_768, i32::MIN, 32),
    (3, 32_768, i32::MIN, 63),
];

/// x1² with the bound 0 and the row x1, on conditions 1, -1, 16384 and -16384, whose bases have x1:
/// the rows alone, which are off by the power; with the same rows on the opposite condition, which
/// take it back; and with one of those off by one.
fn power_cases(&(condition, weight, factor, count): &Power) -> Vec<Streams> {
    let x = power(1, 1);
    let mut problem = vec![variables(1), objective_term(product(x, x), 1)];
    for coefficient in [1, -1, 16_384, -16_384] {
        problem.push(constraint());
        problem.push(constraint_term(Monomial::ONE, coefficient));
    }
    problem.extend((0..5).map(|j| basis_monomial(j, x)));
    problem.push(problem_end());
    let rows = |j: u8, last: i32| {
        let factors = (0..count).map(|n| if n + 1 < count { factor } else { last });
        let commands = factors.flat_map(|l| [row(j, weight), wide_entry(0, l)]);
        commands.collect::<Vec<_>>()
    };
    let certificate = |more: &[Vec<Vec<u8>>]| {
        let own = vec![bound(0, 1, 0, 1), row(0, 1), entry(0, 1)];
        let mut all = [vec![own], more.to_vec()].concat().concat();
        all.push(certificate_end());
        all
    };
    let off_by_one = if factor == i32::MIN {
        i32::MAX
    } else {
        factor + 1
    };
    let with = [
        certificate(&[rows(condition, factor)]),
        certificate(&[rows(condition, factor), rows(condition + 1, factor)]),
        certificate(&[rows(condition, factor), rows(condition + 1, off_by_one)]),
        certificate(&[rows(condition, off_by_one), rows(condition + 1, factor)]),
    ];
    let streams = with.map(|one| [problem.clone(), one.clone(), one]);
    streams.to_vec()
}

/// Scales certificates up, so that their factors leave 16 bits, and makes some of the entries wide;
/// now and then one factor is off by a power of two.
pub fn put(rng: &mut Rng, streams: &mut Streams) {
    for certificate in &mut streams[1..] {
        let scale = if rng.once_in(4) {
            1
        } else {
            scale(rng, certificate)
        };
        rescale(rng, certificate, scale);
        if rng.once_in(6) {
            miss(rng, certificate);
        }
    }
}

/// A number k such that D x k, q x k, p x k and all factors x k keep their widths, 1 at least.
fn scale(rng: &mut Rng, certificate: &[Vec<u8>]) -> i64 {
    let Some(bound) = certificate.first().filter(|bound| bound.len() == 10) else {
        return 1;
    };
    let [d, q] = [2, 8].map(|at| i64::from(u16::from_le_bytes([bound[at], bound[at + 1]])));
    let p = i64::from(p_of(bound));
    let entries = certificate.iter().filter(|command| command[0] == 0x12);
    let factor = entries
        .map(|command| i64::from(factor(command)).abs())
        .max();
    let room = |value: i64, most: i64| if value == 0 { most } else { most / value };
    let most = room(d, 65_535).min(room(q, 65_535));
    let most = most.min(room(p.abs(), i64::from(i32::MAX)));
    let most = most
        .min(room(factor.unwrap_or(1), i64::from(i32::MAX)))
        .max(1);
    if rng.once_in(2) {
        most
    } else {
        rng.between(1, most as usize) as i64
    }
}

/// Multiplies D, p, q and every factor by k: both sides of the identity grow by k².
fn rescale(rng: &mut Rng, certificate: &mut [Vec<u8>], k: i64) {
    for command in certificate {
        match command[0] {
            0x10 if command.len() == 10 => {
                for at in [2, 8] {
                    let value = i64::from(u16::from_le_bytes([command[at], command[at + 1]])) * k;
                    command[at..at + 2].copy_from_slice(&(value as u16).to_le_bytes());
                }
                let p = i64::from(p_of(command)) * k;
                command[4..8].copy_from_slice(&(p as i32).to_le_bytes());
            }
            0x12 => {
                let (index, l) = (command[1], i64::from(factor(command)) * k);
                let narrow = i16::try_from(l).ok().filter(|_| rng.once_in(2));
                *command = match narrow {
                    Some(l) => entry(index, l),
                    None => wide_entry(index, l as i32),
                };
            }
            _ => {}
        }
    }
}

fn p_of(bound: &[u8]) -> i32 {
    i32::from_le_bytes([bound[4], bound[5], bound[6], bound[7]])
}

fn factor(entry: &[u8]) -> i16 {
    i16::from_le_bytes([entry[2], entry[3]])
}

fn factor_of(wide: &[u8]) -> i32 {
    i32::from_le_bytes([wide[2], wide[3], wide[4], wide[5]])
}

/// One wide factor 0, at one of its ends, or with one bit turned; or an index that does not rise.
fn miss(rng: &mut Rng, certificate: &mut [Vec<u8>]) {
    let wide = places(certificate, 0x15);
    if wide.is_empty() {
        return;
    }
    let command = &mut certificate[*rng.pick(&wide)];
    let factor = factor_of(command);
    let factor = match rng.below(6) {
        0 => 0,
        1 => i32::MIN,
        2 => i32::MAX,
        3 => {
            command[1] ^= 1;
            factor
        }
        _ => factor ^ (1 << rng.below(32)),
    };
    command[2..].copy_from_slice(&factor.to_le_bytes());
}
