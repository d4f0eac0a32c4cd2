//! Request 07: reports of several pairs.

use super::Change;
use crate::generate::certificates;
use crate::generate::refusals::reports::cases;
use crate::generate::refusals::{case_f, cases_to, met};
use crate::generate::rng::Rng;
use crate::records::{Record, PAIR, REPORT, RUN};

/// The bytes of a record: three lengths, and the runs.
pub fn packed(runs: &[Vec<u8>]) -> Vec<u8> {
    let lengths = runs.iter().flat_map(|run| (run.len() as u16).to_le_bytes());
    lengths.chain(runs.concat()).collect()
}

fn record(report: Vec<u8>, output: Vec<u8>) -> Record {
    Record {
        kind: REPORT,
        runs: vec![report, output, Vec::new()],
    }
}

/// A certificate without rows.
fn stated(side: u8, p: i32, q: u16) -> Vec<u8> {
    let mut bytes = vec![0x10, side, 1, 0];
    bytes.extend(p.to_le_bytes());
    bytes.extend(q.to_le_bytes());
    bytes.push(0x13);
    bytes
}

/// A problem of n variables with the objective c × the monomial of these exponents, and no bases.
fn single(n: u8, exponents: [u8; 8], c: i32) -> Vec<u8> {
    let mut problem = vec![1, n, 2];
    problem.extend(exponents);
    problem.extend(c.to_le_bytes());
    problem.push(6);
    problem
}

/// A pair on the constant objective c, whose bounds are stated as (c × q)/q.
fn constant(c: i32, q: u16, upper_q: u16) -> Vec<Vec<u8>> {
    let (lower, upper) = (c * i32::from(q), c * i32::from(upper_q));
    vec![
        single(1, [0; 8], c),
        stated(0, lower, q),
        stated(1, upper, upper_q),
    ]
}

/// A pair whose lower bound is false at the monomial of these exponents.
fn false_at(exponents: [u8; 8]) -> Vec<Vec<u8>> {
    vec![single(8, exponents, 1), stated(0, 0, 1), stated(1, 0, 1)]
}

/// Reports with what their lines begin with, found by hand.
fn found() -> Vec<(Record, &'static str)> {
    let f = packed(&case_f());
    let [problem, low, high] = case_f();
    let exchanged = packed(&[problem.clone(), high.clone(), low.clone()]);
    let longer = packed(&[[problem, vec![0; 40_000]].concat(), low, high]);
    let constants = [(5, 2, 1), (-7, 1, 3), (5, 1, 4), (-7, 2, 1)];
    let constants = constants.map(|(c, q, upper_q)| packed(&constant(c, q, upper_q)));
    let both = [exchanged.clone(), f.clone()].concat();
    let fifth = packed(&false_at([0, 0, 0, 0, 1, 0, 0, 0]));
    let first_and_fifth = packed(&false_at([1, 0, 0, 0, 1, 0, 0, 0]));
    vec![
        (record(Vec::new(), Vec::new()), "report 0 lower 0/0 upper 0/0 "),
        (record(Vec::new(), vec![9, 9]), "report 0 lower 0/0 upper 0/0 0909"),
        (
            record(f, vec![0xAA; 34]),
            "report 1 lower -1/1 upper 1/1 00000000ffffffff010000000100000001000000\
             000000000000000000000000aaaa",
        ),
        (
            record(both, vec![0x55; 64]),
            "report 1 lower -1/1 upper 1/1 0a000000000000000000000000000000000000000100000000000000\
             0000000000000000ffffffff010000000100000001000000000000000000000000000000",
        ),
        (
            record(exchanged, vec![0x55; 32]),
            "report 0 lower 0/0 upper 0/0 \
             0a00000000000000000000000000000000000000010000000000000000000000",
        ),
        (record(constants.concat(), vec![0; 128]), "report 4 lower -7/1 upper 5/1 "),
        (
            record(longer, vec![0x55; 32]),
            "report 0 lower 0/0 upper 0/0 \
             0200000000000000000000000000000000000000000000004500000000000000",
        ),
        (
            record(fifth, vec![0x55; 32]),
            "report 0 lower 0/0 upper 0/0 \
             0900000000000000000000000000000000000000010000000000000000000000",
        ),
        (
            record(first_and_fifth, vec![0x55; 32]),
            "report 0 lower 0/0 upper 0/0 \
             0900000000000000000000000000000000000000010000000000000001000000",
        ),
    ]
}

/// Reports on the refused pairs of the table, as many in each as there is room for.
fn refused_pairs() -> Vec<Record> {
    let mut reports = vec![(Vec::new(), 0_usize)];
    for pair in met(cases_to(7), PAIR) {
        let bytes = packed(&pair.runs);
        let (report, count) = reports.last().expect("there is one");
        if *count == 64 || report.len() + bytes.len() > RUN {
            reports.push((Vec::new(), 0));
        }
        let (report, count) = reports.last_mut().expect("there is one");
        report.extend(bytes);
        *count += 1;
    }
    let lent = |(report, count)| record(report, vec![0xEE; 32 * count + 3]);
    reports.into_iter().map(lent).collect()
}

/// Those, full reports of 64 records, the refusals, and those of the pairs.
pub fn special() -> Vec<Record> {
    let mut all: Vec<Record> = found().into_iter().map(|(record, _)| record).collect();
    let full = packed(&case_f()).repeat(64);
    all.push(record(full.clone(), vec![1; 2_048]));
    all.push(record(full, vec![1; 2_060]));
    all.extend(met(cases(), REPORT));
    all.extend(refused_pairs());
    all
}

/// Some pairs of the generator, also with commands of some of these requests, or many of few values; now
/// and then cut, or with an output that is short or long.
pub fn random(rng: &mut Rng, changes: Vec<&'static Change>) -> Record {
    let mut report = Vec::new();
    let many = rng.once_in(6);
    let count = rng.below(if many { 67 } else { 7 });
    for _ in 0..count {
        let pair = match rng.below(4) {
            _ if many => constant(
                rng.nonzero(3),
                rng.between(1, 3) as u16,
                rng.between(1, 3) as u16,
            ),
            0 => constant(rng.nonzero(9), 2, 3),
            1 | 2 => super::pair_with_some(rng, &changes).runs,
            _ => certificates::record(rng, PAIR).runs,
        };
        if report.len() + pair.concat().len() < 60_000 {
            report.extend(packed(&pair));
        }
    }
    match rng.below(10) {
        0 => report.truncate(rng.below(report.len() + 1)),
        1 => report.push(rng.byte()),
        _ => {}
    }
    let exact = 32 * count;
    let length = match rng.below(6) {
        0 => rng.below(exact + 1),
        1 => exact + rng.below(40),
        _ => exact,
    };
    let output = (0..length).map(|_| rng.byte()).collect();
    record(report, output)
}

#[cfg(test)]
mod tests {
    use super::*;
    use crate::plain::line;

    #[test]
    fn lines_found_by_hand() {
        for (record, expected) in found() {
            assert!(line(&record).starts_with(expected), "{}", line(&record));
        }
    }

    /// The 32 bytes of each refused pair begin with the number of its refusal.
    #[test]
    fn every_refusal_of_a_pair_stands_in_a_report() {
        let mut met = [false; 11];
        for report in refused_pairs() {
            let line = line(&report);
            let digits = line.split(' ').next_back().expect("a line has words");
            let (records, past) = digits.split_at(digits.len() - 6);
            assert_eq!(past, "eeeeee");
            for record in records.as_bytes().chunks(64) {
                let number = std::str::from_utf8(&record[..2]).expect("digits");
                met[usize::from_str_radix(number, 16).expect("digits")] = true;
            }
        }
        assert_eq!(met[..2], [false; 2]);
        assert_eq!(met[2..], [true; 9]);
    }
}
