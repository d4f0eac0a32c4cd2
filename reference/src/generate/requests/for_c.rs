//! Request 14: the pair's verdict as one record for a C program.

use super::Change;
use crate::generate::certificates;
use crate::generate::refusals::{case_f, cases_to, met};
use crate::generate::rng::Rng;
use crate::records::{Record, PAIR, RECORD};

fn record(pair: impl IntoIterator<Item = Vec<u8>>, output: Vec<u8>) -> Record {
    let mut runs: Vec<Vec<u8>> = pair.into_iter().collect();
    runs.push(output);
    Record { kind: RECORD, runs }
}

/// Case F and its kin with outputs of several lengths, and the lines found by hand.
fn found() -> Vec<(Record, &'static str)> {
    let f = case_f();
    let [problem, low, high] = case_f();
    let exchanged = [problem.clone(), high.clone(), low.clone()];
    let none = [Vec::new(), low, high];
    let untouched = "record 1 0707070707070707070707070707070707070707070707070707070707070707";
    let accepted = "record 0 00000000ffffffff010000000100000001000000000000000000000000000000";
    vec![
        (record(f.clone(), vec![7; 32]), accepted),
        (
            record(f.clone(), vec![7; 34]),
            "record 0 00000000ffffffff0100000001000000010000000000000000000000000000000707",
        ),
        (
            record(f.clone(), vec![7; 31]),
            &untouched[..untouched.len() - 2],
        ),
        (record(f, Vec::new()), "record 1 "),
        (
            record(exchanged, vec![7; 32]),
            "record 10 0a00000000000000000000000000000000000000010000000000000000000000",
        ),
        (
            record(none, vec![7; 32]),
            "record 2 0200000000000000000000000000000000000000000000000000000000000000",
        ),
        (
            record([problem.clone(), vec![0x10], Vec::new()], vec![7; 32]),
            "record 2 0200000000000000000000000000000000000000010000000000000000000000",
        ),
        (
            record(
                [problem[..17].to_vec(), vec![0x10], Vec::new()],
                vec![7; 33],
            ),
            "record 2 020000000000000000000000000000000000000000000000100000000000000007",
        ),
    ]
}

/// Those, and the refused pairs of the table.
pub fn special() -> Vec<Record> {
    let mut all: Vec<Record> = found().into_iter().map(|(record, _)| record).collect();
    let pairs = met(cases_to(7), PAIR).into_iter();
    all.extend(pairs.map(|pair| record(pair.runs, vec![0xEE; 33])));
    all
}

/// A pair of the generator, also with commands of some of these requests, with 32 bytes, or fewer, or
/// more.
pub fn random(rng: &mut Rng, changes: Vec<&'static Change>) -> Record {
    let pair = if rng.once_in(2) {
        super::pair_with_some(rng, &changes)
    } else {
        certificates::record(rng, PAIR)
    };
    let length = match rng.below(8) {
        0 => rng.below(32),
        1 | 2 => rng.between(33, 50),
        _ => 32,
    };
    let output = (0..length).map(|_| rng.byte()).collect();
    record(pair.runs, output)
}

#[cfg(test)]
mod tests {
    use super::*;
    use crate::generate::accepted::case;
    use crate::generate::certificates::plain;
    use crate::generate::changes::{change_case, CHANGES};
    use crate::plain::{answer, line};

    #[test]
    fn lines_found_by_hand() {
        for (record, expected) in found() {
            assert_eq!(line(&record), expected);
        }
    }

    /// "the order of a certificate's rows must be proved to have no effect on acceptance"
    #[test]
    fn the_order_of_rows_has_no_effect_on_acceptance() {
        let rng = &mut Rng::new(14);
        let (mut accepted, mut refused) = (0, 0);
        for _ in 0..200 {
            let mut case = case(rng);
            if rng.once_in(3) {
                let change = rng.below(CHANGES);
                change_case(rng, &mut case, change);
            }
            let before = answer(&plain(PAIR, &case)).is_ok();
            case.lower.rows.reverse();
            rng.shuffle(&mut case.upper.rows);
            assert_eq!(answer(&plain(PAIR, &case)).is_ok(), before);
            accepted += usize::from(before);
            refused += usize::from(!before);
        }
        assert!(accepted > 50 && refused > 10, "{accepted} and {refused}");
    }
}
