//! Every stream that is one change away from an accepted pair: all truncations, and all changes of
//! a single byte to the values asked for.

use crate::baseline::Checker;
use crate::generate::accepted::case;
use crate::generate::certificates::plain;
use crate::generate::refusals::equalities::equal_f;
use crate::generate::rng::Rng;
use crate::generate::samples;
use crate::records::{Record, PAIR};

/// The streams of an accepted pair: problem, lower and upper certificate.
type Runs = [Vec<u8>; 3];

/// The values that a byte is changed to.
type Values = fn(u8) -> Vec<u8>;

/// How many cases the longest is taken of.
const TRIES: usize = 400;

/// The records next to the pair of this name.
///
/// `f` is case F and `equal_f` the same with an equality, both with all values for every byte;
/// `two_decks` and `two_decks_rule2` are examples, and `made` is a pair of the generator, all with each
/// bit turned and with one more and one less.
pub fn neighbours(name: &str) -> Option<impl Iterator<Item = Record>> {
    let (runs, values): (Runs, Values) = match name {
        "f" => (case_f(), others),
        "equal_f" => (equal_f(), others),
        "two_decks" => (two_decks(), near),
        "two_decks_rule2" => (two_decks_rule2(), near),
        "made" => (made(), near),
        _ => return None,
    };
    Some((0..3).flat_map(move |stream| around(runs.clone(), stream, values)))
}

fn case_f() -> Runs {
    let [lower, upper] = [0, 1].map(samples::f_certificate);
    [samples::f().bytes(), lower, upper]
}

/// The streams of an example.
macro_rules! example {
    ($name:literal) => {{
        macro_rules! file {
            ($file:literal) => {
                include_bytes!(concat!("../../../examples/", $name, "/", $file)).to_vec()
            };
        }
        [file!("problem.bin"), file!("low.bin"), file!("high.bin")]
    }};
}

fn two_decks() -> Runs {
    example!("two_decks")
}

fn two_decks_rule2() -> Runs {
    example!("two_decks_rule2")
}

/// The longest accepted pair of some made by the generator.
fn made() -> Runs {
    let (rng, checker) = (&mut Rng::new(4), &mut Checker::default());
    let records = (0..TRIES).map(|_| plain(PAIR, &case(rng)));
    let accepted = records.filter(|record| checker.accepts(record));
    let longest = accepted.max_by_key(|record| record.runs.concat().len());
    let runs = longest.expect("most are accepted").runs;
    runs.try_into().expect("a pair has three runs")
}

/// All other values.
fn others(byte: u8) -> Vec<u8> {
    (0..=255).filter(|&value| value != byte).collect()
}

/// Each bit turned, one more and one less, each value once.
fn near(byte: u8) -> Vec<u8> {
    let mut values: Vec<u8> = (0..8).map(|bit| byte ^ (1 << bit)).collect();
    values.extend([byte.wrapping_add(1), byte.wrapping_sub(1)]);
    values.sort_unstable();
    values.dedup();
    values
}

/// The records with one stream changed, each for the pair and for the call on that stream alone.
fn around(runs: Runs, stream: usize, values: Values) -> impl Iterator<Item = Record> {
    let bytes = runs[stream].clone();
    let cuts = bytes.clone();
    let cuts = (0..cuts.len()).map(move |length| cuts[..length].to_vec());
    let changes = (0..bytes.len()).flat_map(move |place| changed(&bytes, place, values));
    cuts.chain(changes).flat_map(move |changed| {
        let mut runs = runs.clone();
        runs[stream] = changed;
        let alone = match stream {
            0 => Record::blocks(runs[0].clone()),
            _ => Record::check(runs[0].clone(), runs[stream].clone()),
        };
        let [problem, first, second] = runs;
        [Record::pair(problem, first, second), alone]
    })
}

/// The stream with the byte at one place changed to each of its values.
fn changed(bytes: &[u8], place: usize, values: Values) -> Vec<Vec<u8>> {
    let change = |value| {
        let mut bytes = bytes.to_vec();
        bytes[place] = value;
        bytes
    };
    values(bytes[place]).into_iter().map(change).collect()
}

#[cfg(test)]
mod tests {
    use super::*;
    use crate::plain::answer;

    #[test]
    fn the_pairs_are_accepted() {
        let examples = [two_decks(), two_decks_rule2()];
        for runs in [case_f(), equal_f(), made()].into_iter().chain(examples) {
            let [problem, first, second] = runs;
            assert!(answer(&Record::pair(problem, first, second)).is_ok());
        }
    }

    #[test]
    fn every_cut_and_every_value_is_there() {
        let bytes: usize = case_f().iter().map(Vec::len).sum();
        let count = neighbours("f").map(Iterator::count);
        assert_eq!(count, Some(2 * bytes * (1 + 255)));
    }
}
