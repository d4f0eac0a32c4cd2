//! Seeded records of every shape, the fixed corpus and the workloads.

mod accepted;
mod blocks;
mod boxed;
mod broken;
mod cascade;
mod certificates;
mod changes;
mod damage;
mod draft;
mod hostile;
mod largest;
mod limits;
mod neighbours;
mod problems;
pub mod refusals;
mod requests;
mod rng;
mod rules;
mod samples;
mod search;
mod series;
mod support;
mod walks;
mod workloads;
mod worst;

use crate::records::{run_count, Record, BLOCKS, CHECK, PAIR};
pub use neighbours::neighbours;
use rng::Rng;
pub use search::search;
pub use workloads::workload;

/// How many records of the generator the corpus has of each kind, after the special cases.
const CORPUS: [(u8, usize); 3] = [(BLOCKS, 2_700), (CHECK, 2_000), (PAIR, 1_600)];
/// The seed of the corpus.
const CORPUS_SEED: u64 = 20_481;

/// Whether these are kinds of records, one at least.
pub fn are_kinds(kinds: &str) -> bool {
    !kinds.is_empty() && kinds.bytes().all(|kind| run_count(kind).is_some())
}

/// `count` records of these kinds; the same arguments always give the same records.
pub fn generate(kinds: &str, seed: u64, count: usize) -> impl Iterator<Item = Record> {
    let kinds = kinds.as_bytes().to_vec();
    let mut rng = Rng::new(seed);
    (0..count).map(move |_| {
        let kind = *rng.pick(&kinds);
        requests::record(&mut rng, kind).unwrap_or_else(|| record(&mut rng, kind))
    })
}

fn record(rng: &mut Rng, kind: u8) -> Record {
    match kind {
        BLOCKS => Record::blocks(blocks::problem(rng)),
        _ => certificates::record(rng, kind),
    }
}

/// The fixed corpus of these kinds: the special cases, then records of a fixed seed; behind them all
/// those of the requests.
pub fn corpus(kinds: &str) -> Vec<Record> {
    let mut all = Vec::new();
    for (kind, count) in CORPUS {
        if !kinds.as_bytes().contains(&kind) {
            continue;
        }
        all.extend(special(kind));
        let mut rng = Rng::new(CORPUS_SEED + u64::from(kind));
        all.extend((0..count).map(|_| record(&mut rng, kind)));
    }
    all.extend(requests::corpus(kinds));
    all
}

fn special(kind: u8) -> Vec<Record> {
    let mut all = match kind {
        BLOCKS => blocks::special().into_iter().map(Record::blocks).collect(),
        CHECK => [samples::checks(), certificates::special(kind)].concat(),
        _ => [samples::pairs(), certificates::special(kind)].concat(),
    };
    all.extend(refusals::records(kind));
    all
}

#[cfg(test)]
mod tests {
    use super::*;
    use crate::plain::answer;
    use std::collections::BTreeSet;

    /// The refusals of a corpus, as number and stream.
    fn refusals(kinds: &str) -> BTreeSet<(u8, u8)> {
        let refusals = corpus(kinds)
            .into_iter()
            .filter_map(|record| answer(&record).err());
        refusals
            .map(|refusal| (refusal.number, refusal.stream))
            .collect()
    }

    #[test]
    fn the_corpus_meets_every_refusal() {
        let in_problem: Vec<(u8, u8)> = (2..=7).map(|number| (number, 0)).collect();
        let in_certificate = |stream| [2, 3, 4, 5, 6, 8, 9].map(|number| (number, stream));
        let mut expected: BTreeSet<(u8, u8)> = in_problem.into_iter().collect();
        assert_eq!(refusals("b"), expected);
        expected.extend(in_certificate(1));
        assert_eq!(refusals("c"), expected);
        expected.extend(in_certificate(2));
        expected.extend([(10, 1), (10, 2)]);
        assert_eq!(refusals("p"), expected);
        expected.retain(|&(number, stream)| stream < 2 && number < 10);
        expected.insert((11, 2));
        assert_eq!(refusals("t"), expected);
    }

    #[test]
    fn the_same_arguments_give_the_same_records() {
        let records = |seed| -> Vec<Record> { generate("bcp", seed, 200).collect() };
        assert_eq!(records(7), records(7));
        assert_ne!(records(7), records(8));
    }
}
