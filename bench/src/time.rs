//! The time for one record: the work tables are lent once and come back cleared from every call.

use std::time::{Duration, Instant};

use crate::calls::{answer, records, Lent, Record};

/// Answers the records of the standard input repeatedly for about a second and prints the nanoseconds for one record, by the
/// fastest turn.
pub fn run() {
    let records = records();
    let mut lent = Lent::new(b'b');
    let mut best = f64::INFINITY;
    let begun = Instant::now();
    while begun.elapsed() < Duration::from_secs(1) {
        best = best.min(turn(&records, &mut lent) / records.len() as f64);
    }
    println!("{best:.1}");
}

/// Answers the records of the standard input once and prints how many there are and how many of them are refused: for a tool
/// that counts the instructions of `calls::answer`.
pub fn once() {
    let records = records();
    let mut lent = Lent::new(b'b');
    let refused = records.iter().filter(|record| answer(record, &mut lent) != 0);
    println!("{} {}", records.len(), refused.count());
}

/// The nanoseconds in which all these records are answered once.
fn turn(records: &[Record], lent: &mut Lent) -> f64 {
    let mut refused = 0;
    let begun = Instant::now();
    for record in records {
        refused += u64::from(answer(record, lent) != 0);
    }
    let taken = begun.elapsed();
    std::hint::black_box(refused);
    taken.as_nanos() as f64
}

/// The same for the pairs of the standard input, by themselves and in reports of 64, in turn for about ten seconds: the
/// nanoseconds for one pair of each, by the fastest turn, and their ratio.
pub fn week() {
    let mut pairs = records();
    let reports: Vec<Record> = pairs.chunks_exact(64).map(report_on).collect();
    pairs.truncate(64 * reports.len());
    let mut lent = Lent::new(b'r');
    let mut best = [f64::INFINITY; 2];
    let begun = Instant::now();
    while begun.elapsed() < Duration::from_secs(10) {
        for (best, records) in best.iter_mut().zip([&pairs, &reports]) {
            *best = best.min(turn(records, &mut lent) / pairs.len() as f64);
        }
    }
    let [alone, reported] = best;
    println!("{alone:.1} {reported:.1} {:.3}", reported / alone);
}

/// A report on these pairs, with an output that just holds it.
fn report_on(pairs: &[Record]) -> Record {
    let mut records = Vec::new();
    for Record { runs, .. } in pairs {
        for run in &runs[..3] {
            records.extend((run.len() as u16).to_le_bytes());
        }
        records.extend(runs.concat());
    }
    Record {
        kind: b'r',
        runs: vec![records, vec![0; 32 * pairs.len()], Vec::new()],
    }
}
