//! The baseline's time per record.

use std::time::{Duration, Instant};

use super::Checker;
use crate::records::{input, Record};

/// Answers the records of the standard input again and again for about a second, and prints the
/// nanoseconds that one took, by the fastest turn.
pub fn run() {
    let records: Vec<Record> = input().collect();
    let mut checker = Checker::default();
    let mut best = f64::INFINITY;
    let begun = Instant::now();
    while begun.elapsed() < Duration::from_secs(1) {
        let turn = Instant::now();
        let accepted = records.iter().filter(|record| checker.accepts(record));
        std::hint::black_box(accepted.count());
        best = best.min(turn.elapsed().as_nanos() as f64 / records.len() as f64);
    }
    println!("{best:.1}");
}
