//! The workloads whose time is taken.

use crate::baseline::Checker;
use crate::generate::accepted::Case;
use crate::generate::blocks::long_plan;
use crate::generate::boxed::boxed;
use crate::generate::cascade::longest;
use crate::generate::certificates::{plain, with_damage};
use crate::generate::damage::{self, damaged};
use crate::generate::draft::{DraftCertificate, DraftRow, ROWS};
use crate::generate::hostile::hostile;
use crate::generate::largest::largest;
use crate::generate::problems;
use crate::generate::rng::Rng;
use crate::generate::samples;
use crate::generate::series::series;
use crate::generate::worst::worst;
use crate::records::{Record, CHECK, PAIR};

/// The records of a workload, by its name.
pub fn workload(name: &str) -> Option<Vec<Record>> {
    let rng = &mut Rng::new(2);
    Some(match name {
        "typical-blocks" => typical_blocks(rng, 20_000),
        "largest-blocks" => largest_blocks(rng, 48),
        "rounds-blocks" => rounds_blocks(rng, 16),
        "rounds-check" => rounds_check(rng, 16),
        "h-blocks" => vec![Record::blocks(samples::h().bytes()); 100],
        "damaged-blocks" => damaged_blocks(rng, 20_000),
        "typical-pairs" => typical_pairs(rng, 5_000),
        "largest-check" => largest_check(rng, 16),
        "damaged-pairs" => damaged_pairs(rng, 5_000),
        "worst-pair" => vec![plain(PAIR, &worst(rng))],
        _ => match name.strip_prefix("hostile-") {
            Some(name) => return hostile(rng, name),
            None => return series(rng, name),
        },
    })
}

/// A realistic problem of 20 to 100 commands with 2 to 5 rounds.
fn typical_problem(rng: &mut Rng, checker: &mut Checker) -> Vec<Vec<u8>> {
    loop {
        let commands = problems::typical(rng).mixed_commands(rng);
        if !(20..=100).contains(&commands.len()) {
            continue;
        }
        let blocks = checker.blocks(&commands.concat());
        if blocks.is_ok_and(|blocks| (2..=5).contains(&blocks.rounds)) {
            return commands;
        }
    }
}

fn typical_blocks(rng: &mut Rng, count: usize) -> Vec<Record> {
    let checker = &mut Checker::default();
    let mut record = || Record::blocks(typical_problem(rng, checker).concat());
    (0..count).map(|_| record()).collect()
}

fn largest_blocks(rng: &mut Rng, count: usize) -> Vec<Record> {
    let record = |place: usize| {
        let draft = problems::largest(rng, place % 2 == 1);
        Record::blocks(draft.bytes())
    };
    (0..count).map(record).collect()
}

fn rounds_blocks(rng: &mut Rng, count: usize) -> Vec<Record> {
    let plan = long_plan();
    let mut record = || Record::blocks(longest(rng, &plan, 4).bytes());
    (0..count).map(|_| record()).collect()
}

/// Problems of many rounds with 128 rows of one entry each, on the bases in turn. Each row is in one
/// block, so that all of the check is gone through; the identity is false.
fn rounds_check(rng: &mut Rng, count: usize) -> Vec<Record> {
    let plan = long_plan();
    let mut record = || {
        let problem = longest(rng, &plan, 4);
        let filled = (0..problem.bases.len()).filter(|&j| !problem.bases[j].is_empty());
        let row = |j| DraftRow::new(j, 1, &[(problem.bases[j].len() as u8 - 1, 1)]);
        let certificate = DraftCertificate {
            side: 0,
            denominator: 1,
            p: 0,
            q: 1,
            rows: filled.cycle().take(ROWS).map(row).collect(),
        };
        Record::check(problem.bytes(), certificate.bytes())
    };
    (0..count).map(|_| record()).collect()
}

fn damaged_blocks(rng: &mut Rng, count: usize) -> Vec<Record> {
    let checker = &mut Checker::default();
    let mut record = || {
        let commands = typical_problem(rng, checker);
        let way = rng.below(damage::WAYS);
        Record::blocks(damaged(rng, damage::PROBLEM, &commands, way))
    };
    (0..count).map(|_| record()).collect()
}

/// An accepted pair for a problem in a box.
fn typical_case(rng: &mut Rng, checker: &mut Checker) -> Case {
    loop {
        let turned = rng.once_in(2);
        let case = boxed(rng, turned);
        let record = plain(PAIR, &case);
        if checker.accepts(&record) {
            return case;
        }
    }
}

fn typical_pairs(rng: &mut Rng, count: usize) -> Vec<Record> {
    let checker = &mut Checker::default();
    let mut record = || plain(PAIR, &typical_case(rng, checker));
    (0..count).map(|_| record()).collect()
}

fn largest_check(rng: &mut Rng, count: usize) -> Vec<Record> {
    (0..count).map(|_| plain(CHECK, &largest(rng))).collect()
}

fn damaged_pairs(rng: &mut Rng, count: usize) -> Vec<Record> {
    let checker = &mut Checker::default();
    let mut record = || {
        let case = typical_case(rng, checker);
        let (stream, way) = (rng.below(3), rng.below(damage::WAYS));
        with_damage(rng, PAIR, &case, stream, way)
    };
    (0..count).map(|_| record()).collect()
}
