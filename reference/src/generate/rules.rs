//! Certificates with a command that breaks a rule.

use crate::generate::draft::*;
use crate::generate::rng::Rng;

/// How many ways there are.
pub const RULES: usize = 24;

/// Replaces or adds a command that breaks one rule, or several.
pub fn break_rule(rng: &mut Rng, commands: &mut Vec<Vec<u8>>, problem: &Draft, number: usize) {
    let constraints = problem.constraints.len() as u8;
    let length = problem.bases[0].len() as u8;
    let end = commands.len() - 1;
    let mut add = |new: &[Vec<u8>]| {
        commands.splice(end..end, new.iter().cloned());
    };
    match number {
        0 => commands[0] = bound(2, 1, 0, 1),
        1 => commands[0] = bound(0, 0, 0, 1),
        2 => commands[0] = bound(1, 1, 0, 0),
        3 => commands[0] = bound(255, 0, 0, 0),
        4 => add(&[row(0, 0)]),
        5 => add(&[row(constraints + 1, 1)]),
        6 => add(&[row(255, 0)]),
        7 => add(&[row(constraints, 1)]),
        8 => add(&[row(0, 1), entry(length, 1)]),
        9 => add(&[row(0, 1), entry(0, 0)]),
        10 => add(&[row(0, 1), entry(0, 1), entry(0, 1)]),
        11 => add(&[row(0, 1), entry(length - 1, 1), entry(0, 1)]),
        12 => add(&[row(0, 1), entry(0, 1), entry(0, 0)]),
        13 => add(&[row(0, 1), entry(255, 0)]),
        14 => fill_rows(commands, row(0, 1)),
        15 => fill_rows(commands, Vec::new()),
        16 => fill_rows(commands, row(0, 0)),
        17 => fill_rows(commands, row(constraints + 1, 1)),
        18 => add(&[bound(0, 1, 0, 1)]),
        19 => add(&[vec![0x10]]),
        20 => {
            commands.insert(1, entry(0, 1));
        }
        21 => {
            commands.insert(1, vec![0x12]);
        }
        22 => add(&[vec![*rng.pick(&[0, 1, 6, 0x0F, 0x14, 0xFF])]]),
        _ => {
            commands.remove(0);
        }
    }
}

/// Replaces the rows by 128 empty ones with a command after them.
fn fill_rows(commands: &mut Vec<Vec<u8>>, last: Vec<u8>) {
    commands.truncate(1);
    commands.extend(vec![row(0, 1); ROWS]);
    commands.extend([last, certificate_end()]);
}
