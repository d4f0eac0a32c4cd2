//! Request 10: certificates with notes.

use super::{drawn, Change};
use crate::generate::damage::{self, damaged};
use crate::generate::draft::{
    basis_monomial, bound, certificate_end, monomial, note, objective_term, problem_end, row,
    variables, wide_entry,
};
use crate::generate::refusals::notes::{cases, ACCEPTED, LOW_NOTED};
use crate::generate::refusals::{bytes, case_f, cases_to, met};
use crate::generate::rng::Rng;
use crate::records::{Record, CHECK, OFFICE};

/// The refusals, those of the strict check among them; what is accepted beside them; a certificate
/// with notes, cut at every byte; and the longest ones.
pub fn special() -> Vec<Record> {
    let mut all = met(cases_to(10), OFFICE);
    all.extend(met(cases(), CHECK));
    all.extend(ACCEPTED.iter().map(|accepted| accepted.record()));
    let [problem, ..] = case_f();
    let noted = bytes(LOW_NOTED);
    let cut = |length: usize| {
        let certificate = noted[..length].to_vec();
        Record::office(problem.clone(), certificate, vec![0; 24])
    };
    all.extend((0..noted.len()).map(cut));
    all.extend(longest().into_iter().map(|(record, _)| record));
    all
}

/// 128 rows of 64 entries with 32-bit factors, which with the 10 are 49,674 bytes, with a note before
/// and behind them; then a command, whole or cut, and so many more bytes 13. The 64 monomials of the
/// basis come into one block. The lines were found by hand: as sent the rows end at 49,692.
fn longest() -> Vec<(Record, &'static str)> {
    let bits = [0, 1, 2, 3, 4, 5];
    let products = (0..64u8).map(|mask| monomial(&bits.map(|bit| mask >> bit & 1)));
    let single = bits.map(|bit| monomial(&bits.map(|other| u8::from(bit == other))));
    let mut problem = variables(6);
    problem.extend(single.map(|x| objective_term(x, 1)).concat());
    problem.extend(products.flat_map(|b| basis_monomial(0, b)));
    problem.extend(problem_end());
    let entries = (0..64).flat_map(|index| wide_entry(index, 1));
    let rows = [row(0, 1), entries.collect()].concat().repeat(128);
    let cut = |mut command: Vec<u8>| {
        command.pop();
        command
    };
    let tails = [
        (certificate_end(), 0, "refused 9 1 0 0"),
        (certificate_end(), 40, "refused 2 1 49693 0"),
        (Vec::new(), 0, "refused 2 1 49692 0"),
        (row(0, 1), 0, "refused 6 1 49692 0"),
        (row(0, 1), 40, "refused 6 1 49692 0"),
        (cut(row(0, 1)), 0, "refused 2 1 49692 0"),
        (wide_entry(0, 1), 0, "refused 5 1 49692 0"),
        (wide_entry(0, 1), 40, "refused 5 1 49692 0"),
        (wide_entry(64, 1), 40, "refused 4 1 49692 0"),
        (cut(wide_entry(0, 1)), 0, "refused 2 1 49692 0"),
        (bound(0, 1, 0, 1), 40, "refused 3 1 49692 0"),
        (cut(bound(0, 1, 0, 1)), 0, "refused 3 1 49692 0"),
        (note([0x13; 8]), 0, "refused 2 1 49701 0"),
        (note([0x13; 8]), 40, "refused 2 1 49702 0"),
        (cut(note([0x13; 8])), 0, "refused 2 1 49692 0"),
        (vec![0], 40, "refused 3 1 49692 0"),
    ];
    let record = |(tail, more, line): (Vec<u8>, usize, &'static str)| {
        let certificate = [
            bound(0, 1, 0, 1),
            note([1; 8]),
            rows.clone(),
            note([2; 8]),
            tail,
            vec![0x13; more],
        ];
        let certificate = certificate.concat();
        (
            Record::office(problem.clone(), certificate, vec![0; 16]),
            line,
        )
    };
    tails.map(record).into()
}

/// A certificate with notes between its commands, now and then elsewhere, cut or damaged; the buffer
/// is now and then too short or too long. It has commands of some of these requests.
pub fn random(rng: &mut Rng, mut changes: Vec<&Change>) -> Record {
    let (mut streams, focus) = drawn(rng, CHECK);
    rng.shuffle(&mut changes);
    changes.truncate(rng.below(3));
    for change in changes {
        (change.put)(rng, &mut streams);
    }
    let [problem, lower, upper] = streams;
    let mut commands = if focus == 0 { lower } else { upper };
    let notes = rng.below(5);
    for _ in 0..notes {
        let place = if rng.once_in(20) {
            rng.below(commands.len() + 1)
        } else {
            rng.between(1, commands.len() - 1)
        };
        let any = [0; 8].map(|_: u8| *rng.pick(&[0, 0x13, 0x40, 0x11, 7, 255]));
        commands.insert(place, note(any));
    }
    let certificate = if rng.once_in(6) {
        let way = rng.below(damage::WAYS);
        damaged(rng, damage::CERTIFICATE, &commands, way)
    } else {
        commands.concat()
    };
    let length = match rng.below(6) {
        0 => rng.below(8 * notes + 1),
        1 => 8 * notes + rng.below(10),
        _ => 8 * notes,
    };
    let buffer = (0..length).map(|_| rng.byte()).collect();
    Record::office(problem.concat(), certificate, buffer)
}

#[cfg(test)]
mod tests {
    use super::*;
    use crate::plain::line;

    #[test]
    fn longest_ones_are_refused_as_found_by_hand() {
        for (record, expected) in longest() {
            assert_eq!(line(&record), expected);
        }
    }
}
