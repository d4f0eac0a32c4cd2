//! Request 04: conditions that hold exactly, and rows of either sign on them.

use super::{places, Streams};
use crate::generate::accepted::Case;
use crate::generate::certificates::{as_record, streams};
use crate::generate::draft::{entry, equality, equality_row};
use crate::generate::largest::{extreme, largest};
use crate::generate::refusals::equalities::{cases, ACCEPTED};
use crate::generate::refusals::met;
use crate::generate::rng::Rng;
use crate::records::{Record, BLOCKS};

/// The refusals, what stands beside them and is accepted, and the largest certificates.
pub fn special(kind: u8) -> Vec<Record> {
    let mut all = met(cases(), kind);
    let accepted = ACCEPTED.iter().filter(|accepted| accepted.kind == kind);
    all.extend(accepted.map(|accepted| accepted.record()));
    if kind == BLOCKS {
        return all;
    }
    let rng = &mut Rng::new(4);
    let full = largest(rng);
    let mut cases: Vec<Streams> = vec![reread(&full, |_| true), reread(&full, |j| j % 2 == 0)];
    for (sign, weight) in [(1, i16::MIN), (1, i16::MAX), (-1, i16::MIN), (-1, i16::MAX)] {
        let mut streams = reread(&extreme(sign), |_| true);
        for certificate in &mut streams[1..] {
            for place in places(certificate, 0x14) {
                certificate[place] = equality_row(1, weight);
            }
        }
        cases.push(streams);
    }
    let bytes = cases
        .into_iter()
        .map(|case| case.map(|stream| stream.concat()));
    all.extend(bytes.map(|bytes| as_record(kind, 0, bytes)));
    all
}

/// The streams of a case with some of its conditions, by their numbers, as equalities. A row on one
/// has the weight that its bytes say as a signed number: those of 32,768 and above fall below 0.
fn reread(case: &Case, is_equality: fn(u8) -> bool) -> Streams {
    let mut streams = streams(case);
    for (number, place) in places(&streams[0], 0x03).into_iter().enumerate() {
        if is_equality(number as u8 + 1) {
            streams[0][place] = equality();
        }
    }
    for row in streams[1..].iter_mut().flatten() {
        if row[0] == 0x11 && row[1] > 0 && is_equality(row[1]) {
            row[0] = 0x14;
        }
    }
    streams
}

/// Makes some of the constraints equalities, with rows for them; now and then a row of the wrong
/// kind stays, or a weight is off by one.
pub fn put(rng: &mut Rng, streams: &mut Streams) {
    let begun = places(&streams[0], 0x03);
    for (number, place) in begun.into_iter().enumerate() {
        if rng.once_in(4) {
            continue;
        }
        let j = number as u8 + 1;
        streams[0][place] = equality();
        let turned = rng.once_in(3) && turn(&mut streams[0], j);
        let length = basis_length(&streams[0], j);
        for certificate in &mut streams[1..] {
            if !rng.once_in(24) {
                *certificate = rows(certificate, j, turned);
            }
            if length > 0 && rng.once_in(3) {
                cancel(rng, certificate, j, length);
            }
        }
    }
    if rng.once_in(8) {
        miss(rng, streams);
    }
}

/// The certificate's commands with every row on basis j as rows on an equality, of the other sign
/// where `turned`.
fn rows(commands: &[Vec<u8>], j: u8, turned: bool) -> Vec<Vec<u8>> {
    let mut all = Vec::new();
    let mut rest = commands;
    while let Some((first, after)) = rest.split_first() {
        rest = after;
        if first[0] != 0x11 || first[1] != j {
            all.push(first.clone());
            continue;
        }
        let entries = after.iter().take_while(|command| command[0] == 0x12);
        let entries: Vec<Vec<u8>> = entries.cloned().collect();
        rest = &after[entries.len()..];
        let weight = i32::from(u16::from_le_bytes([first[2], first[3]]));
        for part in parts(if turned { -weight } else { weight }) {
            all.push(equality_row(j, part));
            all.extend(entries.iter().cloned());
        }
    }
    all
}

/// A weight as the sum of weights of 16 bits; 0 is one of them.
fn parts(mut weight: i32) -> Vec<i16> {
    let mut all = Vec::new();
    loop {
        let part = weight.clamp(i16::MIN.into(), i16::MAX.into());
        all.push(part as i16);
        weight -= part;
        if weight == 0 {
            return all;
        }
    }
}

/// Turns the signs of condition j's terms, unless one of them is -32,768.
fn turn(problem: &mut [Vec<u8>], j: u8) -> bool {
    let begins = |command: &Vec<u8>| [0x03, 0x07].contains(&command[0]);
    let mut number = 0;
    let mut terms = Vec::new();
    for (place, command) in problem.iter().enumerate() {
        number += u8::from(begins(command));
        if command[0] == 0x04 && number == j {
            terms.push(place);
        }
    }
    let coefficient = |command: &Vec<u8>| i16::from_le_bytes([command[9], command[10]]);
    if terms
        .iter()
        .any(|&place| coefficient(&problem[place]) == i16::MIN)
    {
        return false;
    }
    for place in terms {
        let turned = -coefficient(&problem[place]);
        problem[place][9..].copy_from_slice(&turned.to_le_bytes());
    }
    true
}

/// The number of monomials of basis j.
pub fn basis_length(problem: &[Vec<u8>], j: u8) -> usize {
    let of_j = |command: &&Vec<u8>| command[0] == 0x05 && command[1] == j;
    problem.iter().filter(of_j).count()
}

/// Rows on an equality that cancel each other, before the end.
fn cancel(rng: &mut Rng, certificate: &mut Vec<Vec<u8>>, j: u8, length: usize) {
    let weight = *rng.pick(&[1, 77, 32_767, -32_768]);
    let entry = entry(rng.below(length) as u8, rng.nonzero(32_767) as i16);
    let end = certificate.len().saturating_sub(1);
    let weights = [parts(weight), parts(-weight)].concat();
    let rows = weights
        .into_iter()
        .flat_map(|w| [equality_row(j, w), entry.clone()]);
    let rows: Vec<Vec<u8>> = rows.collect();
    certificate.splice(end..end, rows);
}

/// One row's weight off by one, or 0, or a row on another basis.
fn miss(rng: &mut Rng, streams: &mut Streams) {
    let stream = rng.between(1, 2);
    let rows = places(&streams[stream], 0x14);
    if rows.is_empty() {
        return;
    }
    let row = &mut streams[stream][*rng.pick(&rows)];
    match rng.below(4) {
        0 => row[1] = rng.below(10) as u8,
        1 => row[2..].fill(0),
        2 => row[0] = 0x11,
        _ => row[2] ^= 1,
    }
}
