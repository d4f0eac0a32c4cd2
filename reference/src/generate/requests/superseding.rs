//! Request 02: records of two certificates for one problem.

use super::{Change, Streams};
use crate::generate::accepted::case;
use crate::generate::blocks;
use crate::generate::draft::{Draft, DraftCertificate, DraftRow};
use crate::generate::refusals::{bytes, case_f, cases_to, equalities, met};
use crate::generate::rng::Rng;
use crate::monomial::Monomial;
use crate::records::{Record, TIGHTER};

/// Of case F: the lower bound -1 as -2/2, 1 x (2x + 2) = (1 + x)² + (1 - x²); and the lower bound -2,
/// 2 (x + 2) = (1 + x)² + (1 - x²) + 2.
const EQUAL: &str = "10 00 01 00 FE FF FF FF 02 00 | 11 00 01 00 | 12 00 01 00 | 12 01 01 00 \
    | 11 01 01 00 | 12 00 01 00 | 13";
const LOOSE: &str = "10 00 02 00 FE FF FF FF 01 00 | 11 00 01 00 | 12 00 01 00 | 12 01 01 00 \
    | 11 01 01 00 | 12 00 01 00 | 11 00 02 00 | 12 00 01 00 | 13";
/// The upper bound 2: 2 (2 - x) = (1 - x)² + (1 - x²) + 2.
const LOOSE_UPPER: &str = "10 01 02 00 02 00 00 00 01 00 | 11 00 01 00 | 12 00 01 00 \
    | 12 01 FF FF | 11 01 01 00 | 12 00 01 00 | 11 00 02 00 | 12 00 01 00 | 13";
/// The lower bound -1 with a false identity: its last row is left out.
const FALSE: &str = "10 00 02 00 FF FF FF FF 01 00 | 11 00 01 00 | 12 00 01 00 | 12 01 01 00 | 13";

/// No objective, and basis 0 has 1. Lower bounds -2^31 over 65,535, which is the larger, and over
/// 65,534: 2^31 = 2 x 32,768². Upper bounds 2^31 - 1 over 65,535, which is the smaller, and over
/// 65,534: 2^31 - 1 = 7 x 16,384² + 16,383² + 32,766. Their cross products have 47 bits.
const NOTHING: &str = "01 01 | 05 00 0⁸ | 06";
const FAR_BELOW: [&str; 2] = [
    "10 00 01 00 00 00 00 80 FF FF | 11 00 02 00 | 12 00 00 80 | 13",
    "10 00 01 00 00 00 00 80 FE FF | 11 00 02 00 | 12 00 00 80 | 13",
];
const FAR_ABOVE: [&str; 2] = [
    "10 01 01 00 FF FF FF 7F FF FF | 11 00 07 00 | 12 00 00 40 | 11 00 01 00 | 12 00 FF 3F \
     | 11 00 FE 7F | 12 00 01 00 | 13",
    "10 01 01 00 FF FF FF 7F FE FF | 11 00 07 00 | 12 00 00 40 | 11 00 01 00 | 12 00 FF 3F \
     | 11 00 FE 7F | 12 00 01 00 | 13",
];

/// A problem with two certificates, and the number of the one that comes back.
type Choice = ([Vec<u8>; 3], usize);

fn choices() -> Vec<Choice> {
    let [f, low, high] = case_f();
    let [equal, loose, loose_upper, wrong] = [EQUAL, LOOSE, LOOSE_UPPER, FALSE].map(bytes);
    let none = Vec::new;
    let of_f: [([&Vec<u8>; 2], usize); 16] = [
        ([&low, &equal], 1),
        ([&equal, &low], 1),
        ([&low, &low], 1),
        ([&low, &loose], 1),
        ([&loose, &low], 2),
        ([&loose, &equal], 2),
        ([&high, &loose_upper], 1),
        ([&loose_upper, &high], 2),
        ([&high, &high], 1),
        ([&low, &none()], 1),
        ([&none(), &low], 2),
        ([&none(), &high], 2),
        ([&high, &vec![0x10]], 1),
        ([&wrong, &loose], 2),
        ([&loose, &wrong], 1),
        ([&wrong, &high], 2),
    ];
    let of_f = of_f.into_iter();
    let mut all: Vec<Choice> = of_f
        .map(|([first, second], back)| ([f.clone(), first.clone(), second.clone()], back))
        .collect();
    let nothing = bytes(NOTHING);
    for [tight, loose] in [FAR_BELOW, FAR_ABOVE].map(|texts| texts.map(bytes)) {
        all.push(([nothing.clone(), tight.clone(), loose.clone()], 1));
        all.push(([nothing.clone(), loose, tight], 2));
    }
    let [equal_f, below, above] = equalities::equal_f();
    all.push(([equal_f.clone(), below.clone(), none()], 1));
    all.push(([equal_f.clone(), low, below], 2));
    all.push(([equal_f, high, above], 2));
    all
}

/// Those, and the refusals.
pub fn special() -> Vec<Record> {
    let record = |([problem, first, second], _): Choice| Record::tighter(problem, first, second);
    let mut all: Vec<Record> = choices().into_iter().map(record).collect();
    all.extend(met(cases_to(2), TIGHTER));
    all
}

/// Two certificates of a case: the same bound, a looser one, the same as another fraction, the other
/// side, or a false one; with commands of some of these requests, and now and then cut.
pub fn random(rng: &mut Rng, mut changes: Vec<&Change>) -> Record {
    let case = case(rng);
    let side = rng.below(2);
    let mut draw = || {
        let other = rng.once_in(10);
        let mut certificate = [&case.lower, &case.upper][side ^ usize::from(other)].clone();
        match rng.below(6) {
            0 => {}
            1 | 2 => loosen(&case.problem, &mut certificate, rng.between(1, 3) as i32),
            3 => double(&mut certificate),
            4 => {
                double(&mut certificate);
                loosen(&case.problem, &mut certificate, 1);
            }
            _ => certificate.p ^= 1,
        }
        certificate.commands()
    };
    let [first, second] = [draw(), draw()];
    let mut streams: Streams = [case.problem.commands(), first, second];
    rng.shuffle(&mut changes);
    changes.truncate(rng.below(3));
    for change in changes {
        (change.put)(rng, &mut streams);
    }
    let [mut problem, mut first, mut second] = streams.map(|commands| commands.concat());
    if rng.once_in(12) {
        first.truncate(rng.below(first.len()));
    }
    if rng.once_in(12) {
        second.truncate(rng.below(second.len()));
    }
    if rng.once_in(16) {
        problem = blocks::problem(rng);
    }
    Record::tighter(problem, first, second)
}

/// Moves the bound outwards by `more`/q: D x more comes to the constant, by a row on 1.
pub fn loosen(problem: &Draft, certificate: &mut DraftCertificate, more: i32) {
    let weight = i32::from(certificate.denominator) * more;
    let one = problem.bases[0].iter().position(|&b| b == Monomial::ONE);
    if let (Ok(weight), Some(index)) = (u16::try_from(weight), one) {
        certificate.p += if certificate.side == 0 { -more } else { more };
        let row = DraftRow::new(0, weight, &[(index as u8, 1)]);
        certificate.rows.push(row);
    }
}

/// The same bound over twice the denominator, with every weight doubled.
pub fn double(certificate: &mut DraftCertificate) {
    let mut rows = certificate.rows.iter();
    let fits = certificate.q < 32_768 && rows.all(|row| row.weight < 32_768);
    let (Some(p), true) = (certificate.p.checked_mul(2), fits) else {
        return;
    };
    certificate.p = p;
    certificate.q *= 2;
    for row in &mut certificate.rows {
        row.weight *= 2;
    }
}

#[cfg(test)]
mod tests {
    use super::*;
    use crate::plain::line;
    use crate::records::hexadecimal;

    #[test]
    fn choices_found_by_hand() {
        for (streams, back) in choices() {
            let expected = format!("tighter {}", hexadecimal(&streams[back]));
            let [problem, first, second] = streams;
            assert_eq!(line(&Record::tighter(problem, first, second)), expected);
        }
    }
}
