//! Request 11: gaps that arrive one after another.

use super::Change;
use crate::generate::refusals::windows::records as refused;
use crate::generate::rng::Rng;
use crate::records::{Record, RUN};

/// Arrivals with the lines found by hand; those with a refusal are in the table of refusals.
#[rustfmt::skip]
const FOUND: &[(&[(i64, u64)], &str)] = &[
    (&[], "window"),
    (&[(0, 1)], "window 0/1 0"),
    (&[(0, 1), (0, 2)], "window 0/1 0; 0/2 0"),
    (&[(1, 2), (1, 3), (2, 3)], "window 1/2 0; 1/2 1; 2/3 0"),
    (&[(1, 2), (2, 4), (1, 2), (1, 3)], "window 1/2 0; 2/4 0; 1/2 0; 1/2 1"),
    (&[(281_474_976_710_654, 4_294_967_294), (281_474_976_710_655, 4_294_967_295)], "window 281474976710654/4294967294 0; 281474976710654/4294967294 1"),
    (&[(281_474_976_710_655, 4_294_967_295), (281_474_976_710_654, 4_294_967_294)], "window 281474976710655/4294967295 0; 281474976710654/4294967294 0"),
];

/// Those; a widest gap that goes out with the 33rd arrival, so that its age is 31 at the 32nd; rising
/// and level gaps; refused ones among falling ones; bytes after the last whole arrival; as many
/// arrivals as a run has room for; and the refusals.
pub fn special() -> Vec<Record> {
    let lists = FOUND.iter();
    let mut all: Vec<Record> = lists.map(|(list, _)| Record::window(list)).collect();
    let falling: Vec<(i64, u64)> = (0..80).map(|i| (100 - i, 1)).collect();
    let rising: Vec<(i64, u64)> = (0..80).map(|i| (i, 1)).collect();
    let level = vec![(5, 3); 70];
    let mixed: Vec<(i64, u64)> = (0..80).map(|i| (100 - i, (i % 3) as u64)).collect();
    all.extend([falling, rising, level, mixed].map(|arrivals| Record::window(&arrivals)));
    let mut longer = Record::window(&[(1, 2), (1, 3)]);
    longer.runs[0].extend([1; 15]);
    all.push(longer);
    let most = (RUN / 16) as i64;
    let longest: Vec<(i64, u64)> = (0..most)
        .map(|i| ((1 << 48) - 1 - i, (1 << 32) - 1))
        .collect();
    all.push(Record::window(&longest));
    all.extend(refused());
    all
}

/// Up to 100 arrivals: from a few values, with many ties, or from many; and as many as the record's
/// share says that are refused, or near the largest that are allowed, which are hardest to compare.
pub fn random(rng: &mut Rng, _: Vec<&Change>) -> Record {
    let most = *rng.pick(&[3, 40, 1 << 20, 1 << 32]);
    let [refused, large] = *rng.pick(&[[0, 0], [2, 0], [2, 1], [2, 14], [8, 4]]);
    let count = rng.below(101);
    let arrivals: Vec<(i64, u64)> = (0..count)
        .map(|_| match rng.below(16) {
            n if n < refused => outside(rng),
            n if n < refused + large => (
                (1 << 48) - 1 - rng.below(4) as i64,
                (1 << 32) - 1 - rng.below(4) as u64,
            ),
            _ => (
                rng.below(most) as i64,
                rng.between(1, most.min((1 << 32) - 1)) as u64,
            ),
        })
        .collect();
    let mut record = Record::window(&arrivals);
    if rng.once_in(5) {
        let cut = rng.below(16);
        let length = record.runs[0].len().saturating_sub(cut);
        record.runs[0].truncate(length);
    }
    record
}

/// An arrival that is refused: by its numerator, by its denominator, or by both.
fn outside(rng: &mut Rng) -> (i64, u64) {
    let numerator = *rng.pick(&[-1, 1 << 48, i64::MIN, i64::MAX]);
    let denominator = *rng.pick(&[0, 1 << 32, u64::MAX]);
    match rng.below(3) {
        0 => (numerator, rng.between(1, 40) as u64),
        1 => (rng.below(40) as i64, denominator),
        _ => (numerator, denominator),
    }
}

#[cfg(test)]
mod tests {
    use super::*;
    use crate::plain::line;

    #[test]
    fn lines_found_by_hand() {
        for (arrivals, expected) in FOUND {
            assert_eq!(line(&Record::window(arrivals)), *expected);
        }
    }

    /// 100 falls out with the 33rd arrival, 99 with the 34th.
    #[test]
    fn the_oldest_goes_out() {
        let falling = line(&special()[FOUND.len()]);
        let outcomes: Vec<&str> = falling["window ".len()..].split("; ").collect();
        assert_eq!(outcomes[31..34], ["100/1 31", "99/1 31", "98/1 31"]);
    }
}
