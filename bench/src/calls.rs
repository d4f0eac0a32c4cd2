//! The proved calls as C functions, the records that they answer, and what is lent to them.

use std::io::Read;

extern "C" {
    fn zamiachisel_blocks(
        problem: *const u8,
        problem_length: usize,
        out: *mut u8,
        out_length: usize,
        verdict: *mut u64,
        verdict_length: usize,
        keys: *mut u64,
        keys_length: usize,
        high: *mut i64,
        high_length: usize,
        low: *mut i64,
        low_length: usize,
    ) -> u64;

    fn zamiachisel_check(
        problem: *const u8,
        problem_length: usize,
        certificate: *const u8,
        certificate_length: usize,
        verdict: *mut u64,
        verdict_length: usize,
        keys: *mut u64,
        keys_length: usize,
        high: *mut i64,
        high_length: usize,
        low: *mut i64,
        low_length: usize,
    ) -> u64;

    fn zamiachisel_symmetries(
        problem: *const u8,
        problem_length: usize,
        out: *mut u8,
        out_length: usize,
        verdict: *mut u64,
        verdict_length: usize,
        keys: *mut u64,
        keys_length: usize,
        high: *mut i64,
        high_length: usize,
        low: *mut i64,
        low_length: usize,
    ) -> u64;

    fn zamiachisel_pair(
        problem: *const u8,
        problem_length: usize,
        first: *const u8,
        first_length: usize,
        second: *const u8,
        second_length: usize,
        verdict: *mut u64,
        verdict_length: usize,
        keys: *mut u64,
        keys_length: usize,
        high: *mut i64,
        high_length: usize,
        low: *mut i64,
        low_length: usize,
    ) -> u64;

    fn zamiachisel_sum(
        problem1: *const u8,
        problem1_length: usize,
        low1: *const u8,
        low1_length: usize,
        high1: *const u8,
        high1_length: usize,
        problem2: *const u8,
        problem2_length: usize,
        low2: *const u8,
        low2_length: usize,
        high2: *const u8,
        high2_length: usize,
        verdict: *mut u64,
        verdict_length: usize,
        keys: *mut u64,
        keys_length: usize,
        high: *mut i64,
        high_length: usize,
        low: *mut i64,
        low_length: usize,
    ) -> u64;

    fn zamiachisel_tighter(
        problem: *const u8,
        problem_length: usize,
        first: *const u8,
        first_length: usize,
        second: *const u8,
        second_length: usize,
        number: *mut u64,
        stream: *mut u64,
        place: *mut u64,
        key: *mut u64,
        keys: *mut u64,
        keys_length: usize,
        high: *mut i64,
        high_length: usize,
        low: *mut i64,
        low_length: usize,
    ) -> u64;

    fn zamiachisel_record(
        problem: *const u8,
        problem_length: usize,
        low: *const u8,
        low_length: usize,
        high: *const u8,
        high_length: usize,
        out: *mut u8,
        out_length: usize,
    ) -> u64;

    fn zamiachisel_report(
        records: *const u8,
        records_length: usize,
        out: *mut u8,
        out_length: usize,
        verdict: *mut u64,
        verdict_length: usize,
        keys: *mut u64,
        keys_length: usize,
        high: *mut i64,
        high_length: usize,
        low: *mut i64,
        low_length: usize,
    ) -> u64;

    fn zamiachisel_moved_bound(
        problem: *const u8,
        problem_length: usize,
        certificate: *const u8,
        certificate_length: usize,
        changes: *const u8,
        changes_length: usize,
        verdict: *mut u64,
        verdict_length: usize,
        keys: *mut u64,
        keys_length: usize,
        high: *mut i64,
        high_length: usize,
        low: *mut i64,
        low_length: usize,
    ) -> u64;

    fn zamiachisel_office(
        problem: *const u8,
        problem_length: usize,
        certificate: *const u8,
        certificate_length: usize,
        buffer: *mut u8,
        buffer_length: usize,
        verdict: *mut u64,
        verdict_length: usize,
        keys: *mut u64,
        keys_length: usize,
        high: *mut i64,
        high_length: usize,
        low: *mut i64,
        low_length: usize,
    ) -> u64;
}

/// A record: its kind and its byte runs, as many as the kind has.
pub struct Record {
    pub kind: u8,
    pub runs: Vec<Vec<u8>>,
}

/// As many numbers as the verdicts of these calls have at most: the pair's.
pub const LONGEST_VERDICT: usize = 13;

/// What is lent to every call.
#[derive(Clone, Debug, PartialEq, Eq)]
pub struct Lent {
    pub out: Vec<u8>,
    pub verdict: Vec<u64>,
    pub keys: Vec<u64>,
    pub high: Vec<i64>,
    pub low: Vec<i64>,
}

impl Lent {
    /// Just the lengths that the calls ask for; the symmetries call asks for fewer bytes than the blocks call.
    pub fn new(kind: u8) -> Self {
        Lent {
            out: vec![0; if kind == b's' { 256 } else { 576 }],
            verdict: vec![0; LONGEST_VERDICT],
            keys: vec![0; 2_048],
            high: vec![0; 2_048],
            low: vec![0; 2_048],
        }
    }
}

/// The records of the standard input.
pub fn records() -> Vec<Record> {
    let mut bytes = Vec::new();
    std::io::stdin()
        .read_to_end(&mut bytes)
        .expect("the standard input is read");
    let mut found = Vec::new();
    let mut rest = bytes.as_slice();
    while let Some((&kind, after)) = rest.split_first() {
        let count = match kind {
            b'x' => 4,
            b'd' => 6,
            _ => 3,
        };
        let Some((lengths, after)) = after.split_at_checked(4 * count) else {
            break;
        };
        rest = after;
        let lengths = lengths
            .chunks(4)
            .map(|bytes| u32::from_le_bytes(bytes.try_into().unwrap()));
        let runs = lengths.map(|length| {
            let (run, after) = rest.split_at(rest.len().min(length as usize));
            rest = after;
            run.to_vec()
        });
        let runs = runs.collect();
        found.push(Record { kind, runs });
    }
    found
}

/// Calls a C function with slices that are read and with slices that are lent.
macro_rules! call {
    ($function:ident, $($read:expr),+; $($lent:expr),+) => {
        // The slices are whole and do not overlap, which is all that a call asks.
        unsafe { $function($($read.as_ptr(), $read.len(),)+ $($lent.as_mut_ptr(), $lent.len()),+) }
    };
}

/// Answers a record: the number of the refusal, or 0. It is a function of its own in the machine code, by whose name its
/// instructions are counted.
#[inline(never)]
pub fn answer(record: &Record, lent: &mut Lent) -> u64 {
    let [problem, first, second, others @ ..] = &record.runs[..] else {
        panic!("a record has three runs at least");
    };
    match (record.kind, others) {
        (b'b', _) => {
            call!(zamiachisel_blocks, problem; lent.out, lent.verdict, lent.keys, lent.high, lent.low)
        }
        (b'c', _) => {
            call!(zamiachisel_check, problem, first; lent.verdict, lent.keys, lent.high, lent.low)
        }
        (b'p', _) => {
            call!(zamiachisel_pair, problem, first, second; lent.verdict, lent.keys, lent.high, lent.low)
        }
        (b't', _) => tighter([problem, first, second], lent)[0],
        (b's', _) => {
            call!(zamiachisel_symmetries, problem; lent.out, lent.verdict, lent.keys, lent.high, lent.low)
        }
        (b'r', _) => report(problem, &mut first.clone(), lent),
        (b'x', [output]) => self::record([problem, first, second], &mut output.clone()),
        (b'd', _) => sum(&record.runs, lent).0,
        (b'a', _) => moved_bound([problem, first, second], lent).0,
        (b'n', _) => office([problem, first, second], lent),
        _ => 0,
    }
}

/// The report on these records, which writes to this output: the number of the refusal, or 0.
pub fn report(records: &[u8], output: &mut [u8], lent: &mut Lent) -> u64 {
    call!(zamiachisel_report, records; output, lent.verdict, lent.keys, lent.high, lent.low)
}

/// The pair's verdict as a record, which this output gets: the number of the refusal, or 0.
pub fn record([problem, low, high]: [&Vec<u8>; 3], output: &mut [u8]) -> u64 {
    call!(zamiachisel_record, problem, low, high; output)
}

/// The four numbers that the call on two certificates leaves. They are lent with other numbers in them; where the number of
/// the refusal is 0 a certificate comes back, and nowhere else.
pub fn tighter([problem, first, second]: [&Vec<u8>; 3], lent: &mut Lent) -> [u64; 4] {
    let [mut number, mut stream, mut place, mut key] = [u64::MAX; 4];
    // As above; the four numbers are apart from each other and from the tables.
    let back = unsafe {
        zamiachisel_tighter(
            problem.as_ptr(),
            problem.len(),
            first.as_ptr(),
            first.len(),
            second.as_ptr(),
            second.len(),
            &raw mut number,
            &raw mut stream,
            &raw mut place,
            &raw mut key,
            lent.keys.as_mut_ptr(),
            lent.keys.len(),
            lent.high.as_mut_ptr(),
            lent.high.len(),
            lent.low.as_mut_ptr(),
            lent.low.len(),
        )
    };
    assert_eq!(number == 0, back == 1 || back == 2);
    assert!(number != 0 || [stream, place, key] == [0; 3]);
    [number, stream, place, key]
}

/// What stands in the verdict from a place on; with refusal 1 nothing is written, which is read as zeros.
fn fields<const N: usize>(number: u64, lent: &Lent, place: usize) -> [u64; N] {
    std::array::from_fn(|k| {
        if number == 1 {
            0
        } else {
            lent.verdict[place + k]
        }
    })
}

/// The number of the refusal and the two sums that the call on two problems leaves, which are 0 over 0 exactly with a refusal.
pub fn sum(runs: &[Vec<u8>], lent: &mut Lent) -> (u64, [(i64, u64); 2]) {
    let [problem1, low1, high1, problem2, low2, high2] = runs else {
        panic!("two problems with a pair for each are six runs");
    };
    let number = call!(zamiachisel_sum, problem1, low1, high1, problem2, low2, high2;
        lent.verdict, lent.keys, lent.high, lent.low);
    let [p, q, upper_p, upper_q] = fields(number, lent, 4);
    let sums = [(p as i64, q), (upper_p as i64, upper_q)];
    for (numerator, denominator) in sums {
        assert_eq!(number == 0, denominator != 0);
        assert!(number == 0 || numerator == 0);
    }
    (number, sums)
}

/// The number of the refusal and the moved bound that the call on changes leaves, which is 0 over 0 exactly with a refusal.
pub fn moved_bound(
    [problem, certificate, changes]: [&Vec<u8>; 3],
    lent: &mut Lent,
) -> (u64, i64, u64) {
    let number = call!(zamiachisel_moved_bound, problem, certificate, changes;
        lent.verdict, lent.keys, lent.high, lent.low);
    let [numerator, denominator] = fields(number, lent, 4);
    assert_eq!(number == 0, denominator != 0);
    assert!(number == 0 || numerator == 0);
    (number, numerator as i64, denominator)
}

/// The number of the refusal of the office's check, or 0, on a buffer as the record has it. With a refusal the number of
/// notes is 0, and the buffer stays.
pub fn office([problem, certificate, buffer]: [&Vec<u8>; 3], lent: &mut Lent) -> u64 {
    let mut left = buffer.clone();
    let number = call!(zamiachisel_office, problem, certificate;
        left, lent.verdict, lent.keys, lent.high, lent.low);
    let [notes] = fields(number, lent, 9);
    assert!(8 * notes as usize <= left.len());
    assert!(number == 0 || (notes == 0 && left == *buffer));
    number
}
