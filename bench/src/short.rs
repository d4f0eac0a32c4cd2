//! Refusal 1: each call with each of the lent tables one short.

use crate::calls::{
    answer, moved_bound, record, report, sum, tighter, Lent, Record, LONGEST_VERDICT,
};

/// Case F: a problem and its two certificates, all of which hold.
const PROBLEM: [&[u8]; 9] = [
    &[1, 1],
    &[2, 1, 0, 0, 0, 0, 0, 0, 0, 1, 0, 0, 0],
    &[3],
    &[4, 0, 0, 0, 0, 0, 0, 0, 0, 1, 0],
    &[4, 2, 0, 0, 0, 0, 0, 0, 0, 255, 255],
    &[5, 0, 0, 0, 0, 0, 0, 0, 0, 0],
    &[5, 0, 1, 0, 0, 0, 0, 0, 0, 0],
    &[5, 1, 0, 0, 0, 0, 0, 0, 0, 0],
    &[6],
];
const ROWS: [&[u8]; 6] = [
    &[0x11, 0, 1, 0],
    &[0x12, 0, 1, 0],
    &[0x12, 1, 1, 0],
    &[0x11, 1, 1, 0],
    &[0x12, 0, 1, 0],
    &[0x13],
];

const CHANGE: [u8; 12] = [1, 0, 0, 0, 0, 0, 0, 0, 251, 255, 255, 255];

fn case_f(kind: u8) -> Record {
    let low = [
        &[0x10, 0, 2, 0, 255, 255, 255, 255, 1, 0],
        &ROWS.concat()[..],
    ]
    .concat();
    let mut high = [&[0x10, 1, 2, 0, 1, 0, 0, 0, 1, 0], &ROWS.concat()[..]].concat();
    high[20..22].copy_from_slice(&[255, 255]);
    // The call on two certificates takes two of one side, and the call on changes takes changes: 5 x and -5 x.
    let second = match kind {
        b't' => low.clone(),
        b'a' => [[1, 0, 0, 0, 0, 0, 0, 0, 5, 0, 0, 0], CHANGE].concat(),
        _ => high,
    };
    let mut runs = vec![PROBLEM.concat(), low, second];
    if kind == b'd' {
        runs.extend(runs.clone());
    }
    Record { kind, runs }
}

/// Tables three longer than asked, without a zero in them.
fn filled() -> Lent {
    Lent {
        out: (0..579).map(|i| 1 + (i % 250) as u8).collect(),
        verdict: (9_000..).take(LONGEST_VERDICT + 3).collect(),
        keys: (0..2_051).map(|i| 1 + i).collect(),
        high: (0..2_051).map(|i| -1 - i).collect(),
        low: (0..2_051).map(|i| i64::MAX - i).collect(),
    }
}

/// The first 2,048 numbers of each table are zero and the rest is untouched.
fn assert_cleared(lent: &Lent, before: &Lent) {
    assert!(
        lent.keys[..2_048].iter().all(|&key| key == 0)
            && lent.keys[2_048..] == before.keys[2_048..]
    );
    assert!(
        lent.high[..2_048].iter().all(|&high| high == 0)
            && lent.high[2_048..] == before.high[2_048..]
    );
    assert!(
        lent.low[..2_048].iter().all(|&low| low == 0) && lent.low[2_048..] == before.low[2_048..]
    );
}

/// With full tables case F is accepted and the tables come back cleared.
fn full(kind: u8) {
    let (before, mut lent) = (filled(), filled());
    assert_eq!(answer(&case_f(kind), &mut lent), 0);
    assert_cleared(&lent, &before);
    let written = match kind {
        b'b' => 576,
        b's' => 256,
        _ => 0,
    };
    assert_eq!(lent.out[written..], before.out[written..]);
    assert!(lent.out[..written]
        .iter()
        .all(|&byte| [0, 255].contains(&byte)));
}

/// One table shortened: refusal 1, and nothing that was lent is written.
fn shortened(kind: u8, shorten: fn(&mut Lent)) {
    let mut before = filled();
    shorten(&mut before);
    let mut lent = before.clone();
    assert_eq!(answer(&case_f(kind), &mut lent), 1);
    assert_eq!(lent, before);
}

/// Each of the work tables one short, and one empty.
const TABLES: [fn(&mut Lent); 4] = [
    |lent| lent.keys.truncate(2_047),
    |lent| lent.high.truncate(2_047),
    |lent| lent.low.truncate(2_047),
    |lent| lent.keys.clear(),
];

/// The run for the verdict of each kind one number short, and empty.
const VERDICTS: [(u8, fn(&mut Lent)); 8] = [
    (b'b', |lent| lent.verdict.truncate(6)),
    (b'c', |lent| lent.verdict.truncate(8)),
    (b'p', |lent| lent.verdict.truncate(12)),
    (b's', |lent| lent.verdict.truncate(4)),
    (b'd', |lent| lent.verdict.truncate(9)),
    (b'a', |lent| lent.verdict.truncate(5)),
    (b'n', |lent| lent.verdict.truncate(9)),
    (b'p', |lent| lent.verdict.clear()),
];

/// An output with the record of case F at its start.
fn written_to<const N: usize>(mut output: [u8; N]) -> [u8; N] {
    output[..32].fill(0);
    output[4..8].fill(255);
    for at in [8, 12, 16] {
        output[at] = 1;
    }
    output
}

/// The record of case F in 32 bytes and in more, and no byte written of fewer.
fn records() {
    let runs = case_f(b'p').runs;
    let mut output = [7; 35];
    assert_eq!(record([&runs[0], &runs[1], &runs[2]], &mut output), 0);
    assert_eq!(output, written_to([7; 35]));
    for length in [0, 31] {
        let mut output = [7; 35];
        assert_eq!(
            record([&runs[0], &runs[1], &runs[2]], &mut output[..length]),
            1
        );
        assert_eq!(output, [7; 35]);
    }
}

/// Reports on case F: its record is written and no byte past it; with a short table or output nothing is, and with a record
/// that is cut the tables alone.
fn reports() {
    let runs = case_f(b'p').runs;
    let lengths = runs[..3]
        .iter()
        .flat_map(|run| (run.len() as u16).to_le_bytes());
    let records: Vec<u8> = lengths.chain(runs.concat()).collect();
    let (before, mut lent) = (filled(), filled());
    let mut output = [7; 35];
    assert_eq!(report(&records, &mut output, &mut lent), 0);
    assert_eq!(output[..], written_to([7; 35]));
    assert_cleared(&lent, &before);
    let mut output = [7; 31];
    let mut lent = filled();
    assert_eq!(report(&records, &mut output, &mut lent), 1);
    assert!(output == [7; 31] && lent == before);
    let cut = &records[..records.len() - 1];
    assert_eq!(report(cut, &mut output, &mut lent), 12);
    assert!(output == [7; 31]);
    assert_cleared(&lent, &before);
    for shorten in TABLES {
        let mut before = filled();
        shorten(&mut before);
        let mut lent = before.clone();
        assert_eq!(report(cut, &mut output, &mut lent), 1);
        assert!(output == [7; 31] && lent == before);
    }
}

/// Ends with status 101 where a call does otherwise.
pub fn run() {
    for kind in *b"bcptsdan" {
        full(kind);
        for shorten in TABLES {
            shortened(kind, shorten);
        }
    }
    reports();
    records();
    let mut lent = filled();
    lent.low.truncate(2_047);
    let runs = case_f(b't').runs;
    let numbers = tighter([&runs[0], &runs[1], &runs[2]], &mut lent);
    assert_eq!(numbers, [1, 0, 0, 0]);
    let runs = case_f(b'd').runs;
    assert_eq!(sum(&runs, &mut lent), (1, [(0, 0); 2]));
    assert_eq!(sum(&runs, &mut filled()), (0, [(-2, 1), (2, 1)]));
    let runs = case_f(b'a').runs;
    let [problem, low, changes] = [&runs[0], &runs[1], &runs[2]];
    assert_eq!(moved_bound([problem, low, changes], &mut lent), (1, 0, 0));
    assert_eq!(
        moved_bound([problem, low, changes], &mut filled()),
        (0, -11, 1)
    );
    for (kind, shorten) in VERDICTS {
        shortened(kind, shorten);
    }
    shortened(b'b', |lent| lent.out.truncate(575));
    shortened(b's', |lent| lent.out.truncate(255));
    println!("refusal 1 for each short table and each short verdict of each call, and nothing written but the four numbers that tighter lends");
    println!("reports: refusal 1 for each short table, then 12, then 1 for the output, and no byte of it written");
    println!("records: 1 for fewer than 32 bytes, and no byte written of them nor past 32");
}
