//! Records: a kind byte, the lengths of the kind's byte runs, and the runs.

use std::fmt::Write as _;
use std::io::{self, BufReader, BufWriter, Read, Write};

use crate::refusal::Refusal;

/// Longest byte run of a record.
pub const RUN: usize = 65_536;
/// The kind bytes.
pub const BLOCKS: u8 = b'b';
pub const CHECK: u8 = b'c';
pub const PAIR: u8 = b'p';
/// Those of the requests: 11, 02, 01, 07, 14.
pub const WINDOW: u8 = b'w';
pub const TIGHTER: u8 = b't';
pub const SYMMETRIES: u8 = b's';
pub const REPORT: u8 = b'r';
pub const RECORD: u8 = b'x';
pub const SUM: u8 = b'd';
pub const ADJUSTED: u8 = b'a';
pub const OFFICE: u8 = b'n';

/// The number of runs of a kind: problem, first certificate and second certificate for the calls of
/// document 01 and of the requests 01 and 02, and then the output for that of request 14; these three
/// twice for request 12; problem, certificate and buffer for request 10. There is none for a byte that
/// is no kind.
pub fn run_count(kind: u8) -> Option<usize> {
    match kind {
        BLOCKS | CHECK | PAIR | WINDOW | TIGHTER | SYMMETRIES | REPORT | ADJUSTED | OFFICE => {
            Some(3)
        }
        RECORD => Some(4),
        SUM => Some(6),
        _ => None,
    }
}

/// One call with its byte runs.
#[derive(Clone, Debug, PartialEq, Eq)]
pub struct Record {
    pub kind: u8,
    pub runs: Vec<Vec<u8>>,
}

impl Record {
    /// A blocks call.
    pub fn blocks(problem: Vec<u8>) -> Self {
        Record {
            kind: BLOCKS,
            runs: vec![problem, Vec::new(), Vec::new()],
        }
    }

    /// A check.
    pub fn check(problem: Vec<u8>, certificate: Vec<u8>) -> Self {
        Record {
            kind: CHECK,
            runs: vec![problem, certificate, Vec::new()],
        }
    }

    /// A pair.
    pub fn pair(problem: Vec<u8>, first: Vec<u8>, second: Vec<u8>) -> Self {
        Record {
            kind: PAIR,
            runs: vec![problem, first, second],
        }
    }

    /// Two certificates of which the tighter one comes back.
    pub fn tighter(problem: Vec<u8>, first: Vec<u8>, second: Vec<u8>) -> Self {
        Record {
            kind: TIGHTER,
            runs: vec![problem, first, second],
        }
    }

    /// Two problems, each with a lower and an upper certificate, whose bounds are added.
    pub fn sum(first: [Vec<u8>; 3], second: [Vec<u8>; 3]) -> Self {
        Record {
            kind: SUM,
            runs: [first, second].concat(),
        }
    }

    /// A certificate that may have notes, and the buffer for them.
    pub fn office(problem: Vec<u8>, certificate: Vec<u8>, buffer: Vec<u8>) -> Self {
        Record {
            kind: OFFICE,
            runs: vec![problem, certificate, buffer],
        }
    }

    /// Arrivals at the window of gaps: 16 bytes each, numerator and denominator.
    pub fn window(arrivals: &[(i64, u64)]) -> Self {
        let bytes = |&(a, b): &(i64, u64)| [a.to_le_bytes(), b.to_le_bytes()].concat();
        Record {
            kind: WINDOW,
            runs: vec![
                arrivals.iter().flat_map(bytes).collect(),
                Vec::new(),
                Vec::new(),
            ],
        }
    }

    /// A symmetries call.
    pub fn symmetries(problem: Vec<u8>) -> Self {
        Record {
            kind: SYMMETRIES,
            ..Record::blocks(problem)
        }
    }

    /// Writes the record.
    pub fn write(&self, out: &mut impl Write) -> io::Result<()> {
        out.write_all(&[self.kind])?;
        for run in &self.runs {
            out.write_all(&(run.len() as u32).to_le_bytes())?;
        }
        self.runs.iter().try_for_each(|run| out.write_all(run))
    }
}

/// The records that are read; they end before one that is cut, too long or of unknown kind.
pub struct Records<R>(pub R);

impl<R: Read> Iterator for Records<R> {
    type Item = Record;

    fn next(&mut self) -> Option<Record> {
        let [kind] = self.take()?;
        let lengths = (0..run_count(kind)?).map(|_| self.take().map(u32::from_le_bytes));
        let lengths: Vec<u32> = lengths.collect::<Option<_>>()?;
        let runs = lengths.into_iter().map(|length| self.run(length as usize));
        let runs = runs.collect::<Option<_>>()?;
        Some(Record { kind, runs })
    }
}

impl<R: Read> Records<R> {
    fn take<const N: usize>(&mut self) -> Option<[u8; N]> {
        let mut bytes = [0; N];
        self.0.read_exact(&mut bytes).ok()?;
        Some(bytes)
    }

    fn run(&mut self, length: usize) -> Option<Vec<u8>> {
        if length > RUN {
            return None;
        }
        let mut run = vec![0; length];
        self.0.read_exact(&mut run).ok()?;
        Some(run)
    }
}

/// The records of the standard input.
pub fn input() -> impl Iterator<Item = Record> {
    Records(BufReader::with_capacity(1 << 16, io::stdin().lock()))
}

/// Answers the records of the standard input, a line for each: what `answer` says, or its refusal.
pub fn replay(mut answer: impl FnMut(&Record) -> Result<String, Refusal>) -> io::Result<()> {
    let mut out = BufWriter::with_capacity(1 << 16, io::stdout().lock());
    for record in input() {
        match answer(&record) {
            Ok(line) => writeln!(out, "{line}")?,
            Err(refusal) => writeln!(out, "{refusal}")?,
        }
    }
    out.flush()
}

/// Writes records to the standard output.
pub fn write_all(records: impl IntoIterator<Item = Record>) -> io::Result<()> {
    let mut out = BufWriter::with_capacity(1 << 16, io::stdout().lock());
    for record in records {
        record.write(&mut out)?;
    }
    out.flush()
}

/// Bytes as lower-case hexadecimal digits, two for each.
pub fn hexadecimal(bytes: &[u8]) -> String {
    let mut digits = String::new();
    for byte in bytes {
        write!(digits, "{byte:02x}").expect("a string takes all");
    }
    digits
}
