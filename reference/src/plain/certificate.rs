//! "Certificate commands": the certificate and its reader.

use super::problem::{Kind, Problem};
use super::stream::{read, Operands, Reader};
use crate::refusal::Refusal;

/// "side 0 lower, 1 upper"
pub const LOWER: u8 = 0;
pub const UPPER: u8 = 1;

/// A certificate.
#[derive(Default)]
pub struct Certificate {
    pub side: u8,
    pub d: u16,
    pub p: i32,
    pub q: u16,
    pub rows: Vec<Row>,
}

/// A row on a basis.
pub struct Row {
    pub basis: usize,
    pub weight: i32,
    pub entries: Vec<Entry>,
}

/// A factor on a basis index, and the place of its command.
pub struct Entry {
    pub index: usize,
    pub factor: i32,
    pub place: usize,
}

impl Certificate {
    /// Reads a certificate stream for a problem; `stream` is the number of its refusals.
    pub fn read(bytes: &[u8], stream: u8, problem: &Problem) -> Result<Certificate, Refusal> {
        let certificate = Certificate::default();
        let nothing = Reading {
            problem,
            certificate,
        };
        read(nothing, bytes, stream).map(|all| all.certificate)
    }

    /// Begins a row on basis j.
    fn begin(&mut self, j: u8, weight: i32) {
        self.rows.push(Row {
            basis: usize::from(j),
            weight,
            entries: Vec::new(),
        });
    }

    /// Puts an entry in the row begun last.
    fn enter(&mut self, i: u8, factor: i32, place: usize) {
        let last = self.rows.last_mut();
        let last = last.expect("an entry before any row is misplaced");
        last.entries.push(Entry {
            index: usize::from(i),
            factor,
            place,
        });
    }
}

/// The length of a command with its first byte; none where it is unknown in a certificate.
pub fn length(command: u8) -> Option<usize> {
    let known = (0x10..=0x15).contains(&command);
    known.then(|| 1 + Reading::width(command))
}

/// What has been read of a certificate for a problem.
struct Reading<'a> {
    problem: &'a Problem,
    certificate: Certificate,
}

impl Reading<'_> {
    /// Whether the basis of the row begun last has this index.
    fn has(&self, index: u8) -> bool {
        usize::from(index) < self.problem.bases[self.last().basis].len()
    }

    /// The row begun last.
    fn last(&self) -> &Row {
        let last = self.certificate.rows.last();
        last.expect("an entry before any row is misplaced")
    }
}

/// The certificate commands with their operands.
enum Command {
    /// 10 side(u8) D(u16) p(i32) q(u16)
    Bound { side: u8, d: u16, p: i32, q: u16 },
    /// 11 j(u8) w(u16)
    Row { j: u8, w: u16 },
    /// 12 i(u8) l(i16)
    Entry { i: u8, l: i16 },
    /// 13
    End,
    /// 14 j(u8) w(i16)
    EqualityRow { j: u8, w: i16 },
    /// 15 i(u8) l(i32)
    WideEntry { i: u8, l: i32 },
}

impl Reader for Reading<'_> {
    type Command = Command;
    const END: u8 = 0x13;

    fn may_stand(&self, command: u8, before: Option<u8>) -> bool {
        match command {
            // "First, and only first."
            0x10 => before.is_none(),
            // ".. and a 12 before any row, is misplaced."; "a 15 before any row is misplaced"
            0x12 | 0x15 => before.is_some() && !self.certificate.rows.is_empty(),
            0x11 | 0x13 | 0x14 => before.is_some(),
            _ => false,
        }
    }

    fn width(command: u8) -> usize {
        match command {
            0x10 => 1 + 2 + 4 + 2,
            0x11 => 1 + 2,
            0x12 => 1 + 2,
            0x14 => 1 + 2,
            0x15 => 1 + 4,
            _ => 0,
        }
    }

    fn parse(command: u8, mut operands: Operands) -> Command {
        match command {
            0x10 => Command::Bound {
                side: operands.u8(),
                d: operands.u16(),
                p: operands.i32(),
                q: operands.u16(),
            },
            0x11 => Command::Row {
                j: operands.u8(),
                w: operands.u16(),
            },
            0x12 => Command::Entry {
                i: operands.u8(),
                l: operands.i16(),
            },
            0x14 => Command::EqualityRow {
                j: operands.u8(),
                w: operands.i16(),
            },
            0x15 => Command::WideEntry {
                i: operands.u8(),
                l: operands.i32(),
            },
            _ => Command::End,
        }
    }

    fn keeps_rules(&self, command: &Command) -> bool {
        match *command {
            // "side 0 lower, 1 upper; D and q at least 1"
            Command::Bound { side, d, q, .. } => side <= UPPER && d >= 1 && q >= 1,
            // "on basis j, 0 or a constraint of the problem, with weight w at least 1"; "11 on an
            // equality .. breaks an operand rule"
            Command::Row { j, w } => {
                (j == 0 || self.problem.has(usize::from(j), Kind::Inequality)) && w >= 1
            }
            // "begins a row on an equality, with w negative or positive, never 0"; "14 on another
            // basis, breaks an operand rule"
            Command::EqualityRow { j, w } => {
                self.problem.has(usize::from(j), Kind::Equality) && w != 0
            }
            // "less than the basis's length"; "Coefficients and factors are never 0."
            Command::Entry { i, l } => self.has(i) && l != 0,
            Command::WideEntry { i, l } => self.has(i) && l != 0,
            Command::End => true,
        }
    }

    /// "Indices rise within a row."; "both kinds may stand in one row and share the rising indices"
    fn repeats(&self, command: &Command) -> bool {
        match *command {
            Command::Entry { i, .. } | Command::WideEntry { i, .. } => {
                let before = self.last().entries.last();
                before.is_some_and(|before| before.index >= usize::from(i))
            }
            _ => false,
        }
    }

    /// "at most 128 rows"; "counted among the 128"
    fn one_too_many(&self, command: &Command) -> bool {
        let begins = matches!(command, Command::Row { .. } | Command::EqualityRow { .. });
        begins && self.certificate.rows.len() == 128
    }

    fn take(&mut self, command: Command, place: usize) {
        let certificate = &mut self.certificate;
        match command {
            Command::Bound { side, d, p, q } => {
                let rows = Vec::new();
                *certificate = Certificate {
                    side,
                    d,
                    p,
                    q,
                    rows,
                };
            }
            Command::Row { j, w } => certificate.begin(j, w.into()),
            Command::EqualityRow { j, w } => certificate.begin(j, w.into()),
            Command::Entry { i, l } => certificate.enter(i, l.into(), place),
            Command::WideEntry { i, l } => certificate.enter(i, l, place),
            Command::End => {}
        }
    }
}
