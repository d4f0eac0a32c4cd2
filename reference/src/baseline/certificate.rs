//! The certificate and its reader ("Certificate commands"), and the blocks of its rows.

use super::joining::Closure;
use super::problem::Problem;
use super::stream::Stream;
use crate::refusal::{Refusal, BLOCKS, COUNT, OPERAND, REPEATED};

/// Most rows of a certificate.
pub const ROWS: usize = 128;
/// The side of a lower bound.
pub const LOWER: u8 = 0;
/// The side of an upper bound.
pub const UPPER: u8 = 1;

/// An entry of a row: a factor on a basis index, and the place of its command.
pub struct Entry {
    index: u8,
    pub factor: i16,
    place: u32,
}

impl Entry {
    /// The index in the row's basis.
    pub fn index(&self) -> usize {
        usize::from(self.index)
    }
}

/// A row: a weighted square of its entries, which stand at `start..end` of all entries.
pub struct Row {
    pub basis: usize,
    pub weight: u16,
    start: usize,
    end: usize,
}

/// A certificate; reading another one reuses its room.
#[derive(Default)]
pub struct Certificate {
    pub side: u8,
    pub denominator: u16,
    pub p: i32,
    pub q: u16,
    pub rows: Vec<Row>,
    entries: Vec<Entry>,
}

impl Certificate {
    /// The entries of a row.
    pub fn entries(&self, row: &Row) -> &[Entry] {
        &self.entries[row.start..row.end]
    }

    /// Reads a certificate stream for a problem, "by commands likewise".
    pub fn read(&mut self, bytes: &[u8], number: u8, problem: &Problem) -> Result<(), Refusal> {
        self.rows.clear();
        self.entries.clear();
        let mut stream = Stream::new(bytes, number);
        loop {
            let command = stream.command()?;
            if (command == 0x10) != stream.at_first() {
                return Err(stream.misplaced());
            }
            match command {
                0x10 => self.read_bound(&mut stream)?,
                0x11 => self.read_row(&mut stream, problem)?,
                0x12 => self.read_entry(&mut stream, problem)?,
                0x13 => return stream.end(),
                _ => return Err(stream.misplaced()),
            }
        }
    }

    /// 10 side(u8) D(u16) p(i32) q(u16): D and q at least 1.
    fn read_bound(&mut self, stream: &mut Stream) -> Result<(), Refusal> {
        let mut operands = stream.operands(9)?;
        self.side = operands.u8();
        self.denominator = operands.u16();
        self.p = operands.i32();
        self.q = operands.u16();
        let rule = self.side <= UPPER && self.denominator >= 1 && self.q >= 1;
        stream.require(rule, OPERAND)
    }

    /// 11 j(u8) w(u16): begins a row on basis j with weight w at least 1.
    fn read_row(&mut self, stream: &mut Stream, problem: &Problem) -> Result<(), Refusal> {
        let mut operands = stream.operands(3)?;
        let basis = usize::from(operands.u8());
        let weight = operands.u16();
        let rule = basis <= problem.constraints() && weight >= 1;
        stream.require(rule, OPERAND)?;
        stream.require(self.rows.len() < ROWS, COUNT)?;
        let start = self.entries.len();
        self.rows.push(Row {
            basis,
            weight,
            start,
            end: start,
        });
        Ok(())
    }

    /// 12 i(u8) l(i16): entry of the row begun last; indices rise within a row.
    fn read_entry(&mut self, stream: &mut Stream, problem: &Problem) -> Result<(), Refusal> {
        let Some(row) = self.rows.last_mut() else {
            return Err(stream.misplaced());
        };
        let mut operands = stream.operands(3)?;
        let index = operands.u8();
        let factor = operands.i16();
        let rule = usize::from(index) < problem.bases[row.basis].len() && factor != 0;
        stream.require(rule, OPERAND)?;
        let last = self.entries[row.start..].last();
        stream.require(last.is_none_or(|last| last.index < index), REPEATED)?;
        self.entries.push(Entry {
            index,
            factor,
            place: stream.place() as u32,
        });
        row.end += 1;
        Ok(())
    }

    /// "All entries of a row are in one block", tried row by row.
    pub fn check_blocks(&self, number: u8, closure: &Closure) -> Result<(), Refusal> {
        for row in &self.rows {
            let entries = self.entries(row);
            let block = |entry: &Entry| closure.block(row.basis, entry.index());
            let outside = entries
                .iter()
                .find(|&entry| block(entry) != block(&entries[0]));
            if let Some(entry) = outside {
                return Err(Refusal::new(BLOCKS, number, entry.place as usize));
            }
        }
        Ok(())
    }
}
