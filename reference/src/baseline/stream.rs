//! What the two kinds of stream have in common: taking commands one by one.

use crate::monomial::{Monomial, VARIABLES};
use crate::refusal::{Refusal, CUT, MISPLACED};

/// A byte run with the place of the command that is being read.
pub struct Stream<'a> {
    bytes: &'a [u8],
    number: u8,
    place: usize,
    next: usize,
}

/// The operand bytes of one command, read from the front.
pub struct Operands<'a>(&'a [u8]);

impl<'a> Stream<'a> {
    /// A stream at its first byte; `number` is the stream field of its refusals.
    pub fn new(bytes: &'a [u8], number: u8) -> Self {
        Stream {
            bytes,
            number,
            place: 0,
            next: 0,
        }
    }

    /// The first byte of the next command. A stream without its end is refused at its length.
    pub fn command(&mut self) -> Result<u8, Refusal> {
        self.place = self.next;
        match self.bytes.get(self.place) {
            Some(&command) => Ok(command),
            None => Err(self.refuse(CUT)),
        }
    }

    /// Whether the command being read is the stream's first.
    pub fn at_first(&self) -> bool {
        self.place == 0
    }

    /// The offset of the first byte of the command being read.
    pub fn place(&self) -> usize {
        self.place
    }

    /// Takes `length` operand bytes; a command that the stream's end cuts is refused at its start.
    pub fn operands(&mut self, length: usize) -> Result<Operands<'a>, Refusal> {
        let start = self.place + 1;
        match self.bytes.get(start..start + length) {
            Some(operands) => {
                self.next = start + length;
                Ok(Operands(operands))
            }
            None => Err(self.refuse(CUT)),
        }
    }

    /// The end command: a byte after it is refused, at the first extra byte.
    pub fn end(&self) -> Result<(), Refusal> {
        if self.bytes.len() > self.place + 1 {
            return Err(Refusal::new(CUT, self.number, self.place + 1));
        }
        Ok(())
    }

    /// Refusal `number` at the command being read.
    pub fn refuse(&self, number: u8) -> Refusal {
        Refusal::new(number, self.number, self.place)
    }

    /// Refusal `number` at the command being read unless `rule` holds.
    pub fn require(&self, rule: bool, number: u8) -> Result<(), Refusal> {
        if rule {
            Ok(())
        } else {
            Err(self.refuse(number))
        }
    }

    /// The refusal of an unknown or misplaced command.
    pub fn misplaced(&self) -> Refusal {
        self.refuse(MISPLACED)
    }
}

impl Operands<'_> {
    fn take<const N: usize>(&mut self) -> [u8; N] {
        let (head, rest) = self.0.split_at(N);
        self.0 = rest;
        head.try_into().expect("the split has this length")
    }

    pub fn u8(&mut self) -> u8 {
        self.take::<1>()[0]
    }

    pub fn u16(&mut self) -> u16 {
        u16::from_le_bytes(self.take())
    }

    pub fn i16(&mut self) -> i16 {
        i16::from_le_bytes(self.take())
    }

    pub fn i32(&mut self) -> i32 {
        i32::from_le_bytes(self.take())
    }

    pub fn monomial(&mut self) -> Monomial {
        Monomial(self.take::<VARIABLES>())
    }
}
