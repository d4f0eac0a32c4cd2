//! "Two byte streams": what reading a problem and reading a certificate have in common.

use crate::monomial::{Monomial, VARIABLES};
use crate::refusal::{Refusal, COUNT, CUT, MISPLACED, OPERAND, REPEATED};

/// A kind of stream, with what has been read of one.
pub trait Reader {
    /// A command with its operands.
    type Command;
    /// The command that ends the stream.
    const END: u8;

    /// 3: whether this command is known and may stand here, after the command `before`.
    fn may_stand(&self, command: u8, before: Option<u8>) -> bool;
    /// The number of operand bytes of a command that is known.
    fn width(command: u8) -> usize;
    /// The command with its operands.
    fn parse(command: u8, operands: Operands) -> Self::Command;
    /// 4: whether every operand keeps its rule.
    fn keeps_rules(&self, command: &Self::Command) -> bool;
    /// 5: whether the command repeats a monomial, or its index does not rise.
    fn repeats(&self, command: &Self::Command) -> bool;
    /// 6: whether the command is one more than a count allows.
    fn one_too_many(&self, command: &Self::Command) -> bool;
    /// Takes a command that passed; `place` is the offset of its first byte.
    fn take(&mut self, command: Self::Command, place: usize);
}

/// Reads a stream "by commands, each checked 3, 2, 4, 5, 6".
pub fn read<R: Reader>(mut reader: R, bytes: &[u8], stream: u8) -> Result<R, Refusal> {
    let (mut place, mut before) = (0, None);
    loop {
        let unless = |holds: bool, number: u8| {
            let refusal = Refusal::new(number, stream, place);
            holds.then_some(()).ok_or(refusal)
        };
        unless(place < bytes.len(), CUT)?;
        let byte = bytes[place];
        unless(reader.may_stand(byte, before), MISPLACED)?;
        let next = place + 1 + R::width(byte);
        unless(next <= bytes.len(), CUT)?;
        let command = R::parse(byte, Operands(&bytes[place + 1..next]));
        unless(reader.keeps_rules(&command), OPERAND)?;
        unless(!reader.repeats(&command), REPEATED)?;
        unless(!reader.one_too_many(&command), COUNT)?;
        reader.take(command, place);
        (place, before) = (next, Some(byte));
        if byte == R::END {
            let extra = Refusal::new(CUT, stream, place);
            return (place == bytes.len()).then_some(reader).ok_or(extra);
        }
    }
}

/// The operand bytes of one command, taken from the front: "Operands are little-endian, signed ones
/// two's complement".
pub struct Operands<'a>(pub &'a [u8]);

impl Operands<'_> {
    fn take<const N: usize>(&mut self) -> [u8; N] {
        let (taken, rest) = self.0.split_at(N);
        self.0 = rest;
        taken.try_into().expect("so many were split off")
    }

    pub fn u8(&mut self) -> u8 {
        u8::from_le_bytes(self.take())
    }

    pub fn u16(&mut self) -> u16 {
        u16::from_le_bytes(self.take())
    }

    pub fn i16(&mut self) -> i16 {
        i16::from_le_bytes(self.take())
    }

    pub fn i32(&mut self) -> i32 {
        i32::from_le_bytes(self.take())
    }

    /// "E is 8 exponent bytes, for variables 1 to 8."
    pub fn monomial(&mut self) -> Monomial {
        Monomial(self.take::<VARIABLES>())
    }
}
