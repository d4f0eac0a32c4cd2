//! The problem and its reader ("Problem commands").

use super::stream::{Operands, Stream};
use crate::refusal::{Refusal, COUNT, OPERAND, PROBLEM, REPEATED};

/// Most constraints of a problem.
pub const CONSTRAINTS: usize = 8;
/// Basis 0 and one basis for each constraint.
pub const BASES: usize = CONSTRAINTS + 1;
/// Most monomials of a basis.
pub const BASIS: usize = 64;
/// Most objective terms.
pub const OBJECTIVE_TERMS: usize = 256;
/// Most terms of a constraint.
pub const CONSTRAINT_TERMS: usize = 32;
/// Largest total degree of an objective term, a constraint term and a basis monomial.
pub const OBJECTIVE_DEGREE: u32 = 32;
pub const CONSTRAINT_DEGREE: u32 = 16;
pub const BASIS_DEGREE: u32 = 8;

/// A polynomial: the keys of its monomials in the order sent, and their coefficients.
#[derive(Default)]
pub struct Polynomial {
    pub support: Vec<u64>,
    pub coefficients: Vec<i32>,
}

impl Polynomial {
    fn clear(&mut self) {
        self.support.clear();
        self.coefficients.clear();
    }

    fn push(&mut self, key: u64, coefficient: i32) {
        self.support.push(key);
        self.coefficients.push(coefficient);
    }
}

/// A problem; reading another one reuses its room.
pub struct Problem {
    variables: usize,
    constraints: usize,
    pub objective: Polynomial,
    /// g_0 = 1 and g_j, constraint j.
    pub multipliers: [Polynomial; BASES],
    /// The keys of basis j.
    pub bases: [Vec<u64>; BASES],
}

impl Default for Problem {
    fn default() -> Self {
        let mut problem = Problem {
            variables: 0,
            constraints: 0,
            objective: Polynomial::default(),
            multipliers: Default::default(),
            bases: Default::default(),
        };
        problem.multipliers[0].push(0, 1);
        problem
    }
}

impl Problem {
    /// The number of constraints begun.
    pub fn constraints(&self) -> usize {
        self.constraints
    }

    /// The bases in use: 0 and those of the constraints.
    pub fn in_use(&self) -> std::ops::RangeInclusive<usize> {
        0..=self.constraints
    }

    /// Reads a problem stream, "by commands, each checked 3, 2, 4, 5, 6".
    pub fn read(&mut self, bytes: &[u8]) -> Result<(), Refusal> {
        self.clear();
        let mut stream = Stream::new(bytes, PROBLEM);
        loop {
            let command = stream.command()?;
            if (command == 0x01) != stream.at_first() {
                return Err(stream.misplaced());
            }
            match command {
                0x01 => self.read_variables(&mut stream)?,
                0x02 => self.read_objective_term(&mut stream)?,
                0x03 => self.read_constraint(&mut stream)?,
                0x04 => self.read_constraint_term(&mut stream)?,
                0x05 => self.read_basis_monomial(&mut stream)?,
                0x06 => return stream.end(),
                _ => return Err(stream.misplaced()),
            }
        }
    }

    fn clear(&mut self) {
        self.objective.clear();
        for constraint in &mut self.multipliers[1..] {
            constraint.clear();
        }
        for basis in &mut self.bases {
            basis.clear();
        }
        self.variables = 0;
        self.constraints = 0;
    }

    /// 01 n(u8): number of variables, 1 to 8.
    fn read_variables(&mut self, stream: &mut Stream) -> Result<(), Refusal> {
        let count = stream.operands(1)?.u8();
        stream.require((1..=8).contains(&count), OPERAND)?;
        self.variables = usize::from(count);
        Ok(())
    }

    /// 02 E c(i32): objective term.
    fn read_objective_term(&mut self, stream: &mut Stream) -> Result<(), Refusal> {
        let mut operands = stream.operands(12)?;
        let key = self.read_key(stream, &mut operands, OBJECTIVE_DEGREE)?;
        let coefficient = operands.i32();
        stream.require(coefficient != 0, OPERAND)?;
        let objective = &mut self.objective;
        check_room(stream, &objective.support, key, OBJECTIVE_TERMS)?;
        objective.push(key, coefficient);
        Ok(())
    }

    /// 03: begins the next constraint.
    fn read_constraint(&mut self, stream: &mut Stream) -> Result<(), Refusal> {
        stream.operands(0)?;
        stream.require(self.constraints < CONSTRAINTS, COUNT)?;
        self.constraints += 1;
        Ok(())
    }

    /// 04 E c(i16): term of the constraint begun last.
    fn read_constraint_term(&mut self, stream: &mut Stream) -> Result<(), Refusal> {
        if self.constraints == 0 {
            return Err(stream.misplaced());
        }
        let mut operands = stream.operands(10)?;
        let key = self.read_key(stream, &mut operands, CONSTRAINT_DEGREE)?;
        let coefficient = i32::from(operands.i16());
        stream.require(coefficient != 0, OPERAND)?;
        let constraint = &mut self.multipliers[self.constraints];
        check_room(stream, &constraint.support, key, CONSTRAINT_TERMS)?;
        constraint.push(key, coefficient);
        Ok(())
    }

    /// 05 j(u8) E: next monomial of basis j.
    fn read_basis_monomial(&mut self, stream: &mut Stream) -> Result<(), Refusal> {
        let mut operands = stream.operands(9)?;
        let basis = usize::from(operands.u8());
        stream.require(basis <= self.constraints, OPERAND)?;
        let key = self.read_key(stream, &mut operands, BASIS_DEGREE)?;
        let basis = &mut self.bases[basis];
        check_room(stream, basis, key, BASIS)?;
        basis.push(key);
        Ok(())
    }

    /// The key of a monomial of at most `degree`, in the problem's variables.
    fn read_key(
        &self,
        stream: &Stream,
        operands: &mut Operands,
        degree: u32,
    ) -> Result<u64, Refusal> {
        let monomial = operands.monomial();
        let rule = monomial.degree() <= degree && monomial.within(self.variables);
        stream.require(rule, OPERAND)?;
        Ok(monomial.key())
    }
}

/// "A polynomial or a basis has no monomial twice", and then its count.
fn check_room(stream: &Stream, keys: &[u64], key: u64, most: usize) -> Result<(), Refusal> {
    stream.require(!keys.contains(&key), REPEATED)?;
    stream.require(keys.len() < most, COUNT)
}
