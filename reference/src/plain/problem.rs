//! "Problem commands": the problem and its reader.

use super::polynomial::Polynomial;
use super::stream::{read, Operands, Reader};
use crate::monomial::Monomial;
use crate::refusal::{Refusal, PROBLEM};

/// Monomials with their coefficients, in the order sent.
pub type Terms = Vec<(Monomial, i32)>;

/// "Command 07 begins an equality, numbered together with the constraints" (Req 04).
#[derive(Clone, Copy, Debug, PartialEq, Eq)]
pub enum Kind {
    /// Begun by 03: at least 0.
    Inequality,
    /// Begun by 07: exactly 0.
    Equality,
}

/// A condition on points: a constraint or an equality.
pub struct Condition {
    pub kind: Kind,
    pub terms: Terms,
}

/// A problem.
#[derive(Default)]
pub struct Problem {
    /// The number of variables, n.
    pub variables: usize,
    /// The joining rule, 1 or 2: "absent means 1" (Req 08).
    pub rule: u8,
    /// The sparse order k, which "ends the rounds after k": "Leaving it out keeps full closure" (Req 09).
    pub order: Option<usize>,
    pub objective: Terms,
    /// Condition j at place j - 1: "Constraints are numbered from 1."
    pub conditions: Vec<Condition>,
    /// Basis 0 and the basis of each condition.
    pub bases: Vec<Vec<Monomial>>,
}

impl Problem {
    /// Reads a problem stream.
    pub fn read(bytes: &[u8]) -> Result<Problem, Refusal> {
        let nothing = Problem {
            rule: 1,
            bases: vec![Vec::new()],
            ..Problem::default()
        };
        read(nothing, bytes, PROBLEM)
    }

    /// "g_0 = 1 and g_j is constraint j"; "the identity treat[s] an equality as a constraint".
    pub fn multiplier(&self, j: usize) -> Polynomial {
        match j {
            0 => Polynomial::constant(1),
            _ => Polynomial::of(&self.conditions[j - 1].terms),
        }
    }

    /// The exponents t of g_j.
    pub fn exponents(&self, j: usize) -> Vec<Monomial> {
        match j {
            0 => vec![Monomial::ONE],
            _ => monomials(&self.conditions[j - 1].terms).collect(),
        }
    }

    /// Begins the next condition, with its basis.
    fn begin(&mut self, kind: Kind) {
        let terms = Vec::new();
        self.conditions.push(Condition { kind, terms });
        self.bases.push(Vec::new());
    }

    /// The condition begun last.
    fn last(&self) -> Option<&Condition> {
        self.conditions.last()
    }

    /// Whether j is the number of a condition of this kind.
    pub fn has(&self, j: usize, kind: Kind) -> bool {
        (1..=self.conditions.len()).contains(&j) && self.conditions[j - 1].kind == kind
    }

    /// "Exponents of variables above n are 0", and a total degree of at most `degree`.
    pub fn allows(&self, monomial: &Monomial, degree: u32) -> bool {
        monomial.within(self.variables) && monomial.degree() <= degree
    }
}

/// The monomials of a polynomial, in the order sent.
pub fn monomials(terms: &Terms) -> impl Iterator<Item = Monomial> + '_ {
    terms.iter().map(|&(monomial, _)| monomial)
}

/// Whether a polynomial has the monomial.
fn has(terms: &Terms, monomial: &Monomial) -> bool {
    monomials(terms).any(|other| other == *monomial)
}

/// The problem commands with their operands.
pub enum Command {
    /// 01 n(u8)
    Variables(u8),
    /// 02 E c(i32)
    ObjectiveTerm(Monomial, i32),
    /// 03
    Constraint,
    /// 04 E c(i16)
    ConstraintTerm(Monomial, i16),
    /// 05 j(u8) E
    BasisMonomial(u8, Monomial),
    /// 06
    End,
    /// 07
    Equality,
    /// 08 rule(u8)
    Rule(u8),
    /// 09 k(u8)
    Order(u8),
}

use Command::*;

impl Reader for Problem {
    type Command = Command;
    const END: u8 = 0x06;

    fn may_stand(&self, command: u8, before: Option<u8>) -> bool {
        match command {
            // "First, and only first."
            0x01 => before.is_none(),
            // "04, which from now on needs a 03 or 07 before it"
            0x04 => before.is_some() && !self.conditions.is_empty(),
            0x02 | 0x03 | 0x05 | 0x06 | 0x07 => before.is_some(),
            // "stands directly after 01 and only there"
            0x08 => before == Some(0x01),
            // "stands directly after 01 or 08"
            0x09 => [Some(0x01), Some(0x08)].contains(&before),
            _ => false,
        }
    }

    fn width(command: u8) -> usize {
        match command {
            0x01 => 1,
            0x02 => 8 + 4,
            0x04 => 8 + 2,
            0x05 => 1 + 8,
            0x08 => 1,
            0x09 => 1,
            _ => 0,
        }
    }

    fn parse(command: u8, mut operands: Operands) -> Command {
        match command {
            0x01 => Variables(operands.u8()),
            0x02 => ObjectiveTerm(operands.monomial(), operands.i32()),
            0x03 => Constraint,
            0x04 => ConstraintTerm(operands.monomial(), operands.i16()),
            0x05 => BasisMonomial(operands.u8(), operands.monomial()),
            0x07 => Equality,
            0x08 => Rule(operands.u8()),
            0x09 => Order(operands.u8()),
            _ => End,
        }
    }

    fn keeps_rules(&self, command: &Command) -> bool {
        match command {
            // "number of variables, 1 to 8"
            Variables(n) => (1..=8).contains(n),
            // "total degree at most 32"; "Coefficients and factors are never 0."
            ObjectiveTerm(monomial, c) => self.allows(monomial, 32) && *c != 0,
            // "degree at most 16"
            ConstraintTerm(monomial, c) => self.allows(monomial, 16) && *c != 0,
            // "degree at most 8"; "j is 0 or a constraint already begun."
            BasisMonomial(j, monomial) => {
                usize::from(*j) <= self.conditions.len() && self.allows(monomial, 8)
            }
            // "value 1 or 2"
            Rule(rule) => (1..=2).contains(rule),
            // "from 1 to 255"
            Order(k) => *k >= 1,
            Constraint | Equality | End => true,
        }
    }

    /// "A polynomial or a basis has no monomial twice."
    fn repeats(&self, command: &Command) -> bool {
        match command {
            ObjectiveTerm(monomial, _) => has(&self.objective, monomial),
            ConstraintTerm(monomial, _) => self.last().is_some_and(|g| has(&g.terms, monomial)),
            BasisMonomial(j, monomial) => self.bases[usize::from(*j)].contains(monomial),
            Variables(_) | Constraint | Equality | Rule(_) | Order(_) | End => false,
        }
    }

    fn one_too_many(&self, command: &Command) -> bool {
        match command {
            // "at most 256"
            ObjectiveTerm(..) => self.objective.len() == 256,
            // "begins the next constraint, at most 8"; "counted among the 8"
            Constraint | Equality => self.conditions.len() == 8,
            // "at most 32 each"
            ConstraintTerm(..) => self.last().is_some_and(|g| g.terms.len() == 32),
            // "at most 64 each"
            BasisMonomial(j, _) => self.bases[usize::from(*j)].len() == 64,
            Variables(_) | Rule(_) | Order(_) | End => false,
        }
    }

    fn take(&mut self, command: Command, _place: usize) {
        match command {
            Variables(n) => self.variables = usize::from(n),
            Rule(rule) => self.rule = rule,
            Order(k) => self.order = Some(usize::from(k)),
            ObjectiveTerm(monomial, c) => self.objective.push((monomial, c)),
            Constraint => self.begin(Kind::Inequality),
            Equality => self.begin(Kind::Equality),
            ConstraintTerm(monomial, c) => {
                let last = self.conditions.last_mut();
                let last = last.expect("a 04 before any 03 or 07 is misplaced");
                last.terms.push((monomial, i32::from(c)));
            }
            BasisMonomial(j, monomial) => self.bases[usize::from(j)].push(monomial),
            End => {}
        }
    }
}
