//! The rules of document 01 and of the requests of document 02, plainly: from their words alone and
//! in their order, with exponents as they are sent, sets, graph search and exact whole numbers, and
//! nothing for speed.
//!
//! The answers of this version are those that the proved calls are held to. It shares no code with
//! the baseline but monomials and the four fields of a refusal.

mod accepting;
mod adjusting;
mod calls;
mod certificate;
mod joining;
mod lines;
mod office;
mod polynomial;
mod problem;
mod report;
mod stream;
mod sum;
mod superseding;
mod symmetries;
#[cfg(test)]
mod tests;
mod window;

pub use calls::{blocks, pair};

use crate::records::{
    hexadecimal, Record, ADJUSTED, BLOCKS, CHECK, OFFICE, PAIR, RECORD, REPORT, SUM, SYMMETRIES,
    TIGHTER, WINDOW,
};
use crate::refusal::Refusal;

/// What a record asks for: the line that answers it, or its refusal.
pub fn answer(record: &Record) -> Result<String, Refusal> {
    let run = |place: usize| record.runs[place].as_slice();
    match record.kind {
        BLOCKS => blocks(run(0)).map(|verdict| verdict.to_string()),
        CHECK => calls::check(run(0), run(1)).map(|verdict| verdict.to_string()),
        PAIR => pair(run(0), run(1), run(2)).map(|verdict| verdict.to_string()),
        WINDOW => Ok(window::window(run(0))),
        TIGHTER => superseding::tighter(run(0), run(1), run(2))
            .map(|bytes| format!("tighter {}", hexadecimal(bytes))),
        SYMMETRIES => symmetries::symmetries(run(0)).map(|verdict| verdict.to_string()),
        REPORT => report::report(run(0), run(1)).map(|report| report.to_string()),
        RECORD => {
            let (number, output) = report::record_for_c([run(0), run(1), run(2)], run(3));
            Ok(format!("record {number} {}", hexadecimal(&output)))
        }
        SUM => sum::sum([0, 1, 2, 3, 4, 5].map(run)).map(|sum| sum.to_string()),
        ADJUSTED => {
            adjusting::adjusted(run(0), run(1), run(2)).map(|bound| format!("adjusted {bound}"))
        }
        OFFICE => office::office(run(0), run(1), run(2)).map(|verdict| verdict.to_string()),
        other => unreachable!("no record has the kind {other}"),
    }
}

/// The line that answers a record.
pub fn line(record: &Record) -> String {
    answer(record).unwrap_or_else(|refusal| refusal.to_string())
}
