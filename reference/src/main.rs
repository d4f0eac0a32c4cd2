//! A second exact implementation of the rules of document 01, plain and slow, set against the proved
//! one; a fast one as a baseline for speed; and a generator of cases for both.

mod baseline;
mod generate;
mod monomial;
mod plain;
mod records;
mod refusal;
mod vectors;

use std::io;
use std::path::Path;
use std::process::ExitCode;

const USAGE: &str = "usage: reference replay | baseline | generate KINDS SEED COUNT | corpus KINDS
                 | changes NAME | refusals | folders DIR | vectors DIR
                 | workload NAME | search SECONDS SEED | time";

fn main() -> ExitCode {
    let arguments: Vec<String> = std::env::args().skip(1).collect();
    let arguments: Vec<&str> = arguments.iter().map(String::as_str).collect();
    match run(&arguments) {
        Ok(code) => code,
        Err(error) if error.kind() == io::ErrorKind::BrokenPipe => ExitCode::SUCCESS,
        Err(error) => {
            eprintln!("reference: {error}");
            ExitCode::FAILURE
        }
    }
}

fn run(arguments: &[&str]) -> io::Result<ExitCode> {
    match arguments {
        ["replay"] => records::replay(plain::answer)?,
        ["baseline"] => {
            let mut checker = baseline::Checker::default();
            records::replay(|record| checker.answer(record))?;
        }
        ["generate", kinds, seed, count] if generate::are_kinds(kinds) => {
            let (Ok(seed), Ok(count)) = (seed.parse(), count.parse()) else {
                return Ok(usage());
            };
            records::write_all(generate::generate(kinds, seed, count))?;
        }
        ["corpus", kinds] if generate::are_kinds(kinds) => {
            records::write_all(generate::corpus(kinds))?;
        }
        ["changes", name] => match generate::neighbours(name) {
            Some(records) => records::write_all(records)?,
            None => return Ok(usage()),
        },
        ["workload", name] => match generate::workload(name) {
            Some(records) => records::write_all(records)?,
            None => return Ok(usage()),
        },
        ["vectors", directory] => {
            if !vectors::run(Path::new(directory))? {
                return Ok(ExitCode::FAILURE);
            }
        }
        ["folders", directory] => vectors::write(Path::new(directory))?,
        ["refusals"] => generate::refusals::print(),
        ["search", seconds, seed] => {
            let (Ok(seconds), Ok(seed)) = (seconds.parse(), seed.parse()) else {
                return Ok(usage());
            };
            generate::search(seconds, seed);
        }
        ["time"] => baseline::timing::run(),
        _ => return Ok(usage()),
    }
    Ok(ExitCode::SUCCESS)
}

fn usage() -> ExitCode {
    eprintln!("{USAGE}");
    ExitCode::from(2)
}
