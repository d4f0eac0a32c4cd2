//! Stored cases: folders with the three streams and the answers expected of them.

use std::fs;
use std::io;
use std::path::{Path, PathBuf};

use crate::plain;
use crate::records::{hexadecimal, input, PAIR, RUN};

/// The names of the three streams of a stored case.
const STREAMS: [&str; 3] = ["problem.bin", "low.bin", "high.bin"];

/// Runs every folder below `directory`; tells how many agree and whether all do.
pub fn run(directory: &Path) -> io::Result<bool> {
    let mut folders: Vec<PathBuf> = fs::read_dir(directory)?
        .map(|entry| entry.map(|entry| entry.path()))
        .collect::<io::Result<_>>()?;
    folders.retain(|folder| folder.is_dir());
    folders.sort();
    let mut agree = 0;
    for folder in &folders {
        match difference(folder)? {
            None => agree += 1,
            Some(file) => println!("{}: {file} differs", folder.display()),
        }
    }
    println!("{agree} of {} agree", folders.len());
    Ok(agree == folders.len())
}

/// Writes each pair of the standard input as a stored case, in the folders 1, 2 and so on of
/// `directory`.
pub fn write(directory: &Path) -> io::Result<()> {
    let pairs = input().filter(|record| record.kind == PAIR);
    for (place, record) in pairs.enumerate() {
        let folder = directory.join((place + 1).to_string());
        fs::create_dir_all(&folder)?;
        let [problem, low, high] = [0, 1, 2].map(|place| record.runs[place].as_slice());
        let expected = gapcheck(problem, low, high);
        for (name, bytes) in STREAMS.iter().zip(&record.runs) {
            fs::write(folder.join(name), bytes)?;
        }
        fs::write(folder.join("expected"), expected)?;
    }
    Ok(())
}

/// The first file of a folder that differs from the answer.
fn difference(folder: &Path) -> io::Result<Option<&'static str>> {
    let [problem, low, high] = STREAMS.map(|name| folder.join(name));
    let (problem, low, high) = (stream(&problem)?, stream(&low)?, stream(&high)?);
    let answers = [
        ("expected", gapcheck(&problem, &low, &high)),
        ("blocks.txt", blocks(&problem)),
    ];
    for (name, answer) in answers {
        match fs::read(folder.join(name)) {
            Ok(stored) if stored == answer.as_bytes() => {}
            Err(error) if error.kind() == io::ErrorKind::NotFound && name != "expected" => {}
            Ok(_) => return Ok(Some(name)),
            Err(error) => return Err(error),
        }
    }
    Ok(None)
}

/// "Each to at most 65,536 bytes; a missing file is an empty stream."
fn stream(path: &Path) -> io::Result<Vec<u8>> {
    let mut bytes = match fs::read(path) {
        Err(error) if error.kind() == io::ErrorKind::NotFound => Vec::new(),
        other => other?,
    };
    bytes.truncate(RUN);
    Ok(bytes)
}

/// The output of gapcheck.
fn gapcheck(problem: &[u8], low: &[u8], high: &[u8]) -> String {
    match plain::pair(problem, low, high) {
        Ok(pair) => format!(
            "lower {}\nupper {}\ngap {}\nrounds {}\n",
            pair.lower,
            pair.upper,
            pair.gap_text(),
            pair.rounds
        ),
        Err(refusal) => format!("{refusal}\n"),
    }
}

/// The blocks call as the stored cases tell it.
fn blocks(problem: &[u8]) -> String {
    match plain::blocks(problem) {
        Ok(blocks) => format!(
            "blocks {}\nrounds {}\n{}\n",
            blocks.count,
            blocks.rounds,
            hexadecimal(&blocks.bytes)
        ),
        Err(refusal) => format!("{refusal}\n"),
    }
}
