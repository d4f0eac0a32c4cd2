//! Runs the proved calls from outside: `bench numbers`, `bench time`, `bench once` and `bench stack` on the records of the
//! standard input, `bench week` on pairs, by themselves and in reports, and `bench short` with tables that are too short.

mod calls;
mod short;
mod stack;
mod time;

fn main() {
    let command = std::env::args().nth(1);
    match command.as_deref() {
        Some("numbers") => numbers(),
        Some("time") => time::run(),
        Some("once") => time::once(),
        Some("week") => time::week(),
        Some("stack") => stack::run(),
        Some("short") => short::run(),
        _ => {
            eprintln!("usage: bench numbers | time | once | week | stack | short");
            std::process::exit(2);
        }
    }
}

/// Prints the number of each record's refusal, or 0. What is lent is allocated anew for each, no longer than asked, so that a
/// memory checker sees any step outside.
fn numbers() {
    for record in calls::records() {
        let mut lent = calls::Lent::new(record.kind);
        println!("{}", calls::answer(&record, &mut lent));
    }
}
