//! The table of refusals as a page of markdown.

use super::regions::{Added, ADDED};
use super::symmetries::{Symmetric, SYMMETRIC};
use super::windows::{Arrivals, CASES};
use super::{
    cases, equalities, gaps, joining_rules, notes, regions, sparse_orders, Accepted, Case,
};
use crate::generate::corpus;
use crate::plain;
use crate::records::Record;

const HEAD: &str = "# Refusals

Every way to be refused, by number and stream, each with the words that it comes from: those of the scope (document 01) or, \
after its number, of a request (document 02). \
The answers were found by hand from those words and stand beside the cases in `reference/src/generate/refusals`; a test \
there holds the reference to them. Each case is in the stored corpus `crates/replay/stdin`, where the proved calls \
meet it; the last column gives, for each kind of call that meets it (`b` blocks, `c` check, `p` pair, `s` symmetries, `t` the \
tighter of two certificates, `w` arrivals at the window of gaps, `r` report, `x` record for a C program, `d` two problems with a pair for each, `a` changes of the objective, `n` the office's check), the number of its record there, which is that of the line in `stdout`. `reference refusals` writes this page, and `./test` compares the two.

Of two certificates a refusal of the first is seen only where the second is refused as well: where a case names only the first, \
its record of kind `t` has that one twice. The office's check refuses what the check refuses: where a case has no notes, \
its record of kind `n` has no buffer.

Every refusal of a pair is met by the second of two problems as well, with its stream 3 higher: those records of kind `d` \
stand behind the ones that are named here, in the same order, with case F as the first.

An answer is `refused`, number, stream (0 problem, 1 first certificate, 2 second; 3 to 5 those of a second problem), place \
and key. Bytes are \
hexadecimal, 0⁷ is seven zero bytes and 0⁸ eight, and a bar stands between commands.
";

const ONE: &str = "
## 1: a lent table, the 576 bytes, the 256 bytes or a report's output is too short

A replayed record is always answered with tables lent in full, so only reports meet refusal 1, by their output; for a record of kind `x` it is the number in its line. It is stated in the public \
contracts in `crates/checker/src/lib.rt`, `crates/superseding/src/lib.rt`, `crates/sign_symmetries/src/lib.rt`, \
`crates/weekly_report/src/lib.rt`, `crates/added_bounds/src/lib.rt`, `crates/adjusted_bound/src/lib.rt` and \
`crates/office_check/src/lib.rt`: \
`verdict` or `numbers` of each call says that it is given exactly when the named test holds, and `bytes`, `output` and `tables` that nothing is \
written then; the four numbers lent to `tighter` receive it. `bench short` calls the C functions with each \
length one short, and sees refusal 1 and all that was lent untouched. The C functions (`crates/c_calls/src/lib.rt`) also give it for a run that is \
too short for their verdict, and `zamiachisel_window_push` for a state of fewer than 65 numbers: `number` says so, `verdict` and \
`state` that nothing is written.

| case | what is lent | answer | clause |
|---|---|---|---|
| blocks, bytes | 575 bytes for the blocks | `refused 1 0 0 0` | `verdict` of `blocks`, `blocks_short` |
| blocks, keys | 2,047 numbers as the first table | `refused 1 0 0 0` | `verdict` of `blocks`, `blocks_short` |
| blocks, high | 2,047 numbers as the second table | `refused 1 0 0 0` | `verdict` of `blocks`, `blocks_short` |
| blocks, low | 2,047 numbers as the third table | `refused 1 0 0 0` | `verdict` of `blocks`, `blocks_short` |
| check, keys | 2,047 numbers as the first table | `refused 1 0 0 0` | `verdict` of `check`, `tables_short` |
| check, high | 2,047 numbers as the second table | `refused 1 0 0 0` | `verdict` of `check`, `tables_short` |
| check, low | 2,047 numbers as the third table | `refused 1 0 0 0` | `verdict` of `check`, `tables_short` |
| pair, keys | 2,047 numbers as the first table | `refused 1 0 0 0` | `verdict` of `pair`, `tables_short` |
| pair, high | 2,047 numbers as the second table | `refused 1 0 0 0` | `verdict` of `pair`, `tables_short` |
| pair, low | 2,047 numbers as the third table | `refused 1 0 0 0` | `verdict` of `pair`, `tables_short` |
| the tighter of two, keys | 2,047 numbers as the first table | `refused 1 0 0 0` | `numbers` of `tighter`, `tables_short` |
| the tighter of two, high | 2,047 numbers as the second table | `refused 1 0 0 0` | `numbers` of `tighter`, `tables_short` |
| the tighter of two, low | 2,047 numbers as the third table | `refused 1 0 0 0` | `numbers` of `tighter`, `tables_short` |
| symmetries, bytes | 255 bytes for the masks | `refused 1 0 0 0` | `verdict` of `symmetries`, `symmetries_short` |
| symmetries, keys | 2,047 numbers as the first table | `refused 1 0 0 0` | `verdict` of `symmetries`, `symmetries_short` |
| symmetries, high | 2,047 numbers as the second table | `refused 1 0 0 0` | `verdict` of `symmetries`, `symmetries_short` |
| symmetries, low | 2,047 numbers as the third table | `refused 1 0 0 0` | `verdict` of `symmetries`, `symmetries_short` |
| report, keys | 2,047 numbers as the first table | `refused 1 0 0 0` | `verdict` of `report`, `checked_records` |
| report, high | 2,047 numbers as the second table | `refused 1 0 0 0` | `verdict` of `report`, `checked_records` |
| report, low | 2,047 numbers as the third table | `refused 1 0 0 0` | `verdict` of `report`, `checked_records` |
| two problems, keys | 2,047 numbers as the first table | `refused 1 0 0 0` | `verdict` of `sum`, `tables_short` |
| two problems, high | 2,047 numbers as the second table | `refused 1 0 0 0` | `verdict` of `sum`, `tables_short` |
| two problems, low | 2,047 numbers as the third table | `refused 1 0 0 0` | `verdict` of `sum`, `tables_short` |
| changes, keys | 2,047 numbers as the first table | `refused 1 0 0 0` | `verdict` of `moved_bound`, `tables_short` |
| changes, high | 2,047 numbers as the second table | `refused 1 0 0 0` | `verdict` of `moved_bound`, `tables_short` |
| changes, low | 2,047 numbers as the third table | `refused 1 0 0 0` | `verdict` of `moved_bound`, `tables_short` |
| the office's check, keys | 2,047 numbers as the first table | `refused 1 0 0 0` | `verdict` of `office`, `tables_short` |
| the office's check, high | 2,047 numbers as the second table | `refused 1 0 0 0` | `verdict` of `office`, `tables_short` |
| the office's check, low | 2,047 numbers as the third table | `refused 1 0 0 0` | `verdict` of `office`, `tables_short` |
";

const FOURTEEN: &str = "
## 14: a numerator below 0 or from 2^48, or a denominator of 0 or from 2^32

It is the outcome of an arrival, and so stands in the line of a record among the others, as its number; its stream, place \
and key are 0. The other outcomes are the widest gap held and its age.

| case | what arrives | arrivals | words | answer | records |
|---|---|---|---|---|---|
";

const EQUALITIES: &str = "
## Beside the refusals: equalities and rows on them that are accepted

Request 04 lets in what was refused before. These cases stand next to the refusals above, and their answers were found by \
hand in the same way. The bytes of a blocks call are shown to the last that is not 255.

| case | what it has | problem | certificates | words | answer | record |
|---|---|---|---|---|---|---|
";

const GAPS: &str = "
## Beside the refusals: regions with no points

Request 06 refuses nothing: both bounds hold, and a gap below 0 is said to be empty. In all these problems the conditions \
contradict each other. The gap tells so where the bounds cross, and only there. The answers were found by hand.

| case | what it has | problem | certificates | words | answer | record |
|---|---|---|---|---|---|---|
";

const RULES: &str = "
## Beside the refusals: two joining rules

Request 08 lets a problem name its joining rule. These cases stand next to the refusals of 08 above; the answers were found \
by hand. The bytes of a blocks call are shown to the last that is not 255.

| case | what it has | problem | certificates | words | answer | record |
|---|---|---|---|---|---|---|
";

const ORDERS: &str = "
## Beside the refusals: sparse orders

Request 09 lets a problem end the rounds. These cases stand next to the refusals of 09 above; the answers were found by hand. \
The bytes of a blocks call are shown to the last that is not 255.

| case | what it has | problem | certificates | words | answer | record |
|---|---|---|---|---|---|---|
";

const SYMMETRIES: &str = "
## Beside the refusals: sign symmetries found by hand

Request 01's call lists the masks of a problem into 256 bytes, which are shown to the last that is not 0.

| case | what it has | problem | words | answer | record |
|---|---|---|---|---|---|
";

const SUMS: &str = "
## Beside the refusals: two problems over one region

Request 12 adds the bounds of two problems. These cases stand next to refusal 15; the answers were found by hand.

| case | what it has | first problem and certificates | second problem and certificates | words | answer | record |
|---|---|---|---|---|---|---|
";

const NOTES: &str = "
## Beside the refusals: certificates with notes

Request 10 passes over notes in the office's check. These cases stand next to the refusals above; the answers were found by \
hand. The last of the streams is the buffer as lent.

| case | what it has | problem | certificate and buffer | words | answer | record |
|---|---|---|---|---|---|---|
";

/// The words of document 01's table, and of the requests, for the numbers with cases here.
const TITLES: &[(u8, &str)] = &[
    (
        2,
        "stream ends in a command or without its end, or goes on after it",
    ),
    (3, "command unknown in this stream or misplaced"),
    (4, "operand outside its rule"),
    (5, "monomial repeated, or index not rising"),
    (6, "one more than a count allows"),
    (7, "closed S with zero above 2,048"),
    (8, "a row in two blocks"),
    (9, "identity false"),
    (10, "in a pair, first side not 0 or second not 1"),
    (
        11,
        "of two certificates, both are accepted and their sides differ",
    ),
    (
        12,
        "a record of a report is cut short, or a byte comes after the 64th",
    ),
    (13, "the buffer can't hold all notes"),
    (15, "the regions of two problems differ"),
    (
        16,
        "some variable has no inequality that is exactly 1 − x_i²",
    ),
    (17, "an upper certificate where a lower one is asked for"),
];

const STREAMS: [&str; 6] = [
    "in the problem, or of stream 0",
    "in the first certificate",
    "in the second certificate, or of stream 2",
    "in the second of two problems",
    "in the lower certificate of the second problem",
    "in the upper certificate of the second problem",
];

/// Longer streams are not written out.
const SHORT: usize = 130;

/// Writes the page.
pub fn print() {
    let corpus = corpus("bcpwtsrxdan");
    let mut cases = cases();
    cases.sort_by_key(|case| (case.expected.number, case.expected.stream));
    print!("{HEAD}{ONE}");
    let (before, after) = cases.split_at(cases.partition_point(|case| case.expected.number < 14));
    print_numbers(before, &corpus);
    print!("{FOURTEEN}");
    for case in CASES {
        println!("{}", window_line(case, &corpus));
    }
    print_numbers(after, &corpus);
    let accepted = [
        (EQUALITIES, equalities::ACCEPTED),
        (GAPS, gaps::ACCEPTED),
        (RULES, joining_rules::ACCEPTED),
        (ORDERS, sparse_orders::ACCEPTED),
        (NOTES, notes::ACCEPTED),
    ];
    for (head, cases) in accepted {
        print!("{head}");
        for case in cases {
            println!("{}", accepted_line(case, &corpus));
        }
    }
    print!("{SYMMETRIES}");
    for case in SYMMETRIC {
        println!("{}", symmetric_line(case, &corpus));
    }
    print!("{SUMS}");
    for sum in ADDED {
        println!("{}", added_line(sum, &corpus));
    }
}

/// Writes the cases, which are sorted, under a head for each number but 1, which has its own, and one for
/// each stream.
fn print_numbers(cases: &[Case], corpus: &[Record]) {
    let mut section = (1, u8::MAX);
    for case in cases {
        let number = case.expected.number;
        if number != section.0 {
            let title = TITLES.iter().find(|title| title.0 == number);
            let title = title.expect("every number with cases has a title").1;
            println!("\n## {number}: {title}");
        }
        if (number, case.expected.stream) != section {
            println!("\n### {}", STREAMS[usize::from(case.expected.stream)]);
            println!("\n| case | what the stream has | stream | words | answer | records |");
            println!("|---|---|---|---|---|---|");
        }
        section = (number, case.expected.stream);
        println!("{}", line(case, corpus));
    }
}

fn line(case: &Case, corpus: &[Record]) -> String {
    let text = case.text.filter(|text| text.len() <= SHORT);
    let text = match text {
        Some("") => "none".to_string(),
        Some(text) => code(text),
        None => String::new(),
    };
    let call = *case.calls.last().expect("some call meets it");
    let answer = plain::line(&case.record(call));
    let places = case
        .calls
        .iter()
        .map(|&call| place(&case.record(call), corpus));
    let places: Vec<String> = places.collect();
    let cells = [
        case.name,
        case.what,
        &text,
        &quoted(case.words),
        &format!("`{answer}`"),
        &places.join(", "),
    ];
    format!("| {} |", cells.join(" | "))
}

/// The line of a list of arrivals that has refused ones.
fn window_line(case: &Arrivals, corpus: &[Record]) -> String {
    let &(name, what, words, arrivals, _) = case;
    let record = Record::window(arrivals);
    let list: Vec<String> = arrivals.iter().map(|(a, b)| format!("{a}/{b}")).collect();
    let text = match list.join("; ") {
        list if list.len() <= SHORT => format!("`{list}`"),
        _ => String::new(),
    };
    let cells = [
        name,
        what,
        &text,
        &quoted(words),
        &format!("`{}`", plain::line(&record)),
        &place(&record, corpus),
    ];
    format!("| {} |", cells.join(" | "))
}

/// The line of something accepted.
fn accepted_line(case: &Accepted, corpus: &[Record]) -> String {
    let [problem, certificates @ ..] = case.streams;
    let certificates = certificates.into_iter().filter(|text| !text.is_empty());
    let certificates: Vec<String> = certificates.map(code).collect();
    let cells = [
        case.name,
        case.what,
        &code(problem),
        &certificates.join(", "),
        &quoted(case.words),
        &format!("`{}`", case.line),
        &place(&case.record(), corpus),
    ];
    format!("| {} |", cells.join(" | "))
}

/// The line of a problem with its masks.
fn symmetric_line(case: &Symmetric, corpus: &[Record]) -> String {
    let problem = case.problem;
    let text = match problem.len() <= SHORT {
        true => code(problem),
        false => String::new(),
    };
    let line = case.line();
    let cells = [
        case.name,
        case.what,
        &text,
        &quoted(case.words),
        &format!("`{}`", short(&line)),
        &place(&case.record(), corpus),
    ];
    format!("| {} |", cells.join(" | "))
}

/// The line of two problems whose bounds are added.
fn added_line(sum: &Added, corpus: &[Record]) -> String {
    let &(name, what, words, first, second, line) = sum;
    let [first, second] = [first, second].map(|streams| streams.map(code).join(", "));
    let place = place(&regions::record(sum), corpus);
    let cells = [
        name,
        what,
        &first,
        &second,
        &quoted(words),
        &format!("`{line}`"),
        &place,
    ];
    format!("| {} |", cells.join(" | "))
}

/// A line whose bytes end with the last that is not 0, or with the first.
fn short(line: &str) -> &str {
    let (head, digits) = line.rsplit_once(' ').expect("digits stand last");
    let shown = digits.trim_end_matches('0').len().div_ceil(2).max(1);
    &line[..head.len() + 1 + 2 * shown]
}

/// A stream as it stands in a cell.
fn code(text: &str) -> String {
    format!("`{}`", text.replace('|', "\\|"))
}

fn quoted(words: &str) -> String {
    format!("\"{words}\"")
}

/// The kind of a record and its number in the corpus, counted from 1.
fn place(record: &Record, corpus: &[Record]) -> String {
    let found = corpus.iter().position(|other| other == record);
    let place = found.expect("the corpus has every case");
    format!("{} {}", char::from(record.kind), place + 1)
}
