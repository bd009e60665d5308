//! What each C name takes of the stack at most, on inputs that are made to take much: the table in
//! the opening comment of include/label_book.h says it, rounded up, and is compared with it here.
//!
//! How the most comes about; `objdump -d` of the archive shows each function's frame, and their
//! sums are what is measured:
//! - Most calls go down a few functions, none of which calls itself: any book shows the most, if
//!   the call gets as far as to copy a name.
//! - complete calls itself for each turn, at most COUNT_MAX deep. In the last of so many turns the
//!   best of the open ranges is looked for, one call deeper for each of them: there are as many, if
//!   every turn left two parts.
//! - write_trie has the names of a full book in its frame, whatever the book, and calls itself for
//!   each group of names: 48 deep for names that begin each other up to 48 bytes, and once more
//!   for the one name that is then left.
//! - page sorts the positions and calls itself for each half of them: ten deep for more than 512
//!   names, whatever their scores.
//! - complete_trie checks the trie before all else, and calls itself for each group below another.
//!   In a trie these are at most 48, one for each byte of a name; one more is looked at where a
//!   node at 48 bytes claims to have children, which makes the image none. The search behind it has
//!   the nodes that wait in its frames, room for COUNT_MAX of them, however many there are.
//!
//! `SEED=n` takes other random inputs.
use measure::{Measure, Most};
use std::collections::BTreeMap;
use std::process::ExitCode;

#[path = "stack/inputs.rs"]
mod inputs;
#[path = "stack/measure.rs"]
mod measure;

const HEADER: &str = concat!(env!("CARGO_MANIFEST_DIR"), "/../include/label_book.h");

/// The header's numbers are multiples of this.
const STEP: usize = 64;

/// The names in the order of their declarations.
fn declared(header: &str) -> Vec<&str> {
    let lines = header.lines().filter_map(|line| line.strip_prefix("uint8_t "));
    lines.filter_map(|line| line.split_once('(')).map(|(name, _)| name).collect()
}

/// A name and a number, in a line of a comment that has nothing else.
fn row(line: &str) -> Option<(&str, usize)> {
    let (name, number) = line.strip_prefix(" *")?.trim().split_once(' ')?;
    Some((name, number.trim().parse().ok()?)).filter(|(name, _)| name.starts_with("label_book_"))
}

/// The table in the opening comment.
fn table(header: &str) -> Vec<(&str, usize)> {
    let opening = header.split("*/").next().unwrap_or_default();
    opening.lines().filter_map(row).collect()
}

/// A line for each name whose number in the header is not what was measured.
fn differences(header: &str, most: &BTreeMap<&str, Most>) -> Vec<String> {
    let said: BTreeMap<&str, usize> = table(header).into_iter().collect();
    let mut lines = Vec::new();
    for name in declared(header) {
        let says = said.get(name).map_or("nothing".to_string(), usize::to_string);
        match most.get(name) {
            None => lines.push(format!("{name}: the header says {says}, not measured")),
            Some(most) if said.get(name) != Some(&most.bytes.next_multiple_of(STEP)) => {
                let (bytes, rounded) = (most.bytes, most.bytes.next_multiple_of(STEP));
                lines.push(format!(
                    "{name}: the header says {says}, measured {bytes} ({rounded} rounded up)"
                ));
            }
            Some(_) => {}
        }
    }
    lines
}

fn main() -> ExitCode {
    let seed = std::env::var("SEED").map_or(1, |seed| seed.parse().expect("SEED is a number"));
    let mut measure = Measure::default();
    inputs::all(&mut measure, seed);
    let header = std::fs::read_to_string(HEADER).expect("include/label_book.h is there");
    let names = declared(&header);
    println!("stack: {} inputs", measure.inputs);
    for (name, most) in names.iter().filter_map(|name| Some((name, measure.most.get(name)?))) {
        let rounded = most.bytes.next_multiple_of(STEP);
        println!("{name:<26}{rounded:>8}  measured {:>6}: {}", most.bytes, most.kind);
    }
    let lines = differences(&header, &measure.most);
    lines.iter().for_each(|line| eprintln!("{line}"));
    let listed: Vec<&str> = table(&header).into_iter().map(|(name, _)| name).collect();
    if listed != names {
        eprintln!("the header's table lists other names than are declared: {listed:?}");
    }
    match lines.is_empty() && listed == names && names.len() == measure.most.len() {
        true => ExitCode::SUCCESS,
        false => ExitCode::FAILURE,
    }
}
