//! Entries as lines of text, `SCORE NAME`: the score, one space, the name to the line's end.
use crate::failure::Failure;
use crate::files::Source;
use label_book::{Book, Entries, NAME_MAX};
use std::collections::HashMap;
use std::io::{BufRead, BufReader, Read};

/// 4294967295 has as many.
const DIGITS_MAX: usize = 10;
/// The bytes of a line that are looked at: those of the longest entry, a CR and the LF. A longer
/// line has a number or a name that is too long in its first bytes already.
const LINE_LOOK: usize = DIGITS_MAX + 1 + NAME_MAX + 2;

const CR_HINT: &str = "the line ends in CR LF; lines end in LF alone: take the CRs out with \
                       tr -d '\\r'";

/// A score or a count as it is typed, in the form that the program `labels` takes: 1 to 10 digits,
/// and at most 4294967295.
pub fn number(text: &[u8]) -> Option<u32> {
    if text.is_empty() || text.len() > DIGITS_MAX {
        return None;
    }
    text.iter().try_fold(0, |value: u32, digit| {
        let digit = char::from(*digit).to_digit(10)?;
        value.checked_mul(10)?.checked_add(digit)
    })
}

/// How much a book is, in words.
pub fn size(entries: usize, bytes: usize) -> String {
    let noun = if entries == 1 { "entry" } else { "entries" };
    format!("{entries} {noun}, {bytes} bytes")
}

/// A line for each entry.
pub fn text(entries: Entries<'_>) -> Vec<u8> {
    let mut text = Vec::new();
    for entry in entries {
        text.extend_from_slice(entry.score.to_string().as_bytes());
        text.push(b' ');
        text.extend_from_slice(entry.name);
        text.push(b'\n');
    }
    text
}

/// The book of the entries in lines, which may stand in any order.
pub fn book(source: &Source) -> Result<Book, Failure> {
    let mut reader = BufReader::new(source.open()?);
    let mut book = Book::new();
    let mut lines_of = HashMap::new();
    let mut line = Vec::new();
    for number in 1_usize.. {
        line.clear();
        let mut look = reader.by_ref().take(LINE_LOOK as u64);
        look.read_until(b'\n', &mut line).map_err(|error| Failure::file(source, error))?;
        if line.is_empty() {
            break;
        }
        let place = format!("{source}: line {number}");
        let (score, name) = entry(&line).map_err(|words| Failure::data(&place, words))?;
        if let Some(earlier) = lines_of.insert(name.to_vec(), number) {
            let words = format!("the name of line {earlier} again: {}", shown(name));
            return Err(Failure::data(&place, words));
        }
        book.set(name, score).map_err(|refusal| Failure::refused(&place, refusal))?;
    }
    Ok(book)
}

/// The entry in a line; what is wrong with it, if it is none.
fn entry(line: &[u8]) -> Result<(u32, &[u8]), String> {
    let (whole, line) = (line, line.strip_suffix(b"\n").unwrap_or(line));
    if line.is_empty() {
        return Err("the line is empty; it should be SCORE NAME".to_string());
    }
    // A line that was looked at in part does not end there.
    if line.ends_with(b"\r") && (whole.len() < LINE_LOOK || whole.ends_with(b"\n")) {
        return Err(CR_HINT.to_string());
    }
    let space = line.iter().position(|byte| *byte == b' ');
    let parts = space
        .and_then(|space| line.split_at_checked(space))
        .and_then(|(score, rest)| Some((number(score)?, rest.strip_prefix(b" ")?)));
    parts.ok_or_else(|| {
        let range = format!("a number from 0 to {}, one space and a name", u32::MAX);
        format!("not SCORE NAME, {range}: {}", shown(line))
    })
}

/// Bytes as a message shows them: signs that a name may have as they are, all others escaped.
pub fn shown(bytes: &[u8]) -> String {
    let mut text = String::new();
    for part in bytes.utf8_chunks() {
        for sign in part.valid().chars() {
            match sign {
                'µ' | 'Ω' => text.push(sign),
                _ => text.push_str(&sign.to_string().as_bytes().escape_ascii().to_string()),
            }
        }
        text.push_str(&part.invalid().escape_ascii().to_string());
    }
    text
}
