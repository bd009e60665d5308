//! The page in plain safe Rust.
use super::{check, rows_of, Row};
use crate::reference::calls::Written;
use std::cmp::Reverse;

const HEADING: [u8; LINE] = *b"NAME                               SCORE\n";
const BLANK: [u8; LINE] = *b"                                        \n";

/// The bytes of a line with its line feed, and the columns of a name.
const LINE: usize = 41;
const COLUMNS: usize = 28;

/// Writes a score in decimal, its last digit in the last column.
fn put_score(mut score: u32, columns: &mut [u8]) {
    for column in columns.iter_mut().rev() {
        *column = b'0' + (score % 10) as u8;
        score /= 10;
        if score == 0 {
            return;
        }
    }
}

pub fn page(book: &[u8], dst: &mut [u8]) -> Written {
    let book = check(book)?;
    let rows = rows_of(&book);
    let lines: usize = rows.iter().map(|row| row.name.len.div_ceil(COLUMNS)).sum();
    let total = LINE * (1 + lines);
    let dst = dst.get_mut(..total).ok_or(7)?;
    let mut ranked: Vec<&Row> = rows.iter().collect();
    ranked.sort_by_key(|row| Reverse(row.score));
    let (heading, below) = dst.split_at_mut(LINE);
    heading.copy_from_slice(&HEADING);
    let mut lines = below.chunks_exact_mut(LINE);
    for row in ranked {
        let parts = row.name.get().chunks(COLUMNS);
        for (i, (part, line)) in parts.zip(&mut lines).enumerate() {
            line.copy_from_slice(&BLANK);
            line[..part.len()].copy_from_slice(part);
            if i == 0 {
                put_score(row.score, &mut line[COLUMNS..LINE - 1]);
            }
        }
    }
    Ok((book.n, total))
}
