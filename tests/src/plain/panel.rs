//! The panel in plain safe Rust.
use super::{check, each_ranked, is_first_half, is_prefix, Book, Name, MICRO, OHM};
use crate::reference::LONGEST_NAME;
use label_book::Panel;

const SHOWN: usize = 5;

/// How many rows a text has, and the positions on the first of them, as many as are wanted.
#[derive(Clone, Copy)]
struct Rows<'a> {
    book: Book<'a>,
    count: usize,
    at: [usize; SHOWN],
}

impl<'a> Rows<'a> {
    fn new(book: Book<'a>, text: &[u8], wanted: usize) -> Rows<'a> {
        let (first, end) = book.range(text);
        let mut rows = Rows { book, count: (end - first).min(SHOWN), at: [0; SHOWN] };
        let mut row = 0;
        each_ranked(book, first, end, wanted, |position| {
            rows.at[row] = position;
            row += 1;
        });
        rows
    }

    fn lowered(&self, row: usize) -> usize {
        row.min(self.count.saturating_sub(1))
    }

    /// The row that has a name.
    fn row_of(&self, name: &[u8]) -> Option<usize> {
        let position = self.book.look_up(name).ok()?;
        self.at[..self.count].iter().position(|&at| at == position)
    }

    /// The name on a row, empty if there is none.
    fn name(&self, row: usize) -> Name {
        if row < self.count {
            self.book.name_at(self.at[row])
        } else {
            Name::new()
        }
    }
}

/// Appends a sign.
fn append(typed: &mut Name, sign: &[u8]) -> Result<(), u8> {
    if typed.len + sign.len() > LONGEST_NAME {
        return Err(9);
    }
    typed.put(typed.len, sign);
    Ok(())
}

/// Erases the last sign of a text that has one.
fn erase(typed: &mut Name) {
    typed.len -= 1;
    if typed.len > 0 && is_first_half(typed.bytes[typed.len - 1]) {
        typed.len -= 1;
    }
}

/// The text, its rows and the highlighted one after a key. A changed text has its first row
/// highlighted; all other keys go by the rows before. Inlined for the same reason as `best_in` is
/// not.
#[inline(always)]
fn act<'a>(
    book: Book<'a>,
    text: &[u8],
    held: &[u8],
    highlight: usize,
    key: u8,
) -> Result<(Name, Rows<'a>, usize), u8> {
    let mut typed = Name::new();
    typed.put(0, text);
    match key {
        0x20..=0x7E => append(&mut typed, &[key])?,
        0x80 => append(&mut typed, &MICRO)?,
        0x81 => append(&mut typed, &OHM)?,
        0x08 if typed.len > 0 => erase(&mut typed),
        0x00 | 0x01 | 0x02 | 0x08 | 0x0D => {
            let rows = Rows::new(book, text, SHOWN);
            let may_be_offered = !held.is_empty() && held.starts_with(text);
            let held_row = if may_be_offered { rows.row_of(held) } else { None };
            let row = held_row.unwrap_or(rows.lowered(highlight));
            match key {
                0x01 => return Ok((typed, rows, row.saturating_sub(1))),
                0x02 => return Ok((typed, rows, rows.lowered(row + 1))),
                0x0D if rows.count > 0 => typed = rows.name(row),
                _ => return Ok((typed, rows, row)),
            }
        }
        _ => return Err(8),
    }
    let rows = Rows::new(book, typed.get(), 1);
    Ok((typed, rows, 0))
}

pub fn press(book: &[u8], panel: &mut Panel, key: u8) -> Result<usize, u8> {
    let book = check(book)?;
    let text = panel.text.get(..panel.len).ok_or(2)?;
    let held = panel.held.get(..panel.held_len).ok_or(2)?;
    if !is_prefix(text) || !is_prefix(held) {
        return Err(2);
    }
    let (typed, rows, row) = act(book, text, held, panel.highlight, key)?;
    let name = rows.name(row);
    *panel = Panel {
        text: typed.padded(),
        len: typed.len,
        highlight: row,
        rows: rows.count,
        held: name.padded(),
        held_len: name.len,
    };
    Ok(rows.count)
}
