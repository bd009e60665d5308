//! The panel's typing state, with the highlight on its name (02, request b) and keys for µ and Ω
//! (request c).
use super::calls::{allow, rows};
use super::*;
use label_book::Panel;

const SHOWN: usize = 5;

/// A highlight past the last row is lowered to it, 0 if there are none.
fn lowered(highlight: usize, rows: usize) -> usize {
    highlight.min(rows.saturating_sub(1))
}

/// The row that has the held name; if it is no longer offered, the row number, lowered.
fn row_of(held: &[u8], shown: &[Vec<u8>], highlight: usize) -> usize {
    match shown.iter().position(|name| name == held) {
        Some(row) => row,
        None => lowered(highlight, shown.len()),
    }
}

/// The bytes, and zeros past them.
fn array(bytes: &[u8]) -> [u8; LONGEST_NAME] {
    let mut all = bytes.to_vec();
    all.resize(LONGEST_NAME, 0);
    all.try_into().unwrap()
}

/// The sign that a key appends.
fn sign(key: u8) -> Option<char> {
    match key {
        0x20..=0x7E => Some(key as char),
        0x80 => Some(MICRO),
        0x81 => Some(OHM),
        _ => None,
    }
}

/// What a key does to the text and the highlighted one of its rows, or the refusal.
fn act(
    key: u8,
    mut text: String,
    highlight: usize,
    shown: &[Vec<u8>],
) -> Result<(String, usize), u8> {
    if let Some(sign) = sign(key) {
        text.push(sign);
        return if text.len() <= LONGEST_NAME { Ok((text, 0)) } else { Err(TEXT_FULL) };
    }
    match key {
        0x08 if text.pop().is_some() => Ok((text, 0)),
        0x01 => Ok((text, highlight.saturating_sub(1))),
        0x02 => Ok((text, lowered(highlight + 1, shown.len()))),
        0x0D if !shown.is_empty() => {
            let name = String::from_utf8(shown[highlight].clone());
            Ok((name.expect("a name is UTF-8"), 0))
        }
        0x00 | 0x08 | 0x0D => Ok((text, highlight)),
        _ => Err(KEY),
    }
}

/// One key: the rows, or the refusal.
pub fn press(book: &[u8], panel: &mut Panel, key: u8) -> Result<usize, u8> {
    let entries = book::read(book)?;
    let text = panel.text.get(..panel.len).and_then(text).ok_or(NAME)?.to_string();
    let held = panel.held.get(..panel.held_len).ok_or(NAME)?;
    allow(held.is_empty() || is_name(held), NAME)?;
    let shown = rows(&entries, text.as_bytes(), SHOWN);
    let (text, highlight) = act(key, text, row_of(held, &shown, panel.highlight), &shown)?;
    let shown = rows(&entries, text.as_bytes(), SHOWN);
    let highlight = lowered(highlight, shown.len());
    let held = shown.get(highlight).cloned().unwrap_or_default();
    *panel = Panel {
        text: array(text.as_bytes()),
        len: text.len(),
        highlight,
        rows: shown.len(),
        held: array(&held),
        held_len: held.len(),
    };
    Ok(shown.len())
}
