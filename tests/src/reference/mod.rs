//! A second implementation of the label book, written from its document alone, as plainly as
//! possible. Entries are a map from names to scores, which is in name order; an image is read by
//! taking its fields apart and writing what they say again. Nothing here is quick.
pub mod book;
pub mod calls;
pub mod ledger;
pub mod page;
pub mod panel;
pub mod program;
pub mod script;
pub mod sheet;
pub mod trie;

#[cfg(test)]
mod worked;

use std::collections::BTreeMap;

/// Names and their scores, in name order: byte order, a name that begins another before it.
pub type Entries = BTreeMap<Vec<u8>, u32>;

pub const MOST_ENTRIES: usize = 1024;
pub const LONGEST_NAME: usize = 48;
/// The most that a completion can be asked for (02, request d), and what it was before, in 01.
pub const MOST_OFFERED: usize = 9;
pub const MOST_BEFORE: usize = 16;

/// The two signs that have two bytes each: C2 B5 and CE A9.
pub const MICRO: char = '\u{B5}';
pub const OHM: char = '\u{3A9}';

/// Refusals, by number.
pub const IMAGE: u8 = 1;
pub const NAME: u8 = 2;
pub const COUNT: u8 = 3;
pub const NOT_HELD: u8 = 4;
pub const FULL: u8 = 5;
pub const POSITION: u8 = 6;
pub const TOO_SHORT: u8 = 7;
pub const KEY: u8 = 8;
pub const TEXT_FULL: u8 = 9;
/// A book of version 21 (02, request f), checked before all others, by all calls but the converter.
pub const OLD_BOOK: u8 = 10;

/// The text that bytes are, if they are UTF-8 and each of its signs is allowed: 20 to 7E, and µ and
/// Ω (02, request c).
pub fn text(bytes: &[u8]) -> Option<&str> {
    let text = std::str::from_utf8(bytes).ok()?;
    text.chars().all(|sign| matches!(sign, ' '..='~' | MICRO | OHM)).then_some(text)
}

/// 0 to 48 bytes of such signs.
pub fn is_prefix(bytes: &[u8]) -> bool {
    bytes.len() <= LONGEST_NAME && text(bytes).is_some()
}

/// The same, 1 to 48 bytes.
pub fn is_name(bytes: &[u8]) -> bool {
    !bytes.is_empty() && is_prefix(bytes)
}

/// At most 1,024 entries, each with an allowed name.
pub fn is_valid(entries: &Entries) -> bool {
    entries.len() <= MOST_ENTRIES && entries.keys().all(|name| is_name(name))
}

/// The scores, in name order.
pub fn scores(entries: &Entries) -> Vec<u32> {
    entries.values().copied().collect()
}

/// Positions in rank: higher score first, at equal scores the earlier name.
pub fn in_rank(scores: &[u32], positions: std::ops::Range<usize>) -> Vec<usize> {
    let mut ranked: Vec<usize> = positions.collect();
    ranked.sort_by_key(|&i| (std::cmp::Reverse(scores[i]), i));
    ranked
}

pub fn name_at(entries: &Entries, position: usize) -> (&[u8], u32) {
    let (name, score) = entries.iter().nth(position).unwrap();
    (name, *score)
}

/// One answer entry: length byte, name, 4-byte score.
pub fn entry_bytes(name: &[u8], score: u32) -> Vec<u8> {
    let mut bytes = vec![name.len() as u8];
    bytes.extend(name);
    bytes.extend(score.to_be_bytes());
    bytes
}

/// Version, total length in 4 bytes, n in 2, and the rest.
pub fn framed(version: u8, n: usize, rest: &[u8]) -> Vec<u8> {
    let mut image = vec![version];
    image.extend((7 + rest.len() as u32).to_be_bytes());
    image.extend((n as u16).to_be_bytes());
    image.extend(rest);
    image
}

/// The number of entries that an image names and its bytes, if the buffer holds as many as its
/// total length says.
pub fn unframed(version: u8, buffer: &[u8]) -> Option<(usize, &[u8])> {
    if *buffer.first()? != version {
        return None;
    }
    let total = u32::from_be_bytes(buffer.get(1..5)?.try_into().unwrap()) as usize;
    let n = u16::from_be_bytes(buffer.get(5..7)?.try_into().unwrap()) as usize;
    Some((n, buffer.get(..total)?))
}

/// The longest prefix that two names share.
pub fn common(a: &[u8], b: &[u8]) -> usize {
    a.iter().zip(b).take_while(|(x, y)| x == y).count()
}

/// Bytes taken from the front of an image one field after the other; none where they end.
pub struct Fields<'a> {
    pub image: &'a [u8],
    pub at: usize,
}

impl<'a> Fields<'a> {
    pub fn take(&mut self, count: usize) -> Option<&'a [u8]> {
        let part = self.image.get(self.at..self.at.checked_add(count)?)?;
        self.at += count;
        Some(part)
    }

    pub fn number(&mut self, bytes: usize) -> Option<u32> {
        Some(self.take(bytes)?.iter().fold(0, |n, &b| n * 256 + b as u32))
    }
}
