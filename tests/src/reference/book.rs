//! The book image. Version 22 (02, request f) is what every call reads and writes; version 21 is
//! that of 01, which only the converter (02, request g) reads and writes now.
use super::*;

pub const BLOCK: usize = 16;

/// The names of a bucket, in a version that has buckets.
pub const BUCKET: usize = 8;

/// How a book is laid out. Its number is byte 0.
#[derive(Clone, Copy, Debug, PartialEq, Eq)]
pub enum Version {
    /// Buckets of 8 names, an offset for each; a bucket's first record has no common byte.
    Buckets = 0x21,
    /// No offsets; every record has a common byte.
    NoBuckets = 0x22,
}

use Version::{Buckets, NoBuckets};

impl Version {
    /// The version that byte 0 of a buffer says.
    pub fn of(buffer: &[u8]) -> Option<Version> {
        [Buckets, NoBuckets].into_iter().find(|version| buffer.first() == Some(&(*version as u8)))
    }

    /// The version that a book of this one is converted to.
    pub fn other(self) -> Version {
        match self {
            Buckets => NoBuckets,
            NoBuckets => Buckets,
        }
    }

    /// The number of offsets of a book of n names.
    fn offsets(self, n: usize) -> usize {
        match self {
            Buckets => n.div_ceil(BUCKET),
            NoBuckets => 0,
        }
    }

    /// Whether the record of a position has no common byte, and an offset.
    pub fn is_head(self, position: usize) -> bool {
        self == Buckets && position.is_multiple_of(BUCKET)
    }

    /// Where the peaks of a book of n names begin, behind its scores and offsets.
    pub fn peaks_at(self, n: usize) -> usize {
        7 + 4 * n + 2 * self.offsets(n)
    }

    /// Where its records begin.
    pub fn records_at(self, n: usize) -> usize {
        self.peaks_at(n) + 2 * n.div_ceil(BLOCK)
    }

    /// The image of entries.
    pub fn image(self, entries: &Entries) -> Vec<u8> {
        let n = entries.len();
        let mut records = Vec::new();
        let mut offsets = Vec::new();
        let mut before: &[u8] = &[];
        for (i, name) in entries.keys().enumerate() {
            let mut kept = 0;
            if self.is_head(i) {
                offsets.push(self.records_at(n) + records.len());
            } else {
                kept = common(before, name);
                records.push(kept as u8);
            }
            records.push((name.len() - kept) as u8);
            records.extend(&name[kept..]);
            before = name;
        }
        let mut rest = Vec::new();
        let scores = scores(entries);
        for score in &scores {
            rest.extend(score.to_be_bytes());
        }
        for offset in offsets {
            rest.extend((offset as u16).to_be_bytes());
        }
        for first in (0..n).step_by(BLOCK) {
            let best = in_rank(&scores, first..n.min(first + BLOCK))[0];
            rest.extend((best as u16).to_be_bytes());
        }
        rest.extend(records);
        framed(self as u8, n, &rest)
    }

    /// What the fields of an image say, right or wrong.
    fn said(self, n: usize, image: &[u8]) -> Option<Entries> {
        let mut fields = Fields { image, at: 7 };
        let scores: Option<Vec<u32>> = (0..n).map(|_| fields.number(4)).collect();
        let scores = scores?;
        fields.take(2 * self.offsets(n))?;
        fields.take(2 * n.div_ceil(BLOCK))?;
        let mut entries = Entries::new();
        let mut name: Vec<u8> = Vec::new();
        for (i, score) in scores.iter().enumerate() {
            let kept = if self.is_head(i) { 0 } else { fields.number(1)? as usize };
            let added = fields.number(1)? as usize;
            let mut next = name.get(..kept)?.to_vec();
            next.extend(fields.take(added)?);
            name = next;
            if entries.insert(name.clone(), *score).is_some() {
                return None;
            }
        }
        Some(entries)
    }

    /// The entries of the book at the front of a buffer: those whose image, written again, is what
    /// stands there.
    pub fn read(self, buffer: &[u8]) -> Option<Entries> {
        let (n, bytes) = unframed(self as u8, buffer)?;
        if n > MOST_ENTRIES {
            return None;
        }
        let entries = self.said(n, bytes)?;
        (is_valid(&entries) && self.image(&entries) == bytes).then_some(entries)
    }
}

/// The image that the calls write.
pub fn image(entries: &Entries) -> Vec<u8> {
    NoBuckets.image(entries)
}

/// The entries of each book that a call is given, or the refusal: 10 if byte 0 of any is 21,
/// whatever else is there, and then 1.
pub fn read_all<const N: usize>(books: [&[u8]; N]) -> Result<[Entries; N], u8> {
    if books.iter().any(|book| book.first() == Some(&(Buckets as u8))) {
        return Err(OLD_BOOK);
    }
    let entries = books.map(|book| NoBuckets.read(book));
    if entries.iter().any(Option::is_none) {
        return Err(IMAGE);
    }
    Ok(entries.map(Option::unwrap))
}

/// The entries of the one book that a call is given.
pub fn read(book: &[u8]) -> Result<Entries, u8> {
    let [entries] = read_all([book])?;
    Ok(entries)
}
