//! A book moved up or back in plain safe Rust: checked as its byte 0 says, measured, written.
use super::{allowed, common, frame, header, is_first_half, is_old, laid_out, u16_at, Book, Name};
use crate::reference::calls::Written;
use crate::reference::LONGEST_NAME;

/// The names of a bucket.
const BUCKET: usize = 8;

/// A version of the book, and whether it has buckets.
#[derive(Clone, Copy)]
struct Layout {
    version: u8,
    buckets: bool,
}

const OLD: Layout = Layout { version: 0x21, buckets: true };
const NEW: Layout = Layout { version: 0x22, buckets: false };

/// Where the offsets of a book of n names begin, in a layout that has them: behind the scores.
fn offsets_at(n: usize) -> usize {
    7 + 4 * n
}

/// The bytes of its peaks.
fn peak_bytes(n: usize) -> usize {
    2 * n.div_ceil(16)
}

impl Layout {
    /// Whether a position's record is a bucket's first, which has no common byte.
    fn is_head(self, i: usize) -> bool {
        self.buckets && i.is_multiple_of(BUCKET)
    }

    fn peaks_at(self, n: usize) -> usize {
        offsets_at(n) + if self.buckets { 2 * n.div_ceil(BUCKET) } else { 0 }
    }

    fn records_at(self, n: usize) -> usize {
        self.peaks_at(n) + peak_bytes(n)
    }
}

/// The book of version 21 at the front of a buffer, checked in one pass over its records and one
/// over its scores.
fn laid_out_old(buffer: &[u8]) -> Option<Book<'_>> {
    let (n, image) = frame(OLD.version, buffer)?;
    let mut at = OLD.records_at(n);
    if at > image.len() {
        return None;
    }
    let mut name = Name::new();
    for i in 0..n {
        at = if OLD.is_head(i) {
            let offset = u16_at(image, offsets_at(n) + 2 * (i / BUCKET));
            check_head(image, at, &mut name).filter(|_| offset == at)?
        } else {
            check_record(image, at, &mut name)?
        };
    }
    let book = Book { image, n };
    let peaks_hold = (0..n).step_by(16).all(|first| {
        u16_at(image, OLD.peaks_at(n) + first / 8) == book.best_of(first, n.min(first + 16))
    });
    (at == image.len() && peaks_hold).then_some(book)
}

/// Checks a bucket's first record and unpacks it; gives the place behind it.
fn check_head(image: &[u8], at: usize, name: &mut Name) -> Option<usize> {
    let end = at + 1 + *image.get(at)? as usize;
    let head = image.get(at + 1..end)?;
    if head.len() > LONGEST_NAME || !allowed(head) || head <= name.get() {
        return None;
    }
    name.put(0, head);
    Some(end)
}

/// Checks another record in the same way.
fn check_record(image: &[u8], at: usize, name: &mut Name) -> Option<usize> {
    let (kept, added) = (*image.get(at)? as usize, *image.get(at + 1)? as usize);
    let rest = image.get(at + 2..at + 2 + added)?;
    if added == 0 || kept > name.len || kept + added > LONGEST_NAME || !allowed(rest) {
        return None;
    }
    // Two names that share the first half of a sign share all of it.
    if kept > 0 && is_first_half(name.bytes[kept - 1]) {
        return None;
    }
    if kept < name.len && name.bytes[kept] >= rest[0] {
        return None;
    }
    name.put(kept, rest);
    Some(at + 2 + added)
}

/// Each name of a book that was checked: its position, how much of the name before it has, and all
/// of it.
fn each_name(book: &Book, from: Layout, mut each: impl FnMut(usize, usize, &[u8])) {
    let mut name = Name::new();
    let mut at = from.records_at(book.n);
    for i in 0..book.n {
        let kept;
        if from.is_head(i) {
            let head = &book.image[at + 1..at + 1 + book.image[at] as usize];
            kept = common(name.get(), head);
            name.put(0, head);
            at += 1 + head.len();
        } else {
            kept = book.image[at] as usize;
            at = book.unpack(at, &mut name);
        }
        each(i, kept, name.get());
    }
}

/// Writes a book that was checked in another layout. Its scores and peaks are the same bytes.
fn write_as(book: &Book, from: Layout, to: Layout, dst: &mut [u8]) -> Written {
    let n = book.n;
    let mut total = to.records_at(n);
    each_name(book, from, |i, kept, name| {
        total += if to.is_head(i) { 1 + name.len() } else { 2 + name.len() - kept };
    });
    let dst = dst.get_mut(..total).ok_or(7)?;
    header(to.version, total, n, dst);
    dst[7..offsets_at(n)].copy_from_slice(&book.image[7..offsets_at(n)]);
    let peaks = &book.image[from.peaks_at(n)..from.records_at(n)];
    dst[to.peaks_at(n)..to.records_at(n)].copy_from_slice(peaks);
    let mut at = to.records_at(n);
    each_name(book, from, |i, kept, name| {
        let mut rest = name;
        if to.is_head(i) {
            let offset = offsets_at(n) + 2 * (i / BUCKET);
            dst[offset..offset + 2].copy_from_slice(&(at as u16).to_be_bytes());
        } else {
            rest = &name[kept..];
            dst[at] = kept as u8;
            at += 1;
        }
        dst[at] = rest.len() as u8;
        dst[at + 1..at + 1 + rest.len()].copy_from_slice(rest);
        at += 1 + rest.len();
    });
    Ok((n, total))
}

pub fn convert(book: &[u8], dst: &mut [u8]) -> Written {
    if is_old(book) {
        let book = laid_out_old(book).ok_or(1)?;
        return write_as(&book, OLD, NEW, dst);
    }
    let book = laid_out(book).ok_or(1)?;
    write_as(&book, NEW, OLD, dst)
}
