//! The calls again, written straightforwardly in safe Rust over the image where it lies, with the
//! same checks: what the benchmark compares the static library with. The comparison runs them too.
mod convert;
mod page;
mod panel;
mod trie;

pub use convert::convert;
pub use page::page;
pub use panel::press;
pub use trie::{complete_trie, write_trie};

use crate::reference::calls::{Offered, Written};
use crate::reference::{LONGEST_NAME, MOST_ENTRIES, MOST_OFFERED};
use std::cmp::Ordering;

/// A book that was checked.
#[derive(Clone, Copy)]
struct Book<'a> {
    image: &'a [u8],
    n: usize,
}

fn u16_at(bytes: &[u8], at: usize) -> usize {
    u16::from_be_bytes([bytes[at], bytes[at + 1]]) as usize
}

fn u32_at(bytes: &[u8], at: usize) -> u32 {
    u32::from_be_bytes([bytes[at], bytes[at + 1], bytes[at + 2], bytes[at + 3]])
}

fn peaks_at(n: usize) -> usize {
    7 + 4 * n
}

fn records_at(n: usize) -> usize {
    peaks_at(n) + 2 * n.div_ceil(16)
}

/// The count and the bytes of an image, by its first seven bytes.
fn frame(version: u8, buffer: &[u8]) -> Option<(usize, &[u8])> {
    if buffer.len() < 7 || buffer[0] != version {
        return None;
    }
    let n = u16_at(buffer, 5);
    if n > MOST_ENTRIES {
        return None;
    }
    Some((n, buffer.get(..u32_at(buffer, 1) as usize)?))
}

/// A name as it is unpacked, record after record.
#[derive(Clone, Copy)]
struct Name {
    bytes: [u8; LONGEST_NAME],
    len: usize,
}

impl Name {
    fn new() -> Name {
        Name { bytes: [0; LONGEST_NAME], len: 0 }
    }

    fn get(&self) -> &[u8] {
        &self.bytes[..self.len]
    }

    /// All bytes, with zeros past the name.
    fn padded(mut self) -> [u8; LONGEST_NAME] {
        self.bytes[self.len..].fill(0);
        self.bytes
    }

    fn put(&mut self, kept: usize, rest: &[u8]) {
        self.bytes[kept..kept + rest.len()].copy_from_slice(rest);
        self.len = kept + rest.len();
    }
}

/// µ and Ω are the two signs of two bytes each; each first byte has one second byte.
const MICRO: [u8; 2] = [0xC2, 0xB5];
const OHM: [u8; 2] = [0xCE, 0xA9];

/// Whether bytes are whole signs that are allowed.
fn allowed(mut bytes: &[u8]) -> bool {
    while let Some(at) = bytes.iter().position(|byte| !(0x20..=0x7E).contains(byte)) {
        if !bytes[at..].starts_with(&MICRO) && !bytes[at..].starts_with(&OHM) {
            return false;
        }
        bytes = &bytes[at + 2..];
    }
    true
}

/// Whether an allowed text, cut behind this byte, is cut inside a sign.
fn is_first_half(byte: u8) -> bool {
    byte == MICRO[0] || byte == OHM[0]
}

fn is_prefix(bytes: &[u8]) -> bool {
    bytes.len() <= LONGEST_NAME && allowed(bytes)
}

fn is_name(bytes: &[u8]) -> bool {
    !bytes.is_empty() && is_prefix(bytes)
}

/// The book at the front of a buffer, or the refusal.
fn check(buffer: &[u8]) -> Result<Book<'_>, u8> {
    if is_old(buffer) {
        return Err(10);
    }
    laid_out(buffer).ok_or(1)
}

fn is_old(buffer: &[u8]) -> bool {
    buffer.first() == Some(&0x21)
}

/// The same, checked in one pass over its records and one over its scores.
fn laid_out(buffer: &[u8]) -> Option<Book<'_>> {
    let (n, image) = frame(0x22, buffer)?;
    let mut at = records_at(n);
    if at > image.len() {
        return None;
    }
    let mut name = Name::new();
    for _ in 0..n {
        let (kept, added) = (*image.get(at)? as usize, *image.get(at + 1)? as usize);
        let rest = image.get(at + 2..at + 2 + added)?;
        at += 2 + added;
        if added == 0 || kept > name.len || kept + added > LONGEST_NAME || !allowed(rest) {
            return None;
        }
        // Two names that share the first half of a sign share all of it.
        if kept > 0 && is_first_half(name.bytes[kept - 1]) {
            return None;
        }
        if kept < name.len && name.bytes[kept] >= rest[0] {
            return None;
        }
        name.put(kept, rest);
    }
    let book = Book { image, n };
    let peaks_hold = (0..n).step_by(16).all(|first| {
        u16_at(image, peaks_at(n) + first / 8) == book.best_of(first, n.min(first + 16))
    });
    (at == image.len() && peaks_hold).then_some(book)
}

impl Book<'_> {
    fn score(&self, i: usize) -> u32 {
        u32_at(self.image, 7 + 4 * i)
    }

    fn better(&self, a: usize, b: usize) -> usize {
        if self.score(b) > self.score(a) {
            b
        } else {
            a
        }
    }

    /// The best position from first to end, by its scores.
    fn best_of(&self, first: usize, end: usize) -> usize {
        (first + 1..end).fold(first, |best, i| self.better(best, i))
    }

    /// The same, by peaks for whole blocks. Not inlined, since the compiler was seen to lay `check`
    /// out so that every call takes a quarter longer.
    #[inline(never)]
    fn best_in(&self, first: usize, end: usize) -> usize {
        let mut best = first;
        let mut i = first;
        while i < end {
            if i.is_multiple_of(16) && i + 16 <= end {
                best = self.better(best, u16_at(self.image, peaks_at(self.n) + i / 8));
                i += 16;
            } else {
                best = self.better(best, i);
                i += 1;
            }
        }
        best
    }

    /// Unpacks the record at a place; gives the place behind it.
    fn unpack(&self, at: usize, name: &mut Name) -> usize {
        let (kept, added) = (self.image[at] as usize, self.image[at + 1] as usize);
        name.put(kept, &self.image[at + 2..at + 2 + added]);
        at + 2 + added
    }

    fn name_at(&self, position: usize) -> Name {
        let mut name = Name::new();
        let mut at = records_at(self.n);
        for _ in 0..=position {
            at = self.unpack(at, &mut name);
        }
        name
    }

    /// The first name that is not before a prefix. As long as the names are before it, how much of
    /// it the last one has tells of most records that the next one is, too.
    fn seek(&self, prefix: &[u8]) -> Sought {
        let mut at = records_at(self.n);
        let mut shared = 0;
        for position in 0..self.n {
            let (kept, added) = (self.image[at] as usize, self.image[at + 1] as usize);
            if kept < shared {
                return Sought { position, at, begins: false };
            }
            if kept == shared {
                let rest = &self.image[at + 2..at + 2 + added];
                let more = common(rest, &prefix[shared..]);
                shared += more;
                if shared == prefix.len() {
                    return Sought { position, at, begins: true };
                }
                if more < added && rest[more] > prefix[shared] {
                    return Sought { position, at, begins: false };
                }
            }
            at += 2 + added;
        }
        Sought { position: self.n, at, begins: false }
    }

    /// The positions that a prefix begins, from the first to behind the last.
    fn range(&self, prefix: &[u8]) -> (usize, usize) {
        let Sought { position, mut at, begins } = self.seek(prefix);
        if !begins {
            return (position, position);
        }
        let mut end = position + 1;
        while end < self.n {
            at += 2 + self.image[at + 1] as usize;
            if (self.image[at] as usize) < prefix.len() {
                break;
            }
            end += 1;
        }
        (position, end)
    }

    /// The position of a name, or the gap that it would fill.
    fn look_up(&self, name: &[u8]) -> Result<usize, usize> {
        let Sought { position, at, begins } = self.seek(name);
        if begins && self.image[at] as usize + self.image[at + 1] as usize == name.len() {
            Ok(position)
        } else {
            Err(position)
        }
    }

    /// Each entry of the book with one left out, or a new one put in, or both, at a place.
    fn each_spliced(
        &self,
        place: usize,
        skip: bool,
        fresh: Option<(&[u8], u32)>,
        mut each: impl FnMut(&[u8], u32),
    ) {
        let mut name = Name::new();
        let mut at = records_at(self.n);
        for i in 0..self.n {
            if i == place {
                if let Some((name, score)) = fresh {
                    each(name, score);
                }
            }
            at = self.unpack(at, &mut name);
            if !(skip && i == place) {
                each(name.get(), self.score(i));
            }
        }
        if place == self.n {
            if let Some((name, score)) = fresh {
                each(name, score);
            }
        }
    }

    fn splice(
        &self,
        place: usize,
        skip: bool,
        fresh: Option<(&[u8], u32)>,
        dst: &mut [u8],
    ) -> Written {
        write_book(dst, |each| self.each_spliced(place, skip, fresh, each))
    }
}

/// A position, n behind the last name; where its record stands; whether the prefix that was sought
/// begins its name.
struct Sought {
    position: usize,
    at: usize,
    begins: bool,
}

/// A name of the book and its score.
struct Row {
    name: Name,
    score: u32,
}

fn rows_of(book: &Book) -> Vec<Row> {
    let mut rows = Vec::with_capacity(book.n);
    let mut name = Name::new();
    let mut at = records_at(book.n);
    for i in 0..book.n {
        at = book.unpack(at, &mut name);
        rows.push(Row { name, score: book.score(i) });
    }
    rows
}

/// A pass over the entries of a book: the position where it stands, the place behind its record,
/// its name. At the end the position is n.
struct Pass<'a> {
    book: Book<'a>,
    i: usize,
    at: usize,
    name: Name,
}

impl<'a> Pass<'a> {
    fn new(book: Book<'a>) -> Pass<'a> {
        let mut pass = Pass { book, i: 0, at: records_at(book.n), name: Name::new() };
        pass.unpack();
        pass
    }

    fn unpack(&mut self) {
        if self.i < self.book.n {
            self.at = self.book.unpack(self.at, &mut self.name);
        }
    }

    fn step(&mut self) {
        self.i += 1;
        self.unpack();
    }

    fn name(&self) -> Option<&[u8]> {
        (self.i < self.book.n).then(|| self.name.get())
    }
}

/// Each entry of two books, a name that both have once, with the first book's score.
fn each_merged(first: Book, second: Book, each: &mut dyn FnMut(&[u8], u32)) {
    let (mut a, mut b) = (Pass::new(first), Pass::new(second));
    loop {
        let order = match (a.name(), b.name()) {
            (None, None) => return,
            (Some(_), None) => Ordering::Less,
            (None, Some(_)) => Ordering::Greater,
            (Some(one), Some(other)) => one.cmp(other),
        };
        let next = if order.is_le() { &a } else { &b };
        each(next.name.get(), next.book.score(next.i));
        if order.is_le() {
            a.step();
        }
        if order.is_ge() {
            b.step();
        }
    }
}

/// Writes the book of the entries that `entries` goes through, counted and measured first.
fn write_book(dst: &mut [u8], entries: impl Fn(&mut dyn FnMut(&[u8], u32))) -> Written {
    let (mut n, mut records) = (0, 0);
    let mut before = Name::new();
    entries(&mut |name, _| {
        records += 2 + name.len() - common(before.get(), name);
        before.put(0, name);
        n += 1;
    });
    if n > MOST_ENTRIES {
        return Err(5);
    }
    let total = records_at(n) + records;
    let dst = dst.get_mut(..total).ok_or(7)?;
    header(0x22, total, n, dst);
    let mut at = records_at(n);
    let mut i = 0;
    before.len = 0;
    entries(&mut |name, score| {
        dst[7 + 4 * i..11 + 4 * i].copy_from_slice(&score.to_be_bytes());
        let kept = common(before.get(), name);
        let rest = &name[kept..];
        dst[at] = kept as u8;
        dst[at + 1] = rest.len() as u8;
        dst[at + 2..at + 2 + rest.len()].copy_from_slice(rest);
        at += 2 + rest.len();
        before.put(0, name);
        i += 1;
    });
    for first in (0..n).step_by(16) {
        let book = Book { image: dst, n };
        let (best, peak) = (book.best_of(first, n.min(first + 16)), peaks_at(n) + first / 8);
        dst[peak..peak + 2].copy_from_slice(&(best as u16).to_be_bytes());
    }
    Ok((n, total))
}

fn common(a: &[u8], b: &[u8]) -> usize {
    a.iter().zip(b).take_while(|(x, y)| x == y).count()
}

fn header(version: u8, total: usize, n: usize, dst: &mut [u8]) {
    dst[0] = version;
    dst[1..5].copy_from_slice(&(total as u32).to_be_bytes());
    dst[5..7].copy_from_slice(&(n as u16).to_be_bytes());
}

fn put_entry(name: &[u8], score: u32, dst: &mut [u8]) -> Written {
    let bytes = name.len() + 5;
    let dst = dst.get_mut(..bytes).ok_or(7)?;
    dst[0] = name.len() as u8;
    dst[1..bytes - 4].copy_from_slice(name);
    dst[bytes - 4..].copy_from_slice(&score.to_be_bytes());
    Ok((1, bytes))
}

pub fn empty(dst: &mut [u8]) -> Written {
    write_book(dst, |_| {})
}

pub fn set(book: &[u8], name: &[u8], score: u32, dst: &mut [u8]) -> Written {
    let book = check(book)?;
    if !is_name(name) {
        return Err(2);
    }
    match book.look_up(name) {
        Ok(i) => book.splice(i, true, Some((name, score)), dst),
        Err(_) if book.n == MOST_ENTRIES => Err(5),
        Err(i) => book.splice(i, false, Some((name, score)), dst),
    }
}

pub fn withdraw(book: &[u8], name: &[u8], dst: &mut [u8]) -> Written {
    let book = check(book)?;
    if !is_name(name) {
        return Err(2);
    }
    let i = book.look_up(name).map_err(|_| 4)?;
    book.splice(i, true, None, dst)
}

pub fn merge(first: &[u8], second: &[u8], dst: &mut [u8]) -> Written {
    if is_old(second) {
        return Err(10);
    }
    let (first, second) = (check(first)?, check(second)?);
    write_book(dst, |each| each_merged(first, second, each))
}

pub fn find(book: &[u8], name: &[u8]) -> Result<Option<(usize, u32)>, u8> {
    let book = check(book)?;
    if !is_name(name) {
        return Err(2);
    }
    Ok(book.look_up(name).ok().map(|i| (i, book.score(i))))
}

pub fn name_at(book: &[u8], position: usize, dst: &mut [u8]) -> Written {
    let book = check(book)?;
    if position >= book.n {
        return Err(6);
    }
    put_entry(book.name_at(position).get(), book.score(position), dst)
}

pub fn name_of(book: &[u8], name: &[u8], dst: &mut [u8]) -> Written {
    let (_, score) = find(book, name)?.ok_or(4)?;
    put_entry(name, score, dst)
}

pub fn prefix_range(book: &[u8], prefix: &[u8]) -> Result<(usize, usize), u8> {
    let book = check(book)?;
    if !is_prefix(prefix) {
        return Err(2);
    }
    let (first, end) = book.range(prefix);
    Ok(if first < end { (first, end - first) } else { (0, 0) })
}

pub fn head(book: &[u8], bucket: usize) -> Result<(usize, usize), u8> {
    let book = check(book)?;
    if bucket > 0 || book.n == 0 {
        return Err(6);
    }
    let start = records_at(book.n) + 2;
    Ok((start, book.image[start - 1] as usize))
}

/// An open range: its first position, its best, its end.
#[derive(Clone, Copy)]
struct Open {
    first: usize,
    best: usize,
    end: usize,
}

/// Each of the positions from first to end in rank, the first k of them, at most
/// [`MOST_OFFERED`]: the machine of open ranges. Gives the looks.
fn each_ranked(
    book: Book,
    first: usize,
    end: usize,
    k: usize,
    mut each: impl FnMut(usize),
) -> usize {
    let mut open = [Open { first: 0, best: 0, end: 0 }; MOST_OFFERED + 1];
    let (mut waiting, mut looks) = (0, 0);
    let mut parts = [(first, end), (0, 0)];
    for _ in 0..k {
        for (first, end) in parts {
            if first < end {
                open[waiting] = Open { first, best: book.best_in(first, end), end };
                waiting += 1;
                looks += 1;
            }
        }
        let Some(at) = (0..waiting)
            .min_by_key(|&i| (std::cmp::Reverse(book.score(open[i].best)), open[i].best))
        else {
            break;
        };
        let range = open[at];
        each(range.best);
        waiting -= 1;
        open[at] = open[waiting];
        parts = [(range.first, range.best), (range.best + 1, range.end)];
    }
    looks
}

pub fn complete(book: &[u8], prefix: &[u8], k: usize, dst: &mut [u8], ranges: usize) -> Offered {
    let book = check(book)?;
    if !is_prefix(prefix) {
        return Err(2);
    }
    if !(1..=MOST_OFFERED).contains(&k) {
        return Err(3);
    }
    if dst.len() < 53 * k || ranges < k {
        return Err(7);
    }
    let (first, end) = book.range(prefix);
    let (mut offered, mut bytes) = (0, 0);
    let looks = each_ranked(book, first, end, k, |i| {
        let entry = put_entry(book.name_at(i).get(), book.score(i), &mut dst[bytes..]);
        bytes += entry.expect("room for k entries").1;
        offered += 1;
    });
    Ok((offered, bytes, looks))
}

/// The entries of a sheet that was checked.
fn each_listed(image: &[u8], n: usize, each: &mut dyn FnMut(&[u8], u32)) {
    let mut at = 7;
    for _ in 0..n {
        let end = at + 1 + image[at] as usize;
        each(&image[at + 1..end], u32_at(image, end));
        at = end + 4;
    }
}

fn check_sheet(buffer: &[u8]) -> Option<(usize, &[u8])> {
    let (n, image) = frame(0x11, buffer)?;
    let mut at = 7;
    let mut before: &[u8] = &[];
    for _ in 0..n {
        let length = *image.get(at)? as usize;
        let name = image.get(at + 1..at + 1 + length)?;
        if !is_name(name) || name <= before {
            return None;
        }
        before = name;
        at += 5 + length;
    }
    (at == image.len()).then_some((n, image))
}

pub fn build(sheet: &[u8], dst: &mut [u8]) -> Written {
    let (n, image) = check_sheet(sheet).ok_or(1)?;
    write_book(dst, |each| each_listed(image, n, each))
}

pub fn list(book: &[u8], dst: &mut [u8]) -> Written {
    let book = check(book)?;
    let mut total = 7;
    book.each_spliced(book.n, false, None, |name, _| total += 5 + name.len());
    let dst = dst.get_mut(..total).ok_or(7)?;
    header(0x11, total, book.n, dst);
    let mut at = 7;
    book.each_spliced(book.n, false, None, |name, score| {
        dst[at] = name.len() as u8;
        dst[at + 1..at + 1 + name.len()].copy_from_slice(name);
        dst[at + 1 + name.len()..at + 5 + name.len()].copy_from_slice(&score.to_be_bytes());
        at += 5 + name.len();
    });
    Ok((book.n, total))
}
