//! The entries in an answer.
use std::iter::FusedIterator;

/// An entry: a name, in bytes, and its score. The names of a book are UTF-8.
#[derive(Clone, Copy, Debug, PartialEq, Eq)]
pub struct Entry<'a> {
    /// The name, without a zero at its end.
    pub name: &'a [u8],
    /// The score.
    pub score: u32,
}

/// The entries in bytes that hold one behind the other; see [`entries`].
#[derive(Clone, Debug)]
pub struct Entries<'a> {
    rest: &'a [u8],
}

/// The entries that stand one behind the other, each as length byte, name and 4-byte score: those
/// of an answer, cut to the bytes that the call told, or those of a sheet behind its first
/// [`FRONT`](crate::FRONT) bytes. It ends at the end of the bytes, or where they hold no whole
/// entry.
///
/// ```
/// let answer = [2, b'r', b'l', 0, 0, 0, 12, 2, b'r', b'c', 0, 0, 0, 9];
/// let mut entries = label_book::entries(&answer);
/// assert_eq!(entries.next(), Some(label_book::Entry { name: b"rl", score: 12 }));
/// assert_eq!(entries.next(), Some(label_book::Entry { name: b"rc", score: 9 }));
/// assert_eq!(entries.next(), None);
/// ```
pub fn entries(bytes: &[u8]) -> Entries<'_> {
    Entries { rest: bytes }
}

impl<'a> Iterator for Entries<'a> {
    type Item = Entry<'a>;

    fn next(&mut self) -> Option<Entry<'a>> {
        let whole = first(self.rest);
        self.rest = whole.map_or(&[], |(_, rest)| rest);
        whole.map(|(entry, _)| entry)
    }
}

impl FusedIterator for Entries<'_> {}

/// The first entry, and what stands behind it.
fn first(bytes: &[u8]) -> Option<(Entry<'_>, &[u8])> {
    let (length, rest) = bytes.split_first()?;
    let (name, rest) = rest.split_at_checked(usize::from(*length))?;
    let (score, rest) = rest.split_first_chunk()?;
    Some((Entry { name, score: u32::from_be_bytes(*score) }, rest))
}
