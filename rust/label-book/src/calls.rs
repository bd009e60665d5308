//! The calls on slices. Each hands the pointers and lengths of slices to the C name, and out
//! pointers of locals, which is all that the C names ask for: a source is a shared slice and a
//! destination an exclusive one, so that they do not overlap.
use crate::c::{self, Panel, Range};
use crate::refusal::Refusal;

/// What a call wrote, or a check found: how many entries are in it, and its bytes.
#[derive(Clone, Copy, Debug, PartialEq, Eq)]
pub struct Written {
    /// How many entries.
    pub entries: usize,
    /// How many bytes, at the front of the buffer.
    pub bytes: usize,
}

/// Where a name stands in a book, and its score.
#[derive(Clone, Copy, Debug, PartialEq, Eq)]
pub struct Found {
    /// The position, from 0 in name order.
    pub position: usize,
    /// The score.
    pub score: u32,
}

/// The positions that a prefix begins.
#[derive(Clone, Copy, Debug, PartialEq, Eq)]
pub struct Span {
    /// The first of them, 0 if there is none.
    pub first: usize,
    /// How many there are.
    pub count: usize,
}

/// What a completion wrote.
#[derive(Clone, Copy, Debug, PartialEq, Eq)]
pub struct Offered {
    /// How many entries are offered.
    pub offered: usize,
    /// The bytes that they take, at the front of the destination.
    pub bytes: usize,
    /// How often the call looked for the best of a range: at most 2 × `k` − 1, so never more than
    /// 17; 0 from a trie.
    pub looks: usize,
}

/// What the run of a history did.
#[derive(Clone, Copy, Debug, PartialEq, Eq)]
pub struct Played {
    /// How many calls were made, refused ones included.
    pub calls: usize,
    /// Whether the second buffer holds the book at the end.
    pub turned: bool,
}

/// The answer, or the refusal whose number a call returned.
fn answer<T>(number: u8, told: T) -> Result<T, Refusal> {
    match number {
        0 => Ok(told),
        _ => Err(Refusal::numbered(number).expect("the library returns 0 or a refusal's number")),
    }
}

/// The answer of a call that tells two counts.
fn counts(call: impl FnOnce(*mut usize, *mut usize) -> u8) -> Result<(usize, usize), Refusal> {
    let (mut first, mut second) = (0, 0);
    let number = call(&mut first, &mut second);
    answer(number, (first, second))
}

/// The answer of a call that tells entries and bytes.
fn written(call: impl FnOnce(*mut usize, *mut usize) -> u8) -> Result<Written, Refusal> {
    counts(call).map(|(entries, bytes)| Written { entries, bytes })
}

/// Writes the book of no entries: 7 bytes.
///
/// # Errors
/// [`Refusal::TooShort`].
pub fn empty(dst: &mut [u8]) -> Result<Written, Refusal> {
    written(|e, b| unsafe { c::label_book_empty(dst.as_mut_ptr(), dst.len(), e, b) })
}

/// Writes the book with the name added, or given a new score.
///
/// # Errors
/// [`Refusal::OldVersion`], [`Refusal::NotLaidOut`], [`Refusal::NotAllowed`], [`Refusal::Full`],
/// [`Refusal::TooShort`].
pub fn set(book: &[u8], name: &[u8], score: u32, dst: &mut [u8]) -> Result<Written, Refusal> {
    let (at, len) = (dst.as_mut_ptr(), dst.len());
    written(|e, b| unsafe {
        c::label_book_set(
            book.as_ptr(),
            book.len(),
            name.as_ptr(),
            name.len(),
            score,
            at,
            len,
            e,
            b,
        )
    })
}

/// Writes the book without the name. It is shorter than the book was, so that a destination of as
/// many bytes as that has is never too short.
///
/// # Errors
/// [`Refusal::OldVersion`], [`Refusal::NotLaidOut`], [`Refusal::NotAllowed`], [`Refusal::NotHeld`],
/// [`Refusal::TooShort`].
pub fn withdraw(book: &[u8], name: &[u8], dst: &mut [u8]) -> Result<Written, Refusal> {
    let (at, len) = (dst.as_mut_ptr(), dst.len());
    written(|e, b| unsafe {
        c::label_book_withdraw(book.as_ptr(), book.len(), name.as_ptr(), name.len(), at, len, e, b)
    })
}

/// Writes the book of two books' entries; where both have a name, the first one's score counts.
///
/// # Errors
/// [`Refusal::OldVersion`] of either, [`Refusal::NotLaidOut`] of either, [`Refusal::Full`],
/// [`Refusal::TooShort`].
pub fn merge(first: &[u8], second: &[u8], dst: &mut [u8]) -> Result<Written, Refusal> {
    let (at, len) = (dst.as_mut_ptr(), dst.len());
    written(|e, b| unsafe {
        c::label_book_merge(
            first.as_ptr(),
            first.len(),
            second.as_ptr(),
            second.len(),
            at,
            len,
            e,
            b,
        )
    })
}

/// Looks whether a book stands at the front of a buffer: how many entries it has, and its bytes,
/// which are those to save.
///
/// # Errors
/// [`Refusal::OldVersion`], [`Refusal::NotLaidOut`].
pub fn check(book: &[u8]) -> Result<Written, Refusal> {
    written(|e, b| unsafe { c::label_book_check(book.as_ptr(), book.len(), e, b) })
}

/// The position and score of a name, if the book holds it.
///
/// # Errors
/// [`Refusal::OldVersion`], [`Refusal::NotLaidOut`], [`Refusal::NotAllowed`].
pub fn find(book: &[u8], name: &[u8]) -> Result<Option<Found>, Refusal> {
    let mut score = 0;
    let told = counts(|found, position| unsafe {
        let (at, len) = (name.as_ptr(), name.len());
        c::label_book_find(book.as_ptr(), book.len(), at, len, found, position, &mut score)
    });
    told.map(|(found, position)| (found != 0).then_some(Found { position, score }))
}

/// Writes the entry at a position as one answer entry, of at most
/// [`ENTRY_MAX`](crate::ENTRY_MAX) bytes.
///
/// # Errors
/// [`Refusal::OldVersion`], [`Refusal::NotLaidOut`], [`Refusal::NoSuchPlace`],
/// [`Refusal::TooShort`].
pub fn name_at(book: &[u8], position: usize, dst: &mut [u8]) -> Result<Written, Refusal> {
    let (at, len) = (dst.as_mut_ptr(), dst.len());
    written(|e, b| unsafe {
        c::label_book_name_at(book.as_ptr(), book.len(), position, at, len, e, b)
    })
}

/// Writes the given name with its score in the same way.
///
/// # Errors
/// [`Refusal::OldVersion`], [`Refusal::NotLaidOut`], [`Refusal::NotAllowed`], [`Refusal::NotHeld`],
/// [`Refusal::TooShort`].
pub fn name_of(book: &[u8], name: &[u8], dst: &mut [u8]) -> Result<Written, Refusal> {
    let (at, len) = (dst.as_mut_ptr(), dst.len());
    written(|e, b| unsafe {
        c::label_book_name_of(book.as_ptr(), book.len(), name.as_ptr(), name.len(), at, len, e, b)
    })
}

/// The positions whose names a prefix begins.
///
/// # Errors
/// [`Refusal::OldVersion`], [`Refusal::NotLaidOut`], [`Refusal::NotAllowed`].
pub fn prefix_range(book: &[u8], prefix: &[u8]) -> Result<Span, Refusal> {
    let told = counts(|first, count| unsafe {
        let (at, len) = (prefix.as_ptr(), prefix.len());
        c::label_book_prefix_range(book.as_ptr(), book.len(), at, len, first, count)
    });
    told.map(|(first, count)| Span { first, count })
}

/// The head name of a bucket, as a part of the book. Only bucket 0 of a book with entries has one,
/// the first name; up to version 1.5 there was a bucket for each 8 names.
///
/// # Errors
/// [`Refusal::OldVersion`], [`Refusal::NotLaidOut`], [`Refusal::NoSuchPlace`].
pub fn head(book: &[u8], bucket: usize) -> Result<&[u8], Refusal> {
    let told = counts(|start, length| unsafe {
        c::label_book_head(book.as_ptr(), book.len(), bucket, start, length)
    });
    told.map(|(start, length)| &book[start..start + length])
}

/// Writes the book of a sheet's entries.
///
/// # Errors
/// [`Refusal::NotLaidOut`], [`Refusal::TooShort`].
pub fn build(sheet: &[u8], dst: &mut [u8]) -> Result<Written, Refusal> {
    let (at, len) = (dst.as_mut_ptr(), dst.len());
    written(|e, b| unsafe { c::label_book_build(sheet.as_ptr(), sheet.len(), at, len, e, b) })
}

/// Writes the sheet of a book's entries.
///
/// # Errors
/// [`Refusal::OldVersion`], [`Refusal::NotLaidOut`], [`Refusal::TooShort`].
pub fn list(book: &[u8], dst: &mut [u8]) -> Result<Written, Refusal> {
    let (at, len) = (dst.as_mut_ptr(), dst.len());
    written(|e, b| unsafe { c::label_book_list(book.as_ptr(), book.len(), at, len, e, b) })
}

/// Writes a book of version 21, as this library wrote them up to 1.5, as one of version 22, and one
/// of 22 as one of 21: byte 0 alone says which it is. Converted back it has the same bytes again.
/// Going back to 21 may need more bytes; [`BOOK_MAX`](crate::BOOK_MAX) are always enough.
///
/// ```
/// let old = b"\x21\0\0\0\x12\0\x01\0\0\0\x05\0\x0F\0\0\x02ac";
/// let (mut book, mut again) = ([0; 18], [0; 18]);
/// let told = label_book::convert(old, &mut book)?;
/// assert_eq!(book[..told.bytes], *b"\x22\0\0\0\x11\0\x01\0\0\0\x05\0\0\0\x02ac");
/// label_book::convert(&book, &mut again)?;
/// assert_eq!(again, *old);
/// # Ok::<(), label_book::Refusal>(())
/// ```
///
/// # Errors
/// [`Refusal::NotLaidOut`], of a damaged book of either version too, [`Refusal::TooShort`].
pub fn convert(book: &[u8], dst: &mut [u8]) -> Result<Written, Refusal> {
    let (at, len) = (dst.as_mut_ptr(), dst.len());
    written(|e, b| unsafe { c::label_book_convert(book.as_ptr(), book.len(), at, len, e, b) })
}

/// Writes the page of a book's entries for the wall, as text: the heading line, then the lines of
/// each entry, in rank, of 40 bytes and a line feed each; `docs/FORMAT.md` shows one. It has at
/// most [`PAGE_MAX`](crate::PAGE_MAX) bytes.
///
/// # Errors
/// [`Refusal::OldVersion`], [`Refusal::NotLaidOut`], [`Refusal::TooShort`].
pub fn page(book: &[u8], dst: &mut [u8]) -> Result<Written, Refusal> {
    let (at, len) = (dst.as_mut_ptr(), dst.len());
    written(|e, b| unsafe { c::label_book_page(book.as_ptr(), book.len(), at, len, e, b) })
}

/// Writes the trie of a book's entries.
///
/// # Errors
/// [`Refusal::OldVersion`], [`Refusal::NotLaidOut`], [`Refusal::TooShort`].
pub fn write_trie(book: &[u8], dst: &mut [u8]) -> Result<Written, Refusal> {
    let (at, len) = (dst.as_mut_ptr(), dst.len());
    written(|e, b| unsafe { c::label_book_write_trie(book.as_ptr(), book.len(), at, len, e, b) })
}

/// Writes the best `k` of the entries that a prefix begins, or all if fewer, as answer entries, `k`
/// from 1 to [`COUNT_MAX`](crate::COUNT_MAX). At least [`ENTRY_MAX`](crate::ENTRY_MAX) × `k` bytes
/// and `k` ranges are lent; after an answer anything may be in the ranges.
///
/// # Errors
/// [`Refusal::OldVersion`], [`Refusal::NotLaidOut`], [`Refusal::NotAllowed`],
/// [`Refusal::CountOutOfRange`], [`Refusal::TooShort`].
pub fn complete(
    book: &[u8],
    prefix: &[u8],
    k: usize,
    dst: &mut [u8],
    ranges: &mut [Range],
) -> Result<Offered, Refusal> {
    let mut looks = 0;
    let told = counts(|offered, bytes| unsafe {
        let (text, typed) = (prefix.as_ptr(), prefix.len());
        let (at, len) = (dst.as_mut_ptr(), dst.len());
        let (open, most) = (ranges.as_mut_ptr(), ranges.len());
        c::label_book_complete(
            book.as_ptr(),
            book.len(),
            text,
            typed,
            k,
            at,
            len,
            open,
            most,
            offered,
            bytes,
            &mut looks,
        )
    });
    told.map(|(offered, bytes)| Offered { offered, bytes, looks })
}

/// The same from a trie, without ranges.
///
/// # Errors
/// [`Refusal::NotLaidOut`], [`Refusal::NotAllowed`], [`Refusal::CountOutOfRange`],
/// [`Refusal::TooShort`].
pub fn complete_trie(
    trie: &[u8],
    prefix: &[u8],
    k: usize,
    dst: &mut [u8],
) -> Result<Offered, Refusal> {
    let mut looks = 0;
    let told = counts(|offered, bytes| unsafe {
        let (text, typed) = (prefix.as_ptr(), prefix.len());
        let (at, len) = (dst.as_mut_ptr(), dst.len());
        c::label_book_complete_trie(
            trie.as_ptr(),
            trie.len(),
            text,
            typed,
            k,
            at,
            len,
            offered,
            bytes,
            &mut looks,
        )
    });
    told.map(|(offered, bytes)| Offered { offered, bytes, looks })
}

/// One key, which changes the panel; tells the rows, at most [`PANEL_ROWS`](crate::PANEL_ROWS). The
/// keys besides 20 to 7E are in [`key`](crate::key); a byte 80 or 81 that a terminal sends, as a
/// part of another sign, is none of them.
///
/// Before the key acts, the highlight goes to the row that has the held name. Where that name is no
/// longer on a row, or its length is 0, the highlight given in stays; past the last row it is
/// lowered to it. After the key the held name is the one on the highlighted row. So the highlight
/// stays on its name when the book was edited since the key before. To show a list anew after an
/// edit, press [`key::RECOUNT`](crate::key::RECOUNT) first.
///
/// # Errors
/// [`Refusal::OldVersion`], [`Refusal::NotLaidOut`], [`Refusal::NotAllowed`],
/// [`Refusal::NoSuchKey`], [`Refusal::TextFull`].
pub fn press(book: &[u8], panel: &mut Panel, key: u8) -> Result<usize, Refusal> {
    let mut rows = 0;
    let number = unsafe { c::label_book_press(book.as_ptr(), book.len(), panel, key, &mut rows) };
    answer(number, rows)
}

/// Runs a history, a script of sets and withdrawals, on two buffers of one length from the empty
/// book on, and keeps the answers in `out`; `docs/FORMAT.md` lays both out.
///
/// # Errors
/// [`Refusal::NotLaidOut`] of the script, [`Refusal::TooShort`]. A call of the script that is
/// refused is told in `out`.
pub fn run(
    script: &[u8],
    first: &mut [u8],
    second: &mut [u8],
    out: &mut [u8],
) -> Result<Played, Refusal> {
    let told = counts(|calls, turned| unsafe {
        let (one, one_len) = (first.as_mut_ptr(), first.len());
        let (two, two_len) = (second.as_mut_ptr(), second.len());
        let (kept, kept_len) = (out.as_mut_ptr(), out.len());
        c::label_book_run(
            script.as_ptr(),
            script.len(),
            one,
            one_len,
            two,
            two_len,
            kept,
            kept_len,
            calls,
            turned,
        )
    });
    told.map(|(calls, turned)| Played { calls, turned: turned != 0 })
}
