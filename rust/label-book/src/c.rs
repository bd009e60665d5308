//! The library's C names, as `include/label_book.h` declares them: the only declarations of them in
//! Rust. `.ci/c-names` compares both with the functions themselves. The functions of this crate's
//! root are these with slices in and results out; use those.

/// An open range, in which completion from a book keeps where it looks on.
#[repr(C)]
#[derive(Clone, Copy, Debug, Default, PartialEq, Eq)]
pub struct Range {
    /// The first position.
    pub first: usize,
    /// The position of the best-ranked entry.
    pub best: usize,
    /// That entry's score.
    pub score: u32,
    /// The last position.
    pub last: usize,
}

/// What is typed on a panel, the highlighted row of the names offered for it, and the name on that
/// row. Each key reads and updates it: by the held name it finds the highlighted row again where
/// the book was edited meanwhile. So who sets text or highlight without a key makes `held_len` 0.
/// The default, all zeros, is an empty panel.
#[repr(C)]
#[derive(Clone, Debug, PartialEq, Eq)]
pub struct Panel {
    /// The text, in its first `len` bytes. A key that is accepted makes the others zero.
    pub text: [u8; crate::NAME_MAX],
    /// How many bytes are typed.
    pub len: usize,
    /// The highlighted row, from 0. A key that finds the held name on another row goes by that.
    pub highlight: usize,
    /// How many names are offered.
    pub rows: usize,
    /// The name on the highlighted row, in the first `held_len` bytes. A key that is accepted makes
    /// the others zero.
    pub held: [u8; crate::NAME_MAX],
    /// How many bytes it has, 0 if no name is offered.
    pub held_len: usize,
}

// One line a name, so that they can be read beside the header's.
#[rustfmt::skip]
#[allow(missing_docs)]
extern "C" {
    pub fn label_book_empty(dst: *mut u8, dst_len: usize, entries: *mut usize, bytes: *mut usize) -> u8;
    pub fn label_book_set(book: *const u8, book_len: usize, name: *const u8, name_len: usize, score: u32, dst: *mut u8, dst_len: usize, entries: *mut usize, bytes: *mut usize) -> u8;
    pub fn label_book_withdraw(book: *const u8, book_len: usize, name: *const u8, name_len: usize, dst: *mut u8, dst_len: usize, entries: *mut usize, bytes: *mut usize) -> u8;
    pub fn label_book_merge(first: *const u8, first_len: usize, second: *const u8, second_len: usize, dst: *mut u8, dst_len: usize, entries: *mut usize, bytes: *mut usize) -> u8;
    pub fn label_book_check(book: *const u8, book_len: usize, entries: *mut usize, bytes: *mut usize) -> u8;
    pub fn label_book_find(book: *const u8, book_len: usize, name: *const u8, name_len: usize, found: *mut usize, position: *mut usize, score: *mut u32) -> u8;
    pub fn label_book_name_at(book: *const u8, book_len: usize, position: usize, dst: *mut u8, dst_len: usize, entries: *mut usize, bytes: *mut usize) -> u8;
    pub fn label_book_name_of(book: *const u8, book_len: usize, name: *const u8, name_len: usize, dst: *mut u8, dst_len: usize, entries: *mut usize, bytes: *mut usize) -> u8;
    pub fn label_book_prefix_range(book: *const u8, book_len: usize, prefix: *const u8, prefix_len: usize, first: *mut usize, count: *mut usize) -> u8;
    pub fn label_book_head(book: *const u8, book_len: usize, bucket: usize, start: *mut usize, length: *mut usize) -> u8;
    pub fn label_book_build(sheet: *const u8, sheet_len: usize, dst: *mut u8, dst_len: usize, entries: *mut usize, bytes: *mut usize) -> u8;
    pub fn label_book_list(book: *const u8, book_len: usize, dst: *mut u8, dst_len: usize, entries: *mut usize, bytes: *mut usize) -> u8;
    pub fn label_book_convert(book: *const u8, book_len: usize, dst: *mut u8, dst_len: usize, entries: *mut usize, bytes: *mut usize) -> u8;
    pub fn label_book_page(book: *const u8, book_len: usize, dst: *mut u8, dst_len: usize, entries: *mut usize, bytes: *mut usize) -> u8;
    pub fn label_book_write_trie(book: *const u8, book_len: usize, dst: *mut u8, dst_len: usize, entries: *mut usize, bytes: *mut usize) -> u8;
    pub fn label_book_complete(book: *const u8, book_len: usize, prefix: *const u8, prefix_len: usize, k: usize, dst: *mut u8, dst_len: usize, ranges: *mut Range, ranges_len: usize, offered: *mut usize, bytes: *mut usize, looks: *mut usize) -> u8;
    pub fn label_book_complete_trie(trie: *const u8, trie_len: usize, prefix: *const u8, prefix_len: usize, k: usize, dst: *mut u8, dst_len: usize, offered: *mut usize, bytes: *mut usize, looks: *mut usize) -> u8;
    pub fn label_book_press(book: *const u8, book_len: usize, panel: *mut Panel, key: u8, rows: *mut usize) -> u8;
    pub fn label_book_run(script: *const u8, script_len: usize, first: *mut u8, first_len: usize, second: *mut u8, second_len: usize, out: *mut u8, out_len: usize, calls: *mut usize, turned: *mut usize) -> u8;
}
