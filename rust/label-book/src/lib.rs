//! The label book of a teaching bench: named, scored set-ups in a byte format, of which a panel
//! offers the best-scored names that begin with what a student has typed.
//!
//! The work is done by the proved library `liblabel_book.a`, in whose C interface every call ends
//! with an answer or a numbered refusal, whatever it is given. This crate is a thin wrapper, which
//! is not proved: the calls on slices, answers and refusals as types, and [`Book`], which owns its
//! buffers. What each call does is said in `docs/CALLS.md`, the formats are in `docs/FORMAT.md`.
//!
//! A book, sheet or trie is an image at the front of a buffer; the bytes behind it are neither read
//! nor changed. A name is 1 to 48 bytes of UTF-8 whose signs are 20 to 7E, `µ` (C2 B5) and `Ω`
//! (CE A9); lengths count bytes. A refusal changes nothing.
//!
//! Books are of version 22. One of version 21, as this library wrote them up to 1.5, is declined by
//! every call that is given a book ([`Refusal::OldVersion`]) but [`convert`], which writes it as
//! one of 22, and one of 22 as one of 21 for a panel that reads no other. [`Book::from_old_image`]
//! and [`Book::old_image`] do so for a [`Book`].
//!
//! ```
//! use label_book::{Book, Panel};
//!
//! let mut book = Book::new();
//! for (name, score) in [("ac", 5), ("rc", 9), ("rc step", 9), ("rl", 12)] {
//!     book.set(name.as_bytes(), score)?;
//! }
//!
//! // A student types "r": rl, rc and rc step are offered, the best first.
//! let mut panel = Panel::default();
//! assert_eq!(book.press(&mut panel, b'r')?, 3);
//! // One row down.
//! book.press(&mut panel, label_book::key::DOWN)?;
//! assert_eq!((panel.highlight, panel.held_name()), (1, &b"rc"[..]));
//! // A teacher adds a name with a better score: the highlight stays on "rc", which is then taken.
//! book.set(b"rlc", 20)?;
//! book.press(&mut panel, label_book::key::RECOUNT)?;
//! assert_eq!((panel.highlight, panel.held_name()), (2, &b"rc"[..]));
//! book.press(&mut panel, label_book::key::TAKE)?;
//! assert_eq!(panel.typed(), b"rc");
//!
//! // µ and Ω have two bytes each, keys of their own, and are erased whole.
//! book.set("10 µF".as_bytes(), 7)?;
//! panel = Panel::default();
//! for key in [b'1', b'0', b' ', label_book::key::MICRO] {
//!     book.press(&mut panel, key)?;
//! }
//! assert_eq!((panel.typed(), panel.held_name()), ("10 µ".as_bytes(), "10 µF".as_bytes()));
//! book.press(&mut panel, label_book::key::ERASE)?;
//! assert_eq!(panel.typed(), b"10 ");
//! # Ok::<(), label_book::Refusal>(())
//! ```
#![warn(missing_docs)]

mod book;
pub mod c;
mod calls;
mod entries;
mod refusal;

pub use book::{Book, Completion};
pub use c::{Panel, Range};
pub use calls::{build, check, complete, complete_trie, convert, empty, find, head, list, merge};
pub use calls::{name_at, name_of, page, prefix_range, press, run, set, withdraw, write_trie};
pub use calls::{Found, Offered, Played, Span, Written};
pub use entries::{entries, Entries, Entry};
pub use refusal::Refusal;

/// The most bytes of a name or prefix.
pub const NAME_MAX: usize = 48;
/// The most entries of a book, sheet or trie.
pub const ENTRIES_MAX: usize = 1_024;
/// The most bytes of an answer entry: length byte, name, 4-byte score.
pub const ENTRY_MAX: usize = 53;
/// The most entries that can be asked of a completion. Up to version 1.3 it was 16: counts from 10
/// to 16 are refused now ([`Refusal::CountOutOfRange`]), and what is sized by it is smaller.
pub const COUNT_MAX: usize = 9;
/// The most rows of a panel.
pub const PANEL_ROWS: usize = 5;
/// The bytes in front of every image's entries: version, total length, number of entries.
pub const FRONT: usize = 7;
/// No book is longer, nor one of version 21.
pub const BOOK_MAX: usize = 55_559;
/// No sheet is longer.
pub const SHEET_MAX: usize = 54_279;
/// No trie is longer, as `docs/FORMAT.md` argues.
pub const TRIE_MAX: usize = 70_759;
/// No page is longer.
pub const PAGE_MAX: usize = 84_009;

/// The keys of a panel besides 20 to 7E, which append themselves.
pub mod key {
    /// Only counts the rows again, after an edit of the book; the highlight finds its name.
    pub const RECOUNT: u8 = 0x00;
    /// One row up.
    pub const UP: u8 = 0x01;
    /// One row down.
    pub const DOWN: u8 = 0x02;
    /// Erases the last sign: one byte, or both of a µ or Ω.
    pub const ERASE: u8 = 0x08;
    /// Replaces the text by the highlighted name.
    pub const TAKE: u8 = 0x0D;
    /// Appends µ, the bytes C2 B5.
    pub const MICRO: u8 = 0x80;
    /// Appends Ω, the bytes CE A9.
    pub const OHM: u8 = 0x81;
}

impl Panel {
    /// What is typed.
    pub fn typed(&self) -> &[u8] {
        &self.text[..self.len.min(NAME_MAX)]
    }

    /// The name on the highlighted row, as the last key left it; empty if no name was offered.
    pub fn held_name(&self) -> &[u8] {
        &self.held[..self.held_len.min(NAME_MAX)]
    }
}

impl Default for Panel {
    fn default() -> Panel {
        Panel {
            text: [0; NAME_MAX],
            len: 0,
            highlight: 0,
            rows: 0,
            held: [0; NAME_MAX],
            held_len: 0,
        }
    }
}
