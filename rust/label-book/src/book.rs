//! A book that owns its buffers.
use crate::c::{Panel, Range};
use crate::calls::{self, Found, Written};
use crate::entries::{entries, Entries};
use crate::refusal::Refusal;
use crate::{BOOK_MAX, COUNT_MAX, ENTRY_MAX, PAGE_MAX, SHEET_MAX, TRIE_MAX};
use std::fmt;

/// A book, with room for every book: an edit writes the new book into a second buffer, and the two
/// change roles. A refusal leaves the book as it was.
///
/// ```
/// let mut book = label_book::Book::new();
/// book.set(b"rc", 9)?;
/// book.set(b"rl", 12)?;
/// let best = book.complete(b"r", 2)?;
/// let names: Vec<&[u8]> = best.entries().map(|entry| entry.name).collect();
/// assert_eq!(names, [b"rl", b"rc"]);
/// assert_eq!(book.withdraw(b"zz"), Err(label_book::Refusal::NotHeld));
/// # Ok::<(), label_book::Refusal>(())
/// ```
#[derive(Clone)]
pub struct Book {
    held: Box<[u8]>,
    other: Box<[u8]>,
    told: Written,
}

impl Book {
    /// The book of no entries.
    pub fn new() -> Book {
        Book::written(calls::empty).expect("the book of no entries fits")
    }

    /// The book at the front of some bytes; those behind it are not looked at.
    ///
    /// ```
    /// use label_book::{Book, Refusal};
    ///
    /// // A book of version 21, as this library wrote it up to 1.5, is converted.
    /// fn load(image: &[u8]) -> Result<Book, Refusal> {
    ///     match Book::from_image(image) {
    ///         Err(Refusal::OldVersion) => Book::from_old_image(image),
    ///         book => book,
    ///     }
    /// }
    /// assert_eq!(load(&[0x21, 0, 0, 0, 7, 0, 0])?, Book::new());
    /// assert_eq!(load(&[0x22, 0, 0, 0, 7, 0, 0])?, Book::new());
    /// # Ok::<(), Refusal>(())
    /// ```
    ///
    /// # Errors
    /// [`Refusal::OldVersion`], [`Refusal::NotLaidOut`].
    pub fn from_image(image: &[u8]) -> Result<Book, Refusal> {
        Book::written(|dst| {
            let told = calls::check(image)?;
            dst[..told.bytes].copy_from_slice(&image[..told.bytes]);
            Ok(told)
        })
    }

    /// The book of the old one, of version 21, at the front of some bytes.
    ///
    /// # Errors
    /// [`Refusal::NotLaidOut`], of a book of version 22 too, which [`Book::from_image`] takes.
    pub fn from_old_image(image: &[u8]) -> Result<Book, Refusal> {
        Book::written(|dst| match calls::check(image) {
            Err(Refusal::OldVersion) => calls::convert(image, dst),
            _ => Err(Refusal::NotLaidOut),
        })
    }

    /// The book of the sheet at the front of some bytes.
    ///
    /// # Errors
    /// [`Refusal::NotLaidOut`].
    pub fn from_sheet(sheet: &[u8]) -> Result<Book, Refusal> {
        Book::written(|dst| calls::build(sheet, dst))
    }

    fn written(write: impl FnOnce(&mut [u8]) -> Result<Written, Refusal>) -> Result<Book, Refusal> {
        let mut held = vec![0; BOOK_MAX].into_boxed_slice();
        let told = write(&mut held)?;
        Ok(Book { held, other: vec![0; BOOK_MAX].into_boxed_slice(), told })
    }

    /// Its image: the bytes to save.
    pub fn image(&self) -> &[u8] {
        &self.held[..self.told.bytes]
    }

    /// How many entries it has.
    pub fn entries(&self) -> usize {
        self.told.entries
    }

    /// Adds a name, or gives it a new score.
    ///
    /// # Errors
    /// [`Refusal::NotAllowed`], [`Refusal::Full`].
    pub fn set(&mut self, name: &[u8], score: u32) -> Result<Written, Refusal> {
        self.edit(|book, dst| calls::set(book, name, score, dst))
    }

    /// Removes a name.
    ///
    /// # Errors
    /// [`Refusal::NotAllowed`], [`Refusal::NotHeld`].
    pub fn withdraw(&mut self, name: &[u8]) -> Result<Written, Refusal> {
        self.edit(|book, dst| calls::withdraw(book, name, dst))
    }

    /// Adds the names of a second book that this one does not have.
    ///
    /// # Errors
    /// [`Refusal::OldVersion`] and [`Refusal::NotLaidOut`] of the second book, [`Refusal::Full`].
    pub fn merge(&mut self, second: &[u8]) -> Result<Written, Refusal> {
        self.edit(|book, dst| calls::merge(book, second, dst))
    }

    fn edit(
        &mut self,
        call: impl FnOnce(&[u8], &mut [u8]) -> Result<Written, Refusal>,
    ) -> Result<Written, Refusal> {
        self.told = call(&self.held, &mut self.other)?;
        std::mem::swap(&mut self.held, &mut self.other);
        Ok(self.told)
    }

    /// The position and score of a name, if it is held.
    ///
    /// # Errors
    /// [`Refusal::NotAllowed`].
    pub fn find(&self, name: &[u8]) -> Result<Option<Found>, Refusal> {
        calls::find(&self.held, name)
    }

    /// The best `k` of the entries that a prefix begins, or all if fewer, `k` from 1 to
    /// [`COUNT_MAX`].
    ///
    /// # Errors
    /// [`Refusal::NotAllowed`], [`Refusal::CountOutOfRange`].
    pub fn complete(&self, prefix: &[u8], k: usize) -> Result<Completion, Refusal> {
        let mut answer = [0; COUNT_MAX * ENTRY_MAX];
        let mut ranges = [Range::default(); COUNT_MAX];
        let told = calls::complete(&self.held, prefix, k, &mut answer, &mut ranges)?;
        Ok(Completion { answer, told })
    }

    /// One key of a panel on this book; tells the rows. The panel's highlight stays on its name
    /// where the book was edited since the key before, if that name is still offered.
    ///
    /// # Errors
    /// [`Refusal::NotAllowed`], [`Refusal::NoSuchKey`], [`Refusal::TextFull`].
    pub fn press(&self, panel: &mut Panel, key: u8) -> Result<usize, Refusal> {
        calls::press(&self.held, panel, key)
    }

    /// The image of its entries in the old version 21, for a panel that reads nothing else.
    ///
    /// ```
    /// let mut book = label_book::Book::new();
    /// book.set(b"rc", 9)?;
    /// let old = book.old_image();
    /// assert_eq!(old[0], 0x21);
    /// assert_eq!(label_book::Book::from_old_image(&old)?, book);
    /// # Ok::<(), label_book::Refusal>(())
    /// ```
    pub fn old_image(&self) -> Vec<u8> {
        self.made(BOOK_MAX, calls::convert)
    }

    /// The sheet of its entries.
    pub fn sheet(&self) -> Vec<u8> {
        self.made(SHEET_MAX, calls::list)
    }

    /// The page of its entries for the wall, as text: the heading line, then the entries in rank,
    /// in lines of 40 bytes and a line feed. A `µ` or `Ω` may be split over two lines, so not every
    /// page is UTF-8: write it as bytes.
    ///
    /// ```
    /// let mut book = label_book::Book::new();
    /// book.set(b"rc", 9)?;
    /// let heading = "NAME                               SCORE\n";
    /// let line = "rc                                     9\n";
    /// assert_eq!(book.page(), [heading, line].concat().as_bytes());
    /// # Ok::<(), label_book::Refusal>(())
    /// ```
    pub fn page(&self) -> Vec<u8> {
        self.made(PAGE_MAX, calls::page)
    }

    /// The trie of its entries.
    pub fn trie(&self) -> Vec<u8> {
        self.made(TRIE_MAX, calls::write_trie)
    }

    /// What a call makes of it, at most so many bytes.
    fn made(
        &self,
        most: usize,
        call: impl FnOnce(&[u8], &mut [u8]) -> Result<Written, Refusal>,
    ) -> Vec<u8> {
        let mut made = vec![0; most];
        let told = call(&self.held, &mut made).expect("it is a book, and what is made of it fits");
        made.truncate(told.bytes);
        made
    }
}

impl Default for Book {
    fn default() -> Book {
        Book::new()
    }
}

impl PartialEq for Book {
    fn eq(&self, other: &Book) -> bool {
        self.image() == other.image()
    }
}

impl Eq for Book {}

impl fmt::Debug for Book {
    fn fmt(&self, f: &mut fmt::Formatter<'_>) -> fmt::Result {
        f.debug_struct("Book").field("image", &self.image()).finish()
    }
}

/// What a completion offers.
#[derive(Clone, Debug)]
pub struct Completion {
    answer: [u8; COUNT_MAX * ENTRY_MAX],
    told: calls::Offered,
}

impl Completion {
    /// The entries, the best first.
    pub fn entries(&self) -> Entries<'_> {
        entries(&self.answer[..self.told.bytes])
    }

    /// How many there are.
    pub fn offered(&self) -> usize {
        self.told.offered
    }

    /// How often the call looked for the best of a range.
    pub fn looks(&self) -> usize {
        self.told.looks
    }
}
