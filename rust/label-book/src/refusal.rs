//! The refusals.
use std::error::Error;
use std::fmt;

/// Why a call declined: of the causes that apply the first in the order 10, 1, 2 and so on to 9. It
/// has then changed no lent byte.
#[derive(Clone, Copy, Debug, PartialEq, Eq, Hash)]
#[repr(u8)]
pub enum Refusal {
    /// A book, sheet, trie or script that is not laid out as such, or is cut off by its buffer.
    NotLaidOut = 1,
    /// A name or prefix that is not allowed, such as one that ends in half a sign; a panel whose
    /// length is over [`NAME_MAX`], or whose text is not of whole signs; a panel whose held name is
    /// neither of length 0 nor a name that is allowed.
    ///
    /// [`NAME_MAX`]: crate::NAME_MAX
    NotAllowed = 2,
    /// A completion of 0 or more than [`COUNT_MAX`](crate::COUNT_MAX) entries.
    CountOutOfRange = 3,
    /// A name that the book does not hold.
    NotHeld = 4,
    /// More than [`ENTRIES_MAX`](crate::ENTRIES_MAX) names.
    Full = 5,
    /// A position or bucket that the book does not have.
    NoSuchPlace = 6,
    /// A destination that is shorter than the bytes needed, fewer ranges than entries asked for, or
    /// the buffers of a run of two lengths.
    TooShort = 7,
    /// A key that the panel does not have.
    NoSuchKey = 8,
    /// A key that appends, where its sign of one byte or two does not fit into the panel's text.
    TextFull = 9,
    /// An old book: its byte 0 is 21, whatever follows, the version of books up to 1.5 of this
    /// library. It comes before all others, and of two books it is enough that one is old.
    /// [`convert`](crate::convert), which never gives it, writes an old book as one of today. Bytes
    /// given as a sheet or trie never give it, nor do empty ones.
    OldVersion = 10,
}

impl Refusal {
    /// Every refusal, in the order of the numbers.
    pub const ALL: [Refusal; 10] = [
        Refusal::NotLaidOut,
        Refusal::NotAllowed,
        Refusal::CountOutOfRange,
        Refusal::NotHeld,
        Refusal::Full,
        Refusal::NoSuchPlace,
        Refusal::TooShort,
        Refusal::NoSuchKey,
        Refusal::TextFull,
        Refusal::OldVersion,
    ];

    /// Its number, from 1.
    pub fn number(self) -> u8 {
        self as u8
    }

    /// The refusal that has a number.
    pub fn numbered(number: u8) -> Option<Refusal> {
        Refusal::ALL.into_iter().find(|refusal| refusal.number() == number)
    }
}

impl fmt::Display for Refusal {
    fn fmt(&self, f: &mut fmt::Formatter<'_>) -> fmt::Result {
        f.write_str(match self {
            Refusal::NotLaidOut => "not laid out as a book, sheet, trie or script, or cut off",
            Refusal::NotAllowed => {
                "a name or prefix that is not allowed (a name has 1 to 48 bytes, \
                 each from 20 to 7E or in a whole µ or Ω)"
            }
            Refusal::CountOutOfRange => "the number of names asked for is not 1 to 9",
            Refusal::NotHeld => "the book does not hold that name",
            Refusal::Full => "more than 1,024 names",
            Refusal::NoSuchPlace => "the book has no such position or bucket",
            Refusal::TooShort => "the destination is too short",
            Refusal::NoSuchKey => "the panel has no such key",
            Refusal::TextFull => "the panel's text is full",
            Refusal::OldVersion => {
                "a book of the old version 21, which this version cannot read; \
                 the converter comes with the next one"
            }
        })
    }
}

impl Error for Refusal {}
