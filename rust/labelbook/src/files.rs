//! Where books and lines are read from and written to: files and the standard streams.
use crate::failure::Failure;
use crate::{lines, save};
use label_book::{Book, Refusal, BOOK_MAX};
use std::ffi::OsString;
use std::fmt;
use std::fs::{self, File, Metadata};
use std::io::{self, ErrorKind, Read, Write};
use std::os::fd::AsFd;
use std::os::unix::fs::{FileTypeExt, MetadataExt};
use std::path::{Path, PathBuf};

/// The first bytes of images that are no books, and of books of either version; docs/FORMAT.md.
pub const TRIE_VERSION: u8 = 0x31;
const SHEET_VERSION: u8 = 0x11;
const BOOK_VERSION: u8 = 0x22;
const OLD_VERSION: u8 = 0x21;

/// What is read: a file, or standard input.
pub enum Source {
    Standard,
    File(PathBuf),
}

/// What is written: a file, or standard output.
pub enum Target {
    Standard,
    File(PathBuf),
}

/// A book as it was read, and whether bytes stand behind it.
pub struct Loaded {
    pub book: Book,
    pub more: bool,
}

/// A book in the version that it did not have when it was read, and whether bytes stood behind it.
pub struct Converted {
    pub image: Vec<u8>,
    pub more: bool,
    entries: usize,
    versions: [u8; 2],
}

impl Source {
    pub fn named(name: OsString) -> Source {
        if name == "-" {
            return Source::Standard;
        }
        Source::File(name.into())
    }

    /// The stream itself, not the library's handle of it, which takes one that cannot be read for
    /// one that is empty.
    pub fn open(&self) -> Result<File, Failure> {
        let opened = match self {
            Source::Standard => io::stdin().as_fd().try_clone_to_owned().map(File::from),
            Source::File(path) => File::open(path),
        };
        opened.map_err(|error| Failure::file(self, error))
    }

    /// The first bytes of an image file; see [`front`].
    pub fn front(&self, limit: usize) -> Result<Vec<u8>, Failure> {
        if let Source::File(path) = self {
            let fit = fs::metadata(path).and_then(|found| can_hold_image(&found));
            fit.map_err(|error| Failure::file(self, error))?;
        }
        front(&self.open()?, limit).map_err(|error| Failure::file(self, error))
    }

    pub fn book(&self) -> Result<Loaded, Failure> {
        Loaded::from_front(self, &self.front(BOOK_MAX)?)
    }
}

impl Loaded {
    /// The book in what [`front`] gave.
    pub fn from_front(place: impl fmt::Display, front: &[u8]) -> Result<Loaded, Failure> {
        let lent = front.get(..BOOK_MAX).unwrap_or(front);
        let book = Book::from_image(lent).map_err(|refusal| no_book(place, front, refusal))?;
        let more = front.len() > book.image().len();
        Ok(Loaded { book, more })
    }
}

/// What is said of bytes that are no book, by their first one.
fn no_book(place: impl fmt::Display, front: &[u8], refusal: Refusal) -> Failure {
    let hint = match front.first() {
        Some(&TRIE_VERSION) => "it begins as a trie does",
        Some(&SHEET_VERSION) => "it begins as a sheet does",
        Some(&OLD_VERSION) if refusal != Refusal::OldVersion => {
            "it begins as a book of version 21 does"
        }
        _ => "",
    };
    Failure::no_book(place, refusal, hint)
}

impl Converted {
    /// Of the book in what [`front`] gave; its first byte says in which version it is.
    pub fn from_front(place: impl fmt::Display, front: &[u8]) -> Result<Converted, Failure> {
        let lent = front.get(..BOOK_MAX).unwrap_or(front);
        let was_old = front.first() == Some(&OLD_VERSION);
        let book = if was_old { Book::from_old_image(lent) } else { Book::from_image(lent) };
        let book = book.map_err(|refusal| no_book(place, front, refusal))?;
        // Both images: the one that was read tells whether bytes stood behind it.
        let (old, today) = (book.old_image(), book.image().to_vec());
        let (read, image, versions) = if was_old {
            (old, today, [OLD_VERSION, BOOK_VERSION])
        } else {
            (today, old, [BOOK_VERSION, OLD_VERSION])
        };
        let more = front.len() > read.len();
        Ok(Converted { image, more, entries: book.entries(), versions })
    }
}

impl fmt::Display for Converted {
    fn fmt(&self, f: &mut fmt::Formatter<'_>) -> fmt::Result {
        let [from, to] = self.versions;
        let size = lines::size(self.entries, self.image.len());
        write!(f, "converted from version {from:02X} to version {to:02X}; {size}")
    }
}

impl Target {
    pub fn named(name: OsString) -> Target {
        if name == "-" {
            return Target::Standard;
        }
        Target::File(name.into())
    }

    /// Whether it is a file that is there already.
    pub fn exists(&self) -> bool {
        matches!(self, Target::File(path) if fs::symlink_metadata(path).is_ok())
    }

    /// Declines to make a file that is there, unless it may be replaced.
    pub fn allow(&self, force: bool) -> Result<(), Failure> {
        if self.leads_nowhere() {
            let words = "it is a symbolic link to a file that is not there";
            return Err(Failure::file(self, io::Error::other(words)));
        }
        if force || !self.exists() {
            return Ok(());
        }
        Err(Failure::file(self, save::exists_already()))
    }

    fn leads_nowhere(&self) -> bool {
        let Target::File(path) = self else {
            return false;
        };
        let missing = |error: io::Error| error.kind() == ErrorKind::NotFound;
        self.exists() && fs::metadata(path).is_err_and(missing)
    }

    pub fn is(&self, source: &Source) -> bool {
        let (Target::File(ours), Source::File(other)) = (self, source) else {
            return false;
        };
        match (fs::metadata(ours), fs::metadata(other)) {
            (Ok(ours), Ok(other)) => same(&ours, &other),
            _ => false,
        }
    }

    /// Writes all of it: a new file, or with `force` in place of the one that is there.
    pub fn write(&self, bytes: &[u8], force: bool) -> Result<(), Failure> {
        let Target::File(path) = self else {
            return print(bytes);
        };
        let written = if force && self.exists() {
            save::Held::open(path).and_then(|held| held.replace(bytes))
        } else {
            save::create(path, bytes)
        };
        written.map_err(|error| Failure::file(self, error))
    }
}

impl fmt::Display for Source {
    fn fmt(&self, f: &mut fmt::Formatter<'_>) -> fmt::Result {
        match self {
            Source::Standard => f.write_str("standard input"),
            Source::File(path) => path.display().fmt(f),
        }
    }
}

impl fmt::Display for Target {
    fn fmt(&self, f: &mut fmt::Formatter<'_>) -> fmt::Result {
        match self {
            Target::Standard => f.write_str("standard output"),
            Target::File(path) => path.display().fmt(f),
        }
    }
}

/// At most `limit` bytes, and one more, which only tells that others stand behind them.
pub fn front(file: &File, limit: usize) -> io::Result<Vec<u8>> {
    let mut bytes = Vec::with_capacity(limit + 1);
    file.take(limit as u64 + 1).read_to_end(&mut bytes)?;
    Ok(bytes)
}

/// A pipe that nobody writes to would be waited for without end.
pub fn can_hold_image(found: &Metadata) -> io::Result<()> {
    if found.is_dir() {
        return Err(io::Error::other("it is a folder"));
    }
    if found.file_type().is_fifo() {
        return Err(io::Error::other("it is a pipe; `-` reads from standard input"));
    }
    Ok(())
}

pub fn same(one: &Metadata, other: &Metadata) -> bool {
    (one.dev(), one.ino()) == (other.dev(), other.ino())
}

/// Writes to standard output: to the stream itself, since the library's handle of it says nothing
/// where it is not open for writing.
pub fn print(bytes: &[u8]) -> Result<(), Failure> {
    let written = io::stdout()
        .as_fd()
        .try_clone_to_owned()
        .and_then(|stream| File::from(stream).write_all(bytes));
    written.map_err(|error| match error.kind() {
        ErrorKind::BrokenPipe => Failure::PipeClosed,
        _ => Failure::file(Target::Standard, error),
    })
}

/// Says something on standard error. Where that cannot be written, the exit status still tells.
pub fn note(message: &str) {
    let _ = writeln!(io::stderr(), "labelbook: {message}");
}

/// The folder that a path names a file in.
pub fn folder_of(path: &Path) -> &Path {
    match path.parent() {
        Some(folder) if folder != Path::new("") => folder,
        _ => Path::new("."),
    }
}
