//! Files are written whole or not at all: a new file beside the old one, synced, then renamed.
//!
//! Whoever edits a file holds it meanwhile (`flock`). The lock is the file's, not the name's: once
//! it is replaced, those who waited hold a file that has no name, and open the new one.
use crate::files::{can_hold_image, folder_of, front, same};
use std::fs::{self, File, Metadata, OpenOptions};
use std::hash::{BuildHasher, Hasher, RandomState};
use std::io::{self, ErrorKind, Write};
use std::os::unix::fs::{fchown, MetadataExt, OpenOptionsExt};
use std::path::{Path, PathBuf};

/// The mode bits that are kept.
const MODE_BITS: u32 = 0o7777;
/// A replaced file's mode is given once it has the old one's owner.
const MODE_MEANWHILE: u32 = 0o600;
/// As the shell makes a file: the umask takes its part.
const MODE_NEW: u32 = 0o666;
/// Names for a temporary file that are tried. Each has 64 random bits.
const NAMES_TRIED: usize = 8;

/// A file that nobody else edits while this value lives.
pub struct Held {
    path: PathBuf,
    file: File,
}

impl Held {
    /// Opens and locks a file, waiting for those who hold it. A symbolic link is followed.
    pub fn open(path: &Path) -> io::Result<Held> {
        loop {
            let path = fs::canonicalize(path)?;
            can_be_replaced(&fs::metadata(&path)?)?;
            let file = OpenOptions::new().read(true).write(true).open(&path)?;
            file.lock().map_err(|error| with_words("it cannot be locked", error))?;
            if is_named(&file, &path)? {
                return Ok(Held { path, file });
            }
        }
    }

    /// At most `limit` bytes, and one more if there are others behind.
    pub fn front(&self, limit: usize) -> io::Result<Vec<u8>> {
        front(&self.file, limit)
    }

    /// Puts a new file in its place, with its owner and mode.
    pub fn replace(self, bytes: &[u8]) -> io::Result<()> {
        let folder = File::open(folder_of(&self.path))?;
        let mut new = Temporary::create(folder_of(&self.path), MODE_MEANWHILE)?;
        new.file.write_all(bytes)?;
        new.take_after(&self.file.metadata()?)?;
        new.file.sync_all()?;
        new.rename(&self.path)?;
        sync(&folder)
    }
}

/// Makes a file that is not there yet.
pub fn create(path: &Path, bytes: &[u8]) -> io::Result<()> {
    let folder = File::open(folder_of(path))?;
    let mut new = Temporary::create(folder_of(path), MODE_NEW)?;
    new.file.write_all(bytes)?;
    new.file.sync_all()?;
    new.appear(path)?;
    drop(new);
    sync(&folder)
}

pub fn exists_already() -> io::Error {
    io::Error::new(ErrorKind::AlreadyExists, "it exists already; --force replaces it")
}

/// A file beside the one to be written; removed when dropped, unless it was renamed.
struct Temporary {
    path: PathBuf,
    file: File,
    renamed: bool,
}

impl Temporary {
    fn create(folder: &Path, mode: u32) -> io::Result<Temporary> {
        let mut options = OpenOptions::new();
        options.write(true).create_new(true).mode(mode);
        let mut last = io::Error::from(ErrorKind::AlreadyExists);
        for _ in 0..NAMES_TRIED {
            let random = RandomState::new().build_hasher().finish();
            let path = folder.join(format!(".labelbook-{random:016x}.tmp"));
            match options.open(&path) {
                Ok(file) => return Ok(Temporary { path, file, renamed: false }),
                Err(error) => last = error,
            }
            if last.kind() != ErrorKind::AlreadyExists {
                break;
            }
        }
        Err(with_words("no file can be made in its folder", last))
    }

    /// Takes over owner, group and mode. Owner and group stay behind where the user may not give
    /// files away; they are asked for first, since a new owner takes bits of the mode away.
    fn take_after(&self, old: &Metadata) -> io::Result<()> {
        let new = self.file.metadata()?;
        if (new.uid(), new.gid()) != (old.uid(), old.gid()) {
            let group = Some(old.gid());
            let _ = fchown(&self.file, Some(old.uid()), group)
                .or_else(|_| fchown(&self.file, None, group));
        }
        if (new.mode() & MODE_BITS) == (old.mode() & MODE_BITS) {
            return Ok(());
        }
        self.file.set_permissions(old.permissions())
    }

    /// Takes the place of the file at a path.
    fn rename(&mut self, path: &Path) -> io::Result<()> {
        fs::rename(&self.path, path)?;
        self.renamed = true;
        Ok(())
    }

    /// Takes a path that names nothing; a file that has come there meanwhile stays.
    fn appear(&mut self, path: &Path) -> io::Result<()> {
        let linked = fs::hard_link(&self.path, path);
        match linked.as_ref().map_err(io::Error::kind) {
            Err(ErrorKind::AlreadyExists) => Err(exists_already()),
            // Memory sticks have no hard links.
            Err(ErrorKind::PermissionDenied | ErrorKind::Unsupported) => {
                if fs::symlink_metadata(path).is_ok() {
                    return Err(exists_already());
                }
                self.rename(path)
            }
            _ => linked,
        }
    }
}

impl Drop for Temporary {
    fn drop(&mut self) {
        if !self.renamed {
            let _ = fs::remove_file(&self.path);
        }
    }
}

fn can_be_replaced(found: &Metadata) -> io::Result<()> {
    can_hold_image(found)?;
    if found.is_file() {
        return Ok(());
    }
    Err(io::Error::other("it is a device, not a file"))
}

/// Whether a path names an open file, or has come to name another or none.
fn is_named(file: &File, path: &Path) -> io::Result<bool> {
    match fs::metadata(path) {
        Ok(found) => Ok(same(&found, &file.metadata()?)),
        Err(error) if error.kind() == ErrorKind::NotFound => Ok(false),
        Err(error) => Err(error),
    }
}

/// Makes sure that the folder's new entry stays. Some file systems do not offer that for folders.
fn sync(folder: &File) -> io::Result<()> {
    match folder.sync_all() {
        Err(error) if matches!(error.kind(), ErrorKind::InvalidInput | ErrorKind::Unsupported) => {
            Ok(())
        }
        done => done.map_err(|error| {
            with_words("it is written, but a power failure now may undo that", error)
        }),
    }
}

fn with_words(words: &str, error: io::Error) -> io::Error {
    io::Error::new(error.kind(), format!("{words}: {error}"))
}
