//! What the tests share: a folder to work in, runs of the program, and the count of cases.
#![allow(dead_code)] // Each test uses its part.
use label_book::Book;
use std::ffi::{OsStr, OsString};
use std::fs::{self, File};
use std::io::Write;
use std::os::unix::ffi::OsStrExt;
use std::os::unix::process::ExitStatusExt;
use std::panic::catch_unwind;
use std::path::{Path, PathBuf};
use std::process::{Command, Output, Stdio};
use std::sync::atomic::{AtomicUsize, Ordering};

pub mod shim;

pub const PROGRAM: &str = env!("CARGO_BIN_EXE_labelbook");

pub const NOT_A_BOOK: &str =
    "refused, 1: not laid out as a book, sheet, trie or script, or cut off";
pub const A_TRIE: &str = "it begins as a trie does";
pub const OLD: &str = "refused, 10: a book of the old version 21, which this version cannot read; \
                       the converter comes with the next one";
/// What `convert` says of an old book that is damaged.
pub const DAMAGED_OLD: &str =
    "refused, 1: not laid out as a book, sheet, trie or script, or cut off; it begins as a book of \
     version 21 does";

/// What is said of bytes that are no book, or an old one.
pub fn refused(image: &[u8]) -> String {
    match image.first() {
        Some(0x21) => OLD.to_string(),
        Some(0x31) => format!("{NOT_A_BOOK}; {A_TRIE}"),
        Some(0x11) => format!("{NOT_A_BOOK}; it begins as a sheet does"),
        _ => NOT_A_BOOK.to_string(),
    }
}

pub const NOT_ALLOWED: &str =
    "refused, 2: a name or prefix that is not allowed (a name has 1 to 48 bytes, each from 20 to \
     7E or in a whole µ or Ω)";
pub const NOT_A_COUNT: &str = "refused, 3: the number of names asked for is not 1 to 9";
pub const NOT_HELD: &str = "refused, 4: the book does not hold that name";
pub const FULL: &str = "refused, 5: more than 1,024 names";

/// The bench's entries E of the document that lays the formats out: as lines, book and trie.
pub const LINES: &str = "5 ac\n9 rc\n9 rc step\n12 rl\n";
pub const BOOK: [u8; 43] = *b"\x22\0\0\0\x2B\0\x04\0\0\0\x05\0\0\0\x09\0\0\0\x09\0\0\0\x0C\
                              \0\x03\0\x02ac\0\x02rc\x02\x05 step\x01\x01l";
pub const TRIE: [u8; 28] = *b"\x31\0\0\0\x1C\0\x04\x51\x0C\x08r\x4A\x07ac\x01l\
                              \x59\x03\x06c\0\x0D step";
pub const EMPTY_BOOK: [u8; 7] = *b"\x22\0\0\0\x07\0\0";

/// The same entries as a book of version 21, and the empty book of it.
pub const OLD_BOOK: [u8; 44] = *b"\x21\0\0\0\x2C\0\x04\0\0\0\x05\0\0\0\x09\0\0\0\x09\0\0\0\x0C\
                                  \0\x1B\0\x03\x02ac\0\x02rc\x02\x05 step\x01\x01l";
pub const OLD_EMPTY_BOOK: [u8; 7] = *b"\x21\0\0\0\x07\0\0";

static CASES: AtomicUsize = AtomicUsize::new(0);

pub fn count_case() {
    CASES.fetch_add(1, Ordering::Relaxed);
}

/// A test and its name.
pub type Test = (&'static str, fn(&Desk));

/// Runs the tests, each in a folder of its own, and prints how many cases it had. Arguments choose
/// those whose names contain one of them.
pub fn run_all(tests: &[Test]) {
    let chosen: Vec<String> = std::env::args().skip(1).filter(|a| !a.starts_with('-')).collect();
    let is_chosen =
        |name: &str| chosen.is_empty() || chosen.iter().any(|part| name.contains(part.as_str()));
    let mut failed = Vec::new();
    for (name, test) in tests.iter().filter(|(name, _)| is_chosen(name)) {
        let before = CASES.load(Ordering::Relaxed);
        let passed = catch_unwind(|| test(&Desk::new(name))).is_ok();
        let cases = CASES.load(Ordering::Relaxed) - before;
        if passed && cases > 0 {
            println!("{name}: {cases} {}", if cases == 1 { "case" } else { "cases" });
        } else {
            println!("{name}: FAILED, in case {cases}");
            failed.push(*name);
        }
    }
    assert!(failed.is_empty(), "failed: {}", failed.join(", "));
}

/// A folder that a test has for itself.
pub struct Desk {
    pub folder: PathBuf,
}

impl Desk {
    fn new(test: &str) -> Desk {
        let folder =
            Path::new(env!("CARGO_TARGET_TMPDIR")).join("labelbook").join(test.replace(' ', "-"));
        if folder.exists() {
            fs::remove_dir_all(&folder).expect("the last run's folder goes");
        }
        fs::create_dir_all(&folder).expect("a folder for the test");
        Desk { folder: folder.canonicalize().unwrap() }
    }

    pub fn path(&self, name: &str) -> PathBuf {
        self.folder.join(name)
    }

    pub fn write(&self, name: &str, bytes: &[u8]) {
        fs::write(self.path(name), bytes).unwrap_or_else(|error| panic!("{name}: {error}"));
    }

    pub fn read(&self, name: &str) -> Vec<u8> {
        fs::read(self.path(name)).unwrap_or_else(|error| panic!("{name}: {error}"))
    }

    pub fn remove(&self, name: &str) {
        fs::remove_file(self.path(name)).unwrap_or_else(|error| panic!("{name}: {error}"));
    }

    /// Everything in the folder, in order.
    pub fn names(&self) -> Vec<String> {
        let listed = fs::read_dir(&self.folder).unwrap();
        let mut names: Vec<String> =
            listed.map(|entry| entry.unwrap().file_name().to_string_lossy().into_owned()).collect();
        names.sort();
        names
    }

    /// The program, to be run in this folder.
    pub fn run<A: AsRef<OsStr>>(&self, arguments: &[A]) -> Run {
        self.run_by(&[], arguments)
    }

    /// The same, by another program, such as a shell that sets a limit.
    pub fn run_by<A: AsRef<OsStr>>(&self, by: &[&str], arguments: &[A]) -> Run {
        let mut all: Vec<OsString> = by.iter().map(OsString::from).collect();
        all.push(PROGRAM.into());
        all.extend(arguments.iter().map(|argument| argument.as_ref().to_owned()));
        let mut command = Command::new(&all[0]);
        command.args(&all[1..]).current_dir(&self.folder);
        command.stdin(Stdio::null()).stdout(Stdio::piped()).stderr(Stdio::piped());
        let words: Vec<String> =
            all[by.len() + 1..].iter().map(|a| a.as_bytes().escape_ascii().to_string()).collect();
        Run { command, words: format!("labelbook {}", words.join(" ")), input: None }
    }

    /// A run that succeeds and says nothing.
    pub fn does<A: AsRef<OsStr>>(&self, arguments: &[A]) {
        self.run(arguments).gives(0, "", "");
    }

    /// A run that succeeds and prints something.
    pub fn prints<A: AsRef<OsStr>>(&self, arguments: &[A], out: impl AsRef<[u8]>) {
        self.run(arguments).gives(0, out, "");
    }

    /// A run that fails with a message, and leaves every file in the folder as it was.
    pub fn fails<A: AsRef<OsStr>>(&self, arguments: &[A], status: i32, message: &str) {
        self.run(arguments).fails(self, status, message);
    }

    /// What is in the folder: names, and of each file the bytes and where it lies. Of long files
    /// the first bytes.
    pub fn contents(&self) -> Vec<(String, Vec<u8>, u64)> {
        let looked_at = |name: String| {
            let path = self.path(&name);
            let found = fs::symlink_metadata(&path).unwrap();
            let bytes = if found.is_file() { front(&path) } else { Vec::new() };
            (name, bytes, std::os::unix::fs::MetadataExt::ino(&found))
        };
        self.names().into_iter().map(looked_at).collect()
    }
}

fn front(path: &Path) -> Vec<u8> {
    let mut bytes = Vec::new();
    let file = File::open(path).unwrap();
    std::io::Read::read_to_end(&mut std::io::Read::take(file, 1 << 20), &mut bytes).unwrap();
    bytes
}

/// A run of the program that is being prepared.
pub struct Run {
    pub command: Command,
    words: String,
    input: Option<Vec<u8>>,
}

impl Run {
    pub fn input(mut self, bytes: impl AsRef<[u8]>) -> Run {
        self.command.stdin(Stdio::piped());
        self.input = Some(bytes.as_ref().to_vec());
        self
    }

    pub fn stdin(mut self, from: impl Into<Stdio>) -> Run {
        self.command.stdin(from);
        self
    }

    pub fn stdout(mut self, to: impl Into<Stdio>) -> Run {
        self.command.stdout(to);
        self
    }

    pub fn stderr(mut self, to: impl Into<Stdio>) -> Run {
        self.command.stderr(to);
        self
    }

    pub fn env(mut self, name: &str, value: impl AsRef<OsStr>) -> Run {
        self.command.env(name, value);
        self
    }

    /// Runs it: status, or the signal that ended it as a shell counts it, output and messages.
    pub fn outcome(mut self) -> Outcome {
        let mut child = self.command.spawn().unwrap_or_else(|e| panic!("{}: {e}", self.words));
        let writer = self.input.take().map(|input| {
            let mut stdin = child.stdin.take().unwrap();
            // A program that ends early leaves some of it.
            std::thread::spawn(move || stdin.write_all(&input).ok())
        });
        let Output { status, stdout, stderr } = child.wait_with_output().expect("the run ends");
        if let Some(writer) = writer {
            writer.join().unwrap();
        }
        let status = status.code().or_else(|| status.signal().map(|s| 128 + s)).unwrap();
        let err = String::from_utf8_lossy(&stderr).into_owned();
        count_case();
        Outcome { words: self.words, status, out: stdout, err }
    }

    pub fn gives(self, status: i32, out: impl AsRef<[u8]>, err: &str) {
        self.outcome().is(status, out.as_ref(), err);
    }

    /// Fails with a message, and leaves every file in the folder as it was.
    pub fn fails(self, desk: &Desk, status: i32, message: &str) {
        let words = self.words.clone();
        let before = desk.contents();
        self.gives(status, "", &format!("labelbook: {message}\n"));
        assert!(desk.contents() == before, "{words}: a file has changed");
    }
}

/// How a run ended.
pub struct Outcome {
    pub words: String,
    pub status: i32,
    pub out: Vec<u8>,
    pub err: String,
}

impl Outcome {
    pub fn is(&self, status: i32, out: &[u8], err: &str) {
        let agrees = self.status == status && self.out == out && self.err == err;
        let (ours, wanted) = (self.out.escape_ascii(), out.escape_ascii());
        assert!(
            agrees,
            "{}\nstatus {} where {status} was wanted\nprinted {ours}\nwanted  {wanted}\n\
             said   {}\nwanted {err}",
            self.words, self.status, self.err,
        );
    }
}

/// What is said of a book that was converted: where it is now, from and to which version, its size.
pub fn converted(place: &str, from: u8, to: u8, size: &str) -> String {
    format!("labelbook: {place}: converted from version {from} to version {to}; {size}\n")
}

/// The book of some entries.
pub fn book_of<N: AsRef<[u8]>>(entries: &[(u32, N)]) -> Book {
    let mut book = Book::new();
    for (score, name) in entries {
        book.set(name.as_ref(), *score).expect("the test's entries are right");
    }
    book
}

/// As many names of 48 bytes, in an order that is not theirs.
pub fn long_names(count: usize) -> Vec<(u32, String)> {
    (0..count)
        .map(|i| {
            let mixed = (i * 389) % 1031;
            (mixed as u32 * 4_000_037, format!("{mixed:04}{}", "x".repeat(44)))
        })
        .collect()
}

pub fn lines_of<N: AsRef<[u8]>>(entries: &[(u32, N)]) -> Vec<u8> {
    let line = |(score, name): &(u32, N)| {
        [score.to_string().as_bytes(), b" ", name.as_ref(), b"\n"].concat()
    };
    entries.iter().flat_map(line).collect()
}
