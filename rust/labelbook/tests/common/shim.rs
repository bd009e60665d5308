//! Runs of the program with `tests/shim.c` between it and the system.
use super::{Desk, Run};
use std::fs;
use std::path::{Path, PathBuf};
use std::process::Command;

pub const EPERM: i32 = 1;
pub const EINTR: i32 = 4;
pub const EIO: i32 = 5;
pub const EEXIST: i32 = 17;
pub const EINVAL: i32 = 22;
pub const ENOSPC: i32 = 28;

const FLAGS: [&str; 11] = [
    "-std=c11",
    "-shared",
    "-fPIC",
    "-U_FORTIFY_SOURCE",
    "-Wall",
    "-Wextra",
    "-Wconversion",
    "-Wshadow",
    "-pedantic",
    "-Werror",
    "-o",
];

pub struct Shim {
    library: PathBuf,
    log: PathBuf,
}

impl Shim {
    /// Compiles it.
    pub fn new(desk: &Desk) -> Shim {
        let source = Path::new(env!("CARGO_MANIFEST_DIR")).join("tests/shim.c");
        let library = desk.folder.with_extension("so");
        let compiled = Command::new("cc").args(FLAGS).arg(&library).arg(&source).status();
        assert!(compiled.expect("there is a C compiler, cc").success(), "shim.c is compiled");
        Shim { library, log: desk.folder.with_extension("log") }
    }

    /// A run under rules; see `shim.c`.
    pub fn rule(&self, run: Run, rules: &str) -> Run {
        if self.log.exists() {
            fs::remove_file(&self.log).expect("the last log goes");
        }
        // A path from the run's folder, since spaces would end it here.
        let name = self.library.file_name().unwrap();
        run.env("LD_PRELOAD", Path::new("..").join(name))
            .env("LABELBOOK_SHIM_LOG", &self.log)
            .env("LABELBOOK_SHIM", rules)
    }

    /// The calls of the last run: of each its name, what it was made on, and what it gave.
    pub fn calls(&self) -> Vec<Call> {
        let log = fs::read_to_string(&self.log);
        let log = log.unwrap_or_else(|error| panic!("the shim has no effect: no log, {error}"));
        log.lines().map(Call::read).collect()
    }
}

#[derive(Clone, Debug)]
pub struct Call {
    pub name: String,
    pub on: String,
    pub gave: i64,
}

impl Call {
    fn read(line: &str) -> Call {
        let parts: Vec<&str> = line.split(' ').collect();
        let [name, on, gave] = parts[..] else { panic!("a line of the log: {line}") };
        Call { name: name.to_string(), on: on.to_string(), gave: gave.parse().unwrap() }
    }

    /// Whether it puts the new file in its place.
    pub fn is_placing(&self) -> bool {
        self.name == "rename" || self.name == "link"
    }
}
