//! Saving, with the system failing and the program killed at every call that has to do with files:
//! the book is the old one or the new one, whole, and the next run works.
mod common;

use common::shim::{Call, Shim, EEXIST, EINTR, EINVAL, EIO, ENOSPC, EPERM};
use common::{converted, run_all, Desk, Run, BOOK, EMPTY_BOOK, LINES, OLD_BOOK, TRIE};
use std::fs;
use std::os::unix::fs::PermissionsExt;

const KILLED: i32 = 128 + 9;
/// Not that of the temporary file, so that it has to be given.
const OLD_MODE: u32 = 0o640;

fn main() {
    run_all(&[
        ("order", order),
        ("killed", killed),
        ("failing", failing),
        ("failing in part", failing_in_part),
        ("temporary names", temporary_names),
        ("no hard links", no_hard_links),
        ("folders that cannot be synced", folders_not_synced),
        ("replaced meanwhile", replaced_meanwhile),
        ("made meanwhile", made_meanwhile),
        ("bytes read", bytes_read),
    ]);
}

/// A command that writes a file: its arguments, the file, and whether that is there before.
struct Saving {
    arguments: &'static [&'static str],
    file: &'static str,
    old: Option<&'static [u8]>,
}

const SAVINGS: [Saving; 12] = [
    Saving { arguments: &["set", "a.book", "7", "new"], file: "a.book", old: Some(&BOOK) },
    Saving { arguments: &["withdraw", "a.book", "rc"], file: "a.book", old: Some(&BOOK) },
    Saving { arguments: &["merge", "a.book", "b.book"], file: "a.book", old: Some(&BOOK) },
    Saving { arguments: &["merge", "b.book", "c.book", "-o", "a.book"], file: "a.book", old: None },
    Saving {
        arguments: &["merge", "--force", "b.book", "c.book", "-o", "a.book"],
        file: "a.book",
        old: Some(&BOOK),
    },
    Saving { arguments: &["build", "a.book", "lines"], file: "a.book", old: None },
    Saving {
        arguments: &["build", "a.book", "lines", "--force"],
        file: "a.book",
        old: Some(&BOOK),
    },
    Saving { arguments: &["trie", "b.book", "a.trie"], file: "a.trie", old: None },
    Saving {
        arguments: &["trie", "b.book", "a.trie", "--force"],
        file: "a.trie",
        old: Some(&TRIE),
    },
    Saving { arguments: &["convert", "a.book"], file: "a.book", old: Some(&OLD_BOOK) },
    Saving { arguments: &["convert", "b.book", "-o", "a.book"], file: "a.book", old: None },
    Saving {
        arguments: &["convert", "b.book", "-o", "a.book", "--force"],
        file: "a.book",
        old: Some(&BOOK),
    },
];

impl Saving {
    /// The files as they are before, and nothing else in the folder.
    fn lay_out(&self, desk: &Desk) {
        for name in desk.names() {
            desk.remove(&name);
        }
        desk.write("lines", b"3 one\n2 two\n");
        desk.write("b.book", common::book_of(&[(3, "one"), (1, "rc")]).image());
        desk.write("c.book", common::book_of(&[(4, "one"), (5, "two")]).image());
        if let Some(old) = self.old {
            desk.write(self.file, old);
            let mode = fs::Permissions::from_mode(OLD_MODE);
            fs::set_permissions(desk.path(self.file), mode).unwrap();
        }
    }

    fn now(&self, desk: &Desk) -> Option<Vec<u8>> {
        fs::read(desk.path(self.file)).ok()
    }

    fn old(&self) -> Option<Vec<u8>> {
        self.old.map(<[u8]>::to_vec)
    }

    /// What is said of a run that succeeds.
    fn said(&self) -> String {
        match self.arguments {
            ["convert", "a.book"] => converted("a.book", 21, 22, "4 entries, 43 bytes"),
            ["convert", ..] => converted("a.book", 22, 21, "2 entries, 27 bytes"),
            _ => String::new(),
        }
    }

    /// A run that nothing disturbs: its calls on files, and the new file.
    fn undisturbed(&self, desk: &Desk, shim: &Shim) -> (Vec<Call>, Vec<u8>) {
        self.lay_out(desk);
        shim.rule(desk.run(self.arguments), "").gives(0, "", &self.said());
        let new = self.now(desk).expect("the file is there");
        assert_ne!(self.old(), Some(new.clone()), "{:?} changes the file", self.arguments);
        assert_eq!(temporary_files(desk), 0);
        let (said, calls): (Vec<Call>, Vec<Call>) =
            shim.calls().into_iter().partition(|call| call.on == "stream");
        assert_eq!(said.is_empty(), self.said().is_empty(), "{:?}", self.arguments);
        (calls, new)
    }

    /// Whatever happened, the next run does what it should.
    fn works_later(&self, desk: &Desk) {
        let Some(now) = self.now(desk) else {
            return desk.run(self.arguments).gives(0, "", &self.said());
        };
        if now[0] == 0x21 {
            assert_eq!(desk.run(&["convert", self.file]).outcome().status, 0);
        }
        if self.file.ends_with(".trie") {
            return assert_eq!(desk.run(&["top", self.file, "1", ""]).outcome().status, 0);
        }
        desk.does(&["set", self.file, "8", "later"]);
        desk.prints(&["top", self.file, "1", "later"], "8 later\n");
    }
}

fn temporary_files(desk: &Desk) -> usize {
    let is_temporary = |name: &&String| name.starts_with(".labelbook-") && name.ends_with(".tmp");
    desk.names().iter().filter(is_temporary).count()
}

/// How many files there are besides temporary ones and the one that is saved.
fn other_files(desk: &Desk, saving: &Saving) -> usize {
    desk.names().iter().filter(|name| !name.starts_with('.') && *name != saving.file).count()
}

/// The calls that change something, in order, without the reading.
fn steps(calls: &[Call]) -> Vec<String> {
    let first_lock_or_folder = |call: &Call| call.name == "flock" || call.on == "folder";
    let start = calls.iter().position(first_lock_or_folder).unwrap_or(0);
    let changing = calls[start..].iter().filter(|call| call.name != "read" && call.on != "stream");
    changing.map(|call| format!("{} {}", call.name, call.on)).collect()
}

/// Written, brought to the disk, put in place, and the folder brought to the disk.
fn order(desk: &Desk) {
    const REPLACED: [&str; 8] = [
        "flock file",
        "open folder",
        "open file",
        "write file",
        "fchmod file",
        "fsync file",
        "rename -",
        "fsync folder",
    ];
    const MADE: [&str; 7] = [
        "open folder",
        "open file",
        "write file",
        "fsync file",
        "link -",
        "unlink -",
        "fsync folder",
    ];
    let shim = Shim::new(desk);
    for saving in &SAVINGS {
        let (calls, _) = saving.undisturbed(desk, &shim);
        let wanted = if saving.old.is_some() { &REPLACED[..] } else { &MADE[..] };
        assert_eq!(steps(&calls), wanted, "{:?}", saving.arguments);
    }
}

fn killed(desk: &Desk) {
    let shim = Shim::new(desk);
    for saving in &SAVINGS {
        let (calls, new) = saving.undisturbed(desk, &shim);
        let placing = calls.iter().position(Call::is_placing).expect("the file is put in place");
        for at in 0..calls.len() {
            for (when, is_placed) in [("kill", at > placing), ("killed", at >= placing)] {
                saving.lay_out(desk);
                let rule = format!("any:{}:{when}", at + 1);
                shim.rule(desk.run(saving.arguments), &rule).gives(KILLED, "", "");
                let wanted = if is_placed { Some(new.clone()) } else { saving.old() };
                assert_eq!(saving.now(desk), wanted, "{:?}, {rule}", saving.arguments);
                assert_eq!(other_files(desk, saving), 3);
                let left = temporary_files(desk);
                assert!(left <= 1, "{:?}, {rule}: {left} temporary files", saving.arguments);
                saving.works_later(desk);
                assert_eq!(temporary_files(desk), left, "a later run takes no part in them");
            }
        }
    }
}

/// What the program says where a call fails, of which file; nothing where it goes on.
fn message(saving: &Saving, calls: &[Call], at: usize, words: &str) -> Option<String> {
    let call = &calls[at];
    let file = saving.file;
    let is_reading = |call: &Call| call.name == "open" && call.on == "file" || call.name == "read";
    let saving_from = calls.iter().position(|call| call.on == "folder").unwrap();
    let said = match (call.name.as_str(), call.on.as_str()) {
        ("flock", _) => format!("{file}: it cannot be locked: {words}"),
        ("open", "file") if at > saving_from => {
            format!("{file}: no file can be made in its folder: {words}")
        }
        ("fsync", "folder") => {
            format!("{file}: it is written, but a power failure now may undo that: {words}")
        }
        ("unlink", _) => return None,
        _ if is_reading(call) && at < saving_from => {
            format!("{}: {words}", source(saving, calls, at))
        }
        _ => format!("{file}: {words}"),
    };
    Some(format!("labelbook: {said}\n"))
}

/// Which file a call before the saving reads: they are opened one behind the other.
fn source<'a>(saving: &'a Saving, calls: &[Call], at: usize) -> &'a str {
    let opened = calls[..=at].iter().filter(|call| call.name == "open").count();
    let books: &[&str] = match saving.arguments {
        ["merge", "a.book", ..] => &["b.book", "a.book"],
        ["merge", ..] => &["b.book", "c.book", "a.book"],
        ["build", ..] => &["lines", "a.book"],
        ["trie", ..] => &["b.book", "a.trie"],
        ["convert", "b.book", ..] => &["b.book", "a.book"],
        _ => &["a.book"],
    };
    books[opened - 1]
}

fn failing(desk: &Desk) {
    const ERRORS: [(i32, &str); 2] = [
        (ENOSPC, "No space left on device (os error 28)"),
        (EIO, "Input/output error (os error 5)"),
    ];
    let shim = Shim::new(desk);
    for saving in &SAVINGS {
        let (calls, new) = saving.undisturbed(desk, &shim);
        let placing = calls.iter().position(Call::is_placing).expect("the file is put in place");
        for (at, (error, words)) in (0..calls.len()).flat_map(|at| ERRORS.map(|e| (at, e))) {
            saving.lay_out(desk);
            let rule = format!("any:{}:{error}", at + 1);
            let run = shim.rule(desk.run(saving.arguments), &rule);
            let said = message(saving, &calls, at, words);
            run.gives(if said.is_some() { 74 } else { 0 }, "", &said.unwrap_or(saving.said()));
            let wanted = if at > placing { Some(new.clone()) } else { saving.old() };
            assert_eq!(saving.now(desk), wanted, "{:?}, {rule}", saving.arguments);
            assert_eq!(other_files(desk, saving), 3);
            let left = usize::from(calls[at].name == "unlink");
            assert_eq!(temporary_files(desk), left, "{:?}, {rule}", saving.arguments);
            saving.works_later(desk);
        }
    }
}

/// The first of the savings, `set`, under rules.
fn set_under(desk: &Desk, shim: &Shim, rules: &str) -> Run {
    SAVINGS[0].lay_out(desk);
    shim.rule(desk.run(SAVINGS[0].arguments), rules)
}

fn failing_in_part(desk: &Desk) {
    let shim = Shim::new(desk);
    let (_, new) = SAVINGS[0].undisturbed(desk, &shim);
    for rules in ["write:1:half", "write:1:half,write:2:half", &format!("write:1:{EINTR}")] {
        set_under(desk, &shim, rules).gives(0, "", "");
        assert_eq!(desk.read("a.book"), new, "{rules}");
        assert_eq!(temporary_files(desk), 0);
    }
    let rules = format!("write:1:half,write:2:{ENOSPC}");
    let words = "labelbook: a.book: No space left on device (os error 28)\n";
    set_under(desk, &shim, &rules).gives(74, "", words);
    assert_eq!(desk.read("a.book"), BOOK);
    assert_eq!(temporary_files(desk), 0);
    // The file cannot even be removed again: the message is that of the first trouble.
    set_under(desk, &shim, &format!("write:1:{ENOSPC},unlink:1:{EIO}")).gives(74, "", words);
    assert_eq!((desk.read("a.book"), temporary_files(desk)), (BOOK.to_vec(), 1));
}

/// A name that is taken is no error, until there are too many.
fn temporary_names(desk: &Desk) {
    let shim = Shim::new(desk);
    let (calls, new) = SAVINGS[0].undisturbed(desk, &shim);
    // The book and the folder are opened first.
    assert_eq!(calls.iter().filter(|call| call.name == "open").count(), 3);
    let taken = |names: usize| -> String {
        let rules: Vec<String> = (0..names).map(|i| format!("open:{}:{EEXIST}", 3 + i)).collect();
        rules.join(",")
    };
    for names in [1, 7] {
        set_under(desk, &shim, &taken(names)).gives(0, "", "");
        assert_eq!(desk.read("a.book"), new);
    }
    let words = "no file can be made in its folder: File exists (os error 17)";
    set_under(desk, &shim, &taken(8)).fails(desk, 74, &format!("a.book: {words}"));
}

/// As on a memory stick.
fn no_hard_links(desk: &Desk) {
    let shim = Shim::new(desk);
    let rule = format!("link:1:{EPERM}");
    for saving in SAVINGS.iter().filter(|saving| saving.old.is_none()) {
        let (_, new) = saving.undisturbed(desk, &shim);
        saving.lay_out(desk);
        shim.rule(desk.run(saving.arguments), &rule).gives(0, "", &saving.said());
        assert_eq!(saving.now(desk), Some(new));
        assert_eq!(temporary_files(desk), 0);
        let last: Vec<String> = steps(&shim.calls()).into_iter().rev().take(3).collect();
        assert_eq!(last, ["fsync folder", "rename -", "link -"]);
    }
}

/// As on some network file systems.
fn folders_not_synced(desk: &Desk) {
    let shim = Shim::new(desk);
    let (_, new) = SAVINGS[0].undisturbed(desk, &shim);
    set_under(desk, &shim, &format!("fsync:2:{EINVAL}")).gives(0, "", "");
    assert_eq!(desk.read("a.book"), new);
    // For the file itself it is an error.
    let words = "a.book: Invalid argument (os error 22)";
    set_under(desk, &shim, &format!("fsync:1:{EINVAL}")).fails(desk, 74, words);
}

/// While the program waits for its turn, another edit puts a new book in place: that one counts.
fn replaced_meanwhile(desk: &Desk) {
    let shim = Shim::new(desk);
    let swap = |rules: &str, from: &str, to: &str| {
        let run = shim.rule(desk.run(&["set", "a.book", "7", "new"]), rules);
        run.env("LABELBOOK_SHIM_FROM", desk.path(from)).env("LABELBOOK_SHIM_TO", desk.path(to))
    };
    desk.write("a.book", &BOOK);
    desk.write("b.book", common::book_of(&[(1, "other")]).image());
    swap("flock:1:swap", "b.book", "a.book").gives(0, "", "");
    desk.prints(&["list", "a.book"], "7 new\n1 other\n");
    assert_eq!(shim.calls().iter().filter(|call| call.name == "flock").count(), 2);

    // Twice; then the book is taken away.
    desk.write("b.book", &EMPTY_BOOK);
    swap("flock:1:swap,flock:2:swap", "b.book", "a.book").gives(0, "", "");
    desk.prints(&["list", "a.book"], "7 new\n");
    let words = "labelbook: a.book: No such file or directory (os error 2)\n";
    swap("flock:1:swap", "a.book", "c.book").gives(74, "", words);
    assert_eq!(desk.names(), ["c.book"]);
}

/// A file that comes to where one is being made stays.
fn made_meanwhile(desk: &Desk) {
    let shim = Shim::new(desk);
    for rules in ["link:1:swap", &format!("link:1:swap,link:1:{EPERM}")] {
        desk.write("lines", LINES.as_bytes());
        desk.write("b.book", &EMPTY_BOOK);
        let run = shim.rule(desk.run(&["build", "a.book", "lines"]), rules);
        let run = run.env("LABELBOOK_SHIM_FROM", desk.path("b.book"));
        let run = run.env("LABELBOOK_SHIM_TO", desk.path("a.book"));
        run.gives(74, "", "labelbook: a.book: it exists already; --force replaces it\n");
        assert_eq!(desk.read("a.book"), EMPTY_BOOK);
        assert_eq!(desk.names(), ["a.book", "lines"]);
        desk.remove("a.book");
    }
}

/// However long a file is, no more is read than a book can have, and a byte.
fn bytes_read(desk: &Desk) {
    let shim = Shim::new(desk);
    desk.write("long.book", &BOOK);
    let file = fs::File::options().write(true).open(desk.path("long.book")).unwrap();
    file.set_len(1 << 30).unwrap();
    let most = label_book::BOOK_MAX as i64 + 1;
    for (arguments, most) in [
        (&["check", "long.book"][..], most),
        (&["list", "long.book"], most),
        (&["page", "long.book"], most),
        (&["withdraw", "long.book", "zz"], most),
        (&["convert", "long.book", "-o", "-"], most),
        (&["top", "long.book", "3"], label_book::TRIE_MAX as i64 + 1),
        (&["build", "new.book", "long.book"], 8_192),
    ] {
        shim.rule(desk.run(arguments), "").outcome();
        let read: i64 =
            shim.calls().iter().filter(|call| call.name == "read").map(|call| call.gave).sum();
        assert!(0 < read && read <= most, "{arguments:?}: {read} bytes of {most}");
    }
}
