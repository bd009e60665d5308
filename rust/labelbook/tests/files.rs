//! Files as they come: damaged, cut, endless, links, pipes, folders, full disks, closed streams.
mod common;

use common::shim::{Shim, EPERM};
use common::{book_of, long_names, refused, run_all, Desk, BOOK, EMPTY_BOOK, LINES, NOT_A_BOOK};
use common::{converted, DAMAGED_OLD, OLD, OLD_BOOK, OLD_EMPTY_BOOK, TRIE};
use label_book::{BOOK_MAX, COUNT_MAX};
use label_book_tests::random::Random;
use std::fs::{self, File, Permissions};
use std::os::unix::ffi::OsStrExt;
use std::os::unix::fs::{chown, symlink, MetadataExt, PermissionsExt};
use std::process::Command;

fn main() {
    run_all(&[
        ("damaged books", damaged_books),
        ("old books", old_books),
        ("damaged books converted", damaged_books_converted),
        ("damaged tries", damaged_tries),
        ("cut files", cut_files),
        ("noise", noise),
        ("files longer than any book", long_files),
        ("devices", devices),
        ("folders and pipes", folders_and_pipes),
        ("links", links),
        ("modes", modes),
        ("owners", owners),
        ("paths", paths),
        ("a full disk", a_full_disk),
        ("a limit on files", a_limit_on_files),
        ("closed pipes", closed_pipes),
        ("streams that are not open", streams_not_open),
    ]);
}

/// Every command that reads a book gives the library's verdict on bytes, and an edit keeps them
/// if it is that they are none.
fn same_verdict(desk: &Desk, image: &[u8]) {
    desk.write("a.book", image);
    let refused = format!("a.book: {}", refused(image));
    match label_book::check(image) {
        Err(refusal) => desk.fails(&["check", "a.book"], refusal.number().into(), &refused),
        Ok(told) => {
            let out = format!("{} entries, {} bytes\n", told.entries, told.bytes);
            let run = desk.run(&["check", "a.book"]).outcome();
            assert!(run.status == 0 && run.out.starts_with(out.as_bytes()), "{image:02X?}");
        }
    }
}

fn every_command_refuses(desk: &Desk, image: &[u8]) {
    let refusal = label_book::check(image).expect_err("it is no book");
    desk.write("a.book", image);
    desk.write("b.book", &BOOK);
    let refused = format!("a.book: {}", refused(image));
    for arguments in [
        &["list", "a.book"][..],
        &["set", "a.book", "1", "rc"],
        &["withdraw", "a.book", "rc"],
        &["top", "a.book", "1"],
        &["page", "a.book"],
        &["merge", "a.book", "b.book"],
        &["merge", "b.book", "a.book"],
        &["merge", "b.book", "a.book", "-o", "c.book"],
        &["trie", "a.book", "c.trie"],
    ] {
        desk.fails(arguments, refusal.number().into(), &refused);
    }
}

/// Byte 0 alone decides: a whole book of version 21, one that is cut or damaged, its first byte.
fn old_books(desk: &Desk) {
    for image in [&OLD_BOOK[..], &OLD_EMPTY_BOOK, &OLD_BOOK[..43], &OLD_BOOK[..7], &OLD_BOOK[..1]] {
        every_command_refuses(desk, image);
        same_verdict(desk, image);
    }
    let mut image = BOOK;
    image[0] = 0x21;
    every_command_refuses(desk, &image);
    // Nor is it a book where byte 0 alone is today's.
    let mut image = OLD_BOOK;
    image[0] = 0x22;
    every_command_refuses(desk, &image);
    // What stands behind it is not looked at, nor is the argument.
    desk.write("a.book", &[&OLD_BOOK[..], &[7; 90_000]].concat());
    for arguments in [
        &["check", "a.book"][..],
        &["set", "a.book", "1", ""],
        &["withdraw", "a.book", "zz"],
        &["top", "a.book", "0", "\t"],
    ] {
        desk.fails(arguments, 10, &format!("a.book: {OLD}"));
    }
    // It can be converted and, as any file, replaced.
    let words = converted("b.book", 21, 22, "4 entries, 43 bytes");
    desk.run(&["convert", "--force", "a.book", "-o", "b.book"]).gives(0, "", &words);
    assert_eq!(desk.read("b.book"), BOOK);
    desk.run(&["build", "--force", "a.book"]).input(LINES).gives(0, "", "");
    assert_eq!(desk.read("a.book"), BOOK);
}

fn damaged_books(desk: &Desk) {
    for at in 0..BOOK.len() {
        for change in [1, 2, 4, 8, 16, 32, 64, 128, 255] {
            let mut image = BOOK;
            image[at] ^= change;
            same_verdict(desk, &image);
            if change == 255 && label_book::check(&image).is_err() {
                every_command_refuses(desk, &image);
            }
        }
    }
}

/// `convert` gives the library's verdict on a book of either version with a byte changed, and what
/// it makes of it is what the library makes.
fn damaged_books_converted(desk: &Desk) {
    let places = (0..BOOK.len()).map(|at| (&BOOK[..], at));
    let old_places = (0..OLD_BOOK.len()).map(|at| (&OLD_BOOK[..], at));
    for ((image, at), change) in places.chain(old_places).flat_map(|p| [1, 8, 255].map(|c| (p, c)))
    {
        let mut image = image.to_vec();
        image[at] ^= change;
        desk.write("a.book", &image);
        let mut made = [0; BOOK_MAX];
        match label_book::convert(&image, &mut made) {
            Err(refusal) => {
                let words = if image[0] == 0x21 { DAMAGED_OLD } else { NOT_A_BOOK };
                desk.fails(
                    &["convert", "a.book"],
                    refusal.number().into(),
                    &format!("a.book: {words}"),
                );
            }
            Ok(told) => {
                assert_eq!(desk.run(&["convert", "a.book"]).outcome().status, 0, "{image:02X?}");
                assert_eq!(desk.read("a.book"), made[..told.bytes]);
            }
        }
    }
}

fn damaged_tries(desk: &Desk) {
    for at in 0..TRIE.len() {
        for change in [1, 8, 64, 255] {
            let mut image = TRIE;
            image[at] ^= change;
            desk.write("a.trie", &image);
            let mut answer = [0; COUNT_MAX * label_book::ENTRY_MAX];
            let run = desk.run(&["top", "a.trie", &COUNT_MAX.to_string()]);
            match label_book::complete_trie(&image, b"", COUNT_MAX, &mut answer) {
                Err(_) => run.fails(desk, 1, &format!("a.trie: {NOT_A_BOOK}")),
                Ok(told) => {
                    let run = run.outcome();
                    let lines = run.out.iter().filter(|byte| **byte == b'\n').count();
                    assert_eq!((run.status, lines), (0, told.offered), "{image:02X?}");
                }
            }
        }
    }
}

fn cut_files(desk: &Desk) {
    for length in 0..=BOOK.len() {
        same_verdict(desk, &BOOK[..length]);
    }
    every_command_refuses(desk, b"");
    every_command_refuses(desk, &BOOK[..42]);
    let full = book_of(&long_names(1024)).image().to_vec();
    for length in [full.len() - 1, full.len() / 2, 4_231, 4_096, 7, 6] {
        same_verdict(desk, &full[..length]);
    }
}

fn noise(desk: &Desk) {
    let mut random = Random::new(3);
    for _ in 0..100 {
        let length = random.below(200);
        let mut image: Vec<u8> = (0..length).map(|_| random.any() as u8).collect();
        if let Some(version) = image.first_mut() {
            *version = random.pick(&[0x21, 0x22, 0x22, 0x22]);
        }
        same_verdict(desk, &image);
    }
}

fn long_files(desk: &Desk) {
    const BEHIND: &str = "bytes stand behind the book; they are not part of it\n";
    let lengthen = |name: &str| {
        let file = File::options().write(true).open(desk.path(name)).unwrap();
        file.set_len(1 << 30).unwrap();
    };
    desk.write("a.book", &BOOK);
    lengthen("a.book");
    desk.prints(&["check", "a.book"], format!("4 entries, 43 bytes\n{BEHIND}"));
    desk.prints(&["list", "a.book"], LINES);
    desk.prints(&["top", "a.book", "1", "a"], "5 ac\n");
    desk.fails(&["withdraw", "a.book", "q"], 4, &format!("a.book: {}", common::NOT_HELD));
    let gone = "labelbook: a.book: the bytes that stood behind the book are gone\n";
    desk.run(&["set", "a.book", "5", "ac"]).gives(0, "", gone);
    assert_eq!(desk.read("a.book"), BOOK);
    desk.write("a.trie", &TRIE);
    lengthen("a.trie");
    desk.prints(&["top", "a.trie", "1", "a"], "5 ac\n");
    desk.write("zeros", b"");
    lengthen("zeros");
    desk.fails(&["check", "zeros"], 1, &format!("zeros: {NOT_A_BOOK}"));
    // As long as the file is, but longer than any book may be.
    desk.write("zeros", b"\x22\x40\0\0\0\0\0");
    lengthen("zeros");
    desk.fails(&["set", "zeros", "1", "a"], 1, &format!("zeros: {NOT_A_BOOK}"));
}

fn devices(desk: &Desk) {
    for device in ["/dev/zero", "/dev/null"] {
        desk.fails(&["check", device], 1, &format!("{device}: {NOT_A_BOOK}"));
        desk.fails(&["list", device], 1, &format!("{device}: {NOT_A_BOOK}"));
        desk.fails(
            &["set", device, "1", "a"],
            74,
            &format!("{device}: it is a device, not a file"),
        );
    }
    desk.write("lines", LINES.as_bytes());
    let no_file = "/dev/null: it is a device, not a file";
    desk.fails(&["build", "--force", "/dev/null", "lines"], 74, no_file);
    let exists = "/dev/null: it exists already; --force replaces it";
    desk.fails(&["build", "/dev/null", "lines"], 74, exists);
    let zero = File::open("/dev/zero").unwrap();
    let words = format!("standard input: {NOT_A_BOOK}");
    desk.run(&["check", "-"]).stdin(zero).fails(desk, 1, &words);
}

fn folders_and_pipes(desk: &Desk) {
    fs::create_dir(desk.path("folder")).unwrap();
    let made = Command::new("mkfifo").arg(desk.path("pipe")).status().unwrap();
    assert!(made.success());
    desk.write("b.book", &BOOK);
    desk.write("lines", LINES.as_bytes());
    for (file, words) in [
        ("folder", "folder: it is a folder"),
        ("pipe", "pipe: it is a pipe; `-` reads from standard input"),
    ] {
        for arguments in [
            &["check", file][..],
            &["list", file],
            &["set", file, "1", "a"],
            &["withdraw", file, "a"],
            &["top", file, "1"],
            &["page", file],
            &["merge", file, "b.book"],
            &["merge", "b.book", file],
            &["merge", file, "b.book", "-o", "-"],
            &["merge", "b.book", "b.book", "--force", "-o", file],
            &["trie", file, "-"],
            &["convert", file],
            &["convert", file, "-o", "-"],
            &["convert", "b.book", "--force", "-o", file],
            &["build", "--force", file, "lines"],
        ] {
            // One that waits for a writer does not end by itself.
            desk.run_by(&["timeout", "60"], arguments).fails(desk, 74, words);
        }
        let exists = format!("{file}: it exists already; --force replaces it");
        desk.fails(&["build", file], 74, &exists);
    }
    let not_folder = "b.book/a.book: Not a directory (os error 20)";
    desk.fails(&["check", "b.book/a.book"], 74, not_folder);
    let not_folder =
        "b.book/a.book: no file can be made in its folder: Not a directory (os error 20)";
    desk.fails(&["build", "b.book/a.book"], 74, not_folder);
    let missing = "none/a.book: No such file or directory (os error 2)";
    desk.fails(&["build", "none/a.book"], 74, missing);
    desk.fails(&["build", ""], 74, ": No such file or directory (os error 2)");
}

/// A link stays one, and the file that it leads to is changed, where that is.
fn links(desk: &Desk) {
    fs::create_dir(desk.path("books")).unwrap();
    desk.write("books/a.book", &EMPTY_BOOK);
    symlink("books/a.book", desk.path("one")).unwrap();
    symlink("one", desk.path("two")).unwrap();
    desk.does(&["set", "one", "1", "a"]);
    desk.does(&["set", "two", "2", "b"]);
    assert!(desk.path("one").is_symlink() && desk.path("two").is_symlink());
    desk.prints(&["list", "books/a.book"], "1 a\n2 b\n");
    desk.run(&["build", "--force", "two"]).input(LINES).gives(0, "", "");
    assert!(desk.path("two").is_symlink());
    assert_eq!(desk.read("books/a.book"), BOOK);
    assert_eq!(desk.names(), ["books", "one", "two"]);
    assert_eq!(fs::read_dir(desk.path("books")).unwrap().count(), 1);

    symlink("nowhere", desk.path("broken")).unwrap();
    symlink("loop", desk.path("loop")).unwrap();
    let missing = "broken: No such file or directory (os error 2)";
    desk.fails(&["set", "broken", "1", "a"], 74, missing);
    desk.fails(&["check", "broken"], 74, missing);
    let nowhere = "broken: it is a symbolic link to a file that is not there";
    desk.run(&["build", "broken", "--force"]).input("1 a\n").fails(desk, 74, nowhere);
    desk.fails(&["build", "broken"], 74, nowhere);
    let turns = "loop: Too many levels of symbolic links (os error 40)";
    desk.fails(&["set", "loop", "1", "a"], 74, turns);

    // Another name of the same file keeps the old book.
    fs::hard_link(desk.path("books/a.book"), desk.path("kept")).unwrap();
    desk.does(&["set", "one", "1", "new"]);
    assert_eq!(desk.read("kept"), BOOK);
}

fn mode_of(desk: &Desk, name: &str) -> u32 {
    fs::metadata(desk.path(name)).unwrap().mode() & 0o7777
}

fn modes(desk: &Desk) {
    desk.write("a.book", &BOOK);
    for mode in [0o600, 0o640, 0o644, 0o664, 0o666, 0o700, 0o755] {
        fs::set_permissions(desk.path("a.book"), Permissions::from_mode(mode)).unwrap();
        desk.does(&["set", "a.book", &mode.to_string(), "a"]);
        assert_eq!(mode_of(desk, "a.book"), mode);
        desk.run(&["build", "--force", "a.book"]).input(LINES).gives(0, "", "");
        assert_eq!(mode_of(desk, "a.book"), mode);
    }
    for (umask, mode) in [("022", 0o644), ("027", 0o640), ("077", 0o600), ("000", 0o666)] {
        let script = format!("umask {umask}; exec \"$@\"");
        let by = ["sh", "-c", &script, "sh"];
        desk.run_by(&by, &["build", "new.book"]).gives(0, "", "");
        assert_eq!(mode_of(desk, "new.book"), mode);
        desk.run_by(&by, &["set", "a.book", "1", "a"]).gives(0, "", "");
        assert_eq!(mode_of(desk, "a.book"), 0o755);
        desk.remove("new.book");
    }
}

/// Whoever may give files away, the superuser, leaves the file with its owner. Others become the
/// owner and keep the group, if it is one of theirs.
fn owners(desk: &Desk) {
    desk.write("a.book", &BOOK);
    let shim = Shim::new(desk);
    let ours = fs::metadata(desk.path("a.book")).unwrap();
    // Who is not the superuser cannot make a file of another owner to try it with.
    let (owner, group) = if ours.uid() == 0 { (12_345, 23_456) } else { (ours.uid(), ours.gid()) };
    for (rules, wanted) in [
        ("".to_string(), (owner, group)),
        (format!("fchown:1:{EPERM}"), (ours.uid(), group)),
        (format!("fchown:1:{EPERM},fchown:2:{EPERM}"), (ours.uid(), ours.gid())),
    ] {
        desk.write("a.book", &BOOK);
        chown(desk.path("a.book"), Some(owner), Some(group)).unwrap();
        fs::set_permissions(desk.path("a.book"), Permissions::from_mode(0o664)).unwrap();
        shim.rule(desk.run(&["set", "a.book", "1", "a"]), &rules).gives(0, "", "");
        let found = fs::metadata(desk.path("a.book")).unwrap();
        assert_eq!((found.uid(), found.gid()), wanted, "{rules}");
        assert_eq!(mode_of(desk, "a.book"), 0o664);
    }
}

fn paths(desk: &Desk) {
    let odd: [&[u8]; 5] = [b"./-", b"a b.book", b"\xFF\xFE", b"'\"$`*", b"new\nline"];
    for path in odd.map(std::ffi::OsStr::from_bytes) {
        let (build, null) = ("build".as_ref(), "/dev/null".as_ref());
        desk.does(&[build, path, null]);
        desk.does(&["set".as_ref(), path, "1".as_ref(), "a".as_ref()]);
        desk.prints(&["list".as_ref(), path], "1 a\n");
        fs::remove_file(desk.folder.join(path)).unwrap();
    }
    let longest = "n".repeat(255);
    desk.does(&["build", &longest, "/dev/null"]);
    desk.does(&["set", &longest, "1", "a"]);
    desk.does(&["build", "--", "-b", "/dev/null"]);
    desk.prints(&["list", "--", "-b"], "");
    desk.does(&["set", "--", "-b", "1", "-b"]);
    desk.prints(&["list", "./-b"], "1 -b\n");
}

/// Commands that write to standard output.
const PRINTING: [&[&str]; 11] = [
    &["check", "a.book"],
    &["list", "a.book"],
    &["top", "a.book", "1"],
    &["page", "a.book"],
    &["trie", "a.book", "-"],
    &["merge", "a.book", "a.book", "-o", "-"],
    &["convert", "a.book", "-o", "-"],
    &["build", "-"],
    &["help"],
    &["help", "set"],
    &["--version"],
];

fn a_full_disk(desk: &Desk) {
    let full = || File::options().write(true).open("/dev/full").unwrap();
    desk.write("a.book", &BOOK);
    for arguments in PRINTING {
        let words = "standard output: No space left on device (os error 28)";
        desk.run(arguments).stdout(full()).fails(desk, 74, words);
    }
    // Where the message cannot be written, the status still tells.
    desk.run(&["withdraw", "a.book", "zz"]).stderr(full()).gives(4, "", "");
    desk.run(&["sett"]).stderr(full()).gives(64, "", "");
    desk.run(&["list", "none"]).stderr(full()).stdout(full()).gives(74, "", "");
    // Nor does a remark that cannot be written undo an edit.
    desk.write("more.book", &[&BOOK[..], b"more"].concat());
    desk.run(&["set", "more.book", "5", "ac"]).stderr(full()).gives(0, "", "");
    assert_eq!(desk.read("more.book"), BOOK);
    desk.run(&["convert", "more.book"]).stderr(full()).gives(0, "", "");
    assert_eq!(desk.read("more.book"), OLD_BOOK);
}

/// The system takes a part of the book, then no more: nothing has changed, nothing is left over.
fn a_limit_on_files(desk: &Desk) {
    let by = ["sh", "-c", "trap '' XFSZ; ulimit -f 1; exec \"$@\"", "sh"];
    let mut entries = long_names(1000);
    desk.write("a.book", book_of(&entries).image());
    entries.truncate(900);
    desk.write("b.book", book_of(&entries).image());
    desk.write("lines", &common::lines_of(&entries));
    for (arguments, file) in [
        (&["set", "a.book", "1", "new"][..], "a.book"),
        (&["withdraw", "a.book", &entries[7].1], "a.book"),
        (&["merge", "b.book", "a.book"], "b.book"),
        (&["merge", "b.book", "a.book", "-o", "c.book"], "c.book"),
        (&["build", "c.book", "lines"], "c.book"),
        (&["build", "--force", "a.book", "lines"], "a.book"),
        (&["trie", "a.book", "a.trie"], "a.trie"),
        (&["convert", "a.book"], "a.book"),
        (&["convert", "a.book", "-o", "c.book"], "c.book"),
    ] {
        let words = format!("{file}: File too large (os error 27)");
        desk.run_by(&by, arguments).fails(desk, 74, &words);
    }
    // Small files are within it.
    desk.write("small.book", &BOOK);
    desk.run_by(&by, &["set", "small.book", "1", "new"]).gives(0, "", "");
}

/// Whoever read the output has gone: no message, no panic, and the status that shells know.
fn closed_pipes(desk: &Desk) {
    desk.write("a.book", book_of(&long_names(1024)).image());
    for arguments in PRINTING {
        let (reader, writer) = std::io::pipe().unwrap();
        drop(reader);
        desk.run(arguments).stdout(writer).gives(141, "", "");
    }
}

fn streams_not_open(desk: &Desk) {
    desk.write("a.book", &BOOK);
    let to_read = || File::open(desk.path("a.book")).unwrap();
    let words = "standard output: Bad file descriptor (os error 9)";
    desk.run(&["list", "a.book"]).stdout(to_read()).fails(desk, 74, words);
    desk.run(&["trie", "a.book", "-"]).stdout(to_read()).fails(desk, 74, words);
    desk.write("written", b"");
    let to_write = || File::options().write(true).open(desk.path("written")).unwrap();
    let words = "standard input: Bad file descriptor (os error 9)";
    desk.run(&["check", "-"]).stdin(to_write()).fails(desk, 74, words);
    desk.run(&["build", "b.book"]).stdin(to_write()).fails(desk, 74, words);
    desk.run(&["merge", "a.book", "-"]).stdin(to_write()).fails(desk, 74, words);
}
