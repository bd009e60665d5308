//! Each command: what it prints, the exit status, and every refusal with its message.
mod common;

use common::{book_of, lines_of, long_names, run_all, Desk, BOOK, EMPTY_BOOK, LINES, TRIE};
use common::{converted, DAMAGED_OLD, OLD, OLD_BOOK, OLD_EMPTY_BOOK};
use common::{A_TRIE, FULL, NOT_ALLOWED, NOT_A_BOOK, NOT_A_COUNT, NOT_HELD};
use label_book::{Book, COUNT_MAX, PAGE_MAX};
use label_book_tests::random::Random;
use std::collections::BTreeMap;
use std::ffi::{OsStr, OsString};
use std::os::unix::ffi::{OsStrExt, OsStringExt};

const COMMANDS: [&str; 10] =
    ["check", "list", "build", "set", "withdraw", "top", "page", "merge", "trie", "convert"];

fn main() {
    run_all(&[
        ("usage", usage),
        ("usage of commands", usage_of_commands),
        ("help", help),
        ("check", check),
        ("list", list),
        ("set", set),
        ("withdraw", withdraw),
        ("top", top),
        ("page", page),
        ("page of long names", page_of_long_names),
        ("merge", merge),
        ("merge with bytes behind", merge_with_bytes_behind),
        ("merge into another file", merge_into),
        ("merge with old and damaged books", merge_with_old_books),
        ("trie", trie),
        ("convert", convert),
        ("convert many names", convert_many),
        ("convert into another file", convert_into),
        ("convert what is no book", convert_no_book),
        ("names", names),
        ("names with signs", names_with_signs),
        ("scores", scores),
        ("a term", a_term),
        ("random arguments", random_arguments),
    ]);
}

const BEHIND: &str = "what begins with - and is no option stands behind --";

/// Wrong usage of a command, its first argument.
fn wrong_usage(desk: &Desk, arguments: &[&str], words: &str) {
    let command = arguments[0];
    let words = format!("{command}: {words}\n`labelbook help {command}` says more");
    desk.fails(arguments, 64, &words);
}

fn usage(desk: &Desk) {
    desk.write("a.book", &BOOK);
    let general = |arguments: &[&str], words: &str| {
        desk.fails(arguments, 64, &format!("{words}\n`labelbook help` lists the commands"));
    };
    general(&[], "a command is missing");
    general(&["sett", "a.book"], "there is no command `sett`");
    general(&["--forc"], "there is no command `--forc`");
    general(&["help", "ac\ndc"], "there is no command `ac\\ndc`");
    general(&["help", "set", "ac"], "`ac` is too much");
    general(&["--version", "ac"], "`ac` is too much");
    for command in COMMANDS {
        let no_option = format!("there is no option `--all`; {BEHIND}");
        wrong_usage(desk, &[command, "--all", "x"], &no_option);
        wrong_usage(desk, &[command], "FILE is missing");
        let extra = match command {
            "check" | "list" | "page" | "convert" => "1",
            "set" | "top" => "rc step",
            _ => "2",
        };
        let words = format!("`{extra}` is too much; a name with spaces stands in quotes");
        wrong_usage(desk, &[command, "a.book", "1", "2", "rc step"], &words);
    }
}

fn usage_of_commands(desk: &Desk) {
    const IN_PLACE: &str = "FILE is changed in place, so it cannot be `-`";
    desk.write("a.book", &BOOK);
    let wrong = |arguments: &[&str], words: &str| wrong_usage(desk, arguments, words);
    wrong(&["set", "a.book"], "SCORE is missing");
    wrong(&["set", "a.book", "5"], "NAME is missing");
    wrong(&["set", "a.book", "5", "--"], "NAME is missing");
    wrong(&["set", "a.book", "5", "-3dB"], &format!("there is no option `-3dB`; {BEHIND}"));
    wrong(&["withdraw", "a.book"], "NAME is missing");
    wrong(&["top", "a.book"], "K is missing");
    wrong(&["merge", "a.book"], "OTHER is missing");
    wrong(&["merge", "a.book", "b.book", "-o"], "OUT is missing behind -o");
    wrong(&["trie", "a.book"], "OUT is missing");
    wrong(&["check", "--force", "a.book"], &format!("there is no option `--force`; {BEHIND}"));
    wrong(&["trie", "a.book", "-o", "b"], &format!("there is no option `-o`; {BEHIND}"));
    let needs_out = "--force goes with -o OUT; FILE is changed in place";
    wrong(&["merge", "a.book", "b.book", "--force"], needs_out);
    wrong(&["convert", "a.book", "--force"], needs_out);
    wrong(&["convert", "a.book", "-o"], "OUT is missing behind -o");
    wrong(&["merge", "-", "-", "-o", "c.book"], "FILE and OTHER cannot both be `-`");
    wrong(&["set", "-", "5", "ac"], IN_PLACE);
    wrong(&["withdraw", "-", "ac"], IN_PLACE);
    wrong(&["merge", "-", "a.book"], IN_PLACE);
    wrong(&["convert", "-"], IN_PLACE);
}

fn help(desk: &Desk) {
    let general = desk.run(&["help"]).outcome();
    general.is(0, &general.out, "");
    desk.prints(&["--help"], &general.out);
    desk.prints(&["-h"], &general.out);
    let general = String::from_utf8(general.out).unwrap();
    let mut texts = vec![general.clone()];
    for command in COMMANDS {
        let about = desk.run(&["help", command]).outcome();
        about.is(0, &about.out, "");
        desk.prints(&[command, "--help"], &about.out);
        desk.prints(&[command, "a.book", "-h"], &about.out);
        let about = String::from_utf8(about.out).unwrap();
        // Both show the same usage, the general help without --force.
        let usage = about.lines().next().unwrap();
        let shown = usage.replace(" [--force]", "");
        assert!(general.contains(&format!("\n  {shown}  ")), "{shown} is in the general help");
        assert!(usage.starts_with(&format!("labelbook {command} ")), "{usage}");
        texts.push(about);
    }
    let top = &texts[1 + COMMANDS.iter().position(|command| *command == "top").unwrap()];
    assert!(top.contains(&format!("from 1 to {COUNT_MAX},")), "{top}");
    assert!(top.contains(&format!("K is not 1 to {COUNT_MAX}.\n")), "{top}");
    for line in texts.iter().flat_map(|text| text.lines()) {
        assert!(line.chars().count() <= 100 && !line.ends_with(' '), "{line}");
    }
    let version = concat!("labelbook ", env!("CARGO_PKG_VERSION"), "\n");
    desk.prints(&["--version"], version);
    desk.prints(&["-V"], version);
}

fn check(desk: &Desk) {
    const BEHIND: &str = "bytes stand behind the book; they are not part of it\n";
    desk.write("a.book", &BOOK);
    desk.write("empty.book", &EMPTY_BOOK);
    desk.write("one.book", book_of(&[(5, "ac")]).image());
    desk.write("more.book", &[&BOOK[..], b"\0"].concat());
    desk.prints(&["check", "a.book"], "4 entries, 43 bytes\n");
    desk.prints(&["check", "empty.book"], "0 entries, 7 bytes\n");
    desk.prints(&["check", "one.book"], "1 entry, 17 bytes\n");
    desk.prints(&["check", "more.book"], format!("4 entries, 43 bytes\n{BEHIND}"));
    desk.run(&["check", "-"]).input(BOOK).gives(0, "4 entries, 43 bytes\n", "");
    let much = [&BOOK[..], &[0x22; 200_000]].concat();
    let wanted = format!("4 entries, 43 bytes\n{BEHIND}");
    desk.run(&["check", "-"]).input(much).gives(0, wanted, "");
    let full = book_of(&long_names(1024));
    desk.write("full.book", full.image());
    let wanted = format!("1024 entries, {} bytes\n", full.image().len());
    desk.prints(&["check", "full.book"], wanted);
    desk.write("a.trie", &TRIE);
    desk.fails(&["check", "a.trie"], 1, &format!("a.trie: {NOT_A_BOOK}; {A_TRIE}"));
    desk.run(&["check", "-"]).fails(desk, 1, &format!("standard input: {NOT_A_BOOK}"));
    desk.run(&["check", "-"]).input(OLD_BOOK).fails(desk, 10, &format!("standard input: {OLD}"));
    // What the help shows is what is said of these entries.
    let help = String::from_utf8(desk.run(&["help", "check"]).outcome().out).unwrap();
    assert!(help.contains("\n\n  4 entries, 43 bytes\n\n"), "{help}");
    desk.fails(&["check", "b.book"], 74, "b.book: No such file or directory (os error 2)");
}

fn list(desk: &Desk) {
    desk.write("a.book", &BOOK);
    desk.write("empty.book", &EMPTY_BOOK);
    desk.prints(&["list", "a.book"], LINES);
    desk.prints(&["list", "empty.book"], "");
    desk.run(&["list", "-"]).input(BOOK).gives(0, LINES, "");
    let mut entries = long_names(1024);
    desk.write("full.book", book_of(&entries).image());
    entries.sort_by(|a, b| a.1.cmp(&b.1));
    desk.prints(&["list", "full.book"], lines_of(&entries));
    desk.write("a.trie", &TRIE);
    desk.fails(&["list", "a.trie"], 1, &format!("a.trie: {NOT_A_BOOK}; {A_TRIE}"));
    desk.run(&["list", "-"]).input("21").fails(desk, 1, &format!("standard input: {NOT_A_BOOK}"));
    desk.fails(&["list", "b.book"], 74, "b.book: No such file or directory (os error 2)");
}

fn set(desk: &Desk) {
    desk.write("a.book", &EMPTY_BOOK);
    for (score, name) in [("12", "rl"), ("1", "rc"), ("9", "rc step"), ("5", "ac"), ("9", "rc")] {
        desk.does(&["set", "a.book", score, name]);
    }
    assert_eq!(desk.read("a.book"), BOOK);
    desk.does(&["set", "a.book", "12", "rl"]);
    assert_eq!(desk.read("a.book"), BOOK);

    desk.fails(&["set", "a.book", "1", ""], 2, &format!("a.book: {NOT_ALLOWED}"));
    desk.fails(&["set", "b.book", "1", "a"], 74, "b.book: No such file or directory (os error 2)");
    desk.write("a.trie", &TRIE);
    desk.fails(&["set", "a.trie", "1", "a"], 1, &format!("a.trie: {NOT_A_BOOK}; {A_TRIE}"));
    desk.fails(&["set", "a.trie", "1", ""], 1, &format!("a.trie: {NOT_A_BOOK}; {A_TRIE}"));

    let mut entries = long_names(1024);
    desk.write("full.book", book_of(&entries).image());
    desk.fails(&["set", "full.book", "1", "new"], 5, &format!("full.book: {FULL}"));
    desk.fails(&["set", "full.book", "1", "new\n"], 2, &format!("full.book: {NOT_ALLOWED}"));
    entries[77].0 = 3;
    desk.does(&["set", "full.book", "3", &entries[77].1]);
    assert_eq!(desk.read("full.book"), book_of(&entries).image());

    // Bytes behind the book are not kept, and it says so.
    desk.write("more.book", &[&BOOK[..], b"more"].concat());
    let gone = "labelbook: more.book: the bytes that stood behind the book are gone\n";
    desk.fails(&["set", "more.book", "1", ""], 2, &format!("more.book: {NOT_ALLOWED}"));
    desk.run(&["set", "more.book", "12", "rl"]).gives(0, "", gone);
    assert_eq!(desk.read("more.book"), BOOK);
    desk.does(&["set", "more.book", "12", "rl"]);
}

fn withdraw(desk: &Desk) {
    desk.write("a.book", &BOOK);
    desk.fails(&["withdraw", "a.book", "zz"], 4, &format!("a.book: {NOT_HELD}"));
    desk.fails(&["withdraw", "a.book", "r"], 4, &format!("a.book: {NOT_HELD}"));
    desk.fails(&["withdraw", "a.book", ""], 2, &format!("a.book: {NOT_ALLOWED}"));
    desk.does(&["withdraw", "a.book", "rc"]);
    desk.prints(&["list", "a.book"], "5 ac\n9 rc step\n12 rl\n");
    desk.fails(&["withdraw", "a.book", "rc"], 4, &format!("a.book: {NOT_HELD}"));
    for name in ["rl", "ac", "rc step"] {
        desk.does(&["withdraw", "a.book", name]);
    }
    assert_eq!(desk.read("a.book"), EMPTY_BOOK);
    desk.write("no.book", &BOOK[..42]);
    desk.fails(&["withdraw", "no.book", "rc"], 1, &format!("no.book: {NOT_A_BOOK}"));
    desk.fails(&["withdraw", "b.book", "a"], 74, "b.book: No such file or directory (os error 2)");

    // Ten names whose book of version 21 grew when the first was withdrawn: 125, then 118 bytes.
    let mut ten: Vec<(u32, String)> = (1..=8).map(|i| (1, i.to_string())).collect();
    ten.extend([47, 48].map(|length| (1, "x".repeat(length))));
    desk.write("ten.book", book_of(&ten).image());
    desk.prints(&["check", "ten.book"], "10 entries, 125 bytes\n");
    desk.does(&["withdraw", "ten.book", "1"]);
    desk.prints(&["check", "ten.book"], "9 entries, 118 bytes\n");
}

fn top(desk: &Desk) {
    desk.write("a.book", &BOOK);
    desk.write("a.trie", &TRIE);
    for file in ["a.book", "a.trie"] {
        desk.prints(&["top", file, "2", "r"], "12 rl\n9 rc\n");
        desk.prints(&["top", file, "5", "rc"], "9 rc\n9 rc step\n");
        desk.prints(&["top", file, "5", "q"], "");
        desk.prints(&["top", file, "1"], "12 rl\n");
        desk.prints(&["top", file, "9", ""], "12 rl\n9 rc\n9 rc step\n5 ac\n");
        desk.run(&["top", "-", "1", "a"]).input(desk.read(file)).gives(0, "5 ac\n", "");
        let behind = [&desk.read(file)[..], &[7; 90_000]].concat();
        desk.run(&["top", "-", "1", "a"]).input(behind).gives(0, "5 ac\n", "");
        for count in ["0", "10", "11", "16", "17", "256", "265", "4294967295"] {
            desk.fails(&["top", file, count, "r"], 3, &format!("{file}: {NOT_A_COUNT}"));
        }
        desk.fails(&["top", file, "0", "\t"], 2, &format!("{file}: {NOT_ALLOWED}"));
        let cut = desk.read(file);
        desk.write("cut", &cut[..cut.len() - 1]);
        desk.fails(&["top", "cut", "0", "\t"], 1, &format!("cut: {NOT_A_BOOK}"));
    }
    desk.run(&["top", "-", "1"]).fails(desk, 1, &format!("standard input: {NOT_A_BOOK}"));
    desk.fails(&["top", "b.book", "1"], 74, "b.book: No such file or directory (os error 2)");
    let words = "K is a whole number from 1 to 9, not";
    for text in ["", "x", "-1", "+1", "1.0", "4294967296", "00000000001"] {
        let message = format!("top: {words} `{text}`\n`labelbook help top` says more");
        desk.fails(&["top", "--", "a.book", text], 64, &message);
    }
    let mut entries = long_names(1024);
    let book = book_of(&entries);
    desk.write("full.book", book.image());
    desk.write("full.trie", &book.trie());
    entries.sort_by_key(|entry| std::cmp::Reverse(entry.0));
    for file in ["full.book", "full.trie"] {
        desk.prints(&["top", file, "9"], lines_of(&entries[..9]));
        desk.fails(&["top", file, "10"], 3, &format!("{file}: {NOT_A_COUNT}"));
    }
}

const HEADING: &str = "NAME                               SCORE\n";

/// The page of entries that stand in rank.
fn page_of<N: AsRef<[u8]>>(entries: &[(u32, N)]) -> Vec<u8> {
    let mut page = HEADING.as_bytes().to_vec();
    for (score, name) in entries {
        let mut score = score.to_string();
        for part in name.as_ref().chunks(28) {
            page.extend_from_slice(part);
            page.extend(std::iter::repeat_n(b' ', 28 - part.len()));
            page.extend_from_slice(format!("{score:>12}\n").as_bytes());
            score.clear();
        }
    }
    page
}

fn page(desk: &Desk) {
    let lines = [
        HEADING,
        "rl                                    12\n",
        "rc                                     9\n",
        "rc step                                9\n",
        "ac                                     5\n",
    ];
    let page = lines.concat();
    desk.write("a.book", &BOOK);
    desk.prints(&["page", "a.book"], &page);
    desk.run(&["page", "-"]).input(BOOK).gives(0, &page, "");
    desk.write("more.book", &[&BOOK[..], b"more"].concat());
    desk.prints(&["page", "more.book"], &page);
    desk.write("empty.book", &EMPTY_BOOK);
    desk.prints(&["page", "empty.book"], HEADING);
    desk.write("a.trie", &TRIE);
    desk.fails(&["page", "a.trie"], 1, &format!("a.trie: {NOT_A_BOOK}; {A_TRIE}"));
    desk.run(&["page", "-"]).input(&page).fails(desk, 1, &format!("standard input: {NOT_A_BOOK}"));
    desk.fails(&["page", "b.book"], 74, "b.book: No such file or directory (os error 2)");
    // What the help shows is the front of it.
    let help = String::from_utf8(desk.run(&["help", "page"]).outcome().out).unwrap();
    let shown: String = lines[..4].iter().map(|line| format!("  {line}")).collect();
    assert!(help.contains(&format!("\n\n{shown}\n")), "{help}");
}

/// Names of 28 bytes have one line, longer ones two; signs are split where the 28 bytes end.
fn page_of_long_names(desk: &Desk) {
    let a = "a".repeat(27);
    let names = [a.clone(), format!("{a}a"), format!("{a}aa"), format!("{a}µF"), format!("{a}aΩ")];
    let longest = "n".repeat(48);
    let mut entries: Vec<(u32, &str)> = vec![(u32::MAX, &longest)];
    entries.extend(names.iter().map(|name| (7, &name[..])));
    entries.push((0, "10 µF"));
    desk.write("a.book", book_of(&entries).image());
    let wanted: [&[u8]; 12] = [
        HEADING.as_bytes(),
        b"nnnnnnnnnnnnnnnnnnnnnnnnnnnn  4294967295\n",
        b"nnnnnnnnnnnnnnnnnnnn                    \n",
        b"aaaaaaaaaaaaaaaaaaaaaaaaaaa            7\n",
        b"aaaaaaaaaaaaaaaaaaaaaaaaaaaa           7\n",
        b"aaaaaaaaaaaaaaaaaaaaaaaaaaaa           7\n",
        b"a                                       \n",
        b"aaaaaaaaaaaaaaaaaaaaaaaaaaaa           7\n",
        b"\xCE\xA9                                      \n",
        b"aaaaaaaaaaaaaaaaaaaaaaaaaaa\xC2           7\n",
        b"\xB5F                                      \n",
        b"10 \xC2\xB5F                                 0\n",
    ];
    desk.prints(&["page", "a.book"], wanted.concat());

    let mut entries = long_names(1024);
    desk.write("full.book", book_of(&entries).image());
    entries.sort_by_key(|entry| std::cmp::Reverse(entry.0));
    let page = page_of(&entries);
    assert_eq!(page.len(), PAGE_MAX);
    desk.prints(&["page", "full.book"], page);
}

fn merge(desk: &Desk) {
    let restore = || {
        desk.write("a.book", &BOOK);
        desk.write("b.book", book_of(&[(1, "dc"), (99, "rc"), (2, "z")]).image());
    };
    restore();
    let merged = "5 ac\n1 dc\n9 rc\n9 rc step\n12 rl\n2 z\n";
    desk.does(&["merge", "a.book", "b.book"]);
    desk.prints(&["list", "a.book"], merged);
    desk.prints(&["list", "b.book"], "1 dc\n99 rc\n2 z\n");
    restore();
    desk.run(&["merge", "a.book", "-"]).input(desk.read("b.book")).gives(0, "", "");
    desk.prints(&["list", "a.book"], merged);
    desk.does(&["merge", "a.book", "a.book"]);
    desk.prints(&["list", "a.book"], merged);
    desk.write("empty.book", &EMPTY_BOOK);
    desk.does(&["merge", "empty.book", "a.book"]);
    assert_eq!(desk.read("empty.book"), desk.read("a.book"));

    restore();
    desk.write("no.book", &BOOK[..40]);
    desk.fails(&["merge", "no.book", "b.book"], 1, &format!("no.book: {NOT_A_BOOK}"));
    desk.fails(&["merge", "a.book", "no.book"], 1, &format!("no.book: {NOT_A_BOOK}"));
    let words = format!("standard input: {NOT_A_BOOK}");
    desk.run(&["merge", "a.book", "-"]).fails(desk, 1, &words);
    let missing = "c.book: No such file or directory (os error 2)";
    desk.fails(&["merge", "a.book", "c.book"], 74, missing);
    desk.fails(&["merge", "c.book", "a.book"], 74, missing);
    desk.write("full.book", book_of(&long_names(1024)).image());
    desk.fails(&["merge", "full.book", "a.book"], 5, &format!("full.book: {FULL}"));
    desk.fails(&["merge", "a.book", "full.book"], 5, &format!("a.book: {FULL}"));
    desk.does(&["merge", "full.book", "full.book"]);
}

/// A second book with bytes behind it is no matter; the first loses them.
fn merge_with_bytes_behind(desk: &Desk) {
    desk.write("a.book", &BOOK);
    desk.write("more.book", &[book_of(&[(1, "dc")]).image(), b"more"].concat());
    desk.does(&["merge", "a.book", "more.book"]);
    desk.prints(&["list", "a.book"], "5 ac\n1 dc\n9 rc\n9 rc step\n12 rl\n");
    let gone = "labelbook: more.book: the bytes that stood behind the book are gone\n";
    desk.run(&["merge", "more.book", "a.book"]).gives(0, "", gone);
    assert_eq!(desk.read("more.book"), desk.read("a.book"));
}

fn merge_into(desk: &Desk) {
    const MERGED: &str = "5 ac\n1 dc\n9 rc\n9 rc step\n12 rl\n";
    desk.write("a.book", &BOOK);
    desk.write("b.book", book_of(&[(1, "dc"), (99, "rc")]).image());
    let (a, b) = (desk.read("a.book"), desk.read("b.book"));
    desk.does(&["merge", "a.book", "b.book", "-o", "c.book"]);
    desk.prints(&["list", "c.book"], MERGED);
    assert_eq!((desk.read("a.book"), desk.read("b.book")), (a.clone(), b.clone()));
    let exists = "c.book: it exists already; --force replaces it";
    desk.fails(&["merge", "-o", "c.book", "b.book", "a.book"], 74, exists);
    desk.does(&["merge", "-o", "c.book", "b.book", "a.book", "--force"]);
    desk.prints(&["list", "c.book"], MERGED.replace("9 rc\n", "99 rc\n"));
    let merged = [(5, "ac"), (1, "dc"), (9, "rc"), (9, "rc step"), (12, "rl")];
    let merged = book_of(&merged).image().to_vec();
    desk.run(&["merge", "-", "b.book", "-o", "-"]).input(&a).gives(0, &merged, "");
    desk.run(&["merge", "a.book", "-", "-o", "-"]).input(&b).gives(0, &merged, "");
    desk.run(&["merge", "-", "b.book", "-o", "d.book"]).input(&a).gives(0, "", "");
    assert_eq!(desk.read("d.book"), merged);

    desk.write("no.book", &BOOK[..40]);
    let no_book = &format!("no.book: {NOT_A_BOOK}");
    desk.fails(&["merge", "no.book", "b.book", "-o", "e.book"], 1, no_book);
    desk.fails(&["merge", "a.book", "no.book", "-o", "e.book"], 1, no_book);
    desk.fails(&["merge", "a.book", "no.book", "-o", "c.book", "--force"], 1, no_book);
    desk.write("full.book", book_of(&long_names(1024)).image());
    let full = &format!("a.book: {FULL}");
    desk.fails(&["merge", "a.book", "full.book", "-o", "e.book"], 5, full);
    desk.fails(&["merge", "a.book", "full.book", "-o", "-"], 5, full);
    let force = |file, other| ["merge", "--force", "-o", "a.book", file, other];
    desk.fails(&force("a.book", "b.book"), 74, "a.book: it is FILE itself");
    desk.fails(&force("b.book", "./a.book"), 74, "a.book: it is OTHER itself");
}

/// Of an old book and one that is damaged the old one is told, whichever is which.
fn merge_with_old_books(desk: &Desk) {
    let old = &format!("old.book: {OLD}");
    desk.write("a.book", &BOOK);
    for image in [&OLD_BOOK[..], &OLD_EMPTY_BOOK, &OLD_BOOK[..40], &OLD_BOOK[..1]] {
        desk.write("old.book", image);
        for other in ["a.book", "no.book", "a.trie", "none", "old.book"] {
            desk.write("no.book", &BOOK[..40]);
            desk.write("a.trie", &TRIE);
            desk.write("none", b"");
            for (file, second) in [("old.book", other), (other, "old.book")] {
                desk.fails(&["merge", file, second], 10, old);
                desk.fails(&["merge", file, second, "-o", "c.book"], 10, old);
                desk.fails(&["merge", file, second, "-o", "-"], 10, old);
            }
        }
        // A file that cannot be read is another matter.
        let missing = "c.book: No such file or directory (os error 2)";
        desk.fails(&["merge", "old.book", "c.book"], 74, missing);
        desk.fails(&["merge", "c.book", "old.book", "-o", "-"], 74, missing);
    }
    let words = format!("standard input: {OLD}");
    desk.run(&["merge", "a.book", "-"]).input(OLD_BOOK).fails(desk, 10, &words);
    desk.run(&["merge", "no.book", "-", "-o", "-"]).input(OLD_BOOK).fails(desk, 10, &words);
    // Damaged ones alone: the first that is read.
    let (no, none) = (&format!("no.book: {NOT_A_BOOK}"), &format!("none: {NOT_A_BOOK}"));
    desk.fails(&["merge", "none", "no.book"], 1, no);
    desk.fails(&["merge", "none", "no.book", "-o", "-"], 1, none);
}

fn trie(desk: &Desk) {
    desk.write("a.book", &BOOK);
    desk.write("more.book", &[&BOOK[..], b"more"].concat());
    desk.does(&["trie", "a.book", "a.trie"]);
    assert_eq!(desk.read("a.trie"), TRIE);
    desk.does(&["trie", "more.book", "b.trie"]);
    assert_eq!(desk.read("b.trie"), TRIE);
    desk.prints(&["trie", "a.book", "-"], TRIE);
    desk.run(&["trie", "-", "-"]).input(BOOK).gives(0, TRIE, "");
    desk.run(&["trie", "-", "-"]).input(EMPTY_BOOK).gives(0, b"\x31\0\0\0\x07\0\0", "");
    let exists = "a.trie: it exists already; --force replaces it";
    desk.write("b.book", book_of(&[(1, "b")]).image());
    desk.fails(&["trie", "b.book", "a.trie"], 74, exists);
    desk.does(&["trie", "b.book", "a.trie", "--force"]);
    assert_eq!(desk.read("a.trie"), book_of(&[(1, "b")]).trie());
    desk.fails(&["trie", "a.trie", "c.trie"], 1, &format!("a.trie: {NOT_A_BOOK}; {A_TRIE}"));
    desk.fails(
        &["trie", "a.trie", "b.trie", "--force"],
        1,
        &format!("a.trie: {NOT_A_BOOK}; {A_TRIE}"),
    );
    desk.fails(&["trie", "c.book", "c.trie"], 74, "c.book: No such file or directory (os error 2)");
    desk.fails(&["trie", "--force", "a.book", "a.book"], 74, "a.book: it is FILE itself");
    let full = book_of(&long_names(1024));
    desk.run(&["trie", "-", "-"]).input(full.image()).gives(0, full.trie(), "");
}

/// Up, back, and the same bytes again, in the file itself.
fn convert(desk: &Desk) {
    let up = converted("a.book", 21, 22, "4 entries, 43 bytes");
    let back = converted("a.book", 22, 21, "4 entries, 44 bytes");
    desk.write("a.book", &OLD_BOOK);
    for _ in 0..2 {
        desk.fails(&["top", "a.book", "2", "r"], 10, &format!("a.book: {OLD}"));
        desk.run(&["convert", "a.book"]).gives(0, "", &up);
        assert_eq!(desk.read("a.book"), BOOK);
        desk.prints(&["top", "a.book", "2", "r"], "12 rl\n9 rc\n");
        desk.run(&["convert", "a.book"]).gives(0, "", &back);
        assert_eq!(desk.read("a.book"), OLD_BOOK);
    }
    desk.write("empty.book", &OLD_EMPTY_BOOK);
    let words = converted("empty.book", 21, 22, "0 entries, 7 bytes");
    desk.run(&["convert", "empty.book"]).gives(0, "", &words);
    assert_eq!(desk.read("empty.book"), EMPTY_BOOK);
    desk.write("one.book", book_of(&[(5, "ac")]).image());
    let words = converted("one.book", 22, 21, "1 entry, 18 bytes");
    desk.run(&["convert", "one.book"]).gives(0, "", &words);

    // Bytes behind the book are not kept, and it says so.
    let gone = "labelbook: more.book: the bytes that stood behind the book are gone\n";
    for (image, to, words) in [
        (&OLD_BOOK[..], &BOOK[..], converted("more.book", 21, 22, "4 entries, 43 bytes")),
        (&BOOK[..], &OLD_BOOK[..], converted("more.book", 22, 21, "4 entries, 44 bytes")),
    ] {
        desk.write("more.book", &[image, b"\0"].concat());
        desk.run(&["convert", "more.book"]).gives(0, "", &format!("{words}{gone}"));
        assert_eq!(desk.read("more.book"), to);
    }
    // What the help shows is what is said of these entries.
    let help = String::from_utf8(desk.run(&["help", "convert"]).outcome().out).unwrap();
    let shown = converted("term.book", 21, 22, "4 entries, 43 bytes");
    assert!(help.contains(&format!("\n\n  labelbook convert term.book\n  {shown}\n")), "{help}");
}

/// A full book there and back. In version 21 every eighth name stands in full, which needs space.
fn convert_many(desk: &Desk) {
    let full = book_of(&long_names(1024)).image().to_vec();
    let old = Book::from_image(&full).unwrap().old_image();
    assert!(old.len() > full.len());
    desk.write("a.book", &full);
    for (image, from, to) in [(&old, 22, 21), (&full, 21, 22)] {
        let size = format!("1024 entries, {} bytes", image.len());
        desk.run(&["convert", "a.book"]).gives(0, "", &converted("a.book", from, to, &size));
        assert_eq!(desk.read("a.book"), *image);
    }
    // The ten names of document 01: 125 bytes, and 127 with two heads; without "1" 118 and 167.
    let mut ten: Vec<(u32, String)> = (1..=8).map(|i| (0, i.to_string())).collect();
    ten.extend([47, 48].map(|length| (0, "x".repeat(length))));
    for (names, size) in [(&ten[..], "10 entries, 127 bytes"), (&ten[1..], "9 entries, 167 bytes")]
    {
        desk.write("a.book", book_of(names).image());
        desk.run(&["convert", "a.book"]).gives(0, "", &converted("a.book", 22, 21, size));
        desk.fails(&["withdraw", "a.book", "2"], 10, &format!("a.book: {OLD}"));
        assert_eq!(desk.run(&["convert", "a.book"]).outcome().status, 0);
        assert_eq!(desk.read("a.book"), book_of(names).image());
    }
}

fn convert_into(desk: &Desk) {
    desk.write("old.book", &OLD_BOOK);
    let up = |place| converted(place, 21, 22, "4 entries, 43 bytes");
    desk.run(&["convert", "old.book", "-o", "a.book"]).gives(0, "", &up("a.book"));
    assert_eq!((desk.read("a.book"), desk.read("old.book")), (BOOK.to_vec(), OLD_BOOK.to_vec()));
    let back = converted("b.book", 22, 21, "4 entries, 44 bytes");
    desk.run(&["convert", "-o", "b.book", "a.book"]).gives(0, "", &back);
    assert_eq!(desk.read("b.book"), OLD_BOOK);
    let exists = "a.book: it exists already; --force replaces it";
    desk.write("a.book", &EMPTY_BOOK);
    desk.fails(&["convert", "old.book", "-o", "a.book"], 74, exists);
    desk.run(&["convert", "--force", "old.book", "-o", "a.book"]).gives(0, "", &up("a.book"));
    assert_eq!(desk.read("a.book"), BOOK);
    desk.fails(
        &["convert", "--force", "a.book", "-o", "./a.book"],
        74,
        "./a.book: it is FILE itself",
    );

    // The streams: the output is the book and nothing else.
    desk.run(&["convert", "-", "-o", "-"]).input(OLD_BOOK).gives(0, BOOK, &up("standard output"));
    let behind = [&OLD_BOOK[..], &[7; 90_000]].concat();
    desk.run(&["convert", "-", "-o", "-"]).input(behind).gives(0, BOOK, &up("standard output"));
    desk.run(&["convert", "-", "-o", "c.book"]).input(OLD_BOOK).gives(0, "", &up("c.book"));
    assert_eq!(desk.read("c.book"), BOOK);
}

/// A damaged book is not converted, and a damaged old one is not tried as one of today.
fn convert_no_book(desk: &Desk) {
    let (mut as_old, mut as_new) = (BOOK, OLD_BOOK);
    as_old[0] = 0x21;
    as_new[0] = 0x22;
    let (no, damaged) = (format!("a.book: {NOT_A_BOOK}"), format!("a.book: {DAMAGED_OLD}"));
    for (image, words) in [
        (&b""[..], &no),
        (&BOOK[..42], &no),
        (&as_new, &no),
        (b"5 ac\n", &no),
        (b"\x23\0\0\0\x07\0\0", &no),
        (&TRIE, &format!("{no}; {A_TRIE}")),
        (&OLD_BOOK[..43], &damaged),
        (&OLD_BOOK[..1], &damaged),
        (&as_old, &damaged),
        (LINES.replace('5', "!").as_bytes(), &damaged),
    ] {
        desk.write("a.book", image);
        desk.fails(&["convert", "a.book"], 1, words);
        desk.fails(&["convert", "a.book", "-o", "b.book"], 1, words);
        desk.fails(&["convert", "a.book", "-o", "-"], 1, words);
    }
    desk.run(&["convert", "-", "-o", "-"]).fails(desk, 1, &format!("standard input: {NOT_A_BOOK}"));
    let missing = "c.book: No such file or directory (os error 2)";
    desk.fails(&["convert", "c.book"], 74, missing);
    desk.fails(&["convert", "c.book", "-o", "d.book"], 74, missing);
}

/// Names are bytes: any that are allowed can be given, and no others.
fn names(desk: &Desk) {
    let long = "n".repeat(48);
    let every: Vec<u8> = (b' '..=b'~').collect();
    let mut allowed: Vec<&[u8]> = vec![b"-", b"--", b"-o", b"--force", b"-h", b" ", b"  x  ", b"a"];
    allowed.extend([long.as_bytes(), &every[..48], &every[47..]]);
    let (micros, ends) = ("µ".repeat(24), "n".repeat(46) + "Ω");
    let signs = ["10 µF", "4.7 kΩ", "µ", "Ω", "µΩ", &micros, &ends];
    allowed.extend(signs.map(str::as_bytes));
    desk.write("a.book", &EMPTY_BOOK);
    let arguments = |front: &[&str], name: &[u8]| -> Vec<OsString> {
        let mut all: Vec<OsString> = front.iter().map(OsString::from).collect();
        all.push(OsString::from_vec(name.to_vec()));
        all
    };
    for name in &allowed {
        desk.does(&arguments(&["set", "a.book", "7", "--"], name));
        let line = [b"7 ", *name, b"\n"].concat();
        desk.prints(&arguments(&["top", "--", "a.book", "1"], name), line);
    }
    let entries: Vec<(u32, &[u8])> = allowed.iter().map(|name| (7, *name)).collect();
    assert_eq!(desk.read("a.book"), book_of(&entries).image());
    for name in &allowed {
        desk.does(&arguments(&["withdraw", "--", "a.book"], name));
    }
    assert_eq!(desk.read("a.book"), EMPTY_BOOK);
    let too_long = "n".repeat(49);
    let mut refused: Vec<&[u8]> = vec![b"", b"a\n", b"\x7F", b"\x1F", b"\xFF", too_long.as_bytes()];
    refused.extend([
        &b"\xC2"[..],
        b"10 \xC2",
        b"\xB5F",
        b"\xC2\xA9",
        b"\xCE\xB5",
        b"\x80",
        b"\x81",
    ]);
    // Other signs, the Greek small mu and the ohm sign among them; 49 bytes and 50.
    let (over, further) = ("n".repeat(47) + "µ", "Ω".repeat(25));
    refused.extend(["ä", "10 \u{3BC}F", "4.7 k\u{2126}", &over, &further].map(str::as_bytes));
    for name in refused {
        let words = format!("a.book: {NOT_ALLOWED}");
        desk.fails(&arguments(&["set", "a.book", "7"], name), 2, &words);
        desk.fails(&arguments(&["withdraw", "a.book"], name), 2, &words);
        if !name.is_empty() {
            desk.fails(&arguments(&["top", "a.book", "1"], name), 2, &words);
        }
    }
}

/// Names of a laboratory, given and shown as they are, in every command and in messages.
fn names_with_signs(desk: &Desk) {
    let lines = "4 10 µA\n5 10 µF\n9 4.7 kΩ\n2 µ\n7 µA\n3 Ω\n";
    desk.run(&["build", "a.book"]).input(lines).gives(0, "", "");
    desk.prints(&["list", "a.book"], lines);
    desk.does(&["trie", "a.book", "a.trie"]);
    for file in ["a.book", "a.trie"] {
        desk.prints(&["top", file, "5", "µ"], "7 µA\n2 µ\n");
        desk.prints(&["top", file, "1", "10 µ"], "5 10 µF\n");
        desk.prints(&["top", file, "9", "4.7 kΩ"], "9 4.7 kΩ\n");
        desk.prints(&["top", file, "1", "Ωµ"], "");
        let half = OsStr::from_bytes(b"10 \xC2");
        let arguments = [OsStr::new("top"), OsStr::new(file), OsStr::new("5"), half];
        desk.fails(&arguments, 2, &format!("{file}: {NOT_ALLOWED}"));
    }
    desk.write("b.book", book_of(&[(99, "10 µF"), (1, "22 kΩ")]).image());
    desk.does(&["merge", "a.book", "b.book"]);
    desk.does(&["set", "a.book", "8", "Ω"]);
    desk.does(&["withdraw", "a.book", "µ"]);
    desk.prints(&["list", "a.book"], "4 10 µA\n5 10 µF\n1 22 kΩ\n9 4.7 kΩ\n7 µA\n8 Ω\n");
    desk.fails(&["withdraw", "a.book", "µ"], 4, &format!("a.book: {NOT_HELD}"));
    let words = "`10 µF` is too much; a name with spaces stands in quotes";
    wrong_usage(desk, &["withdraw", "a.book", "µ", "10 µF"], words);
    let words = "SCORE is a whole number from 0 to 4294967295, not `9 kΩ\\xc3\\xa4`";
    wrong_usage(desk, &["set", "a.book", "9 kΩä", "x"], words);
}

fn scores(desk: &Desk) {
    desk.write("a.book", &EMPTY_BOOK);
    for (text, score) in
        [("0", 0), ("4294967295", u32::MAX), ("0000000005", 5), ("00", 0), ("2147483648", 1 << 31)]
    {
        desk.does(&["set", "a.book", text, "a"]);
        desk.prints(&["list", "a.book"], format!("{score} a\n"));
    }
    let wrong = ["", " ", "x", "+1", "-1", " 1", "1 ", "1.0", "1e3", "0x1", "4294967296"];
    for text in [&wrong[..], &["9999999999", "00000000001", "99999999999999999999"]].concat() {
        let words = format!("set: SCORE is a whole number from 0 to 4294967295, not `{text}`");
        let words = format!("{words}\n`labelbook help set` says more");
        desk.fails(&["set", "--", "a.book", text, "a"], 64, &words);
    }
    let not_text = [OsStr::new("set"), OsStr::new("a.book"), OsStr::from_bytes(b"\xFF")];
    let words = "set: SCORE is a whole number from 0 to 4294967295, not `\\xff`";
    let words = format!("{words}\n`labelbook help set` says more");
    desk.fails(&[&not_text[..], &[OsStr::new("a")]].concat(), 64, &words);
}

/// Edits one after the other, accepted or refused, beside a map that is edited in the same way.
fn a_term(desk: &Desk) {
    let mut random = Random::new(16);
    let mut held: BTreeMap<String, u32> = BTreeMap::new();
    desk.write("a.book", &EMPTY_BOOK);
    for _ in 0..400 {
        let name =
            format!("{}{}", ["ac", "rc µ", "rc step", "Ωl "][random.below(4)], random.below(9));
        let score = random.below(6) as u32;
        match random.below(5) {
            0 if held.remove(&name).is_some() => desk.does(&["withdraw", "a.book", &name]),
            0 => desk.fails(&["withdraw", "a.book", &name], 4, &format!("a.book: {NOT_HELD}")),
            1 => {
                let prefix: String = name.chars().take(random.below(4)).collect();
                let (prefix, count) = (&prefix[..], random.between(1, COUNT_MAX));
                let mut best: Vec<(u32, &String)> =
                    held.iter().filter(|e| e.0.starts_with(prefix)).map(|e| (*e.1, e.0)).collect();
                best.sort_by_key(|entry| (std::cmp::Reverse(entry.0), entry.1));
                best.truncate(count);
                desk.prints(&["top", "a.book", &count.to_string(), prefix], lines_of(&best));
            }
            _ => {
                held.insert(name.clone(), score);
                desk.does(&["set", "a.book", &score.to_string(), &name]);
            }
        }
    }
    let mut held: Vec<(u32, &String)> = held.iter().map(|entry| (*entry.1, entry.0)).collect();
    desk.prints(&["list", "a.book"], lines_of(&held));
    assert_eq!(desk.read("a.book"), book_of(&held).image());
    held.sort_by_key(|entry| (std::cmp::Reverse(entry.0), entry.1));
    desk.prints(&["page", "a.book"], page_of(&held));
}

/// Words in any order: the program ends with a status that is documented, one line or two of
/// message, and nothing changed unless it is 0.
fn random_arguments(desk: &Desk) {
    const WORDS: [&str; 22] = [
        "a.book",
        "b.book",
        "a.trie",
        "lines",
        "missing",
        "new.book",
        "",
        "-",
        "--",
        "-o",
        "-o",
        "--force",
        "--force",
        "-h",
        "--x",
        "0",
        "5",
        "10",
        "4294967296",
        "r",
        "rc",
        "\t",
    ];
    let mut random = Random::new(4);
    for _ in 0..600 {
        desk.write("a.book", &BOOK);
        desk.write("b.book", book_of(&[(1, "rc"), (2, "zz")]).image());
        desk.write("a.trie", &TRIE);
        desk.write("lines", LINES.as_bytes());
        let before = desk.contents();
        let mut arguments = vec![COMMANDS[random.below(COMMANDS.len())]];
        let more = random.below(7);
        arguments.extend((0..more).map(|_| WORDS[random.below(WORDS.len())]));
        let run = desk.run(&arguments).outcome();
        let is_known = matches!(run.status, 0..=5 | 64 | 65 | 74);
        let says_why = run.err.starts_with("labelbook: ") && run.err.lines().count() <= 2;
        assert!(
            is_known && (says_why || run.status == 0),
            "{} {}: {}",
            run.words,
            run.status,
            run.err
        );
        assert!(run.status == 0 || desk.contents() == before, "{}: a file has changed", run.words);
        for name in desk.names() {
            desk.remove(&name);
        }
    }
}
