//! Books from lines of text: what `list` prints is taken back, and a wrong line is named.
mod common;

use common::{book_of, lines_of, long_names, run_all, Desk, BOOK, EMPTY_BOOK, LINES};
use common::{FULL, NOT_ALLOWED};
use label_book::COUNT_MAX;
use label_book_tests::random::Random;
use std::collections::BTreeMap;
use std::fs::File;
use std::process::{Command, Stdio};

fn main() {
    run_all(&[
        ("build", build),
        ("taken back", taken_back),
        ("any order", any_order),
        ("wrong lines", wrong_lines),
        ("lines that end in CR LF", carriage_returns),
        ("a name twice", a_name_twice),
        ("names not allowed", names_not_allowed),
        ("halves of signs", halves_of_signs),
        ("too many names", too_many_names),
        ("no lines", no_lines),
        ("endless lines", endless_lines),
        ("labels", labels),
    ]);
}

fn build(desk: &Desk) {
    desk.write("lines", LINES.as_bytes());
    desk.does(&["build", "a.book", "lines"]);
    desk.run(&["build", "b.book"]).input(LINES).gives(0, "", "");
    desk.run(&["build", "c.book", "-"]).input(LINES).gives(0, "", "");
    for file in ["a.book", "b.book", "c.book"] {
        assert_eq!(desk.read(file), BOOK);
    }
    desk.prints(&["build", "-", "lines"], BOOK);
    desk.run(&["build", "-"]).input(LINES).gives(0, BOOK, "");
    desk.run(&["build", "-"]).input(LINES.trim_end()).gives(0, BOOK, "");
    desk.run(&["build", "-"]).gives(0, EMPTY_BOOK, "");
    desk.fails(&["build", "d.book", "x"], 74, "x: No such file or directory (os error 2)");
    desk.fails(&["build", "d.book", "."], 74, ".: Is a directory (os error 21)");

    // A file that is there stays, unless it may be replaced.
    let exists = "a.book: it exists already; --force replaces it";
    desk.write("lines", b"1 b\n");
    desk.fails(&["build", "a.book", "lines"], 74, exists);
    desk.run(&["build", "a.book"]).input("1 b\n").fails(desk, 74, exists);
    desk.does(&["build", "--force", "a.book", "lines"]);
    assert_eq!(desk.read("a.book"), book_of(&[(1, "b")]).image());
    desk.does(&["build", "--force", "new.book", "lines"]);
    assert_eq!(desk.read("new.book"), desk.read("a.book"));
    desk.fails(&["build", "--force", "lines", "lines"], 74, "lines: it is LINES itself");
    // Whatever it is.
    desk.write("notes", b"notes");
    desk.does(&["build", "--force", "notes", "lines"]);
    assert_eq!(desk.read("notes"), desk.read("a.book"));
}

/// A name of up to `most` signs, each one that is allowed; at most 48 bytes.
fn name(random: &mut Random, most: usize) -> Vec<u8> {
    let length = random.between(1, most);
    let mut name = String::new();
    while name.chars().count() < length && name.len() < 47 {
        name.push(match random.below(8) {
            0 => random.pick(&['µ', 'Ω']),
            _ => random.between(0x20, 0x7E) as u8 as char,
        });
    }
    name.into_bytes()
}

/// Names that are long and alike, long and different, short, and with spaces at every end.
fn sample_books() -> Vec<Vec<(u32, Vec<u8>)>> {
    let mut random = Random::new(5);
    let alike = long_names(1024).into_iter().map(|(s, n)| (s, n.into_bytes())).collect();
    let different = (0..1024_u32).map(|i| {
        let front = [b'!' + (i / 32) as u8, b'A' + (i % 32) as u8];
        (u32::MAX - i, [&front[..], &[b'~'; 46]].concat())
    });
    let mut books: Vec<Vec<(u32, Vec<u8>)>> = vec![Vec::new(), alike, different.collect()];
    for (count, most) in [(1, 48), (2, 1), (16, 2), (17, 3), (90, 4), (300, 48), (1024, 48)] {
        let entries = (0..count).map(|_| (name(&mut random, most), random.any() as u32));
        let entries: BTreeMap<Vec<u8>, u32> = entries.collect();
        books.push(entries.into_iter().map(|(name, score)| (score, name)).collect());
    }
    books.push(vec![(0, b" ".to_vec()), (1, b"  ".to_vec()), (2, b" a ".to_vec())]);
    let signs = ["10 µF", "4.7 kΩ", "µ", "Ω"].map(|name| (3, name.into()));
    books.push(signs.into());
    books
}

/// Listed and built again, through a pipe, a book is the same bytes.
fn taken_back(desk: &Desk) {
    for entries in sample_books() {
        let book = book_of(&entries);
        desk.write("a.book", book.image());
        let program = common::PROGRAM;
        let script = format!("'{program}' list a.book | '{program}' build b.book");
        let run = Command::new("sh").args(["-c", &script]).current_dir(&desk.folder).status();
        assert!(run.unwrap().success());
        assert!(desk.read("b.book") == book.image(), "a book of {}", entries.len());
        desk.remove("b.book");
        common::count_case();
    }
}

fn any_order(desk: &Desk) {
    let mut random = Random::new(7);
    for mut entries in sample_books() {
        let image = book_of(&entries).image().to_vec();
        random.shuffle(&mut entries);
        desk.run(&["build", "-"]).input(lines_of(&entries)).gives(0, &image, "");
        entries.sort_by(|a, b| b.1.cmp(&a.1));
        desk.run(&["build", "-"]).input(lines_of(&entries)).gives(0, &image, "");
    }
}

/// Lines as standard input, of which one is wrong: no book is made.
fn wrong(desk: &Desk, lines: impl AsRef<[u8]>, status: i32, words: &str) {
    desk.write("old.book", &BOOK);
    let run = |arguments: &[&str]| desk.run(arguments).input(lines.as_ref());
    let message = format!("standard input: {words}");
    run(&["build", "a.book"]).fails(desk, status, &message);
    run(&["build", "--force", "old.book"]).fails(desk, status, &message);
    run(&["build", "-"]).fails(desk, status, &message);
    desk.write("lines", lines.as_ref());
    desk.fails(&["build", "a.book", "lines"], status, &format!("lines: {words}"));
}

fn wrong_lines(desk: &Desk) {
    const EMPTY: &str = "the line is empty; it should be SCORE NAME";
    wrong(desk, "\n", 65, &format!("line 1: {EMPTY}"));
    wrong(desk, "\n5 ac\n", 65, &format!("line 1: {EMPTY}"));
    wrong(desk, "5 ac\n\n9 rc\n", 65, &format!("line 2: {EMPTY}"));
    wrong(desk, "5 ac\n9 rc\n\n", 65, &format!("line 3: {EMPTY}"));
    let range = "a number from 0 to 4294967295, one space and a name";
    for (line, shown) in [
        ("ac", "ac"),
        ("ac 5", "ac 5"),
        ("5", "5"),
        ("5\tac", "5\\tac"),
        (" 5 ac", " 5 ac"),
        (" ", " "),
        ("+5 ac", "+5 ac"),
        ("-5 ac", "-5 ac"),
        ("5. ac", "5. ac"),
        ("4294967296 ac", "4294967296 ac"),
        ("00000000005 ac", "00000000005 ac"),
        ("\u{FEFF}5 ac", "\\xef\\xbb\\xbf5 ac"),
        ("\x005 ac", "\\x005 ac"),
        ("µF\t5 ä", "µF\\t5 \\xc3\\xa4"),
        ("kΩ 5", "kΩ 5"),
    ] {
        let words = format!("line 2: not SCORE NAME, {range}: {shown}");
        wrong(desk, format!("1 first\n{line}\n3 third\n"), 65, &words);
        wrong(desk, format!("1 first\n{line}"), 65, &words);
    }
    // Of a long line the first bytes are shown.
    let words = format!("line 1: not SCORE NAME, {range}: {}", "7".repeat(61));
    wrong(desk, format!("{} ac\n", "7".repeat(300_000)), 65, &words);
}

fn carriage_returns(desk: &Desk) {
    const HINT: &str = "the line ends in CR LF; lines end in LF alone: take the CRs out with \
                        tr -d '\\r'";
    wrong(desk, "5 ac\r\n9 rc\r\n", 65, &format!("line 1: {HINT}"));
    wrong(desk, "5 ac\n9 rc\r\n", 65, &format!("line 2: {HINT}"));
    wrong(desk, "\r\n", 65, &format!("line 1: {HINT}"));
    let longest = format!("4294967295 {}\r\n", "n".repeat(48));
    wrong(desk, longest, 65, &format!("line 1: {HINT}"));
    // Elsewhere it is a byte like others that are not allowed.
    wrong(desk, "5 a\rc\n", 2, &format!("line 1: {NOT_ALLOWED}"));
    let longer = format!("5 {}\r and more\n", "n".repeat(58));
    wrong(desk, longer, 2, &format!("line 1: {NOT_ALLOWED}"));
    let crs = LINES.replace('\n', "\r\n");
    let script = format!("tr -d '\\r' | '{}' build a.book", common::PROGRAM);
    let mut command = Command::new("sh");
    command.args(["-c", &script]).current_dir(&desk.folder).stdin(Stdio::piped());
    let mut child = command.spawn().unwrap();
    std::io::Write::write_all(&mut child.stdin.take().unwrap(), crs.as_bytes()).unwrap();
    assert!(child.wait().unwrap().success(), "the hint helps");
    assert_eq!(desk.read("a.book"), BOOK);
}

fn a_name_twice(desk: &Desk) {
    wrong(desk, "5 ac\n5 ac\n", 65, "line 2: the name of line 1 again: ac");
    wrong(desk, "5 ac\n9 rc\n3 z\n7 rc", 65, "line 4: the name of line 2 again: rc");
    wrong(desk, "5 ac\n9 4.7 kΩ\n7 4.7 kΩ", 65, "line 3: the name of line 2 again: 4.7 kΩ");
    let mut entries = long_names(1024);
    entries.push((1, entries[99].1.clone()));
    let words = format!("line 1025: the name of line 100 again: {}", entries[99].1);
    wrong(desk, lines_of(&entries), 65, &words);
}

fn names_not_allowed(desk: &Desk) {
    let long = "n".repeat(49);
    let endless = "n".repeat(200_000);
    let sign_too_long = "n".repeat(47) + "µ";
    let signs = ["ä", "4.7 k\u{2126}", "10 \u{3BC}F", "µ\u{B4}", &sign_too_long];
    for name in ["", "\t", "a\tb", "\x7F", "a\0", &long, &endless].iter().chain(&signs) {
        let words = format!("line 2: {NOT_ALLOWED}");
        wrong(desk, format!("1 first\n0 {name}\n3 third\n"), 2, &words);
        wrong(desk, format!("1 first\n4294967295 {name}"), 2, &words);
    }
}

/// Halves of µ and Ω, alone and with the half of another sign.
fn halves_of_signs(desk: &Desk) {
    for name in [&b"\xC2"[..], b"10 \xC2", b"\xB5F", b"\xCE\xB5", b"\xC2\xA9", b"\xC2\xC2\xB5"] {
        let lines = [b"1 first\n2 ", name, b"\n3 third\n"].concat();
        wrong(desk, lines, 2, &format!("line 2: {NOT_ALLOWED}"));
    }
    let wanted = "line 1: not SCORE NAME, a number from 0 to 4294967295, one space and a name: \
                  \\xc2 Ω\\xb5";
    wrong(desk, b"\xC2 \xCE\xA9\xB5\n", 65, wanted);
}

fn too_many_names(desk: &Desk) {
    let mut entries = long_names(1024);
    let image = book_of(&entries).image().to_vec();
    desk.run(&["build", "-"]).input(lines_of(&entries)).gives(0, &image, "");
    entries.push((1, "one more".to_string()));
    wrong(desk, lines_of(&entries), 5, &format!("line 1025: {FULL}"));
    // The first wrong line is the one that is named.
    entries[1023].1 = "\t".to_string();
    wrong(desk, lines_of(&entries), 2, &format!("line 1024: {NOT_ALLOWED}"));
}

/// A book without names can be made, but does not replace a file: the command in front of the pipe
/// may have failed.
fn no_lines(desk: &Desk) {
    desk.does(&["build", "a.book", "/dev/null"]);
    assert_eq!(desk.read("a.book"), EMPTY_BOOK);
    desk.does(&["build", "b.book", "--force"]);
    assert_eq!(desk.read("b.book"), EMPTY_BOOK);
    desk.write("a.book", &BOOK);
    let words = "there are no lines, as after a command that failed; FILE is kept";
    let null = format!("/dev/null: {words}");
    desk.fails(&["build", "a.book", "/dev/null", "--force"], 65, &null);
    desk.fails(&["build", "a.book", "--force"], 65, &format!("standard input: {words}"));
}

/// However long a line is, or however many there are, they are not kept in memory.
fn endless_lines(desk: &Desk) {
    // One that reads on does not end by itself.
    let limited = ["timeout", "60", "sh", "-c", "ulimit -v 300000; exec \"$@\"", "sh"];
    let zeros = "\\x00".repeat(61);
    let range = "a number from 0 to 4294967295, one space and a name";
    let words = format!("/dev/zero: line 1: not SCORE NAME, {range}: {zeros}");
    desk.run_by(&limited, &["build", "a.book", "/dev/zero"]).fails(desk, 65, &words);
    for (script, status, words) in [
        ("printf '1 '; exec tr '\\0' n < /dev/zero", 2, format!("line 1: {NOT_ALLOWED}")),
        ("seq 1 inf | sed 's/^/7 name /'", 5, format!("line 1025: {FULL}")),
        ("yes '1 name'", 65, "line 2: the name of line 1 again: name".to_string()),
    ] {
        let mut writer = Command::new("sh");
        let writer = writer.args(["-c", script]).stdout(Stdio::piped()).stderr(Stdio::null());
        let mut writer = writer.spawn().unwrap();
        let run = desk.run_by(&limited, &["build", "a.book"]).stdin(writer.stdout.take().unwrap());
        run.fails(desk, status, &format!("standard input: {words}"));
        writer.wait().unwrap();
    }
}

/// The program `labels` takes such a line behind the word `set`, and prints entries as `list` does.
fn labels(desk: &Desk) {
    let program = concat!(env!("CARGO_MANIFEST_DIR"), "/../../target/bin/labels");
    let lines = format!("{LINES}7 10 µF\n3 4.7 kΩ\n");
    let input: String = lines.lines().map(|line| format!("set {line}\n")).collect();
    desk.write("input", format!("{input}top {COUNT_MAX} \n").as_bytes());
    let run = Command::new(program).stdin(File::open(desk.path("input")).unwrap()).output();
    let printed = run.unwrap_or_else(|error| panic!("`./build labels`: {error}")).stdout;
    let printed = String::from_utf8(printed).unwrap();
    let is_entry = |line: &&str| !line.starts_with("ok ") && !line.starts_with("looks ");
    let best: Vec<&str> = printed.lines().filter(is_entry).collect();
    desk.run(&["build", "a.book"]).input(lines).gives(0, "", "");
    let best = format!("{}\n", best.join("\n"));
    desk.prints(&["top", "a.book", &COUNT_MAX.to_string()], best);
}
