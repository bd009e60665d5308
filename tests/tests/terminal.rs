//! The panel in a terminal, examples/terminal.c: it is built and run on a pseudo-terminal, with
//! scripts of keys, while its file changes; the whole screen is compared. `SEED=n` takes other keys
//! for the case that draws them.
use label_book::{key, Book, Panel, Refusal, NAME_MAX, PANEL_ROWS};
use label_book_tests::random::Random;
use pty::{Settings, SIGHUP, SIGINT, SIGQUIT, SIGSTOP, SIGTERM};
use screen::Screen;
use std::fs;
use std::process::Command;
use window::{Shown, Window, COLUMNS, LINES};

#[path = "terminal/pty.rs"]
mod pty;
#[path = "terminal/screen.rs"]
mod screen;
#[path = "terminal/window.rs"]
mod window;

/// Where the program is built, and where each case has a folder of its own.
const FOLDER: &str = concat!(env!("CARGO_TARGET_TMPDIR"), "/terminal");
const ROOT: &str = concat!(env!("CARGO_MANIFEST_DIR"), "/..");

const UP: &[u8] = b"\x1B[A";
const DOWN: &[u8] = b"\x1B[B";
const NOT_LAID_OUT: &str = "not laid out as a book, sheet, trie or script, or cut off";
const READ_AGAIN: &str = "the book was read again";
const STAYS_REFUSED: &str =
    "the old book stays. The file: refused, 1: not laid out as a book, sheet, trie or\n\
     script, or cut off";
const NO_TERMINAL: &str = "terminal: standard input and output must be a terminal";

/// Builds the program; `CC` is the compiler, and `CFLAGS` adds flags, as for a sanitizer.
fn build() {
    fs::create_dir_all(FOLDER).expect("a folder for the program");
    let flags = std::env::var("CFLAGS").unwrap_or_default();
    let mut compile = Command::new(std::env::var("CC").unwrap_or("cc".to_string()));
    compile.args(["-std=c11", "-O2", "-Wall", "-Wextra", "-Wconversion", "-Wshadow", "-pedantic"]);
    compile.args(["-Werror", "-Iinclude"]).args(flags.split_whitespace());
    compile.args(["examples/terminal.c", "target/staticlib/liblabel_book.a"]);
    compile.args(["-o", &format!("{FOLDER}/terminal")]).current_dir(ROOT);
    let status = compile.status().expect("a C compiler: `cc`, or the one that CC names");
    assert!(status.success(), "examples/terminal.c does not compile");
}

fn book(entries: &[(&str, u32)]) -> Book {
    let mut book = Book::new();
    for (name, score) in entries {
        book.set(name.as_bytes(), *score).expect("a name and room for it");
    }
    book
}

const LESSON: [(&str, u32); 7] = [
    ("ac", 5),
    ("rc", 9),
    ("rc step", 9),
    ("rl", 12),
    ("rlc", 4_294_967_295),
    ("rr", 0),
    ("rx", 0),
];

fn lesson() -> Book {
    book(&LESSON)
}

/// What is shown of the lesson's book for a text, with these rows.
fn shown(text: &str, rows: &[(u32, &str)]) -> Shown {
    let rows = rows.iter().map(|(score, name)| (*score, name.to_string())).collect();
    Shown { names: LESSON.len(), text: text.into(), rows, ..Shown::default() }
}

/// Those for "r": six names begin so, of which the panel offers five.
fn shown_for_r() -> Shown {
    shown("r", &[(4_294_967_295, "rlc"), (12, "rl"), (9, "rc"), (9, "rc step"), (0, "rr")])
}

fn typing() {
    let mut window = Window::new("typing", &lesson());
    let all = [(4_294_967_295, "rlc"), (12, "rl"), (9, "rc"), (9, "rc step"), (5, "ac")];
    window.see(&shown("", &all));
    window.press_and_see(b"r", &shown_for_r());
    window.press_and_see(b"c", &shown("rc", &[(9, "rc"), (9, "rc step")]));
    window.press_and_see(b" ", &shown("rc ", &[(9, "rc step")]));
    window.press_and_see(b"~", &shown("rc ~", &[]));
}

/// All ways of moving, and both ends.
fn highlight() {
    let mut window = Window::new("highlight", &lesson());
    let at = |highlight| Shown { highlight, ..shown_for_r() };
    window.press_and_see(b"r", &at(0));
    window.press_and_see(UP, &at(0));
    window.press_and_see(DOWN, &at(1));
    window.press_and_see(b"\x1BOB", &at(2));
    window.press_and_see(b"\x0E", &at(3));
    window.press_and_see(b"\x1B[1;2B", &at(4));
    window.press_and_see(DOWN, &at(4));
    window.press_and_see(&DOWN.repeat(9), &at(4));
    window.press_and_see(UP, &at(3));
    window.press_and_see(b"\x1BOA", &at(2));
    window.press_and_see(b"\x10", &at(1));
    window.press_and_see(&UP.repeat(9), &at(0));
    window.press_and_see(DOWN, &at(1));
    window.press_and_see(b"l", &shown("rl", &[(4_294_967_295, "rlc"), (12, "rl")]));
}

fn erasing() {
    let mut window = Window::new("erasing", &lesson());
    window.press(b"rc s");
    window.press_and_see(b"\x7F\x08", &shown("rc", &[(9, "rc"), (9, "rc step")]));
    window.press_and_see(b"\x7F", &shown_for_r());
    window.press(b"\x08\x7F\x7F");
    window.press_and_see(b"a", &shown("a", &[(5, "ac")]));
}

/// What a terminal sends for µ and for Ω.
const MICRO: &[u8] = "µ".as_bytes();
const OHM: &[u8] = "Ω".as_bytes();

const UNITS: [(&str, u32); 5] = [("10 µA", 4), ("10 µF", 5), ("4.7 kΩ", 9), ("µA", 7), ("Ω", 3)];

/// What is shown of the book of units for a text, with these rows.
fn shown_of_units(text: &str, rows: &[(u32, &str)]) -> Shown {
    Shown { names: UNITS.len(), ..shown(text, rows) }
}

/// µ and Ω are typed by their bytes, also where these are read apart, erased whole, shown in one
/// column each, and taken.
fn signs() {
    let mut window = Window::new("signs", &book(&UNITS));
    let all = [(9, "4.7 kΩ"), (7, "µA"), (5, "10 µF"), (4, "10 µA"), (3, "Ω")];
    window.see(&shown_of_units("", &all));
    window.press_and_see(MICRO, &shown_of_units("µ", &[(7, "µA")]));
    window.press_and_see(OHM, &shown_of_units("µΩ", &[]));
    window.press_and_see(b"\x7F", &shown_of_units("µ", &[(7, "µA")]));
    window.press_and_see(b"\x08", &shown_of_units("", &all));
    window.press_and_see(b"10 ", &shown_of_units("10 ", &[(5, "10 µF"), (4, "10 µA")]));
    window.press_and_see(MICRO, &shown_of_units("10 µ", &[(5, "10 µF"), (4, "10 µA")]));
    window.press_and_see(b"A", &shown_of_units("10 µA", &[(4, "10 µA")]));
    window.press_and_see(b"\x7F\x7F", &shown_of_units("10 ", &[(5, "10 µF"), (4, "10 µA")]));
    let taken = Shown {
        loaded: "loaded 10 µA, score 4".into(),
        ..shown_of_units("10 µA", &[(4, "10 µA")])
    };
    window.press_and_see(&[DOWN, b"\r"].concat(), &taken);
    let erased = Shown { loaded: taken.loaded.clone(), ..shown_of_units("", &all) };
    window.press_and_see(&b"\x7F".repeat(5), &erased);
    // The panel reads 48 bytes at a time.
    let split = [&b"\x7F".repeat(47), MICRO, b"\x7F"].concat();
    window.press_and_see(&split, &erased);
    let rows = [(9, "4.7 kΩ")];
    let wanted = Shown { loaded: taken.loaded, ..shown_of_units("4.7 kΩ", &rows) };
    window.press_and_see(&[&b"4.7 k"[..], OHM].concat(), &wanted);
}

/// Other signs, of two, three and four bytes, and bytes of signs by themselves: none of them
/// presses the keys 80 and 81, nor does µ in an encoding of one byte.
fn other_signs() {
    let mut window = Window::new("other signs", &book(&UNITS));
    let sent: [(&[u8], &str); 14] = [
        ("ä".as_bytes(), "C3"),
        ("À".as_bytes(), "C3"),
        ("\u{81}".as_bytes(), "C2"),
        ("©".as_bytes(), "C2"),
        ("ε".as_bytes(), "CE"),
        ("\u{3BC}".as_bytes(), "CE"),
        ("\u{2126}".as_bytes(), "E2"),
        ("\u{2001}".as_bytes(), "E2"),
        ("\u{10041}".as_bytes(), "F0"),
        (b"\x80", "FF"),
        (b"\x81", "FF"),
        (b"\xB5", "B5"),
        (b"\xFE", "FE"),
        (b"\xC1\x80", "FF"),
    ];
    let mut typed = String::new();
    for (sent, byte) in sent {
        window.pty.send(sent);
        window.wait_for_news(&format!("key {byte} refused, 8: the panel has no such key"));
        window.pty.send(b"z");
        typed.push('z');
        window.wait_for_news("");
        window.see(&shown_of_units(&typed, &[]));
    }
    // Half a sign and a pause; half a sign that another key cuts, or Esc.
    for half in [&MICRO[..1], &OHM[..1], b"\xE2\x80"] {
        window.pty.send(half);
        window.wait_for_news(&format!("key {:02X} refused, 8: the panel has no such key", half[0]));
        typed.push('z');
        window.press_and_see(&[half, b"z"].concat(), &shown_of_units(&typed, &[]));
        let cut = [half, UP, b"\x80", half, b"\x7F", half].concat();
        typed.pop();
        typed.push('µ');
        window.press_and_see(&[&cut, MICRO].concat(), &shown_of_units(&typed, &[]));
    }
}

/// 46 letters and a sign fill the text; behind 47 there is no room for one.
fn full_of_signs() {
    let longest = "x".repeat(46) + "Ω";
    let mut window = Window::new("full of signs", &book(&[(&longest, 7)]));
    let at = |text: String, rows| Shown { names: 1, ..shown(&text, rows) };
    let rows = [(7, &longest[..])];
    window.press_and_see(&b"x".repeat(46), &at("x".repeat(46), &rows));
    window.press_and_see(OHM, &at(longest.clone(), &rows));
    let full = |key: &str| format!("key {key} refused, 9: the panel's text is full");
    for (sent, key) in [(&b"x"[..], "78"), (MICRO, "80"), (OHM, "81")] {
        window.pty.send(sent);
        window.wait_for_news(&full(key));
        window.see(&Shown { news: full(key), ..at(longest.clone(), &rows) });
    }
    window.press_and_see(b"\x7Fx", &at("x".repeat(47), &[]));
    for (sent, key) in [(MICRO, "80"), (OHM, "81")] {
        window.pty.send(sent);
        window.wait_for_news(&full(key));
        window.see(&Shown { news: full(key), ..at("x".repeat(47), &[]) });
    }
    window.press_and_see(b"x", &at("x".repeat(48), &[]));
}

/// Keys that the panel does not have, as a terminal sends them. The next key clears the line.
fn refused() {
    let mut window = Window::new("refused", &lesson());
    let keys: [(&[u8], &str); 7] = [
        (b"\t", "09"),
        (b"\x1B[15~", "1B"),
        (b"\x1B[C", "1B"),
        (b"\x1BOP", "1B"),
        (b"\x1B[[A", "1B"),
        (b"\x1Bx", "1B"),
        (b"\xC3", "C3"),
    ];
    let mut typed = String::new();
    for (sent, byte) in keys {
        window.pty.send(sent);
        window.wait_for_news(&format!("key {byte} refused, 8: the panel has no such key"));
        window.pty.send(b"z");
        typed.push('z');
        window.wait_for_news("");
        window.see(&shown(&typed, &[]));
    }
}

fn text_full() {
    let longest = "x".repeat(NAME_MAX);
    let full = book(&[(&longest, 7)]);
    let mut window = Window::new("text full", &full);
    let rows = vec![(7, longest.clone())];
    let shown = Shown { names: 1, text: longest.clone(), rows, ..Shown::default() };
    window.press_and_see(longest.as_bytes(), &shown);
    window.pty.send(b"x");
    window.wait_for_news("key 78 refused, 9: the panel's text is full");
    window.see(&Shown { news: "key 78 refused, 9: the panel's text is full".into(), ..shown });
}

/// The set-up that was loaded stays shown while the next one is typed.
fn taking() {
    let mut window = Window::new("taking", &lesson());
    let loaded = |loaded: &str, shown: Shown| Shown { loaded: loaded.into(), ..shown };
    let rows = [(9, "rc"), (9, "rc step")];
    let keys = [b"r", DOWN, DOWN, b"\r"].concat();
    window.press_and_see(&keys, &loaded("loaded rc, score 9", shown("rc", &rows)));
    window.press_and_see(b"\x7F", &loaded("loaded rc, score 9", shown_for_r()));
    let rows = [(4_294_967_295, "rlc")];
    let rlc = "loaded rlc, score 4294967295";
    window.press_and_see(b"\n", &loaded(rlc, shown("rlc", &rows)));
    window.press(b"~");
    window.pty.send(b"\r");
    let nothing = "no name begins so, nothing to take";
    window.wait_for_news(nothing);
    window.see(&Shown { news: nothing.into(), ..loaded(rlc, shown("rlc~", &[])) });
}

/// An Esc is one of two that leave, the start of an arrow key, or a slip.
fn escapes() {
    let mut window = Window::new("escapes", &lesson());
    window.press(b"r");
    window.press_and_see(b"\x1B\x1B[B", &Shown { highlight: 1, ..shown_for_r() });
    window.pty.send(b"\x1B");
    window.wait_for_news("Esc once more leaves");
    window.press_and_see(b"c", &shown("rc", &[(9, "rc"), (9, "rc step")]));
    window.pty.send(b"\x1B[");
    window.wait_for_news("key 1B refused, 8: the panel has no such key");
    window.press_and_see(b"\x1B[\x1B[B\x7F", &shown_for_r());
    window.press_and_see(b"c\x1B[\x08", &shown_for_r());
}

/// Saves a book over the panel's file, and waits until it is shown for the text "r".
fn save_and_see(window: &mut Window, saved: &Book, highlight: usize, rows: &[(u32, &str)]) {
    window.save(saved.image());
    window.wait_for_news(READ_AGAIN);
    let wanted = Shown { names: saved.entries(), highlight, ..shown("r", rows) };
    window.see(&Shown { news: READ_AGAIN.into(), ..wanted.clone() });
    window.press_and_see(b"", &wanted);
}

/// Names are added, given another score and withdrawn by someone else, while a text is typed.
fn edits_followed() -> Result<(), Refusal> {
    let mut window = Window::new("edits followed", &lesson());
    window.press(&[b"r", &DOWN.repeat(4)[..]].concat());
    let mut saved = lesson();
    saved.set(b"rz", 13)?;
    let rows = [(4_294_967_295, "rlc"), (13, "rz"), (12, "rl"), (9, "rc"), (9, "rc step")];
    save_and_see(&mut window, &saved, 4, &rows);
    saved.set(b"rlc", 1)?;
    let rows = [(13, "rz"), (12, "rl"), (9, "rc"), (9, "rc step"), (1, "rlc")];
    save_and_see(&mut window, &saved, 3, &rows);
    for name in ["rc step", "rlc", "rr"] {
        saved.withdraw(name.as_bytes())?;
    }
    save_and_see(&mut window, &saved, 3, &[(13, "rz"), (12, "rl"), (9, "rc"), (0, "rx")]);
    save_and_see(&mut window, &book(&[("ac", 5)]), 0, &[]);
    save_and_see(&mut window, &book(&[("r", 2), ("s", 3)]), 0, &[(2, "r")]);
    Ok(())
}

/// A teacher's program, which `./build labelbook` writes, on the panel's file.
fn labelbook(arguments: &[&str]) {
    let program = format!("{ROOT}/target/release/labelbook");
    let status = Command::new(&program).args(arguments).status();
    let status = status.unwrap_or_else(|error| panic!("{program}: {error}; ./build labelbook"));
    assert!(status.success(), "labelbook {arguments:?}");
}

fn edited_by_labelbook() {
    let mut window = Window::new("edited by labelbook", &lesson());
    let path = window.path();
    window.press_and_see(b"r", &shown_for_r());
    labelbook(&["withdraw", &path, "rlc"]);
    window.wait_for_news(READ_AGAIN);
    let rows = [(12, "rl"), (9, "rc"), (9, "rc step"), (0, "rr"), (0, "rx")];
    window.press_and_see(b"", &Shown { names: 6, ..shown("r", &rows) });
    labelbook(&["set", &path, "11", "rz"]);
    window.wait_for_news(READ_AGAIN);
    let rows = [(12, "rl"), (11, "rz"), (9, "rc"), (9, "rc step"), (0, "rr")];
    window.press_and_see(b"", &Shown { names: 7, ..shown("r", &rows) });
}

/// The highlight stays on its name while the teacher's program adds better ones above it, and Enter
/// takes that name.
fn name_followed() {
    let mut window = Window::new("name followed", &lesson());
    let path = window.path();
    window.press_and_see(&[b"r", DOWN].concat(), &Shown { highlight: 1, ..shown_for_r() });
    labelbook(&["set", &path, "50", "rz"]);
    window.wait_for_news(READ_AGAIN);
    let rows = [(4_294_967_295, "rlc"), (50, "rz"), (12, "rl"), (9, "rc"), (9, "rc step")];
    let wanted = Shown { names: 8, highlight: 2, ..shown("r", &rows) };
    window.see(&Shown { news: READ_AGAIN.into(), ..wanted.clone() });
    window.press_and_see(b"", &wanted);
    labelbook(&["set", &path, "60", "ry"]);
    window.wait_for_news(READ_AGAIN);
    let rows = [(4_294_967_295, "rlc"), (12, "rl")];
    let loaded = "loaded rl, score 12".into();
    window.press_and_see(b"\r", &Shown { names: 9, loaded, ..shown("rl", &rows) });
}

/// So it does before the first key: the name that is highlighted at the start is held.
fn first_name_followed() {
    let mut window = Window::new("first name followed", &book(&[("rc", 9), ("rl", 12)]));
    window.see(&Shown { names: 2, ..shown("", &[(12, "rl"), (9, "rc")]) });
    labelbook(&["set", &window.path(), "20", "rlc"]);
    window.wait_for_news(READ_AGAIN);
    let rows = [(20, "rlc"), (12, "rl"), (9, "rc")];
    window.press_and_see(b"", &Shown { names: 3, highlight: 1, ..shown("", &rows) });
}

/// The file is written over in place: the same inode, then also the same number of bytes.
fn written_in_place() {
    let mut window = Window::new("written in place", &lesson());
    for (highlight, rows) in [
        (0, &[(30, "rc"), (20, "rl")]),
        (1, &[(40, "rl"), (30, "rc")]),
        (0, &[(31, "rc"), (20, "rl")]),
    ] {
        window.press(b"");
        let written = book(&rows.map(|(score, name)| (name, score)));
        fs::write(window.path(), written.image()).expect("the file is written");
        window.wait_for_news(READ_AGAIN);
        let wanted = Shown { names: 2, highlight, ..shown("", rows) };
        window.see(&Shown { news: READ_AGAIN.into(), ..wanted });
    }
}

/// Files that are no book: the old one stays in use, and that is said until there is one again.
fn no_book_anymore() {
    let mut window = Window::new("no book anymore", &lesson());
    let image = lesson().image().to_vec();
    let mut damaged = image.clone();
    damaged[4] ^= 1;
    let files = [damaged, image[..image.len() - 1].to_vec(), Vec::new(), lesson().sheet()];
    for file in files {
        window.save(&file);
        window.wait_for_news(STAYS_REFUSED);
        window.press_and_see(b"r", &shown_for_r());
        window.pty.send(b"c");
        window.wait_for_news(STAYS_REFUSED);
        let rows = [(9, "rc"), (9, "rc step")];
        window.see(&Shown { news: STAYS_REFUSED.into(), ..shown("rc", &rows) });
        window.press(b"");
        window.save(&image);
        window.wait_for_news(READ_AGAIN);
        window.pty.send(b"\x7F");
        window.wait_for_news("");
        window.see(&shown_for_r());
        window.press(b"\x7F");
    }
}

/// The file is gone for a while. What a key makes the panel say is not wiped out by that.
fn no_file_anymore() {
    let mut window = Window::new("no file anymore", &lesson());
    let stays = "the old book stays. The file: No such file or directory";
    let away = format!("{}.away", window.path());
    fs::rename(window.path(), &away).expect("the file goes");
    window.wait_for_news(stays);
    window.press_and_see(b"r", &shown_for_r());
    window.pty.send(b"\x1B");
    window.wait_for_news("Esc once more leaves");
    window.press_and_see(b"", &shown_for_r());
    fs::rename(&away, window.path()).expect("the file comes back");
    window.wait_for_news(READ_AGAIN);
    window.pty.send(b"c");
    window.wait_for_news("");
}

/// 1,024 names of 48 bytes, and as much again behind the book, which is not looked at.
fn large_file() {
    let mut random = Random::new(1);
    let mut large = Book::new();
    while large.entries() < label_book::ENTRIES_MAX {
        let name: Vec<u8> = (0..NAME_MAX).map(|_| random.between(0x20, 0x7E) as u8).collect();
        large.set(&name, random.any() as u32).expect("a name and room for it");
    }
    let mut window = Window::new("large file", &lesson());
    let mut bytes = large.image().to_vec();
    bytes.resize(2 * label_book::BOOK_MAX, 0xFF);
    window.save(&bytes);
    window.wait_for_news(READ_AGAIN);
    let bench = Bench { book: large, ..Bench::default() };
    window.see(&Shown { news: READ_AGAIN.into(), ..bench.shown() });
}

/// The library itself, as what the panel should show.
#[derive(Default)]
struct Bench {
    book: Book,
    panel: Panel,
    loaded: String,
}

impl Bench {
    fn shown(&self) -> Shown {
        let text = |name: &[u8]| String::from_utf8(name.to_vec()).expect("names are UTF-8");
        let offered = self.book.complete(self.panel.typed(), PANEL_ROWS).expect("a prefix");
        Shown {
            names: self.book.entries(),
            text: text(self.panel.typed()),
            rows: offered.entries().map(|entry| (entry.score, text(entry.name))).collect(),
            highlight: self.panel.highlight,
            loaded: self.loaded.clone(),
            news: String::new(),
        }
    }

    fn press(&mut self, key: u8) {
        let Ok(rows) = self.book.press(&mut self.panel, key) else { return };
        if key != key::TAKE || rows == 0 {
            return;
        }
        let name = self.panel.typed();
        let found = self.book.find(name).expect("a name").expect("which the book holds");
        let name = std::str::from_utf8(name).expect("names are UTF-8");
        self.loaded = format!("loaded {name}, score {}", found.score);
    }

    /// A name of few letters, new or with another score.
    fn set_any(&mut self, random: &mut Random) {
        let signs = ['r', 'l', 'c', ' ', 'µ', 'Ω'];
        let name: String = (0..random.between(1, 4)).map(|_| random.pick(&signs)).collect();
        self.book.set(name.as_bytes(), random.below(9) as u32).expect("a name and room for it");
    }

    /// Some of the names offered.
    fn withdraw_some(&mut self, random: &mut Random) {
        for (_, name) in self.shown().rows.iter().filter(|_| random.chance(2)) {
            self.book.withdraw(name.as_bytes()).expect("a name that is held");
        }
    }
}

/// What is sent for each key.
const KEYS: [(&[u8], u8); 14] = [
    (MICRO, key::MICRO),
    (OHM, key::OHM),
    ("ä".as_bytes(), 0xC3),
    (b"r", b'r'),
    (b"l", b'l'),
    (b"c", b'c'),
    (b" ", b' '),
    (UP, key::UP),
    (DOWN, key::DOWN),
    (b"\x1BOB", key::DOWN),
    (b"\x7F", key::ERASE),
    (b"\x08", key::ERASE),
    (b"\r", key::TAKE),
    (b"\x1B[15~", 0x1B),
];

/// Any keys: often the text is erased first, so that names begin with it, and some move down at the
/// end.
fn draw_keys(random: &mut Random) -> Vec<(&'static [u8], u8)> {
    let mut keys = Vec::new();
    if random.chance(2) {
        keys.resize(NAME_MAX, (b"\x7F".as_slice(), key::ERASE));
    }
    keys.extend((0..random.below(5)).map(|_| random.pick(&KEYS)));
    keys.resize(keys.len() + random.below(5), (DOWN, key::DOWN));
    keys
}

/// Any keys, and edits between them.
fn any_keys() {
    let seed = std::env::var("SEED").map_or(1, |seed| seed.parse().expect("SEED is a number"));
    let mut random = Random::new(seed);
    let mut bench = Bench::default();
    (0..40).for_each(|_| bench.set_any(&mut random));
    bench.press(key::RECOUNT);
    let mut window = Window::new("any keys", &bench.book);
    for _ in 0..200 {
        if random.chance(6) {
            let edit = random.pick(&[Bench::set_any, Bench::withdraw_some]);
            edit(&mut bench, &mut random);
            bench.press(key::RECOUNT);
            window.save(bench.book.image());
            window.wait_for_news(READ_AGAIN);
            window.see(&Shown { news: READ_AGAIN.into(), ..bench.shown() });
        }
        let keys = draw_keys(&mut random);
        let sent: Vec<u8> = keys.iter().flat_map(|(sent, _)| sent.to_vec()).collect();
        keys.iter().for_each(|(_, key)| bench.press(*key));
        window.press_and_see(&sent, &bench.shown());
    }
}

/// Screens that are too small: lines are cut, those that do not fit are left out. A screen that
/// becomes larger or smaller is drawn again.
fn small_screens() {
    let name = "abcdefghijklmnopµrstuvwxyz01234567Ω9";
    let rows = vec![(1, name.to_string())];
    let mut window = Window::of_size("small screens", &book(&[(name, 1)]), (8, 30));
    window.pty.send(b"a");
    window.wait("the text", |screen| screen.line(3) == "Set-up: a");
    assert_eq!(window.screen.line(5), ">          1  abcdefghijklmnop");
    let shown = Shown { names: 1, text: "a".into(), rows, ..Shown::default() };
    for (lines, columns) in [(24, 80), (16, 69), (15, 68), (14, 20), (5, 1), (1, 1), (24, 80)] {
        window.resize_and_wait(lines, columns, &shown);
    }
}

/// A small screen folds what there is to say.
fn folded_news() {
    let mut window = Window::of_size("folded news", &lesson(), (LINES, 40));
    window.pty.send(b"\t");
    window.wait_for_news("key 09 refused, 8: the panel has no such\nkey");
    window.pty.send(&b"x".repeat(NAME_MAX + 1));
    window.wait_for_news("key 78 refused, 9: the panel's text is\nfull");
}

const STOPPED: &str =
    "../terminal lesson.book; echo stopped; read line; fg; echo \"left with $?\"; read line";

/// A panel that can be stopped, with "r" typed, and the terminal's settings meanwhile.
fn to_be_stopped(case: &str, command: &str) -> (Window, Settings) {
    let mut window = Window::with_command(case, command, lesson().image(), (LINES, COLUMNS));
    window.wait("the panel", |screen| screen.is_other() && screen.line(3) == "Set-up:");
    window.press_and_see(b"r", &shown_for_r());
    let in_use = window.pty.settings();
    assert_ne!(in_use, window.found);
    (window, in_use)
}

/// Lets the panel go on, which then is as before, and leaves it.
fn go_on(mut window: Window, in_use: Settings) {
    window.pty.send(b"\n");
    window.wait("the panel again", |screen| screen.is_other() && screen.line(3) == "Set-up: r");
    assert_eq!(window.pty.settings(), in_use);
    window.press_and_see(b"c", &shown("rc", &[(9, "rc"), (9, "rc step")]));
    window.pty.send(b"\x04");
    window.wait_until_left(0);
}

/// Ctrl-Z gives the terminal back to the shell as it was, `fg` brings the panel back as it was.
fn stopped() {
    let (mut window, in_use) = to_be_stopped("stopped", STOPPED);
    window.pty.send(b"\x1A");
    let said = |screen: &Screen| screen.all().contains("|stopped\n");
    window.wait("the shell", |screen| !screen.is_other() && said(screen));
    assert_eq!(window.pty.settings(), window.found);
    go_on(window, in_use);
}

/// A stop that the panel is not told of: it finds the terminal as the shell has set it.
fn stopped_unasked() {
    let (mut window, in_use) = to_be_stopped("stopped unasked", STOPPED);
    pty::send_signal(window.pty.foreground(), SIGSTOP);
    window.wait("the shell", |screen| screen.all().contains("stopped"));
    window.pty.set(&window.found);
    window.screen.resize(LINES, COLUMNS);
    go_on(window, in_use);
}

/// Without a shell that could let it go on, Ctrl-Z does not stop the panel.
fn not_stopped() {
    let (mut window, in_use) = to_be_stopped("not stopped", "exec ../terminal lesson.book");
    window.pty.send(b"\x1A");
    window.wait("the panel again", |screen| screen.opened == 2 && screen.line(3) == "Set-up: r");
    window.press_and_see(DOWN, &Shown { highlight: 1, ..shown_for_r() });
    assert_eq!(window.pty.settings(), in_use);
}

/// How the panel is left.
enum Way {
    Keys(&'static [u8]),
    /// Esc, a pause, Esc.
    SlowEscapes,
    Signal(i32),
}

const WAYS: [(&str, Way); 9] = [
    ("ctrl-c", Way::Keys(b"\x03")),
    ("ctrl-d", Way::Keys(b"\x04")),
    ("esc esc", Way::Keys(b"\x1B\x1B")),
    ("esc and esc", Way::SlowEscapes),
    ("esc ctrl-d", Way::Keys(b"\x1B\x04")),
    ("hangup", Way::Signal(SIGHUP)),
    ("interrupt", Way::Signal(SIGINT)),
    ("quit", Way::Signal(SIGQUIT)),
    ("terminate", Way::Signal(SIGTERM)),
];

fn left(name: &str, way: &Way) {
    let mut window = Window::new(name, &lesson());
    window.press_and_see(b"r", &shown_for_r());
    assert_ne!(window.pty.settings(), window.found);
    match way {
        Way::Keys(keys) => window.pty.send(keys),
        Way::SlowEscapes => {
            window.pty.send(b"\x1B");
            window.wait_for_news("Esc once more leaves");
            window.pty.send(b"\x1B");
        }
        Way::Signal(signal) => pty::send_signal(window.pty.foreground(), *signal),
    }
    window.wait_until_left(0);
    assert_eq!(window.screen.line(1), "left with 0", "the shell's screen is as it was");
}

/// A panel whose window is closed ends.
fn window_closed() {
    let mut window = Window::new("window closed", &lesson());
    window.press(b"r");
    let process = window.pty.foreground();
    drop(window);
    window::wait_until_ended(process);
}

/// What is said, and the status, where the panel does not start.
const NOT_STARTED: [(&str, &str, &str, i32); 10] = [
    ("no argument", "../terminal", "usage: terminal BOOKFILE", 2),
    ("two arguments", "../terminal lesson.book lesson.book", "usage: terminal BOOKFILE", 2),
    ("no keyboard", "../terminal lesson.book </dev/null", NO_TERMINAL, 2),
    ("no screen", "../terminal lesson.book >/dev/null", NO_TERMINAL, 2),
    ("no file", "../terminal no.book", "terminal: no.book: No such file or directory", 1),
    ("folder", "../terminal .", "terminal: .: not a regular file", 1),
    ("pipe", "rm -f p; mkfifo p; ../terminal p", "terminal: p: not a regular file", 1),
    ("empty file", ">e; ../terminal e", "terminal: e: refused, 1: NOT_LAID_OUT", 1),
    ("no book", "echo >n; ../terminal n", "terminal: n: refused, 1: NOT_LAID_OUT", 1),
    ("old book", "printf '!' >o; ../terminal o", "terminal: o: refused, 10: OLD_VERSION", 1),
];

fn not_started(case: &str, command: &str, message: &str, status: i32) {
    let command = format!("{command}; echo \"left with $?\"; read line");
    let mut window = Window::with_command(case, &command, lesson().image(), (LINES, 140));
    window.wait_until_left(status);
    let message = message.replace("NOT_LAID_OUT", NOT_LAID_OUT);
    let message = message.replace("OLD_VERSION", &Refusal::OldVersion.to_string());
    assert_eq!(window.screen.line(1), message, "{case}");
    assert_eq!(window.screen.line(2), format!("left with {status}"), "{case}");
}

const CASES: [fn(); 25] = [
    typing,
    signs,
    other_signs,
    full_of_signs,
    highlight,
    erasing,
    refused,
    text_full,
    taking,
    escapes,
    || edits_followed().expect("edits that no book refuses"),
    edited_by_labelbook,
    name_followed,
    first_name_followed,
    written_in_place,
    no_book_anymore,
    no_file_anymore,
    large_file,
    any_keys,
    small_screens,
    folded_news,
    stopped,
    stopped_unasked,
    not_stopped,
    window_closed,
];

fn main() {
    build();
    CASES.iter().for_each(|case| case());
    WAYS.iter().for_each(|(name, way)| left(name, way));
    for (case, command, message, status) in NOT_STARTED {
        not_started(case, command, message, status);
    }
    println!("terminal: {} cases", CASES.len() + WAYS.len() + NOT_STARTED.len());
}
