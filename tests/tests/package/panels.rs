//! Panels: the held name, while the book is edited and given in by hand.
use super::Package;
use label_book::{key, Book, Panel, Refusal, NAME_MAX};

pub fn all(package: &mut Package) {
    held_as_a_slice(package);
    held_while_edited(package).expect("edits that no book refuses");
    held_of_any_kind(package);
    held_and_refused(package);
    signs(package);
}

/// µ and Ω by their keys, erased whole; half of one is refused.
fn signs(package: &mut Package) {
    let mut book = Book::new();
    for (name, score) in [("10 µF", 5), ("4.7 kΩ", 9), ("µA", 7)] {
        book.set(name.as_bytes(), score).expect("a name and room for it");
    }
    let panel = &mut Panel::default();
    for (key, left, typed) in [
        (key::MICRO, (1, 0), "µ"),
        (key::OHM, (0, 0), "µΩ"),
        (key::ERASE, (1, 0), "µ"),
        (key::TAKE, (1, 0), "µA"),
        (key::ERASE, (1, 0), "µ"),
        (key::ERASE, (3, 0), ""),
        (key::TAKE, (1, 0), "4.7 kΩ"),
        (key::ERASE, (1, 0), "4.7 k"),
        (key::OHM, (1, 0), "4.7 kΩ"),
    ] {
        pressed(package, &book, panel, key, left);
        package.case(panel.typed() == typed.as_bytes(), "what is typed");
    }
    for (len, refusal) in [(47, Refusal::TextFull), (48, Refusal::TextFull)] {
        refused(package, panel_with(&vec![b'x'; len], b""), key::MICRO, refusal);
        refused(package, panel_with(&vec![b'x'; len], b""), key::OHM, refusal);
    }
    refused(package, panel_with(b"10 \xC2", b""), key::ERASE, Refusal::NotAllowed);
    refused(package, panel_with(b"10 ", b""), 0x82, Refusal::NoSuchKey);
}

/// The book of document 01's entries E.
fn book_of_e() -> Book {
    let mut book = Book::new();
    for (name, score) in [("ac", 5), ("rc", 9), ("rc step", 9), ("rl", 12)] {
        book.set(name.as_bytes(), score).expect("a name and room for it");
    }
    book
}

/// A panel whose bytes are not allowed, but for a text and a held name of these bytes.
fn panel_with(text: &[u8], held: &[u8]) -> Panel {
    let bytes = [0xA5; NAME_MAX];
    let (len, held_len) = (text.len(), held.len());
    let mut panel = Panel { text: bytes, len, highlight: 99, rows: 99, held: bytes, held_len };
    panel.text[..len].copy_from_slice(text);
    panel.held[..held_len].copy_from_slice(held);
    panel
}

/// The held name is cut to the bytes that there are.
fn held_as_a_slice(package: &mut Package) {
    let empty = Panel::default();
    package.case(empty.held == [0; NAME_MAX] && empty.held_len == 0, "an empty panel holds none");
    for (held_len, bytes) in [(0, 0), (3, 3), (NAME_MAX, NAME_MAX), (NAME_MAX + 1, NAME_MAX)] {
        let panel = Panel { held: [b'x'; NAME_MAX], held_len, ..Panel::default() };
        package.case(panel.held_name() == vec![b'x'; bytes], "the held name");
    }
}

/// A key, and what it tells and leaves: the rows, the highlight, the held name with zeros behind.
fn pressed(package: &mut Package, book: &Book, panel: &mut Panel, key: u8, left: (usize, usize)) {
    let (rows, highlight) = left;
    package.case(book.press(panel, key) == Ok(rows) && panel.rows == rows, "the rows");
    package.case(panel.highlight == highlight, "the highlighted row");
    let offered = book.complete(panel.typed(), label_book::PANEL_ROWS).expect("a prefix");
    let name = offered.entries().nth(highlight).map_or(&b""[..], |entry| entry.name);
    package.case(panel.held_name() == name, "the held name is the highlighted one");
    let zeros = |bytes: &[u8]| bytes.iter().all(|byte| *byte == 0);
    package.case(zeros(&panel.text[panel.len..]), "zeros behind the text");
    package.case(zeros(&panel.held[panel.held_len..]), "zeros behind the held name");
}

/// The highlight stays on its name while the book is edited, as long as that is offered.
fn held_while_edited(package: &mut Package) -> Result<(), Refusal> {
    let mut book = book_of_e();
    let panel = &mut Panel::default();
    pressed(package, &book, panel, b'r', (3, 0));
    pressed(package, &book, panel, key::DOWN, (3, 1));
    package.case(panel.held_name() == b"rc", "the second row's name");
    book.set(b"rlc", 20)?;
    pressed(package, &book, panel, key::RECOUNT, (4, 2));
    book.withdraw(b"rl")?;
    pressed(package, &book, panel, key::RECOUNT, (3, 1));
    package.case(panel.held_name() == b"rc", "the same name on another row");
    book.withdraw(b"rc")?;
    pressed(package, &book, panel, key::RECOUNT, (2, 1));
    package.case(panel.held_name() == b"rc step", "the row's name where the held one is gone");
    book.set(b"rz", 30)?;
    pressed(package, &book, panel, key::TAKE, (1, 0));
    package.case(panel.typed() == b"rc step", "the held name is taken from its new row");
    pressed(package, &book, panel, b'!', (0, 0));
    package.case(panel.held_len == 0, "without rows no name is held");
    Ok(())
}

/// What is behind a length is not read, and a held name need not begin with the text.
fn held_of_any_kind(package: &mut Package) {
    let book = book_of_e();
    pressed(package, &book, &mut panel_with(b"r", b"rc step"), key::RECOUNT, (3, 2));
    pressed(package, &book, &mut panel_with(b"r", b"rc"), key::UP, (3, 0));
    pressed(package, &book, &mut panel_with(b"", b""), key::ERASE, (4, 3));
    pressed(package, &book, &mut panel_with(b"r", b"ac"), key::RECOUNT, (3, 2));
    pressed(package, &book, &mut panel_with(b"q", &[b'x'; NAME_MAX]), key::TAKE, (0, 0));
}

/// A refusal leaves the whole panel.
fn refused(package: &mut Package, mut panel: Panel, key: u8, refusal: Refusal) {
    let before = panel.clone();
    package.case(book_of_e().press(&mut panel, key) == Err(refusal), "a key is refused");
    package.case(panel == before, "a refused key leaves the panel");
}

/// Held names that are not allowed, before a key that there is not and a text that is full.
fn held_and_refused(package: &mut Package) {
    refused(package, panel_with(b"r", b"rc"), 0x7F, Refusal::NoSuchKey);
    refused(package, panel_with(&[b'x'; NAME_MAX], b"rc"), b'x', Refusal::TextFull);
    for held in [&b"\x1F"[..], b"\x7F", b"rc\x1F", b"rc\x7F", b"\xFFrc", b"rc\xC2", b"\xB5rc"] {
        for (text, key) in [(&b"r"[..], key::RECOUNT), (b"r", 0x7F), (&[b'x'; NAME_MAX], b'x')] {
            refused(package, panel_with(text, held), key, Refusal::NotAllowed);
        }
    }
    for held_len in [NAME_MAX + 1, usize::MAX] {
        let panel = Panel { held: [b'x'; NAME_MAX], held_len, ..Panel::default() };
        refused(package, panel, key::RECOUNT, Refusal::NotAllowed);
    }
}
