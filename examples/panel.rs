//! A term's first lesson: a teacher starts a book and edits it, a course's book is merged into it,
//! a student types the start of a name and takes one that is offered, also one with µ or Ω in it,
//! the teacher keeps the book as a sheet, prints its page for the wall and writes a trie of it, and
//! a bench with an old book comes in for service. Build and run it with examples/run-rust;
//! examples/panel.c is the same in C and prints the same, which is in examples/expected.
use label_book::{entries, key, Book, Entries, Panel, Refusal, Written};
use label_book::{ENTRY_MAX, PANEL_ROWS};
use std::borrow::Cow;
use std::error::Error;
use std::io::{self, Write};

/// Names are bytes, of UTF-8; they are shown as text.
fn text(name: &[u8]) -> Cow<'_, str> {
    String::from_utf8_lossy(name)
}

/// Says what an edit did. After a refusal the book is as it was.
fn tell(told: Result<Written, Refusal>) {
    match told {
        Ok(written) => println!("{} held, {} bytes", written.entries, written.bytes),
        Err(refusal) => println!("declined, {}: {refusal}", refusal.number()),
    }
}

fn set(book: &mut Book, name: &str, score: u32) {
    print!("set \"{name}\" to {score}: ");
    tell(book.set(name.as_bytes(), score));
}

fn withdraw(book: &mut Book, name: &str) {
    print!("withdraw \"{name}\": ");
    tell(book.withdraw(name.as_bytes()));
}

/// The names offered, the best first, the highlighted one marked.
fn show(offered: Entries<'_>, highlight: usize) {
    for (row, entry) in offered.enumerate() {
        let mark = if row == highlight { '>' } else { ' ' };
        println!("  {mark} {}  {}", text(entry.name), entry.score);
    }
}

/// One key. After a refusal the panel is as it was, and the student goes on typing.
fn press(book: &Book, panel: &mut Panel, key: u8) -> Result<(), Refusal> {
    print!("key {key:02X}: ");
    match book.press(panel, key) {
        Ok(rows) => {
            println!("typed \"{}\", {rows} offered", text(panel.typed()));
            show(book.complete(panel.typed(), PANEL_ROWS)?.entries(), panel.highlight);
        }
        Err(refusal) => println!("declined, {}: {refusal}", refusal.number()),
    }
    Ok(())
}

/// The teacher: a new book, four set-ups, a better score, and two slips that the book declines
/// without harm.
fn edit(book: &mut Book) {
    println!("a new book: {} held, {} bytes", book.entries(), book.image().len());
    set(book, "ac", 5);
    set(book, "rc", 9);
    set(book, "rc step", 9);
    set(book, "rl", 12);
    set(book, "rc", 20);
    withdraw(book, "rlc");
    set(book, "", 7);
    withdraw(book, "ac");
}

/// A course's book joins the bench's own. Both have "rl": the bench's score counts.
fn join(book: &mut Book) -> Result<(), Refusal> {
    let mut course = Book::new();
    course.set(b"rl", 99)?;
    course.set(b"rlc notch", 15)?;
    print!("merge the course's {} names: ", course.entries());
    tell(book.merge(course.image()));
    Ok(())
}

/// The student: types a letter, moves down, slips once, and takes a name. Meanwhile the teacher
/// withdraws the highlighted one, so that the next is on its row, and adds one above: the highlight
/// stays on its name.
fn type_keys(book: &mut Book) -> Result<(), Refusal> {
    let mut panel = Panel::default();
    press(book, &mut panel, b'r')?;
    press(book, &mut panel, key::DOWN)?;
    press(book, &mut panel, key::DOWN)?;
    press(book, &mut panel, 0x7F)?;
    withdraw(book, "rl");
    press(book, &mut panel, key::RECOUNT)?;
    set(book, "ramp", 30);
    press(book, &mut panel, key::RECOUNT)?;
    press(book, &mut panel, key::TAKE)?;
    if let Some(found) = book.find(panel.typed())? {
        println!("loaded \"{}\" with score {}", text(panel.typed()), found.score);
    }
    Ok(())
}

/// A panel on which this is typed already. It holds no name yet: the next key finds the row.
fn typed(text: &str) -> Panel {
    let mut panel = Panel { len: text.len(), ..Panel::default() };
    panel.text[..text.len()].copy_from_slice(text.as_bytes());
    panel
}

/// Names with µ and Ω, which have two bytes each in UTF-8, keys of their own on the panel, and are
/// erased whole.
fn type_signs(book: &mut Book) -> Result<(), Refusal> {
    set(book, "10 µF", 8);
    set(book, "4.7 kΩ", 6);
    press(book, &mut typed("10 "), key::MICRO)?;
    let mut panel = typed("4.7 k");
    press(book, &mut panel, key::OHM)?;
    press(book, &mut panel, key::ERASE)?;
    press(book, &mut panel, key::TAKE)
}

/// The teacher again: the book as a plain sheet, and a book built from the sheet, which is the same
/// book byte for byte.
fn keep(book: &Book) -> Result<(), Refusal> {
    let sheet = book.sheet();
    println!("the sheet: {} bytes", sheet.len());
    let built = Book::from_sheet(&sheet)?;
    let which = if built == *book { "the same book" } else { "another book" };
    println!("built from the sheet: {} held, {which}", built.entries());
    Ok(())
}

/// And the page for the laboratory's wall, which is text: the bytes are printed as they are.
fn print_page(book: &Book) -> io::Result<()> {
    let page = book.page();
    println!("the page: {} names, {} bytes", book.entries(), page.len());
    io::stdout().write_all(&page)
}

/// A bench that only offers names can keep the trie alone: it completes as the book does.
fn offer_from_trie(book: &Book) -> Result<(), Refusal> {
    let trie = book.trie();
    let mut answer = [0; 2 * ENTRY_MAX];
    let told = label_book::complete_trie(&trie, b"rc", 2, &mut answer)?;
    println!("the trie: {} bytes; for \"rc\" it offers {}", trie.len(), told.offered);
    show(entries(&answer[..told.bytes]), 0);
    Ok(())
}

/// A bench comes in for service with its book, perhaps an old one, as libraries before 1.6 wrote
/// them: that is converted. If its panel reads old books alone, it gets the book back as one.
fn service() -> Result<(), Refusal> {
    let loaded = b"\x21\0\0\0\x2C\0\x04\0\0\0\x05\0\0\0\x09\0\0\0\x09\0\0\0\x0C\0\x1B\0\x03\
                   \x02ac\0\x02rc\x02\x05 step\x01\x01l";
    let book = match Book::from_image(loaded) {
        Err(refusal @ Refusal::OldVersion) => {
            println!("declined, {}: {refusal}", refusal.number());
            Book::from_old_image(loaded)?
        }
        book => return book.map(|_| ()),
    };
    println!("converted: {} held, {} bytes", book.entries(), book.image().len());
    let old = book.old_image();
    let which = if old == loaded { "the same book" } else { "another book" };
    println!("and back: {} bytes, {which}", old.len());
    Ok(())
}

fn main() -> Result<(), Box<dyn Error>> {
    let mut book = Book::new();
    edit(&mut book);
    join(&mut book)?;
    type_keys(&mut book)?;
    type_signs(&mut book)?;
    keep(&book)?;
    print_page(&book)?;
    offer_from_trie(&book)?;
    service()?;
    Ok(())
}
