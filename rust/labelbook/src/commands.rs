//! What each command does.
use crate::arguments::Request;
use crate::failure::Failure;
use crate::files::{note, print, Converted, Loaded, Source, Target, TRIE_VERSION};
use crate::save::Held;
use crate::{help, lines};
use label_book::{Book, Refusal, Written, BOOK_MAX, COUNT_MAX, ENTRY_MAX, FRONT, TRIE_MAX};
use std::fmt::Display;
use std::path::Path;

pub fn run(request: Request) -> Result<(), Failure> {
    match request {
        Request::Help(None) => print(help::GENERAL.as_bytes()),
        Request::Help(Some(command)) => print(command.help.as_bytes()),
        Request::Version => {
            print(concat!("labelbook ", env!("CARGO_PKG_VERSION"), "\n").as_bytes())
        }
        Request::Check { file } => check(&file),
        Request::List { file } => list(&file),
        Request::Build { file, lines, force } => build(&file, &lines, force),
        Request::Set { file, score, name } => edit(&file, |book| book.set(&name, score)),
        Request::Withdraw { file, name } => edit(&file, |book| book.withdraw(&name)),
        Request::Top { file, count, prefix } => top(&file, count, &prefix),
        Request::Page { file } => print(&file.book()?.book.page()),
        Request::Convert { file } => convert(&file),
        Request::ConvertInto { file, out, force } => convert_into(&file, &out, force),
        Request::Merge { file, other } => merge(&file, &other),
        Request::MergeInto { file, other, out, force } => merge_into(&file, &other, &out, force),
        Request::Trie { file, out, force } => trie(&file, &out, force),
    }
}

fn check(file: &Source) -> Result<(), Failure> {
    let Loaded { book, more } = file.book()?;
    let behind = if more { "bytes stand behind the book; they are not part of it\n" } else { "" };
    let text = format!("{}\n{behind}", lines::size(book.entries(), book.image().len()));
    print(text.as_bytes())
}

fn list(file: &Source) -> Result<(), Failure> {
    let sheet = file.book()?.book.sheet();
    print(&lines::text(label_book::entries(sheet.get(FRONT..).unwrap_or_default())))
}

fn build(file: &Target, source: &Source, force: bool) -> Result<(), Failure> {
    file.allow(force)?;
    apart(file, source, "LINES")?;
    let book = lines::book(source)?;
    if book.entries() == 0 && file.exists() {
        let words = "there are no lines, as after a command that failed; FILE is kept";
        return Err(Failure::data(source, words));
    }
    file.write(book.image(), force)
}

/// Completes from a book or from a trie: the first byte says which it is.
fn top(file: &Source, count: usize, prefix: &[u8]) -> Result<(), Failure> {
    let front = file.front(TRIE_MAX)?;
    if front.first() != Some(&TRIE_VERSION) {
        let book = Loaded::from_front(file, &front)?.book;
        let best = book.complete(prefix, count);
        let best = best.map_err(|refusal| Failure::refused(file, refusal))?;
        return print(&lines::text(best.entries()));
    }
    let trie = front.get(..TRIE_MAX).unwrap_or(&front);
    let mut answer = [0; COUNT_MAX * ENTRY_MAX];
    let offered = label_book::complete_trie(trie, prefix, count, &mut answer);
    let offered = offered.map_err(|refusal| Failure::refused(file, refusal))?;
    print(&lines::text(label_book::entries(answer.get(..offered.bytes).unwrap_or_default())))
}

/// Changes a book in its file, which is held from the reading to the end of the writing.
fn edit(
    path: &Path,
    change: impl FnOnce(&mut Book) -> Result<Written, Refusal>,
) -> Result<(), Failure> {
    let place = &path.display();
    let held = Held::open(path).map_err(|error| Failure::file(place, error))?;
    let front = held.front(BOOK_MAX).map_err(|error| Failure::file(place, error))?;
    let Loaded { mut book, more } = Loaded::from_front(place, &front)?;
    change(&mut book).map_err(|refusal| Failure::refused(place, refusal))?;
    held.replace(book.image()).map_err(|error| Failure::file(place, error))?;
    note_lost(place, more);
    Ok(())
}

/// Bytes behind a book are not kept where it is changed in its file.
fn note_lost(place: impl Display, more: bool) {
    if more {
        note(&format!("{place}: the bytes that stood behind the book are gone"));
    }
}

/// The other book is read before the file is held: it may come from a command that edits the file.
fn merge(path: &Path, other: &Source) -> Result<(), Failure> {
    let file = || Source::File(path.to_path_buf()).book();
    let other = other.book().map_err(|failure| first_of(failure, file))?.book;
    edit(path, |book| book.merge(other.image()))
}

fn merge_into(file: &Source, other: &Source, out: &Target, force: bool) -> Result<(), Failure> {
    out.allow(force)?;
    apart(out, file, "FILE")?;
    apart(out, other, "OTHER")?;
    let mut book = file.book().map_err(|failure| first_of(failure, || other.book()))?.book;
    let other = other.book()?.book;
    book.merge(other.image()).map_err(|refusal| Failure::refused(file, refusal))?;
    out.write(book.image(), force)
}

/// Why two books cannot be merged, of which one failed: whether either is old is looked at, as the
/// library does, before either is said to be no book.
fn first_of(failure: Failure, other: impl FnOnce() -> Result<Loaded, Failure>) -> Failure {
    if !failure.is(Refusal::NotLaidOut) {
        return failure;
    }
    match other() {
        Err(old) if old.is(Refusal::OldVersion) => old,
        _ => failure,
    }
}

fn trie(file: &Source, out: &Target, force: bool) -> Result<(), Failure> {
    out.allow(force)?;
    apart(out, file, "FILE")?;
    out.write(&file.book()?.book.trie(), force)
}

/// Converts a book in its file. What was done is only noted: output that cannot be written would
/// have to be told as a failure, behind a file that has changed.
fn convert(path: &Path) -> Result<(), Failure> {
    let place = &path.display();
    let held = Held::open(path).map_err(|error| Failure::file(place, error))?;
    let front = held.front(BOOK_MAX).map_err(|error| Failure::file(place, error))?;
    let converted = Converted::from_front(place, &front)?;
    held.replace(&converted.image).map_err(|error| Failure::file(place, error))?;
    note(&format!("{place}: {converted}"));
    note_lost(place, converted.more);
    Ok(())
}

fn convert_into(file: &Source, out: &Target, force: bool) -> Result<(), Failure> {
    out.allow(force)?;
    apart(out, file, "FILE")?;
    let converted = Converted::from_front(file, &file.front(BOOK_MAX)?)?;
    out.write(&converted.image, force)?;
    note(&format!("{out}: {converted}"));
    Ok(())
}

/// Declines to replace a file by what is made from it: an edit of it meanwhile would be lost.
fn apart(out: &Target, source: &Source, operand: &str) -> Result<(), Failure> {
    if !out.is(source) {
        return Ok(());
    }
    Err(Failure::file(out, std::io::Error::other(format!("it is {operand} itself"))))
}
