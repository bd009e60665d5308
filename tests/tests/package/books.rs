//! Books that own their buffers, against the calls on two buffers of the same edits.
use super::{told, Package};
use label_book::{convert, entries, Book, Entry, Panel, Range, Refusal};
use label_book::{BOOK_MAX, COUNT_MAX, ENTRIES_MAX, ENTRY_MAX, PAGE_MAX, SHEET_MAX, TRIE_MAX};
use label_book_tests::calls::{self as raw, Told};
use label_book_tests::make::{self, Names, Scores, NAMES};
use label_book_tests::random::Random;
use label_book_tests::reference::{book, sheet, Entries};

pub fn all(package: &mut Package) {
    let random = &mut Random::new(2);
    for names in NAMES {
        history(package, random, names, 120);
    }
    full(package, random);
    made_from_images(package, random);
    compared(package);
}

/// A book, and the same in two buffers: the one that holds it, and the one for the next.
struct Both {
    book: Book,
    held: Vec<u8>,
    other: Vec<u8>,
    bytes: usize,
}

impl Both {
    fn new() -> Both {
        let mut held = vec![0xEE; BOOK_MAX];
        let (_, [_, bytes, _]) = raw::empty(&mut held);
        Both { book: Book::new(), held, other: vec![0xEE; BOOK_MAX], bytes: bytes as usize }
    }

    /// An edit of both; the book then has the image that is in the buffer, also after a refusal.
    fn edit(
        &mut self,
        package: &mut Package,
        edit: impl FnOnce(&mut Book) -> Told,
        call: impl FnOnce(&[u8], &mut [u8]) -> Told,
    ) {
        let expected = call(&self.held, &mut self.other);
        assert_eq!(edit(&mut self.book), expected, "the edit of a book");
        if let (0, [_, bytes, _]) = expected {
            self.bytes = bytes as usize;
            std::mem::swap(&mut self.held, &mut self.other);
        }
        let entries = raw::check(&self.held).1[0] as usize;
        package.case(self.book.entries() == entries, "how many entries a book has");
        package.case(self.book.image() == &self.held[..self.bytes], "a book's image");
    }

    fn set(&mut self, package: &mut Package, name: &[u8], score: u32) {
        let set = |book: &[u8], dst: &mut [u8]| raw::set(book, name, score, dst);
        self.edit(package, |book| told(book.set(name, score)), set);
    }

    fn withdraw(&mut self, package: &mut Package, name: &[u8]) {
        let withdraw = |book: &[u8], dst: &mut [u8]| raw::withdraw(book, name, dst);
        self.edit(package, |book| told(book.withdraw(name)), withdraw);
    }

    fn merge(&mut self, package: &mut Package, second: &[u8]) {
        let merge = |book: &[u8], dst: &mut [u8]| raw::merge(book, second, dst);
        self.edit(package, |book| told(book.merge(second)), merge);
    }

    /// Every question, with a name that may be held.
    fn ask(&self, package: &mut Package, random: &mut Random, name: &[u8]) {
        let found = told(self.book.find(name));
        package.case(found == raw::find(&self.held, name), "find in a book");
        let mut panel = Panel { highlight: random.below(6), ..Panel::default() };
        let mut raw_panel = panel.clone();
        let key = random.pick(&[0, 2, 0x0D, b'a', b'x', 0x80, 0x81, 0xFF]);
        let pressed = told(self.book.press(&mut panel, key));
        let expected = raw::press(&self.held, &mut raw_panel, key);
        package.case((pressed, panel) == (expected, raw_panel), "a key on a book");
        self.complete(package, name, make::count(random));
        let mut wrote = |most: usize, call: fn(&[u8], &mut [u8]) -> Told, bytes: &[u8], what| {
            let mut dst = vec![0; most];
            let (number, [_, length, _]) = call(&self.held, &mut dst);
            package.case(number == 0 && bytes == &dst[..length as usize], what);
        };
        wrote(TRIE_MAX, raw::write_trie, &self.book.trie(), "a book's trie");
        wrote(SHEET_MAX, raw::list, &self.book.sheet(), "a book's sheet");
        wrote(PAGE_MAX, raw::page, &self.book.page(), "a book's page");
    }

    fn complete(&self, package: &mut Package, prefix: &[u8], k: usize) {
        let mut answer = [0; COUNT_MAX * ENTRY_MAX];
        let mut ranges = [Range::default(); COUNT_MAX];
        let (number, [offered, bytes, looks]) =
            raw::complete(&self.held, prefix, k, &mut answer, &mut ranges);
        match self.book.complete(prefix, k) {
            Err(refusal) => package.case(refusal.number() == number, "a completion's refusal"),
            Ok(best) => {
                let counts = (0, best.offered() as u64, best.looks() as u64);
                package.case(counts == (number, offered, looks), "a completion's counts");
                let expected: Vec<Entry> = entries(&answer[..bytes as usize]).collect();
                let offered: Vec<Entry> = best.entries().collect();
                package.case(offered == expected, "a completion's entries");
                package.case(offered.len() == best.offered(), "how many are offered");
            }
        }
    }
}

/// Edits of every kind, refused ones too, and questions between them.
fn history(package: &mut Package, random: &mut Random, names: Names, edits: usize) {
    let mut both = Both::new();
    let mut tried = Entries::new();
    for _ in 0..edits {
        let asked = make::asked(random, &tried);
        let new = make::name(random, names, &tried);
        tried.insert(new.clone(), 0);
        let name = random.pick(&[new, asked]);
        match random.below(8) {
            0 | 1 => both.withdraw(package, &name),
            2 => {
                let second = book::image(&make::entries(random, 5, names, Scores::Any));
                both.merge(package, &second);
                both.merge(package, &make::damaged(random, &second));
            }
            _ => both.set(package, &name, random.any() as u32),
        }
        both.ask(package, random, &name);
    }
}

/// A full book takes a new score and no new name, by a set or a merge.
fn full(package: &mut Package, random: &mut Random) {
    let mut both = Both::new();
    let held = make::entries(random, ENTRIES_MAX, Names::Any, Scores::Any);
    both.merge(package, &book::image(&held));
    package.case(both.book.entries() == ENTRIES_MAX, "a full book");
    let new = (1..).map(|length| vec![b'n'; length]).find(|name| !held.contains_key(name)).unwrap();
    both.set(package, &new, 1);
    package.case(both.book.set(&new, 1) == Err(Refusal::Full), "a new name in a full book");
    let second = book::image(&[(new.clone(), 1)].into());
    both.merge(package, &second);
    package.case(both.book.merge(&second) == Err(Refusal::Full), "a new name by a merge");
    let name = make::some_name(random, &held);
    both.set(package, &name, 77);
    both.ask(package, random, &name);
    both.withdraw(package, &name);
    both.set(package, &new, 1);
    package.case(both.book.entries() == ENTRIES_MAX, "a full book again");
}

/// Books from images and sheets with bytes behind them, and from damaged ones.
fn made_from_images(package: &mut Package, random: &mut Random) {
    for n in [0, 1, 9, 1024] {
        let held = make::entries(random, n, Names::Mixed, Scores::Any);
        let (image, sheet) = (book::image(&held), sheet::image(&held));
        let behind = random.bytes(20);
        let from_image = Book::from_image(&[&image[..], &behind].concat()).expect("a book");
        let from_sheet = Book::from_sheet(&[&sheet[..], &behind].concat()).expect("a sheet");
        package.case(from_image.image() == image && from_image.entries() == n, "from an image");
        package.case(from_sheet.image() == image && from_sheet.entries() == n, "from a sheet");
        let old = book::Version::Buckets.image(&held);
        moved_up_and_back(package, &from_image, &old);
        for old in [&old[..], &old[..1]] {
            let made = Book::from_image(old).map(|_| ());
            package.case(made == Err(Refusal::OldVersion), "from an image of version 21");
            let mut book = from_image.clone();
            let merged = book.merge(old).map(|_| ());
            package.case(merged == Err(Refusal::OldVersion), "with a book of version 21");
            package.case(book == from_image, "and the book stays as it is");
        }
        for _ in 0..40 {
            let (image, sheet) = (make::damaged(random, &image), make::damaged(random, &sheet));
            let number = Book::from_image(&image).map_or_else(Refusal::number, |_| 0);
            package.case(number == raw::check(&image).0, "from a damaged image");
            let number = Book::from_sheet(&sheet).map_or_else(Refusal::number, |_| 0);
            let mut dst = vec![0; BOOK_MAX];
            package.case(number == raw::build(&sheet, &mut dst).0, "from a damaged sheet");
        }
    }
}

/// An image of version 21 that is moved up is the book's, and the book's that is moved back is that
/// of version 21.
fn moved_up_and_back(package: &mut Package, book: &Book, old: &[u8]) {
    let mut dst = vec![0; BOOK_MAX];
    let up = convert(old, &mut dst).expect("a book of version 21");
    package.case(&dst[..up.bytes] == book.image() && up.entries == book.entries(), "moved up");
    let made = Book::from_image(&dst).expect("a book of version 22");
    package.case(made == *book, "made from an image that was moved up");
    let back = convert(book.image(), &mut dst).expect("a book of version 22");
    package.case(&dst[..back.bytes] == old && back.entries == book.entries(), "moved back");
    let short = convert(book.image(), &mut dst[..old.len() - 1]);
    package.case(short == Err(Refusal::TooShort), "going back needs the room");
}

/// Books are equal if their entries are, whatever is behind the images; a copy goes its own way.
fn compared(package: &mut Package) {
    let mut book = Book::new();
    package.case(book == Book::default() && book.entries() == 0, "the empty book");
    let long = &b"a name that stays behind the image"[..];
    for name in [b"rl", long, b"rc"] {
        book.set(name, 9).expect("it fits");
    }
    let copy = book.clone();
    book.withdraw(long).expect("it is held");
    package.case(copy.entries() == 3 && copy != book, "a copy goes its own way");
    let mut other = Book::new();
    for name in [b"rc", b"rl"] {
        other.set(name, 9).expect("it fits");
    }
    package.case(book == other, "the same entries by another way");
    other.set(b"rl", 10).expect("it fits");
    package.case(book != other, "another score");
}
