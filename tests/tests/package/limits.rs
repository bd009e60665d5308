//! The package's numbers are the library's: what is just within each is accepted, and what is just
//! past it is refused.
use super::Package;
use label_book::{build, check, complete, complete_trie, convert, key, list, name_at, page, set};
use label_book::{write_trie, Book, Panel, Range, Refusal, Written};
use label_book::{BOOK_MAX, COUNT_MAX, ENTRIES_MAX, ENTRY_MAX, FRONT, NAME_MAX};
use label_book::{PAGE_MAX, PANEL_ROWS, SHEET_MAX, TRIE_MAX};
use label_book_tests::make;
use label_book_tests::reference::{sheet, Entries};

/// The longest trie that is known (docs/FORMAT.md).
const LONG_TRIE: usize = 66_444;

pub fn all(package: &mut Package) {
    let full = full_book();
    sums(package);
    names(package);
    entries(package, &full);
    counts(package, &full);
    looks(package);
    images(package, &full);
    panels(package, &full);
}

/// As many names as can be, each of 48 bytes, whose trie is the longest that is known: they share
/// few bytes and need many nodes, some groups are longer than 255 bytes, and all siblings are far
/// apart in score.
fn long_names() -> Entries {
    // 95 first bytes, each with so many second ones, and two third ones behind each of these; µ and
    // Ω, each with two bytes behind it.
    let seconds = [vec![3; 89], vec![38; 5], vec![53]].concat();
    let starts = (0..).zip(seconds).flat_map(|(first, most)| {
        (0..most).flat_map(move |second| [0, 1].map(|third| [first, second, third]))
    });
    let starts = starts.map(|start: [u8; 3]| start.map(|n| b' ' + n).to_vec());
    let names = starts.chain(["µ ", "µ!", "Ω ", "Ω!"].map(Vec::from)).enumerate();
    let scored = names.map(|(i, mut name)| {
        name.resize(NAME_MAX, b'x');
        (name, u32::MAX - (i << 16) as u32)
    });
    scored.collect()
}

fn full_book() -> Book {
    Book::from_sheet(&sheet::image(&long_names())).expect("a sheet")
}

fn sums(package: &mut Package) {
    package.case(ENTRY_MAX == 1 + NAME_MAX + 4, "length byte, name, score");
    package.case(SHEET_MAX == FRONT + ENTRY_MAX * ENTRIES_MAX, "a sheet's entries");
    package.case(PAGE_MAX == 41 * (1 + 2 * ENTRIES_MAX), "the heading, two lines for each entry");
    let tables = 4 * ENTRIES_MAX + 2 * (ENTRIES_MAX / 16);
    let records = ENTRIES_MAX * (2 + NAME_MAX);
    package.case(FRONT + tables + records <= BOOK_MAX, "a book's tables and records");
    // In version 21 a bucket of 8 has an offset, and its first record a byte less.
    let old = FRONT + tables + records + ENTRIES_MAX / 8;
    package.case(old == BOOK_MAX, "the same in version 21");
}

fn names(package: &mut Package) {
    let mut book = Book::new();
    let mut dst = [0; ENTRY_MAX];
    package.case(book.set(&[b'x'; NAME_MAX], 1).is_ok(), "the longest name");
    let longer = book.set(&[b'x'; NAME_MAX + 1], 1);
    package.case(longer == Err(Refusal::NotAllowed), "a name that is too long");
    package.case(book.set(b"", 1) == Err(Refusal::NotAllowed), "a name of no bytes");
    let with_sign = |letters: usize| "x".repeat(letters) + "Ω";
    let fits = Book::new().set(with_sign(NAME_MAX - 2).as_bytes(), 1);
    package.case(fits.is_ok(), "the longest name that ends in a sign");
    for name in
        [with_sign(NAME_MAX - 1).as_bytes(), &with_sign(NAME_MAX - 1).as_bytes()[..NAME_MAX]]
    {
        let longer = book.set(name, 1);
        package.case(longer == Err(Refusal::NotAllowed), "a sign, or half of it, past the limit");
    }
    let written = Ok(Written { entries: 1, bytes: ENTRY_MAX });
    package.case(name_at(book.image(), 0, &mut dst) == written, "the longest entry");
    let short = name_at(book.image(), 0, &mut dst[1..]);
    package.case(short == Err(Refusal::TooShort), "a byte less than the longest entry");
    package.case(book.complete(&[b'x'; NAME_MAX], 1).is_ok(), "the longest prefix");
    let longer = book.complete(&[b'x'; NAME_MAX + 1], 1).map(|best| best.offered());
    package.case(longer == Err(Refusal::NotAllowed), "a prefix that is too long");
}

fn entries(package: &mut Package, full: &Book) {
    let mut dst = vec![0; BOOK_MAX];
    package.case(full.entries() == ENTRIES_MAX, "as many names as can be");
    let more = set(full.image(), b"new", 1, &mut dst);
    package.case(more == Err(Refusal::Full), "one name more");
    let more: Entries = long_names().into_iter().chain([(b"new".to_vec(), 1)]).collect();
    let more = build(&sheet::image(&more), &mut dst);
    package.case(more == Err(Refusal::NotLaidOut), "a sheet of one name more");
}

fn counts(package: &mut Package, full: &Book) {
    let trie = full.trie();
    let mut dst = vec![0; ENTRY_MAX * (COUNT_MAX + 1)];
    let mut ranges = [Range::default(); COUNT_MAX + 1];
    for (k, answer) in [
        (0, Err(Refusal::CountOutOfRange)),
        (1, Ok(1)),
        (COUNT_MAX, Ok(COUNT_MAX)),
        (COUNT_MAX + 1, Err(Refusal::CountOutOfRange)),
    ] {
        let best = complete(full.image(), b"", k, &mut dst, &mut ranges);
        package.case(best.map(|best| best.offered) == answer, "the count of a completion");
        let best = complete_trie(&trie, b"", k, &mut dst);
        package.case(best.map(|best| best.offered) == answer, "the same from a trie");
    }
    // Names of 48 bytes fill what is asked for, and no less may be lent.
    let (room, k) = (ENTRY_MAX * COUNT_MAX, COUNT_MAX);
    let best = complete(full.image(), b"", k, &mut dst[..room], &mut ranges[..k]);
    package.case(best.map(|best| best.bytes) == Ok(room), "the longest answer");
    let short = complete(full.image(), b"", k, &mut dst[..room - 1], &mut ranges[..k]);
    package.case(short == Err(Refusal::TooShort), "a byte less");
    let short = complete(full.image(), b"", k, &mut dst[..room], &mut ranges[..k - 1]);
    package.case(short == Err(Refusal::TooShort), "a range less");
    // One entry more is too many, whatever is lent.
    let more = complete(full.image(), b"", k + 1, &mut dst[..room], &mut ranges[..k]);
    package.case(more == Err(Refusal::CountOutOfRange), "one entry more, a range and bytes less");
    let more = complete_trie(&trie, b"", k + 1, &mut []);
    package.case(more == Err(Refusal::CountOutOfRange), "the same from a trie without room");
    let more = full.complete(b"", k + 1).map(|best| best.offered());
    package.case(more == Err(Refusal::CountOutOfRange), "the same from a book of its own");
}

/// The most looks, from a book of which every best leaves a part on each side.
fn looks(package: &mut Package) {
    let book = Book::from_sheet(&sheet::image(&make::nineteen())).expect("a sheet");
    let best = book.complete(b"", COUNT_MAX).expect("a prefix and a count");
    package.case(best.offered() == COUNT_MAX, "as many are offered");
    package.case(best.looks() == 2 * COUNT_MAX - 1, "as many looks as can be");
}

/// Full images of 48-byte names: the longest sheet and page, and no book or trie too long.
fn images(package: &mut Package, full: &Book) {
    let sheet = full.sheet();
    package.case(sheet.len() == SHEET_MAX, "the longest sheet");
    let short = list(full.image(), &mut vec![0; SHEET_MAX - 1]);
    package.case(short == Err(Refusal::TooShort), "a byte less than the longest sheet");
    package.case(full.page().len() == PAGE_MAX, "the longest page");
    let short = page(full.image(), &mut vec![0; PAGE_MAX - 1]);
    package.case(short == Err(Refusal::TooShort), "a byte less than the longest page");
    let written = build(&sheet, &mut vec![0; BOOK_MAX]);
    package.case(written == check(full.image()), "room for the book of the longest sheet");
    let old = convert(full.image(), &mut vec![0; BOOK_MAX]);
    package.case(old.is_ok_and(|old| old.entries == ENTRIES_MAX), "room for it in version 21");
    let trie = write_trie(full.image(), &mut vec![0; TRIE_MAX]);
    let written = Written { entries: ENTRIES_MAX, bytes: LONG_TRIE };
    package.case(trie == Ok(written), "room for the longest trie that is known");
    package.case(full.trie().len() == LONG_TRIE, "a book's longest trie");
}

/// No more rows than five, and every key does what its name says.
fn panels(package: &mut Package, full: &Book) {
    let mut panel = Panel::default();
    package.case(full.press(&mut panel, key::RECOUNT) == Ok(PANEL_ROWS), "a panel's rows");
    for row in [1, 2, 3, 4, 4] {
        package.case(full.press(&mut panel, key::DOWN) == Ok(PANEL_ROWS), "a row down");
        package.case(panel.highlight == row, "the row that is highlighted");
    }
    full.press(&mut panel, key::UP).expect("a key of the panel");
    package.case(panel.highlight == PANEL_ROWS - 2, "a row up");
    package.case(full.press(&mut panel, key::TAKE) == Ok(1), "the highlighted name is taken");
    let best = full.complete(b"", PANEL_ROWS).expect("a prefix and a count");
    let taken = best.entries().nth(PANEL_ROWS - 2).expect("as many are offered");
    package.case(panel.typed() == taken.name && panel.len == NAME_MAX, "the name that was taken");
    package.case(full.press(&mut panel, b'x') == Err(Refusal::TextFull), "a byte more");
    full.press(&mut panel, key::ERASE).expect("a key of the panel");
    package.case(panel.len == NAME_MAX - 1, "the last byte is erased");
    package.case(full.press(&mut panel, 0x03) == Err(Refusal::NoSuchKey), "another key");
}
