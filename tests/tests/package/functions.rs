//! The 19 functions, each against its C name, on books of many sizes, on damaged ones and on those
//! of version 21.
use super::Package;
use label_book::{self as package, Panel, Range, Written};
use label_book::{BOOK_MAX, COUNT_MAX, ENTRY_MAX, NAME_MAX, PAGE_MAX, SHEET_MAX, TRIE_MAX};
use label_book_tests::calls as raw;
use label_book_tests::make::{self, NAMES, SCORES};
use label_book_tests::random::Random;
use label_book_tests::reference::script::{self, Call, Kind, ANSWER};
use label_book_tests::reference::{book, sheet, Entries};

const SIZES: [usize; 10] = [0, 1, 2, 8, 9, 16, 17, 129, 1023, 1024];
const ANSWER_ROOM: usize = COUNT_MAX * ENTRY_MAX;

pub fn all(package: &mut Package) {
    let random = &mut Random::new(1);
    for room in 0..9 {
        package.writes("empty", room, package::empty, raw::empty);
    }
    for (n, names) in SIZES.iter().flat_map(|&n| NAMES.map(|names| (n, names))) {
        let scores = random.pick(&SCORES);
        let held = make::entries(random, n, names, scores);
        let image = book::image(&held);
        let old = book::Version::Buckets.image(&held);
        for book in [&image, &make::damaged(random, &image), &old] {
            images(package, random, book, &sheet::image(&held));
            for _ in 0..12 {
                names_and_places(package, random, book, &held);
                completions(package, random, book, &held);
                keys(package, random, book, &held);
            }
        }
    }
    (0..200).for_each(|_| runs(package, random));
}

/// The calls that write or read whole images; each destination has room, or is too short.
fn images(package: &mut Package, random: &mut Random, book: &[u8], sheet: &[u8]) {
    package.same("check", package::check(book), raw::check(book));
    for room in [SHEET_MAX, BOOK_MAX, random.below(9)] {
        for sheet in [sheet, &make::damaged(random, sheet)] {
            package.writes("build", room, |d| package::build(sheet, d), |d| raw::build(sheet, d));
        }
        package.writes("list", room, |d| package::list(book, d), |d| raw::list(book, d));
    }
    for room in [PAGE_MAX, random.below(42)] {
        package.writes("page", room, |d| package::page(book, d), |d| raw::page(book, d));
    }
    for room in [BOOK_MAX, random.below(9)] {
        package.writes("convert", room, |d| package::convert(book, d), |d| raw::convert(book, d));
    }
    for room in [TRIE_MAX, random.below(9)] {
        let raw = |d: &mut [u8]| raw::write_trie(book, d);
        package.writes("write_trie", room, |d| package::write_trie(book, d), raw);
    }
}

/// The calls that take a name, a position or a bucket.
fn names_and_places(package: &mut Package, random: &mut Random, book: &[u8], held: &Entries) {
    let (name, score) = (&make::asked(random, held)[..], random.any() as u32);
    let room = random.pick(&[BOOK_MAX, BOOK_MAX, book.len() / 2]);
    let set = |d: &mut [u8]| raw::set(book, name, score, d);
    package.writes("set", room, |d| package::set(book, name, score, d), set);
    let withdraw = |d: &mut [u8]| raw::withdraw(book, name, d);
    package.writes("withdraw", room, |d| package::withdraw(book, name, d), withdraw);
    let size = random.pick(&[0, 3, 600]);
    let other = book::image(&make::entries(random, size, make::Names::Any, make::Scores::Any));
    for [a, b] in [[book, &other], [&other, book]] {
        let merge = |d: &mut [u8]| raw::merge(a, b, d);
        package.writes("merge", room, |d| package::merge(a, b, d), merge);
    }
    package.same("find", package::find(book, name), raw::find(book, name));
    let room = make::room(random, ENTRY_MAX);
    let name_of = |d: &mut [u8]| raw::name_of(book, name, d);
    package.writes("name_of", room, |d| package::name_of(book, name, d), name_of);
    let position = make::number(random, held.len());
    let name_at = |d: &mut [u8]| raw::name_at(book, position, d);
    package.writes("name_at", room, |d| package::name_at(book, position, d), name_at);
    // A head is told by where it begins in the book and its length.
    let bucket = make::bucket(random, held.len());
    let part = package::head(book, bucket).map(|part| Written {
        entries: part.as_ptr() as usize - book.as_ptr() as usize,
        bytes: part.len(),
    });
    package.same("head", part, raw::head(book, bucket));
}

/// The calls that take a prefix.
fn completions(package: &mut Package, random: &mut Random, book: &[u8], held: &Entries) {
    let prefix = &make::asked(random, held)[..];
    let prefix = &prefix[..random.between(0, prefix.len())];
    package.same(
        "prefix_range",
        package::prefix_range(book, prefix),
        raw::prefix_range(book, prefix),
    );
    let (k, room) = (make::count(random), random.pick(&[ANSWER_ROOM, ANSWER_ROOM, ENTRY_MAX]));
    let most = random.pick(&[COUNT_MAX, COUNT_MAX, 1]);
    let mut ranges = [vec![Range::default(); most], vec![Range::default(); most]];
    let [open, raw_open] = &mut ranges;
    package.writes(
        "complete",
        room,
        |d| package::complete(book, prefix, k, d, open),
        |d| raw::complete(book, prefix, k, d, raw_open),
    );
    assert_eq!(open, raw_open, "complete: the ranges");
    let mut trie = vec![0; TRIE_MAX];
    if package::write_trie(book, &mut trie).is_ok() && random.chance(8) {
        trie = make::damaged(random, &trie);
    }
    let complete = |d: &mut [u8]| raw::complete_trie(&trie, prefix, k, d);
    let function = |d: &mut [u8]| package::complete_trie(&trie, prefix, k, d);
    package.writes("complete_trie", room, function, complete);
}

/// A key, on a panel with any text.
fn keys(package: &mut Package, random: &mut Random, book: &[u8], held: &Entries) {
    let text = make::some_name(random, held);
    let mut panel = Panel { highlight: random.below(7), rows: 3, ..Panel::default() };
    panel.text[..text.len()].copy_from_slice(&text);
    panel.len = random.pick(&[0, 1.min(text.len()), text.len(), NAME_MAX, NAME_MAX + 1]);
    if random.chance(2) {
        panel.text[text.len()..].fill(b'x');
    }
    let key = random.pick(&[0, 1, 2, 8, 0x0D, 3, b'a', b'a', 0x7F, 0x80, 0x81]);
    let mut raw_panel = panel.clone();
    let answer = package::press(book, &mut panel, key);
    package.same("press", answer, raw::press(book, &mut raw_panel, key));
    assert_eq!(panel, raw_panel, "press: the panel");
}

/// A history, on buffers that have room or not.
fn runs(package: &mut Package, random: &mut Random) {
    let mut held = Entries::new();
    let count = random.below(12);
    let calls: Vec<Call> = (0..count)
        .map(|_| {
            let new = make::name(random, make::Names::Short, &held);
            held.insert(new.clone(), 0);
            let kind = random.pick(&[Kind::Set, Kind::Set, Kind::Withdraw]);
            Call { kind, score: random.any() as u32, name: random.pick(&[new, vec![0x1F]]) }
        })
        .collect();
    let mut script = script::bytes(&calls);
    if random.chance(4) {
        script.push(random.byte());
    }
    let room = random.pick(&[6, 7, 30, 400]);
    let second = if random.chance(8) { room + 1 } else { room };
    let rooms = [room, second, make::room(random, ANSWER * count)];
    let mut lent = rooms.map(|room| vec![0xEE; room]);
    let mut raw_lent = lent.clone();
    let [first, second, out] = &mut lent;
    let answer = package::run(&script, first, second, out);
    let [first, second, out] = &mut raw_lent;
    package.same("run", answer, raw::run(&script, first, second, out));
    assert_eq!(lent, raw_lent, "run: the buffers");
}
