//! The inputs: books of all sizes, names that begin each other, ranges that are split in many ways,
//! damaged tries; every call on them, refused ones included.
use super::measure::Measure;
use label_book::{key, Book, Panel, PANEL_ROWS};
use label_book::{BOOK_MAX, COUNT_MAX, ENTRIES_MAX, ENTRY_MAX};
use label_book::{NAME_MAX, PAGE_MAX, SHEET_MAX, TRIE_MAX};
use label_book_tests::make::{self, NAMES, SCORES};
use label_book_tests::random::Random;
use label_book_tests::reference::book::Version::{Buckets, NoBuckets};
use label_book_tests::reference::calls::rows;
use label_book_tests::reference::script::{self, Call, Kind, ANSWER};
use label_book_tests::reference::{book, page, sheet, Entries};

const SIZES: [usize; 11] = [0, 1, 2, 7, 8, 9, 16, 17, 129, 1023, 1024];
const ANSWER_ROOM: usize = COUNT_MAX * ENTRY_MAX;

pub fn all(measure: &mut Measure, seed: u64) {
    let random = &mut Random::new(seed);
    empty(measure);
    sizes(measure, random);
    nested(measure, random);
    ranges(measure);
    queues(measure);
    damaged_tries(measure, random);
    places(measure);
    merges(measure, random);
    pages(measure);
    conversions(measure, random);
    panels(measure);
    scripts(measure, random);
}

fn empty(measure: &mut Measure) {
    measure.kind = "room for the empty book, or not";
    (0..9).for_each(|room| measure.empty(room));
}

/// A book's entries in every image, as the library writes them.
#[derive(Clone)]
struct Images {
    book: Vec<u8>,
    sheet: Vec<u8>,
    trie: Vec<u8>,
}

fn images(held: &Entries) -> Images {
    let book = Book::from_sheet(&sheet::image(held)).expect("it is a sheet");
    Images { book: book.image().to_vec(), sheet: book.sheet(), trie: book.trie() }
}

/// Books of many sizes with names and scores of every kind, whole and damaged.
fn sizes(measure: &mut Measure, random: &mut Random) {
    for n in SIZES {
        for (names, scores) in NAMES.iter().flat_map(|&names| SCORES.map(|scores| (names, scores)))
        {
            let held = make::entries(random, n, names, scores);
            let mut images = images(&held);
            measure.kind = "books of many sizes";
            every_call(measure, random, &held, &images);
            measure.kind = "books of version 21";
            let old = Images { book: Buckets.image(&held), ..images.clone() };
            every_call(measure, random, &held, &old);
            measure.kind = "damaged books, sheets and tries";
            for image in [&mut images.book, &mut images.sheet, &mut images.trie] {
                *image = make::damaged(random, image);
            }
            every_call(measure, random, &held, &images);
        }
    }
}

/// Every call on images or what is left of them, with arguments that are held, close to it or not
/// allowed, and destinations that are too short or not.
fn every_call(measure: &mut Measure, random: &mut Random, held: &Entries, images: &Images) {
    let (n, book) = (held.len(), &images.book);
    measure.check(book);
    for room in [SHEET_MAX, random.below(SHEET_MAX)] {
        measure.list(book, room);
        measure.build(&images.sheet, room);
    }
    for room in [TRIE_MAX, random.below(TRIE_MAX)] {
        measure.write_trie(book, room);
    }
    for room in [PAGE_MAX, random.below(PAGE_MAX)] {
        measure.page(book, room);
    }
    for room in [BOOK_MAX, random.below(BOOK_MAX)] {
        measure.convert(book, room);
    }
    for _ in 0..4 {
        let name = make::asked(random, held);
        let room = random.pick(&[BOOK_MAX, BOOK_MAX, book.len()]);
        measure.set(book, &name, random.any() as u32, room);
        measure.withdraw(book, &name, room);
        measure.find(book, &name);
        measure.name_of(book, &name, make::room(random, ENTRY_MAX));
        measure.name_at(book, make::number(random, n), make::room(random, ENTRY_MAX));
        measure.head(book, make::bucket(random, n));
        every_completion(measure, random, images, &name);
    }
}

/// The calls that take a prefix: a name, and the start of it.
fn every_completion(measure: &mut Measure, random: &mut Random, images: &Images, name: &[u8]) {
    for prefix in [name, &name[..random.below(name.len() + 1)]] {
        measure.prefix_range(&images.book, prefix);
        for k in [COUNT_MAX, make::count(random)] {
            let (room, ranges) = (make::room(random, ANSWER_ROOM), make::room(random, COUNT_MAX));
            measure.complete(&images.book, prefix, k, room, ranges);
            measure.complete_trie(&images.trie, prefix, k, room);
        }
    }
}

/// The names of one byte again and again, up to 48 times, each the start of the next.
fn chain(byte: u8) -> impl Iterator<Item = Vec<u8>> {
    (1..=NAME_MAX).map(move |length| vec![byte; length])
}

/// The same of µ behind some letters, so that labels of 7 bytes are cut inside it.
fn chain_of_signs(letters: usize) -> impl Iterator<Item = Vec<u8>> {
    let lengths = 1..=(NAME_MAX - letters) / 2;
    lengths.map(move |count| [vec![b'a'; letters], "µ".repeat(count).into_bytes()].concat())
}

/// Books whose groups of names stand below each other as deep as can be.
fn nested_books() -> [Entries; 6] {
    let branches = (b' '..=b'~').flat_map(chain).take(ENTRIES_MAX);
    // The start of one chain, and many that leave it late.
    let leaving = (0..ENTRIES_MAX - NAME_MAX).map(|i| {
        let end = [b' ' + (i / 90) as u8, b' ' + (i % 90) as u8];
        [vec![b'a'; NAME_MAX - 2], end.to_vec()].concat()
    });
    // Each label 7 bytes, so that groups of one node stand below each other.
    let sevens = (1..=NAME_MAX.div_ceil(7)).map(|i| vec![b'a'; (7 * i).min(NAME_MAX)]);
    // As many nodes in each group as can be: 95 bytes, both signs, the empty one.
    let ends = (b' '..=b'~').map(|byte| vec![byte]).chain(["µ", "Ω"].map(Vec::from));
    let groups = (0..10).flat_map(|letters| {
        let start = vec![b'a'; letters];
        ends.clone().map(move |end| [&start[..], &end].concat())
    });
    [
        scored(chain(b'a'), |_| 7),
        scored(branches, |i| i as u32),
        scored(chain(b'a').chain(leaving), |i| (i % 5) as u32),
        scored((0..7).flat_map(chain_of_signs), |i| (i % 3) as u32),
        scored(groups, |i| (i % 98) as u32),
        scored(sevens, |_| 7),
    ]
}

fn scored(names: impl Iterator<Item = Vec<u8>>, score: impl Fn(usize) -> u32) -> Entries {
    names.enumerate().map(|(i, name)| (name, score(i))).collect()
}

fn nested(measure: &mut Measure, random: &mut Random) {
    measure.kind = "names that begin each other";
    for held in nested_books() {
        let images = images(&held);
        (0..10).for_each(|_| every_call(measure, random, &held, &images));
        for name in held.keys().step_by(held.len().div_ceil(50)) {
            every_completion(measure, random, &images, name);
        }
    }
}

/// The score of a position, of so many: which part of a range is left when its best is offered.
const SHAPES: [(&str, fn(usize, usize) -> u32); 4] = [
    ("the best of every range is its first", |_, _| 7),
    ("scores fall", |i, n| (n - i) as u32),
    ("scores rise", |i, _| i as u32),
    ("the best of every range is in its middle", |i, _| (i + 1).trailing_zeros()),
];

/// A full book's names: many that begin with the same 47 bytes, and many that are short.
fn many_names() -> Vec<Vec<u8>> {
    let lasts = (b' '..=b'~').map(|last| [&START[..], &[last]].concat());
    let numbers = (0..ENTRIES_MAX - 96).map(|i| format!("b{i:04}").into_bytes());
    lasts.chain(numbers).collect()
}

const START: [u8; NAME_MAX - 1] = [b'a'; NAME_MAX - 1];

/// Prefixes that begin many of these names, one or none.
fn prefixes() -> [Vec<u8>; 6] {
    let last = [&START[..], b"~"].concat();
    [&[][..], b"a", b"b", &START, &last, b"c"].map(<[u8]>::to_vec)
}

/// Completions for every count from books of every shape.
fn ranges(measure: &mut Measure) {
    let names = many_names();
    for (kind, score) in SHAPES {
        measure.kind = kind;
        let held = scored(names.iter().cloned(), |i| score(i, names.len()));
        let Images { book, trie, .. } = images(&held);
        for prefix in prefixes() {
            for k in 0..=COUNT_MAX + 1 {
                measure.complete(&book, &prefix, k, ANSWER_ROOM, COUNT_MAX);
                measure.complete_trie(&trie, &prefix, k, ANSWER_ROOM);
            }
        }
    }
}

/// Completions for every count from a trie in which the way down to the best name passes a sibling
/// at each byte, so that more would wait than can; and from one in which no more than one waits.
fn queues(measure: &mut Measure) {
    let shapes: [(&str, fn(usize) -> u32); 2] = [
        ("as many nodes of a trie wait as can", |i| i as u32),
        ("one node of a trie waits", |i| (NAME_MAX - i) as u32),
    ];
    for (kind, score) in shapes {
        measure.kind = kind;
        let Images { book, trie, .. } = images(&scored(chain(b'a'), score));
        for k in 0..=COUNT_MAX + 1 {
            measure.complete(&book, b"", k, ANSWER_ROOM, COUNT_MAX);
            measure.complete_trie(&trie, b"", k, ANSWER_ROOM);
        }
    }
}

/// The trie of a chain, whose last node, at 48 bytes, is said to have children; so many bytes of
/// them are there.
fn too_deep(children: usize) -> Vec<u8> {
    const LABEL_OF_ONE: u8 = 1;
    const LAST: u8 = 1 << 3;
    const CHILD_FIELD_OF_ONE: u8 = 1 << 4;
    let mut image = images(&scored(chain(b'a'), |_| 7)).trie;
    // Its group is a leaf of one byte, the empty label, and this node, which has now three bytes.
    image.truncate(image.len() - 2);
    image.extend([CHILD_FIELD_OF_ONE | LAST | LABEL_OF_ONE, 4, b'a']);
    image.extend([0, LAST | LABEL_OF_ONE, b'a'].iter().take(children));
    let total = image.len() as u32;
    image[1..5].copy_from_slice(&total.to_be_bytes());
    image
}

/// Tries cut at a byte or with a wrong one, deep down too.
fn damaged_tries(measure: &mut Measure, random: &mut Random) {
    measure.kind = "a trie with a node too deep";
    for children in 0..=3 {
        measure.complete_trie(&too_deep(children), b"a", COUNT_MAX, ANSWER_ROOM);
    }
    measure.kind = "damaged tries";
    for held in nested_books() {
        let image = images(&held).trie;
        let every = image.len().div_ceil(200);
        for at in (0..image.len()).step_by(every) {
            measure.complete_trie(&image[..at], b"", COUNT_MAX, ANSWER_ROOM);
            for byte in [image[at] ^ 1, image[at] ^ 8, image[at] ^ 16, random.byte()] {
                let mut damaged = image.clone();
                damaged[at] = byte;
                measure.complete_trie(&damaged, b"a", COUNT_MAX, ANSWER_ROOM);
            }
        }
    }
}

/// Names set and withdrawn at the front of a book, in the middle and at its end, new ones on both
/// sides of each; the destination has room, or too little.
fn places(measure: &mut Measure) {
    measure.kind = "edits at the front, in the middle and at the end";
    for n in [8, 9, 1023, 1024] {
        let names = (0..n).map(|i| format!("{}{i:04}", "x".repeat(i % 40)).into_bytes());
        let held = scored(names, |i| (i % 9) as u32);
        let book = book::image(&held);
        let parts = [0..8, n / 2..n / 2 + 8, n.saturating_sub(9)..n];
        let positions = (0..n).filter(|at| parts.iter().any(|part| part.contains(at)));
        let names: Vec<&Vec<u8>> = held.keys().collect();
        for name in positions.map(|at| names[at]) {
            let before = [&name[..name.len() - 1], b" "].concat();
            for asked in [name, &before, &[&name[..], b"~"].concat()] {
                for room in [BOOK_MAX, book.len(), 20] {
                    measure.set(&book, asked, 5, room);
                    measure.set(&book, asked, u32::MAX, room);
                    measure.withdraw(&book, asked, room);
                }
            }
        }
    }
}

/// Merges of a book with itself, with one that it shares nothing or half with, with too many names,
/// and of damaged books; the destination has room, or too little.
fn merges(measure: &mut Measure, random: &mut Random) {
    measure.kind = "merges";
    for (sizes, shared) in [([0, 0], 0), ([9, 9], 4), ([512, 512], 0), ([1024, 1024], 1024)] {
        for places in make::PLACES {
            let (names, scores) = (random.pick(&NAMES), random.pick(&SCORES));
            let pair = make::pair(random, sizes, shared, places, names, scores);
            let [first, second] = pair.map(|held| book::image(&held));
            for room in [BOOK_MAX, first.len(), 6] {
                measure.merge(&first, &second, room);
                measure.merge(&first, &make::damaged(random, &second), room);
                measure.merge(&make::damaged(random, &first), &second, room);
            }
        }
    }
    let books = nested_books().map(|held| book::image(&held));
    for (first, second) in books.iter().flat_map(|a| books.iter().map(move |b| (a, b))) {
        measure.merge(first, second, BOOK_MAX);
    }
}

/// Pages of many names, of one line and of two, with scores of every shape; the destination has
/// room, or a byte too little.
fn pages(measure: &mut Measure) {
    measure.kind = "pages of many names";
    for (n, length) in [512, 513, 1024].iter().flat_map(|&n| [28, 29, 48].map(|to| (n, to))) {
        for (_, score) in SHAPES {
            let held = scored(make::numbers(n, length), |i| score(i, n));
            let (book, bytes) = (book::image(&held), page::bytes(&held).len());
            measure.page(&book, bytes);
            measure.page(&book, bytes - 1);
        }
    }
}

/// Books of names that begin each other, in both versions, moved up and back, and damaged ones; the
/// destination has room, or a byte too little.
fn conversions(measure: &mut Measure, random: &mut Random) {
    measure.kind = "books moved up and back";
    for held in nested_books() {
        let [old, new] = [Buckets, NoBuckets].map(|version| version.image(&held));
        for (from, to) in [(&old, &new), (&new, &old)] {
            for room in [BOOK_MAX, to.len(), to.len() - 1] {
                measure.convert(from, room);
                measure.convert(&make::damaged(random, from), room);
            }
        }
    }
}

/// Keys with texts of many lengths, allowed or not, and held names: none, on a row, behind the
/// fifth, not allowed. Then with every name on a row held, and others, on books of every shape.
fn panels(measure: &mut Measure) {
    measure.kind = "keys of a panel";
    let [nested, .., sevens] = nested_books().map(|held| book::image(&held));
    let lengths = [0, 1, 2, 20, 43, 47, 48, 49];
    let texts = lengths.iter().flat_map(|&len| [(b'a', len), (b'b', len), (0x1F, len)]);
    for book in [&nested[..], &sevens, &nested[..40]] {
        for (byte, len) in texts.clone() {
            let near = [0, 1, 4, 5].map(|more| (byte, len + more));
            let others = [(byte, 0), (b'a', NAME_MAX), (0x7F, 1)];
            for (held, held_len) in near.into_iter().chain(others) {
                let (text, held) = ([byte; NAME_MAX], [held; NAME_MAX]);
                keys(measure, book, &Panel { text, len, held, held_len, ..Panel::default() });
            }
        }
    }
    measure.kind = "keys of a panel on a full book";
    let names = many_names();
    for (_, score) in SHAPES {
        let entries = scored(names.iter().cloned(), |i| score(i, names.len()));
        let book = book::image(&entries);
        for prefix in prefixes() {
            let rows = rows(&entries, &prefix, PANEL_ROWS + 1);
            for held in rows.into_iter().chain([vec![], b"a".to_vec(), vec![b'~'; NAME_MAX]]) {
                let mut panel =
                    Panel { len: prefix.len(), held_len: held.len(), ..Panel::default() };
                panel.text[..prefix.len()].copy_from_slice(&prefix);
                panel.held[..held.len()].copy_from_slice(&held);
                keys(measure, &book, &panel);
            }
        }
    }
}

/// Keys of all kinds on a panel, with rows that there are and are not.
fn keys(measure: &mut Measure, book: &[u8], panel: &Panel) {
    let keys = [key::RECOUNT, key::UP, key::DOWN, key::ERASE, key::TAKE, b'a', key::MICRO, 0x03];
    for (highlight, key) in [0, 2, 4, 6].iter().flat_map(|&row| keys.map(|key| (row, key))) {
        measure.press(book, &mut Panel { highlight, ..panel.clone() }, key);
    }
}

/// Scripts of sets and withdrawals, with refused ones among them, and damaged; buffers with room
/// for the book, too short or of two lengths.
fn scripts(measure: &mut Measure, random: &mut Random) {
    measure.kind = "scripts";
    for names in NAMES {
        for length in [7, 100, 2000] {
            let mut held = Entries::new();
            let calls: Vec<Call> = (0..60)
                .map(|_| {
                    let name = make::asked(random, &held);
                    let new = make::name(random, names, &held);
                    held.insert(new.clone(), 0);
                    let kind = random.pick(&[Kind::Set, Kind::Set, Kind::Withdraw]);
                    Call { kind, score: random.any() as u32, name: random.pick(&[name, new]) }
                })
                .collect();
            let script = script::bytes(&calls);
            let out = ANSWER * calls.len();
            for rooms in [[length, length, out], [length, length, out - 1], [length, 8, out]] {
                measure.run(&script, rooms);
                measure.run(&script[..random.below(script.len())], rooms);
            }
        }
    }
}
