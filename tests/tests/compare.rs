//! Random and hostile inputs through the C interface, compared with the second implementation.
//! Seeded and bounded: the same cases in every run. `LONG=1` runs many more rounds, each with
//! another seed.
use label_book_tests::calls::{self as ours, Told};
use label_book_tests::compare::Compare;
use label_book_tests::make::{self, Names, Scores, NAMES, PLACES, SCORES};
use label_book_tests::random::Random;
use label_book_tests::reference::book::Version;
use label_book_tests::reference::{book, calls, page, sheet, trie, Entries};
use label_book_tests::reference::{MOST_BEFORE, MOST_ENTRIES, MOST_OFFERED};
use std::collections::BTreeSet;

#[path = "compare/conversions.rs"]
mod conversions;
#[path = "compare/counts.rs"]
mod counts;
#[path = "compare/edits.rs"]
mod edits;
#[path = "compare/histories.rs"]
mod histories;
#[path = "compare/layouts.rs"]
mod layouts;
#[path = "compare/old_books.rs"]
mod old_books;
#[path = "compare/pages.rs"]
mod pages;
#[path = "compare/panels.rs"]
mod panels;
#[path = "compare/scripts.rs"]
mod scripts;
#[path = "compare/signs.rs"]
mod signs;

/// Longer than every image and every page.
const LONG_BUFFER: usize = 90_000;

const SIZES: [usize; 17] = [0, 1, 2, 7, 8, 9, 15, 16, 17, 31, 32, 33, 127, 128, 129, 1023, 1024];

/// The sizes of two books that are merged.
const MERGED_SIZES: [usize; 11] = [0, 1, 7, 8, 9, 15, 16, 17, 512, 1023, 1024];

/// A destination for the bytes that a call needs: one short, exact, one long or any other length.
fn destination(random: &mut Random, needed: usize) -> Vec<u8> {
    let length = make::room(random, needed);
    random.bytes(length)
}

/// The bytes that a call of the second implementation writes, 0 where it refuses.
fn needed(call: impl FnOnce(&mut [u8]) -> calls::Written) -> usize {
    call(&mut vec![0; LONG_BUFFER]).map_or(0, |(_, bytes)| bytes)
}

/// A call into a destination that is one byte short, exact, and one byte long: it writes these
/// bytes, and tells how many entries are in them. Gives the last destination.
fn rooms(
    random: &mut Random,
    entries: usize,
    bytes: &[u8],
    mut call: impl FnMut(&[u8]) -> (Told, Vec<u8>),
) -> Vec<u8> {
    assert_eq!(call(&random.bytes(bytes.len() - 1)).0, (7, [0; 3]));
    let accepted = (0, [entries as u64, bytes.len() as u64, 0]);
    assert_eq!(call(&random.bytes(bytes.len())), (accepted, bytes.to_vec()));
    let (told, left) = call(&random.bytes(bytes.len() + 1));
    assert_eq!((told, &left[..bytes.len()]), (accepted, bytes));
    left
}

/// Every call that reads a book, once, on a buffer that may hold one.
fn ask(compare: &mut Compare, random: &mut Random, buffer: &[u8], held: &Entries) {
    let n = held.len();
    let name = make::asked(random, held);
    let score = make::score(random, Scores::Any);
    let dst = destination(random, needed(|d| calls::set(buffer, &name, score, d)));
    compare.set(buffer, &name, score, &dst);
    let dst = destination(random, needed(|d| calls::withdraw(buffer, &name, d)));
    compare.withdraw(buffer, &name, &dst);
    compare.check(buffer);
    compare.find(buffer, &name);
    compare.prefix_range(buffer, &name);
    let dst = destination(random, name.len() + 5);
    compare.name_of(buffer, &name, &dst);
    let position = make::number(random, n);
    let dst = destination(random, needed(|d| calls::name_at(buffer, position, d)));
    compare.name_at(buffer, position, &dst);
    compare.head(buffer, make::bucket(random, n));
    complete(compare, random, buffer, &name);
}

fn complete(compare: &mut Compare, random: &mut Random, buffer: &[u8], prefix: &[u8]) {
    let k = make::count(random);
    let dst = destination(random, 53 * k.min(20));
    let ranges = match random.below(3) {
        0 => k.min(20).saturating_sub(1),
        1 => k.min(20),
        _ => 20,
    };
    compare.complete(buffer, prefix, k, &dst, ranges);
}

/// The calls that write a whole book in another form.
fn rewrite(compare: &mut Compare, random: &mut Random, buffer: &[u8], held: &Entries) {
    let dst = destination(random, sheet::image(held).len());
    compare.list(buffer, &dst);
    let dst = destination(random, page::bytes(held).len());
    compare.page(buffer, &dst);
    let image = trie::image(held);
    let dst = destination(random, image.len());
    compare.write_trie(buffer, &dst);
    let dst = destination(random, Version::Buckets.image(held).len());
    compare.convert(buffer, &dst);
}

fn ask_trie(compare: &mut Compare, random: &mut Random, buffer: &[u8], held: &Entries) {
    let prefix = make::asked(random, held);
    let k = make::count(random);
    let dst = destination(random, 53 * k.min(20));
    compare.complete_trie(buffer, &prefix, k, &dst);
}

/// Books of every size, with names and scores of every kind: each call on them, with bytes behind
/// the image and without.
fn sizes(compare: &mut Compare, random: &mut Random, rounds: usize) {
    for n in SIZES {
        for names in NAMES {
            for scores in SCORES {
                let held = make::entries(random, n, names, scores);
                let sheet = sheet::image(&held);
                let image = book::image(&held);
                let dst = destination(random, image.len());
                compare.build(&sheet, &dst);
                let (told, dst) = compare.build(&sheet, &vec![0xEE; image.len()]);
                assert_eq!((told.0, &dst), (0, &image));
                let mut buffer = image.clone();
                let trie_image = trie::image(&held);
                for round in 0..rounds.min(1 + 8000 / (n + 1)) {
                    if round == 1 {
                        buffer.extend(random.bytes(9));
                    }
                    ask(compare, random, &buffer, &held);
                    ask_trie(compare, random, &trie_image, &held);
                }
                rewrite(compare, random, &buffer, &held);
                pages::page_of(compare, random, &buffer, &held);
                conversions::both_ways(compare, random, &held);
                let dst = random.bytes(20);
                compare.empty(&dst[..random.below(20)]);
            }
        }
    }
}

/// Images cut at every place, and with every byte changed.
fn every_place(compare: &mut Compare, random: &mut Random, values: usize) {
    for n in [0, 1, 2, 4, 8, 9, 16, 17] {
        let names = if random.chance(2) { Names::Signs } else { random.pick(&NAMES) };
        let held = make::entries(random, n, names, Scores::Few);
        for image in [book::image(&held), sheet::image(&held), trie::image(&held)] {
            for at in 0..image.len() {
                any_image(compare, random, &image[..at], &held);
                for _ in 0..values {
                    let mut bytes = image.clone();
                    bytes[at] = random.byte();
                    any_image(compare, random, &bytes, &held);
                }
                for step in [1, 255, 8, 16, 64, 128] {
                    let mut bytes = image.clone();
                    bytes[at] = bytes[at].wrapping_add(step);
                    any_image(compare, random, &bytes, &held);
                }
                let mut bytes = image.clone();
                bytes[at] = random.pick(&make::HALVES);
                any_image(compare, random, &bytes, &held);
            }
        }
    }
}

/// The check and one of the other calls on a buffer that may hold an image of any kind; the
/// converter, if it may hold a book of version 21.
fn any_image(compare: &mut Compare, random: &mut Random, buffer: &[u8], held: &Entries) {
    let name = make::some_name(random, held);
    let dst = vec![0x33; 2000];
    compare.check(buffer);
    match buffer.first() {
        Some(0x11) => {
            compare.build(buffer, &dst);
        }
        Some(0x21) => {
            compare.convert(buffer, &dst);
        }
        Some(0x31) => {
            let prefix = &name[..random.below(name.len() + 1)];
            compare.complete_trie(buffer, prefix, MOST_OFFERED, &dst);
        }
        _ => match random.below(13) {
            0 => {
                compare.set(buffer, &name, 5, &dst);
            }
            1 => {
                compare.withdraw(buffer, &name, &dst);
            }
            2 => compare.find(buffer, &name),
            3 => compare.name_at(buffer, random.below(held.len()), &dst),
            4 => compare.name_of(buffer, &name, &dst),
            5 => compare.prefix_range(buffer, &name[..random.below(name.len() + 1)]),
            6 => compare.head(buffer, make::bucket(random, held.len())),
            7 => {
                compare.list(buffer, &dst);
            }
            8 => {
                compare.merge(buffer, &book::image(held), &dst);
            }
            9 => {
                compare.merge(&book::image(held), buffer, &dst);
            }
            10 => {
                compare.page(buffer, &dst);
            }
            11 => {
                compare.convert(buffer, &dst);
            }
            _ => {
                compare.complete(buffer, b"", MOST_OFFERED, &dst, MOST_OFFERED);
                compare.write_trie(buffer, &dst);
            }
        },
    }
}

/// Images of every size with one or two changes.
fn damage(compare: &mut Compare, random: &mut Random, rounds: usize) {
    for _ in 0..rounds {
        let n = if random.chance(30) { random.pick(&[127, 1023, 1024]) } else { random.below(40) };
        let (names, scores) = (random.pick(&NAMES), random.pick(&SCORES));
        let held = make::entries(random, n, names, scores);
        let old = Version::Buckets.image(&held);
        let images = [book::image(&held), old, sheet::image(&held), trie::image(&held)];
        for image in &images {
            for _ in 0..12 {
                let mut bytes = make::damaged(random, image);
                if bytes.len() >= 7 && random.chance(4) {
                    bytes = make::damaged(random, &bytes);
                }
                any_image(compare, random, &bytes, &held);
            }
        }
        wrong_signs(compare, random, &held);
    }
}

/// Images that are laid out right but for a name in them, and a book with a record that keeps more
/// or less of the name before, often up to the inside of a sign.
fn wrong_signs(compare: &mut Compare, random: &mut Random, held: &Entries) {
    let wrong = make::with_a_wrong_name(random, held);
    for image in [sheet::image(&wrong), trie::image(&wrong)] {
        any_image(compare, random, &image, held);
    }
    for version in [Version::Buckets, Version::NoBuckets] {
        any_image(compare, random, &version.image(&wrong), held);
        let buffer = make::respelled(random, version, held);
        any_image(compare, random, &buffer, held);
    }
}

/// Buffers of any bytes, with a front that looks like an image's.
fn noise(compare: &mut Compare, random: &mut Random, rounds: usize) {
    for _ in 0..rounds {
        let length = random.below(80);
        let mut bytes = random.bytes(length);
        if bytes.len() >= 7 && !random.chance(10) {
            let total = if random.chance(3) { random.below(90) } else { length } as u32;
            bytes[0] = random.pick(&[0x22, 0x22, 0x11, 0x31, 0x21, 0x21]);
            bytes[1..5].copy_from_slice(&total.to_be_bytes());
            bytes[5] = 0;
            bytes[6] = random.below(4) as u8;
            for byte in &mut bytes[7..] {
                *byte = random.pick(&[0, 0, 1, 2, 8, 9, 0x19, 0x41, 0x4A, 0x61, 0xC2, 0xB5, *byte]);
            }
        }
        any_image(compare, random, &bytes, &Entries::new());
    }
}

/// The lists that a book and its trie offer are the same, the best of the entries held.
fn lists(compare: &mut Compare, random: &mut Random, book: &[u8], held: &Entries) {
    let (told, trie) = compare.write_trie(book, &vec![0; LONG_BUFFER]);
    assert_eq!(told.0, 0);
    for _ in 0..4 {
        let name = make::some_name(random, held);
        let prefix = &make::beginning(random, &name)[..];
        let k = random.between(1, MOST_OFFERED);
        let dst = vec![0; 53 * k];
        let (a, from_book) = compare.complete(book, prefix, k, &dst, k);
        let (b, from_trie) = compare.complete_trie(&trie, prefix, k, &dst);
        let (offered, best) = calls::completion(held, prefix, k);
        assert!(a.1[0] == offered as u64 && from_book.starts_with(&best), "the best list");
        assert_eq!((a.0, &a.1[..2], from_book), (b.0, &b.1[..2], from_trie), "book and trie");
    }
}

/// How many names two books may share: none, half of the smaller book's, all of them, and what
/// makes 1,024 and 1,025 names in all.
fn shares([a, b]: [usize; 2]) -> BTreeSet<usize> {
    let fewer = a.min(b);
    [
        0,
        fewer / 2,
        fewer,
        (a + b).saturating_sub(MOST_ENTRIES),
        (a + b).saturating_sub(MOST_ENTRIES + 1),
    ]
    .into()
}

/// Books of every two sizes merged, the small ones with names of every kind.
fn merges(compare: &mut Compare, random: &mut Random) {
    for sizes in MERGED_SIZES.iter().flat_map(|&a| MERGED_SIZES.map(|b| [a, b])) {
        for shared in shares(sizes) {
            let kinds = if sizes[0].max(sizes[1]) < 100 {
                NAMES.to_vec()
            } else {
                vec![random.pick(&NAMES)]
            };
            for names in kinds {
                let (places, scores) = (random.pick(&PLACES), random.pick(&SCORES));
                let pair = make::pair(random, sizes, shared, places, names, scores);
                merge(compare, random, &pair);
            }
        }
    }
}

/// Two books merged into a destination that is one byte short, exact, and one byte long; and the
/// lists that the merged book offers. Each book may have bytes behind it.
fn merge(compare: &mut Compare, random: &mut Random, [first, second]: &[Entries; 2]) {
    let mut joined = second.clone();
    joined.extend(first.clone());
    let [first, second] = [first, second].map(|held| {
        let behind = random.pick(&[0, 0, 9]);
        [book::image(held), random.bytes(behind)].concat()
    });
    if joined.len() > MOST_ENTRIES {
        for room in [0, LONG_BUFFER] {
            assert_eq!(compare.merge(&first, &second, &random.bytes(room)).0, (5, [0; 3]));
        }
        return;
    }
    let image = book::image(&joined);
    let left = rooms(random, joined.len(), &image, |dst| compare.merge(&first, &second, dst));
    lists(compare, random, &left, &joined);
}

/// Merges of which one book or both are damaged.
fn damaged_merges(compare: &mut Compare, random: &mut Random, rounds: usize) {
    for _ in 0..rounds {
        let most = if random.chance(40) { MOST_ENTRIES } else { 20 };
        let sizes = [random.below(most + 1), random.below(most + 1)];
        let shared = random.below(sizes[0].min(sizes[1]) + 1);
        let (places, names, scores) =
            (random.pick(&PLACES), random.pick(&NAMES), random.pick(&SCORES));
        let [a, b] =
            make::pair(random, sizes, shared, places, names, scores).map(|held| book::image(&held));
        let needed = needed(|d| calls::merge(&a, &b, d));
        for _ in 0..4 {
            let (c, d) = (make::damaged(random, &a), make::damaged(random, &b));
            for (first, second) in [(&c, &b), (&a, &d), (&c, &d)] {
                compare.merge(first, second, &destination(random, needed));
            }
        }
    }
}

fn bytes(hex: &str) -> Vec<u8> {
    hex.split_whitespace().map(|b| u8::from_str_radix(b, 16).unwrap()).collect()
}

fn entries(of: &[(&str, u32)]) -> Entries {
    of.iter().map(|(name, score)| (name.as_bytes().to_vec(), *score)).collect()
}

/// The cases that the document works out, made by the calls themselves.
fn worked(compare: &mut Compare) {
    let (told, mut book) = compare.empty(&[0xEE; 200]);
    assert_eq!((told, &book[..7]), ((0, [0, 7, 0]), &bytes("22 00 00 00 07 00 00")[..]));
    for (name, score) in [("rc step", 9), ("rl", 12), ("ac", 5), ("rc", 9)] {
        book = compare.set(&book, name.as_bytes(), score, &[0xEE; 200]).1;
    }
    let p3 = "22 00 00 00 2B 00 04 00 00 00 05 00 00 00 09 00 00 00 09 00 00 00 0C 00 03 \
              00 02 61 63 00 02 72 63 02 05 20 73 74 65 70 01 01 6C";
    assert_eq!(book[..43], bytes(p3));
    let (told, trie) = compare.write_trie(&book, &[0xEE; 28]);
    assert_eq!(told, (0, [4, 28, 0]));
    assert_eq!(
        trie,
        bytes(
            "31 00 00 00 1C 00 04 51 0C 08 72 4A 07 61 63 01 6C 59 03 06 63 00 0D 20 73 74 65 70"
        )
    );
    for (prefix, k, offered, looks) in [("r", 2, 2, 2), ("rc", 5, 2, 2), ("q", 3, 0, 0)] {
        let (told, list) = compare.complete(&book, prefix.as_bytes(), k, &vec![0; 53 * k], k);
        assert_eq!((told.0, told.1[0], told.1[2]), (0, offered, looks));
        let (told, same) = compare.complete_trie(&trie, prefix.as_bytes(), k, &vec![0; 53 * k]);
        assert_eq!((told.0, told.1[0], told.1[2], same), (0, offered, 0, list));
    }
    let three: Entries = [(b"a".to_vec(), 1), (b"b".to_vec(), 9), (b"c".to_vec(), 1)].into();
    assert_eq!(compare.complete(&book::image(&three), b"", 2, &[0; 106], 2).0 .1[2], 3);
    let mut ten: Entries = (b'1'..=b'8').map(|digit| (vec![digit], 0)).collect();
    ten.insert(vec![b'x'; 47], 0);
    ten.insert(vec![b'x'; 48], 0);
    let book = book::image(&ten);
    assert_eq!(book.len(), 125);
    assert_eq!(compare.withdraw(&book, b"1", &[0; 117]).0, (7, [0; 3]));
    assert_eq!(compare.withdraw(&book, b"1", &[0; 118]).0, (0, [9, 118, 0]));
    assert_eq!(compare.withdraw(&book, b"1", &[0; 125]).0, (0, [9, 118, 0]));
    assert_eq!(compare.set(&book, &[b'y'; 48], 1, &[0; 400]).0 .0, 0);
    assert_eq!(compare.set(&book, &[b'y'; 49], 1, &[0; 400]).0 .0, 2);
}

/// Two books merged, by bytes: a shared name has the first book's score, whichever book that is,
/// and the peak goes by it.
fn worked_merges(compare: &mut Compare) {
    let one = book::image(&[(b"rc".to_vec(), 9)].into());
    let two = book::image(&[(b"rc".to_vec(), 20), (b"rl".to_vec(), 12)].into());
    let merged = "22 00 00 00 18 00 02 00 00 00 09 00 00 00 0C 00 01 00 02 72 63 01 01 6C";
    assert_eq!(compare.merge(&one, &two, &[0; 24]), ((0, [2, 24, 0]), bytes(merged)));
    let merged = "22 00 00 00 18 00 02 00 00 00 14 00 00 00 0C 00 00 00 02 72 63 01 01 6C";
    assert_eq!(compare.merge(&two, &one, &[0; 24]), ((0, [2, 24, 0]), bytes(merged)));
    assert_eq!(compare.merge(&one, &two, &[0; 23]), ((7, [0; 3]), vec![0; 23]));
    // A book and itself, lent as the same bytes.
    let mut dst = [0; 24];
    assert_eq!((ours::merge(&two, &two, &mut dst), &dst[..]), ((0, [2, 24, 0]), &two[..]));
}

/// A history's run by bytes, refusals included, on buffers of 30 bytes each.
fn worked_run(compare: &mut Compare) {
    let script =
        "00 00 00 00 09 00 02 72 63  00 00 00 00 0C 00 02 72 6C  01 FF FF FF FF 00 02 7A 7A \
                  00 00 00 00 00 00 00  00 00 00 00 01 00 07 72 63 20 73 74 65 70 \
                  01 00 00 00 00 00 02 72 6C";
    let answers =
        "00 00 01 00 00 00 11  00 00 02 00 00 00 18  04 00 00 00 00 00 00  02 00 00 00 00 00 00 \
                   07 00 00 00 00 00 00  00 00 01 00 00 00 11";
    let both =
        "22 00 00 00 18 00 02 00 00 00 09 00 00 00 0C 00 01 00 02 72 63 01 01 6C EE EE EE EE EE EE";
    let one =
        "22 00 00 00 11 00 01 00 00 00 09 00 00 00 02 72 63 EE EE EE EE EE EE EE EE EE EE EE EE EE";
    let (told, left) = compare.run(&bytes(script), [&[0xEE; 30], &[0xEE; 30], &[0; 42]]);
    assert_eq!((told, left), ((0, [6, 1, 0]), [both, one, answers].map(bytes)));
    assert_eq!(
        (ours::check(&bytes(both)), ours::check(&bytes(one)[1..])),
        ((0, [2, 24, 0]), (1, [0; 3]))
    );
}

/// One round of everything.
fn round(compare: &mut Compare, seed: u64) {
    let mut random = Random::new(seed);
    worked(compare);
    worked_merges(compare);
    worked_run(compare);
    panels::worked(compare);
    signs::worked(compare);
    counts::worked(compare);
    pages::worked(compare);
    old_books::worked(compare);
    conversions::worked(compare);
    layouts::worked(compare);
    sizes(compare, &mut random, 40);
    every_place(compare, &mut random, 6);
    damage(compare, &mut random, 600);
    noise(compare, &mut random, 40_000);
    for buffer in 0..12 {
        histories::history(compare, &mut random, buffer, 20, Names::Short);
    }
    for _ in 0..120 {
        let (buffer, names) = (random.between(7, 900), random.pick(&NAMES));
        histories::history(compare, &mut random, buffer, 150, names);
    }
    for names in [Names::Mixed, Names::Units, Names::Any] {
        histories::history(compare, &mut random, 57_344, 1800, names);
    }
    let books = [Names::Mixed, Names::Units, Names::Any].map(|names| (57_344, names));
    for (length, names) in books.into_iter().chain([(20_000, Names::Any)]) {
        histories::long_history(compare, &mut random, length, 20_000, names);
    }
    for (length, names) in [7, 17, 24, 118, 130, 300, 900, 3000]
        .into_iter()
        .flat_map(|length| NAMES.map(|names| (length, names)))
    {
        histories::long_history(compare, &mut random, length, 10_000, names);
    }
    scripts::hostile_scripts(compare, &mut random, 40);
    scripts::hostile_calls(compare, &mut random);
    scripts::hostile_buffers(compare, &mut random);
    scripts::noise(compare, &mut random, 20_000);
    panels::keys(compare, &mut random, 600);
    panels::every_key(compare, &mut random, 60);
    merges(compare, &mut random);
    damaged_merges(compare, &mut random, 300);
    counts::books(compare, &mut random);
    pages::books(compare, &mut random);
    old_books::books(compare, &mut random, 60);
    conversions::every_prefix(compare, &mut random);
    conversions::every_place(compare, &mut random);
    conversions::damage(compare, &mut random, 300);
    layouts::records(compare, &mut random);
    layouts::peaks(compare, &mut random);
    edits::small_books(compare, &mut random);
    edits::neighbours(compare, &mut random, 12);
    edits::withdrawals(compare, &mut random);
    edits::kin(compare, &mut random, 30);
}

fn main() {
    let rounds = if std::env::var_os("LONG").is_some() { 500 } else { 1 };
    let seed = std::env::var("SEED").map_or(1, |seed| seed.parse().expect("SEED is a number"));
    let mut compare = Compare::default();
    for i in 0..rounds {
        round(&mut compare, seed + i);
        println!("seed {}: {} cases agree so far", seed + i, compare.cases());
    }
    compare.report();
    println!("calls: {} cases, all agree with the second implementation", compare.cases());
}
