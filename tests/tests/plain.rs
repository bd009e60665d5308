//! The calls that the benchmark compares with answer as the second implementation does.
use label_book_tests::make::{self, Names, Scores, NAMES, PLACES, SCORES};
use label_book_tests::random::Random;
use label_book_tests::reference::book::Version;
use label_book_tests::reference::{book, calls, page, sheet, trie, Entries, MOST_OFFERED};
use label_book_tests::{plain, reference};

/// Longer than every image and every page.
const LONG_BUFFER: usize = 90_000;

/// Both calls on destinations with the same bytes: the same answer, the same bytes left.
fn same<A: PartialEq + std::fmt::Debug>(
    dst: &[u8],
    one: impl FnOnce(&mut [u8]) -> A,
    other: impl FnOnce(&mut [u8]) -> A,
) {
    let (mut a, mut b) = (dst.to_vec(), dst.to_vec());
    assert_eq!((one(&mut a), &a), (other(&mut b), &b));
}

fn ask(random: &mut Random, buffer: &[u8], sheet: &[u8], held: &Entries) {
    let name = make::asked(random, held);
    let prefix = &name[..random.below(name.len() + 1)];
    let (position, bucket, k) =
        (make::number(random, held.len()), make::bucket(random, held.len()), make::count(random));
    let whole = random.bytes(LONG_BUFFER);
    let dst = &whole[..make::room(random, book::image(held).len())];
    let lines = &whole[..make::room(random, page::bytes(held).len())];
    let short = &whole[..make::room(random, 53)];
    let answer = &whole[..make::room(random, 53 * k.min(MOST_OFFERED + 1))];
    let ranges = random.pick(&[MOST_OFFERED - 1, MOST_OFFERED]);
    same(dst, plain::empty, calls::empty);
    same(dst, |d| plain::set(buffer, &name, 9, d), |d| calls::set(buffer, &name, 9, d));
    same(dst, |d| plain::withdraw(buffer, &name, d), |d| calls::withdraw(buffer, &name, d));
    same(dst, |d| plain::list(buffer, d), |d| calls::list(buffer, d));
    same(dst, |d| plain::build(sheet, d), |d| calls::build(sheet, d));
    same(lines, |d| plain::page(buffer, d), |d| calls::page(buffer, d));
    same(dst, |d| plain::convert(buffer, d), |d| calls::convert(buffer, d));
    same(short, |d| plain::name_at(buffer, position, d), |d| calls::name_at(buffer, position, d));
    same(short, |d| plain::name_of(buffer, &name, d), |d| calls::name_of(buffer, &name, d));
    same(
        answer,
        |d| plain::complete(buffer, prefix, k, d, ranges),
        |d| calls::complete(buffer, prefix, k, d, ranges),
    );
    same(&whole, |d| plain::write_trie(buffer, d), |d| calls::write_trie(buffer, d));
    for _ in 0..8 {
        let mut panel = make::panel(random, held);
        let key = make::key(random, held, panel.typed());
        let mut other = panel.clone();
        assert_eq!(
            (plain::press(buffer, &mut panel, key), &panel),
            (reference::panel::press(buffer, &mut other, key), &other)
        );
    }
    assert_eq!(plain::find(buffer, &name), calls::find(buffer, &name));
    assert_eq!(plain::prefix_range(buffer, prefix), calls::prefix_range(buffer, prefix));
    assert_eq!(plain::head(buffer, bucket), calls::head(buffer, bucket));
}

/// Tries of all kinds of damage, and prefixes of every kind.
fn ask_trie(random: &mut Random, image: &[u8], held: &Entries) {
    for _ in 0..30 {
        let name = make::asked(random, held);
        let (prefix, k) = (&name[..random.below(name.len() + 1)], make::count(random));
        let dst = random.bytes(53 * k.min(MOST_OFFERED + 1));
        let buffer = if random.chance(3) { image.to_vec() } else { make::damaged(random, image) };
        same(
            &dst,
            |d| plain::complete_trie(&buffer, prefix, k, d),
            |d| calls::complete_trie(&buffer, prefix, k, d),
        );
    }
}

/// Pairs of books, one or both damaged or none, into a destination of about the bytes needed.
fn ask_merge(random: &mut Random, sizes: [usize; 2], shared: usize, names: Names) {
    let (places, scores) = (random.pick(&PLACES), random.pick(&SCORES));
    let pair = make::pair(random, sizes, shared, places, names, scores);
    let old = pair.each_ref().map(|held| Version::Buckets.image(held));
    let images = pair.map(|held| book::image(&held));
    let whole = random.bytes(LONG_BUFFER);
    let needed =
        calls::merge(&images[0], &images[1], &mut whole.clone()).map_or(60_000, |(_, bytes)| bytes);
    for [first, second] in [[&images[0], &old[1]], [&old[0], &images[1]], [&old[0], &old[1]]] {
        let first = if random.chance(2) { first } else { &make::damaged(random, first) };
        same(&whole, |d| plain::merge(first, second, d), |d| calls::merge(first, second, d));
    }
    for damaged in [[false, false], [true, false], [false, true], [true, true]] {
        let dst = &whole[..make::room(random, needed)];
        let [first, second] = [0, 1].map(|i| {
            if damaged[i] {
                make::damaged(random, &images[i])
            } else {
                images[i].clone()
            }
        });
        same(dst, |d| plain::merge(&first, &second, d), |d| calls::merge(&first, &second, d));
    }
}

#[test]
fn plain_merges_agree() {
    let mut random = Random::new(11);
    let sizes = [0, 1, 7, 8, 9, 16, 17, 40];
    for names in NAMES {
        for [a, b] in sizes.iter().flat_map(|&a| sizes.map(|b| [a, b])) {
            let shared = random.below(a.min(b) + 1);
            ask_merge(&mut random, [a, b], shared, names);
        }
        // 1,024 names in all and 1,025.
        for (sizes, shared) in [
            ([1023, 1], 0),
            ([1, 1024], 0),
            ([600, 600], 176),
            ([600, 600], 175),
            ([1024, 1024], 1024),
        ] {
            ask_merge(&mut random, sizes, shared, names);
        }
    }
}

/// A book of a version, with the other byte 0 too, into a destination of about the bytes needed.
fn ask_convert(random: &mut Random, book: &[u8], needed: usize) {
    let mut buffer = book.to_vec();
    let other = Version::of(book).map_or(0, |version| version.other() as u8);
    for first in [book.first().copied(), Some(other)].into_iter().flatten() {
        buffer.iter_mut().take(1).for_each(|byte| *byte = first);
        let length = make::room(random, needed);
        let dst = random.bytes(length);
        same(&dst, |d| plain::convert(&buffer, d), |d| calls::convert(&buffer, d));
    }
}

/// Books of both versions: whole, cut and changed at every place, damaged, with a wrong name.
#[test]
fn plain_conversions_agree() {
    let mut random = Random::new(13);
    let sizes = [0, 1, 2, 7, 8, 9, 15, 16, 17, 25, 33, 128, 1023, 1024];
    for (n, names) in sizes.iter().flat_map(|&n| NAMES.map(|names| (n, names))) {
        let scores = random.pick(&SCORES);
        let held = make::entries(&mut random, n, names, scores);
        for version in [Version::Buckets, Version::NoBuckets] {
            let (image, needed) = (version.image(&held), version.other().image(&held).len());
            ask_convert(&mut random, &image, needed);
            for at in (0..image.len()).step_by(1 + image.len() / 400) {
                ask_convert(&mut random, &image[..at], needed);
                let mut changed = image.clone();
                changed[at] = changed[at].wrapping_add(random.pick(&[1, 255, 8, 128]));
                ask_convert(&mut random, &changed, needed);
            }
            for _ in 0..20 {
                let damaged = make::damaged(&mut random, &image);
                ask_convert(&mut random, &damaged, needed);
                let respelled = make::respelled(&mut random, version, &held);
                ask_convert(&mut random, &respelled, needed);
            }
            let wrong = make::with_a_wrong_name(&mut random, &held);
            ask_convert(&mut random, &version.image(&wrong), needed);
        }
    }
}

#[test]
fn plain_calls_agree() {
    let mut random = Random::new(7);
    for n in [0, 1, 7, 8, 9, 16, 17, 40, 128, 129] {
        for names in NAMES {
            for scores in SCORES {
                let held = make::entries(&mut random, n, names, scores);
                let (image, sheet) = (book::image(&held), sheet::image(&held));
                ask_trie(&mut random, &trie::image(&held), &held);
                let old = Version::Buckets.image(&held);
                ask(&mut random, &old, &sheet, &held);
                ask(&mut random, &old[..1], &sheet, &held);
                let changed = make::damaged(&mut random, &old);
                ask(&mut random, &changed, &sheet, &held);
                let changed = make::respelled(&mut random, Version::NoBuckets, &held);
                ask(&mut random, &changed, &sheet, &held);
                for _ in 0..8 {
                    ask(&mut random, &image, &sheet, &held);
                    let (buffer, paper) =
                        (make::damaged(&mut random, &image), make::damaged(&mut random, &sheet));
                    ask(&mut random, &buffer, &paper, &held);
                }
            }
        }
    }
    for names in [Names::Mixed, Names::Lines] {
        let full = make::entries(&mut random, reference::MOST_ENTRIES, names, Scores::Any);
        ask(&mut random, &book::image(&full), &sheet::image(&full), &full);
        ask_trie(&mut random, &trie::image(&full), &full);
    }
}
