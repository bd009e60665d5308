//! Pages for the wall (02, request e): by bytes, of names that end where a line ends or just behind
//! it, and of what is no book.
use super::*;
use label_book_tests::reference::page::{self, COLUMNS, LINE};
use label_book_tests::reference::text;

pub fn worked(compare: &mut Compare) {
    let empty = book::image(&Entries::new());
    let heading = format!("NAME{}SCORE\n", " ".repeat(31)).into_bytes();
    assert_eq!(compare.page(&empty, &[0xEE; 41]), ((0, [0, 41, 0]), heading.clone()));
    assert_eq!(compare.page(&empty, &[0xEE; 40]), ((7, [0; 3]), vec![0xEE; 40]));
    let e = entries(&[("ac", 5), ("rc", 9), ("rc step", 9), ("rl", 12)]);
    let below = [
        "rl                                    12\n",
        "rc                                     9\n",
        "rc step                                9\n",
        "ac                                     5\n",
    ];
    let page = [heading, below.concat().into_bytes(), vec![0xEE; 3]].concat();
    assert_eq!(compare.page(&book::image(&e), &[0xEE; 208]), ((0, [4, 205, 0]), page));
    // The most bytes: two lines for each of 1,024 names.
    for (length, bytes) in [(28, 42_025), (29, 84_009), (48, 84_009)] {
        let full: Entries = make::numbers(1024, length).zip((0..7).cycle()).collect();
        let (image, room) = (book::image(&full), vec![0xEE; bytes]);
        assert_eq!(compare.page(&image, &room).0, (0, [1024, bytes as u64, 0]));
        assert_eq!(compare.page(&image, &room[1..]).0, (7, [0; 3]));
    }
}

/// The page of a book, which is that of the entries held.
pub fn page_of(compare: &mut Compare, random: &mut Random, book: &[u8], held: &Entries) {
    rooms(random, held.len(), &page::bytes(held), |dst| compare.page(book, dst));
}

/// Books of names that fill a line, go on behind it or have a sign across its end, of each in good
/// number. Then what is left of them: cut at every place, and with every byte changed.
pub fn books(compare: &mut Compare, random: &mut Random) {
    let (mut one_line, mut one_byte_more, mut split) = (0, 0, 0);
    // The library has a small table for up to 128 names.
    for (n, scores) in (1..=24).chain([128, 129]).flat_map(|n| SCORES.map(|s| (n, s))) {
        let held = make::entries(random, n, Names::Lines, scores);
        page_of(compare, random, &book::image(&held), &held);
        let count = |test: fn(&[u8]) -> bool| held.keys().filter(|name| test(name)).count();
        one_line += count(|name| name.len() == COLUMNS);
        one_byte_more += count(|name| name.len() == COLUMNS + 1);
        split += count(|name| name.get(..COLUMNS).is_some_and(|line| text(line).is_none()));
    }
    let counts = [one_line, one_byte_more, split];
    assert!(counts.iter().all(|count| *count > 100), "{counts:?}");
    for n in [0, 1, 2, 9] {
        let held = make::entries(random, n, Names::Lines, Scores::Digits);
        left_of(compare, random, &held);
    }
}

/// A book that is cut is none, whatever the room; with a byte changed it may be one.
fn left_of(compare: &mut Compare, random: &mut Random, held: &Entries) {
    let (image, page) = (book::image(held), page::bytes(held));
    for at in 0..image.len() {
        for room in [0, page.len() - 1, page.len()] {
            let dst = random.bytes(room);
            assert_eq!(compare.page(&image[..at], &dst), ((1, [0; 3]), dst));
        }
        for byte in [1, 255, 8, 128, random.byte()].map(|step| image[at].wrapping_add(step)) {
            let mut bytes = image.clone();
            bytes[at] = byte;
            let room = random.pick(&[page.len() - 1, page.len(), page.len() + LINE + 1]);
            compare.page(&bytes, &random.bytes(room));
        }
    }
}
