//! How many entries are asked for: nine, ten and as many as were allowed before (02, request d),
//! with just the room that they want and with less.
use super::*;

pub fn worked(compare: &mut Compare) {
    let held = make::nineteen();
    let (book, trie) = (book::image(&held), trie::image(&held));
    let (room, ten) = ([0xEE; 53 * 9], [0xEE; 53 * 10]);
    let (told, list) = compare.complete(&book, b"", 9, &room, 9);
    assert_eq!(told, (0, [9, 54, 17]));
    assert_eq!(compare.complete_trie(&trie, b"", 9, &room), ((0, [9, 54, 0]), list));
    for k in 1..=9 {
        let (told, _) = compare.complete(&book, b"", k, &room, 9);
        assert_eq!(told, (0, [k, 6 * k, 2 * k - 1].map(|n| n as u64)));
    }
    assert_eq!(compare.complete(&book, b"", 9, &room[1..], 9).0 .0, 7);
    assert_eq!(compare.complete(&book, b"", 9, &room, 8).0 .0, 7);
    assert_eq!(compare.complete_trie(&trie, b"", 9, &room[1..]).0 .0, 7);
    for (room, ranges) in [(&ten[..], 10), (&ten[1..], 10), (&ten, 9), (&room, 9), (&[], 0)] {
        assert_eq!(compare.complete(&book, b"", 10, room, ranges).0 .0, 3);
        assert_eq!(compare.complete_trie(&trie, b"", 10, room).0 .0, 3);
    }
    // The panel asks for five.
    let mut panel = label_book::Panel::default();
    assert_eq!(compare.press(&book, &mut panel, label_book::key::RECOUNT), (0, [5, 0, 0]));
}

/// Books and tries of sizes around the limit, with names and scores of every kind, and full ones,
/// asked for every count.
pub fn books(compare: &mut Compare, random: &mut Random) {
    for n in [0, 1, 8, 9, 10, 11, 19, 40] {
        for (names, scores) in NAMES.iter().flat_map(|&names| SCORES.map(|scores| (names, scores)))
        {
            every_count(compare, random, n, names, scores);
        }
    }
    for scores in SCORES {
        let names = random.pick(&NAMES);
        every_count(compare, random, MOST_ENTRIES, names, scores);
    }
}

/// Every count up to one more than the limit before, for all names and for the start of one.
fn every_count(compare: &mut Compare, random: &mut Random, n: usize, names: Names, scores: Scores) {
    let held = make::entries(random, n, names, scores);
    let name = make::some_name(random, &held);
    let start = make::beginning(random, &name);
    for k in 0..=MOST_BEFORE + 1 {
        counted(compare, &held, b"", k);
        counted(compare, &held, &start, k);
    }
}

/// A completion from a book and from its trie, with just the bytes and ranges that it wants, and
/// with one less of either.
fn counted(compare: &mut Compare, held: &Entries, prefix: &[u8], k: usize) {
    let (book, trie) = (book::image(held), trie::image(held));
    let room = vec![0xEE; 53 * k];
    let (exact, short) = match k {
        1..=MOST_OFFERED => (0, 7),
        _ => (3, 3),
    };
    let one_less = (&room[..room.len().saturating_sub(1)], k.saturating_sub(1));
    assert_eq!(compare.complete(&book, prefix, k, &room, k).0 .0, exact);
    assert_eq!(compare.complete(&book, prefix, k, one_less.0, k).0 .0, short);
    assert_eq!(compare.complete(&book, prefix, k, &room, one_less.1).0 .0, short);
    assert_eq!(compare.complete_trie(&trie, prefix, k, &room).0 .0, exact);
    assert_eq!(compare.complete_trie(&trie, prefix, k, one_less.0).0 .0, short);
}
