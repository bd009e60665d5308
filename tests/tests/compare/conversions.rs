//! Books moved up to version 22 and back to 21 (02, request g): by bytes, into room that is just
//! enough, there and back; what they offer then; and what is laid out as neither.
use super::*;
use label_book_tests::reference::book::Version::{Buckets, NoBuckets};
use label_book_tests::reference::is_prefix;

const NO_BOOK: Told = (1, [0; 3]);

/// A book of version 21 and the same of version 22, by bytes.
const BOTH: [(&str, &str, usize); 3] = [
    ("21 00 00 00 07 00 00", "22 00 00 00 07 00 00", 0),
    (
        "21 00 00 00 2C 00 04 00 00 00 05 00 00 00 09 00 00 00 09 00 00 00 0C 00 1B 00 03 \
         02 61 63 00 02 72 63 02 05 20 73 74 65 70 01 01 6C",
        "22 00 00 00 2B 00 04 00 00 00 05 00 00 00 09 00 00 00 09 00 00 00 0C 00 03 \
         00 02 61 63 00 02 72 63 02 05 20 73 74 65 70 01 01 6C",
        4,
    ),
    (
        "21 00 00 00 1A 00 02 00 00 00 01 00 00 00 09 00 13 00 01 02 C2 B5 02 02 CE A9",
        "22 00 00 00 19 00 02 00 00 00 01 00 00 00 09 00 01 00 02 C2 B5 02 02 CE A9",
        2,
    ),
];

pub fn worked(compare: &mut Compare) {
    let random = &mut Random::new(0);
    for (old, new, n) in BOTH.map(|(old, new, n)| (bytes(old), bytes(new), n)) {
        rooms(random, n, &new, |dst| compare.convert(&old, dst));
        rooms(random, n, &old, |dst| compare.convert(&new, dst));
        by_byte_0(compare, &old, &new);
    }
    // P9 and P10: without the first name, going back needs more than the book of ten names.
    let mut ten: Entries = (b'1'..=b'8').map(|digit| (vec![digit], 0)).collect();
    ten.extend([(vec![b'x'; 47], 0), (vec![b'x'; 48], 0)]);
    let mut nine = ten.clone();
    nine.remove(&b"1"[..]);
    for (held, old_length, new_length) in [(&ten, 127, 125), (&nine, 167, 118)] {
        let [old, new] = [Buckets, NoBuckets].map(|version| version.image(held));
        assert_eq!([old.len(), new.len()], [old_length, new_length]);
        both_ways(compare, random, held);
    }
    assert_eq!(compare.convert(&NoBuckets.image(&nine), &[0; 127]).0, (7, [0; 3]));
    // 1,024 names that share most of their bytes: going back, every head gets them again.
    both_ways(compare, random, &make::numbers(MOST_ENTRIES, 48).zip(0..).collect());
}

/// Every byte 0, in front of what is laid out as 21 or 22 says, and alone.
fn by_byte_0(compare: &mut Compare, old: &[u8], new: &[u8]) {
    for room in [0, 100] {
        let dst = vec![0xEE; room];
        assert_eq!(compare.convert(&[], &dst), (NO_BOOK, dst.clone()));
        for (image, byte) in [old, new].into_iter().flat_map(|i| (0..=u8::MAX).map(move |b| (i, b)))
        {
            assert_eq!(compare.convert(&[byte], &dst), (NO_BOOK, dst.clone()));
            if byte != image[0] && image.len() > 7 {
                let other = [&[byte], &image[1..]].concat();
                assert_eq!(compare.convert(&other, &dst), (NO_BOOK, dst.clone()));
            }
        }
    }
}

/// The book of entries moved up and back, into a destination that is one byte short, exact, and one
/// byte long, and from there to where it came from. It may have bytes behind it. What it offers
/// when it was moved up is what it held before.
pub fn both_ways(compare: &mut Compare, random: &mut Random, held: &Entries) {
    let [old, new] = [Buckets, NoBuckets].map(|version| version.image(held));
    for (from, to) in [(&old, &new), (&new, &old)] {
        let behind = random.pick(&[0, 0, 1, 9]);
        let lent = [from.clone(), random.bytes(behind)].concat();
        let left = rooms(random, held.len(), to, |dst| compare.convert(&lent, dst));
        let left = rooms(random, held.len(), from, |dst| compare.convert(&left, dst));
        assert!(left.starts_with(from), "there and back");
    }
    let (_, up) = compare.convert(&old, &random.bytes(new.len()));
    let before = Buckets.read(&old).expect("a book of version 21");
    lists(compare, random, &up, &before);
}

/// The book in a buffer moved back to version 21, and up again into the same buffer: it has the
/// same bytes then. Gives the buffer.
pub fn there_and_back(
    compare: &mut Compare,
    random: &mut Random,
    buffer: &[u8],
    held: &Entries,
) -> Vec<u8> {
    let (old, bytes) = (Buckets.image(held), NoBuckets.image(held).len());
    let back = rooms(random, held.len(), &old, |dst| compare.convert(buffer, dst));
    let free = [&random.bytes(bytes), &buffer[bytes..]].concat();
    let (told, up) = compare.convert(&back, &free);
    assert_eq!(told, (0, [held.len() as u64, bytes as u64, 0]));
    assert!(up == buffer, "the same bytes again");
    up
}

/// What a book that was moved up offers for every beginning of its names, and for what is close to
/// them: what the second implementation offers for the book of version 21.
pub fn every_prefix(compare: &mut Compare, random: &mut Random) {
    for (n, names) in [0, 1, 7, 8, 9, 17, 33].iter().flat_map(|&n| NAMES.map(|names| (n, names))) {
        let scores = random.pick(&SCORES);
        let old = Buckets.image(&make::entries(random, n, names, scores));
        let before = Buckets.read(&old).expect("a book of version 21");
        let (_, up) = compare.convert(&old, &random.bytes(2000));
        let mut prefixes: BTreeSet<Vec<u8>> = [vec![], b"q".to_vec(), b"~~".to_vec()].into();
        for name in before.keys() {
            let starts = (0..=name.len()).map(|end| name[..end].to_vec());
            prefixes.extend(starts.filter(|start| is_prefix(start)));
            prefixes.insert(make::asked(random, &before));
        }
        for prefix in prefixes.iter().filter(|prefix| is_prefix(prefix)) {
            let k = random.between(1, MOST_OFFERED);
            let (told, list) = compare.complete(&up, prefix, k, &vec![0; 53 * k], k);
            let (offered, best) = calls::completion(&before, prefix, k);
            assert_eq!((told.0, told.1[0]), (0, offered as u64));
            assert!(list.starts_with(&best), "the best list");
        }
    }
}

/// Books of both versions cut at every place, with every byte changed, and with the other byte 0 in
/// front of what is left. A book that is cut is none, whatever the room.
pub fn every_place(compare: &mut Compare, random: &mut Random) {
    for (n, version) in
        [0, 1, 2, 8, 9, 16, 17, 25].iter().flat_map(|&n| [Buckets, NoBuckets].map(|v| (n, v)))
    {
        let names = if random.chance(2) { Names::Signs } else { random.pick(&NAMES) };
        let held = make::entries(random, n, names, Scores::Few);
        let (image, needed) = (version.image(&held), version.other().image(&held).len());
        for at in 0..image.len() {
            for room in [0, needed - 1, needed] {
                let dst = random.bytes(room);
                assert_eq!(compare.convert(&image[..at], &dst), (NO_BOOK, dst));
            }
            let others = [1, 255, 8, 16, 64, 128].map(|step| image[at].wrapping_add(step));
            let more = [random.byte(), random.byte(), random.pick(&make::HALVES)];
            for byte in others.into_iter().chain(more) {
                let mut bytes = image.clone();
                bytes[at] = byte;
                let room = random.pick(&[0, needed - 1, needed, needed + 60]);
                compare.convert(&bytes, &random.bytes(room));
                bytes[0] = version.other() as u8;
                compare.convert(&bytes, &random.bytes(room));
            }
        }
    }
}

/// Books of both versions of any size with one or two changes, a name that is not allowed, or a
/// record put in another way; and with the other byte 0.
pub fn damage(compare: &mut Compare, random: &mut Random, rounds: usize) {
    for _ in 0..rounds {
        let n = if random.chance(20) { random.pick(&SIZES) } else { random.below(40) };
        let (names, scores) = (random.pick(&NAMES), random.pick(&SCORES));
        let held = make::entries(random, n, names, scores);
        for version in [Buckets, NoBuckets] {
            let (image, needed) = (version.image(&held), version.other().image(&held).len());
            let wrong = make::with_a_wrong_name(random, &held);
            let mut tried = vec![version.image(&wrong), make::respelled(random, version, &held)];
            tried.extend((0..8).map(|_| make::damaged(random, &image)));
            let twice = tried[2..].iter().filter(|bytes| bytes.len() >= 7);
            let twice: Vec<Vec<u8>> = twice.map(|bytes| make::damaged(random, bytes)).collect();
            for mut bytes in tried.into_iter().chain(twice) {
                compare.convert(&bytes, &destination(random, needed));
                if let Some(first) = bytes.first_mut() {
                    *first = version.other() as u8;
                    compare.convert(&bytes, &destination(random, needed));
                }
            }
        }
    }
}
