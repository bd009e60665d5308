//! Sets and withdrawals, which change one record and the one behind it and keep all others: names
//! that share beginnings with their neighbours in every way, and room that is just enough.
use super::*;
use label_book_tests::reference::{common, is_name, LONGEST_NAME};

/// Some lists of names: of few letters, so that each begins others or shares some of their bytes;
/// of signs; long ones.
fn few_names() -> [Vec<Vec<u8>>; 3] {
    let letters = ["a", "aa", "aaa", "aab", "ab", "aba", "abb", "b", "ba", "bab", "bb", "bbb"];
    let signs = ["a", "aµ", "aµa", "aµµ", "aµΩ", "aΩ", "µ", "µµ", "µµΩ", "µΩ", "Ω", "Ωµ"];
    let x = |count: usize, end: &str| ["x".repeat(count), end.to_string()].concat();
    let long = [
        x(1, ""),
        x(46, ""),
        x(47, ""),
        x(48, ""),
        x(47, "y"),
        x(46, "µ"),
        x(45, "y"),
        x(30, "y"),
        x(30, "Ω"),
        x(30, " "),
        x(1, "y"),
        x(0, "y"),
    ];
    let bytes = |names: [&str; 12]| names.map(|name| name.as_bytes().to_vec()).to_vec();
    [bytes(letters), bytes(signs), long.map(String::into_bytes).to_vec()]
}

/// A set of a name into room that is one byte short, exact and longer.
fn set(compare: &mut Compare, random: &mut Random, held: &Entries, name: &[u8], score: u32) {
    let mut after = held.clone();
    after.insert(name.to_vec(), score);
    let (book, image) = (book::image(held), book::image(&after));
    rooms(random, after.len(), &image, |dst| compare.set(&book, name, score, dst));
}

/// A withdrawal into room that is one byte short, exact and longer; as long as the old book is
/// enough always.
fn withdraw(compare: &mut Compare, random: &mut Random, held: &Entries, name: &[u8]) {
    let mut after = held.clone();
    after.remove(name);
    let (book, image) = (book::image(held), book::image(&after));
    rooms(random, after.len(), &image, |dst| compare.withdraw(&book, name, dst));
    let (told, left) = compare.withdraw(&book, name, &random.bytes(book.len()));
    assert!(told.0 == 0 && left.starts_with(&image), "the room of the old book is enough");
    let with_more = [book.clone(), random.bytes(5)].concat();
    let short = random.below(image.len());
    assert_eq!(compare.withdraw(&with_more, name, &random.bytes(short)).0, (7, [0; 3]));
}

/// Every book of up to three of a few names, and the book of all: each of the names is set, and
/// withdrawn if it is held.
pub fn small_books(compare: &mut Compare, random: &mut Random) {
    for names in few_names() {
        let chosen = (0..1_u32 << names.len()).filter(|set| set.count_ones() <= 3);
        for set_of in chosen.chain([(1 << names.len()) - 1]) {
            let picked = names.iter().zip(0..).filter(|(_, bit)| set_of & (1 << bit) != 0);
            let held: Entries =
                picked.map(|(name, _)| (name.clone(), random.below(3) as u32)).collect();
            for name in &names {
                let score = random.below(3) as u32;
                set(compare, random, &held, name, score);
                if held.contains_key(name) {
                    withdraw(compare, random, &held, name);
                }
            }
        }
    }
}

/// Names that would stand between two others, or in front of the first, or behind the last: each
/// beginning of either with another sign behind it, beginnings of the second, and what begins with
/// the first.
fn between(random: &mut Random, before: &[u8], after: Option<&[u8]>) -> Vec<Vec<u8>> {
    let ends = [" ", "!", "a", "m", "~", "µ", "Ω", "~~~~", "µΩ ", ""];
    let mut names = Vec::new();
    for start in [Some(before), after].into_iter().flatten() {
        for kept in 0..=start.len() {
            let sign = start.get(kept).map_or(b'a', |byte| byte.wrapping_add(1));
            let less = start.get(kept).map_or(b'a', |byte| byte.wrapping_sub(1));
            for end in ends.map(str::as_bytes).into_iter().chain([&[sign][..], &[less]]) {
                names.push([&start[..kept], end].concat());
            }
        }
        names.push(make::whole([start, &[b'~'; LONGEST_NAME]].concat(), LONGEST_NAME));
    }
    names.retain(|name| {
        is_name(name) && &name[..] > before && after.is_none_or(|after| &name[..] < after)
    });
    random.shuffle(&mut names);
    names
}

/// Books of every size: new names in front of the first, behind the last and in some gaps.
pub fn neighbours(compare: &mut Compare, random: &mut Random, most: usize) {
    let (mut with_first, mut with_second, mut with_neither) = (0, 0, 0);
    for n in SIZES.into_iter().filter(|&n| n < MOST_ENTRIES) {
        for names in NAMES {
            let scores = random.pick(&SCORES);
            let held = make::entries(random, n, names, scores);
            let names: Vec<&Vec<u8>> = held.keys().collect();
            for gap in [0, 1.min(n), n / 2, n.saturating_sub(1), n] {
                let before = if gap == 0 { &[][..] } else { names[gap - 1] };
                let after = names.get(gap).map(|name| &name[..]);
                let count = if n > 200 { most / 4 } else { most };
                for name in between(random, before, after).into_iter().take(count) {
                    let score = make::score(random, scores);
                    set(compare, random, &held, &name, score);
                    let second = after.map_or(0, |after| common(&name, after));
                    match common(before, &name).cmp(&second) {
                        std::cmp::Ordering::Greater => with_first += 1,
                        std::cmp::Ordering::Less => with_second += 1,
                        std::cmp::Ordering::Equal => with_neither += 1,
                    }
                }
            }
        }
    }
    let counts = [with_first, with_second, with_neither];
    assert!(counts.iter().all(|count| *count > 100), "{counts:?}");
}

/// Every name of small books and some of others withdrawn, and given another score.
pub fn withdrawals(compare: &mut Compare, random: &mut Random) {
    for (n, names) in SIZES.iter().flat_map(|&n| NAMES.map(|names| (n, names))) {
        let scores = random.pick(&SCORES);
        let held = make::entries(random, n, names, scores);
        let step = n.div_ceil(33).max(1);
        let last = n.saturating_sub(1);
        for (i, name) in held.keys().enumerate() {
            if i % step != 0 && ![1, n / 2, last.saturating_sub(1), last].contains(&i) {
                continue;
            }
            if n > 200 && !random.chance(3) {
                continue;
            }
            withdraw(compare, random, &held, name);
            let score = make::score(random, scores);
            set(compare, random, &held, name, score);
        }
    }
}

/// Histories of names that are each other's beginnings or neighbours, on two buffers as long as the
/// longest image needs: no withdrawal is refused for its room.
pub fn kin(compare: &mut Compare, random: &mut Random, rounds: usize) {
    for round in 0..rounds {
        let length = random.pick(&[90, 150, 400, 2000]);
        let mut held = Entries::new();
        let mut buffers = [random.bytes(length), random.bytes(length)];
        buffers[0] = compare.empty(&buffers[0]).1;
        for _ in 0..150 {
            let name = kindred(random, &held, round);
            let withdrawn = random.chance(3) && !held.is_empty();
            let name = if withdrawn { make::some_name(random, &held) } else { name };
            let [book, other] = &buffers;
            let score = random.below(4) as u32;
            let (told, left) = if withdrawn {
                compare.withdraw(book, &name, other)
            } else {
                compare.set(book, &name, score, other)
            };
            assert!(!withdrawn || told.0 == 0, "a withdrawal is refused");
            buffers[1] = left;
            if told.0 == 0 {
                if withdrawn {
                    held.remove(&name);
                } else {
                    held.insert(name, score);
                }
                buffers.swap(0, 1);
                assert!(buffers[0].starts_with(&book::image(&held)), "the image of the entries");
            }
        }
        lists(compare, random, &buffers[0], &held);
    }
}

/// A name that is close to one that is held: its beginning, with a sign behind it, or with the last
/// sign changed; or a short one.
fn kindred(random: &mut Random, held: &Entries, round: usize) -> Vec<u8> {
    let kind = [Names::Short, Names::Signs, Names::LongPrefix, Names::Units][round % 4];
    let start = make::some_name(random, held);
    let start = make::beginning(random, &start);
    let end = random.pick(&["", "a", "b", " ", "~", "µ", "Ω", "aΩ"]);
    let name = make::whole([&start[..], end.as_bytes()].concat(), LONGEST_NAME);
    if name.is_empty() || random.chance(6) {
        return make::name(random, kind, held);
    }
    name
}
