//! Entries, names, damaged images, panels and arguments to try.
use crate::random::Random;
use crate::reference::book::Version;
use crate::reference::*;
use label_book::{key, Panel, PANEL_ROWS};

/// How the names of a book are made.
#[derive(Clone, Copy, Debug)]
pub enum Names {
    /// short, of few different bytes: many shared prefixes and names that begin others
    Short,
    /// 40 shared bytes, then up to 8 of few different ones
    LongPrefix,
    /// 48 bytes each, different near the end
    Full,
    /// any length and any allowed signs, the least and the greatest often
    Any,
    /// names that begin each other
    Chain,
    /// words that share beginnings of any length with an earlier name, each sign of one byte
    Mixed,
    /// of few different signs, µ and Ω among them, which begin at any place of a name, to its end
    Signs,
    /// as mixed, with µ and Ω
    Units,
    /// as units, of about 28 bytes, as many as a line of the page has for a name, or of about 48
    Lines,
}

pub const NAMES: [Names; 9] = [
    Names::Short,
    Names::LongPrefix,
    Names::Full,
    Names::Any,
    Names::Chain,
    Names::Mixed,
    Names::Signs,
    Names::Units,
    Names::Lines,
];

#[derive(Clone, Copy, Debug)]
pub enum Scores {
    Equal,
    Extreme,
    Few,
    /// the least and the greatest numbers of 1 to 10 digits
    Digits,
    Any,
}

pub const SCORES: [Scores; 5] =
    [Scores::Equal, Scores::Extreme, Scores::Few, Scores::Digits, Scores::Any];

/// Where the names of the first of two books stand among those of the second.
#[derive(Clone, Copy, Debug)]
pub enum Places {
    Mixed,
    Before,
    Behind,
}

pub const PLACES: [Places; 3] = [Places::Mixed, Places::Before, Places::Behind];

/// The halves of µ and Ω, each of which is not allowed by itself.
pub const HALVES: [u8; 4] = [0xC2, 0xB5, 0xCE, 0xA9];

/// Bytes that are not allowed in any name.
const NEVER_ALLOWED: [u8; 8] = [0, 0x1F, 0x7F, 0x80, 0x81, 0xB6, 0xC3, 0xFF];

fn word(random: &mut Random, letters: &[u8], first: usize, last: usize) -> Vec<u8> {
    let count = random.between(first, last);
    (0..count).map(|_| random.pick(letters)).collect()
}

fn allowed_byte(random: &mut Random) -> u8 {
    match random.below(8) {
        0 => 0x20,
        1 => 0x7E,
        _ => random.between(0x20, 0x7E) as u8,
    }
}

/// A sign that is allowed, in one byte or in two.
fn sign(random: &mut Random) -> char {
    match random.below(6) {
        0 => random.pick(&[MICRO, OHM]),
        _ => allowed_byte(random) as char,
    }
}

/// Signs one behind the other, as many as fit.
fn filled(mut signs: impl FnMut() -> char, room: usize) -> Vec<u8> {
    let mut name = String::new();
    loop {
        let sign = signs();
        if name.len() + sign.len_utf8() > room {
            return name.into_bytes();
        }
        name.push(sign);
    }
}

/// The front of a text without what is cut: at most so many bytes, and no half of a sign at the
/// end.
pub fn whole(mut text: Vec<u8>, most: usize) -> Vec<u8> {
    text.truncate(most);
    while !is_prefix(&text) {
        text.pop();
    }
    text
}

/// The beginning of a name, of whole signs.
pub fn beginning(random: &mut Random, name: &[u8]) -> Vec<u8> {
    whole(name.to_vec(), random.below(name.len() + 1))
}

/// Some bytes that are not allowed: half a sign, halves of two, a byte that is never allowed.
fn wrong_sign(random: &mut Random) -> Vec<u8> {
    match random.below(6) {
        0 | 1 => vec![random.pick(&HALVES)],
        2 => random.pick(&[[0xC2, 0xA9], [0xCE, 0xB5], [0xB5, 0xC2], [0xC3, 0xB5]]).to_vec(),
        3 => vec![random.pick(&HALVES), allowed_byte(random)],
        4 => vec![random.pick(&HALVES), random.pick(&HALVES)],
        _ => vec![random.pick(&NEVER_ALLOWED)],
    }
}

/// An allowed name. `held` may lend its beginning.
pub fn name(random: &mut Random, names: Names, held: &Entries) -> Vec<u8> {
    match names {
        Names::Short => word(random, b"abc", 1, 9),
        Names::LongPrefix => [vec![b'x'; 40], word(random, b"xyz", 0, 8)].concat(),
        Names::Full => [vec![b'~'; 38], word(random, b" ~", 10, 10)].concat(),
        Names::Any => {
            let room = random.between(2, LONGEST_NAME);
            filled(|| sign(random), room)
        }
        Names::Chain => {
            let (sign, room) = (sign(random), random.between(2, LONGEST_NAME));
            filled(|| sign, room)
        }
        Names::Mixed => {
            let start = some_name(random, held);
            let kept = random.below(start.len() + 1);
            let added = random.between(1, LONGEST_NAME.min(20));
            let mut name = start[..kept].to_vec();
            name.extend((0..added).map(|_| allowed_byte(random)));
            name.truncate(LONGEST_NAME);
            if is_name(&name) {
                name
            } else {
                self::name(random, Names::Short, held)
            }
        }
        Names::Signs => {
            let letters = random.below(8);
            let room = random.pick(&[2, 3, 5, 7, 8, 9, 14, 15, 20, 47, 48]);
            let end = filled(|| random.pick(&['a', MICRO, MICRO, OHM]), room);
            whole([vec![b'a'; letters], end].concat(), LONGEST_NAME)
        }
        Names::Units => {
            let start = some_name(random, held);
            let start = beginning(random, &start);
            let room = random.between(2, LONGEST_NAME.min(20));
            whole([start, filled(|| sign(random), room)].concat(), LONGEST_NAME)
        }
        Names::Lines => {
            let start = some_name(random, held);
            let start = beginning(random, &start);
            let length = random.pick(&[26, 27, 28, 28, 28, 29, 29, 29, 30, 47, 48]);
            whole([start, filled(|| sign(random), LONGEST_NAME)].concat(), length)
        }
    }
}

/// A name that is held, or empty.
pub fn some_name(random: &mut Random, held: &Entries) -> Vec<u8> {
    let at = random.below(held.len());
    held.keys().nth(at).cloned().unwrap_or_default()
}

pub fn score(random: &mut Random, scores: Scores) -> u32 {
    match scores {
        Scores::Equal => 7,
        Scores::Extreme => random.pick(&[0, 1, u32::MAX - 1, u32::MAX]),
        Scores::Few => random.pick(&[0, 1, 255, 256, 257, 65_535, 65_536]),
        Scores::Digits => {
            let power = 10_u32.pow(random.below(10) as u32);
            random.pick(&[power, power - 1, u32::MAX])
        }
        Scores::Any => random.any() as u32,
    }
}

pub fn entries(random: &mut Random, n: usize, names: Names, scores: Scores) -> Entries {
    let mut entries = Entries::new();
    let mut tries = 0;
    while entries.len() < n {
        // The few names of a kind may be used up.
        let kind = if tries < 20 * n { names } else { Names::Mixed };
        let name = name(random, kind, &entries);
        entries.insert(name, score(random, scores));
        tries += 1;
    }
    entries
}

/// Names of so many bytes: numbers with zeros in front.
pub fn numbers(count: usize, length: usize) -> impl Iterator<Item = Vec<u8>> {
    (0..count).map(move |i| format!("{i:0length$}").into_bytes())
}

/// 19 names of one letter with the scores 0 1 0 1 .. 0: on each side of a name that has score 1 at
/// least one is left, so that offering one after the other takes the most looks.
pub fn nineteen() -> Entries {
    (b'a'..=b's').map(|letter| (vec![letter], (letter - b'a') as u32 % 2)).collect()
}

/// The entries of two books of these sizes, of whose names so many are shared; a shared name has a
/// score in each.
pub fn pair(
    random: &mut Random,
    sizes: [usize; 2],
    shared: usize,
    places: Places,
    names: Names,
    scores: Scores,
) -> [Entries; 2] {
    let [a, b] = sizes;
    let mut order: Vec<Vec<u8>> =
        entries(random, a + b - shared, names, scores).into_keys().collect();
    match places {
        Places::Mixed => order.sort_by_cached_key(|_| random.any()),
        Places::Before => {}
        Places::Behind => order.reverse(),
    }
    let mut scored = |names: &[Vec<u8>]| {
        names.iter().map(|name| (name.clone(), score(random, scores))).collect()
    };
    [scored(&order[..a]), scored(&order[a - shared..])]
}

/// A name or prefix to ask for: held, close to a held one, allowed or not.
pub fn asked(random: &mut Random, held: &Entries) -> Vec<u8> {
    let mut name = some_name(random, held);
    match random.below(15) {
        0..=3 => {}
        4 => {
            name.pop();
        }
        5 => name.extend(sign(random).to_string().bytes()),
        6 => {
            let kept = random.below(name.len() + 1);
            name.truncate(kept);
        }
        7 if !name.is_empty() => {
            let at = random.below(name.len());
            name[at] = allowed_byte(random);
        }
        8 if !name.is_empty() => {
            let at = random.below(name.len());
            name[at] = random.pick(&NEVER_ALLOWED);
        }
        9 => {
            let length = random.pick(&[0, 1, 47, 48, 49, 50, 255, 256, 257, 1000]);
            name.resize(length, b'x');
        }
        10 => name = self::name(random, Names::Short, held),
        11 => name = spoiled(random, &name),
        // 43 to 50 bytes that end in a sign, or in half of it.
        12 => {
            let length = random.between(42, 48);
            name.resize(length, b'x');
            name.extend(random.pick(&[MICRO, OHM]).to_string().bytes());
            name.truncate(length + random.between(1, 2));
        }
        13 => name = beginning(random, &name),
        _ => name = self::name(random, Names::Any, held),
    }
    name
}

/// A name with bytes in it that are not allowed there, at any place, or instead of one byte or two
/// of it.
fn spoiled(random: &mut Random, name: &[u8]) -> Vec<u8> {
    let (at, instead) = (random.below(name.len() + 1), random.below(3));
    let end = (at + instead).min(name.len());
    [&name[..at], &wrong_sign(random), &name[end..]].concat()
}

/// The entries with a name that is not allowed among them: of whole signs but for one.
pub fn with_a_wrong_name(random: &mut Random, entries: &Entries) -> Entries {
    let mut wrong = entries.clone();
    let name = some_name(random, entries);
    if random.chance(2) {
        wrong.remove(&name);
    }
    for _ in 0..20 {
        let name = spoiled(random, &name);
        if !name.is_empty() && name.len() <= LONGEST_NAME && !is_name(&name) {
            wrong.insert(name, random.below(9) as u32);
            break;
        }
    }
    wrong
}

/// A record of a book, right or wrong: common byte, length of the rest, the rest. In version 21 a
/// bucket's first one has no common byte.
#[derive(Clone, Debug)]
pub struct Record {
    pub kept: u8,
    pub length: u8,
    pub rest: Vec<u8>,
}

impl Record {
    pub fn bytes(&self) -> Vec<u8> {
        [&[self.kept, self.length], &self.rest[..]].concat()
    }
}

/// The records of names in any order, one behind the other, in a version; a bucket's first one
/// keeps nothing.
pub fn records<'a>(version: Version, names: impl IntoIterator<Item = &'a Vec<u8>>) -> Vec<Record> {
    let mut before: &[u8] = &[];
    let records = names.into_iter().enumerate().map(|(i, name)| {
        let kept = if version.is_head(i) { 0 } else { common(before, name) };
        before = name;
        let rest = name[kept..].to_vec();
        Record { kept: kept as u8, length: rest.len() as u8, rest }
    });
    records.collect()
}

/// The bytes of each record in a version; those of a bucket's first one are without a common byte.
pub fn record_bytes(version: Version, records: &[Record]) -> Vec<Vec<u8>> {
    let front = |i| usize::from(version.is_head(i));
    records.iter().enumerate().map(|(i, record)| record.bytes()[front(i)..].to_vec()).collect()
}

/// The book of entries in a version, with other records.
pub fn with_records(version: Version, entries: &Entries, records: &[Record]) -> Vec<u8> {
    with_record_bytes(version, entries, &record_bytes(version, records))
}

/// The book of entries in a version, with the bytes of other records: the total length is by them,
/// and a bucket's offset is where its first record begins.
pub fn with_record_bytes(version: Version, entries: &Entries, records: &[Vec<u8>]) -> Vec<u8> {
    let n = entries.len();
    let mut at = version.records_at(n);
    let mut tables = version.image(entries)[7..at].to_vec();
    for (i, record) in records.iter().enumerate() {
        if version.is_head(i) {
            tables[4 * n + 2 * (i / book::BUCKET)..][..2]
                .copy_from_slice(&(at as u16).to_be_bytes());
        }
        at += record.len();
    }
    framed(version as u8, n, &[tables, records.concat()].concat())
}

/// The book of entries in a version with one record put in another way: as much of the name before
/// as is said, often to the inside of a sign, and the rest of the name, or whole signs, or halves.
pub fn respelled(random: &mut Random, version: Version, entries: &Entries) -> Vec<u8> {
    let names: Vec<&Vec<u8>> = entries.keys().collect();
    let image = version.image(entries);
    let Some(i) = (0..names.len()).rev().find(|_| random.chance(3)) else {
        return image;
    };
    let none = Vec::new();
    let (before, name) = (if i == 0 { &none } else { names[i - 1] }, names[i]);
    let places: Vec<usize> =
        (1..=before.len()).filter(|&at| text(&before[..at]).is_none()).collect();
    let kept = match places[..] {
        [_, ..] if !random.chance(3) => random.pick(&places),
        _ => random.below(before.len() + 1),
    };
    let rest = match random.below(4) {
        0 => name.get(kept..).unwrap_or_default().to_vec(),
        1 => {
            let room = random.between(2, 5);
            filled(|| sign(random), room)
        }
        2 => random.pick(&[MICRO, OHM]).to_string().into_bytes(),
        _ => wrong_sign(random),
    };
    let mut records = records(version, entries.keys());
    records[i] = Record { kept: kept as u8, length: rest.len() as u8, rest };
    with_records(version, entries, &records)
}

/// A number to ask for near a limit, or far from all.
pub fn number(random: &mut Random, limit: usize) -> usize {
    match random.below(8) {
        0 => 0,
        1 => limit.saturating_sub(1),
        2 => limit,
        3 => limit + 1,
        4 => random.pick(&[
            usize::MAX,
            usize::MAX / 8 + 1,
            1 << 32,
            (1 << 32) + limit.saturating_sub(1),
            65_536,
            256,
        ]),
        _ => random.below(limit),
    }
}

/// The number of a bucket of a book of n names: 0, which has a head name if any has; 1, 2 and those
/// that a book of version 21 has; far from all.
pub fn bucket(random: &mut Random, n: usize) -> usize {
    match random.below(4) {
        0 | 1 => 0,
        2 => random.pick(&[1, 2, 1 << 32, usize::MAX]),
        _ => number(random, n.div_ceil(book::BUCKET)),
    }
}

/// How many entries to ask for: often as many as can be, or one more; any number up to that; none,
/// or more: as many as could be asked for before (02, request d) and numbers of which the last
/// bytes alone would be allowed.
pub fn count(random: &mut Random) -> usize {
    match random.below(8) {
        0 | 1 => MOST_OFFERED,
        2 => MOST_OFFERED + 1,
        3..=5 => random.between(1, MOST_OFFERED),
        _ => random.pick(&[
            0,
            MOST_OFFERED + 2,
            MOST_BEFORE - 1,
            MOST_BEFORE,
            MOST_BEFORE + 1,
            255,
            256,
            257,
            256 + MOST_OFFERED,
            65_537,
            u32::MAX as usize,
            (1 << 32) + 1,
            (1 << 32) + MOST_OFFERED,
            usize::MAX,
        ]),
    }
}

/// The length of a buffer for so many bytes: short by one, exact, long by one, or any.
pub fn room(random: &mut Random, needed: usize) -> usize {
    match random.below(8) {
        0 | 1 => needed.saturating_sub(1),
        2 | 3 => needed,
        4 => needed + 1,
        5 => random.below(needed + 1),
        6 => random.below(8),
        _ => needed + random.below(100),
    }
}

/// A place in an image at a half of a sign or beside one; any place if there is none.
fn beside_a_sign(random: &mut Random, image: &[u8]) -> usize {
    let halves: Vec<usize> = (0..image.len()).filter(|&at| HALVES.contains(&image[at])).collect();
    match halves[..] {
        [] => random.below(image.len()),
        _ => (random.pick(&halves) + random.pick(&[0, 0, 1, 1, 2])).clamp(1, image.len()) - 1,
    }
}

/// An image with a byte, a field or its length changed.
pub fn damaged(random: &mut Random, image: &[u8]) -> Vec<u8> {
    let mut bytes = image.to_vec();
    match random.below(12) {
        0 => bytes.truncate(random.below(image.len())),
        1 => {
            let more = random.between(1, 20);
            bytes.extend(random.bytes(more));
        }
        2 => {
            let total = u32::from_be_bytes(bytes[1..5].try_into().unwrap());
            let other = random.pick(&[
                total.wrapping_sub(1),
                total.wrapping_add(1),
                0,
                6,
                u32::MAX,
                total ^ 65_536,
                total ^ (1 << 24),
            ]);
            bytes[1..5].copy_from_slice(&other.to_be_bytes());
            if random.chance(2) {
                let other = (other as usize).min(70_000);
                bytes.resize(other.max(7), 0x61);
            }
        }
        3 => {
            let n = u16::from_be_bytes(bytes[5..7].try_into().unwrap());
            let other = random.pick(&[
                n.wrapping_sub(1),
                n.wrapping_add(1),
                0,
                1024,
                1025,
                65_535,
                n ^ 256,
            ]);
            bytes[5..7].copy_from_slice(&other.to_be_bytes());
        }
        4 => {
            let at = random.below(7);
            bytes[at] = random.byte();
        }
        5 | 6 => {
            let at = random.below(bytes.len());
            bytes[at] = bytes[at].wrapping_add(random.pick(&[1, 255]));
        }
        7 => {
            let (a, b) = (random.below(bytes.len()), random.below(bytes.len()));
            bytes.swap(a, b);
        }
        8 | 9 if !bytes.is_empty() => {
            let at = beside_a_sign(random, &bytes);
            bytes[at] = match random.below(4) {
                0 => allowed_byte(random),
                1 => bytes[at].wrapping_add(random.pick(&[1, 255])),
                _ => random.pick(&HALVES),
            };
        }
        _ => {
            let at = random.below(bytes.len());
            bytes[at] = random.byte();
        }
    }
    bytes
}

/// The names on the rows of a text.
fn rows(entries: &Entries, text: &[u8]) -> Vec<Vec<u8>> {
    calls::rows(entries, text, PANEL_ROWS)
}

/// The bytes at the front of 48, and any bytes behind them.
fn in_front(random: &mut Random, bytes: &[u8]) -> [u8; LONGEST_NAME] {
    let mut all: [u8; LONGEST_NAME] = random.bytes(LONGEST_NAME).try_into().unwrap();
    let end = bytes.len().min(LONGEST_NAME);
    all[..end].copy_from_slice(&bytes[..end]);
    all
}

/// A name on a row of the text, or any that the book has.
fn offered(random: &mut Random, entries: &Entries, text: &[u8]) -> Vec<u8> {
    match rows(entries, text)[..] {
        [] => some_name(random, entries),
        ref rows => random.pick(rows),
    }
}

/// A name of the book that is on no row of the text; none if all are.
fn not_offered(random: &mut Random, entries: &Entries, text: &[u8]) -> Vec<u8> {
    let rows = rows(entries, text);
    let others: Vec<&Vec<u8>> = entries.keys().filter(|name| !rows.contains(name)).collect();
    others.get(random.below(others.len())).map_or(vec![], |name| name.to_vec())
}

/// A held name, in 48 bytes, and its length: on a row of the text, in the book and on no row, close
/// to a row's, in no book, none; with a byte that is not allowed, or a length that is none. Any
/// bytes stand behind it.
pub fn held_name(
    random: &mut Random,
    entries: &Entries,
    text: &[u8],
) -> ([u8; LONGEST_NAME], usize) {
    let mut name = offered(random, entries, text);
    match random.below(24) {
        0 | 1 => name = not_offered(random, entries, text),
        2 => {
            name.pop();
        }
        3 => {
            // The rest of the name stands behind its length.
            let length = random.below(name.len() + 1);
            return (in_front(random, &name), length);
        }
        4 => name.extend(sign(random).to_string().bytes()),
        5 => name.resize(LONGEST_NAME, b' '),
        6 => name = self::name(random, Names::Any, entries),
        7 => name.clear(),
        8 | 9 => name = spoiled(random, &name),
        10 => {
            let lengths = [49, 50, 64, 256, 1 << 32, (1 << 32) + name.len(), usize::MAX];
            return (in_front(random, &name), random.pick(&lengths));
        }
        _ => {}
    }
    // A name of more bytes loses the last ones, not its length.
    (in_front(random, &name), name.len())
}

/// A panel with zeros past the text and past the held name.
pub fn panel_of(
    text: impl AsRef<[u8]>,
    highlight: usize,
    rows: usize,
    held: impl AsRef<[u8]>,
) -> Panel {
    let (text, held) = (text.as_ref(), held.as_ref());
    let mut panel =
        Panel { len: text.len(), highlight, rows, held_len: held.len(), ..Panel::default() };
    panel.text[..text.len()].copy_from_slice(text);
    panel.held[..held.len()].copy_from_slice(held);
    panel
}

/// A panel that nobody typed on: the start of a name of the book or what is close to it, now and
/// then cut inside a sign, any row, any held name.
pub fn panel(random: &mut Random, entries: &Entries) -> Panel {
    let mut text = some_name(random, entries);
    match random.below(8) {
        0 => text = asked(random, entries),
        1 => {}
        2 => text.truncate(random.below(text.len() + 1)),
        3 => text = beginning(random, &text),
        // Short, so that there are rows.
        _ => text = whole(text, random.below(4)),
    }
    let (held, held_len) = held_name(random, entries, &text);
    let len = if random.chance(20) { number(random, LONGEST_NAME) } else { text.len() };
    let (highlight, rows) = (number(random, PANEL_ROWS), number(random, PANEL_ROWS));
    Panel { text: in_front(random, &text), len, highlight, rows, held, held_len }
}

/// A key: any byte, one that is no sign or next to one of these, the next sign of a name on a row.
pub fn key(random: &mut Random, entries: &Entries, text: &[u8]) -> u8 {
    match random.below(10) {
        0 if random.chance(2) => random.pick(&[key::MICRO, key::OHM]),
        0 => random.byte(),
        1 => random.pick(&[
            0x03, 0x07, 0x09, 0x0C, 0x0E, 0x1F, b' ', b'~', 0x7F, 0x82, 0xA9, 0xB5, 0xC2, 0xCE,
            0xFF,
        ]),
        2..=6 => random.pick(&[key::RECOUNT, key::UP, key::DOWN, key::DOWN, key::ERASE, key::TAKE]),
        _ => match offered(random, entries, text).get(text.len()) {
            Some(0xC2) => key::MICRO,
            Some(0xCE) => key::OHM,
            byte => byte.copied().unwrap_or(b'a'),
        },
    }
}

/// Changes the entries as a teacher does while a text is typed and a name held: a new name that the
/// text begins, another score, a withdrawal.
pub fn edit(random: &mut Random, entries: &mut Entries, panel: &Panel) {
    let held = panel.held.get(..panel.held_len).unwrap_or_default().to_vec();
    let scores = random.pick(&SCORES);
    let score = score(random, scores);
    let known = match random.below(4) {
        0 | 1 if entries.contains_key(&held) => held,
        2 => some_name(random, entries),
        _ => offered(random, entries, panel.typed()),
    };
    match random.below(4) {
        0 => {
            entries.remove(&known);
        }
        1 if !known.is_empty() => {
            entries.insert(known, score);
        }
        _ => {
            let start = if is_prefix(panel.typed()) { panel.typed() } else { &[] };
            let end = if random.chance(4) { sign(random).to_string().into_bytes() } else { vec![] };
            let new = [start, &word(random, b"abcxyz ~", 1, 4), &end].concat();
            entries.insert(whole(new, LONGEST_NAME), score);
        }
    }
}
