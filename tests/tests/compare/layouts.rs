//! Books that are laid out wrongly in one respect only: the first record, the bytes in front of a
//! name, a byte of a name, a peak; in version 21, too, an offset or a bucket's head. Those of
//! version 22 (02, request f) are given to every call, those of 21 to the converter (request g).
use super::*;
use label_book_tests::make::Record;
use label_book_tests::reference::book::Version::{self, Buckets, NoBuckets};
use label_book_tests::reference::{in_rank, text, LONGEST_NAME};

/// The first name of a book of one, by its record.
pub fn worked(compare: &mut Compare) {
    let front = bytes("00 01 00 00 00 09 00 00");
    for (record, number) in [
        ("00 02 72 63", 0),
        ("00 01 20", 0),
        ("00 01 7E", 0),
        ("00 02 C2 B5", 0),
        ("02 72 63", 1),
        ("01 02 72 63", 1),
        ("02 00 72 63", 1),
        ("FF 02 72 63", 1),
        ("00 00", 1),
        ("00 01 1F", 1),
        ("00 01 7F", 1),
        ("00 01 C2", 1),
        ("00 03 72 63", 1),
        ("00 01 72 63", 1),
    ] {
        let record = bytes(record);
        let total = (5 + front.len() + record.len()) as u8;
        let book = [&[0x22, 0, 0, 0, total], &front[..], &record].concat();
        every_reader(compare, &book, number);
    }
}

/// Some of the calls that are given a book.
fn every_reader(compare: &mut Compare, book: &[u8], number: u8) {
    let dst = [0; 200];
    compare.check(book);
    assert_eq!(ours::check(book).0, number, "{book:02X?}");
    assert_eq!(compare.list(book, &dst).0 .0, number);
    assert_eq!(compare.set(book, b"rd", 1, &dst).0 .0, number);
    assert_eq!(compare.merge(book, book, &dst).0 .0, number);
    assert_eq!(compare.complete(book, b"", 1, &dst, 1).0 .0, number);
    assert_eq!(compare.convert(book, &dst).0 .0, number);
    compare.withdraw(book, b"rc", &dst);
    compare.head(book, 0);
}

/// A book in a version, by its records.
struct Laid<'a> {
    version: Version,
    held: &'a Entries,
    records: Vec<Record>,
}

impl Laid<'_> {
    fn new(version: Version, held: &Entries) -> Laid<'_> {
        Laid { version, held, records: make::records(version, held.keys()) }
    }

    /// The book with other records.
    fn with(&self, compare: &mut Compare, random: &mut Random, records: &[Record]) {
        let image = make::with_records(self.version, self.held, records);
        any_image(compare, random, &image, self.held);
    }

    /// The same with any bytes in their place.
    fn with_bytes(&self, compare: &mut Compare, random: &mut Random, records: &[Vec<u8>]) {
        let image = make::with_record_bytes(self.version, self.held, records);
        any_image(compare, random, &image, self.held);
    }

    /// The bytes of each record.
    fn bytes(&self) -> Vec<Vec<u8>> {
        make::record_bytes(self.version, &self.records)
    }
}

/// Books of several sizes, with names that share much, and each record of them changed.
pub fn records(compare: &mut Compare, random: &mut Random) {
    for (n, names) in [1, 2, 5, 15, 16, 17, 33].into_iter().flat_map(|n| NAMES.map(|k| (n, k))) {
        let held = make::entries(random, n, names, Scores::Few);
        first_records(compare, random, &Laid::new(NoBuckets, &held));
        offsets(compare, random, &held);
        heads(compare, random, &Laid::new(Buckets, &held));
        for laid in [NoBuckets, Buckets].map(|version| Laid::new(version, &held)) {
            bytes_of_names(compare, random, &laid);
            bytes_in_front(compare, random, &laid);
            low_bytes(compare, random, &laid);
            cut_differently(compare, random, &laid);
            inside_signs(compare, random, &laid);
            in_another_order(compare, random, &laid);
        }
    }
    for names in NAMES {
        let n = random.pick(&[127, 128, 129, 1023, 1024]);
        let held = make::entries(random, n, names, Scores::Any);
        for laid in [NoBuckets, Buckets].map(|version| Laid::new(version, &held)) {
            low_bytes(compare, random, &laid);
            cut_differently(compare, random, &laid);
        }
    }
}

/// The first record without its common byte, as in version 21, with one that is not 0, with one
/// more; of the right total length and of the old one.
fn first_records(compare: &mut Compare, random: &mut Random, laid: &Laid) {
    let (records, held) = (laid.bytes(), laid.held);
    let (first, rest) = records.split_first().expect("a record");
    let with = |first: &[u8]| [&[first.to_vec()], rest].concat();
    laid.with_bytes(compare, random, &with(&first[1..]));
    laid.with_bytes(compare, random, &with(&[&[0], &first[..]].concat()));
    for kept in [1, 2, laid.records[0].length, 47, 48, 49, 128, 255, random.byte()] {
        laid.with_bytes(compare, random, &with(&[&[kept], &first[1..]].concat()));
    }
    let image = book::image(held);
    let without = make::with_record_bytes(NoBuckets, held, &with(&first[1..]));
    any_image(compare, random, &[&image[..5], &without[5..], &[0x61]].concat(), held);
}

/// Each offset of a book of version 21: a little less and more, another bucket's, the end, none.
fn offsets(compare: &mut Compare, random: &mut Random, held: &Entries) {
    let (image, n) = (Buckets.image(held), held.len());
    let places: Vec<usize> = (0..n.div_ceil(book::BUCKET)).map(|i| 7 + 4 * n + 2 * i).collect();
    for &place in &places {
        let offset = u16::from_be_bytes([image[place], image[place + 1]]);
        let other = random.pick(&places);
        let other = u16::from_be_bytes([image[other], image[other + 1]]);
        let ends = [image.len() as u16, Buckets.records_at(n) as u16, 0, u16::MAX];
        let near = [offset - 1, offset + 1, offset - 2, offset ^ 256, offset.swap_bytes(), other];
        for said in near.into_iter().chain(ends) {
            let mut bytes = image.clone();
            bytes[place..place + 2].copy_from_slice(&said.to_be_bytes());
            let number = compare.convert(&bytes, &[0; 2000]).0 .0;
            assert_eq!(number, u8::from(said != offset), "{bytes:02X?}");
        }
    }
}

/// Each head of a book of version 21: with a common byte in front, as in version 22; longer than a
/// name can be, empty, not allowed; what its bucket or the book before it has for a name.
fn heads(compare: &mut Compare, random: &mut Random, laid: &Laid) {
    let (records, names) = (laid.bytes(), laid.held.keys().cloned().collect::<Vec<_>>());
    for i in (0..records.len()).step_by(book::BUCKET) {
        for kept in [0, 1, 2, 48, 255] {
            let mut changed = records.clone();
            changed[i].insert(0, kept);
            laid.with_bytes(compare, random, &changed);
        }
        let before = i.saturating_sub(1);
        let start = make::beginning(random, &names[before]);
        let longest = make::whole([&names[i][..], &[b'~'; 48]].concat(), LONGEST_NAME);
        let others = [
            vec![],
            start,
            [&names[before][..], b" "].concat(),
            [&longest[..], b"~"].concat(),
            longest,
            [&names[i][..], b"\xC2"].concat(),
            random.pick(&names),
        ];
        for rest in others {
            let mut changed = laid.records.clone();
            changed[i] = Record { kept: 0, length: rest.len() as u8, rest };
            laid.with(compare, random, &changed);
        }
    }
}

/// The names in another order, each laid out behind the one before it: two buckets, two neighbours
/// or any two exchanged, a name twice.
fn in_another_order(compare: &mut Compare, random: &mut Random, laid: &Laid) {
    let names: Vec<&Vec<u8>> = laid.held.keys().collect();
    let n = names.len();
    let mut orders = vec![names.clone(); 12];
    for (round, order) in orders.iter_mut().enumerate() {
        let (i, j) = (random.below(n), random.below(n));
        match round % 4 {
            0 => order.swap(i, j),
            1 => order.swap(i, (i + 1).min(n - 1)),
            2 => order[i] = names[i.saturating_sub(1)],
            // A bucket and all behind it in front of the others.
            _ => order.rotate_left(i / book::BUCKET * book::BUCKET),
        }
    }
    // The first of a bucket as the last of the one before, which only that one's names tell.
    for i in (book::BUCKET..n).step_by(book::BUCKET) {
        let mut order = names.clone();
        order[i] = names[i - 1];
        orders.push(order);
        let mut order = names.clone();
        order.swap(i - 1, i);
        orders.push(order);
    }
    for order in orders {
        let right = order == names;
        let records = make::records(laid.version, order);
        let image = make::with_records(laid.version, laid.held, &records);
        let number = compare.convert(&image, &[0; 2000]).0 .0;
        assert_eq!(number, u8::from(!right), "{image:02X?}");
        any_image(compare, random, &image, laid.held);
    }
}

/// Bytes of a name that are not allowed, or only beside others, at each place of each rest.
fn bytes_of_names(compare: &mut Compare, random: &mut Random, laid: &Laid) {
    const BYTES: [u8; 10] = [0x00, 0x1F, 0x20, 0x7E, 0x7F, 0x80, 0xC2, 0xB5, 0xCE, 0xA9];
    let (held, records) = (laid.held, &laid.records);
    for i in 0..records.len() {
        for at in 0..records[i].rest.len() {
            for byte in BYTES {
                if held.len() > 5 && !random.chance(8) {
                    continue;
                }
                let mut changed = records.to_vec();
                changed[i].rest[at] = byte;
                laid.with(compare, random, &changed);
            }
        }
    }
}

/// The common byte and the length of each record: a little less and more, as much as the name
/// before has, as much as fills 48 bytes, far too much.
fn bytes_in_front(compare: &mut Compare, random: &mut Random, laid: &Laid) {
    let (held, records) = (laid.held, &laid.records);
    let names: Vec<&Vec<u8>> = held.keys().collect();
    for i in 0..records.len() {
        let before = if i == 0 { 0 } else { names[i - 1].len() } as u8;
        let Record { kept, length, .. } = records[i];
        let limit = LONGEST_NAME as u8;
        let others = [kept.wrapping_sub(1), kept + 1, before, before + 1, limit - length, 255];
        for kept in others {
            let mut changed = records.to_vec();
            changed[i].kept = kept;
            laid.with(compare, random, &changed);
            // The rest begins as much earlier or later.
            if let Some(rest) = names[i].get(kept as usize..) {
                changed[i] = Record { kept, length: rest.len() as u8, rest: rest.to_vec() };
                laid.with(compare, random, &changed);
            }
        }
        for length in [0, length.wrapping_sub(1), length + 1, limit - kept, limit - kept + 1, 255] {
            let mut changed = records.to_vec();
            changed[i].length = length;
            laid.with(compare, random, &changed);
        }
    }
}

/// A byte below 20 in a rest, and in return a byte from 20 up in front of a name, so that there are
/// as many of either kind as before; the two may change places.
fn low_bytes(compare: &mut Compare, random: &mut Random, laid: &Laid) {
    let records = &laid.records;
    for round in 0..60 {
        let mut changed = records.to_vec();
        let (i, j) = (random.below(records.len()), random.below(records.len()));
        let i = if round % 3 == 0 { j } else { i };
        let at = random.below(records[i].rest.len());
        let byte = changed[i].rest[at];
        let high = random.pick(&[byte, 0x20, 0x21, 0x2F, 0x30, 0x31, 0x7E, 0x7F, 0xC2, 0xFF]);
        let front = if random.chance(2) { &mut changed[j].kept } else { &mut changed[j].length };
        let low = random.pick(&[*front, *front, 0, 1, 2, 0x0C, 0x1F]);
        *front = high;
        changed[i].rest[at] = low;
        laid.with(compare, random, &changed);
        // The byte in the rest alone.
        changed[j].kept = records[j].kept;
        changed[j].length = records[j].length;
        laid.with(compare, random, &changed);
    }
}

/// The same bytes behind each other, cut into records in another way: one takes in the next, bytes
/// in front of its name and all, and another is cut in two, its middle bytes being in front of a
/// name now.
fn cut_differently(compare: &mut Compare, random: &mut Random, laid: &Laid) {
    let records = &laid.records;
    if records.len() < 2 {
        return;
    }
    for _ in 0..20 {
        let i = random.below(records.len() - 1);
        let mut all = records.to_vec();
        let next = all.remove(i + 1);
        let taken = [all[i].rest.clone(), next.bytes()].concat();
        all[i] = Record { length: taken.len() as u8, rest: taken, ..all[i] };
        laid.with(compare, random, &all);
        let Some(j) = (0..all.len()).find(|&j| all[j].rest.len() > 3 && random.chance(2)) else {
            continue;
        };
        let at = random.between(1, all[j].rest.len() - 3);
        let behind = all[j].rest.split_off(at);
        all[j].length = at as u8;
        // As it stands there, or as it could be.
        let (kept, length) = match random.below(2) {
            0 => (behind[0], behind[1]),
            _ => (all[j].kept + at as u8, behind.len() as u8 - 2),
        };
        all.insert(j + 1, Record { kept, length, rest: behind[2..].to_vec() });
        laid.with(compare, random, &all);
    }
}

/// Common bytes that end inside a sign of the name before, in front of its second half; the rest
/// begins with that half, with the other sign's, or with anything else.
fn inside_signs(compare: &mut Compare, random: &mut Random, laid: &Laid) {
    let (held, records) = (laid.held, &laid.records);
    let names: Vec<&Vec<u8>> = held.keys().collect();
    for i in 1..records.len() {
        for kept in 1..names[i - 1].len() {
            if text(&names[i - 1][..kept]).is_some() || held.len() > 5 && !random.chance(3) {
                continue;
            }
            let rest = names[i].get(kept..).unwrap_or_default();
            for start in [&[][..], &[0xB5], &[0xA9], &[0xB5, 0x61], &[0xC2, 0xB5], &[0xB6], &[0x61]]
            {
                for rest in [start.to_vec(), [start, rest].concat()] {
                    let mut changed = records.to_vec();
                    changed[i] = Record { kept: kept as u8, length: rest.len() as u8, rest };
                    laid.with(compare, random, &changed);
                }
            }
        }
    }
}

/// Scores and peaks that do not fit each other, in whole blocks and in the last one, at every place
/// of the block: a score above the peak's, the same in front of it and behind it, a fallen peak; a
/// peak at every other place, of another block and of none.
pub fn peaks(compare: &mut Compare, random: &mut Random) {
    for n in [1, 2, 15, 16, 17, 31, 32, 33, 47, 49] {
        for scores in [Scores::Equal, Scores::Few, Scores::Extreme, Scores::Any] {
            let held = make::entries(random, n, Names::Short, scores);
            for version in [NoBuckets, Buckets] {
                peaks_of(compare, random, version, &held);
            }
        }
    }
}

fn peaks_of(compare: &mut Compare, random: &mut Random, version: Version, held: &Entries) {
    let (n, image) = (held.len(), version.image(held));
    let (peaks, values) = (version.peaks_at(n), label_book_tests::reference::scores(held));
    for i in 0..n {
        let block = i / book::BLOCK;
        let all = block * book::BLOCK..n.min((block + 1) * book::BLOCK);
        let best = values[in_rank(&values, all.clone())[0]];
        for score in [best, best.wrapping_add(1), best.wrapping_sub(1), 0, u32::MAX] {
            let mut bytes = image.clone();
            bytes[7 + 4 * i..][..4].copy_from_slice(&score.to_be_bytes());
            any_image(compare, random, &bytes, held);
            // Two of them.
            let j = random.between(all.start, all.end - 1);
            bytes[7 + 4 * j..][..4].copy_from_slice(&score.to_be_bytes());
            any_image(compare, random, &bytes, held);
        }
        for peak in [i, i + 16, i.wrapping_sub(16), i % 16, i | 256, n, n + 1, 1024] {
            let mut bytes = image.clone();
            bytes[peaks + 2 * block..][..2].copy_from_slice(&(peak as u16).to_be_bytes());
            any_image(compare, random, &bytes, held);
        }
    }
}
