//! The head names that the library hands out as parts of the lent book, as the program lookup_heads
//! prints them: on books of all sizes, damaged ones, old ones and noise. Each line is the second
//! implementation's head name, and what the call for C that tells its place and length says; it is
//! empty where they refuse. Seeded and bounded.
use label_book_tests::make::{self, Scores, NAMES};
use label_book_tests::programs::printed;
use label_book_tests::random::Random;
use label_book_tests::reference::{book, calls, sheet, trie, Entries};

/// One more than the buckets that a book of 1,024 names had in version 21.
const LINES: usize = 129;

/// The program reads no more of its input.
const BUFFER: usize = 57_344;

const SIZES: [usize; 13] = [0, 1, 2, 7, 8, 9, 15, 16, 17, 127, 129, 1023, 1024];

/// How many books there were, those among them that are none, and the names handed out.
#[derive(Default)]
struct Counts {
    inputs: usize,
    refused: usize,
    names: usize,
}

/// The head name of bucket 0 by the second implementation, empty where it refuses. No other bucket
/// has one.
fn head(buffer: &[u8]) -> &[u8] {
    calls::head(buffer, 0).map_or(&[], |(start, length)| &buffer[start..start + length])
}

/// What the call for C says of a bucket: the part of the book, empty where it refuses.
fn part(book: &[u8], bucket: usize) -> &[u8] {
    match label_book_tests::calls::head(book, bucket) {
        (0, [start, length, _]) => &book[start as usize..][..length as usize],
        (number, told) => {
            assert!([1, 6, 10].contains(&number) && told == [0; 3], "bucket {bucket}: {number}");
            &[]
        }
    }
}

/// Every line that the program prints for an input.
fn compare(counts: &mut Counts, input: &[u8]) {
    let lent = &input[..input.len().min(BUFFER)];
    let head = head(lent);
    let printed = printed("lookup_heads", input);
    let lines: Vec<&[u8]> = printed.split(|byte| *byte == b'\n').collect();
    let agrees = lines.len() == LINES + 1
        && lines[LINES].is_empty()
        && (0..LINES).all(|bucket| {
            let second = if bucket == 0 { head } else { &[] };
            lines[bucket] == second && lines[bucket] == part(lent, bucket)
        });
    if !agrees {
        let (input, printed) = (input.escape_ascii(), printed.escape_ascii());
        panic!("lookup_heads: a difference\ninput  {input}\nours   {printed}\nsecond {head:?}");
    }
    counts.inputs += 1;
    counts.refused += book::read(lent).is_err() as usize;
    counts.names += !head.is_empty() as usize;
}

/// A book exact, with bytes behind it, cut by one byte, and damaged.
fn of_entries(counts: &mut Counts, random: &mut Random, held: &Entries) {
    let image = book::image(held);
    compare(counts, &image);
    let behind = random.pick(&[1, 9, 300, 70_000]);
    compare(counts, &[image.clone(), random.bytes(behind)].concat());
    compare(counts, &image[..image.len() - 1]);
    for _ in 0..4 {
        compare(counts, &make::damaged(random, &image));
    }
    let old = book::Version::Buckets.image(held);
    compare(counts, &old);
    compare(counts, &old[..random.between(1, old.len())]);
}

/// Inputs that are no books.
fn noise(counts: &mut Counts, random: &mut Random) {
    let length = random.below(200);
    let mut bytes = random.bytes(length);
    if length >= 7 {
        bytes[..7].copy_from_slice(&[0x22, 0, 0, 0, length as u8, 0, random.below(4) as u8]);
    }
    compare(counts, &bytes);
    compare(counts, &bytes[..random.below(8).min(length)]);
}

fn main() {
    let rounds = if std::env::var_os("LONG").is_some() { 100 } else { 1 };
    let mut random = Random::new(
        std::env::var("SEED").map_or(1, |seed| seed.parse().expect("SEED is a number")),
    );
    let mut counts = Counts::default();
    for _ in 0..rounds {
        for (n, names) in SIZES.iter().flat_map(|&n| NAMES.map(|names| (n, names))) {
            let held = make::entries(&mut random, n, names, Scores::Any);
            of_entries(&mut counts, &mut random, &held);
            noise(&mut counts, &mut random);
        }
        let held = make::entries(&mut random, 9, NAMES[0], Scores::Any);
        compare(&mut counts, &sheet::image(&held));
        compare(&mut counts, &trie::image(&held));
    }
    let Counts { inputs, refused, names } = counts;
    let books = format!("{inputs} inputs, {refused} of them no books");
    println!("lookup_heads: {books}, {names} head names handed out, all agree");
}
