//! How long each call takes at three sizes, in one run with warm buffers: the static library, the
//! same call in plain safe Rust over the same image with the same checks (`plain`), and one scan of
//! the image's bytes.
//!
//! `bench [BOOKS [EARLIER]]`: the calls read so many different books in turn, 8 if nothing is said;
//! one that is read again and again is learnt by the processor's branch predictor. The books are
//! built by the library, so that this file measures any version of it, but for those of version 21,
//! which the second implementation lays out. EARLIER is a file with the table of another run, of
//! the version before, which is then put beside this one's.
use label_book::{key, Panel, Range, COUNT_MAX, PAGE_MAX};
use label_book_tests::calls;
use label_book_tests::make::{self, Names, Places, Scores};
use label_book_tests::plain;
use label_book_tests::random::Random;
use label_book_tests::reference::{book::Version, sheet, Entries};
use std::collections::BTreeMap;
use std::hint::black_box;
use std::time::Instant;

/// As long as the longest page; no image is longer.
const LONG_BUFFER: usize = PAGE_MAX;
const SIZES: [usize; 3] = [16, 128, 1024];
const BOOKS: usize = 8;
const BATCHES: usize = 15;
const BATCH_NANOSECONDS: u128 = 2_000_000;

/// Every byte, one after the other, into a checksum.
fn scan(image: &[u8]) -> u64 {
    image.iter().fold(0, |sum: u64, &byte| sum.rotate_left(1) ^ byte as u64)
}

fn consume<A>(answer: A) {
    black_box(answer);
}

/// What the calls are given, of one book.
struct Case {
    book: Vec<u8>,
    /// The same book in version 21.
    old: Vec<u8>,
    sheet: Vec<u8>,
    trie: Vec<u8>,
    /// The name in the middle of the book, and the book without it.
    name: Vec<u8>,
    without: Vec<u8>,
    /// Two books with as many names in all, a quarter of them in both, and both behind each other.
    pair: [Vec<u8>; 2],
    joined: Vec<u8>,
    /// Nothing typed, and the name on the second row held.
    panel: Panel,
}

/// What a call of the library writes.
fn written(call: impl FnOnce(&mut [u8]) -> calls::Told) -> Vec<u8> {
    let mut dst = vec![0; LONG_BUFFER];
    let (number, [_, bytes, _]) = call(&mut dst);
    assert_eq!(number, 0, "a call is refused");
    dst.truncate(bytes as usize);
    dst
}

fn built(held: &Entries) -> Vec<u8> {
    written(|dst| calls::build(&sheet::image(held), dst))
}

fn case(n: usize, seed: u64) -> Case {
    let random = &mut Random::new(seed);
    let mut held = make::entries(random, n, Names::Mixed, Scores::Any);
    let (book, sheet) = (built(&held), sheet::image(&held));
    let old = Version::Buckets.image(&held);
    let trie = written(|dst| calls::write_trie(&book, dst));
    let name = held.keys().nth(n / 2).expect("a name in the middle").clone();
    held.remove(&name);
    let sizes = [n / 8 * 5; 2];
    let pair = make::pair(random, sizes, n / 4, Places::Mixed, Names::Mixed, Scores::Any)
        .map(|held| built(&held));
    let mut panel = Panel::default();
    calls::press(&book, &mut panel, key::DOWN);
    let joined = pair.concat();
    Case { without: built(&held), book, old, sheet, trie, name, pair, joined, panel }
}

/// A call on one of the cases.
type Call<'a> = &'a mut dyn FnMut(&Case);

/// The nanoseconds of a call, which is made so many times on each case, in turn.
fn batch(times: u32, cases: &[Case], call: Call) -> f64 {
    let start = Instant::now();
    for _ in 0..times {
        cases.iter().for_each(&mut *call);
    }
    start.elapsed().as_nanos() as f64 / times as f64 / cases.len() as f64
}

/// The median nanoseconds of each call, their batches run in turn.
fn medians<const N: usize>(cases: &[Case], mut calls: [Call; N]) -> [f64; N] {
    let counts = calls.each_mut().map(|call| {
        let mut count = 1;
        loop {
            let start = Instant::now();
            batch(count, cases, call);
            if start.elapsed().as_nanos() > BATCH_NANOSECONDS {
                return count;
            }
            count *= 2;
        }
    });
    let mut taken = [(); N].map(|()| Vec::new());
    for _ in 0..BATCHES {
        for (i, call) in calls.iter_mut().enumerate() {
            taken[i].push(batch(counts[i], cases, call));
        }
    }
    taken.map(|mut all| {
        all.sort_by(f64::total_cmp);
        all[BATCHES / 2]
    })
}

/// The nanoseconds that a call took in another run, by its name and the size.
type Earlier = BTreeMap<(String, usize), f64>;

fn earlier(table: &str) -> Earlier {
    let rows = table.lines().filter_map(|line| {
        let cells: Vec<&str> = line.split('|').map(str::trim).collect();
        let [_, call, n, _, ours, ..] = cells[..] else {
            return None;
        };
        Some(((call.to_string(), n.parse().ok()?), ours.parse().ok()?))
    });
    rows.collect()
}

/// The cases of one size, and what the lines are compared with.
struct Bench {
    n: usize,
    cases: Vec<Case>,
    earlier: Earlier,
}

impl Bench {
    fn line(&self, call: &str, image: fn(&Case) -> &[u8], ours: Call, plain: Call) {
        let scanned = &mut |case: &Case| consume(scan(black_box(image(case))));
        let [ours, plain, scanned] = medians(&self.cases, [ours, plain, scanned]);
        let bytes = self.cases.iter().map(|case| image(case).len()).sum::<usize>();
        let (n, bytes, call) = (self.n, bytes / self.cases.len(), format!("`{call}`"));
        print!("| {call} | {n} | {bytes} | {ours:.0} | {plain:.0} | {scanned:.0} ");
        print!("| {:.2} | {:.2} |", ours / plain, ours / scanned);
        match self.earlier.get(&(call, n)) {
            Some(before) => println!(" {before:.0} | {:.2} |", ours / before),
            None => println!(),
        }
    }
}

/// One call of both kinds on a case, by its name and its arguments in front of the destination.
macro_rules! writes {
    ($bench:expr, $said:expr, $call:ident, $image:expr, |$case:ident| $($argument:expr),*) => {{
        let (mut one, mut two) = (vec![0; LONG_BUFFER], vec![0; LONG_BUFFER]);
        let ours: Call =
            &mut |$case| consume(calls::$call($(black_box($argument)),*, &mut one));
        let plain: Call =
            &mut |$case| consume(plain::$call($(black_box($argument)),*, &mut two));
        $bench.line($said, $image, ours, plain);
    }};
}

macro_rules! reads {
    ($bench:expr, $call:ident, |$case:ident| $($argument:expr),*) => {{
        let ours: Call = &mut |$case| consume(calls::$call($(black_box($argument)),*));
        let plain: Call = &mut |$case| consume(plain::$call($(black_box($argument)),*));
        $bench.line(stringify!($call), |case| &case.book, ours, plain);
    }};
}

fn book(case: &Case) -> &[u8] {
    &case.book
}

fn lookups(bench: &Bench) {
    let n = bench.n;
    // In plain Rust the call for the first head name does little else.
    bench.line(
        "check",
        book,
        &mut |case| consume(calls::check(black_box(&case.book))),
        &mut |case| consume(plain::head(black_box(&case.book), 0)),
    );
    reads!(bench, head, |case| &case.book, 0);
    reads!(bench, find, |case| &case.book, &case.name);
    reads!(bench, prefix_range, |case| &case.book, &case.name[..1]);
    writes!(bench, "name_of", name_of, book, |case| &case.book, &case.name);
    writes!(bench, "name_at", name_at, book, |case| &case.book, n / 2);
}

fn completions(bench: &Bench) {
    let mut ranges = [Range::default(); COUNT_MAX];
    let (mut one, mut two) = (vec![0; LONG_BUFFER], vec![0; LONG_BUFFER]);
    bench.line(
        "complete",
        book,
        &mut |case| {
            let (book, prefix) = (black_box(&case.book), &case.name[..1]);
            consume(calls::complete(book, prefix, 5, &mut one, &mut ranges))
        },
        &mut |case| {
            let (book, prefix) = (black_box(&case.book), &case.name[..1]);
            consume(plain::complete(book, prefix, 5, &mut two, COUNT_MAX))
        },
    );
    let trie: fn(&Case) -> &[u8] = |case| &case.trie;
    let said = "complete_trie";
    writes!(bench, said, complete_trie, trie, |case| &case.trie, &case.name[..1], 5);
}

/// The first letter of the middle name is appended, the highlight moved, the held name taken.
fn keys(bench: &Bench) {
    let letter: fn(&Case) -> u8 = |case| case.name[0];
    for (said, key) in
        [("press (a letter)", letter), ("press (02)", |_| key::DOWN), ("press (0D)", |_| key::TAKE)]
    {
        bench.line(
            said,
            book,
            &mut |case| {
                let mut panel = case.panel.clone();
                consume((calls::press(black_box(&case.book), &mut panel, key(case)), panel))
            },
            &mut |case| {
                let mut panel = case.panel.clone();
                consume((plain::press(black_box(&case.book), &mut panel, key(case)), panel))
            },
        );
    }
}

fn edits(bench: &Bench) {
    let without: fn(&Case) -> &[u8] = |case| &case.without;
    writes!(bench, "set (a new name)", set, without, |case| &case.without, &case.name, 5);
    writes!(bench, "set (a new score)", set, book, |case| &case.book, &case.name, 5);
    writes!(bench, "withdraw", withdraw, book, |case| &case.book, &case.name);
    let joined: fn(&Case) -> &[u8] = |case| &case.joined;
    writes!(bench, "merge", merge, joined, |case| &case.pair[0], &case.pair[1]);
}

fn conversions(bench: &Bench) {
    let sheet: fn(&Case) -> &[u8] = |case| &case.sheet;
    writes!(bench, "build", build, sheet, |case| &case.sheet);
    writes!(bench, "list", list, book, |case| &case.book);
    writes!(bench, "page", page, book, |case| &case.book);
    writes!(bench, "write_trie", write_trie, book, |case| &case.book);
}

/// Up and back, with room for any book, and with just the room needed, where it is measured first.
fn moves(bench: &Bench) {
    let (old, today): (fn(&Case) -> &[u8], fn(&Case) -> &[u8]) = (|case| &case.old, book);
    let (mut one, mut two) = (vec![0; LONG_BUFFER], vec![0; LONG_BUFFER]);
    for (way, from, to) in [("up", old, today), ("back", today, old)] {
        writes!(bench, &format!("convert ({way})"), convert, from, |case| from(case));
        bench.line(
            &format!("convert ({way}, just room)"),
            from,
            &mut |case| consume(calls::convert(black_box(from(case)), &mut one[..to(case).len()])),
            &mut |case| consume(plain::convert(black_box(from(case)), &mut two[..to(case).len()])),
        );
    }
}

fn main() {
    let mut arguments = std::env::args().skip(1);
    let books = arguments.next().map_or(BOOKS, |books| books.parse().expect("a number of books"));
    let table = arguments.next().map(|path| std::fs::read_to_string(path).expect("a table"));
    let table = table.unwrap_or_default();
    let more = if table.is_empty() { ["", ""] } else { [" before | ours / before |", "---|---|"] };
    println!("{books} different books in turn, nanoseconds, medians of {BATCHES}:\n");
    println!(
        "| call | n | image bytes | ours | plain | scan | ours / plain | ours / scan |{}",
        more[0]
    );
    println!("|---|---|---|---|---|---|---|---|{}", more[1]);
    for n in SIZES {
        let cases = (0..books as u64).map(|seed| case(n, 3 + seed)).collect();
        let bench = Bench { n, cases, earlier: earlier(&table) };
        for lines in [lookups, completions, keys, edits, conversions, moves] {
            lines(&bench);
        }
    }
}
