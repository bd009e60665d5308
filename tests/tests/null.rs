//! NULL with length 0, as C++ gives it for the data of an empty vector: every call takes it for a
//! source, a destination or ranges as it takes an empty buffer that stands somewhere. Same number,
//! same out values, same bytes in every other buffer.
use label_book::c::{self, Panel, Range};
use label_book::{key, COUNT_MAX, NAME_MAX};
use label_book_tests::fence::Fence;
use label_book_tests::reference::script::{self, Call, Kind};
use label_book_tests::reference::{book, sheet, trie, Entries};
use std::collections::{BTreeMap, BTreeSet};
use std::ptr;

/// What the out values are before a call.
const BEFORE: usize = 0x5A5A_5A5A_5A5A_5A5A;
const RANGE: usize = size_of::<Range>();

/// The numbers that each call returns when a buffer of it is NULL, and any other arguments.
const NUMBERS: [(&str, &[u8]); 19] = [
    ("empty", &[7]),
    ("set", &[1, 2, 7, 10]),
    ("withdraw", &[1, 2, 4, 7, 10]),
    ("merge", &[1, 7, 10]),
    ("check", &[1]),
    ("find", &[1, 2, 10]),
    ("name_at", &[1, 6, 7, 10]),
    ("name_of", &[1, 2, 4, 7, 10]),
    ("prefix_range", &[0, 1, 10]),
    ("head", &[1]),
    ("build", &[1, 7]),
    ("list", &[1, 7, 10]),
    ("page", &[1, 7, 10]),
    ("convert", &[1, 7]),
    ("write_trie", &[1, 7, 10]),
    ("complete", &[0, 1, 2, 3, 7, 10]),
    ("complete_trie", &[0, 1, 2, 3, 7]),
    ("press", &[1]),
    ("run", &[0, 1, 7]),
];

/// A buffer as a call is given it.
#[derive(Clone, Copy)]
struct Lent {
    at: *mut u8,
    len: usize,
}

type Outs = [*mut usize; 3];

/// What a call leaves: its number, the out values, the bytes of every buffer.
type Left = (u8, [usize; 3], Vec<Vec<u8>>);

/// A call of a source and a destination.
type Writes = unsafe extern "C" fn(*const u8, usize, *mut u8, usize, *mut usize, *mut usize) -> u8;

/// A call of two sources and a destination.
type Joins = unsafe extern "C" fn(
    *const u8,
    usize,
    *const u8,
    usize,
    *mut u8,
    usize,
    *mut usize,
    *mut usize,
) -> u8;

struct Tried {
    cases: u64,
    numbers: BTreeMap<&'static str, BTreeSet<u8>>,
    /// Where an empty buffer stands: in front of a page that cannot be touched.
    nowhere: *mut u8,
}

impl Tried {
    /// A call with each of its empty buffers as NULL or not: it leaves the same.
    fn call<const N: usize>(
        &mut self,
        name: &'static str,
        given: [&[u8]; N],
        call: impl Fn([Lent; N], Outs) -> u8,
    ) {
        let empty: Vec<usize> = (0..N).filter(|&i| given[i].is_empty()).collect();
        let standing = self.left(given, &[], &call);
        for chosen in 1..1 << empty.len() {
            let bits = empty.iter().enumerate().filter(|(bit, _)| chosen & (1 << bit) != 0);
            let nulls: Vec<usize> = bits.map(|(_, &buffer)| buffer).collect();
            let left = self.left(given, &nulls, &call);
            assert_eq!(left, standing, "{name}: NULL for the buffers {nulls:?} of {given:02X?}");
            self.cases += 1;
            self.numbers.entry(name).or_default().insert(left.0);
        }
    }

    /// One call, on copies of what is given; the buffers in `nulls` are NULL.
    fn left<const N: usize>(
        &self,
        given: [&[u8]; N],
        nulls: &[usize],
        call: impl Fn([Lent; N], Outs) -> u8,
    ) -> Left {
        // Of words, so that a panel and ranges can stand in them.
        let mut words = given.map(|bytes| vec![0usize; bytes.len().div_ceil(size_of::<usize>())]);
        let lent: [Lent; N] = std::array::from_fn(|i| {
            let (bytes, at) = (given[i], words[i].as_mut_ptr().cast::<u8>());
            unsafe { ptr::copy_nonoverlapping(bytes.as_ptr(), at, bytes.len()) };
            match (bytes.len(), nulls.contains(&i)) {
                (0, true) => Lent { at: ptr::null_mut(), len: 0 },
                (0, false) => Lent { at: self.nowhere, len: 0 },
                (len, _) => Lent { at, len },
            }
        });
        let mut told = [BEFORE; 3];
        let number = call(lent, told.each_mut().map(ptr::from_mut));
        let left = words.iter().zip(given).map(|(words, bytes)| {
            let at = words.as_ptr().cast::<u8>();
            unsafe { std::slice::from_raw_parts(at, bytes.len()) }.to_vec()
        });
        let left: Vec<Vec<u8>> = left.collect();
        assert!(number == 0 || left == given, "a refusal changes a byte");
        (number, told, left)
    }

    fn writes(&mut self, name: &'static str, f: Writes, sources: &[Vec<u8>], rooms: &[Vec<u8>]) {
        for (source, room) in pairs(sources, rooms) {
            self.call(name, [source, room], |[s, d], [a, b, _]| unsafe {
                f(s.at, s.len, d.at, d.len, a, b)
            });
        }
    }

    fn joins(
        &mut self,
        name: &'static str,
        f: Joins,
        firsts: &[Vec<u8>],
        seconds: &[Vec<u8>],
        rooms: &[Vec<u8>],
    ) {
        for ((first, second), room) in triples(firsts, seconds, rooms) {
            self.call(name, [first, second, room], |[s, t, d], [a, b, _]| unsafe {
                f(s.at, s.len, t.at, t.len, d.at, d.len, a, b)
            });
        }
    }
}

fn pairs<'a, A, B>(first: &'a [A], second: &'a [B]) -> impl Iterator<Item = (&'a A, &'a B)> {
    first.iter().flat_map(move |a| second.iter().map(move |b| (a, b)))
}

fn triples<'a, A, B, C>(
    first: &'a [A],
    second: &'a [B],
    third: &'a [C],
) -> impl Iterator<Item = ((&'a A, &'a B), &'a C)> {
    pairs(first, second).flat_map(move |ab| third.iter().map(move |c| (ab, c)))
}

/// What is lent for each argument: nothing, what an answer needs, and what is refused.
struct Given {
    books: Vec<Vec<u8>>,
    names: Vec<Vec<u8>>,
    sheets: Vec<Vec<u8>>,
    tries: Vec<Vec<u8>>,
    scripts: Vec<Vec<u8>>,
    rooms: Vec<Vec<u8>>,
}

/// Nothing, the images of no entries and of some, and the last cut by a byte.
fn with_cut([none, some]: [Vec<u8>; 2]) -> Vec<Vec<u8>> {
    let cut = some[..some.len() - 1].to_vec();
    vec![vec![], none, some, cut]
}

/// Books, and two of version 21, of which one is cut to a byte.
fn with_old(books: Vec<Vec<u8>>, some: &Entries) -> Vec<Vec<u8>> {
    let old = book::Version::Buckets.image(some);
    books.into_iter().chain([old[..1].to_vec(), old]).collect()
}

fn given() -> Given {
    let some = [("ac", 5), ("rc", 9), ("rc step", 9), ("rl", 12)];
    let some: Entries = some.map(|(name, score)| (name.as_bytes().to_vec(), score)).into();
    let none = Entries::new();
    let call = |kind, name: &[u8]| Call { kind, score: 9, name: name.to_vec() };
    let calls = [call(Kind::Set, b"rc"), call(Kind::Set, b""), call(Kind::Withdraw, b"rc")];
    let names = [&b""[..], b"rc", b"r\xC2\xB5", b"zz", b"\xC2", &[b'x'; NAME_MAX + 1]];
    Given {
        books: with_old(with_cut([book::image(&none), book::image(&some)]), &some),
        names: names.map(<[u8]>::to_vec).into(),
        sheets: with_cut([sheet::image(&none), sheet::image(&some)]),
        tries: with_cut([trie::image(&none), trie::image(&some)]),
        scripts: with_cut([script::bytes(&calls[..1]), script::bytes(&calls)]),
        rooms: [0, 6, 7, 60, 900].map(|room| vec![0xEE; room]).into(),
    }
}

/// The calls that write an image or an entry.
fn writing(tried: &mut Tried, given: &Given) {
    let Given { books, names, sheets, rooms, .. } = given;
    for room in rooms {
        tried.call("empty", [room], |[d], [a, b, _]| unsafe {
            c::label_book_empty(d.at, d.len, a, b)
        });
    }
    tried.writes("build", c::label_book_build, sheets, rooms);
    tried.writes("list", c::label_book_list, books, rooms);
    tried.writes("page", c::label_book_page, books, rooms);
    tried.writes("convert", c::label_book_convert, books, rooms);
    tried.writes("write_trie", c::label_book_write_trie, books, rooms);
    tried.joins("withdraw", c::label_book_withdraw, books, names, rooms);
    tried.joins("name_of", c::label_book_name_of, books, names, rooms);
    tried.joins("merge", c::label_book_merge, books, books, rooms);
    for ((book, name), room) in triples(books, names, rooms) {
        tried.call("set", [book, name, room], |[s, t, d], [a, b, _]| unsafe {
            c::label_book_set(s.at, s.len, t.at, t.len, 7, d.at, d.len, a, b)
        });
    }
    for ((book, room), &position) in triples(books, rooms, &[0, 3, 4, usize::MAX]) {
        tried.call("name_at", [book, room], |[s, d], [a, b, _]| unsafe {
            c::label_book_name_at(s.at, s.len, position, d.at, d.len, a, b)
        });
    }
}

/// The calls that write nothing.
fn reading(tried: &mut Tried, given: &Given) {
    for book in &given.books {
        tried.call("check", [book], |[s], [a, b, _]| unsafe {
            c::label_book_check(s.at, s.len, a, b)
        });
        for bucket in [0, 1, usize::MAX] {
            tried.call("head", [book], |[s], [a, b, _]| unsafe {
                c::label_book_head(s.at, s.len, bucket, a, b)
            });
        }
        for name in &given.names {
            tried.call("find", [book, name], |[s, t], [a, b, score]| unsafe {
                c::label_book_find(s.at, s.len, t.at, t.len, a, b, score.cast())
            });
            tried.call("prefix_range", [book, name], |[s, t], [a, b, _]| unsafe {
                c::label_book_prefix_range(s.at, s.len, t.at, t.len, a, b)
            });
        }
    }
}

/// Both completions. What is in the ranges after an answer is of no account.
fn completing(tried: &mut Tried, given: &Given) {
    let Given { books, names, tries, rooms, .. } = given;
    let counts = [0, 1, COUNT_MAX, COUNT_MAX + 1];
    let ranges = [0, 1, COUNT_MAX].map(|count| vec![0xEE; RANGE * count]);
    for ((prefix, room), &k) in triples(names, rooms, &counts) {
        for (book, ranges) in pairs(books, &ranges) {
            let complete = |[s, p, d, r]: [Lent; 4], [a, b, l]: Outs| unsafe {
                let (open, most) = (r.at.cast::<Range>(), r.len / RANGE);
                let number = c::label_book_complete(
                    s.at, s.len, p.at, p.len, k, d.at, d.len, open, most, a, b, l,
                );
                if number == 0 {
                    r.at.write_bytes(0, r.len);
                }
                number
            };
            tried.call("complete", [book, prefix, room, ranges], complete);
        }
        for trie in tries {
            tried.call("complete_trie", [trie, prefix, room], |[s, p, d], [a, b, l]| unsafe {
                c::label_book_complete_trie(s.at, s.len, p.at, p.len, k, d.at, d.len, a, b, l)
            });
        }
    }
}

/// The bytes of a panel on which some bytes are typed and a name of some bytes is held.
fn panel(len: usize, held_len: usize) -> Vec<u8> {
    let (name, numbers) = ([b'r'; NAME_MAX], [len, 0, 0].map(usize::to_ne_bytes).concat());
    let bytes = [&name[..], &numbers, &name, &held_len.to_ne_bytes()].concat();
    assert_eq!(bytes.len(), size_of::<Panel>());
    bytes
}

fn pressing(tried: &mut Tried, given: &Given) {
    let lengths = [0, 1, NAME_MAX, NAME_MAX + 1];
    let keys = [key::RECOUNT, key::TAKE, key::MICRO, 3];
    for (book, ((&len, &held_len), &key)) in
        pairs(&given.books, &triples(&lengths, &lengths, &keys).collect::<Vec<_>>())
    {
        tried.call("press", [book, &panel(len, held_len)], |[s, p], [a, ..]| unsafe {
            c::label_book_press(s.at, s.len, p.at.cast::<Panel>(), key, a)
        });
    }
}

fn running(tried: &mut Tried, given: &Given) {
    for ((script, out), (first, second)) in triples(
        &given.scripts,
        &given.rooms,
        &pairs(&given.rooms, &given.rooms).collect::<Vec<_>>(),
    ) {
        let run = |[s, f, g, o]: [Lent; 4], [a, b, _]: Outs| unsafe {
            c::label_book_run(s.at, s.len, f.at, f.len, g.at, g.len, o.at, o.len, a, b)
        };
        tried.call("run", [script, first, second, out], run);
    }
}

fn main() {
    let mut fence = Fence::new(1);
    let nowhere = fence.lend(&[]).as_mut_ptr();
    let mut tried = Tried { cases: 0, numbers: BTreeMap::new(), nowhere };
    let given = given();
    writing(&mut tried, &given);
    reading(&mut tried, &given);
    completing(&mut tried, &given);
    pressing(&mut tried, &given);
    running(&mut tried, &given);
    let numbers = NUMBERS.map(|(name, numbers)| (name, numbers.iter().copied().collect()));
    assert_eq!(tried.numbers, BTreeMap::from(numbers), "the numbers returned");
    println!("null: {} cases", tried.cases);
}
