//! The package label-book: each of its functions gives what the C name gives, a book that owns its
//! buffers follows the calls, a panel holds the highlighted name, and its numbers are those of the
//! library.
use label_book::{Found, Offered, Played, Refusal, Span, Written};
use label_book_tests::calls::Told;
use std::collections::{BTreeMap, BTreeSet};

#[path = "package/books.rs"]
mod books;
#[path = "package/functions.rs"]
mod functions;
#[path = "package/limits.rs"]
mod limits;
#[path = "package/panels.rs"]
mod panels;
#[path = "package/values.rs"]
mod values;

/// Every number that each function is to be seen to give; 0 is an answer.
const NUMBERS: [(&str, &[u8]); 19] = [
    ("empty", &[0, 7]),
    ("set", &[0, 1, 2, 5, 7, 10]),
    ("withdraw", &[0, 1, 2, 4, 7, 10]),
    ("merge", &[0, 1, 5, 7, 10]),
    ("check", &[0, 1, 10]),
    ("find", &[0, 1, 2, 10]),
    ("name_at", &[0, 1, 6, 7, 10]),
    ("name_of", &[0, 1, 2, 4, 7, 10]),
    ("prefix_range", &[0, 1, 2, 10]),
    ("head", &[0, 1, 6, 10]),
    ("build", &[0, 1, 7]),
    ("list", &[0, 1, 7, 10]),
    ("page", &[0, 1, 7, 10]),
    ("convert", &[0, 1, 7]),
    ("write_trie", &[0, 1, 7, 10]),
    ("complete", &[0, 1, 2, 3, 7, 10]),
    ("complete_trie", &[0, 1, 2, 3, 7]),
    ("press", &[0, 1, 2, 8, 9, 10]),
    ("run", &[0, 1, 7]),
];

/// Out values of a C name, in the order of the header.
trait Outs {
    fn outs(self) -> [u64; 3];
}

impl Outs for Written {
    fn outs(self) -> [u64; 3] {
        [self.entries as u64, self.bytes as u64, 0]
    }
}

impl Outs for Option<Found> {
    fn outs(self) -> [u64; 3] {
        self.map_or([0; 3], |found| [1, found.position as u64, found.score as u64])
    }
}

impl Outs for Span {
    fn outs(self) -> [u64; 3] {
        [self.first as u64, self.count as u64, 0]
    }
}

impl Outs for Offered {
    fn outs(self) -> [u64; 3] {
        [self.offered as u64, self.bytes as u64, self.looks as u64]
    }
}

impl Outs for Played {
    fn outs(self) -> [u64; 3] {
        [self.calls as u64, self.turned as u64, 0]
    }
}

/// Rows.
impl Outs for usize {
    fn outs(self) -> [u64; 3] {
        [self as u64, 0, 0]
    }
}

/// What the C name must have told: 0 and the out values, or the refusal's number and zeros.
fn told(answer: Result<impl Outs, Refusal>) -> Told {
    answer.map_or_else(|refusal| (refusal.number(), [0; 3]), |answer| (0, answer.outs()))
}

#[derive(Default)]
struct Package {
    cases: u64,
    numbers: BTreeMap<&'static str, BTreeSet<u8>>,
}

impl Package {
    /// A function and the C name, which give the same.
    fn same(&mut self, name: &'static str, answer: Result<impl Outs, Refusal>, raw: Told) {
        assert_eq!(told(answer), raw, "{name}: the function, and the C name");
        self.cases += 1;
        self.numbers.entry(name).or_default().insert(raw.0);
    }

    /// The same with a destination of so many bytes, in which they leave the same.
    fn writes<A: Outs>(
        &mut self,
        name: &'static str,
        room: usize,
        function: impl FnOnce(&mut [u8]) -> Result<A, Refusal>,
        raw: impl FnOnce(&mut [u8]) -> Told,
    ) {
        let mut dsts = [vec![0xEE; room], vec![0xEE; room]];
        let [dst, raw_dst] = &mut dsts;
        self.same(name, function(dst), raw(raw_dst));
        assert!(dst == raw_dst, "{name}: the destination");
    }

    fn case(&mut self, holds: bool, what: &str) {
        assert!(holds, "{what}");
        self.cases += 1;
    }
}

fn main() {
    let mut package = Package::default();
    functions::all(&mut package);
    let numbers = NUMBERS.map(|(name, numbers)| (name, numbers.iter().copied().collect()));
    assert_eq!(package.numbers, BTreeMap::from(numbers), "the numbers that were seen");
    books::all(&mut package);
    values::all(&mut package);
    panels::all(&mut package);
    limits::all(&mut package);
    println!("package: {} cases", package.cases);
}
