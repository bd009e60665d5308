//! Every C name, called on a painted stack: what it takes at most, over all inputs.
use label_book::{c, Panel, Range};
use label_book_tests::calls::{self, Told};
use label_book_tests::stack::{Arguments, Painted};
use std::collections::BTreeMap;

/// The most that a C name took, and the kind of the first input for which it did.
#[derive(Clone, Copy)]
pub struct Most {
    pub bytes: usize,
    pub kind: &'static str,
}

/// Room for every image and page, and for the answers of a script of 10,000 calls.
const ROOM: usize = 85_000;

pub struct Measure {
    stack: Painted,
    room: Vec<u8>,
    pub most: BTreeMap<&'static str, Most>,
    pub inputs: u64,
    /// What the inputs that come are.
    pub kind: &'static str,
}

impl Default for Measure {
    fn default() -> Measure {
        Measure {
            stack: Painted::default(),
            room: vec![0; ROOM],
            most: BTreeMap::new(),
            inputs: 0,
            kind: "",
        }
    }
}

fn source(bytes: &[u8]) -> [usize; 2] {
    [bytes.as_ptr() as usize, bytes.len()]
}

fn destination<T>(lent: &mut [T]) -> [usize; 2] {
    [lent.as_mut_ptr() as usize, lent.len()]
}

impl Measure {
    /// Calls a C name on the painted stack: what is given, then the out pointers. It must tell what
    /// it tells on another stack, so that what is measured is the call that is meant.
    fn call(&mut self, name: &'static str, at: *const (), given: &[&[usize]], expected: Told) {
        let mut told = [0; 3];
        let outs = told.each_mut().map(|out: &mut u64| out as *mut u64 as usize);
        let mut arguments: Arguments = [0; 12];
        for (place, word) in arguments.iter_mut().zip(given.concat().into_iter().chain(outs)) {
            *place = word;
        }
        let (number, bytes) = unsafe { self.stack.call(at, &arguments) };
        assert_eq!((number, told), expected, "{name} on the painted stack");
        self.inputs += 1;
        let most = self.most.entry(name).or_insert(Most { bytes: 0, kind: "" });
        if bytes > most.bytes {
            *most = Most { bytes, kind: self.kind };
        }
    }

    /// A call with a destination of so many bytes.
    fn writes(
        &mut self,
        name: &'static str,
        at: *const (),
        given: &[&[usize]],
        room: usize,
        call: impl FnOnce(&mut [u8]) -> Told,
    ) {
        let mut room_of_all = std::mem::take(&mut self.room);
        let dst = &mut room_of_all[..room];
        let expected = call(dst);
        self.call(name, at, &[given, &[&destination(dst)]].concat(), expected);
        self.room = room_of_all;
    }

    pub fn empty(&mut self, room: usize) {
        self.writes("label_book_empty", c::label_book_empty as _, &[], room, calls::empty);
    }

    pub fn set(&mut self, book: &[u8], name: &[u8], score: u32, room: usize) {
        let given: [&[usize]; 3] = [&source(book), &source(name), &[score as usize]];
        self.writes("label_book_set", c::label_book_set as _, &given, room, |dst| {
            calls::set(book, name, score, dst)
        });
    }

    pub fn withdraw(&mut self, book: &[u8], name: &[u8], room: usize) {
        let given: [&[usize]; 2] = [&source(book), &source(name)];
        self.writes("label_book_withdraw", c::label_book_withdraw as _, &given, room, |dst| {
            calls::withdraw(book, name, dst)
        });
    }

    pub fn merge(&mut self, first: &[u8], second: &[u8], room: usize) {
        let given: [&[usize]; 2] = [&source(first), &source(second)];
        self.writes("label_book_merge", c::label_book_merge as _, &given, room, |dst| {
            calls::merge(first, second, dst)
        });
    }

    pub fn check(&mut self, book: &[u8]) {
        let expected = calls::check(book);
        self.call("label_book_check", c::label_book_check as _, &[&source(book)], expected);
    }

    pub fn find(&mut self, book: &[u8], name: &[u8]) {
        let given: [&[usize]; 2] = [&source(book), &source(name)];
        self.call("label_book_find", c::label_book_find as _, &given, calls::find(book, name));
    }

    pub fn name_at(&mut self, book: &[u8], position: usize, room: usize) {
        let given: [&[usize]; 2] = [&source(book), &[position]];
        self.writes("label_book_name_at", c::label_book_name_at as _, &given, room, |dst| {
            calls::name_at(book, position, dst)
        });
    }

    pub fn name_of(&mut self, book: &[u8], name: &[u8], room: usize) {
        let given: [&[usize]; 2] = [&source(book), &source(name)];
        self.writes("label_book_name_of", c::label_book_name_of as _, &given, room, |dst| {
            calls::name_of(book, name, dst)
        });
    }

    pub fn prefix_range(&mut self, book: &[u8], prefix: &[u8]) {
        let given: [&[usize]; 2] = [&source(book), &source(prefix)];
        let expected = calls::prefix_range(book, prefix);
        self.call("label_book_prefix_range", c::label_book_prefix_range as _, &given, expected);
    }

    pub fn head(&mut self, book: &[u8], bucket: usize) {
        let given: [&[usize]; 2] = [&source(book), &[bucket]];
        self.call("label_book_head", c::label_book_head as _, &given, calls::head(book, bucket));
    }

    pub fn build(&mut self, sheet: &[u8], room: usize) {
        let given: [&[usize]; 1] = [&source(sheet)];
        self.writes("label_book_build", c::label_book_build as _, &given, room, |dst| {
            calls::build(sheet, dst)
        });
    }

    pub fn list(&mut self, book: &[u8], room: usize) {
        let given: [&[usize]; 1] = [&source(book)];
        self.writes("label_book_list", c::label_book_list as _, &given, room, |dst| {
            calls::list(book, dst)
        });
    }

    pub fn page(&mut self, book: &[u8], room: usize) {
        let given: [&[usize]; 1] = [&source(book)];
        self.writes("label_book_page", c::label_book_page as _, &given, room, |dst| {
            calls::page(book, dst)
        });
    }

    pub fn convert(&mut self, book: &[u8], room: usize) {
        let given: [&[usize]; 1] = [&source(book)];
        self.writes("label_book_convert", c::label_book_convert as _, &given, room, |dst| {
            calls::convert(book, dst)
        });
    }

    pub fn write_trie(&mut self, book: &[u8], room: usize) {
        let given: [&[usize]; 1] = [&source(book)];
        self.writes("label_book_write_trie", c::label_book_write_trie as _, &given, room, |dst| {
            calls::write_trie(book, dst)
        });
    }

    pub fn complete(&mut self, book: &[u8], prefix: &[u8], k: usize, room: usize, ranges: usize) {
        let mut open = vec![Range::default(); ranges];
        let mut dst = vec![0; room];
        let expected = calls::complete(book, prefix, k, &mut dst, &mut open);
        let given: [&[usize]; 5] =
            [&source(book), &source(prefix), &[k], &destination(&mut dst), &destination(&mut open)];
        self.call("label_book_complete", c::label_book_complete as _, &given, expected);
    }

    pub fn complete_trie(&mut self, trie: &[u8], prefix: &[u8], k: usize, room: usize) {
        let given: [&[usize]; 3] = [&source(trie), &source(prefix), &[k]];
        let at = c::label_book_complete_trie as _;
        self.writes("label_book_complete_trie", at, &given, room, |dst| {
            calls::complete_trie(trie, prefix, k, dst)
        });
    }

    pub fn press(&mut self, book: &[u8], panel: &mut Panel, key: u8) {
        let mut lent = panel.clone();
        let expected = calls::press(book, panel, key);
        let at = &mut lent as *mut Panel as usize;
        let given: [&[usize]; 2] = [&source(book), &[at, key as usize]];
        self.call("label_book_press", c::label_book_press as _, &given, expected);
    }

    pub fn run(&mut self, script: &[u8], rooms: [usize; 3]) {
        let [mut first, mut second, mut out] = rooms.map(|room| vec![0; room]);
        let expected = calls::run(script, &mut first, &mut second, &mut out);
        let lent = [&mut first, &mut second, &mut out].map(|lent| destination(lent)).concat();
        let given: [&[usize]; 2] = [&source(script), &lent];
        self.call("label_book_run", c::label_book_run as _, &given, expected);
    }
}
