//! Histories, call by call and whole, and long ones.
use super::conversions::there_and_back;
use super::pages::page_of;
use super::{lists, LONG_BUFFER};
use label_book_tests::calls::Told;
use label_book_tests::compare::{told_written, Compare};
use label_book_tests::make::{self, Names, Scores, NAMES, SCORES};
use label_book_tests::random::Random;
use label_book_tests::reference::calls::Written;
use label_book_tests::reference::script::{self, Call, Kind, ANSWER, EMPTY_BOOK};
use label_book_tests::reference::{book, ledger::Ledger, Entries};

/// A history as it was played: the buffers before it, the script, the kept answers, the buffers,
/// and which of them holds the book.
struct Played {
    before: [Vec<u8>; 2],
    script: Vec<u8>,
    answers: Vec<u8>,
    buffers: [Vec<u8>; 2],
    turned: usize,
}

impl Played {
    fn new(before: [Vec<u8>; 2]) -> Played {
        Played {
            buffers: before.clone(),
            before,
            script: Vec::new(),
            answers: Vec::new(),
            turned: 0,
        }
    }

    /// The buffer that holds the book, and the one that the next call writes to.
    fn roles(&mut self) -> (&[u8], &mut Vec<u8>) {
        let [first, second] = &mut self.buffers;
        match self.turned {
            0 => (first, second),
            _ => (second, first),
        }
    }

    /// Notes a call and its answer; an accepted one has written to the other buffer.
    fn note(&mut self, call: &Call, answer: Written) {
        self.script.extend(call.bytes());
        self.answers.extend(script::kept(answer));
        if answer.is_ok() {
            self.turned = 1 - self.turned;
        }
    }

    /// What the run of the whole script tells.
    fn told(&self) -> Told {
        (0, [(self.answers.len() / ANSWER) as u64, self.turned as u64, 0])
    }

    fn lent<'a>(&'a self, out: &'a [u8]) -> [&'a [u8]; 3] {
        [&self.before[0], &self.before[1], out]
    }
}

/// A set or withdraw to try. While the book shall shrink, most are withdrawals of names held.
fn any_call(
    random: &mut Random,
    names: Names,
    scores: Scores,
    held: &Entries,
    shrinks: bool,
) -> Call {
    let score = make::score(random, scores);
    if shrinks && !held.is_empty() && !random.chance(4) {
        return Call { kind: Kind::Withdraw, score, name: make::some_name(random, held) };
    }
    let name =
        if random.chance(2) { make::name(random, names, held) } else { make::asked(random, held) };
    let kind = if random.chance(3) { Kind::Withdraw } else { Kind::Set };
    Call { kind, score, name }
}

/// The calls of a history on buffers that are long enough.
pub fn some_calls(random: &mut Random, count: usize) -> Vec<Call> {
    let (names, scores) = (random.pick(&NAMES), random.pick(&SCORES));
    let mut ledger = Ledger::new(LONG_BUFFER);
    let mut calls = Vec::new();
    for _ in 0..count {
        calls.push(any_call(random, names, scores, &ledger.held, false));
        ledger.call(&calls[calls.len() - 1]).ok();
    }
    calls
}

/// A history on two buffers of the same length, call by call and then whole, against the ledger;
/// refusals included.
pub fn history(
    compare: &mut Compare,
    random: &mut Random,
    length: usize,
    steps: usize,
    names: Names,
) {
    let mut played = Played::new([random.bytes(length), random.bytes(length)]);
    let mut ledger = Ledger::new(length);
    let (told, first) = compare.empty(&played.before[0]);
    if length < EMPTY_BOOK {
        let script = script::bytes(&some_calls(random, steps));
        let out = random.bytes(ANSWER * steps);
        assert_eq!([told, compare.run(&script, played.lent(&out)).0], [(7, [0; 3]); 2]);
        return;
    }
    assert_eq!(told.0, 0);
    played.buffers[0] = first;
    call_by_call(compare, random, &mut played, &mut ledger, steps, names);
    let out = random.bytes(played.answers.len() + 3);
    let (told, left) = compare.run(&played.script, played.lent(&out));
    assert_eq!(told, played.told(), "the run's calls, and the buffer that holds the book");
    assert_eq!(left[..2], played.buffers, "the run's buffers");
    assert!(left[2].starts_with(&played.answers), "the run's answers");
    lists(compare, random, &left[played.turned], &ledger.held);
    page_of(compare, random, &left[played.turned], &ledger.held);
}

/// The calls of a history one after the other: each call's answer is the ledger's, and the book is
/// that of the entries held. Now and then it is moved back to version 21 and up again in between,
/// which nobody sees.
fn call_by_call(
    compare: &mut Compare,
    random: &mut Random,
    played: &mut Played,
    ledger: &mut Ledger,
    steps: usize,
    names: Names,
) {
    let scores = random.pick(&SCORES);
    for _ in 0..steps {
        if random.chance(8) {
            let book = &mut played.buffers[played.turned];
            *book = there_and_back(compare, random, book, &ledger.held);
        }
        let call = any_call(random, names, scores, &ledger.held, false);
        let (book, other) = played.roles();
        let (told, left) = match call.kind {
            Kind::Set => compare.set(book, &call.name, call.score, other),
            Kind::Withdraw => compare.withdraw(book, &call.name, other),
        };
        *other = left;
        let answer = ledger.call(&call);
        assert_eq!(told, told_written(answer), "the ledger's answer");
        played.note(&call, answer);
        assert!(played.roles().0.starts_with(&book::image(&ledger.held)), "the ledger's image");
    }
}

/// A long history, run whole, against the ledger's answers and the images of what it holds. The
/// book grows and shrinks in turn.
pub fn long_history(
    compare: &mut Compare,
    random: &mut Random,
    length: usize,
    steps: usize,
    names: Names,
) {
    let mut played = Played::new([random.bytes(length), random.bytes(length)]);
    let scores = random.pick(&SCORES);
    let mut ledger = Ledger::new(length);
    let write = |buffer: &mut [u8], held: &Entries| {
        let image = book::image(held);
        buffer[..image.len()].copy_from_slice(&image);
    };
    write(&mut played.buffers[0], &ledger.held);
    for step in 0..steps {
        let call = any_call(random, names, scores, &ledger.held, step % 5000 >= 3000);
        let answer = ledger.call(&call);
        if answer.is_ok() {
            write(played.roles().1, &ledger.held);
        }
        played.note(&call, answer);
    }
    let out = random.bytes(played.answers.len() + 3);
    let ledgers_run = |[first, second, out]: [&mut [u8]; 3]| {
        first.copy_from_slice(&played.buffers[0]);
        second.copy_from_slice(&played.buffers[1]);
        out[..played.answers.len()].copy_from_slice(&played.answers);
        played.told()
    };
    let (_, left) = compare.run_as(&played.script, played.lent(&out), ledgers_run);
    lists(compare, random, &left[played.turned], &ledger.held);
    page_of(compare, random, &left[played.turned], &ledger.held);
    there_and_back(compare, random, &left[played.turned], &ledger.held);
}
