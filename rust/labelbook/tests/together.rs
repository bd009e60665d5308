//! Many at the same time: edits of one file are all kept, and a reader finds a whole book.
mod common;

use common::{book_of, run_all, Desk, Outcome, BOOK, EMPTY_BOOK};
use std::thread;

const ROUNDS: usize = 5;
const AT_ONCE: usize = 20;

fn main() {
    run_all(&[
        ("sets at once", sets),
        ("all edits at once", all_edits),
        ("edits through links", through_links),
        ("conversions at once", conversions),
        ("books made at once", made_at_once),
        ("reading meanwhile", reading_meanwhile),
    ]);
}

/// Starts runs together and waits for all of them.
fn together(desk: &Desk, runs: Vec<Vec<String>>) -> Vec<Outcome> {
    thread::scope(|scope| {
        let started: Vec<_> = runs
            .iter()
            .map(|arguments| scope.spawn(move || desk.run(arguments).outcome()))
            .collect();
        started.into_iter().map(|run| run.join().unwrap()).collect()
    })
}

fn words(arguments: &[&str]) -> Vec<String> {
    arguments.iter().map(|argument| argument.to_string()).collect()
}

fn all_succeed(outcomes: &[Outcome]) {
    outcomes.iter().for_each(|outcome| outcome.is(0, b"", ""));
}

fn set_runs(file: impl Fn(usize) -> &'static str) -> Vec<Vec<String>> {
    let set = |i| words(&["set", file(i), &i.to_string(), &format!("name {i:02}")]);
    (0..AT_ONCE).map(set).collect()
}

/// What 20 sets of other names leave.
fn twenty() -> Vec<(u32, String)> {
    (0..AT_ONCE).map(|i| (i as u32, format!("name {i:02}"))).collect()
}

fn sets(desk: &Desk) {
    for _ in 0..ROUNDS {
        desk.write("a.book", &EMPTY_BOOK);
        all_succeed(&together(desk, set_runs(|_| "a.book")));
        assert_eq!(desk.read("a.book"), book_of(&twenty()).image());
        assert_eq!(desk.names(), ["a.book"]);
    }
}

/// Sets, withdrawals and merges of names that do not touch each other.
fn all_edits(desk: &Desk) {
    for _ in 0..ROUNDS {
        let held: Vec<(u32, String)> = (0..AT_ONCE).map(|i| (7, format!("old {i}"))).collect();
        desk.write("a.book", book_of(&held).image());
        desk.write("b.book", &BOOK);
        desk.write("c.book", book_of(&[(1, "old 3"), (2, "other")]).image());
        let mut runs = set_runs(|_| "a.book");
        runs.extend((5..15).map(|i| words(&["withdraw", "a.book", &format!("old {i}")])));
        runs.push(words(&["merge", "a.book", "b.book"]));
        runs.push(words(&["merge", "a.book", "c.book"]));
        all_succeed(&together(desk, runs));
        let mut wanted = twenty();
        wanted.extend(
            held.into_iter().enumerate().filter(|(i, _)| !(5..15).contains(i)).map(|e| e.1),
        );
        wanted.extend(
            [(5, "ac"), (9, "rc"), (9, "rc step"), (12, "rl"), (2, "other")]
                .map(|(s, n)| (s, n.to_string())),
        );
        assert_eq!(desk.read("a.book"), book_of(&wanted).image());
        assert_eq!(desk.names(), ["a.book", "b.book", "c.book"]);
    }
}

fn through_links(desk: &Desk) {
    std::os::unix::fs::symlink("a.book", desk.path("link")).unwrap();
    for _ in 0..ROUNDS {
        desk.write("a.book", &EMPTY_BOOK);
        all_succeed(&together(desk, set_runs(|i| ["a.book", "link", "./a.book"][i % 3])));
        assert_eq!(desk.read("a.book"), book_of(&twenty()).image());
    }
}

/// Each finds what the one before it left: an even number of them leaves the book as it was.
fn conversions(desk: &Desk) {
    desk.write("a.book", &BOOK);
    for _ in 0..ROUNDS {
        let runs = (0..AT_ONCE).map(|_| words(&["convert", "a.book"])).collect();
        let outcomes = together(desk, runs);
        let ups = outcomes.iter().filter(|run| run.err.contains(" from version 21 to version 22;"));
        assert_eq!(ups.count(), AT_ONCE / 2);
        assert!(outcomes.iter().all(|run| run.status == 0));
        assert_eq!(desk.read("a.book"), BOOK);
        assert_eq!(desk.names(), ["a.book"]);
    }
}

/// One makes the file, and the others find it there.
fn made_at_once(desk: &Desk) {
    for i in 0..AT_ONCE {
        desk.write(&format!("lines {i}"), format!("{i} name\n").as_bytes());
    }
    for _ in 0..ROUNDS {
        let build = |i| words(&["build", "a.book", &format!("lines {i}")]);
        let outcomes = together(desk, (0..AT_ONCE).map(build).collect());
        let makers: Vec<usize> = (0..AT_ONCE).filter(|i| outcomes[*i].status == 0).collect();
        let [maker] = makers[..] else { panic!("{} runs made the file", makers.len()) };
        for outcome in outcomes.iter().filter(|outcome| outcome.status != 0) {
            outcome.is(74, b"", "labelbook: a.book: it exists already; --force replaces it\n");
        }
        desk.prints(&["list", "a.book"], format!("{maker} name\n"));
        assert_eq!(desk.names().len(), AT_ONCE + 1);
        desk.remove("a.book");
    }
}

/// While edits follow each other, every look finds a book.
fn reading_meanwhile(desk: &Desk) {
    desk.write("a.book", &EMPTY_BOOK);
    thread::scope(|scope| {
        let editor = scope.spawn(|| {
            for i in 0..100 {
                desk.does(&["set", "a.book", "1", &format!("name {i}")]);
            }
        });
        while !editor.is_finished() {
            let look = desk.run(&["check", "a.book"]).outcome();
            look.is(0, &look.out, "");
        }
    });
    assert!(desk.run(&["check", "a.book"]).outcome().out.starts_with(b"100 entries, "));
}
