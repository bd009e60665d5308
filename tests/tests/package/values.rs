//! Entries of answers, cut and hostile ones too; refusals; what is typed on a panel.
use super::Package;
use label_book::{entries, Panel, Refusal, FRONT, NAME_MAX};
use label_book_tests::make::{self, Names, Scores};
use label_book_tests::random::Random;
use label_book_tests::reference::sheet;
use std::collections::BTreeSet;
use std::error::Error;

pub fn all(package: &mut Package) {
    let random = &mut Random::new(3);
    sheets(package, random);
    hostile_answers(package, random);
    refusals(package);
    typed(package);
}

/// The entries at the front of some bytes, read by counting.
fn counted(bytes: &[u8]) -> Vec<(Vec<u8>, u32)> {
    let mut found = Vec::new();
    let mut at = 0;
    while at < bytes.len() {
        let score_at = at + 1 + bytes[at] as usize;
        if score_at + 4 > bytes.len() {
            break;
        }
        let score = bytes[score_at..score_at + 4].iter().fold(0, |n, &b| n << 8 | b as u32);
        found.push((bytes[at + 1..score_at].to_vec(), score));
        at = score_at + 4;
    }
    found
}

/// The iterator gives these entries, and then none however often it is asked.
fn same_entries(package: &mut Package, bytes: &[u8], expected: &[(Vec<u8>, u32)]) {
    let mut iterator = entries(bytes);
    let given: Vec<(Vec<u8>, u32)> =
        iterator.by_ref().map(|entry| (entry.name.to_vec(), entry.score)).collect();
    package.case(given == expected, "the entries of an answer");
    package.case((0..3).all(|_| iterator.next().is_none()), "behind the last entry");
}

/// The entries of sheets are the book's; a sheet that is cut has those that are whole.
fn sheets(package: &mut Package, random: &mut Random) {
    for n in [0, 1, 12] {
        let held = make::entries(random, n, Names::Any, Scores::Any);
        let expected: Vec<(Vec<u8>, u32)> = held.clone().into_iter().collect();
        let sheet = &sheet::image(&held)[FRONT..];
        same_entries(package, sheet, &expected);
        for end in 0..sheet.len() {
            let whole = counted(&sheet[..end]);
            package.case(whole.len() < n && expected.starts_with(&whole), "a sheet that is cut");
            same_entries(package, &sheet[..end], &whole);
        }
    }
}

/// Any bytes: lengths of 0, of more than is there, of more than a name has.
fn hostile_answers(package: &mut Package, random: &mut Random) {
    same_entries(package, &[0, 0, 0, 1, 0], &[(vec![], 256)]);
    same_entries(package, &[0, 0, 0, 1], &[]);
    same_entries(package, &[255; 259], &[]);
    same_entries(package, &[255; 260], &[(vec![255; 255], u32::MAX)]);
    for _ in 0..2000 {
        let length = random.below(80);
        let mut bytes = random.bytes(length);
        bytes.iter_mut().for_each(|byte| *byte = random.pick(&[0, 1, 2, 5, *byte]));
        same_entries(package, &bytes, &counted(&bytes));
    }
}

/// The numbers 1 to 10 and no others are refusals, each with words of its own.
fn refusals(package: &mut Package) {
    for number in 0..=255 {
        let refusal = Refusal::numbered(number);
        package.case(refusal.is_some() == (1..=10).contains(&number), "which numbers are refusals");
        package.case(refusal.is_none_or(|r| r.number() == number), "a refusal's number");
    }
    let numbers = Refusal::ALL.map(Refusal::number);
    package.case(numbers == [1, 2, 3, 4, 5, 6, 7, 8, 9, 10], "the refusals in their order");
    let words = Refusal::ALL.map(|refusal| refusal.to_string());
    package.case(words.iter().all(|words| !words.trim().is_empty()), "a refusal has words");
    package.case(BTreeSet::from(words).len() == numbers.len(), "a refusal has its own words");
    let error: Box<dyn Error> = Box::new(Refusal::NotHeld);
    package.case(error.to_string() == Refusal::NotHeld.to_string(), "a refusal is an error");
}

fn typed(package: &mut Package) {
    let empty = Panel::default();
    package.case(empty.typed().is_empty() && empty.text == [0; NAME_MAX], "an empty panel");
    package.case((empty.highlight, empty.rows) == (0, 0), "nothing is highlighted");
    for (len, typed) in [(0, 0), (3, 3), (NAME_MAX, NAME_MAX), (NAME_MAX + 1, NAME_MAX)] {
        let panel = Panel { text: [b'x'; NAME_MAX], len, ..Panel::default() };
        package.case(panel.typed() == vec![b'x'; typed], "what is typed");
    }
}
