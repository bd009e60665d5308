//! The cases that the documents work out.
mod conversions;
mod counts;
mod pages;
mod signs;
mod versions;

use super::calls::*;
use super::panel::press;
use super::script::{Call, Kind};
use super::*;
use crate::make::panel_of as panel;
use label_book::Panel;

fn bytes(hex: &str) -> Vec<u8> {
    hex.split_whitespace().map(|b| u8::from_str_radix(b, 16).unwrap()).collect()
}

fn of(entries: &[(&str, u32)]) -> Entries {
    entries.iter().map(|(name, score)| (name.as_bytes().to_vec(), *score)).collect()
}

fn e() -> Entries {
    of(&[("ac", 5), ("rc", 9), ("rc step", 9), ("rl", 12)])
}

fn offered(entries: &Entries, prefix: &str, k: usize) -> (Vec<u8>, Offered) {
    let mut dst = vec![0; 53 * k];
    let answer = complete(&book::image(entries), prefix.as_bytes(), k, &mut dst, k);
    dst.truncate(answer.map_or(0, |a| a.1));
    (dst, answer)
}

fn list_of(entries: &[(&str, u32)]) -> Vec<u8> {
    entries.iter().flat_map(|(name, score)| entry_bytes(name.as_bytes(), *score)).collect()
}

#[test]
fn p1_p2_empty() {
    assert_eq!(book::image(&Entries::new()), bytes("22 00 00 00 07 00 00"));
    assert_eq!(trie::image(&Entries::new()), bytes("31 00 00 00 07 00 00"));
}

#[test]
fn p3_book() {
    let image = bytes(
        "22 00 00 00 2B 00 04 00 00 00 05 00 00 00 09 00 00 00 09 00 00 00 0C 00 03 \
         00 02 61 63 00 02 72 63 02 05 20 73 74 65 70 01 01 6C",
    );
    assert_eq!(book::image(&e()), image);
    assert_eq!(book::read(&image), Ok(e()));
}

#[test]
fn p4_trie() {
    let image = bytes(
        "31 00 00 00 1C 00 04 51 0C 08 72 4A 07 61 63 01 6C 59 03 06 63 00 0D 20 73 74 65 70",
    );
    assert_eq!(trie::image(&e()), image);
    assert_eq!(trie::read(&image), Some(e()));
}

#[test]
fn p5_p6_p7_offered() {
    assert_eq!(offered(&e(), "r", 2), (list_of(&[("rl", 12), ("rc", 9)]), Ok((2, 14, 2))));
    let list = list_of(&[("rc", 9), ("rc step", 9)]);
    assert_eq!(offered(&e(), "rc", 5), (list.clone(), Ok((2, list.len(), 2))));
    assert_eq!(offered(&e(), "q", 3), (vec![], Ok((0, 0, 0))));
}

#[test]
fn p8_looks() {
    assert_eq!(offered(&of(&[("a", 1), ("b", 9), ("c", 1)]), "", 2).1.unwrap().2, 3);
}

#[test]
fn p9_p10_lengths() {
    let mut entries: Entries = ('1'..='8').map(|d| (d.to_string().into_bytes(), 0)).collect();
    entries.insert(vec![b'x'; 47], 0);
    entries.insert(vec![b'x'; 48], 0);
    let book = book::image(&entries);
    assert_eq!(book.len(), 125);
    assert_eq!(withdraw(&book, b"1", &mut [0; 117]), Err(TOO_SHORT));
    assert_eq!(withdraw(&book, b"1", &mut [0; 118]), Ok((9, 118)));
    entries.remove(&b"1"[..]);
    assert_eq!(book::image(&entries).len(), 118);
}

#[test]
fn limits() {
    let book = book::image(&e());
    let mut dst = [0; 2000];
    assert_eq!(set(&book, &[b'a'; 48], 1, &mut dst).map(|a| a.0), Ok(5));
    assert_eq!(set(&book, &[b'a'; 49], 1, &mut dst), Err(NAME));
    assert!(complete(&book, b"", 9, &mut dst, 9).is_ok());
    assert_eq!(complete(&book, b"", 10, &mut dst, 10), Err(COUNT));
    assert_eq!(complete(&book, b"", 9, &mut dst, 8), Err(TOO_SHORT));
    assert_eq!(complete(&book, b"", 9, &mut dst[..53 * 9 - 1], 9), Err(TOO_SHORT));
    // A lone name of 7 bytes is one node, of 8 bytes two.
    assert_eq!(
        trie::image(&of(&[("1234567", 0)])),
        bytes("31 00 00 00 0F 00 01 0F 31 32 33 34 35 36 37")
    );
    assert_eq!(
        trie::image(&of(&[("12345678", 0)])),
        bytes("31 00 00 00 12 00 01 1F 09 31 32 33 34 35 36 37 09 38")
    );
}

#[test]
fn merged_books() {
    let (one, two) = (book::image(&of(&[("rc", 9)])), book::image(&of(&[("rc", 20), ("rl", 12)])));
    // The first book's score counts, and the peak goes by it.
    let mut dst = [0xEE; 25];
    assert_eq!(merge(&one, &two, &mut dst), Ok((2, 24)));
    assert_eq!(
        dst[..],
        bytes("22 00 00 00 18 00 02 00 00 00 09 00 00 00 0C 00 01 00 02 72 63 01 01 6C EE")
    );
    assert_eq!(merge(&two, &one, &mut dst), Ok((2, 24)));
    assert_eq!(
        dst[..],
        bytes("22 00 00 00 18 00 02 00 00 00 14 00 00 00 0C 00 00 00 02 72 63 01 01 6C EE")
    );
    // With no entries, and with itself, a book stays as it is.
    let (none, book) = (book::image(&Entries::new()), book::image(&e()));
    for (first, second) in [(&none, &book), (&book, &none), (&book, &book)] {
        let mut dst = [0; 43];
        assert_eq!(merge(first, second, &mut dst), Ok((4, 43)));
        assert_eq!(dst[..], book);
    }
    assert_eq!(merge(&none, &none, &mut [0; 7]), Ok((0, 7)));
}

#[test]
fn merges_refused() {
    let (one, two) = (book::image(&of(&[("rc", 9)])), book::image(&of(&[("rc", 20), ("rl", 12)])));
    let mut dst = [0xEE; 23];
    assert_eq!(merge(&one, &two, &mut dst), Err(TOO_SHORT));
    assert_eq!(merge(&one[..one.len() - 1], &two, &mut dst), Err(IMAGE));
    assert_eq!(merge(&one, &two[..two.len() - 1], &mut dst), Err(IMAGE));
    assert_eq!(merge(&[], &[], &mut dst), Err(IMAGE));
    // 1,024 names in all, then one more, which is said before the short destination and behind a
    // book that is none.
    let numbered = |numbers: std::ops::Range<usize>| {
        numbers.map(|i| (format!("{i:04}").into_bytes(), 1)).collect::<Entries>()
    };
    let (low, high, higher) = (numbered(0..600), numbered(500..1024), numbered(500..1025));
    let [low, high, higher] = [low, high, higher].map(|entries| book::image(&entries));
    assert_eq!(merge(&low, &high, &mut [0; 10_000]).map(|a| a.0), Ok(1024));
    assert_eq!(merge(&low, &higher, &mut [0; 10_000]), Err(FULL));
    assert_eq!(merge(&low, &higher, &mut dst), Err(FULL));
    assert_eq!(merge(&low, &higher[1..], &mut dst), Err(IMAGE));
    assert_eq!(dst, [0xEE; 23]);
}

#[test]
fn p9_p10_run() {
    // The ten names in buffers of 126 bytes, from which "1" is withdrawn.
    let names = (b'1'..=b'8').map(|digit| vec![digit]).chain([vec![b'x'; 47], vec![b'x'; 48]]);
    let mut calls: Vec<Call> = names.map(|name| Call { kind: Kind::Set, score: 0, name }).collect();
    calls.push(Call { kind: Kind::Withdraw, score: 9, name: vec![b'1'] });
    assert_eq!(calls[10].bytes(), bytes("01 00 00 00 09 00 01 31"));
    let (script, mut first, mut second, mut out) =
        (script::bytes(&calls), [0xEE; 126], [0; 126], [0xEE; 78]);
    assert_eq!(script::run(&script, &mut first, &mut second, &mut out), Ok((11, 1)));
    assert_eq!(out[63..], bytes("00 00 0A 00 00 00 7D 00 00 09 00 00 00 76 EE"));
    assert_eq!((check(&first), first[125]), (Ok((10, 125)), 0xEE));
    assert_eq!(check(&second), Ok((9, 118)));
    // Room for the answers of ten calls, two lengths, buffers that are too short; the script is
    // said first.
    assert_eq!(script::run(&script, &mut first, &mut second, &mut out[..76]), Err(TOO_SHORT));
    assert_eq!(script::run(&script, &mut first, &mut second[1..], &mut out), Err(TOO_SHORT));
    assert_eq!(script::run(&[], &mut [0; 6], &mut [0; 6], &mut []), Err(TOO_SHORT));
    assert_eq!(script::run(&script[1..], &mut [], &mut [], &mut []), Err(IMAGE));
    assert_eq!(script::run(&[], &mut [0; 7], &mut [0; 7], &mut []), Ok((0, 0)));
    assert_eq!(check(&first[1..]), Err(IMAGE));
}

#[test]
fn a_child_field_counts_itself() {
    // 31 leaves of 8 bytes, one that is shorter, and an inner node of 2 bytes and its child field.
    for (others, size) in [(253, 1), (254, 1), (255, 2)] {
        let mut entries = of(&[("z1", 0), ("z2", 0)]);
        for first in 0..31 {
            entries.insert(vec![b'A' + first; 7], 0);
        }
        entries.insert(vec![b'a'; others - 2 - 31 * 8 - 1], 0);
        let image = trie::image(&entries);
        let at = 7 + others - 2;
        assert_eq!(image[at] & 0x38, size << 4 | 8, "others {others}");
        if others == 254 {
            assert_eq!(image[at + 1], 0xFF);
        }
        assert_eq!(trie::read(&image), Some(entries));
    }
}

#[test]
fn a_smaller_common_byte_is_refused() {
    // "rc step" with one common byte where two are shared.
    let image = bytes(
        "22 00 00 00 2C 00 04 00 00 00 05 00 00 00 09 00 00 00 09 00 00 00 0C 00 03 \
         00 02 61 63 00 02 72 63 01 06 63 20 73 74 65 70 01 01 6C",
    );
    assert_eq!(book::read(&image), Err(IMAGE));
}

/// What a key gives on a book of entries, and the panel that it leaves.
fn pressed(entries: &Entries, before: &Panel, key: u8) -> (Result<usize, u8>, Panel) {
    let mut panel = before.clone();
    let answer = press(&book::image(entries), &mut panel, key);
    (answer, panel)
}

#[test]
fn panel_keys() {
    let book = book::image(&e());
    let mut at = Panel { text: [0xFF; 48], highlight: 99, rows: 99, ..Panel::default() };
    let mut key = |key| (press(&book, &mut at, key), at.clone());
    assert_eq!(key(0), (Ok(4), panel("", 3, 4, "ac")));
    assert_eq!(key(b'r'), (Ok(3), panel("r", 0, 3, "rl")));
    assert_eq!(key(2), (Ok(3), panel("r", 1, 3, "rc")));
    assert_eq!(key(2), (Ok(3), panel("r", 2, 3, "rc step")));
    assert_eq!(key(2), (Ok(3), panel("r", 2, 3, "rc step")));
    assert_eq!(key(1), (Ok(3), panel("r", 1, 3, "rc")));
    assert_eq!(key(b'c'), (Ok(2), panel("rc", 0, 2, "rc")));
    assert_eq!(key(1), (Ok(2), panel("rc", 0, 2, "rc")));
    assert_eq!(key(2), (Ok(2), panel("rc", 1, 2, "rc step")));
    assert_eq!(key(8), (Ok(3), panel("r", 0, 3, "rl")));
    assert_eq!(key(2), (Ok(3), panel("r", 1, 3, "rc")));
    assert_eq!(key(2), (Ok(3), panel("r", 2, 3, "rc step")));
    assert_eq!(key(0x0D), (Ok(1), panel("rc step", 0, 1, "rc step")));
    assert_eq!(key(b'!'), (Ok(0), panel("rc step!", 0, 0, "")));
    assert_eq!(key(0x0D), (Ok(0), panel("rc step!", 0, 0, "")));
    assert_eq!(key(0x7F), (Err(KEY), panel("rc step!", 0, 0, "")));
    at.len = 49;
    assert_eq!(press(&book, &mut at, 0x7F), Err(NAME));
    // 48 bytes, and no more.
    let full = panel(&"x".repeat(48), 0, 0, "");
    assert_eq!(pressed(&e(), &full, b'x'), (Err(TEXT_FULL), full.clone()));
    assert_eq!(pressed(&e(), &full, 0), (Ok(0), full.clone()));
}

#[test]
fn a_name_is_added_above_the_highlighted_one() {
    // "r" offers rl 12, rc 9 and rc step 9; with the teacher's name rx 20, rl, rc, rc step.
    let before = panel("r", 1, 3, "rc");
    let mut entries = e();
    entries.insert(b"rx".to_vec(), 20);
    assert_eq!(pressed(&entries, &before, 0), (Ok(4), panel("r", 2, 4, "rc")));
    assert_eq!(pressed(&entries, &before, 0x0D), (Ok(2), panel("rc", 0, 2, "rc")));
    assert_eq!(pressed(&entries, &before, 1), (Ok(4), panel("r", 1, 4, "rl")));
    assert_eq!(pressed(&entries, &before, 2), (Ok(4), panel("r", 3, 4, "rc step")));
    // Another text: its first row, wherever the held name is.
    assert_eq!(pressed(&entries, &before, b'c'), (Ok(2), panel("rc", 0, 2, "rc")));
    assert_eq!(pressed(&entries, &before, 8), (Ok(5), panel("", 0, 5, "rx")));
    // Withdrawn again, the name goes back to its row, from the last row too.
    assert_eq!(pressed(&e(), &panel("r", 2, 4, "rc"), 0), (Ok(3), panel("r", 1, 3, "rc")));
    assert_eq!(
        pressed(&e(), &panel("r", 3, 4, "rc step"), 0),
        (Ok(3), panel("r", 2, 3, "rc step"))
    );
    // The held name has a row, whatever the row number says.
    for row in [0, 2, 3, 5, usize::MAX] {
        let before = panel("r", row, 0, "rc");
        assert_eq!(pressed(&e(), &before, 0), (Ok(3), panel("r", 1, 3, "rc")));
        assert_eq!(pressed(&e(), &before, 0x0D), (Ok(2), panel("rc", 0, 2, "rc")));
        assert_eq!(pressed(&e(), &before, 1), (Ok(3), panel("r", 0, 3, "rl")));
        assert_eq!(pressed(&e(), &before, 2), (Ok(3), panel("r", 2, 3, "rc step")));
    }
}

#[test]
fn the_held_name_is_withdrawn() {
    let mut entries = e();
    entries.remove(&b"rc"[..]);
    // "r" offers rl and rc step.
    let before = panel("r", 1, 3, "rc");
    assert_eq!(pressed(&entries, &before, 0), (Ok(2), panel("r", 1, 2, "rc step")));
    assert_eq!(pressed(&entries, &before, 0x0D), (Ok(1), panel("rc step", 0, 1, "rc step")));
    assert_eq!(pressed(&entries, &before, 1), (Ok(2), panel("r", 0, 2, "rl")));
    assert_eq!(pressed(&entries, &before, 2), (Ok(2), panel("r", 1, 2, "rc step")));
    // On the last row the highlight is lowered.
    let before = panel("r", 2, 3, "rc");
    assert_eq!(pressed(&entries, &before, 0), (Ok(2), panel("r", 1, 2, "rc step")));
    assert_eq!(pressed(&entries, &before, 1), (Ok(2), panel("r", 0, 2, "rl")));
    // The only row.
    let before = panel("a", 0, 1, "ac");
    entries.remove(&b"ac"[..]);
    assert_eq!(pressed(&entries, &before, 0), (Ok(0), panel("a", 0, 0, "")));
    assert_eq!(pressed(&entries, &before, 0x0D), (Ok(0), panel("a", 0, 0, "")));
    assert_eq!(pressed(&entries, &before, 2), (Ok(0), panel("a", 0, 0, "")));
}

#[test]
fn the_held_name_falls_below_the_fifth_row() {
    let six = of(&[("a1", 60), ("a2", 50), ("a3", 40), ("a4", 30), ("a5", 20), ("a6", 10)]);
    // On the fifth row, and from there no further.
    assert_eq!(pressed(&six, &panel("a", 0, 5, "a5"), 0), (Ok(5), panel("a", 4, 5, "a5")));
    assert_eq!(pressed(&six, &panel("a", 0, 5, "a5"), 2), (Ok(5), panel("a", 4, 5, "a5")));
    // The sixth is in the book, but on no row.
    assert_eq!(pressed(&six, &panel("a", 0, 5, "a6"), 0), (Ok(5), panel("a", 0, 5, "a1")));
    assert_eq!(pressed(&six, &panel("a", 7, 5, "a6"), 0x0D), (Ok(1), panel("a5", 0, 1, "a5")));
    // a2 at 5: a1, a3, a4, a5, a6.
    let mut fallen = six.clone();
    fallen.insert(b"a2".to_vec(), 5);
    let before = panel("a", 1, 5, "a2");
    assert_eq!(pressed(&fallen, &before, 0), (Ok(5), panel("a", 1, 5, "a3")));
    assert_eq!(pressed(&fallen, &before, 0x0D), (Ok(1), panel("a3", 0, 1, "a3")));
    assert_eq!(pressed(&fallen, &before, 2), (Ok(5), panel("a", 2, 5, "a4")));
    // a2 at 15: a1, a3, a4, a5, a2.
    fallen.insert(b"a2".to_vec(), 15);
    assert_eq!(pressed(&fallen, &before, 0), (Ok(5), panel("a", 4, 5, "a2")));
    assert_eq!(pressed(&fallen, &before, 0x0D), (Ok(1), panel("a2", 0, 1, "a2")));
    // At equal scores the earlier name comes first: a2 at 10 is in front of a6, and has the row.
    fallen.insert(b"a2".to_vec(), 10);
    assert_eq!(pressed(&fallen, &before, 0), (Ok(5), panel("a", 4, 5, "a2")));
    assert_eq!(pressed(&fallen, &panel("a", 4, 5, "a6"), 0), (Ok(5), panel("a", 4, 5, "a2")));
}

#[test]
fn no_held_name_or_one_that_is_not_offered() {
    // "r" offers rl, rc and rc step. No name held; one that does not begin with the text, in the
    // book or not; one that begins so and is in no book; the text itself.
    let full = "r".repeat(48);
    for held in ["", "ac", "zz", "ra", "rc ", "rc step!", "r", "R", " ", "~", &full] {
        for (row, lowered, name) in
            [(0, 0, "rl"), (1, 1, "rc"), (2, 2, "rc step"), (3, 2, "rc step")]
        {
            let before = panel("r", row, 0, held);
            assert_eq!(pressed(&e(), &before, 0), (Ok(3), panel("r", lowered, 3, name)));
        }
        let before = panel("r", usize::MAX, 9, held);
        assert_eq!(pressed(&e(), &before, 0), (Ok(3), panel("r", 2, 3, "rc step")));
        assert_eq!(pressed(&e(), &before, 1), (Ok(3), panel("r", 1, 3, "rc")));
        assert_eq!(pressed(&e(), &before, 2), (Ok(3), panel("r", 2, 3, "rc step")));
        assert_eq!(pressed(&e(), &before, 0x0D), (Ok(1), panel("rc step", 0, 1, "rc step")));
        assert_eq!(pressed(&e(), &before, b'c'), (Ok(2), panel("rc", 0, 2, "rc")));
        assert_eq!(pressed(&e(), &before, 8), (Ok(4), panel("", 0, 4, "rl")));
    }
}

#[test]
fn keys_that_change_nothing_follow_the_name() {
    // The empty text offers rl 12, rc 9, rc step 9 and ac 5.
    assert_eq!(pressed(&e(), &panel("", 0, 0, "rc"), 8), (Ok(4), panel("", 1, 4, "rc")));
    assert_eq!(pressed(&e(), &panel("", 1, 4, "ac"), 8), (Ok(4), panel("", 3, 4, "ac")));
    assert_eq!(pressed(&e(), &panel("", 7, 4, "zz"), 8), (Ok(4), panel("", 3, 4, "ac")));
    assert_eq!(pressed(&e(), &panel("", 2, 4, ""), 8), (Ok(4), panel("", 2, 4, "rc step")));
    // Without rows there is no name to hold.
    for held in ["", "rc", "q", "zz"] {
        for key in [0, 1, 2, 0x0D] {
            assert_eq!(pressed(&e(), &panel("q", 3, 5, held), key), (Ok(0), panel("q", 0, 0, "")));
        }
        let none = Entries::new();
        assert_eq!(pressed(&none, &panel("", 3, 5, held), 8), (Ok(0), Panel::default()));
    }
}

#[test]
fn held_names_refused() {
    let (book, keys) = (book::image(&e()), [0, 1, 2, 8, 0x0D, b'c', 0x7F, 3]);
    let refused = |before: &Panel| {
        for key in keys {
            let mut panel = before.clone();
            assert_eq!((press(&book, &mut panel, key), &panel), (Err(NAME), before));
            assert_eq!((press(&book[1..], &mut panel, key), &panel), (Err(IMAGE), before));
        }
    };
    // "rc step" with a byte that is not allowed, at each place; the last byte of 48.
    for byte in [0, 0x1F, 0x7F, 0x80, 0xFF] {
        for at in 0..7 {
            let mut before = panel("r", 0, 3, "rc step");
            before.held[at] = byte;
            refused(&before);
        }
        let mut before = panel("r", 0, 3, &"r".repeat(48));
        before.held[47] = byte;
        refused(&before);
        // One byte less does not have it.
        before.held_len = 47;
        assert_eq!(pressed(&e(), &before, 0), (Ok(3), panel("r", 0, 3, "rl")));
    }
    for length in [49, 50, 256, 1 << 32, usize::MAX] {
        refused(&Panel { held_len: length, ..panel("r", 0, 3, &"r".repeat(48)) });
        refused(&Panel { held_len: length, ..Panel::default() });
    }
    // Said before a full text; and of a text that is not allowed, too.
    let mut before = panel(&"r".repeat(48), 0, 0, "rc\x7F");
    refused(&before);
    before.text[0] = 0;
    refused(&before);
    refused(&Panel { len: 49, ..panel("", 0, 0, "rc") });
}

#[test]
fn bytes_behind_the_held_name() {
    for (key, left) in [
        (0, panel("r", 1, 3, "rc")),
        (2, panel("r", 2, 3, "rc step")),
        (0x0D, panel("rc", 0, 2, "rc")),
        (b'x', panel("rx", 0, 0, "")),
    ] {
        for byte in [0xFF, 0, b' ', b'x'] {
            let mut before = panel("r", 0, 3, "rc");
            before.text[1..].fill(byte);
            before.held[2..].fill(byte);
            assert_eq!(pressed(&e(), &before, key), (Ok(left.rows), left.clone()));
        }
    }
    // No byte of it is read where its length is 0.
    let before = Panel { held_len: 0, ..panel("r", 1, 3, "rc step") };
    assert_eq!(pressed(&e(), &before, 0), (Ok(3), panel("r", 1, 3, "rc")));
}

#[test]
fn program_output() {
    let input = b"set 5 ac\nset 9 rc\nset 9 rc step\nset 12 rl\ntop 2 r\ndel zz";
    assert_eq!(program::run(input), b"ok 1\nok 2\nok 3\nok 4\n12 rl\n9 rc\nlooks 2\nno 4\n");
    let input = b"\nset 5 \ntop 2\ntop 2 \ntop 0 a\ntop 10 \x80\nset 4294967296 a\n\
          set 0000000001  a\nset 00000000001 a\nDEL a\ndel \n";
    assert_eq!(
        program::run(input),
        b"bad\nno 2\nbad\nlooks 0\nno 3\nno 2\nbad\nok 1\nbad\nbad\nno 2\n"
    );
    assert_eq!(program::run(b""), b"");
}
