//! A page for the wall (02, request e).
use super::*;
use crate::make::{self, NAMES, SCORES};
use crate::random::Random;

type Line = [u8; page::LINE];

const HEADING: &Line = b"NAME                               SCORE";

/// The page of the entries has the heading and these lines, and a line feed behind each: in just
/// the room that it wants and with bytes behind it, which stay. A byte less is too short.
fn lays_out(entries: &Entries, lines: &[&Line]) {
    let lines = [&[HEADING], lines].concat();
    let written: Vec<u8> = lines.iter().flat_map(|line| [&line[..], b"\n"].concat()).collect();
    let book = book::image(entries);
    for behind in [0, 1, 100] {
        let mut dst = vec![0xEE; written.len() + behind];
        assert_eq!(page(&book, &mut dst), Ok((entries.len(), written.len())));
        assert_eq!(dst, [written.clone(), vec![0xEE; behind]].concat());
    }
    let mut dst = vec![0xEE; written.len() - 1];
    assert_eq!(page(&book, &mut dst), Err(TOO_SHORT));
    assert_eq!(dst, vec![0xEE; written.len() - 1]);
}

/// An entry with a name of these bytes.
fn lays_out_name(name: &[u8], lines: &[&Line]) {
    lays_out(&[(name.to_vec(), 7)].into(), lines);
}

#[test]
fn the_heading_alone() {
    lays_out(&Entries::new(), &[]);
    let mut dst = [0; 41];
    assert_eq!(page(&bytes("22 00 00 00 07 00 00"), &mut dst), Ok((0, 41)));
    let spaces = "20 ".repeat(31);
    assert_eq!(dst[..], bytes(&format!("4E 41 4D 45 {spaces} 53 43 4F 52 45 0A")));
}

/// rl, and then rc before rc step, which have the same score.
#[test]
fn e_in_rank() {
    lays_out(
        &e(),
        &[
            b"rl                                    12",
            b"rc                                     9",
            b"rc step                                9",
            b"ac                                     5",
        ],
    );
}

#[test]
fn names_of_every_length() {
    let letters = b"abcdefghijklmnopqrstuvwxyz0123456789ABCDEFGHIJKL";
    for (length, lines) in [
        (1, &[b"a                                      7"][..]),
        (27, &[b"abcdefghijklmnopqrstuvwxyz0            7"]),
        (28, &[b"abcdefghijklmnopqrstuvwxyz01           7"]),
        (
            29,
            &[
                b"abcdefghijklmnopqrstuvwxyz01           7",
                b"2                                       ",
            ],
        ),
        (
            48,
            &[
                b"abcdefghijklmnopqrstuvwxyz01           7",
                b"23456789ABCDEFGHIJKL                    ",
            ],
        ),
    ] {
        lays_out_name(&letters[..length], lines);
    }
}

/// Spaces of a name stand among the columns as its other bytes do.
#[test]
fn spaces_of_names() {
    lays_out_name(b" a ", &[b" a                                     7"]);
    let blank = b"                                        ";
    lays_out_name(&[b' '; 29], &[b"                                       7", blank]);
    lays_out_name(
        &[&[b' '; 28][..], b"x"].concat(),
        &[b"                                       7", b"x                                       "],
    );
}

/// A column is one byte: a sign across the end of a line has a half in each line.
#[test]
fn a_sign_is_split() {
    let behind = |letters: usize, end: &str| ["x".repeat(letters), end.to_string()].concat();
    for (name, lines) in [
        (
            behind(27, "µ"),
            [
                b"xxxxxxxxxxxxxxxxxxxxxxxxxxx\xC2           7",
                b"\xB5                                       ",
            ],
        ),
        (
            behind(27, "Ω, then"),
            [
                b"xxxxxxxxxxxxxxxxxxxxxxxxxxx\xCE           7",
                b"\xA9, then                                 ",
            ],
        ),
        (
            behind(28, "Ω"),
            [
                b"xxxxxxxxxxxxxxxxxxxxxxxxxxxx           7",
                b"\xCE\xA9                                      ",
            ],
        ),
        (
            behind(25, "µµΩ"),
            [
                b"xxxxxxxxxxxxxxxxxxxxxxxxx\xC2\xB5\xC2           7",
                b"\xB5\xCE\xA9                                     ",
            ],
        ),
    ] {
        lays_out_name(name.as_bytes(), &lines);
    }
    let whole = behind(26, "µ");
    lays_out_name(whole.as_bytes(), &[b"xxxxxxxxxxxxxxxxxxxxxxxxxx\xC2\xB5           7"]);
}

/// Scores of one digit to ten, each with its last digit in the last column.
#[test]
fn scores_to_the_right() {
    let entries = [0, 9, 10, 99, 100, 12_345, 999_999_999, 1_000_000_000, 4_294_967_295];
    let entries = entries.map(|score| (format!("of {score}").into_bytes(), score));
    lays_out(
        &entries.into(),
        &[
            b"of 4294967295                 4294967295",
            b"of 1000000000                 1000000000",
            b"of 999999999                   999999999",
            b"of 12345                           12345",
            b"of 100                               100",
            b"of 99                                 99",
            b"of 10                                 10",
            b"of 9                                   9",
            b"of 0                                   0",
        ],
    );
    lays_out(
        &[(vec![b'x'; 48], u32::MAX)].into(),
        &[b"xxxxxxxxxxxxxxxxxxxxxxxxxxxx  4294967295", b"xxxxxxxxxxxxxxxxxxxx                    "],
    );
}

/// At equal scores the earlier name, and one that begins another before it; a name of two lines
/// keeps them together.
#[test]
fn ties_in_name_order() {
    lays_out(
        &of(&[("b", 3), ("aa", 3), ("a ", 3), ("a", 3), ("Z", 2), ("µ", 3), ("~", 3), ("z", 4)]),
        &[
            b"z                                      4",
            b"a                                      3",
            b"a                                      3",
            b"aa                                     3",
            b"b                                      3",
            b"~                                      3",
            b"\xC2\xB5                                     3",
            b"Z                                      2",
        ],
    );
    let [short, long, longer] = [28, 29, 30].map(|length| "x".repeat(length));
    lays_out(
        &of(&[(&longer, 0), (&short, 0), (&long, 0)]),
        &[
            b"xxxxxxxxxxxxxxxxxxxxxxxxxxxx           0",
            b"xxxxxxxxxxxxxxxxxxxxxxxxxxxx           0",
            b"x                                       ",
            b"xxxxxxxxxxxxxxxxxxxxxxxxxxxx           0",
            b"xx                                      ",
        ],
    );
}

/// What is no book is said before a short destination; bytes behind a book are not read.
#[test]
fn pages_refused() {
    let book = book::image(&e());
    for room in [0, 40, 41, 204, 205, 300] {
        let mut dst = vec![0xEE; room];
        for none in [&[][..], &book[1..], &book[..book.len() - 1], &sheet::image(&e())] {
            assert_eq!(page(none, &mut dst), Err(IMAGE));
            assert_eq!(dst, vec![0xEE; room]);
        }
        let answer = if room < 205 { Err(TOO_SHORT) } else { Ok((4, 205)) };
        assert_eq!(page(&[&book[..], b"\x22 and more"].concat(), &mut dst), answer);
    }
}

/// 1,024 names of one line and of two; 84,009 bytes are the most.
#[test]
fn the_longest_page() {
    for (length, bytes) in [(28, 41 * 1025), (29, 84_009), (48, 84_009)] {
        let book = book::image(&make::numbers(1024, length).map(|name| (name, 7)).collect());
        let mut dst = vec![0; bytes];
        assert_eq!(page(&book, &mut dst[1..]), Err(TOO_SHORT));
        assert_eq!(page(&book, &mut dst), Ok((1024, bytes)));
    }
}

/// Reads a page: the heading, and then the lines of each entry, once each, in rank. The name
/// columns of an entry, joined and cut to the name's length, are its name.
#[test]
fn columns_are_names() {
    let mut random = Random::new(5);
    for (names, scores) in NAMES.iter().flat_map(|&names| SCORES.map(|scores| (names, scores))) {
        let entries = make::entries(&mut random, 40, names, scores);
        let page = page::bytes(&entries);
        let lines: Vec<&[u8]> = page.chunks(page::LINE + 1).collect();
        assert!(lines.iter().all(|line| line.len() == 41 && line[40] == b'\n'));
        assert_eq!(&lines[0][..40], HEADING);
        let mut ranked: Vec<(&Vec<u8>, &u32)> = entries.iter().collect();
        ranked.sort_by(|a, b| b.1.cmp(a.1).then(a.0.cmp(b.0)));
        let mut below = &lines[1..];
        for (name, score) in ranked {
            let (own, rest) = below.split_at(if name.len() <= 28 { 1 } else { 2 });
            let columns: Vec<u8> = own.iter().flat_map(|line| line[..28].to_vec()).collect();
            let (cut, padding) = columns.split_at(name.len());
            assert_eq!(cut, name);
            assert!(padding.iter().all(|byte| *byte == b' '));
            let shown = std::str::from_utf8(&own[0][28..40]).unwrap();
            assert_eq!((shown.trim_start().parse(), &shown[..2]), (Ok(*score), "  "));
            assert!(own[1..].iter().all(|line| line[28..40] == [b' '; 12]));
            below = rest;
        }
        assert!(below.is_empty());
    }
}
