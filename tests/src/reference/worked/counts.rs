//! Nine rows are the most (02, request d).
use super::*;
use crate::make::nineteen;

/// What a call gives, and the bytes of its destination then.
type Left = (Offered, Vec<u8>);

/// 40 names, some of which begin others, with few different scores.
fn forty() -> Entries {
    let name = |i: u32| format!("{}{}", ["r", "rc", "rc ", "µ"][i as usize % 4], i * 7 % 40);
    (0..40).map(|i| (name(i).into_bytes(), i * i % 11)).collect()
}

/// A call with a destination of so many bytes.
fn left(room: usize, call: impl FnOnce(&mut [u8]) -> Offered) -> Left {
    let mut dst = vec![0xEE; room];
    (call(&mut dst), dst)
}

/// What a refusal gives and leaves.
fn refused(number: u8, room: usize) -> Left {
    (Err(number), vec![0xEE; room])
}

#[test]
fn nine_and_ten() {
    let (book, trie) = (book::image(&nineteen()), trie::image(&nineteen()));
    let best = |letters: &str| {
        letters.bytes().flat_map(|name| entry_bytes(&[name], 1)).collect::<Vec<u8>>()
    };
    let mut dst = vec![0xEE; 53 * 9];
    assert_eq!(complete(&book, b"", 9, &mut dst, 9), Ok((9, 54, 17)));
    assert_eq!((&dst[..54], dst[54]), (&best("bdfhjlnpr")[..], 0xEE));
    dst.fill(0xEE);
    assert_eq!(complete_trie(&trie, b"", 9, &mut dst), Ok((9, 54, 0)));
    assert_eq!((&dst[..54], dst[54]), (&best("bdfhjlnpr")[..], 0xEE));
    for k in [10, 11, 15, 16, 17, 255, 256, 265, 1 << 32, (1 << 32) + 9, usize::MAX] {
        let mut dst = [0xEE; 2000];
        assert_eq!(complete(&book, b"", k, &mut dst, 2000), Err(COUNT), "{k}");
        assert_eq!(complete_trie(&trie, b"", k, &mut dst), Err(COUNT), "{k}");
        assert_eq!(dst, [0xEE; 2000]);
    }
    assert_eq!(complete(&book, b"", 0, &mut dst, 9), Err(COUNT));
    assert_eq!(complete_trie(&trie, b"", 0, &mut dst), Err(COUNT));
}

/// 53 × k bytes and k ranges are asked as before. A k that is too high is said before these, and
/// behind an image or a prefix that is not allowed.
#[test]
fn three_before_seven() {
    let (book, trie) = (book::image(&nineteen()), trie::image(&nineteen()));
    for (k, number) in [(9, TOO_SHORT), (10, COUNT)] {
        for (room, ranges) in [(53 * k - 1, k), (53 * k, k - 1), (53 * k - 1, k - 1), (0, 0)] {
            let left = left(room, |d| complete(&book, b"", k, d, ranges));
            assert_eq!(left, refused(number, room), "{k}: {room} bytes, {ranges} ranges");
        }
        for room in [53 * k - 1, 0] {
            let left = left(room, |d| complete_trie(&trie, b"", k, d));
            assert_eq!(left, refused(number, room), "{k}: {room} bytes");
        }
    }
    assert_eq!(complete(&book, b"\xC2", 10, &mut [], 0), Err(NAME));
    assert_eq!(complete_trie(&trie, b"\xC2", 10, &mut []), Err(NAME));
    assert_eq!(complete(&book[1..], b"\xC2", 10, &mut [], 0), Err(IMAGE));
    assert_eq!(complete_trie(&trie[1..], b"\xC2", 10, &mut []), Err(IMAGE));
}

/// Looks are at most 2 × k − 1, here just as many, and so at most 17; they equal the matches where
/// these are at most k.
#[test]
fn looks_at_most_seventeen() {
    for k in 1..=9 {
        assert_eq!(offered(&nineteen(), "", k).1, Ok((k, 6 * k, 2 * k - 1)));
        for (entries, prefix) in [(nineteen(), ""), (e(), ""), (forty(), ""), (forty(), "rc")] {
            let matches = entries.keys().filter(|name| name.starts_with(prefix.as_bytes())).count();
            let (_, answer) = offered(&entries, prefix, k);
            let (count, _, looks) = answer.unwrap();
            assert!(count == matches.min(k) && looks < 2 * k && looks <= 17);
            assert!(looks == matches || matches > k);
        }
    }
    for names in 0..=9 {
        let entries: Entries = nineteen().into_iter().take(names).collect();
        assert_eq!(offered(&entries, "", 9).1, Ok((names, 6 * names, names)));
    }
}

/// Who asks for one to nine sees the same lists, bytes and looks as with the limit before; ten to
/// sixteen were accepted and are refused.
#[test]
fn within_nine_as_before() {
    for entries in [Entries::new(), e(), nineteen(), forty()] {
        let (book, trie) = (book::image(&entries), trie::image(&entries));
        for prefix in ["", "a", "r", "rc", "rc ", "µ", "q"].map(str::as_bytes) {
            for k in 0..=17 {
                let now = [
                    left(53 * k, |d| complete(&book, prefix, k, d, k)),
                    left(53 * k, |d| complete_trie(&trie, prefix, k, d)),
                ];
                let before = [
                    left(53 * k, |d| complete_within(MOST_BEFORE, &book, prefix, k, d, k)),
                    left(53 * k, |d| complete_trie_within(MOST_BEFORE, &trie, prefix, k, d)),
                ];
                assert_eq!(
                    before.each_ref().map(|left| left.0.is_ok()),
                    [(1..=16).contains(&k); 2]
                );
                let refused = [refused(COUNT, 53 * k), refused(COUNT, 53 * k)];
                assert_eq!(now, if (10..=16).contains(&k) { refused } else { before });
            }
        }
    }
}

/// The panel asks for five, as before.
#[test]
fn five_rows_of_the_panel() {
    let book = book::image(&nineteen());
    let mut at = Panel::default();
    assert_eq!((press(&book, &mut at, 0), &at), (Ok(5), &panel("", 0, 5, "b")));
}

#[test]
fn top_nine_and_ten() {
    let mut input: Vec<u8> = nineteen()
        .iter()
        .flat_map(|(name, score)| [format!("set {score} ").as_bytes(), name, b"\n"].concat())
        .collect();
    input.extend(b"top 9 \ntop 10 \ntop 16 \ntop 17 \ntop 8 \ntop 9 a\ntop 10 \x80\n");
    let accepted: String = (1..=19).map(|held| format!("ok {held}\n")).collect();
    let list =
        |letters: &str| letters.chars().map(|name| format!("1 {name}\n")).collect::<String>();
    let (nine, eight) = (list("bdfhjlnpr"), list("bdfhjlnp"));
    let printed = format!(
        "{accepted}{nine}looks 17\nno 3\nno 3\nno 3\n{eight}looks 15\n0 a\nlooks 1\nno 2\n"
    );
    assert_eq!(String::from_utf8(program::run(&input)).unwrap(), printed);
}
