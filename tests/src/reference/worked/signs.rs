//! µ and Ω in names (02, request c).
use super::*;
use crate::reference::calls::name_at;

const MICRO_BYTES: [u8; 2] = [0xC2, 0xB5];
const OHM_BYTES: [u8; 2] = [0xCE, 0xA9];

/// So many letters x, and what stands behind them.
fn behind(letters: usize, end: &[u8]) -> Vec<u8> {
    [&vec![b'x'; letters], end].concat()
}

/// The names that labs write, and two that begin with a sign.
fn labs() -> Entries {
    of(&[("10 µA", 4), ("10 µF", 5), ("4.7 kΩ", 9), ("µ", 2), ("µA", 7), ("Ω", 3)])
}

fn allowed() -> Vec<Vec<u8>> {
    let mut all: Vec<Vec<u8>> =
        ["µ", "Ω", "µΩ", "Ωµ", "µµ", "10 µF", "4.7 kΩ", " µ ", "~Ω~"].map(Vec::from).to_vec();
    for sign in [MICRO_BYTES, OHM_BYTES] {
        all.push(behind(46, &sign));
        all.push([&sign[..], &behind(46, &[])].concat());
        all.push(sign.repeat(24));
    }
    all.push([behind(23, &MICRO_BYTES), behind(21, &OHM_BYTES)].concat());
    all
}

/// Halves, halves of different signs, other bytes past 7E and other signs past 7E, at each end and
/// between others; 48 bytes of which the last is half a sign, and 49 of whole ones.
fn refused() -> Vec<Vec<u8>> {
    let mut parts: Vec<Vec<u8>> = vec![vec![0x7F], vec![0x80], vec![0x81], vec![0xFF], vec![0x1F]];
    parts.extend([[0xC2], [0xCE], [0xB5], [0xA9]].map(Vec::from));
    parts.extend([[0xC2, 0xA9], [0xCE, 0xB5], [0xC3, 0xB5], [0xCF, 0xA9]].map(Vec::from));
    parts.extend([[0xB5, 0xC2], [0xA9, 0xCE], [0xC2, 0xC2], [0xCE, 0xCE]].map(Vec::from));
    parts.extend([[0xC2, b' '], [0xCE, b'~'], [0xC2, 0xB4], [0xCE, 0xAA]].map(Vec::from));
    // In UTF-8, but other signs: ä, the Greek mu, the sign for ohm, a no-break space, Θ.
    parts.extend(["ä", "\u{3BC}", "\u{2126}", "\u{A0}", "Θ"].map(Vec::from));
    // µ in one byte too many, and in UTF-16.
    parts.extend([vec![0xE0, 0x82, 0xB5], vec![0x00, 0xB5]]);
    let mut all = Vec::new();
    for part in &parts {
        all.push(part.clone());
        all.push([&b"10 "[..], part].concat());
        all.push([&part[..], b"F"].concat());
        all.push([&b"1 "[..], part, "µF".as_bytes()].concat());
        all.push([&MICRO_BYTES[..], part, &OHM_BYTES].concat());
        all.push(behind(48 - part.len(), part));
    }
    for sign in [MICRO_BYTES, OHM_BYTES] {
        all.push(behind(47, &sign[..1]));
        all.push(behind(47, &sign[1..]));
        all.push(behind(47, &sign));
        all.push(behind(48, &sign));
        all.push(sign.repeat(25));
        all.push([&behind(1, &[]), &sign.repeat(24)[..]].concat());
        all.push([&behind(1, &[]), &sign.repeat(24)[..47]].concat());
        all.push(sign.repeat(24)[1..].to_vec());
    }
    all
}

#[test]
fn signs_are_two_bytes() {
    assert_eq!(
        (MICRO.to_string().as_bytes(), "µ".as_bytes()),
        (&MICRO_BYTES[..], &MICRO_BYTES[..])
    );
    assert_eq!((OHM.to_string().as_bytes(), "Ω".as_bytes()), (&OHM_BYTES[..], &OHM_BYTES[..]));
}

#[test]
fn names_allowed_and_refused() {
    let (book, none) = (book::image(&labs()), book::image(&Entries::new()));
    let trie = trie::image(&labs());
    for name in allowed() {
        let mut dst = [0; 2000];
        let held = labs().contains_key(&name);
        assert!(is_name(&name) && is_prefix(&name), "{name:02X?}");
        assert_eq!(set(&book, &name, 1, &mut dst).map(|a| a.0), Ok(if held { 6 } else { 7 }));
        assert_eq!(find(&dst, &name).map(|found| found.map(|(_, score)| score)), Ok(Some(1)));
        assert_eq!(name_of(&dst, &name, &mut [0; 53]), Ok((1, name.len() + 5)));
        let (mut only, mut out) = ([0; 100], [0; 53]);
        assert_eq!(set(&none, &name, 1, &mut only).map(|a| a.0), Ok(1));
        assert_eq!(complete(&only, &name, 1, &mut out, 1), Ok((1, name.len() + 5, 1)));
        assert_eq!(withdraw(&only, &name, &mut [0; 7]), Ok((0, 7)));
    }
    for name in refused() {
        let mut dst = [0xEE; 2000];
        assert!(!is_name(&name) && !is_prefix(&name), "{name:02X?}");
        assert_eq!(set(&book, &name, 1, &mut dst), Err(NAME));
        assert_eq!(withdraw(&book, &name, &mut dst), Err(NAME));
        assert_eq!(find(&book, &name), Err(NAME));
        assert_eq!(name_of(&book, &name, &mut dst), Err(NAME));
        assert_eq!(prefix_range(&book, &name), Err(NAME));
        assert_eq!(complete(&book, &name, 0, &mut dst, 0), Err(NAME));
        assert_eq!(complete_trie(&trie, &name, 0, &mut dst), Err(NAME));
        assert_eq!(dst, [0xEE; 2000]);
    }
}

/// A name that is not allowed, alone and behind others, in images that are laid out right but for
/// it.
#[test]
fn images_refused() {
    for name in refused() {
        for mut entries in [Entries::new(), labs(), of(&[("10 µ", 1), ("µF", 2)])] {
            entries.insert(name.clone(), 5);
            assert_eq!(book::read(&book::image(&entries)), Err(IMAGE), "{name:02X?}");
            assert_eq!(sheet::read(&sheet::image(&entries)), None, "{name:02X?}");
            assert_eq!(trie::read(&trie::image(&entries)), None, "{name:02X?}");
        }
    }
}

#[test]
fn a_book() {
    let image = bytes(
        "22 00 00 00 2B 00 03 00 00 00 05 00 00 00 09 00 00 00 02 00 01 \
         00 06 31 30 20 C2 B5 46 00 07 34 2E 37 20 6B CE A9 00 03 C2 B5 41",
    );
    let entries = of(&[("10 µF", 5), ("4.7 kΩ", 9), ("µA", 2)]);
    assert_eq!(book::image(&entries), image);
    assert_eq!(book::read(&image), Ok(entries));
    // "10 µF" and "10 µs" share the whole sign, "a µ" and "a Ω" nothing of it.
    let entries = of(&[("10 µF", 0), ("10 µs", 0), ("a µ", 0), ("a Ω", 0)]);
    assert_eq!(
        book::image(&entries)[25..],
        bytes("00 06 31 30 20 C2 B5 46 05 01 73 00 04 61 20 C2 B5 02 02 CE A9")
    );
}

/// A common byte that ends inside µ, with a rest that is a name by itself, and with the half that
/// would make it whole.
#[test]
fn a_common_byte_inside_a_sign() {
    let with = |record: &str| {
        let records = bytes(&format!("00 02 C2 B5 {record}"));
        let rest = [bytes("00 00 00 00 00 00 00 00 00 00"), records].concat();
        framed(0x22, 2, &rest)
    };
    assert_eq!(book::read(&with("02 01 41")), Ok(of(&[("µ", 0), ("µA", 0)])));
    assert_eq!(book::read(&with("00 02 CE A9")), Ok(of(&[("µ", 0), ("Ω", 0)])));
    assert_eq!(book::read(&with("02 02 C2 B5")), Ok(of(&[("µ", 0), ("µµ", 0)])));
    for record in ["01 02 C2 B5", "01 02 CE A9", "01 02 B5 41", "01 01 C2", "01 01 CE", "02 01 B5"]
    {
        assert_eq!(book::read(&with(record)), Err(IMAGE), "{record}");
    }
}

#[test]
fn a_sheet() {
    let image = bytes(
        "11 00 00 00 25 00 03 06 31 30 20 C2 B5 46 00 00 00 05 \
         07 34 2E 37 20 6B CE A9 00 00 00 09 02 CE A9 00 00 00 02",
    );
    let entries = of(&[("10 µF", 5), ("4.7 kΩ", 9), ("Ω", 2)]);
    assert_eq!(sheet::image(&entries), image);
    let mut dst = [0; 100];
    assert_eq!(build(&image, &mut dst), Ok((3, book::image(&entries).len())));
    assert_eq!(list(&dst.clone(), &mut dst), Ok((3, 37)));
    assert_eq!(dst[..37], image);
    // A9 for B5, B5 for A9, a half alone, the first half of the other sign, two first halves.
    for (at, byte) in [(12, 0xA9), (25, 0xB5), (24, 0x20), (25, 0x20), (31, 0xC2), (32, 0xCE)] {
        let mut damaged = image.clone();
        damaged[at] = byte;
        assert_eq!(build(&damaged, &mut [0; 100]), Err(IMAGE), "{at}");
    }
}

/// Labels are cut to 7 bytes, also inside a sign; what is below then begins with its second half.
#[test]
fn labels_cut_inside_a_sign() {
    let lone = "31 00 00 00 12 00 01 1F 09 61 62 63 64 65 66 C2 09 B5";
    let entries = of(&[("abcdefµ", 0)]);
    assert_eq!(trie::image(&entries), bytes(lone));
    assert_eq!(trie::read(&bytes(lone)), Some(entries));
    let fork = "31 00 00 00 19 00 02 5F 09 0A 61 62 63 64 65 66 C2 19 03 B5 01 32 49 04 31";
    let entries = of(&[("abcdefµ1", 5), ("abcdefµ2", 9)]);
    assert_eq!(trie::image(&entries), bytes(fork));
    assert_eq!(trie::read(&bytes(fork)), Some(entries));
    // One letter more or less: the sign is whole in one of the labels.
    let whole = "31 00 00 00 0F 00 01 0F 61 62 63 64 65 C2 B5";
    assert_eq!(trie::image(&of(&[("abcdeµ", 0)])), bytes(whole));
    let below = "31 00 00 00 13 00 01 1F 09 61 62 63 64 65 66 67 0A C2 B5";
    assert_eq!(trie::image(&of(&[("abcdefgµ", 0)])), bytes(below));
    // Different signs part before their first bytes.
    let two = "31 00 00 00 15 00 02 1E 08 61 62 63 64 65 66 02 C2 B5 0A CE A9";
    assert_eq!(trie::image(&of(&[("abcdefµ", 0), ("abcdefΩ", 0)])), bytes(two));
    assert_eq!(trie::read(&bytes(two)), Some(of(&[("abcdefµ", 0), ("abcdefΩ", 0)])));
    // Both halves of Ω instead is another name; one half of it, or none, is no trie.
    let omega = lone.replace("C2", "CE").replace("B5", "A9");
    assert_eq!(trie::read(&bytes(&omega)), Some(of(&[("abcdefΩ", 0)])));
    for damaged in [
        lone.replace("B5", "A9"),
        lone.replace("C2", "CE"),
        lone.replace("C2", "C3"),
        lone.replace("B5", "46"),
        lone.replace("C2", "67"),
        lone.replace("09 B5", "09 C2"),
        fork.replace("B5", "A9"),
        fork.replace("C2", "CE"),
        // The name ends in half a sign: a leaf at the cut, a leaf with an empty label below it.
        "31 00 00 00 0F 00 01 0F 61 62 63 64 65 66 C2".to_string(),
        "31 00 00 00 13 00 02 1F 09 61 62 63 64 65 66 C2 00 09 B5".to_string(),
        // Cut inside a sign where the label has room for all of it.
        "31 00 00 00 11 00 01 1E 08 61 62 63 64 65 C2 09 B5".to_string(),
    ] {
        assert_eq!(trie::read(&bytes(&damaged)), None, "{damaged}");
        assert_eq!(complete_trie(&bytes(&damaged), b"", 1, &mut [0; 53]), Err(IMAGE));
    }
}

/// All that can follow a letter: 95 bytes, the two signs, nothing.
#[test]
fn a_group_of_98() {
    let mut entries: Entries = (0x20..=0x7E).map(|byte| (vec![b'x', byte], 0)).collect();
    entries.extend(of(&[("x", 0), ("xµ", 0), ("xΩ", 0)]));
    let image = trie::image(&entries);
    assert_eq!((entries.len(), image.len()), (98, 7 + 3 + 1 + 95 * 2 + 2 * 3));
    assert_eq!(image[..14], bytes("31 00 00 00 CF 00 62 19 03 78 00 01 20 01"));
    assert_eq!(image[201..], bytes("02 C2 B5 0A CE A9"));
    assert_eq!(trie::read(&image), Some(entries));
}

#[test]
fn completions() {
    let (book, trie) = (book::image(&labs()), trie::image(&labs()));
    for (prefix, k, list, looks, range) in [
        ("µ", 5, &[("µA", 7), ("µ", 2)][..], 2, (3, 2)),
        ("µ", 1, &[("µA", 7)], 1, (3, 2)),
        ("10 µ", 5, &[("10 µF", 5), ("10 µA", 4)], 2, (0, 2)),
        ("10 µF", 2, &[("10 µF", 5)], 1, (1, 1)),
        ("4.7 kΩ", 3, &[("4.7 kΩ", 9)], 1, (2, 1)),
        ("4.7 kΩ ", 3, &[], 0, (0, 0)),
        ("Ω", 9, &[("Ω", 3)], 1, (5, 1)),
        ("Ωµ", 9, &[], 0, (0, 0)),
        ("", 3, &[("4.7 kΩ", 9), ("µA", 7), ("10 µF", 5)], 5, (0, 6)),
    ] {
        assert_eq!(prefix_range(&book, prefix.as_bytes()), Ok(range), "{prefix}");
        let (count, list) = (list.len(), list_of(list));
        let wanted = Ok((count, list.len(), looks));
        assert_eq!(offered(&labs(), prefix, k), (list.clone(), wanted), "{prefix}");
        let mut dst = vec![0; 53 * k];
        let told = complete_trie(&trie, prefix.as_bytes(), k, &mut dst);
        assert_eq!((told, &dst[..list.len()]), (Ok((count, list.len(), 0)), &list[..]), "{prefix}");
    }
}

/// Name order is byte order: behind ~ come µ, then Ω.
#[test]
fn positions_and_heads() {
    let mut entries = of(&[("~", 1), ("µ", 1), ("Ω", 1), ("~µ", 1), ("µ~", 1), ("µΩ", 1)]);
    entries.extend(of(&[("Ω~", 1), ("a", 1), ("Ωµ", 1)]));
    let book = book::image(&entries);
    let order = ["a", "~", "~µ", "µ", "µ~", "µΩ", "Ω", "Ω~", "Ωµ"];
    for (i, name) in order.iter().enumerate() {
        assert_eq!(find(&book, name.as_bytes()), Ok(Some((i, 1))));
        let mut dst = [0; 53];
        assert_eq!(name_at(&book, i, &mut dst), Ok((1, name.len() + 5)));
        assert_eq!(dst[..name.len() + 5], entry_bytes(name.as_bytes(), 1));
    }
    assert_eq!(head(&book, 1), Err(POSITION));
    for first in ["µ", "Ωµ", "aΩ"] {
        let book = book::image(&of(&[(first, 1), ("Ωµ~", 2)]));
        let (start, length) = head(&book, 0).unwrap();
        assert_eq!(&book[start..start + length], first.as_bytes());
    }
}

#[test]
fn merged() {
    let one = book::image(&of(&[("10 µF", 5), ("Ω", 1)]));
    let two = book::image(&of(&[("10 µA", 4), ("10 µF", 99), ("µ", 2)]));
    let both = of(&[("10 µA", 4), ("10 µF", 5), ("µ", 2), ("Ω", 1)]);
    let image = book::image(&both);
    let mut dst = vec![0; image.len()];
    assert_eq!(merge(&one, &two, &mut dst), Ok((4, image.len())));
    assert_eq!(dst, image);
    let mut damaged = two.clone();
    *damaged.last_mut().unwrap() = 0xA9;
    assert_eq!(merge(&one, &damaged, &mut dst), Err(IMAGE));
    assert_eq!(merge(&damaged, &one, &mut dst), Err(IMAGE));
}

#[test]
fn a_history() {
    let call = |kind, score, name: &[u8]| Call { kind, score, name: name.to_vec() };
    let calls = [
        call(Kind::Set, 5, "10 µF".as_bytes()),
        call(Kind::Set, 6, b"10 \xC2"),
        call(Kind::Withdraw, 0, b"10 \xC2"),
        call(Kind::Set, 9, "Ω".as_bytes()),
        call(Kind::Withdraw, 0, "µ".as_bytes()),
        call(Kind::Withdraw, 0, "10 µF".as_bytes()),
    ];
    let (mut first, mut second, mut out) = ([0xEE; 40], [0xEE; 40], [0; 42]);
    let told = script::run(&script::bytes(&calls), &mut first, &mut second, &mut out);
    assert_eq!(told, Ok((6, 1)));
    assert_eq!(
        out[..],
        bytes(
            "00 00 01 00 00 00 15 02 00 00 00 00 00 00 02 00 00 00 00 00 00 \
             00 00 02 00 00 00 1D 04 00 00 00 00 00 00 00 00 01 00 00 00 11"
        )
    );
    assert_eq!(second[..17], bytes("22 00 00 00 11 00 01 00 00 00 09 00 00 00 02 CE A9"));
    let mut ledger = ledger::Ledger::new(40);
    let answers: Vec<u8> = calls.iter().flat_map(|c| script::kept(ledger.call(c))).collect();
    assert_eq!(answers, out);
}

/// What is left of a panel's room, and the keys 80 and 81 in it.
#[test]
fn keys_that_append_a_sign() {
    let both = |key, sign: &str, letters: usize| {
        let text = "x".repeat(letters);
        let before = panel(&text, 0, 0, "");
        let longer = format!("{text}{sign}");
        let after = if longer.len() <= 48 {
            (Ok(0), panel(&longer, 0, 0, ""))
        } else {
            (Err(TEXT_FULL), before.clone())
        };
        assert_eq!(pressed(&labs(), &before, key), after, "{key:02X} at {letters}");
    };
    for (key, sign) in [(0x80, "µ"), (0x81, "Ω")] {
        for letters in 1..=48 {
            both(key, sign, letters);
        }
    }
    let at = |letters: usize, key| pressed(&labs(), &panel("x".repeat(letters), 0, 0, ""), key).0;
    assert_eq!([46, 47, 48].map(|n| at(n, 0x80)), [Ok(0), Err(TEXT_FULL), Err(TEXT_FULL)]);
    assert_eq!([46, 47, 48].map(|n| at(n, 0x81)), [Ok(0), Err(TEXT_FULL), Err(TEXT_FULL)]);
    assert_eq!([46, 47, 48].map(|n| at(n, b'x')), [Ok(0), Ok(0), Err(TEXT_FULL)]);
    // Signs count as two bytes each.
    let text = "µΩ".repeat(12);
    assert_eq!(pressed(&labs(), &panel(&text, 0, 0, ""), b'x').0, Err(TEXT_FULL));
    let text = "µΩ".repeat(11) + "µ";
    let full = panel(format!("{text}Ω"), 0, 0, "");
    assert_eq!(pressed(&labs(), &panel(&text, 0, 0, ""), 0x81), (Ok(0), full));
    assert_eq!(pressed(&labs(), &panel(text + "x", 0, 0, ""), 0x81).0, Err(TEXT_FULL));
    // No other key past 7E is listed.
    for key in (0x7F..=0xFF).filter(|key| !matches!(key, 0x80 | 0x81)) {
        assert_eq!(at(0, key), Err(KEY), "{key:02X}");
        assert_eq!(at(48, key), Err(KEY), "{key:02X}");
    }
}

#[test]
fn typing_with_signs() {
    let book = book::image(&labs());
    let mut at = Panel::default();
    let mut key = |key| (press(&book, &mut at, key), at.clone());
    assert_eq!(key(0x80), (Ok(2), panel("µ", 0, 2, "µA")));
    assert_eq!(key(2), (Ok(2), panel("µ", 1, 2, "µ")));
    assert_eq!(key(0x81), (Ok(0), panel("µΩ", 0, 0, "")));
    assert_eq!(key(8), (Ok(2), panel("µ", 0, 2, "µA")));
    assert_eq!(key(8), (Ok(5), panel("", 0, 5, "4.7 kΩ")));
    assert!(b"10 ".iter().all(|&typed| key(typed).0 == Ok(2)));
    assert_eq!(key(0x80), (Ok(2), panel("10 µ", 0, 2, "10 µF")));
    assert_eq!(key(b'F'), (Ok(1), panel("10 µF", 0, 1, "10 µF")));
    // Behind a sign a letter is erased alone; then the sign whole; then a letter.
    assert_eq!(key(8), (Ok(2), panel("10 µ", 0, 2, "10 µF")));
    assert_eq!(key(8), (Ok(2), panel("10 ", 0, 2, "10 µF")));
    assert_eq!(key(2), (Ok(2), panel("10 ", 1, 2, "10 µA")));
    assert_eq!(key(0x0D), (Ok(1), panel("10 µA", 0, 1, "10 µA")));
    assert_eq!(key(0x81), (Ok(0), panel("10 µAΩ", 0, 0, "")));
    assert_eq!(key(8), (Ok(1), panel("10 µA", 0, 1, "10 µA")));
    // The teacher adds "10 µs" above the held name, which keeps its row.
    let mut entries = labs();
    entries.insert("10 µs".into(), 20);
    let before = panel("10 µ", 1, 2, "10 µA");
    assert_eq!(pressed(&entries, &before, 0), (Ok(3), panel("10 µ", 2, 3, "10 µA")));
    // A full text whose last sign is erased whole.
    let full = panel("x".repeat(46) + "Ω", 0, 0, "");
    assert_eq!(pressed(&labs(), &full, 8), (Ok(0), panel("x".repeat(46), 0, 0, "")));
    assert_eq!(pressed(&labs(), &full, 0), (Ok(0), full.clone()));
}

/// A text or held name that is no row of whole signs, under every key.
#[test]
fn panels_refused() {
    let book = book::image(&labs());
    for name in refused().iter().filter(|name| name.len() <= 48) {
        for before in [panel(name, 0, 1, ""), panel("", 0, 1, name), panel("10 µ", 0, 1, name)] {
            for key in [0, 1, 2, 8, 0x0D, b'x', 0x80, 0x81, 0x82, 0x7F] {
                let mut panel = before.clone();
                assert_eq!((press(&book, &mut panel, key), &panel), (Err(NAME), &before));
            }
        }
    }
    // The half behind a length is not read, and not joined with the one before it.
    let cut = Panel { len: 1, ..panel("µ", 0, 0, "") };
    assert_eq!(pressed(&labs(), &cut, 0x80), (Err(NAME), cut.clone()));
    let cut = Panel { len: 3, ..panel("10 µ", 0, 0, "") };
    assert_eq!(pressed(&labs(), &cut, 0), (Ok(2), panel("10 ", 0, 2, "10 µF")));
    let cut = Panel { held_len: 4, ..panel("10 ", 0, 0, "10 µF") };
    assert_eq!(pressed(&labs(), &cut, 0), (Err(NAME), cut.clone()));
    let cut = Panel { held_len: 5, ..panel("10 ", 1, 0, "10 µF") };
    assert_eq!(pressed(&labs(), &cut, 0), (Ok(2), panel("10 ", 1, 2, "10 µA")));
}

#[test]
fn program_lines() {
    let input = "set 5 10 µF\nset 9 4.7 kΩ\nset 4 10 µA\ntop 2 10 µ\ntop 1 4.7 kΩ\ntop 5 µ\n\
                 del µ\ndel 10 µA\ntop 9 ";
    let printed = "ok 1\nok 2\nok 3\n5 10 µF\n4 10 µA\nlooks 2\n9 4.7 kΩ\nlooks 1\nlooks 0\n\
                   no 4\nok 2\n9 4.7 kΩ\n5 10 µF\nlooks 2\n";
    assert_eq!(program::run(input.as_bytes()), printed.as_bytes());
    let input =
        b"set 5 10 \xC2\nset 5 \xB5F\ndel \xCE\ntop 0 \xC2\xA9\ntop 2 \xC3\xA4\nset 1 \xCE\xB5";
    assert_eq!(program::run(input), b"no 2\nno 2\nno 2\nno 2\nno 2\nno 2\n");
    let longest = format!("set 1 {}µ\nset 1 {}µ\n", "x".repeat(46), "x".repeat(47));
    assert_eq!(program::run(longest.as_bytes()), b"ok 1\nno 2\n");
}
