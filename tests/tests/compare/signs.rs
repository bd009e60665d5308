//! µ and Ω, by bytes: names that end in them or in half of them, images that are cut inside them,
//! and the panel's keys for them.
use super::*;
use label_book::{key, Panel};
use label_book_tests::reference::is_prefix;

const NAMES: [(&str, u32); 6] =
    [("10 µA", 4), ("10 µF", 5), ("4.7 kΩ", 9), ("µ", 2), ("µA", 7), ("Ω", 3)];

pub fn worked(compare: &mut Compare) {
    names(compare);
    images(compare);
    common_bytes(compare);
    labels(compare);
    a_group_of_98(compare);
    keys(compare);
    lists_by_signs(compare);
}

/// Every call that takes a name or prefix gives this number, 0 where it may answer.
fn asked(compare: &mut Compare, name: &[u8], is_allowed: bool) {
    let held = entries(&NAMES);
    let (book, trie, dst) = (book::image(&held), trie::image(&held), [0xEE; 1000]);
    let number = if is_allowed { 0 } else { 2 };
    let told = |told: (u8, [u64; 3])| assert_eq!(told.0, number, "{name:02X?}");
    told(compare.set(&book, name, 1, &dst).0);
    told(compare.complete(&book, name, 1, &dst, 1).0);
    told(compare.complete_trie(&trie, name, 1, &dst).0);
    compare.withdraw(&book, name, &dst);
    compare.find(&book, name);
    compare.name_of(&book, name, &dst);
    compare.prefix_range(&book, name);
    if name.len() <= 48 {
        for (text, held_name) in [(name, &b""[..]), (b"", name), (b"10 ", name)] {
            for key in [key::RECOUNT, key::ERASE, key::MICRO, 0x82] {
                let mut panel = make::panel_of(text, 0, 0, held_name);
                let told = compare.press(&book, &mut panel, key);
                assert_eq!(told.0 == 2, !is_allowed, "{name:02X?}");
            }
        }
    }
}

/// Names of up to 49 bytes that end in a sign, in half of it, in halves of two.
fn names(compare: &mut Compare) {
    for letters in [0, 1, 6, 45, 46, 47, 48] {
        let mut ask = |end: &[u8], is_allowed: bool| {
            let name = [&vec![b'x'; letters], end].concat();
            asked(compare, &name, is_allowed && name.len() <= 48);
        };
        for sign in ["µ", "Ω"].map(str::as_bytes) {
            ask(sign, true);
            ask(&sign[..1], false);
            ask(&sign[1..], false);
        }
        for end in [&b"\xCE\xB5"[..], b"\xC2\xA9", b"\xC3\xB5", b"\x7F", b"\x80", b"\x81", b"\xFF"]
        {
            ask(end, false);
        }
        ask("µx".as_bytes(), true);
        ask(b"\xC2x", false);
        ask(b"\xC2\xC2\xB5", false);
        ask(b"\xC2\xB5\xB5", false);
    }
    for sign in ["µ", "Ω"] {
        asked(compare, sign.repeat(24).as_bytes(), true);
        asked(compare, &sign.repeat(24).as_bytes()[..47], false);
        asked(compare, &sign.repeat(25).as_bytes()[..49], false);
    }
}

/// Images whose last name ends in each byte, of which one makes it a name.
fn images(compare: &mut Compare) {
    let held = entries(&[("10 ", 3), ("10 µ", 5)]);
    for image in [book::image(&held), sheet::image(&held), trie::image(&held)] {
        let at = image.iter().rposition(|byte| *byte == 0xB5).expect("the second half");
        for half in [at - 1, at] {
            for byte in 0..=u8::MAX {
                let mut image = image.clone();
                image[half] = byte;
                compare.check(&image);
                compare.build(&image, &[0; 60]);
                compare.complete_trie(&image, b"", 2, &[0; 106]);
            }
        }
    }
}

/// The book of µ and of a second record. The common byte of one ends inside µ; the rest may be a
/// name by itself, or make the name before it whole again.
fn common_bytes(compare: &mut Compare) {
    for (record, number) in [
        ("02 01 41", 0),
        ("02 02 C2 B5", 0),
        ("00 02 CE A9", 0),
        ("01 02 C2 B5", 1),
        ("01 02 CE A9", 1),
        ("01 02 B5 41", 1),
        ("01 01 41", 1),
        ("01 01 C2", 1),
        ("02 01 C2", 1),
        ("02 01 B5", 1),
        ("00 02 CE B5", 1),
    ] {
        let record = bytes(record);
        let front = "00 02 00 00 00 00 00 00 00 00 00 00 00 02 C2 B5";
        let book =
            [bytes("22 00 00 00"), vec![21 + record.len() as u8], bytes(front), record].concat();
        compare.check(&book);
        assert_eq!(ours::check(&book).0, number, "{book:02X?}");
        let dst = [0; 100];
        assert_eq!(compare.list(&book, &dst).0 .0, number);
        assert_eq!(compare.merge(&book, &book, &dst).0 .0, number);
        assert_eq!(compare.write_trie(&book, &dst).0 .0, number);
        assert_eq!(compare.complete(&book, "µ".as_bytes(), 1, &dst, 1).0 .0, number);
    }
}

/// A label that is cut inside µ, and below it the half that makes it whole, or another byte.
fn labels(compare: &mut Compare) {
    for (trie, number) in [
        ("31 00 00 00 12 00 01 1F 09 61 62 63 64 65 66 C2 09 B5", 0),
        ("31 00 00 00 12 00 01 1F 09 61 62 63 64 65 66 CE 09 A9", 0),
        ("31 00 00 00 12 00 01 1F 09 61 62 63 64 65 66 C2 09 A9", 1),
        ("31 00 00 00 12 00 01 1F 09 61 62 63 64 65 66 CE 09 B5", 1),
        ("31 00 00 00 12 00 01 1F 09 61 62 63 64 65 66 C2 09 46", 1),
        ("31 00 00 00 12 00 01 1F 09 61 62 63 64 65 66 67 09 B5", 1),
        ("31 00 00 00 0F 00 01 0F 61 62 63 64 65 66 C2", 1),
        ("31 00 00 00 13 00 02 1F 09 61 62 63 64 65 66 C2 00 09 B5", 1),
        ("31 00 00 00 11 00 01 1E 08 61 62 63 64 65 C2 09 B5", 1),
        ("31 00 00 00 19 00 02 5F 09 0A 61 62 63 64 65 66 C2 19 03 B5 01 32 49 04 31", 0),
        ("31 00 00 00 19 00 02 5F 09 0A 61 62 63 64 65 66 C2 19 03 A9 01 32 49 04 31", 1),
        ("31 00 00 00 15 00 02 1E 08 61 62 63 64 65 66 02 C2 B5 0A CE A9", 0),
        ("31 00 00 00 15 00 02 1E 08 61 62 63 64 65 66 02 C2 A9 0A CE A9", 1),
        ("31 00 00 00 15 00 02 1E 08 61 62 63 64 65 66 02 CE A9 0A C2 B5", 1),
        ("31 00 00 00 09 00 01 09 B5", 1),
        ("31 00 00 00 0A 00 01 0A C2 B5", 0),
    ] {
        let trie = bytes(trie);
        for prefix in ["", "abcdef", "abcdefµ", "abcdefΩ", "µ"] {
            let told = compare.complete_trie(&trie, prefix.as_bytes(), 2, &[0; 106]).0;
            assert_eq!(told.0, number, "{trie:02X?}");
        }
        let cut = compare.complete_trie(&trie, b"abcdef\xC2", 2, &[0; 106]).0;
        assert_eq!(cut.0, if number == 0 { 2 } else { 1 });
    }
}

/// All that can stand behind a letter, in a group of 98 nodes; and with as many scores.
fn a_group_of_98(compare: &mut Compare) {
    for step in [0, 1, 300] {
        let mut held: Entries = (0x20..=0x7E).map(|byte| (vec![b'x', byte], 0)).collect();
        held.extend(entries(&[("x", 0), ("xµ", 0), ("xΩ", 0)]));
        held.values_mut().enumerate().for_each(|(i, score)| *score = i as u32 * step);
        let (book, trie) = (book::image(&held), trie::image(&held));
        let (told, left) = compare.write_trie(&book, &vec![0; trie.len()]);
        assert_eq!((told.0, told.1[0], &left), (0, 98, &trie));
        for prefix in ["", "x", "xµ", "xΩ", "x~"] {
            compare.complete_trie(&trie, prefix.as_bytes(), MOST_OFFERED, &[0; 53 * MOST_OFFERED]);
        }
    }
}

/// 80 and 81 with room for two bytes, one and none; a sign is erased whole, a letter alone.
fn keys(compare: &mut Compare) {
    let book = book::image(&entries(&NAMES));
    for (letters, number) in [(0, 0), (1, 0), (46, 0), (47, 9), (48, 9)] {
        for (key, sign) in [(key::MICRO, "µ"), (key::OHM, "Ω")] {
            let text = "x".repeat(letters);
            let mut panel = make::panel_of(&text, 0, 0, "");
            assert_eq!(compare.press(&book, &mut panel, key).0, number);
            if number == 0 {
                assert_eq!(panel.typed(), format!("{text}{sign}").as_bytes());
                assert_eq!(compare.press(&book, &mut panel, key::ERASE).0, 0);
            }
            assert_eq!(panel.typed(), text.as_bytes());
        }
    }
    let mut panel = Panel::default();
    for typed in [b'1', b'0', b' ', key::MICRO, b'F'] {
        assert_eq!(compare.press(&book, &mut panel, typed).0, 0);
    }
    assert_eq!(panel, make::panel_of("10 µF", 0, 1, "10 µF"));
    for (left, rows, held) in [("10 µ", 2, "10 µF"), ("10 ", 2, "10 µF"), ("10", 2, "10 µF")] {
        assert_eq!(compare.press(&book, &mut panel, key::ERASE), (0, [rows, 0, 0]));
        assert_eq!(panel, make::panel_of(left, 0, rows as usize, held));
    }
    // A text that ends in half a sign is refused before any key, and before a full one.
    for (text, key) in [(&b"\xC2"[..], 0x82), (b"10 \xC2", key::MICRO), (b"\xB5", key::ERASE)] {
        let mut panel = make::panel_of(text, 0, 0, "");
        assert_eq!(compare.press(&book, &mut panel, key), (2, [0; 3]));
    }
}

/// What is offered for prefixes of signs, from the book and from its trie; every beginning of a
/// name, those that end in half a sign refused.
fn lists_by_signs(compare: &mut Compare) {
    let held = entries(&NAMES);
    let (book, trie) = (book::image(&held), trie::image(&held));
    for (prefix, offered) in
        [("µ", 2), ("10 µ", 2), ("10 µF", 1), ("4.7 kΩ", 1), ("Ω", 1), ("Ωµ", 0)]
    {
        for k in [1, 2, MOST_OFFERED] {
            let dst = vec![0; 53 * k];
            let (a, from_book) = compare.complete(&book, prefix.as_bytes(), k, &dst, k);
            let (b, from_trie) = compare.complete_trie(&trie, prefix.as_bytes(), k, &dst);
            assert_eq!(a.1[0], offered.min(k as u64));
            assert_eq!((a.0, &a.1[..2], from_book), (b.0, &b.1[..2], from_trie));
        }
    }
    for name in held.keys() {
        for end in 0..=name.len() {
            let number = if is_prefix(&name[..end]) { 0 } else { 2 };
            assert_eq!(compare.complete(&book, &name[..end], 5, &[0; 265], 5).0 .0, number);
            assert_eq!(compare.complete_trie(&trie, &name[..end], 5, &[0; 265]).0 .0, number);
            compare.prefix_range(&book, &name[..end]);
        }
    }
}
