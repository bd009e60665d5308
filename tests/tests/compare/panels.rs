//! Panels, with held names of every kind, on books that change between the keys.
use super::*;
use label_book::{key, Panel, PANEL_ROWS};

/// Whether the held name is on another row of the text than the row number says.
fn stands_elsewhere(entries: &Entries, panel: &Panel) -> bool {
    let rows = calls::rows(entries, panel.typed(), PANEL_ROWS);
    let name = panel.held.get(..panel.held_len).unwrap_or_default();
    rows.iter().position(|row| row == name).is_some_and(|row| row != panel.highlight)
}

/// Keys one after the other; between them the book is edited or replaced, and the panel or its held
/// name given anew.
pub fn keys(compare: &mut Compare, random: &mut Random, rounds: usize) {
    let (mut pressed, mut elsewhere) = (0, 0);
    for _ in 0..rounds {
        let n = if random.chance(100) { random.pick(&[129, 1024]) } else { random.below(30) };
        let (names, scores) = (random.pick(&NAMES), random.pick(&SCORES));
        let mut entries = make::entries(random, n, names, scores);
        let mut panel = make::panel(random, &entries);
        for _ in 0..40 {
            match random.below(16) {
                0..=5 if entries.len() < MOST_ENTRIES => make::edit(random, &mut entries, &panel),
                6 => entries = make::entries(random, n.min(30), names, scores),
                7..=9 => panel = make::panel(random, &entries),
                10..=12 => {
                    (panel.held, panel.held_len) = make::held_name(random, &entries, panel.typed());
                    panel.highlight = make::number(random, PANEL_ROWS);
                }
                _ => {}
            }
            let mut image = book::image(&entries);
            if random.chance(50) {
                image = make::damaged(random, &image);
            }
            let key = make::key(random, &entries, panel.typed());
            let moves = stands_elsewhere(&entries, &panel);
            let (number, _) = compare.press(&image, &mut panel, key);
            if number == 2 {
                panel = make::panel(random, &entries);
            }
            pressed += (number == 0) as usize;
            elsewhere += (number == 0 && moves) as usize;
        }
    }
    assert!(elsewhere > pressed / 8, "{elsewhere} of {pressed} held names are on another row");
}

/// Every key on the same panel.
pub fn every_key(compare: &mut Compare, random: &mut Random, rounds: usize) {
    for _ in 0..rounds {
        let (names, scores) = (random.pick(&NAMES), random.pick(&SCORES));
        let n = random.below(30);
        let entries = make::entries(random, n, names, scores);
        let (image, panel) = (book::image(&entries), make::panel(random, &entries));
        for key in 0..=u8::MAX {
            compare.press(&image, &mut panel.clone(), key);
        }
    }
}

/// A student has a name highlighted while the teacher adds others and withdraws them.
pub fn worked(compare: &mut Compare) {
    let entries = [("ac", 5), ("rc", 9), ("rc step", 9), ("rl", 12)];
    let mut book =
        book::image(&entries.map(|(name, score)| (name.as_bytes().to_vec(), score)).into());
    let mut at = Panel::default();
    compare.press(&book, &mut at, b'r');
    assert_eq!(compare.press(&book, &mut at, key::DOWN), (0, [3, 0, 0]));
    assert_eq!(at, make::panel_of(b"r", 1, 3, b"rc"));
    // rx, rl, rc, rc step.
    book = compare.set(&book, b"rx", 20, &[0xEE; 200]).1;
    assert_eq!(compare.press(&book, &mut at.clone(), key::TAKE), (0, [2, 0, 0]));
    assert_eq!(compare.press(&book, &mut at, key::RECOUNT), (0, [4, 0, 0]));
    assert_eq!(at, make::panel_of(b"r", 2, 4, b"rc"));
    // rx, rl, rc step: the row number stays.
    book = compare.withdraw(&book, b"rc", &[0xEE; 200]).1;
    assert_eq!(compare.press(&book, &mut at, key::RECOUNT), (0, [3, 0, 0]));
    assert_eq!(at, make::panel_of(b"r", 2, 3, b"rc step"));
    // r1, rx, rl, rc step, taken from the fourth row.
    book = compare.set(&book, b"r1", 21, &[0xEE; 200]).1;
    assert_eq!(compare.press(&book, &mut at, key::TAKE), (0, [1, 0, 0]));
    assert_eq!(at, make::panel_of(b"rc step", 0, 1, b"rc step"));
    // A byte that is not allowed, and a length over 48: nothing changes.
    for (byte, length) in [(0x7F, 7), (0x1F, 7), (0, 7), (b'r', 49)] {
        let mut refused = Panel { held_len: length, ..at.clone() };
        refused.held[6] = byte;
        let before = refused.clone();
        assert_eq!(compare.press(&book, &mut refused, key::UP), (2, [0; 3]));
        assert_eq!(refused, before);
    }
    // No rows.
    assert_eq!(compare.press(&book, &mut at, b'!'), (0, [0; 3]));
    assert_eq!(at, make::panel_of(b"rc step!", 0, 0, b""));
}
