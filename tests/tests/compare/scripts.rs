//! Runs of scripts that are laid out wrongly or hold calls at the limits, and on buffers that are
//! too short or of two lengths.
use super::histories::some_calls;
use label_book_tests::calls::Told;
use label_book_tests::compare::Compare;
use label_book_tests::random::Random;
use label_book_tests::reference::script::{self, Call, Kind, ANSWER};

/// A run; a refused one changes nothing.
fn run(compare: &mut Compare, script: &[u8], lent: [&[u8]; 3]) -> Told {
    let (told, left) = compare.run(script, lent);
    assert!(
        told.0 == 0 || told.1 == [0; 3] && left == lent,
        "a refusal tells a count or changes a byte"
    );
    told
}

/// A run on buffers that a history can start in, with room for the answers of as many calls as the
/// script can have.
fn on_buffers(compare: &mut Compare, random: &mut Random, script: &[u8]) -> Told {
    let length = random.pick(&[7, 17, 30, 130, 300, 2000]);
    let [first, second, out] = [length, length, script.len()].map(|length| random.bytes(length));
    run(compare, script, [&first, &second, &out])
}

/// Scripts that are damaged in every way.
pub fn hostile_scripts(compare: &mut Compare, random: &mut Random, rounds: usize) {
    for round in 0..rounds {
        let calls = some_calls(random, round % 7);
        cut_or_longer(compare, random, &calls);
        kinds_and_lengths(compare, random, &calls);
        let script = script::bytes(&calls);
        for at in 0..script.len() {
            for step in [1, 255, 8, 64, 128, random.byte()] {
                let mut bytes = script.clone();
                bytes[at] = bytes[at].wrapping_add(step);
                on_buffers(compare, random, &bytes);
            }
        }
    }
}

/// A script that is cut at every place, and one with bytes behind it: refused but where a call
/// ends.
fn cut_or_longer(compare: &mut Compare, random: &mut Random, calls: &[Call]) {
    let script = script::bytes(calls);
    let ends: Vec<usize> =
        (0..=calls.len()).map(|count| script::bytes(&calls[..count]).len()).collect();
    for at in 0..=script.len() {
        let number = if ends.contains(&at) { 0 } else { 1 };
        assert_eq!(on_buffers(compare, random, &script[..at]).0, number, "cut at {at}");
    }
    for more in 1..=2 * ANSWER {
        // Seven zeros are the set of a name of no bytes.
        let number = if more % ANSWER == 0 { 0 } else { 1 };
        assert_eq!(
            on_buffers(compare, random, &[script.clone(), vec![0; more]].concat()).0,
            number,
            "{more} more"
        );
        let noise = random.bytes(more);
        on_buffers(compare, random, &[script.clone(), noise].concat());
    }
}

/// Each call of a script with every kind that there is not, and with other lengths: some past the
/// end, some that end within other calls.
fn kinds_and_lengths(compare: &mut Compare, random: &mut Random, calls: &[Call]) {
    let script = script::bytes(calls);
    for count in 0..calls.len() {
        let at = script::bytes(&calls[..count]).len();
        for kind in 2..=255 {
            let mut bytes = script.clone();
            bytes[at] = kind;
            assert_eq!(on_buffers(compare, random, &bytes).0, 1, "kind {kind}");
        }
        let (length, rest) = (calls[count].name.len(), script.len() - at - 7);
        for other in
            [0, length.saturating_sub(1), length + 1, 255, 256, rest, rest + 1, rest + 256, 65_535]
        {
            let mut bytes = script.clone();
            bytes[at + 5..at + 7].copy_from_slice(&(other as u16).to_be_bytes());
            let told = on_buffers(compare, random, &bytes);
            assert!(told.0 == 1 || other <= rest, "a length past the end");
        }
    }
}

/// What a name ends in: bytes that are allowed or not, signs of two bytes, halves of them.
const ENDS: [&[u8]; 12] = [
    b"x",
    b" ",
    b"~",
    b"\x1F",
    b"\x7F",
    b"\x80",
    b"\xFF",
    b"\xC2",
    b"\xB5",
    b"\xC2\xB5",
    b"\xCE\xA9",
    b"\xC2\xA9",
];

/// Names of every length and with an end of every kind, and scores at the ends, in sets and
/// withdrawals.
pub fn hostile_calls(compare: &mut Compare, random: &mut Random) {
    for length in [0, 1, 2, 47, 48, 49, 50, 255, 256, 257, 300, 65_535] {
        for end in ENDS {
            let mut name = vec![b'x'; length];
            let place = length.saturating_sub(end.len());
            name[place..].copy_from_slice(&end[..length - place]);
            for score in [0, 1, u32::MAX - 1, u32::MAX] {
                let call = |kind, name: &[u8]| Call { kind, score, name: name.to_vec() };
                let (set, withdraw) = (call(Kind::Set, &name), call(Kind::Withdraw, &name));
                let other = call(Kind::Set, b"x");
                for calls in
                    [vec![set.clone(), other.clone(), withdraw.clone()], vec![withdraw, set, other]]
                {
                    assert_eq!(on_buffers(compare, random, &script::bytes(&calls)).0, 0);
                }
            }
        }
    }
}

/// Runs on buffers and answers of every small length and around the lengths that are needed. A
/// wrong script is said first.
pub fn hostile_buffers(compare: &mut Compare, random: &mut Random) {
    for count in 0..4 {
        let script = script::bytes(&some_calls(random, count));
        let wrong = [script.clone(), vec![2]].concat();
        let mut on = |first: usize, second: usize, room: usize| {
            let [a, b, out] = [first, second, room].map(|length| random.bytes(length));
            let fits = first >= 7 && first == second && room >= ANSWER * count;
            assert_eq!(run(compare, &script, [&a, &b, &out]).0, if fits { 0 } else { 7 });
            assert_eq!(run(compare, &wrong, [&a, &b, &out]).0, 1);
        };
        for (first, second) in (0..10).flat_map(|first| (0..10).map(move |second| (first, second)))
        {
            (0..=ANSWER * count + 1).for_each(|room| on(first, second, room));
        }
        for length in [25, 130, 900, 57_344, 70_000] {
            for second in [0, 7, length - 1, length, length + 1] {
                (0..3)
                    .for_each(|room| on(length, second, (ANSWER * count + room).saturating_sub(1)));
            }
        }
    }
}

/// Any bytes as a script, most of them with kinds and lengths that may be a script's.
pub fn noise(compare: &mut Compare, random: &mut Random, rounds: usize) {
    for _ in 0..rounds {
        let length = random.below(60);
        let mut script = random.bytes(length);
        if !random.chance(10) {
            for byte in &mut script {
                *byte = random.pick(&[0, 0, 0, 0, 1, 1, 2, 3, 7, 0x61, 0x61, 0xC2, 0xB5, *byte]);
            }
        }
        on_buffers(compare, random, &script);
    }
}
