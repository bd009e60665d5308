//! Books moved up to version 22 and back to 21 (02, request g): by bytes, the room that they need,
//! there and back, what they offer, and what is laid out as neither.
use super::versions::{some_books, ten_and_nine};
use super::*;
use book::Version::{Buckets, NoBuckets};

/// P3 as it is in 01, and as one of version 22.
const OLD_E: &str =
    "21 00 00 00 2C 00 04 00 00 00 05 00 00 00 09 00 00 00 09 00 00 00 0C 00 1B 00 03 \
                     02 61 63 00 02 72 63 02 05 20 73 74 65 70 01 01 6C";
const NEW_E: &str = "22 00 00 00 2B 00 04 00 00 00 05 00 00 00 09 00 00 00 09 00 00 00 0C 00 03 \
                     00 02 61 63 00 02 72 63 02 05 20 73 74 65 70 01 01 6C";

/// The bytes that a book is converted to, or the refusal; no others of the destination change.
fn converted(book: &[u8]) -> Result<Vec<u8>, u8> {
    let mut dst = vec![0xEE; 60_000];
    let (_, bytes) = convert(book, &mut dst)?;
    assert!(dst[bytes..].iter().all(|byte| *byte == 0xEE));
    dst.truncate(bytes);
    Ok(dst)
}

/// A book in both versions: each is converted to the other, into just the room that this needs, and
/// not into a byte less. Bytes behind it are not read.
fn both_ways(old: &[u8], new: &[u8], n: usize) {
    for (from, to) in [(old, new), (new, old)] {
        assert_eq!(converted(from).as_deref(), Ok(to));
        assert_eq!(converted(&[from, b"\x22\x21 behind"].concat()).as_deref(), Ok(to));
        let mut dst = vec![0xEE; to.len()];
        assert_eq!((convert(from, &mut dst), &dst[..]), (Ok((n, to.len())), to));
        for room in [0, 1, 7, to.len() / 2, to.len() - 1] {
            let mut dst = vec![0xEE; room.min(to.len() - 1)];
            assert_eq!(convert(from, &mut dst), Err(TOO_SHORT));
            assert!(dst.iter().all(|byte| *byte == 0xEE));
        }
    }
}

#[test]
fn p1_p3_both_ways() {
    both_ways(&bytes("21 00 00 00 07 00 00"), &bytes("22 00 00 00 07 00 00"), 0);
    both_ways(&bytes(OLD_E), &bytes(NEW_E), 4);
}

/// Ten names are shorter by 2 bytes in version 22. Without the first, the long names stand in one
/// bucket no more, and going back needs 49 bytes more than there are.
#[test]
fn p9_p10_both_ways() {
    let [ten, nine] = ten_and_nine();
    for (held, old_length, new_length) in [(ten, 127, 125), (nine, 167, 118)] {
        let [old, new] = [Buckets, NoBuckets].map(|version| version.image(&held));
        assert_eq!([old.len(), new.len()], [old_length, new_length]);
        both_ways(&old, &new, held.len());
        assert_eq!(convert(&old, &mut vec![0; new_length]), Ok((held.len(), new_length)));
        assert_eq!(convert(&new, &mut vec![0; new_length]), Err(TOO_SHORT));
    }
}

/// Three buckets and two blocks: the letters a to q, the last of them with the best score.
#[test]
fn seventeen_names() {
    let letters = (b'a'..=b'q').map(|letter| (vec![letter], letter as u32 % 5)).collect();
    let scores = "02 03 04 00 01 02 03 04 00 01 02 03 04 00 01 02 03".replace(' ', " 00 00 00 ");
    let heads = [("55", "61"), ("6C", "69"), ("83", "71")];
    let offsets = heads.map(|(at, _)| format!("00 {at}")).join(" ");
    let others = |letters: std::ops::RangeInclusive<u8>| {
        letters.map(|letter| format!(" 00 01 {letter:02X}")).collect::<String>()
    };
    let [first, second] = [others(b'b'..=b'h'), others(b'j'..=b'p')];
    let records = format!("01 61{first} 01 69{second} 01 71");
    let old = format!("21 00 00 00 85 00 11 00 00 00 {scores} {offsets} 00 02 00 10 {records}");
    let all = others(b'a'..=b'q');
    let new = format!("22 00 00 00 82 00 11 00 00 00 {scores} 00 02 00 10{all}");
    both_ways(&bytes(&old), &bytes(&new), 17);
    assert_eq!(Buckets.read(&bytes(&old)), Some(letters));
    // Names that begin each other: a head has all its bytes, and the same name in 22 one.
    let chain: Entries = (1..=17).map(|length| (vec![b'a'; length], 7)).collect();
    let [old, new] = [Buckets, NoBuckets].map(|version| version.image(&chain));
    assert_eq!([old.len(), new.len()], [157, 130]);
    both_ways(&old, &new, 17);
}

/// µ and Ω in heads and in other names, and of a head that begins as the name before it does.
#[test]
fn signs_both_ways() {
    let names = ["10 µA", "10 µF", "10 Ω", "4.7 kΩ", "µ", "µA", "µµ", "µΩ", "µΩµ", "Ω"];
    let held: Entries = names.iter().map(|name| (name.as_bytes().to_vec(), 3)).collect();
    let [old, new] = [Buckets, NoBuckets].map(|version| version.image(&held));
    assert!(old.ends_with(&bytes("06 C2 B5 CE A9 C2 B5 00 02 CE A9")));
    assert!(new.ends_with(&bytes("02 02 CE A9 04 02 C2 B5 00 02 CE A9")));
    both_ways(&old, &new, 10);
}

#[test]
fn books_there_and_back() {
    for held in some_books() {
        let [old, new] = [Buckets, NoBuckets].map(|version| version.image(&held));
        both_ways(&old, &new, held.len());
        for image in [old, new] {
            let other = converted(&image).unwrap();
            assert_eq!(converted(&other), Ok(image));
        }
    }
    // 1,024 names that share most of their bytes: going back, every head gets them again.
    let full: Entries = crate::make::numbers(1024, 48).zip(0..).collect();
    let [old, new] = [Buckets, NoBuckets].map(|version| version.image(&full));
    both_ways(&old, &new, 1024);
}

/// What a book of version 21 offered is what the same book offers when it was moved up.
#[test]
fn the_same_lists() {
    for held in some_books().into_iter().filter(|held| held.len() < 40) {
        let old = Buckets.image(&held);
        let (before, new) = (Buckets.read(&old).unwrap(), converted(&old).unwrap());
        let starts = held.keys().flat_map(|name| (0..=name.len()).map(|end| &name[..end]));
        for prefix in starts.filter(|start| is_prefix(start)).chain([&b"zz"[..]]) {
            for k in [1, 2, 9] {
                let (offered, list) = completion(&before, prefix, k);
                let mut dst = vec![0; 53 * k];
                let answer = complete(&new, prefix, k, &mut dst, k);
                assert_eq!(answer.map(|(n, bytes, _)| (n, bytes)), Ok((offered, list.len())));
                assert!(dst.starts_with(&list));
            }
        }
    }
}

/// Byte 0 alone says how a book is laid out.
#[test]
fn by_byte_0() {
    let (old, new) = (bytes(OLD_E), bytes(NEW_E));
    for buffer in [&b""[..], b"\x21", b"\x22", &old[..6], &new[..6]] {
        assert_eq!((converted(buffer), convert(buffer, &mut [])), (Err(IMAGE), Err(IMAGE)));
    }
    for image in [old, new] {
        for byte in (0..=u8::MAX).filter(|byte| *byte != image[0]) {
            let other = [&[byte], &image[1..]].concat();
            assert_eq!((converted(&other), convert(&other, &mut [])), (Err(IMAGE), Err(IMAGE)));
            assert_eq!(converted(&[byte]), Err(IMAGE));
        }
    }
    // Sheets and tries, too, of which a byte 21 makes no book.
    for mut image in [sheet::image(&e()), trie::image(&e())] {
        assert_eq!(converted(&image), Err(IMAGE));
        image[0] = 0x21;
        assert_eq!(converted(&image), Err(IMAGE));
    }
}

/// P3 of 01 with a field changed, which is then 1, whatever the room, and not taken for 22.
#[test]
fn damaged_books_of_21() {
    let old = bytes(OLD_E);
    for (at, other) in [
        (4, "2B"),  // total length
        (6, "03"),  // number of entries
        (24, "1C"), // offset
        (24, "1A"),
        (23, "01"),
        (26, "02"), // peak
        (25, "01"),
        (10, "0D"), // a score above the peak's
        (27, "03"), // length of a head
        (28, "72"), // a head behind the second name
        (28, "1F"), // a byte that is not allowed
        (30, "01"), // common byte
        (34, "01"),
        (35, "04"), // length of the rest
    ] {
        let image = [&old[..at], &bytes(other), &old[at + 1..]].concat();
        assert_eq!(converted(&image), Err(IMAGE), "{at}: {other}");
        for room in [0, 42, 43] {
            assert_eq!(convert(&image, &mut vec![0; room]), Err(IMAGE));
        }
    }
    // A common byte smaller than the longest.
    let shared = bytes("01 06 63 20 73 74 65 70");
    let image = [&old[..4], &[0x2D], &old[5..34], &shared, &old[41..]].concat();
    assert_eq!((image.len(), converted(&image)), (0x2D, Err(IMAGE)));
    for image in [old, bytes(NEW_E)] {
        for end in 0..image.len() {
            assert_eq!(converted(&image[..end]), Err(IMAGE), "cut at {end}");
        }
    }
}

/// Heads are compared with the name in front of their bucket, from which they take no bytes.
#[test]
fn heads_in_order() {
    let with = |head: &str| {
        let others: String = (b'2'..=b'8').map(|digit| format!("00 01 {digit:02X} ")).collect();
        let records = bytes(&format!("01 31 {others}{head}"));
        let front = [0x21, 0, 0, 0, 49 + records.len() as u8, 0, 9];
        [&front[..], &[0; 36], &bytes("00 31 00 48 00 00"), &records].concat()
    };
    for (head, n) in [("01 39", 9), ("02 38 20", 9), ("02 C2 B5", 9)] {
        assert_eq!(Buckets.read(&with(head)).map(|held| held.len()), Some(n), "{head}");
    }
    for head in ["01 38", "01 37", "01 31", "02 37 39", "00", "01 C2", "01 B5", "00 01 39"] {
        assert_eq!(converted(&with(head)), Err(IMAGE), "{head}");
    }
}
