//! Version 22 (02, request f): what it holds beside version 21, refusal 10, the one head name, and
//! withdrawals that always fit.
use super::*;
use book::Version::{self, Buckets, NoBuckets};

/// P1 and P3 as they are in 01, which only the converter reads now.
#[test]
fn books_of_01() {
    assert_eq!(Buckets.image(&Entries::new()), bytes("21 00 00 00 07 00 00"));
    let image = bytes(
        "21 00 00 00 2C 00 04 00 00 00 05 00 00 00 09 00 00 00 09 00 00 00 0C 00 1B 00 03 \
         02 61 63 00 02 72 63 02 05 20 73 74 65 70 01 01 6C",
    );
    assert_eq!(Buckets.image(&e()), image);
    assert_eq!(Buckets.read(&image), Some(e()));
    assert_eq!(NoBuckets.read(&image), None);
    assert_eq!(book::read(&image), Err(OLD_BOOK));
}

/// The ten names of P9, each with its position as its score, and P10, without the first.
pub(super) fn ten_and_nine() -> [Entries; 2] {
    let names = (b'1'..=b'8').map(|digit| vec![digit]).chain([vec![b'x'; 47], vec![b'x'; 48]]);
    let ten: Entries = names.zip(0..).collect();
    let mut nine = ten.clone();
    nine.remove(&b"1"[..]);
    [ten, nine]
}

#[test]
fn p9_p10_in_both_versions() {
    let lengths = |version: Version| ten_and_nine().map(|held| version.image(&held).len());
    assert_eq!(lengths(Buckets), [127, 167]);
    assert_eq!(lengths(NoBuckets), [125, 118]);
}

/// Books of sizes around buckets and blocks.
pub(super) fn some_books() -> Vec<Entries> {
    let sizes = [0, 1, 7, 8, 9, 15, 16, 17, 31, 32, 33, 127, 128, 129, 1023, 1024];
    let numbered = sizes.map(|n| {
        (0..n).map(|i| (format!("n{}µ{i}", i % 7).into_bytes(), (i * 37 % 11) as u32)).collect()
    });
    numbered.into_iter().chain(ten_and_nine()).chain([e()]).collect()
}

#[test]
fn both_versions_hold_the_entries() {
    for held in some_books() {
        let [old, new] = [Buckets, NoBuckets].map(|version| version.image(&held));
        assert_eq!(Buckets.read(&old), Some(held.clone()));
        assert_eq!(NoBuckets.read(&new), Some(held.clone()));
        assert_eq!((Buckets.read(&new), NoBuckets.read(&old)), (None, None));
        // Scores and peaks are the same bytes; 22 has no offsets.
        let (n, blocks) = (held.len(), held.len().div_ceil(16));
        let (scores, offsets) = (7 + 4 * n, 2 * n.div_ceil(8));
        assert_eq!(old[5..scores], new[5..scores]);
        assert_eq!(old[scores + offsets..][..2 * blocks], new[scores..][..2 * blocks]);
        assert_eq!(NoBuckets.records_at(n) + offsets, Buckets.records_at(n));
    }
}

/// Every call that is given a book, but the converter, on buffers with room; the number of each.
fn numbers(book: &[u8]) -> Vec<u8> {
    let dst = &mut vec![0xEE; 90_000][..];
    let mut panel = Panel::default();
    let answers = [
        set(book, b"rc", 1, dst).err(),
        withdraw(book, b"rc", dst).err(),
        merge(book, book, dst).err(),
        check(book).err(),
        find(book, b"rc").err(),
        calls::name_at(book, 0, dst).err(),
        name_of(book, b"rc", dst).err(),
        prefix_range(book, b"r").err(),
        head(book, 0).err(),
        complete(book, b"r", 1, dst, 1).err(),
        list(book, dst).err(),
        page(book, dst).err(),
        write_trie(book, dst).err(),
        press(book, &mut panel, 0).err(),
    ];
    answers.map(Option::unwrap_or_default).to_vec()
}

#[test]
fn a_book_of_21_is_10() {
    let (old, mut changed) = (Buckets.image(&e()), book::image(&e()));
    assert_eq!(numbers(&changed), [0; 14]);
    changed[0] = 0x21;
    for book in [&old[..], &old[..old.len() - 1], &old[..1], &changed, b"\x21", b"!no book"] {
        assert_eq!(numbers(book), [OLD_BOOK; 14]);
    }
    assert_eq!(numbers(&[]), [IMAGE; 14]);
    for byte in (0..=u8::MAX).filter(|byte| ![0x21, 0x22].contains(byte)) {
        changed[0] = byte;
        assert_eq!(numbers(&changed), [IMAGE; 14]);
    }
    // Said before every other refusal, and not of a sheet or a trie.
    let full: Entries = (0..1024).map(|i| (format!("{i:04}").into_bytes(), 1)).collect();
    let full = Buckets.image(&full);
    assert_eq!(set(&old, b"\x1F", 1, &mut []), Err(OLD_BOOK));
    assert_eq!(set(&full, b"new", 1, &mut []), Err(OLD_BOOK));
    assert_eq!(withdraw(&old, b"none", &mut []), Err(OLD_BOOK));
    assert_eq!(calls::name_at(&old, 99, &mut []), Err(OLD_BOOK));
    assert_eq!(complete(&old, b"\x1F", 0, &mut [], 0), Err(OLD_BOOK));
    assert_eq!(head(&old, usize::MAX), Err(OLD_BOOK));
    assert_eq!(press(&old, &mut Panel { len: 99, ..Panel::default() }, 3), Err(OLD_BOOK));
    assert_eq!(build(&old, &mut []), Err(IMAGE));
    assert_eq!(complete_trie(&old, b"", 1, &mut [0; 53]), Err(IMAGE));
}

/// With two books it is enough that one is of version 21, whatever the other is.
#[test]
fn two_books_of_which_one_is_old() {
    let (old, new) = (&Buckets.image(&e())[..], &book::image(&e())[..]);
    for other in [new, old, &new[1..], &[], b"\x21", b"\x22"] {
        for [a, b] in [[old, other], [other, old], [b"\x21", other], [other, b"\x21"]] {
            assert_eq!(merge(a, b, &mut [0; 100]), Err(OLD_BOOK));
        }
    }
    assert_eq!(merge(new, &[], &mut [0; 100]), Err(IMAGE));
}

#[test]
fn one_head_name() {
    let none = book::image(&Entries::new());
    for bucket in [0, 1, 2, 128, 1 << 32, usize::MAX] {
        assert_eq!(head(&none, bucket), Err(POSITION));
    }
    for held in some_books().into_iter().filter(|held| !held.is_empty()) {
        let image = book::image(&held);
        let (start, length) = head(&image, 0).unwrap();
        let first = held.keys().next().unwrap();
        assert_eq!(&image[start..start + length], first);
        assert_eq!(image[start - 2..start], [0, length as u8]);
        for bucket in [1, 2, 127, 128, 1 << 32, usize::MAX] {
            assert_eq!(head(&image, bucket), Err(POSITION));
        }
        assert_eq!(head(&image[..image.len() - 1], 1), Err(IMAGE));
    }
    // E: the first record stands behind 7 bytes, four scores and one peak.
    assert_eq!(head(&book::image(&e()), 0), Ok((27, 2)));
}

/// A name taken out leaves at least 6 bytes less: its score, and its record's two bytes, since the
/// next one takes over no more than what its record said.
#[test]
fn withdrawals_fit() {
    for held in some_books() {
        let image = book::image(&held);
        for name in held.keys().step_by(held.len().div_ceil(40).max(1)) {
            let (n, bytes) = withdraw(&image, name, &mut vec![0; image.len()]).unwrap();
            assert_eq!(n, held.len() - 1);
            assert!(bytes + 6 <= image.len());
            assert_eq!(withdraw(&image, name, &mut vec![0; bytes - 1]), Err(TOO_SHORT));
        }
    }
}

/// A first record without a common byte, or with one that is not 0.
#[test]
fn first_records_refused() {
    let front = "00 01 00 00 00 09 00 00";
    let with = |record: &str| {
        let image = bytes(&format!("22 00 00 00 00 {front} {record}"));
        [&image[..4], &[image.len() as u8], &image[5..]].concat()
    };
    assert_eq!(book::read(&with("00 02 72 63")), Ok(of(&[("rc", 9)])));
    for record in ["02 72 63", "01 02 72 63", "02 02 72 63", "FF 02 72 63", "00 00", "00 03 72 63"]
    {
        assert_eq!(book::read(&with(record)), Err(IMAGE), "{record}");
    }
}
