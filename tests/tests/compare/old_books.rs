//! Books of version 21 (02, request f): whole, damaged and cut, and other bytes behind a byte 21.
//! Every call that is given one says 10, whatever else it is given; but not the converter (02,
//! request g), which reads them.
use super::*;
use label_book::Panel;
use label_book_tests::reference::book::Version::Buckets;

const OLD: Told = (10, [0; 3]);

/// Every call that is given a book, with arguments of any kind and any room; and the converter.
fn refused(compare: &mut Compare, random: &mut Random, old: &[u8], held: &Entries) {
    let name = make::asked(random, held);
    let (room, k) = (make::room(random, 60), make::count(random));
    let dst = random.bytes(room);
    let left = [
        compare.set(old, &name, 5, &dst),
        compare.withdraw(old, &name, &dst),
        compare.list(old, &dst),
        compare.page(old, &dst),
        compare.write_trie(old, &dst),
        compare.complete(old, &name, k, &dst, random.below(10)),
    ];
    assert!(left.iter().all(|left| *left == (OLD, dst.clone())));
    compare.check(old);
    compare.find(old, &name);
    compare.name_at(old, make::number(random, held.len()), &dst);
    compare.name_of(old, &name, &dst);
    compare.prefix_range(old, &name);
    compare.head(old, make::bucket(random, held.len()));
    assert_eq!([ours::check(old), ours::find(old, &name), ours::head(old, 0)], [OLD; 3]);
    let mut panel = make::panel(random, held);
    let key = make::key(random, held, panel.typed());
    assert_eq!(compare.press(old, &mut panel, key), OLD);
    let number = compare.convert(old, &dst).0 .0;
    assert!([0, 1, 7].contains(&number), "the converter says {number}");
    // It is said of a book, not of a sheet or a trie.
    assert_eq!(compare.build(old, &dst).0 .0, 1);
    assert_eq!(compare.complete_trie(old, &name, k, &dst).0 .0, 1);
}

/// With two books it is enough that one is old, whatever the other is.
fn merged(compare: &mut Compare, random: &mut Random, old: &[u8], held: &Entries) {
    let image = book::image(held);
    let others = [
        image.clone(),
        make::damaged(random, &image),
        image[..random.below(image.len())].to_vec(),
        old.to_vec(),
        vec![],
        sheet::image(held),
    ];
    for other in others {
        let dst = destination(random, image.len());
        assert_eq!(compare.merge(old, &other, &dst), (OLD, dst.clone()));
        assert_eq!(compare.merge(&other, old, &dst), (OLD, dst));
    }
}

/// One byte is enough, and none is 1.
pub fn worked(compare: &mut Compare) {
    let mut random = Random::new(0);
    let e = entries(&[("ac", 5), ("rc", 9), ("rc step", 9), ("rl", 12)]);
    for old in [&b"\x21"[..], b"\x21\x00", b"\x21\x00\x00\x00\x07\x00\x00", &Buckets.image(&e)] {
        refused(compare, &mut random, old, &e);
        merged(compare, &mut random, old, &e);
    }
    compare.check(&[]);
    assert_eq!(ours::check(&[]), (1, [0; 3]));
    assert_eq!(compare.press(&[], &mut Panel::default(), 0), (1, [0; 3]));
    // Every byte 0, in front of what is a book of version 22.
    let image = book::image(&e);
    for byte in 0..=u8::MAX {
        let bytes = [&[byte], &image[1..]].concat();
        compare.check(&bytes);
        compare.check(&[byte]);
        compare.merge(&bytes, &image, &[0; 60]);
        compare.merge(&image, &bytes, &[0; 60]);
    }
}

/// Old books of every size, whole, with bytes behind them, damaged behind byte 0 and cut to any
/// length; new ones, and other images, with byte 0 changed.
pub fn books(compare: &mut Compare, random: &mut Random, rounds: usize) {
    for round in 0..rounds {
        let n = SIZES.get(round).copied().unwrap_or_else(|| random.below(40));
        let (names, scores) = (random.pick(&NAMES), random.pick(&SCORES));
        let held = make::entries(random, n, names, scores);
        let old = Buckets.image(&held);
        let mut tried = vec![
            old.clone(),
            [old.clone(), random.bytes(9)].concat(),
            old[..1].to_vec(),
            old[..random.between(1, old.len())].to_vec(),
        ];
        tried.extend((0..4).map(|_| make::damaged(random, &old)));
        tried.extend([book::image(&held), sheet::image(&held), trie::image(&held)]);
        tried.push(make::damaged(random, &book::image(&held)));
        for mut bytes in tried {
            if bytes.is_empty() {
                continue;
            }
            bytes[0] = 0x21;
            refused(compare, random, &bytes, &held);
            merged(compare, random, &bytes, &held);
        }
    }
}
