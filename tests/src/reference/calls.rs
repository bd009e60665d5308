//! Every call of the documents: the checks in order, 10 first (but by the converter) and then the
//! table's, then the answer. `Err` is the refusal's number; a refusal changes nothing.
use super::*;

/// What a call that writes reports: the entries in it and its bytes.
pub type Written = Result<(usize, usize), u8>;

/// Number offered, bytes written, looks.
pub type Offered = Result<(usize, usize, usize), u8>;

/// Writes bytes at the front of the destination, or gives 7.
fn write(entries: usize, bytes: &[u8], dst: &mut [u8]) -> Written {
    dst.get_mut(..bytes.len()).ok_or(TOO_SHORT)?.copy_from_slice(bytes);
    Ok((entries, bytes.len()))
}

pub(super) fn allow(allowed: bool, otherwise: u8) -> Result<(), u8> {
    if allowed {
        Ok(())
    } else {
        Err(otherwise)
    }
}

pub fn empty(dst: &mut [u8]) -> Written {
    write(0, &book::image(&Entries::new()), dst)
}

pub fn set(book: &[u8], name: &[u8], score: u32, dst: &mut [u8]) -> Written {
    let mut entries = book::read(book)?;
    allow(is_name(name), NAME)?;
    allow(entries.contains_key(name) || entries.len() < MOST_ENTRIES, FULL)?;
    entries.insert(name.to_vec(), score);
    write(entries.len(), &book::image(&entries), dst)
}

pub fn withdraw(book: &[u8], name: &[u8], dst: &mut [u8]) -> Written {
    let mut entries = book::read(book)?;
    allow(is_name(name), NAME)?;
    entries.remove(name).ok_or(NOT_HELD)?;
    write(entries.len(), &book::image(&entries), dst)
}

/// Every name of either book once; where both have it, the first book's score counts.
pub fn merge(first: &[u8], second: &[u8], dst: &mut [u8]) -> Written {
    let [first, second] = book::read_all([first, second])?;
    let mut entries = second;
    for (name, score) in first {
        entries.insert(name, score);
    }
    allow(entries.len() <= MOST_ENTRIES, FULL)?;
    write(entries.len(), &book::image(&entries), dst)
}

/// The entries of a book and the length of its image.
pub fn check(book: &[u8]) -> Written {
    let entries = book::read(book)?;
    Ok((entries.len(), book::image(&entries).len()))
}

/// Position and score, or none.
pub fn find(book: &[u8], name: &[u8]) -> Result<Option<(usize, u32)>, u8> {
    let entries = book::read(book)?;
    allow(is_name(name), NAME)?;
    Ok(entries.keys().position(|held| held == name).map(|i| (i, entries[name])))
}

pub fn name_at(book: &[u8], position: usize, dst: &mut [u8]) -> Written {
    let entries = book::read(book)?;
    allow(position < entries.len(), POSITION)?;
    let (name, score) = super::name_at(&entries, position);
    write(1, &entry_bytes(name, score), dst)
}

pub fn name_of(book: &[u8], name: &[u8], dst: &mut [u8]) -> Written {
    let entries = book::read(book)?;
    allow(is_name(name), NAME)?;
    let score = *entries.get(name).ok_or(NOT_HELD)?;
    write(1, &entry_bytes(name, score), dst)
}

/// The positions of the names that a prefix begins.
fn matching(entries: &Entries, prefix: &[u8]) -> std::ops::Range<usize> {
    let positions: Vec<usize> = (0..)
        .zip(entries.keys())
        .filter(|(_, name)| name.starts_with(prefix))
        .map(|(i, _)| i)
        .collect();
    match positions.first() {
        None => 0..0,
        Some(&first) => first..first + positions.len(),
    }
}

/// First position, 0 if there are none, and count.
pub fn prefix_range(book: &[u8], prefix: &[u8]) -> Result<(usize, usize), u8> {
    let entries = book::read(book)?;
    allow(is_prefix(prefix), NAME)?;
    let range = matching(&entries, prefix);
    Ok((range.start, range.len()))
}

/// Where in the book the head name of bucket 0 begins, behind the two bytes in front of every name,
/// and its length. No other bucket has one, and none of a book of no entries.
pub fn head(book: &[u8], bucket: usize) -> Result<(usize, usize), u8> {
    let entries = book::read(book)?;
    allow(bucket == 0 && !entries.is_empty(), POSITION)?;
    let (name, _) = super::name_at(&entries, 0);
    Ok((book::Version::NoBuckets.records_at(entries.len()) + 2, name.len()))
}

/// The bytes of the entries that a prefix begins, in rank, the first k or all if fewer; and how
/// many they are.
pub fn completion(entries: &Entries, prefix: &[u8], k: usize) -> (usize, Vec<u8>) {
    let offered: Vec<usize> =
        in_rank(&scores(entries), matching(entries, prefix)).into_iter().take(k).collect();
    let bytes = offered.iter().flat_map(|&i| {
        let (name, score) = super::name_at(entries, i);
        entry_bytes(name, score)
    });
    (offered.len(), bytes.collect())
}

/// The looks of the range machine.
fn looks(entries: &Entries, prefix: &[u8], k: usize) -> usize {
    let scores = scores(entries);
    let rank = in_rank(&scores, 0..entries.len());
    let mut open: Vec<std::ops::Range<usize>> = Vec::new();
    let mut looks = 0;
    let mut put = |open: &mut Vec<std::ops::Range<usize>>, range: std::ops::Range<usize>| {
        if !range.is_empty() {
            open.push(range);
            looks += 1;
        }
    };
    put(&mut open, matching(entries, prefix));
    for turn in 1..=k {
        let bests = open.iter().map(|range| in_rank(&scores, range.clone())[0]);
        let Some(best) = bests.min_by_key(|best| rank.iter().position(|i| i == best)) else {
            break;
        };
        if turn == k {
            break;
        }
        let at = open.iter().position(|range| range.contains(&best)).unwrap();
        let range = open.remove(at);
        put(&mut open, range.start..best);
        put(&mut open, best + 1..range.end);
    }
    looks
}

/// Completion's checks behind the image's, in order, then the entries offered; k is at most `most`.
fn offer(
    most: usize,
    entries: &Entries,
    prefix: &[u8],
    k: usize,
    dst: &mut [u8],
    ranges: usize,
) -> Result<(usize, usize), u8> {
    allow(is_prefix(prefix), NAME)?;
    allow((1..=most).contains(&k), COUNT)?;
    allow(dst.len() >= 53 * k && ranges >= k, TOO_SHORT)?;
    let (offered, bytes) = completion(entries, prefix, k);
    write(offered, &bytes, dst)
}

/// Completion from a book, with as many ranges lent.
pub fn complete(book: &[u8], prefix: &[u8], k: usize, dst: &mut [u8], ranges: usize) -> Offered {
    complete_within(MOST_OFFERED, book, prefix, k, dst, ranges)
}

/// Completion from a trie, which takes no ranges and reports looks 0.
pub fn complete_trie(trie: &[u8], prefix: &[u8], k: usize, dst: &mut [u8]) -> Offered {
    complete_trie_within(MOST_OFFERED, trie, prefix, k, dst)
}

/// Completion from a book with a limit of k that is given.
pub(super) fn complete_within(
    most: usize,
    book: &[u8],
    prefix: &[u8],
    k: usize,
    dst: &mut [u8],
    ranges: usize,
) -> Offered {
    let entries = book::read(book)?;
    let (offered, bytes) = offer(most, &entries, prefix, k, dst, ranges)?;
    Ok((offered, bytes, looks(&entries, prefix, k)))
}

/// The same from a trie.
pub(super) fn complete_trie_within(
    most: usize,
    trie: &[u8],
    prefix: &[u8],
    k: usize,
    dst: &mut [u8],
) -> Offered {
    let entries = trie::read(trie).ok_or(IMAGE)?;
    let (offered, bytes) = offer(most, &entries, prefix, k, dst, k)?;
    Ok((offered, bytes, 0))
}

pub fn build(sheet: &[u8], dst: &mut [u8]) -> Written {
    let entries = sheet::read(sheet).ok_or(IMAGE)?;
    write(entries.len(), &book::image(&entries), dst)
}

pub fn list(book: &[u8], dst: &mut [u8]) -> Written {
    let entries = book::read(book)?;
    write(entries.len(), &sheet::image(&entries), dst)
}

/// A book of version 21 as one of 22, or one of 22 as 21: by byte 0 alone, so that it has to be
/// laid out as that byte says.
pub fn convert(book: &[u8], dst: &mut [u8]) -> Written {
    let version = book::Version::of(book).ok_or(IMAGE)?;
    let entries = version.read(book).ok_or(IMAGE)?;
    write(entries.len(), &version.other().image(&entries), dst)
}

pub fn page(book: &[u8], dst: &mut [u8]) -> Written {
    let entries = book::read(book)?;
    write(entries.len(), &page::bytes(&entries), dst)
}

pub fn write_trie(book: &[u8], dst: &mut [u8]) -> Written {
    let entries = book::read(book)?;
    write(entries.len(), &trie::image(&entries), dst)
}

/// The names that a panel shows below a text.
pub fn rows(entries: &Entries, text: &[u8], k: usize) -> Vec<Vec<u8>> {
    let offered = in_rank(&scores(entries), matching(entries, text)).into_iter().take(k);
    offered.map(|i| super::name_at(entries, i).0.to_vec()).collect()
}
