//! The page for the wall (02, request e).
use super::*;

/// The bytes of a line in front of its line feed, and how many of them are columns of a name.
pub const LINE: usize = 40;
pub const COLUMNS: usize = 28;

/// The lines of an entry. The score is in the first, and a longer name goes on in further ones.
fn lines(name: &[u8], score: u32) -> Vec<Vec<u8>> {
    let parts = name.chunks(COLUMNS).enumerate();
    let lines = parts.map(|(i, part)| {
        let mut line = part.to_vec();
        line.resize(COLUMNS, b' ');
        line.extend(if i == 0 { format!("  {score:>10}") } else { " ".repeat(12) }.bytes());
        line
    });
    lines.collect()
}

/// The heading line, then those of each entry in rank, each with a line feed.
pub fn bytes(entries: &Entries) -> Vec<u8> {
    let heading = format!("NAME{}SCORE", " ".repeat(31)).into_bytes();
    let ranked = in_rank(&scores(entries), 0..entries.len()).into_iter();
    let below = ranked.flat_map(|i| {
        let (name, score) = name_at(entries, i);
        lines(name, score)
    });
    std::iter::once(heading).chain(below).flat_map(|line| [&line[..], b"\n"].concat()).collect()
}
