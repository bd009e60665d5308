//! The sheet image, version 11.
use super::*;

pub fn image(entries: &Entries) -> Vec<u8> {
    let rest: Vec<u8> =
        entries.iter().flat_map(|(name, score)| entry_bytes(name, *score)).collect();
    framed(0x11, entries.len(), &rest)
}

pub fn read(buffer: &[u8]) -> Option<Entries> {
    let (n, bytes) = unframed(0x11, buffer)?;
    let mut fields = Fields { image: bytes, at: 7 };
    let mut entries = Entries::new();
    for _ in 0..n {
        let length = fields.number(1)? as usize;
        let name = fields.take(length)?.to_vec();
        entries.insert(name, fields.number(4)?);
    }
    (is_valid(&entries) && image(&entries) == bytes).then_some(entries)
}
