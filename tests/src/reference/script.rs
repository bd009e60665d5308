//! A script, the calls of a history one after the other, and the run of a history on two buffers.
use super::calls::{allow, Written};
use super::*;

/// The bytes of a kept answer.
pub const ANSWER: usize = 7;

/// The bytes of the book of no entries, which a history starts from.
pub const EMPTY_BOOK: usize = 7;

#[derive(Clone, Copy, Debug, PartialEq, Eq)]
pub enum Kind {
    Set = 0,
    Withdraw = 1,
}

/// A call of a script. The score is of no account in a withdraw.
#[derive(Clone, Debug, PartialEq, Eq)]
pub struct Call {
    pub kind: Kind,
    pub score: u32,
    pub name: Vec<u8>,
}

impl Call {
    /// Kind in 1 byte, score in 4, length in 2, name.
    pub fn bytes(&self) -> Vec<u8> {
        let mut bytes = vec![self.kind as u8];
        bytes.extend(self.score.to_be_bytes());
        bytes.extend((self.name.len() as u16).to_be_bytes());
        bytes.extend(&self.name);
        bytes
    }

    fn take(fields: &mut Fields) -> Option<Call> {
        let kind = match fields.number(1)? {
            0 => Kind::Set,
            1 => Kind::Withdraw,
            _ => return None,
        };
        let score = fields.number(4)?;
        let length = fields.number(2)? as usize;
        Some(Call { kind, score, name: fields.take(length)?.to_vec() })
    }

    /// The answer of the call that reads a book in one buffer and writes to another.
    fn answer(&self, book: &[u8], dst: &mut [u8]) -> Written {
        match self.kind {
            Kind::Set => calls::set(book, &self.name, self.score, dst),
            Kind::Withdraw => calls::withdraw(book, &self.name, dst),
        }
    }
}

pub fn bytes(calls: &[Call]) -> Vec<u8> {
    calls.iter().flat_map(Call::bytes).collect()
}

/// The calls of a script, which ends where the last of them does.
pub fn read(script: &[u8]) -> Option<Vec<Call>> {
    let mut fields = Fields { image: script, at: 0 };
    let mut calls = Vec::new();
    while fields.at < script.len() {
        calls.push(Call::take(&mut fields)?);
    }
    Some(calls)
}

/// An answer as a run keeps it: number in 1 byte, entries in 2, bytes in 4.
pub fn kept(answer: Written) -> [u8; ANSWER] {
    let (number, (entries, bytes)) = match answer {
        Ok(counts) => (0, counts),
        Err(number) => (number, (0, 0)),
    };
    let [entries, bytes] = [entries, bytes].map(|count| (count as u32).to_be_bytes());
    [number, entries[2], entries[3], bytes[0], bytes[1], bytes[2], bytes[3]]
}

/// "Empty" into the first buffer, then every call of the script, each from the buffer that holds
/// the book into the other. How many calls there are, and 1 if the second buffer holds the book at
/// the end, else 0.
pub fn run(
    script: &[u8],
    first: &mut [u8],
    second: &mut [u8],
    out: &mut [u8],
) -> Result<(usize, usize), u8> {
    let calls = read(script).ok_or(IMAGE)?;
    let long_enough = first.len() >= EMPTY_BOOK
        && second.len() == first.len()
        && out.len() >= ANSWER * calls.len();
    allow(long_enough, TOO_SHORT)?;
    calls::empty(first)?;
    let (mut book, mut other, mut turned) = (first, second, 0);
    for (call, place) in calls.iter().zip(out.chunks_exact_mut(ANSWER)) {
        let answer = call.answer(book, other);
        place.copy_from_slice(&kept(answer));
        if answer.is_ok() {
            std::mem::swap(&mut book, &mut other);
            turned = 1 - turned;
        }
    }
    Ok((calls.len(), turned))
}
