//! The ledger: fed which call it is and its arguments, and nothing else.
use super::calls::Written;
use super::script::{Call, Kind};
use super::*;

pub struct Ledger {
    pub buffer: usize,
    pub held: Entries,
}

impl Ledger {
    pub fn new(buffer: usize) -> Ledger {
        Ledger { buffer, held: Entries::new() }
    }

    pub fn set(&mut self, name: &[u8], score: u32) -> Written {
        let mut result = self.held.clone();
        result.insert(name.to_vec(), score);
        let full = !self.held.contains_key(name) && self.held.len() == MOST_ENTRIES;
        self.answer(name, full.then_some(FULL), result)
    }

    pub fn withdraw(&mut self, name: &[u8]) -> Written {
        let mut result = self.held.clone();
        let absent = result.remove(name).is_none();
        self.answer(name, absent.then_some(NOT_HELD), result)
    }

    pub fn call(&mut self, call: &Call) -> Written {
        match call.kind {
            Kind::Set => self.set(&call.name, call.score),
            Kind::Withdraw => self.withdraw(&call.name),
        }
    }

    fn answer(&mut self, name: &[u8], refusal: Option<u8>, result: Entries) -> Written {
        if !is_name(name) {
            return Err(NAME);
        }
        if let Some(number) = refusal {
            return Err(number);
        }
        let bytes = book::image(&result).len();
        if bytes > self.buffer {
            return Err(TOO_SHORT);
        }
        self.held = result;
        Ok((self.held.len(), bytes))
    }
}
