//! What the D lines say, in their order.

use super::super::refusal::{ensure, Refusal};
use crate::numbers::GREATEST;

/// What a D line speaks of: its word, a name, a reference and a field.
pub type Key = u64;

pub const FIELD_BITS: u32 = 4;
pub const REFERENCE_BITS: u32 = 6;
const NAME_BITS: u32 = GREATEST.ilog2() + 1;
const NAME: u32 = FIELD_BITS + REFERENCE_BITS;
const WORD: u32 = NAME + NAME_BITS;

/// The words, as keys have them.
#[derive(Clone, Copy)]
pub enum Word {
    Alc,
    Typ,
    Dty,
    Sub,
    Rfv,
    Fnv,
    Clv,
    Rgv,
    Arv,
}

/// "D,alc,1,0,0,0" and LF.
const SHORTEST_LINE: usize = 14;

pub struct Facts {
    keys: Vec<Key>,
    values: Vec<u8>,
}

#[inline(always)]
pub fn key(word: Word, name: u32, reference: u32, field: u32) -> Key {
    variable(word, name) << NAME | Key::from(reference) << FIELD_BITS | Key::from(field)
}

/// The word and the name of a key, with nothing below them.
#[inline(always)]
fn variable(word: Word, name: u32) -> Key {
    (word as Key) << (WORD - NAME) | Key::from(name)
}

impl Facts {
    /// None yet, with room for those of a file with so many bytes.
    pub fn with_room(bytes: usize) -> Facts {
        let most = bytes / SHORTEST_LINE;
        Facts {
            keys: Vec::with_capacity(most),
            values: Vec::with_capacity(most),
        }
    }

    /// Notes a fact; what it speaks of must not have been given before.
    #[inline(always)]
    pub fn add(&mut self, key: Key, value: u32) -> Result<(), Refusal> {
        ensure(self.search(key).is_none(), Refusal::Fact)?;
        self.keys.push(key);
        self.values.push(value as u8);
        Ok(())
    }

    /// Goes through the keys from the first. One loop for all words.
    #[inline(never)]
    fn search(&self, key: Key) -> Option<usize> {
        self.keys.iter().position(|known| *known == key)
    }

    /// The value of a variable of one number, 0 where none is given.
    pub fn value(&self, word: Word, name: u32) -> u64 {
        let found = self.search(key(word, name, 0, 0));
        found.map_or(0, |index| u64::from(self.values[index]))
    }

    /// The reference and the field, below each other, and the value of every
    /// fact about a variable.
    #[inline(always)]
    pub fn of_variable(&self, word: Word, name: u32) -> impl Iterator<Item = (usize, u8)> + '_ {
        let wanted = variable(word, name);
        let entries = self.keys.iter().zip(&self.values);
        entries
            .filter(move |(key, _)| *key >> NAME == wanted)
            .map(|(key, value)| ((*key & ((1 << NAME) - 1)) as usize, *value))
    }
}
