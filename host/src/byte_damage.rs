//! Damage at random to one byte of a text.

use crate::random::Random;

/// The text cut short, or with one byte put in, changed or removed. A new byte
/// is one of these.
pub fn byte_damaged(text: &[u8], new: &[u8], random: &mut Random) -> Vec<u8> {
    let mut bytes = text.to_vec();
    let index = random.below(bytes.len() + 1);
    let byte = random.pick(new);
    match random.below(4) {
        0 => bytes.truncate(index),
        1 => bytes.insert(index, byte),
        _ if index == bytes.len() => bytes.push(byte),
        2 => bytes[index] = byte,
        _ => {
            bytes.remove(index);
        }
    }
    bytes
}
