//! Damage at random to the text of either file.

use crate::byte_damage::byte_damaged;
use crate::generator::aliases;
use crate::random::Random;

use super::WORDS;

const BYTES: &[u8] = b"TACSD,,,\n\n0123456789acdefilnrstuvz -\r\0\xff";

/// The text, which is ASCII, with a line or a byte changed.
pub fn blind(text: &[u8], random: &mut Random) -> Vec<u8> {
    if text.is_empty() || random.chance(1, 3) {
        return byte_damaged(text, BYTES, random);
    }
    let text = String::from_utf8_lossy(text);
    let mut lines: Vec<String> = text.split_inclusive('\n').map(str::to_string).collect();
    lines_damaged(&mut lines, random);
    lines.concat().into_bytes()
}

fn lines_damaged(lines: &mut Vec<String>, random: &mut Random) {
    let [one, other] = [0, 1].map(|_| random.below(lines.len()));
    match random.below(8) {
        0 => lines.swap(one, other),
        1 => lines.insert(other, lines[one].clone()),
        2 => {
            let line = lines.remove(one);
            lines.insert(random.below(lines.len() + 1), line);
        }
        3 => {
            lines.remove(one);
        }
        _ => lines[one] = fields_damaged(&lines[one], random),
    }
}

/// A field with another number or word, or two fields exchanged.
fn fields_damaged(line: &str, random: &mut Random) -> String {
    let mut fields: Vec<String> = line.trim_end().split(',').map(str::to_string).collect();
    let [one, other] = [0, 1].map(|_| random.below(fields.len()));
    match random.below(5) {
        0 => fields.swap(one, other),
        1 => fields[1.min(one)] = random.pick(&WORDS).to_string(),
        _ => fields[one] = other_field(&fields[one], random),
    }
    fields.join(",") + "\n"
}

/// A number near the old one, one like it, or any; other fields stay.
fn other_field(old: &str, random: &mut Random) -> String {
    let Ok(number) = old.parse::<u32>() else {
        return old.to_string();
    };
    let new = match random.below(5) {
        0 => number + 1,
        1 => number.saturating_sub(1),
        2 => random.below(20) as u32,
        3 => aliases::like(number, random),
        _ => random.digits(),
    };
    new.to_string()
}
