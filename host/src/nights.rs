//! Nights of replies, made from a seed: good ones with S lines near each other
//! and far apart, some at the limit of bytes, and damaged neighbours.

use crate::byte_damage::byte_damaged;
use crate::random::Random;

/// The bytes of a damage at random: those of replies, the neighbours of the
/// digits, and others.
const BYTES: &[u8] = b"yesno,,,\n\n0123456789/:+-YN \t\r\0\xff";

/// What no number is.
const WRONG_FIELDS: [&str; 12] = [
    "", "00", "01", "+1", "-0", "100000", "000000", "yes", "no", "1 ", "0x1", "1.0",
];

/// What the first field gets, right or wrong.
const ANSWERS: [&str; 6] = ["yes", "no", "Yes", "NO", "ye", "noo"];

/// The shortest reply.
const SHORTEST: &str = "no,1,1,0,0,0,0,0\n";
/// The bytes of the shortest yes, and of the longest.
const YES_BYTES: [usize; 2] = [18, 34];

/// A night, half of them damaged.
pub fn night(random: &mut Random) -> Vec<u8> {
    let mut replies = good_night(random);
    match random.below(4) {
        0 | 1 => {}
        2 => return byte_damaged(replies.concat().as_bytes(), BYTES, random),
        _ => reply_damaged(&mut replies, random),
    }
    replies.concat().into_bytes()
}

/// Good replies, each with its LF: few or many, now and then as many as 60,000
/// bytes hold, or too many.
pub fn good_night(random: &mut Random) -> Vec<String> {
    let kind = Kind::new(random);
    if random.chance(1, 15) {
        let bytes = random.pick(&[59_999, 60_000, 60_000, 60_001, 60_017]);
        return kind.full_night(bytes, random);
    }
    let bound = random.pick(&[3, 10, 100, 1_000]);
    let count = random.below(bound);
    (0..count).map(|_| kind.reply(random)).collect()
}

/// What the replies of a night have in common.
struct Kind {
    /// How many of eight files are accepted.
    accepted: usize,
    steps: Spread,
}

/// Where the S lines of accepted files lie.
#[derive(Clone, Copy)]
enum Spread {
    /// From the first up to the second, which is left out.
    Range(usize, usize),
    EitherOf([usize; 2]),
}

impl Kind {
    fn new(random: &mut Random) -> Kind {
        let one = number(random).min(99_990);
        let steps = random.pick(&[
            Spread::Range(one, one + 1),
            Spread::Range(one, one + 4),
            Spread::Range(0, 3),
            Spread::Range(0, 2_500),
            Spread::Range(0, 100_000),
            Spread::Range(99_900, 100_000),
            Spread::EitherOf([0, 99_999]),
            Spread::EitherOf([one, 99_999 - one]),
        ]);
        let accepted = random.pick(&[0, 1, 4, 7, 8, 8]);
        Kind { accepted, steps }
    }

    fn reply(&self, random: &mut Random) -> String {
        if random.chance(self.accepted, 8) {
            let [terms, assumed, closings] = [(); 3].map(|_| number(random));
            let steps = self.steps.value(random);
            yes([terms, assumed, steps, closings])
        } else {
            no(random)
        }
    }

    /// Replies of exactly so many bytes.
    fn full_night(&self, bytes: usize, random: &mut Random) -> Vec<String> {
        let [least, most] = YES_BYTES;
        let mut replies = Vec::new();
        let mut left = bytes;
        // No reply is longer than the longest yes, so that a yes can be the last.
        while left >= least + most {
            let reply = self.reply(random);
            left -= reply.len();
            replies.push(reply);
        }
        if left > most {
            left -= SHORTEST.len();
            replies.push(String::from(SHORTEST));
        }
        replies.push(yes_of_bytes(left, random));
        replies
    }
}

impl Spread {
    fn value(self, random: &mut Random) -> usize {
        match self {
            Spread::Range(from, to) => from + random.below(to - from),
            Spread::EitherOf(two) => random.pick(&two),
        }
    }
}

/// A number with up to five digits, 0 too, and small ones often.
fn number(random: &mut Random) -> usize {
    let bound = random.pick(&[1, 2, 10, 100, 1_000, 10_000, 100_000]);
    random.below(bound)
}

/// T lines, A lines plus clauses, S lines, closings.
fn yes([terms, assumed, steps, closings]: [usize; 4]) -> String {
    format!("yes,0,0,{terms},{assumed},{steps},{closings},0\n")
}

fn no(random: &mut Random) -> String {
    let refusal = match random.below(4) {
        0 => number(random).max(1),
        1 => 13,
        _ => 1 + random.below(21),
    };
    let line = number(random);
    let place = if refusal == 13 { number(random) } else { 0 };
    format!("no,{refusal},{line},0,0,0,0,{place}\n")
}

/// A yes of 18 to 34 bytes.
fn yes_of_bytes(bytes: usize, random: &mut Random) -> String {
    let mut more = bytes - YES_BYTES[0];
    yes([(); 4].map(|_| {
        let digits = more.min(4);
        more -= digits;
        let least = 10_usize.pow(digits as u32);
        least + random.below(9 * least)
    }))
}

/// A reply removed, doubled or moved, which isn't wrong, or a field changed,
/// which mostly is.
fn reply_damaged(replies: &mut Vec<String>, random: &mut Random) {
    if replies.is_empty() {
        return;
    }
    let [one, other] = [(); 2].map(|_| random.below(replies.len()));
    match random.below(12) {
        0 => drop(replies.remove(one)),
        1 => replies.insert(other, replies[one].clone()),
        2 => replies.swap(one, other),
        _ => replies[one] = fields_damaged(&replies[one], random),
    }
}

fn fields_damaged(reply: &str, random: &mut Random) -> String {
    let mut fields: Vec<String> = reply.trim_end().split(',').map(str::to_string).collect();
    let [one, other] = [(); 2].map(|_| random.below(fields.len()));
    match random.below(10) {
        0 => fields.swap(one, other),
        1 => drop(fields.remove(one)),
        2 => fields.insert(other, fields[one].clone()),
        3 => fields[0] = random.pick(&ANSWERS).to_string(),
        4 => fields[one] = random.pick(&WRONG_FIELDS).to_string(),
        5 => fields[one].insert(0, '0'),
        6 => fields[one] = number(random).to_string(),
        _ => fields[one] = zero_exchanged(&fields[one], random),
    }
    fields.join(",") + "\n"
}

/// Another number for 0, and 0 for what is another.
fn zero_exchanged(field: &str, random: &mut Random) -> String {
    let number = if field == "0" {
        number(random).max(1)
    } else {
        0
    };
    number.to_string()
}
