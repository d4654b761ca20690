//! Figures over a night's replies, written from the request of that name and
//! from the form of a reply alone, for plainness only. Sentences in quotes are
//! theirs.

use std::fmt;

use crate::independent::{all_zero, check_length, each_line, Refusal};

/// "Numbers in reply lines have at most five digits"
const MOST_DIGITS: usize = 5;
/// The one refusal that may have a place.
const NOT_FRESH: u32 = 13;

/// The line that is printed, with its LF. Any bytes get one.
pub fn figures(replies: &[u8]) -> String {
    match read_night(replies) {
        // "files, accepted, then for S lines of the accepted files the mean as
        // numerator and denominator, and the variance [..] the same way"
        Ok(night) => {
            let accepted = night.steps.len();
            let [mean, variance] = [mean(&night.steps), variance(&night.steps)];
            format!("{},{accepted},{mean},{variance}\n", night.files)
        }
        // "A refusal prints its number and line only"
        Err((number, line)) => format!("{number},{line}\n"),
    }
}

// ---------------------------------------------------------------------------
// The replies
// ---------------------------------------------------------------------------

struct Night {
    files: u32,
    /// The S lines of each accepted file.
    steps: Vec<u128>,
}

fn read_night(replies: &[u8]) -> Result<Night, Refusal> {
    // "too much input gets 1 with line 0"
    check_length(replies)?;
    let mut steps = Vec::new();
    let files = each_line(replies, |text| {
        let reply = read_reply(text).filter(agrees_with_itself).ok_or(2_u32)?;
        if reply.accepted {
            let [_, _, of_file, _] = reply.counts;
            steps.push(of_file.into());
        }
        Ok(())
    })?;
    Ok(Night { files, steps })
}

struct Reply {
    accepted: bool,
    number: u32,
    line: u32,
    /// T lines, A lines plus clauses, S lines, closings.
    counts: [u32; 4],
    place: u32,
}

/// "`yes` or `no`, refusal number, line, T lines, A lines, S lines, closings",
/// and "a last field `place`".
fn read_reply(text: &[u8]) -> Option<Reply> {
    let fields: Vec<&[u8]> = text.split(|byte| *byte == b',').collect();
    let [answer, number, line, t, a, s, closings, place] = fields.as_slice() else {
        return None;
    };
    Some(Reply {
        accepted: read_answer(answer)?,
        number: read_number(number)?,
        line: read_number(line)?,
        counts: [
            read_number(t)?,
            read_number(a)?,
            read_number(s)?,
            read_number(closings)?,
        ],
        place: read_number(place)?,
    })
}

fn read_answer(field: &[u8]) -> Option<bool> {
    match field {
        b"yes" => Some(true),
        b"no" => Some(false),
        _ => None,
    }
}

/// "at most five digits and no leading zero"
fn read_number(field: &[u8]) -> Option<u32> {
    let digits = field.len();
    if digits == 0 || digits > MOST_DIGITS || !field.iter().all(u8::is_ascii_digit) {
        return None;
    }
    if field[0] == b'0' && digits > 1 {
        return None;
    }
    let text = std::str::from_utf8(field).ok()?;
    text.parse().ok()
}

/// Not "a yes with a nonzero number, line or place, or a no with number 0, a
/// nonzero count, or a place but not number 13". "no more is tested"
fn agrees_with_itself(reply: &Reply) -> bool {
    if reply.accepted {
        return all_zero(&[reply.number, reply.line, reply.place]);
    }
    let place_allowed = reply.place == 0 || reply.number == NOT_FRESH;
    reply.number != 0 && all_zero(&reply.counts) && place_allowed
}

// ---------------------------------------------------------------------------
// The fractions
// ---------------------------------------------------------------------------

struct Fraction {
    numerator: u128,
    denominator: u128,
}

impl Fraction {
    fn can_be_cancelled_by(&self, factor: u128) -> bool {
        let both = [self.numerator, self.denominator];
        both.iter().all(|number| number.is_multiple_of(factor))
    }
}

impl fmt::Display for Fraction {
    fn fmt(&self, f: &mut fmt::Formatter) -> fmt::Result {
        write!(f, "{},{}", self.numerator, self.denominator)
    }
}

fn mean(values: &[u128]) -> Fraction {
    over_power(values.iter().sum(), values.len() as u128, 1)
}

/// The mean of the squared differences from the mean, "over the count, not one
/// less". A difference, `value - sum / count`, is a whole number over the count;
/// so a square is one over its square, and their mean one over its cube.
fn variance(values: &[u128]) -> Fraction {
    let count = values.len() as u128;
    let sum = values.iter().sum();
    let differences = values.iter().map(|value| (count * value).abs_diff(sum));
    over_power(differences.map(|one| one.pow(2)).sum(), count, 3)
}

/// The numerator over this power of the count, "in lowest terms".
///
/// Only primes that divide the count divide its power, so they alone are
/// cancelled: a factor that isn't prime finds its primes gone. All of them divide
/// 0, so that "a zero is `0,1`". A count of 0 has no factors to try, so that "with
/// none accepted both are `0,0`".
fn over_power(numerator: u128, count: u128, power: u32) -> Fraction {
    let mut fraction = Fraction {
        numerator,
        denominator: count.pow(power),
    };
    for factor in 2..=count {
        while fraction.can_be_cancelled_by(factor) {
            fraction.numerator /= factor;
            fraction.denominator /= factor;
        }
    }
    fraction
}
