//! The independent figures, on nights worked out by hand and on nights at
//! random, against other calculations; and figures that are wrong are found.

mod nights;
mod some_nights;

use std::collections::{BTreeMap, HashSet};

use host::independent_figures::figures;
use host::nights::good_night;
use host::random::Random;
use some_nights::{some_nights, NIGHTS};

const SEED: u64 = 20_040_708;
const GOOD_NIGHTS: usize = 500;

fn good_nights() -> impl Iterator<Item = Vec<String>> {
    let mut random = Random::new(SEED);
    (0..GOOD_NIGHTS).map(move |_| good_night(&mut random))
}

/// The numbers of a printed line, which has nothing else.
fn numbers(line: &str) -> Vec<i128> {
    let text = line.strip_suffix('\n').expect(line);
    let numbers = text.split(',').map(|text| {
        let number: i128 = text.parse().expect(line);
        assert_eq!(number.to_string(), text, "{line}");
        number
    });
    numbers.collect()
}

/// The S lines of the accepted files of a night that isn't refused.
fn values(replies: &[u8]) -> Vec<i128> {
    let text = std::str::from_utf8(replies).expect("good replies are ASCII");
    let accepted = text.lines().filter(|line| line.starts_with("yes,"));
    let steps = accepted.map(|line| line.split(',').nth(5).expect(line));
    steps.map(|steps| steps.parse().expect(steps)).collect()
}

// ---------------------------------------------------------------------------
// Nights worked out by hand
// ---------------------------------------------------------------------------

#[test]
fn every_night_gets_its_figures() {
    nights::expect_figures(figures);
}

#[test]
fn no_night_is_there_twice() {
    let (mut names, mut bytes) = (HashSet::new(), HashSet::new());
    for night in nights::all() {
        assert!(names.insert(night.name.clone()), "{}", night.name);
        assert!(bytes.insert(night.replies), "{}", night.name);
    }
}

#[test]
fn every_outcome_is_worked_out() {
    let lines = nights::all().into_iter();
    let outcomes = outcomes(lines.map(|night| format!("{}\n", night.figures)));
    assert_eq!(outcomes.len(), OUTCOMES);
    assert!(outcomes["1"] > 30);
}

// ---------------------------------------------------------------------------
// Nights at random
// ---------------------------------------------------------------------------

/// What came of a night, as far as nights should differ in it.
fn outcome(line: &str) -> &'static str {
    match numbers(line)[..] {
        [1, 0] => "1",
        [2, 1] => "2 on the first line",
        [2, 2..=99] => "2 on a line below 100",
        [2, bad] if bad >= 100 => "2 on a later line",
        [0, 0, 0, 0, 0, 0] => "no files",
        [_, 0, 0, 0, 0, 0] => "none accepted",
        [_, _, 0, 1, 0, 1] => "mean 0",
        [_, _, _, 1, 0, 1] => "variance 0",
        [_, _, _, 1, _, 1] => "integers",
        [_, n, _, d, _, e] if d < n || e < n * n => "fractions reduced",
        [_, n, _, d, _, e] if d == n && e == n * n => "fractions not reduced",
        _ => panic!("{line}"),
    }
}

const OUTCOMES: usize = 11;

/// How often each is reached.
fn outcomes(lines: impl Iterator<Item = String>) -> BTreeMap<&'static str, usize> {
    let mut outcomes = BTreeMap::new();
    for line in lines {
        *outcomes.entry(outcome(&line)).or_default() += 1;
    }
    println!("{outcomes:?}");
    outcomes
}

#[test]
fn every_outcome_is_reached_often() {
    let outcomes = outcomes(some_nights().map(|replies| figures(&replies)));
    assert_eq!(outcomes.len(), OUTCOMES);
    assert!(outcomes.values().all(|count| *count >= NIGHTS / 100));
    let refused = outcomes.iter().filter(|(name, _)| name.starts_with('2'));
    assert!(refused.map(|(_, count)| count).sum::<usize>() > NIGHTS / 4);
}

/// From how they were made: no good night is refused but for its length.
#[test]
fn good_nights_are_counted() {
    let mut too_long = 0;
    for replies in good_nights() {
        let files = replies.len();
        let accepted = replies.iter().filter(|reply| reply.starts_with("yes"));
        let accepted = accepted.count();
        let text = replies.concat();
        let line = figures(text.as_bytes());
        if text.len() > 60_000 {
            too_long += 1;
            assert_eq!(line, "1,0\n");
        } else {
            assert!(line.starts_with(&format!("{files},{accepted},")), "{line}");
        }
    }
    assert!(0 < too_long && too_long < GOOD_NIGHTS / 10, "{too_long}");
}

#[test]
fn good_nights_reach_the_limit() {
    let lengths: HashSet<usize> = good_nights().map(|night| night.concat().len()).collect();
    for length in [0, 59_999, 60_000, 60_001] {
        assert!(lengths.contains(&length), "{length}");
    }
    assert!(good_nights().any(|night| night.len() > 3_000));
}

#[test]
fn the_order_of_the_files_does_not_matter() {
    let mut random = Random::new(SEED);
    for mut replies in good_nights() {
        let line = figures(replies.concat().as_bytes());
        random.shuffle(&mut replies);
        assert_eq!(figures(replies.concat().as_bytes()), line);
    }
}

// ---------------------------------------------------------------------------
// Other calculations
// ---------------------------------------------------------------------------

fn common_divisor(a: i128, b: i128) -> i128 {
    match b {
        0 => a.abs(),
        _ => common_divisor(b, a % b),
    }
}

#[derive(Debug, Clone, Copy, PartialEq, Eq)]
struct Rational {
    numerator: i128,
    denominator: i128,
}

impl Rational {
    const ZERO: Rational = Rational {
        numerator: 0,
        denominator: 1,
    };

    fn new(numerator: i128, denominator: i128) -> Rational {
        let divisor = common_divisor(numerator, denominator);
        Rational {
            numerator: numerator / divisor,
            denominator: denominator / divisor,
        }
    }

    fn plus(self, other: Rational) -> Rational {
        let [one, two] = [
            self.numerator * other.denominator,
            other.numerator * self.denominator,
        ];
        Rational::new(one + two, self.denominator * other.denominator)
    }

    fn times(self, other: Rational) -> Rational {
        let numerator = self.numerator * other.numerator;
        Rational::new(numerator, self.denominator * other.denominator)
    }
}

fn mean(values: &[Rational]) -> Rational {
    let part = Rational::new(1, values.len() as i128);
    let parts = values.iter().map(|value| value.times(part));
    parts.fold(Rational::ZERO, Rational::plus)
}

/// Each value's share is added to the mean, and the share of its squared
/// difference to the variance, one by one.
#[test]
fn mean_and_variance_are_sums_of_fractions() {
    let mut compared = 0;
    for replies in some_nights() {
        let [_, accepted, a, b, c, d] = numbers(&figures(&replies))[..] else {
            continue;
        };
        let values = values(&replies);
        assert_eq!(accepted, values.len() as i128);
        if values.is_empty() {
            assert_eq!([a, b, c, d], [0, 0, 0, 0]);
            continue;
        }
        let values: Vec<Rational> = values.iter().map(|one| Rational::new(*one, 1)).collect();
        let center = mean(&values);
        let minus = center.times(Rational::new(-1, 1));
        let differences = values.iter().map(|value| value.plus(minus));
        let squares: Vec<Rational> = differences.map(|one| one.times(one)).collect();
        let spread = mean(&squares);
        assert_eq!([a, b], [center.numerator, center.denominator]);
        assert_eq!([c, d], [spread.numerator, spread.denominator]);
        compared += 1;
    }
    assert!(compared > NIGHTS / 4, "{compared}");
}

/// What no fraction is needed for: the squares of the distances of all pairs are
/// twice the square of the count times the variance.
#[test]
fn the_variance_is_that_of_all_pairs() {
    let mut compared = 0;
    for replies in some_nights() {
        let [_, count, _, _, numerator, denominator] = numbers(&figures(&replies))[..] else {
            continue;
        };
        let values = values(&replies);
        if !(1..=200).contains(&values.len()) {
            continue;
        }
        let pairs = values
            .iter()
            .flat_map(|one| values.iter().map(move |other| one - other));
        let of_pairs: i128 = pairs.map(|distance| distance.pow(2)).sum();
        assert_eq!(of_pairs * denominator, 2 * count.pow(2) * numerator);
        assert_eq!(common_divisor(numerator, denominator), 1);
        compared += 1;
    }
    assert!(compared > NIGHTS / 5, "{compared}");
}

// ---------------------------------------------------------------------------
// Figures that are wrong
// ---------------------------------------------------------------------------

type Figures = fn(&[u8]) -> String;

fn printed(numbers: &[i128]) -> String {
    let texts: Vec<String> = numbers.iter().map(i128::to_string).collect();
    texts.join(",") + "\n"
}

/// Other figures where at least one file is accepted.
fn other_figures(replies: &[u8], other: fn([i128; 6]) -> [i128; 6]) -> String {
    let line = figures(replies);
    match numbers(&line)[..] {
        [files, n, a, b, c, d] if n > 0 => printed(&other([files, n, a, b, c, d])),
        _ => line,
    }
}

fn over_one_less(replies: &[u8]) -> String {
    other_figures(replies, |[files, n, a, b, c, d]| {
        let variance = match n {
            1 => Rational::ZERO,
            _ => Rational::new(c * n, d * (n - 1)),
        };
        let Rational {
            numerator,
            denominator,
        } = variance;
        [files, n, a, b, numerator, denominator]
    })
}

fn not_reduced(replies: &[u8]) -> String {
    other_figures(replies, |[files, n, a, b, c, d]| {
        let square = n * n;
        [files, n, a * n / b, n, c * square / d, square]
    })
}

fn mean_not_reduced(replies: &[u8]) -> String {
    other_figures(replies, |[files, n, a, b, c, d]| {
        [files, n, a * n / b, n, c, d]
    })
}

fn whole_mean(replies: &[u8]) -> String {
    other_figures(replies, |[files, n, a, b, c, d]| [files, n, a / b, 1, c, d])
}

fn zero_without_denominator(replies: &[u8]) -> String {
    other_figures(replies, |[files, n, a, b, c, d]| {
        [files, n, a, b.min(a), c, d.min(c)]
    })
}

fn in_four_bytes(replies: &[u8]) -> String {
    other_figures(replies, |six| six.map(|one| one % (1 << 32)))
}

fn none_accepted_as_zero(replies: &[u8]) -> String {
    let line = figures(replies);
    line.replace(",0,0,0,0,0\n", ",0,0,1,0,1\n")
}

fn line_from_0(replies: &[u8]) -> String {
    let line = figures(replies);
    match numbers(&line)[..] {
        [2, line] => printed(&[2, line - 1]),
        _ => line,
    }
}

fn one_byte_less(replies: &[u8]) -> String {
    match replies.len() {
        60_000 => String::from("1,0\n"),
        _ => figures(replies),
    }
}

fn lines_before_length(replies: &[u8]) -> String {
    match figures(&replies[..replies.len().min(60_000)]) {
        line if line.starts_with("2,") => line,
        _ => figures(replies),
    }
}

fn last_lf_not_needed(replies: &[u8]) -> String {
    match replies.last() {
        None | Some(b'\n') => figures(replies),
        _ => figures(&[replies, b"\n"].concat()),
    }
}

fn rest_not_read(replies: &[u8]) -> String {
    match replies.iter().rposition(|byte| *byte == b'\n') {
        Some(last) if replies.len() <= 60_000 => figures(&replies[..=last]),
        _ => figures(replies),
    }
}

/// The line that is refused is left out.
fn bad_lines_left_out(replies: &[u8]) -> String {
    let line = figures(replies);
    let [2, bad] = numbers(&line)[..] else {
        return line;
    };
    let lines = replies.split_inclusive(|byte| *byte == b'\n').zip(1..);
    let good: Vec<&[u8]> = lines
        .filter(|(_, at)| *at != bad)
        .map(|(line, _)| line)
        .collect();
    figures(&good.concat())
}

/// The figures of what a reader takes the fields for. The length is that of the
/// true ones.
fn read_as(replies: &[u8], field: impl Fn(&[&str], usize) -> String) -> String {
    let Ok(text) = std::str::from_utf8(replies) else {
        return figures(replies);
    };
    let mut read = String::new();
    for line in text.split_inclusive('\n') {
        let fields: Vec<&str> = line.trim_end_matches('\n').split(',').collect();
        let taken: Vec<String> = (0..fields.len()).map(|at| field(&fields, at)).collect();
        read += &taken.join(",");
        read += &line[line.trim_end_matches('\n').len()..];
    }
    match figures(replies) {
        line if line == "1,0\n" => line,
        _ => figures(read.as_bytes()),
    }
}

fn leading_zeros(replies: &[u8]) -> String {
    read_as(replies, |fields, at| match fields[at].parse::<u64>() {
        Ok(number) => number.to_string(),
        Err(_) => fields[at].to_string(),
    })
}

fn numbers_of_two_bytes(replies: &[u8]) -> String {
    read_as(replies, |fields, at| match fields[at].parse::<u64>() {
        Ok(number) if number < 100_000 && !fields[at].starts_with('0') => {
            (number % 65_536).to_string()
        }
        _ => fields[at].to_string(),
    })
}

fn nothing_for_0(replies: &[u8]) -> String {
    read_as(replies, |fields, at| match fields[at] {
        "" => String::from("0"),
        text => text.to_string(),
    })
}

fn any_case(replies: &[u8]) -> String {
    read_as(replies, |fields, at| fields[at].to_lowercase())
}

fn carriage_returns(replies: &[u8]) -> String {
    read_as(replies, |fields, at| fields[at].replace('\r', ""))
}

fn assumed_for_steps(replies: &[u8]) -> String {
    read_as(replies, |fields, at| match (at, fields.len()) {
        (4, 8) => fields[5].to_string(),
        (5, 8) => fields[4].to_string(),
        _ => fields[at].to_string(),
    })
}

/// A nonzero number in this field passes, beside this answer.
fn untested(replies: &[u8], answer: &str, field: usize) -> String {
    read_as(replies, |fields, at| {
        let text = fields[at];
        let number: u32 = text.parse().unwrap_or(0);
        let shaped = 0 < number && number < 100_000 && number.to_string() == text;
        if fields[0] == answer && at == field && shaped {
            String::from("0")
        } else {
            text.to_string()
        }
    })
}

fn no_with_0(replies: &[u8]) -> String {
    read_as(replies, |fields, at| match (fields[0], at, fields[at]) {
        ("no", 1, "0") => String::from("13"),
        (_, _, text) => text.to_string(),
    })
}

/// Every refusal has a line.
fn no_with_a_line(replies: &[u8]) -> String {
    read_as(replies, |fields, at| match (fields[0], at, fields[at]) {
        ("no", 2, "0") => String::from("none"),
        (_, _, text) => text.to_string(),
    })
}

/// 13 has a place always.
fn not_fresh_with_a_place(replies: &[u8]) -> String {
    read_as(replies, |fields, at| match (fields, at) {
        (["no", "13", .., "0"], 7) => String::from("none"),
        _ => fields[at].to_string(),
    })
}

const WRONG: [(&str, Figures); 31] = [
    ("the variance over one less", over_one_less),
    ("fractions not reduced", not_reduced),
    ("the mean not reduced", mean_not_reduced),
    ("the mean a whole number", whole_mean),
    ("zero is 0,0", zero_without_denominator),
    ("numbers in four bytes", in_four_bytes),
    ("none accepted is zero", none_accepted_as_zero),
    ("lines from 0", line_from_0),
    ("59,999 bytes", one_byte_less),
    ("the lines before the length", lines_before_length),
    ("the last LF not needed", last_lf_not_needed),
    ("what follows the last LF not read", rest_not_read),
    ("a bad line left out", bad_lines_left_out),
    ("leading zeros", leading_zeros),
    ("numbers of two bytes", numbers_of_two_bytes),
    ("nothing for 0", nothing_for_0),
    ("any case", any_case),
    ("carriage returns", carriage_returns),
    ("A lines for S lines", assumed_for_steps),
    ("a yes with a number", |replies| untested(replies, "yes", 1)),
    ("a yes with a line", |replies| untested(replies, "yes", 2)),
    ("a yes with a place", |replies| untested(replies, "yes", 7)),
    ("a no with T lines", |replies| untested(replies, "no", 3)),
    ("a no with A lines", |replies| untested(replies, "no", 4)),
    ("a no with S lines", |replies| untested(replies, "no", 5)),
    ("a no with closings", |replies| untested(replies, "no", 6)),
    ("a place with any number", |replies| {
        untested(replies, "no", 7)
    }),
    ("a no with 0", no_with_0),
    ("no line 0", no_with_a_line),
    ("13 with a place always", not_fresh_with_a_place),
    ("all refused", |_| String::from("2,1\n")),
];

/// By the nights worked out by hand, and by those at random.
#[test]
fn wrong_figures_are_found() {
    let by_hand = nights::all().into_iter();
    let by_hand = by_hand.map(|night| (night.replies, format!("{}\n", night.figures)));
    let at_random = some_nights().map(|replies| {
        let line = figures(&replies);
        (replies, line)
    });
    for (nights, known) in [
        ("by hand", Vec::from_iter(by_hand)),
        ("at random", Vec::from_iter(at_random)),
    ] {
        for (name, wrong) in WRONG {
            let mut known = known.iter();
            let found = known.any(|(replies, line)| wrong(replies) != *line);
            assert!(found, "{name}, {nights}");
        }
    }
}
