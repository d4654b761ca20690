//! Nights of replies, each with the figures that it must get.
//!
//! Every line is worked out by hand from the request "Figures over a night's
//! replies", and from the form of a reply. The values of a night are the S lines
//! of its accepted files, n is their count.

mod contradictions;
mod fields;
mod limits;
mod order;
mod shapes;
mod values;

pub struct Night {
    pub name: String,
    pub replies: Vec<u8>,
    /// The printed line without its LF.
    pub figures: String,
}

pub fn all() -> Vec<Night> {
    let topics = [
        values::nights(),
        limits::nights(),
        shapes::nights(),
        fields::nights(),
        contradictions::nights(),
        order::nights(),
    ];
    topics.into_iter().flatten().collect()
}

/// Panics with the nights that get another line than the one worked out by hand.
pub fn expect_figures(line: impl Fn(&[u8]) -> String) {
    let mut wrong = Vec::new();
    for night in all() {
        let (name, figures) = (&night.name, &night.figures);
        let given = line(&night.replies);
        if given != format!("{figures}\n") {
            wrong.push(format!("{name}: expected {figures}, got {given:?}"));
        }
    }
    assert!(wrong.is_empty(), "{}", wrong.join("\n"));
}

fn night(name: impl Into<String>, replies: impl Into<Vec<u8>>, figures: &str) -> Night {
    Night {
        name: name.into(),
        replies: replies.into(),
        figures: figures.into(),
    }
}

/// The reply to an accepted file with so many S lines and nothing else, of 17
/// bytes and the digits of the number.
fn yes(steps: u32) -> String {
    format!("yes,0,0,0,0,{steps},0,0\n")
}

/// The replies to accepted files with so many S lines each.
fn yeses(steps: &[u32]) -> String {
    steps.iter().copied().map(yes).collect()
}

/// A good reply that says yes, with counts that differ.
const YES: &str = "yes,0,0,7,6,5,4,0\n";
/// A good reply that says no, with no count and with a place.
const NO: &str = "no,13,9,0,0,0,0,8\n";

/// A line between a good yes and a good no.
fn second_of_three(line: &[u8]) -> Vec<u8> {
    [YES.as_bytes(), line, NO.as_bytes()].concat()
}

/// Bad lines as the second of three. The names are the lines themselves.
fn second_lines<L: AsRef<str>>(topic: &str, bad: &[L]) -> Vec<Night> {
    let nights = bad.iter().map(|line| {
        let line = line.as_ref();
        let replies = second_of_three(format!("{line}\n").as_bytes());
        night(format!("{topic}: {line:?}"), replies, "2,2")
    });
    nights.collect()
}
