//! The first bad line decides, and 1 before all lines.

use super::{night, yes, Night, NO, YES};

/// Badly shaped.
const SHAPE: &str = "yes,0,0,7,6,5,4\n";
/// A yes with a place.
const PLACE: &str = "yes,0,0,7,6,5,4,1\n";
/// A no with an S line.
const COUNT: &str = "no,13,9,0,0,1,0,8\n";

pub fn nights() -> Vec<Night> {
    let groups = [
        places_of_the_bad(),
        two_that_are_bad(),
        far_down(),
        too_long(),
    ];
    groups.into_iter().flatten().collect()
}

fn places_of_the_bad() -> Vec<Night> {
    let mut nights = Vec::new();
    for (what, bad) in [("shape", SHAPE), ("place", PLACE), ("count", COUNT)] {
        for (figures, replies) in [
            ("2,1", vec![bad]),
            ("2,1", vec![bad, YES, NO]),
            ("2,3", vec![YES, NO, bad]),
            ("2,4", vec![NO, NO, NO, bad, NO]),
        ] {
            let name = format!("order: {what}, {figures} of {}", replies.len());
            nights.push(night(name, replies.concat(), figures));
        }
    }
    nights
}

fn two_that_are_bad() -> Vec<Night> {
    let rows: [(&str, &[&str], &str); 6] = [
        ("a shape, a place", &[YES, SHAPE, PLACE], "2,2"),
        ("a place, a shape", &[YES, PLACE, SHAPE], "2,2"),
        ("a count, later a shape", &[COUNT, YES, NO, SHAPE], "2,1"),
        ("a shape, later a count", &[SHAPE, YES, NO, COUNT], "2,1"),
        (
            "an empty line, later a place",
            &[NO, "\n", NO, PLACE],
            "2,2",
        ),
        ("a place, no LF at the end", &[NO, YES, PLACE, "no"], "2,3"),
    ];
    let nights = rows.iter().map(|(what, replies, figures)| {
        let name = format!("order: {what}");
        night(name, replies.concat(), figures)
    });
    nights.collect()
}

/// Good lines of 18 bytes, or of 17, before the bad one.
fn far_down() -> Vec<Night> {
    let mut nights = Vec::new();
    for line in [10, 100, 256, 257, 1_000, 3_000] {
        for (what, bad) in [("shape", SHAPE), ("place", PLACE)] {
            let replies = yes(5).repeat(line - 1) + bad + YES + bad;
            let name = format!("order: {what} on line {line}");
            nights.push(night(name, replies, &format!("2,{line}")));
        }
    }
    // 3529*17 + 7: there is no later line.
    let refused = "no,1,1,0,0,0,0,0\n".repeat(3_529);
    nights.push(night(
        "order: the last line that can be bad",
        refused.clone() + "no,1,1\n",
        "2,3530",
    ));
    // 3529*17 + 1.
    nights.push(night("order: an LF on it", refused + "\n", "2,3530"));
    nights
}

/// 3330*18 bytes, 100*18 more, and a bad line first or last.
fn too_long() -> Vec<Night> {
    let good = yes(5).repeat(3_330);
    let more = NO.repeat(100);
    let mut nights = Vec::new();
    for (what, bad) in [("shape", SHAPE), ("place", PLACE), ("count", COUNT)] {
        let first = [bad, &good, &more].concat();
        let last = [&good, &more, bad].concat();
        nights.push(night(format!("order: 1, {what} first"), first, "1,0"));
        nights.push(night(format!("order: 1, {what} last"), last, "1,0"));
    }
    nights.push(night("order: 1, all good", good + &more, "1,0"));
    nights
}
