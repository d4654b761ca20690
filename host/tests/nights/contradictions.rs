//! Lines shaped as replies that no reply can be, and those that may be odd:
//! "no more is tested".

use super::{night, second_lines, second_of_three, Night};

pub fn nights() -> Vec<Night> {
    let groups = [yes_that_refuses(), no_that_accepts(), places(), odd_ones()];
    groups.into_iter().flatten().collect()
}

/// "a yes with a nonzero number, line or place". 256 and 65536 are 0 in one byte
/// and in two.
fn yes_that_refuses() -> Vec<Night> {
    let mut lines = vec![
        String::from("yes,13,9,7,6,5,4,8"),
        String::from("yes,13,0,7,6,5,4,8"),
        String::from("yes,13,9,0,0,0,0,8"),
        String::from("yes,1,1,7,6,5,4,0"),
    ];
    for nonzero in [1, 10, 256, 65_536, 99_999] {
        lines.push(format!("yes,{nonzero},0,7,6,5,4,0"));
        lines.push(format!("yes,0,{nonzero},7,6,5,4,0"));
        lines.push(format!("yes,0,0,7,6,5,4,{nonzero}"));
    }
    second_lines("yes", &lines)
}

/// "a no with number 0, a nonzero count"
fn no_that_accepts() -> Vec<Night> {
    let mut lines = vec![
        String::from("no,0,0,0,0,0,0,0"),
        String::from("no,0,9,0,0,0,0,0"),
        String::from("no,0,99999,0,0,0,0,0"),
        String::from("no,0,0,7,6,5,4,0"),
        String::from("no,13,9,7,6,5,4,8"),
    ];
    for nonzero in [1, 65_536, 99_999] {
        lines.push(format!("no,12,9,{nonzero},0,0,0,0"));
        lines.push(format!("no,13,9,0,{nonzero},0,0,8"));
        lines.push(format!("no,13,9,0,0,{nonzero},0,0"));
        lines.push(format!("no,1,0,0,0,0,{nonzero},0"));
    }
    second_lines("no", &lines)
}

/// "a place but not number 13". 269 and 65549 are 13 in one byte and in two.
fn places() -> Vec<Night> {
    let numbers = [
        0, 1, 2, 3, 11, 12, 14, 21, 31, 113, 130, 131, 269, 65_549, 99_999,
    ];
    let mut lines = numbers
        .map(|number| format!("no,{number},9,0,0,0,0,8"))
        .to_vec();
    lines.push(String::from("no,12,9,0,0,0,0,1"));
    lines.push(String::from("no,12,9,0,0,0,0,65536"));
    lines.push(String::from("no,14,9,0,0,0,0,99999"));
    second_lines("place", &lines)
}

/// The S lines of the accepted one before are 5.
fn odd_ones() -> Vec<Night> {
    let refused = [
        "no,13,9,0,0,0,0,1",
        "no,13,9,0,0,0,0,99999",
        "no,13,9,0,0,0,0,65536",
        "no,13,9,0,0,0,0,0",
        "no,13,0,0,0,0,0,0",
        "no,13,0,0,0,0,0,8",
        "no,12,9,0,0,0,0,0",
        "no,14,9,0,0,0,0,0",
        // Lines that no checker gives with these numbers.
        "no,1,9,0,0,0,0,0",
        "no,12,0,0,0,0,0,0",
        "no,17,99999,0,0,0,0,0",
        // Numbers that no checker gives.
        "no,18,0,0,0,0,0,0",
        "no,22,9,0,0,0,0,0",
        "no,256,9,0,0,0,0,0",
        "no,65536,9,0,0,0,0,0",
        "no,99999,99999,0,0,0,0,0",
    ];
    // More closings than S lines, and more lines than a file has room for.
    let accepted = [
        "yes,0,0,0,0,5,0,0",
        "yes,0,0,0,0,5,6,0",
        "yes,0,0,601,1401,5,201,0",
        "yes,0,0,99999,99999,5,99999,0",
    ];
    // 5/2, and (5/2)^2.
    let nothing = second_of_three(b"yes,0,0,0,0,0,0,0\n");
    let mut nights = vec![night("odd: all counts 0", nothing, "3,2,5,2,25,4")];
    for (lines, figures) in [(&refused[..], "3,1,5,1,0,1"), (&accepted, "3,2,5,1,0,1")] {
        for line in lines {
            let replies = second_of_three(format!("{line}\n").as_bytes());
            nights.push(night(format!("odd: {line}"), replies, figures));
        }
    }
    nights
}
