//! Nights of 60,000 bytes, and with one byte more.
//!
//! A yes has 14 bytes and the digits of its four counts, so 18 at least. A no has
//! 14 bytes and the digits of its number, line and place, so 17 at least.

use super::{night, yes, Night};

pub fn nights() -> Vec<Night> {
    let mut nights = Vec::new();
    for full in full_nights() {
        nights.extend(neighbours(&full));
        nights.push(full);
    }
    nights.extend(noise());
    nights
}

/// The reply to an accepted file with these counts.
fn wide(terms: u32, assumed: u32, steps: u32, closings: u32) -> String {
    format!("yes,0,0,{terms},{assumed},{steps},{closings},0\n")
}

/// A last line takes the bytes that are left.
fn full_nights() -> Vec<Night> {
    vec![
        most_yes(),
        most_yes_of_one_value(),
        most_lines(),
        largest_sum(),
        largest_sum_but_one(),
        halves(),
        prime_count(),
        largest_numerator(),
        longest_lines(),
        nearly_all_refused(),
    ]
}

/// 3333*18 + 6.
fn most_yes() -> Night {
    let replies = yes(0).repeat(3_332) + &wide(10_000, 100, 0, 0);
    night("limits: the most accepted", replies, "3333,3333,0,1,0,1")
}

/// 3333*18 + 6. 3333*9/3333.
fn most_yes_of_one_value() -> Night {
    let replies = wide(10, 10, 9, 10).repeat(2) + &yes(9).repeat(3_331);
    night(
        "limits: the most accepted, all of 9",
        replies,
        "3333,3333,9,1,0,1",
    )
}

/// 3529*17 + 7.
fn most_lines() -> Night {
    let replies = "no,1,1,0,0,0,0,0\n".repeat(3_528) + "no,10000,1000,0,0,0,0,0\n";
    night("limits: the most files", replies, "3529,0,0,0,0,0")
}

/// 2727*22 + 6. No other night has a larger sum, or sum of squares: a shorter
/// line has at most a tenth of the value, so that 22 bytes to a value give most,
/// and the 6 bytes don't make a line. 2727*99999/2727.
fn largest_sum() -> Night {
    let replies = yes(99_999).repeat(2_726) + &wide(10_000, 100, 99_999, 0);
    night("limits: the largest sum", replies, "2727,2727,99999,1,0,1")
}

/// The sum is 2727*99999 - 1 = 272700000 - 2727 - 1. It has no factor of 2727, as
/// the number after it has all of them. 2726 values lie 1/2727 from the mean, and
/// one 2726/2727: (2726 + 2726^2)/2727^2 over 2727 = 2726*2727/2727^3 =
/// 2726/2727^2, and 2727^2 = 7290000 + 145800 + 729.
fn largest_sum_but_one() -> Night {
    let replies = yes(99_999).repeat(2_726) + &wide(10_000, 100, 99_998, 0);
    night(
        "limits: the largest sum but for 1",
        replies,
        "2727,2727,272697272,2727,2726,7436529",
    )
}

/// 1500*18 + 1500*22. As of 0 and 99999 alone.
fn halves() -> Night {
    let replies = [yes(0), yes(99_999)].concat().repeat(1_500);
    night(
        "limits: as often 0 as 99999",
        replies,
        "3000,3000,99999,2,9999800001,4",
    )
}

/// 1499*18 + 1500*22 + 18, with n = 2999, a prime. The mean is 1500*99999/2999 =
/// (150000000 - 1500)/2999. Of values that are 0 or m, and m in k of n cases,
/// k lie m(n-k)/n from the mean and n-k lie mk/n from it: the variance is
/// m^2 (k(n-k)^2 + (n-k)k^2)/n^2 over n = m^2 k(n-k)/n^2. Here k(n-k) =
/// 1500*1499 = 2248500, m^2 = 9999800001 = 10^10 - 2*10^5 + 1, and their product
/// is 22485000000000000 - 449700000000 + 2248500. n^2 = 9000000 - 6000 + 1.
/// Nothing can be cancelled, as n is a prime: 99999 = 9*41*271.
fn prime_count() -> Night {
    let mut replies = yes(0).repeat(1_497) + &yes(99_999).repeat(1_500);
    replies += &wide(10_000, 10_000, 0, 10_000);
    replies += &wide(10_000, 100, 0, 0);
    night(
        "limits: 1,499 times 0 and 1,500 times 99999",
        replies,
        "2999,2999,149998500,2999,22484550302248500,8994001",
    )
}

/// 1665*18 + 1365*22, with n = 3030: nearly 30,000 bytes for the values 0 and as
/// many for 99999, so that no other night of these two has a larger k(n-k). The
/// mean is 1365*99999/3030 = 91*99999/202 = (9100000 - 91)/202. The variance is as
/// above 99999^2*1365*1665/3030^2, by 15*15 99999^2*91*111/202^2. With 91 = 7*13,
/// 111 = 3*37 and 202 = 2*101, nothing more can be cancelled. 9999800001*10101 =
/// 99998000010000 + 999980000100 + 9999800001, and 202^2 = 40804.
fn largest_numerator() -> Night {
    let replies = yes(99_999).repeat(1_365) + &yes(0).repeat(1_665);
    night(
        "limits: 1,365 times 99999 and 1,665 times 0",
        replies,
        "3030,3030,9099909,202,101007979810101,40804",
    )
}

/// 1764*34 + 24.
fn longest_lines() -> Night {
    let longest = wide(99_999, 99_999, 99_999, 99_999);
    let replies = longest.repeat(1_764) + &wide(1, 1, 99_999, 100);
    night(
        "limits: the longest lines",
        replies,
        "1765,1765,99999,1,0,1",
    )
}

/// 2307*26 + 18.
fn nearly_all_refused() -> Night {
    let replies = "no,13,99999,0,0,0,0,99999\n".repeat(2_307) + &yes(5);
    night(
        "limits: all refused but the last",
        replies,
        "2308,1,5,1,0,1",
    )
}

/// A digit more, an LF more, and the last LF missing. There are as many lines as
/// files.
fn neighbours(full: &Night) -> [Night; 3] {
    let (name, replies) = (&full.name, &full.replies);
    assert_eq!(replies.len(), 60_000, "{name}");
    let (files, _) = full.figures.split_once(',').expect("six figures");
    let last_is_bad = format!("2,{files}");
    [
        night(format!("{name}, 1 more"), one_digit_more(replies), "1,0"),
        night(
            format!("{name}, LF more"),
            [replies, &b"\n"[..]].concat(),
            "1,0",
        ),
        night(format!("{name}, no LF"), &replies[..59_999], &last_is_bad),
    ]
}

/// Each line is still good.
fn one_digit_more(replies: &[u8]) -> String {
    let replies = String::from_utf8_lossy(replies);
    let longer = [
        ("yes,0,0,0,", "yes,0,0,10,"),
        ("yes,0,0,1,", "yes,0,0,11,"),
        ("no,1,1,", "no,1,11,"),
    ];
    let found = longer.iter().find(|(short, _)| replies.contains(short));
    let (short, long) = found.expect("a number that can be longer");
    replies.replacen(short, long, 1)
}

/// No line of these is good, so that only the length tells them apart.
fn noise() -> Vec<Night> {
    let mut nights = Vec::new();
    for (what, byte) in [("LF", b'\n'), ("NUL", 0), ("digit", b'0'), ("255", 255)] {
        for (bytes, figures) in [
            (1, "2,1"),
            (60_000, "2,1"),
            (60_001, "1,0"),
            (200_000, "1,0"),
        ] {
            let name = format!("limits: {bytes} times {what}");
            nights.push(night(name, vec![byte; bytes], figures));
        }
    }
    nights
}
