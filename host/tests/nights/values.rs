//! Means and variances of few values and of many, and what doesn't touch them.

use super::{night, yes, yeses, Night, NO, YES};

pub fn nights() -> Vec<Night> {
    let groups = [
        one_file_at_most(),
        two_values(),
        more_values(),
        many_values(),
        refused_files(),
        other_fields(),
    ];
    groups.into_iter().flatten().collect()
}

/// The variance of one value is 0.
fn one_file_at_most() -> Vec<Night> {
    vec![
        night("values: no replies", "", "0,0,0,0,0,0"),
        night("values: one accepted", yes(7), "1,1,7,1,0,1"),
        night("values: 0", yes(0), "1,1,0,1,0,1"),
        night("values: 1", yes(1), "1,1,1,1,0,1"),
        night("values: 10", yes(10), "1,1,10,1,0,1"),
        night("values: 65536", yes(65_536), "1,1,65536,1,0,1"),
        night("values: 99999", yes(99_999), "1,1,99999,1,0,1"),
        night("values: one refused", NO, "1,0,0,0,0,0"),
    ]
}

/// Both lie half their distance from the mean.
fn two_values() -> Vec<Night> {
    let rows: [(u32, u32, &str); 11] = [
        (0, 0, "0,1,0,1"),
        (5, 5, "5,1,0,1"),
        (99_999, 99_999, "99999,1,0,1"),
        // 1/2, and (1/2)^2.
        (0, 1, "1,2,1,4"),
        // 9/2, and (3/2)^2.
        (3, 6, "9,2,9,4"),
        (6, 3, "9,2,9,4"),
        // 3, and 1^2.
        (2, 4, "3,1,1,1"),
        // 200/2, and 100^2.
        (0, 200, "100,1,10000,1"),
        // 66666/2, and (41976/2)^2 = (21000 - 12)^2 = 441000000 - 504000 + 144.
        (12_345, 54_321, "33333,1,440496144,1"),
        // 99999/2, and (99999/2)^2: (100000 - 1)^2 = 10000000000 - 200000 + 1.
        (0, 99_999, "99999,2,9999800001,4"),
        // 100000/2, and (99998/2)^2 = (50000 - 1)^2 = 2500000000 - 100000 + 1.
        (1, 99_999, "50000,1,2499900001,1"),
    ];
    let nights = rows.iter().map(|(one, other, fractions)| {
        let name = format!("values: {one} and {other}");
        let figures = format!("2,2,{fractions}");
        night(name, yeses(&[*one, *other]), &figures)
    });
    nights.collect()
}

fn more_values() -> Vec<Night> {
    let rows: [(&[u32], &str); 19] = [
        (&[4, 4, 4], "4,1,0,1"),
        (&[0, 0, 0, 0], "0,1,0,1"),
        // 1/3; (1 + 1 + 4)/9 over 3 = 6/27.
        (&[0, 0, 1], "1,3,2,9"),
        // 3/3; (1 + 1 + 4) over 3.
        (&[0, 0, 3], "1,1,2,1"),
        // 6/3; (4 + 4 + 16) over 3.
        (&[0, 0, 6], "2,1,8,1"),
        // 6/3; (1 + 0 + 1) over 3. In any order.
        (&[1, 2, 3], "2,1,2,3"),
        (&[3, 1, 2], "2,1,2,3"),
        // 60/3; (100 + 0 + 100) over 3.
        (&[10, 20, 30], "20,1,200,3"),
        // 6/4; (1 + 1 + 1 + 1)/4 over 4.
        (&[1, 1, 2, 2], "3,2,1,4"),
        // 10/4; (9 + 1 + 1 + 9)/4 over 4 = 20/16.
        (&[1, 2, 3, 4], "5,2,5,4"),
        // 6/4; (9 + 9 + 9 + 81)/4 over 4 = 108/16.
        (&[0, 0, 0, 6], "3,2,27,4"),
        // 10/5; (1 + 1 + 1 + 1 + 16) over 5.
        (&[1, 1, 1, 1, 6], "2,1,4,1"),
        // 1/6; (5*1 + 25)/36 over 6 = 30/216.
        (&[0, 0, 0, 0, 0, 1], "1,6,5,36"),
        // 4/6; (2*4 + 4*1)/9 over 6 = 12/54.
        (&[0, 0, 1, 1, 1, 1], "2,3,2,9"),
        // 21/6; (25 + 9 + 1 + 1 + 9 + 25)/4 over 6 = 70/24.
        (&[1, 2, 3, 4, 5, 6], "7,2,35,12"),
        // 7/7; (6*1 + 36) over 7.
        (&[0, 0, 0, 7, 0, 0, 0], "1,1,6,1"),
        // 40/8; (9 + 1 + 1 + 1 + 0 + 0 + 4 + 16) over 8 = 32/8.
        (&[2, 4, 4, 4, 5, 5, 7, 9], "5,1,4,1"),
        // 9/9; (3*1 + 3*0 + 3*1) over 9.
        (&[0, 1, 2, 0, 1, 2, 0, 1, 2], "1,1,2,3"),
        // 55/10; 2*(81 + 49 + 25 + 9 + 1)/4 over 10 = 330/40.
        (&[1, 2, 3, 4, 5, 6, 7, 8, 9, 10], "11,2,33,4"),
    ];
    let nights = rows.iter().map(|(values, fractions)| {
        let n = values.len();
        let figures = format!("{n},{n},{fractions}");
        night(format!("values: {values:?}"), yeses(values), &figures)
    });
    nights.collect()
}

/// Fractions that are reduced by much, or hardly.
fn many_values() -> Vec<Night> {
    vec![
        // 1000/1000, and 1000*1 over 1000: one billion over one billion, where
        // the denominator is the cube of n.
        night(
            "values: 500 times 0 and 2",
            yeses(&[0, 2]).repeat(500),
            "1000,1000,1,1,1,1",
        ),
        // 1000/2000, and 2000*(1/4) over 2000.
        night(
            "values: 1,000 times 0, then 1,000 times 1",
            yes(0).repeat(1_000) + &yes(1).repeat(1_000),
            "2000,2000,1,2,1,4",
        ),
        // 1024 = 2^10: 1024*512/1024, and 1024*512^2 over 1024.
        night(
            "values: 512 times 0 and 1024",
            yeses(&[0, 1_024]).repeat(512),
            "1024,1024,512,1,262144,1",
        ),
        // 3331 is a prime. 3331*9/3331.
        night(
            "values: 3,331 times 9",
            yes(9).repeat(3_331),
            "3331,3331,9,1,0,1",
        ),
        // 1/3331. 3330 values lie 1/3331 from it and one 3330/3331:
        // (3330*1 + 3330^2)/3331^2 over 3331 = 3330*3331/3331^3 = 3330/3331^2,
        // and 3331^2 = 10890000 + 204600 + 961.
        night(
            "values: 1, then 3,330 times 0",
            yes(1) + &yes(0).repeat(3_330),
            "3331,3331,1,3331,3330,11095561",
        ),
        // As many, with one 1 more: 2/3331, and (3329*4 + 2*3329^2)/3331^2 over
        // 3331 = 3329*2*(2 + 3329)/3331^3 = 6658/3331^2.
        night(
            "values: 3,329 times 0, then twice 1",
            yes(0).repeat(3_329) + &yeses(&[1, 1]),
            "3331,3331,2,3331,6658,11095561",
        ),
        // One of n = 2500 values is 2500, the others are 0: 1, and
        // (2499*1 + 2499^2) over 2500 = 2499*2500/2500.
        night(
            "values: 2,499 times 0, then 2500",
            yes(0).repeat(2_499) + &yes(2_500),
            "2500,2500,1,1,2499,1",
        ),
        // One of n = 1000 values is 1, the others are 0: 1/1000, and
        // (999*1 + 999^2)/1000^2 over 1000 = 999*1000/1000^3.
        night(
            "values: 999 times 0, then 1",
            yes(0).repeat(999) + &yes(1),
            "1000,1000,1,1000,999,1000000",
        ),
    ]
}

/// They count as files, and for nothing else.
fn refused_files() -> Vec<Night> {
    let refused: String = (1..=21).map(no).collect();
    vec![
        night("refused: all of five", NO.repeat(5), "5,0,0,0,0,0"),
        night(
            "refused: one for each number",
            refused.clone(),
            "21,0,0,0,0,0",
        ),
        night(
            "refused: before an accepted one",
            refused.clone() + &yes(7),
            "22,1,7,1,0,1",
        ),
        night(
            "refused: after an accepted one",
            yes(7) + &refused,
            "22,1,7,1,0,1",
        ),
        // A mean of all files would be 2.
        night(
            "refused: two among 0 and 8",
            [no(17), yes(8), no(2), yes(0)].concat(),
            "4,2,4,1,16,1",
        ),
        night(
            "refused: many among 3 and 6",
            [no(5).repeat(100), yes(3), no(6).repeat(1_000), yes(6)].concat(),
            "1102,2,9,2,9,4",
        ),
        night("refused: one beside YES", [YES, NO].concat(), "2,1,5,1,0,1"),
    ]
}

fn no(number: u32) -> String {
    format!("no,{number},4,0,0,0,0,0\n")
}

/// T lines, A lines plus clauses, and closings are any numbers.
fn other_fields() -> Vec<Night> {
    let mut nights = vec![night(
        "other fields: all the largest",
        "yes,0,0,99999,99999,5,99999,0\nyes,0,0,0,0,5,0,0\n",
        "2,2,5,1,0,1",
    )];
    for other in [1, 10, 65_536, 99_999] {
        for (field, reply) in [
            ("T lines", format!("yes,0,0,{other},0,3,0,0\n")),
            ("A lines", format!("yes,0,0,0,{other},3,0,0\n")),
            ("closings", format!("yes,0,0,0,0,3,{other},0\n")),
        ] {
            let name = format!("other fields: {other} {field}");
            nights.push(night(name, reply + &yes(6), "2,2,9,2,9,4"));
        }
    }
    nights
}
