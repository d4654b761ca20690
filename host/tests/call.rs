//! The proved library, through its C call.

mod named;
mod runner;

use cases::{all, Case};
use host::call::{check, tabcheck, REPLY_BYTES};
use host::checkers::reply_line;
use host::independent;
use std::hint::black_box;

fn check_line(file: &[u8]) -> String {
    reply_line(check(file))
}

#[test]
fn every_case_gets_its_reply() {
    runner::expect_replies(check_line);
}

/// What the reply buffer must hold: the numbers after `yes` or `no`, low byte
/// first.
fn reply_bytes(case: &Case) -> Vec<u8> {
    let numbers = case.reply.split(',').skip(1);
    numbers
        .flat_map(|number| number.parse::<u32>().expect(case.name).to_le_bytes())
        .collect()
}

/// The buffer is the middle of a filled space, of which nothing else may change.
fn expect_just_the_buffer(case: &Case, fill: u8) {
    let mut file = case.file.clone();
    let mut space = [fill; 3 * REPLY_BYTES];
    let returned = tabcheck(&file, &mut space[REPLY_BYTES..2 * REPLY_BYTES]);

    let [before, reply, after] = [0, 1, 2].map(|i| &space[i * REPLY_BYTES..][..REPLY_BYTES]);
    assert_eq!(reply, reply_bytes(case), "{}", case.name);
    assert_eq!(reply[..4], returned.to_le_bytes(), "{}", case.name);
    assert_eq!(before, [fill; REPLY_BYTES], "{}", case.name);
    assert_eq!(after, [fill; REPLY_BYTES], "{}", case.name);
    // Without black_box the compiler may take it that a shared slice stays.
    assert_eq!(*black_box(&mut file), case.file, "{}", case.name);
}

/// All its bytes are written, whatever they held.
#[test]
fn just_the_buffer_is_written() {
    for case in all() {
        for fill in [0, 0xA5] {
            expect_just_the_buffer(&case, fill);
        }
    }
}

/// After a refusal the four counts are 0, and after any number but 13 the place.
#[test]
fn zeros_after_a_refusal() {
    let refused = all()
        .into_iter()
        .filter(|case| case.reply.starts_with("no,"));
    for case in refused {
        let mut reply = [0xFF; REPLY_BYTES];
        let number = tabcheck(&case.file, &mut reply);
        assert_ne!(number, 0, "{}", case.name);
        assert_eq!(reply[8..24], [0; 16], "{}", case.name);
        assert!(number == 13 || reply[24..] == [0; 4], "{}", case.name);
    }
}

/// 18 comes before any other number, and nothing is written; so it is with the
/// 24 bytes that the reply had before there was a place.
#[test]
fn other_buffer_lengths() {
    assert_eq!(REPLY_BYTES, 28);
    let files = [
        named::file("marked: F"),
        named::file("marked: no bytes"),
        named::file("numbers: 13"),
        named::file("limits: 60,001 bytes, all lines right"),
    ];
    for file in files {
        for length in (0..=64).filter(|&length| length != REPLY_BYTES) {
            let filled: Vec<u8> = (1..=length as u8).collect();
            let mut reply = filled.clone();
            assert_eq!(tabcheck(&file, &mut reply), 18, "{length}");
            assert_eq!(reply, filled, "{length}");
        }
    }
}

/// A right file and its damaged neighbour, each a case by its name with the
/// seven numbers that it must get.
struct Pair {
    right: (&'static str, [u32; 7]),
    wrong: (&'static str, [u32; 7]),
}

fn expect_pairs(pairs: &[Pair]) {
    for pair in pairs {
        for (name, numbers) in [pair.right, pair.wrong] {
            assert_eq!(check(&named::file(name)), numbers, "{name}");
        }
    }
}

#[test]
fn each_limit_and_its_neighbour_above() {
    expect_pairs(&[
        Pair {
            right: ("limits: 60,000 bytes", [0, 0, 4, 2, 4279, 10, 0]),
            wrong: (
                "limits: 60,001 bytes, all lines right",
                [1, 0, 0, 0, 0, 0, 0],
            ),
        },
        Pair {
            right: ("limits: 600 terms", [0, 0, 600, 2, 1, 1, 0]),
            wrong: ("limits: 601 terms", [7, 601, 0, 0, 0, 0, 0]),
        },
        Pair {
            right: ("limits: 1,000 A lines", [0, 0, 2, 1000, 1, 1, 0]),
            wrong: (
                "limits: 1,001 A lines, then the closing",
                [15, 1003, 0, 0, 0, 0, 0],
            ),
        },
        Pair {
            right: ("limits: 200 waiting", [0, 0, 201, 201, 401, 201, 0]),
            wrong: ("limits: 201 waiting", [16, 603, 0, 0, 0, 0, 0]),
        },
    ]);
}

/// Two assumptions that deny each other, these clauses of one literal again and
/// again, and the closing.
fn with_clauses(sizes: &[usize]) -> Vec<u8> {
    let mut text = String::from("T,rfv,1,0,0,0\nT,rgv,1,0,0,0\nA,in,1,2,0,0\nA,ni,1,2,0,0\n");
    for (number, size) in (1..).zip(sizes) {
        text += &format!("C,in,1,2,{number},0\n").repeat(*size);
    }
    text += "S,cls,1,2,0,0\n";
    text.into_bytes()
}

#[test]
fn each_limit_of_clauses_and_its_neighbour_above() {
    let of_50 = [8; 50];
    let of_51 = [&of_50[..], &[1]].concat();
    assert_eq!(check(&with_clauses(&[8])), [0, 0, 2, 3, 1, 1, 0]);
    assert_eq!(check(&with_clauses(&[9])), [21, 13, 0, 0, 0, 0, 0]);
    assert_eq!(check(&with_clauses(&of_50)), [0, 0, 2, 52, 1, 1, 0]);
    assert_eq!(check(&with_clauses(&of_51)), [21, 405, 0, 0, 0, 0, 0]);
    assert_eq!(check(&with_clauses(&[1; 400])), [0, 0, 2, 402, 1, 1, 0]);
    assert_eq!(check(&with_clauses(&[1; 401])), [21, 405, 0, 0, 0, 0, 0]);
}

#[test]
fn each_old_failing_and_its_damaged_neighbour() {
    expect_pairs(&[
        Pair {
            right: ("failings: img, all three closed", [0, 0, 10, 4, 5, 3, 0]),
            wrong: ("failings: img, third left open", [17, 18, 0, 0, 0, 0, 0]),
        },
        Pair {
            right: ("failings: typ(v) on the branch", [0, 0, 9, 3, 4, 2, 0]),
            wrong: ("failings: typ(w) on the branch", [13, 13, 0, 0, 0, 0, 1]),
        },
        Pair {
            right: (
                "failings: terms 3 and 4, beside T,rfv,3,0,0,0",
                [0, 0, 6, 3, 2, 1, 0],
            ),
            wrong: (
                "failings: names 3 and 4, T,rfv,3,0,0,0",
                [12, 10, 0, 0, 0, 0, 0],
            ),
        },
        Pair {
            right: ("failings: cue, both closed", [0, 0, 4, 3, 4, 2, 0]),
            wrong: (
                "failings: cue, first closing again",
                [12, 11, 0, 0, 0, 0, 0],
            ),
        },
        Pair {
            right: ("failings: sgi, both closed", [0, 0, 4, 2, 4, 2, 0]),
            wrong: ("failings: sgi, no case outside all", [12, 8, 0, 0, 0, 0, 0]),
        },
    ]);
}

/// Places that take one byte and two, and the two ways to have none.
#[test]
fn the_place_of_a_witness() {
    let rows = [
        ("numbers: 13", [13, 6, 0, 0, 0, 0, 2]),
        ("failings: typ(w) on the branch", [13, 13, 0, 0, 0, 0, 1]),
        ("places: of 1,000, 500", [13, 1005, 0, 0, 0, 0, 500]),
        ("places: of 1,000, 1,000", [13, 1005, 0, 0, 0, 0, 1000]),
        ("places: closed, w eq w again", [13, 11, 0, 0, 0, 0, 5]),
        ("places: clause, split later", [13, 11, 0, 0, 0, 0, 4]),
        ("places: clause, not split", [13, 9, 0, 0, 0, 0, 0]),
        ("places: no rfv, S,ext,2,0,0,2", [13, 20, 0, 0, 0, 0, 0]),
    ];
    for (name, numbers) in rows {
        assert_eq!(check(&named::file(name)), numbers, "{name}");
    }
}

/// The file with one byte made another, which often is right in another place.
fn damaged(file: &[u8], random: &mut u32) -> Vec<u8> {
    let mut next = |below: usize| {
        *random = random.wrapping_mul(1_664_525).wrapping_add(1_013_904_223);
        (*random >> 8) as usize % below
    };
    let mut damaged = file.to_vec();
    damaged[next(file.len())] = b"0123456789,\nTACS"[next(16)];
    damaged
}

/// Beside the replies worked out by hand: two checkers written apart agree.
#[test]
fn damaged_files_get_the_independent_checkers_reply() {
    let mut random = 1;
    for case in all().iter().filter(|case| !case.file.is_empty()) {
        for _ in 0..20 {
            let file = damaged(&case.file, &mut random);
            let independent = independent::reply_line(&independent::check(&file));
            let text = String::from_utf8_lossy(&file);
            assert_eq!(check_line(&file), independent, "{}:\n{text}", case.name);
        }
    }
}

#[test]
fn nothing_is_kept_between_calls() {
    let files: Vec<Vec<u8>> = all().into_iter().map(|case| case.file).collect();
    let forward: Vec<_> = files.iter().map(|file| check(file)).collect();
    let mut backward: Vec<_> = files.iter().rev().map(|file| check(file)).collect();
    backward.reverse();
    assert_eq!(forward, backward);
    for (file, numbers) in files.iter().zip(forward) {
        assert_eq!([check(file), check(file)], [numbers; 2]);
    }
}

#[test]
fn calls_at_once_do_not_disturb_each_other() {
    std::thread::scope(|scope| {
        for _ in 0..4 {
            scope.spawn(|| runner::expect_replies(check_line));
        }
    });
}

/// The header promises it.
#[test]
fn one_mebibyte_of_stack_is_enough() {
    let thread = std::thread::Builder::new().stack_size(1 << 20);
    let run = thread.spawn(|| runner::expect_replies(check_line));
    run.unwrap().join().unwrap();
}
