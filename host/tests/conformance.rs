mod runner;

use host::call::REPLY_BYTES;
use host::checkers::reply_line;
use host::{independent, yardstick};

#[test]
fn the_independent_checker_gives_each_reply() {
    runner::expect_replies(|file| independent::reply_line(&independent::check(file)));
}

#[test]
fn the_yardstick_gives_each_reply() {
    runner::expect_replies(|file| reply_line(yardstick::check(file)));
}

/// 18 comes before any other number, and nothing is written.
#[test]
fn the_yardstick_takes_no_other_buffer() {
    for length in [0, 24, REPLY_BYTES - 1, REPLY_BYTES + 1] {
        let mut reply = vec![7; length];
        assert_eq!(yardstick::call(&[0; 60_001], &mut reply), 18);
        assert_eq!(reply, vec![7; length]);
    }
}
