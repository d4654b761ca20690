//! Runs every case on a checker.

/// Panics with the cases that get another reply line than the one worked out by
/// hand.
pub fn expect_replies(reply_line: impl Fn(&[u8]) -> String) {
    let mut wrong = Vec::new();
    for case in cases::all() {
        let reply = reply_line(&case.file);
        if reply != format!("{}\n", case.reply) {
            wrong.push(format!(
                "{}: expected {}, got {reply:?}",
                case.name, case.reply
            ));
        }
    }
    assert!(wrong.is_empty(), "{}", wrong.join("\n"));
}
