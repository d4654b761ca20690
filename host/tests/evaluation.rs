//! Every case worked out by hand, on every evaluator.

mod heap_cases;

use host::evaluators::{evaluators, reply_line};

#[test]
fn every_evaluator_gives_each_reply() {
    let mut wrong = Vec::new();
    for (evaluator, evaluate) in evaluators() {
        for case in heap_cases::all() {
            let reply = reply_line(evaluate(&case.checker, &case.heap));
            if reply != format!("{}\n", case.reply) {
                wrong.push(format!(
                    "{evaluator}: {}: expected {}, got {reply:?}",
                    case.name, case.reply
                ));
            }
        }
    }
    assert!(wrong.is_empty(), "{}", wrong.join("\n"));
}
