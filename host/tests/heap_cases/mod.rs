//! Checker files and heap files for the evaluator, each pair with the reply
//! that it must get.
//!
//! Every reply is worked out by hand from document 01 and from the requests "Try
//! a heap against the assumptions", "Assumptions with an or in them" and "More
//! names". A number beside a T line is the number of the term.

mod checker_file;
mod clauses;
mod digits;
mod heap_file;
mod order;
mod ranges;
mod truth;
mod words;

pub struct Case {
    pub name: &'static str,
    pub checker: Vec<u8>,
    pub heap: Vec<u8>,
    /// The reply line without its LF.
    pub reply: &'static str,
}

pub fn all() -> Vec<Case> {
    let topics = [
        truth::cases(),
        words::cases(),
        heap_file::cases(),
        ranges::cases(),
        checker_file::cases(),
        order::cases(),
        clauses::cases(),
        digits::cases(),
    ];
    topics.into_iter().flatten().collect()
}

fn case(name: &str, checker: Vec<u8>, heap: Vec<u8>, reply: &'static str) -> Case {
    Case {
        name: String::from(name).leak(),
        checker,
        heap,
        reply,
    }
}

/// The lines, each ended by LF.
fn lines<L: AsRef<str>>(lines: &[L]) -> Vec<u8> {
    let mut file = Vec::new();
    for line in lines {
        file.extend_from_slice(line.as_ref().as_bytes());
        file.push(b'\n');
    }
    file
}

// T lines that many files begin with.
const NUL: &str = "T,nul,0,0,0,0";
const EMP: &str = "T,emp,0,0,0,0";
const ALL: &str = "T,all,0,0,0,0";
const U: &str = "T,rfv,1,0,0,0";
const R: &str = "T,rgv,1,0,0,0";
const HEAP: &str = "T,arv,1,0,0,0";
const FIELD: &str = "T,fnv,1,0,0,0";

/// nul ne nul: its second line is false in every heap.
const NEVER: [&str; 2] = [NUL, "A,ne,1,1,0,0"];
/// nul eq nul: true in every heap.
const ALWAYS: [&str; 2] = [NUL, "A,eq,1,1,0,0"];

/// The smallest heap.
const SMALLEST: &str = "D,siz,1,1,1,0";

/// A heap file of these bytes, against what is never true. A good heap file
/// gets 0,0,2.
fn heap_bytes(topic: &str, what: &str, heap: &[u8], reply: &'static str) -> Case {
    case(
        &format!("{topic}: {what}"),
        lines(&NEVER),
        heap.to_vec(),
        reply,
    )
}

/// Heap files of some lines more after these, against what is never true.
fn heap_rows(topic: &str, before: &[&str], rows: &[(&[&str], &'static str)]) -> Vec<Case> {
    let mut cases = Vec::new();
    for (more, reply) in rows {
        let what = format!("{} after {}", more.join(" "), before.join(" "));
        let heap = lines(&[before, more].concat());
        cases.push(heap_bytes(topic, &what, &heap, reply));
    }
    cases
}
