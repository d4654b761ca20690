//! Files for the checker, each with the reply that it must get.
//!
//! Every reply is worked out by hand from the scope document, its rule `fir`
//! struck, and from the requests "Assumptions with an or in them", "Where is
//! that witness already used?", "Finite heaps have a counting argument", "More
//! names" and "Let the checker close on equalities by itself". In comments `3: u in r` says that place 3 of the branch now
//! holds that literal; beside a closing it is what the next alternative adds. A
//! number beside a T line is the number of the term.

mod allocated;
mod bck;
mod bck_steps;
mod clause_freshness;
mod clause_splits;
mod clauses;
pub mod digits;
mod failings;
mod fin;
mod limits;
mod marked;
mod numbers;
mod places;
mod rules_accept;
mod rules_refuse;
mod tree;

pub struct Case {
    pub name: &'static str,
    pub file: Vec<u8>,
    /// The reply line without its LF.
    pub reply: &'static str,
}

pub fn all() -> Vec<Case> {
    let topics = [
        marked::cases(),
        numbers::cases(),
        limits::cases(),
        rules_accept::cases(),
        rules_refuse::cases(),
        failings::cases(),
        tree::cases(),
        allocated::cases(),
        clauses::cases(),
        clause_splits::cases(),
        clause_freshness::cases(),
        places::cases(),
        fin::cases(),
        digits::cases(),
        bck::cases(),
        bck_steps::cases(),
    ];
    topics.into_iter().flatten().collect()
}

fn case(name: &str, file: Vec<u8>, reply: &'static str) -> Case {
    Case {
        name: String::from(name).leak(),
        file,
        reply,
    }
}

/// The lines, each ended by LF.
fn lines<L: AsRef<str>>(lines: &[L]) -> Vec<u8> {
    let mut file = Vec::new();
    for line in lines {
        file.extend_from_slice(line.as_ref().as_bytes());
        file.push(b'\n');
    }
    file
}

/// The file with other text on the numbered lines.
fn with_lines<L: AsRef<str>>(file: &[L], changes: &[(usize, &str)]) -> Vec<u8> {
    let mut changed: Vec<&str> = file.iter().map(L::as_ref).collect();
    for &(number, line) in changes {
        changed[number - 1] = line;
    }
    lines(&changed)
}

fn with_line<L: AsRef<str>>(file: &[L], number: usize, line: &str) -> Vec<u8> {
    with_lines(file, &[(number, line)])
}

/// The case of a file with one line changed, which its name says.
fn with_line_case<L: AsRef<str>>(
    name: &str,
    file: &[L],
    (number, line): (usize, &str),
    reply: &'static str,
) -> Case {
    let name = format!("{name}, line {number} {line}");
    case(&name, with_line(file, number, line), reply)
}

fn without_line(file: &[&str], number: usize) -> Vec<u8> {
    let mut rest = file.to_vec();
    rest.remove(number - 1);
    lines(&rest)
}

/// The file with more lines after its last one.
fn with_more(file: &[&str], more: &[&str]) -> Vec<u8> {
    lines(&[file, more].concat())
}

/// Each line as many times as its count says.
fn runs(parts: &[(usize, &str)]) -> Vec<u8> {
    let mut all = Vec::new();
    for &(count, line) in parts {
        all.extend(std::iter::repeat_n(line, count));
    }
    lines(&all)
}

// T lines that many files begin with.
const U: &str = "T,rfv,1,0,0,0";
const V: &str = "T,rfv,2,0,0,0";
const R: &str = "T,rgv,1,0,0,0";
const S: &str = "T,rgv,2,0,0,0";
const HEAP: &str = "T,arv,1,0,0,0";
const FIELD: &str = "T,fnv,1,0,0,0";
const NUL: &str = "T,nul,0,0,0,0";
const EMP: &str = "T,emp,0,0,0,0";
const ALL: &str = "T,all,0,0,0,0";

/// The terms of u in img(h,r,f), and of what `wit` adds with a fresh w: the last
/// three serve only for that.
const WITNESS_TERMS: [&str; 9] = [
    U,               // 1
    V,               // 2, w
    R,               // 3
    HEAP,            // 4
    FIELD,           // 5
    "T,img,4,3,5,0", // 6, img(h,r,f)
    "T,typ,2,0,0,0", // 7, typ(w)
    "T,dty,5,0,0,0", // 8, dty(f)
    "T,rea,4,2,5,0", // 9, rea(h,w,f)
];

/// The document's file F.
const F: [&str; 8] = [
    U,               // 1
    R,               // 2
    S,               // 3
    "T,cap,2,3,0,0", // 4
    "A,in,1,4,0,0",  // 1: u in cap(r,s)
    "A,ni,1,2,0,0",  // 2: u ni r
    "S,cpe,1,0,0,0", // 3: u in r, 4: u in s
    "S,cls,3,2,0,0",
];

/// The document's file G.
const G: [&str; 10] = [
    U,               // 1
    R,               // 2
    S,               // 3
    "T,cup,2,3,0,0", // 4
    "A,in,1,4,0,0",  // 1: u in cup(r,s)
    "A,ni,1,2,0,0",  // 2: u ni r
    "A,ni,1,3,0,0",  // 3: u ni s
    "S,cue,1,0,0,0", // 4: u in r
    "S,cls,4,2,0,0", // next alternative, 4: u in s
    "S,cls,4,3,0,0",
];
