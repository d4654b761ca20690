//! What each word of a heap file does to an A line, which A line is reported,
//! and heaps with little in them.

use super::{case, lines, Case};
use super::{ALL, ALWAYS, EMP, FIELD, HEAP, NEVER, NUL, R, SMALLEST, U};

pub fn cases() -> Vec<Case> {
    let groups = [
        references(),
        regions(),
        heap_values(),
        classes(),
        any_order(),
        one_name_five_times(),
        first_false_line(),
        little_said(),
    ];
    groups.into_iter().flatten().collect()
}

type Row<'a> = (&'a [&'a str], &'static str);

/// One checker file against heaps that say more and more.
fn heaps(what: &str, checker: &[&str], size: &str, rows: &[Row]) -> Vec<Case> {
    let mut cases = Vec::new();
    for (more, reply) in rows {
        let name = format!("words: {what}, {size} {}", more.join(" "));
        let heap = lines(&[&[size], *more].concat());
        cases.push(case(&name, lines(checker), heap, reply));
    }
    cases
}

fn references() -> Vec<Case> {
    let not_nul = [U, NUL, "A,ne,1,2,0,0"];
    let allocated = [U, ALL, "A,in,1,2,0,0"];
    let size = "D,siz,3,1,1,0";
    let of_u = heaps(
        "u ne nul",
        &not_nul,
        size,
        &[
            (&[], "0,0,3"),
            (&["D,rfv,1,0,0,0"], "0,0,3"),
            (&["D,rfv,1,2,0,0"], "0,0,0"), // not allocated, but a reference
            (&["D,rfv,2,2,0,0"], "0,0,3"), // another variable
        ],
    );
    let in_all = heaps(
        "u in all",
        &allocated,
        size,
        &[
            (&["D,rfv,1,2,0,0"], "0,0,3"),
            (&["D,rfv,1,2,0,0", "D,alc,1,0,0,0"], "0,0,3"),
            (&["D,rfv,1,2,0,0", "D,alc,2,0,0,0"], "0,0,0"),
            (&["D,alc,2,0,0,0", "D,rfv,1,2,0,0"], "0,0,0"),
            (&["D,alc,1,0,0,0", "D,alc,2,0,0,0"], "0,0,3"), // u is nul
        ],
    );
    [of_u, in_all].into_iter().flatten().collect()
}

fn regions() -> Vec<Case> {
    let size = "D,siz,4,1,1,0";
    let some = heaps(
        "all ne emp",
        &[ALL, EMP, "A,ne,1,2,0,0"],
        size,
        &[(&[], "0,0,3"), (&["D,alc,3,0,0,0"], "0,0,0")],
    );
    let of_r = heaps(
        "r ne emp",
        &[R, EMP, "A,ne,1,2,0,0"],
        size,
        &[
            (&["D,alc,3,0,0,0"], "0,0,3"),
            (&["D,alc,3,0,0,0", "D,rgv,1,3,0,0"], "0,0,0"),
            (&["D,alc,3,0,0,0", "D,rgv,2,3,0,0"], "0,0,3"), // another variable
        ],
    );
    let whole = heaps(
        "r eq all",
        &[R, ALL, "A,eq,1,2,0,0"],
        size,
        &[
            (&[], "0,0,0"), // both empty
            (&["D,alc,1,0,0,0"], "0,0,3"),
            (&["D,alc,1,0,0,0", "D,rgv,1,1,0,0"], "0,0,0"),
            // A reference allocated after the members.
            (
                &["D,alc,1,0,0,0", "D,rgv,1,1,0,0", "D,alc,2,0,0,0"],
                "0,0,3",
            ),
            (
                &[
                    "D,alc,1,0,0,0",
                    "D,rgv,1,1,0,0",
                    "D,alc,2,0,0,0",
                    "D,rgv,1,2,0,0",
                ],
                "0,0,0",
            ),
        ],
    );
    [some, of_r, whole].into_iter().flatten().collect()
}

fn heap_values() -> Vec<Case> {
    // rea(h,u,f) eq u
    let checker = [HEAP, U, FIELD, "T,rea,1,2,3,0", "A,eq,4,2,0,0"];
    heaps(
        "rea(h,u,f) eq u",
        &checker,
        "D,siz,3,2,1,0",
        &[
            (&[], "0,0,0"), // nul, nul
            (&["D,rfv,1,2,0,0"], "0,0,5"),
            (&["D,rfv,1,2,0,0", "D,arv,1,2,0,2"], "0,0,0"),
            (&["D,rfv,1,2,0,0", "D,arv,1,2,0,1"], "0,0,5"), // another value
            (&["D,rfv,1,2,0,0", "D,arv,1,1,0,2"], "0,0,5"), // another reference
            (&["D,rfv,1,2,0,0", "D,arv,1,2,1,2"], "0,0,5"), // another field
            (&["D,rfv,1,2,0,0", "D,arv,2,2,0,2"], "0,0,5"), // another variable
            (
                &["D,rfv,1,2,0,0", "D,arv,1,2,1,2", "D,fnv,1,1,0,0"],
                "0,0,0",
            ),
            (&["D,arv,1,0,0,1"], "0,0,5"), // an entry of nul
        ],
    )
}

fn classes() -> Vec<Case> {
    let size = "D,siz,2,2,3,0";
    let c = "T,clv,1,0,0,0";
    let typ = heaps(
        "typ(u) eq c",
        &[U, "T,typ,1,0,0,0", c, "A,eq,2,3,0,0"],
        size,
        &[
            (&[], "0,0,0"),
            (&["D,typ,0,2,0,0"], "0,0,4"),
            (&["D,typ,0,2,0,0", "D,clv,1,2,0,0"], "0,0,0"),
            (&["D,typ,1,2,0,0", "D,clv,1,2,0,0"], "0,0,4"), // u is nul
            (
                &["D,typ,1,2,0,0", "D,clv,1,2,0,0", "D,rfv,1,1,0,0"],
                "0,0,0",
            ),
            (&["D,typ,0,0,0,0"], "0,0,0"),
        ],
    );
    let dty = heaps(
        "dty(f) eq c",
        &[FIELD, "T,dty,1,0,0,0", c, "A,eq,2,3,0,0"],
        size,
        &[
            (&["D,dty,0,1,0,0"], "0,0,4"),
            (&["D,dty,0,1,0,0", "D,clv,1,1,0,0"], "0,0,0"),
            (&["D,dty,0,1,0,0", "D,fnv,1,1,0,0"], "0,0,0"), // dty(1) is 0
            (&["D,clv,1,1,0,0"], "0,0,4"),
            (&["D,clv,2,1,0,0"], "0,0,0"), // another variable
        ],
    );
    let sub = heaps(
        "c le d",
        &[c, "T,clv,2,0,0,0", "A,le,1,2,0,0"],
        size,
        &[
            (&[], "0,0,0"), // under itself
            (&["D,clv,2,1,0,0"], "0,0,3"),
            (&["D,clv,2,1,0,0", "D,sub,0,1,0,0"], "0,0,0"),
            (&["D,clv,2,1,0,0", "D,sub,1,0,0,0"], "0,0,3"),
            (&["D,clv,2,1,0,0", "D,sub,0,2,0,0"], "0,0,3"),
        ],
    );
    [typ, dty, sub].into_iter().flatten().collect()
}

/// "Then, in any order": only a member waits for its allocation.
fn any_order() -> Vec<Case> {
    // img(h,r,f) eq sin(u)
    let checker = [
        HEAP,
        R,
        FIELD,
        U,
        "T,img,1,2,3,0", // 5
        "T,sin,4,0,0,0", // 6
        "A,eq,5,6,0,0",
        "A,in,4,2,0,0",
    ];
    // r = {1}, h gives 1 from 1 by field 1, typ(1) = 1 under dty(1) = 2.
    let facts = [
        "D,alc,1,0,0,0",
        "D,typ,1,1,0,0",
        "D,dty,1,2,0,0",
        "D,sub,1,2,0,0",
        "D,rfv,1,1,0,0",
        "D,fnv,1,1,0,0",
        "D,clv,1,2,0,0",
        "D,rgv,1,1,0,0",
        "D,arv,1,1,1,1",
    ];
    let mut backwards = facts;
    backwards.reverse();
    let mut first_last = facts;
    first_last.rotate_left(1);
    let mut last_first = facts;
    last_first.rotate_right(2);
    let mut swapped = backwards;
    swapped.swap(1, 8);
    let rows = [
        ("as written", facts, "0,0,0"),
        // Line 3 is rgv, before any alc.
        ("backwards", backwards, "19,2,3"),
        ("backwards, alc and rgv changed over", swapped, "0,0,0"),
        // Line 8 is rgv.
        ("alc last", first_last, "19,2,8"),
        // Line 2 is rgv.
        ("rgv and arv first", last_first, "19,2,2"),
    ];
    let mut cases = Vec::new();
    for (what, facts, reply) in rows {
        let heap = [&["D,siz,2,2,3,0"], &facts[..]].concat();
        let name = format!("words: any order, {what}");
        cases.push(case(&name, lines(&checker), lines(&heap), reply));
    }
    // Each fact that the first assumption needs, left out.
    for left_out in [0, 1, 2, 3, 4, 5, 7, 8] {
        let mut rest = facts.to_vec();
        rest.remove(left_out);
        // Without alc the member isn't allocated: line 8. Without typ, dty or
        // sub typ(1) isn't under dty(1), so the image is empty, and so it is
        // without fnv, rgv or arv; without rfv u is nul, and sin(u) is empty.
        let reply = if left_out == 0 { "19,2,8" } else { "0,0,7" };
        let heap = [&["D,siz,2,2,3,0"], &rest[..]].concat();
        let name = format!("words: without {}", facts[left_out]);
        cases.push(case(&name, lines(&checker), lines(&heap), reply));
    }
    cases
}

/// Variables of five words with one name are five variables.
fn one_name_five_times() -> Vec<Case> {
    let checker = [
        U,
        R,
        HEAP,
        FIELD,
        "T,clv,1,0,0,0", // 5
        "T,rea,3,1,4,0", // 6
        "T,sin,1,0,0,0", // 7
        "T,typ,1,0,0,0", // 8
        "A,eq,2,7,0,0",  // {3}, {3}
        "A,eq,6,1,0,0",  // 3, 3
        "A,eq,8,5,0,0",  // 1, 1
    ];
    let heap = [
        "D,siz,4,3,2,0",
        "D,alc,3,0,0,0",
        "D,typ,3,1,0,0",
        "D,rfv,1,3,0,0",
        "D,rgv,1,3,0,0",
        "D,fnv,1,2,0,0",
        "D,clv,1,1,0,0",
        "D,arv,1,3,2,3",
    ];
    vec![case(
        "words: one name five times",
        lines(&checker),
        lines(&heap),
        "0,0,0",
    )]
}

fn first_false_line() -> Vec<Case> {
    let rows: [(&str, &[&str], &'static str); 9] = [
        ("no lines", &[], "0,0,0"),
        ("no A lines", &[NUL, U], "0,0,0"),
        ("one, true", &ALWAYS, "0,0,0"),
        ("one, false", &NEVER, "0,0,2"),
        (
            "first of two",
            &[NUL, "A,ne,1,1,0,0", "A,eq,1,1,0,0"],
            "0,0,2",
        ),
        (
            "last of two",
            &[NUL, "A,eq,1,1,0,0", "A,ne,1,1,0,0"],
            "0,0,3",
        ),
        (
            "both of two",
            &[NUL, "A,ne,1,1,0,0", "A,ne,1,1,0,0"],
            "0,0,2",
        ),
        (
            "three, true",
            &[NUL, "A,eq,1,1,0,0", "A,eq,1,1,0,0", "A,eq,1,1,0,0"],
            "0,0,0",
        ),
        (
            "two in the middle",
            &[
                NUL,
                U,
                "A,eq,1,2,0,0",
                "A,ne,1,2,0,0",
                "A,ne,2,1,0,0",
                "A,eq,2,1,0,0",
            ],
            "0,0,4",
        ),
    ];
    rows.iter()
        .map(|(what, checker, reply)| {
            let name = format!("words: false A lines, {what}");
            case(&name, lines(checker), lines(&[SMALLEST]), reply)
        })
        .collect()
}

/// Document 01's files in a heap of which only the sizes are said.
fn little_said() -> Vec<Case> {
    let f = [
        U,
        R,
        "T,rgv,2,0,0,0",
        "T,cap,2,3,0,0",
        "A,in,1,4,0,0",
        "A,ni,1,2,0,0",
        "S,cpe,1,0,0,0",
        "S,cls,3,2,0,0",
    ];
    let in_r_and_s = [
        "D,siz,2,1,1,0",
        "D,alc,1,0,0,0",
        "D,rfv,1,1,0,0",
        "D,rgv,1,1,0,0",
        "D,rgv,2,1,0,0",
    ];
    vec![
        // nul is in no region.
        case("words: F, smallest", lines(&f), lines(&[SMALLEST]), "0,0,5"),
        case(
            "words: F, largest",
            lines(&f),
            lines(&["D,siz,64,16,16,0"]),
            "0,0,5",
        ),
        // u is in cap(r,s), so in r too.
        case(
            "words: F, u in both",
            lines(&f),
            lines(&in_r_and_s),
            "0,0,6",
        ),
        // u is in r only.
        case(
            "words: F, u in one",
            lines(&f),
            lines(&in_r_and_s[..4]),
            "0,0,5",
        ),
    ]
}
