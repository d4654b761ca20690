//! The five ways in which the old checker went wrong: the right file, and its
//! damaged neighbours.

use super::{
    case, lines, with_line, with_lines, without_line, Case, ALL, EMP, FIELD, HEAP, R, S, U, V,
};

pub fn cases() -> Vec<Case> {
    let groups = [
        two_of_three_alternatives(),
        w_inside_a_larger_term(),
        names_as_arguments(),
        literals_of_a_closed_alternative(),
        singleton_outside_all(),
    ];
    groups.into_iter().flatten().collect()
}

/// The image is empty, though it has to hold a read. Each alternative needs an
/// assumption of its own.
fn two_of_three_alternatives() -> Vec<Case> {
    let right = [
        U,
        R,
        HEAP,            // 3
        FIELD,           // 4
        "T,img,3,2,4,0", // 5
        "T,typ,1,0,0,0", // 6
        "T,dty,4,0,0,0", // 7
        "T,rea,3,1,4,0", // 8
        ALL,             // 9
        EMP,             // 10
        "A,in,1,2,0,0",  // 1: u in r
        "A,le,6,7,0,0",  // 2: typ(u) le dty(f)
        "A,in,8,9,0,0",  // 3: rea(h,u,f) in all
        "A,eq,5,10,0,0", // 4: img(h,r,f) eq emp
        "S,img,1,0,5,0", // 5: typ(u) nl dty(f)
        "S,cls,2,5,0,0", // 5: rea(h,u,f) ni all
        "S,cls,3,5,0,0", // 5: rea(h,u,f) in img(h,r,f)
        "S,eqr,4,5,0,0", // 6: rea(h,u,f) in emp
        "S,emp,6,0,0,0",
    ];
    let damaged = |what: &str, file, reply| case(&format!("failings: img, {what}"), file, reply);
    vec![
        case(
            "failings: img, all three closed",
            lines(&right),
            "yes,0,0,10,4,5,3,0",
        ),
        damaged("third left open", lines(&right[..17]), "no,17,18,0,0,0,0,0"),
        // Place 5 is still ni all.
        damaged(
            "second skipped",
            without_line(&right, 17),
            "no,12,17,0,0,0,0,0",
        ),
        // Place 5 is still nl, so it denies no in.
        damaged(
            "first skipped",
            without_line(&right, 16),
            "no,12,16,0,0,0,0,0",
        ),
        damaged(
            "classes the other way round",
            with_line(&right, 12, "A,le,7,6,0,0"),
            "no,12,16,0,0,0,0,0",
        ),
        damaged(
            "u allocated, not what is read",
            with_line(&right, 13, "A,in,1,9,0,0"),
            "no,12,17,0,0,0,0,0",
        ),
        damaged(
            "r empty, not its image",
            with_line(&right, 14, "A,eq,2,10,0,0"),
            "no,12,18,0,0,0,0,0",
        ),
    ]
}

/// w is term 1. Term 9 holds it two levels down; it spoils w as soon as a
/// literal has term 9, and not while term 9 only stands in the table.
fn w_inside_a_larger_term() -> Vec<Case> {
    let base = [
        U,
        V,
        R,               // 3
        HEAP,            // 4
        FIELD,           // 5
        ALL,             // 6
        EMP,             // 7
        "T,rea,4,1,5,0", // 8
        "T,typ,8,0,0,0", // 9
        "A,eq,2,2,0,0",  // 1
        "A,ne,6,7,0,0",  // 2: all ne emp
        "A,eq,6,7,0,0",  // 3: all eq emp
        "S,ext,2,0,0,1", // 4: w in all, 5: w ni emp
        "S,eqr,3,4,0,0", // 6: w in emp
        "S,emp,6,0,0,0", // 4: w ni all, 5: w in emp
        "S,emp,5,0,0,0",
    ];
    let rows = [
        ("T,rea,4,1,5,0", "T,typ,8,0,0,0"),
        ("T,rea,4,1,5,0", "T,sin,8,0,0,0"),
        ("T,rea,4,1,5,0", "T,rea,4,8,5,0"),
        ("T,rea,4,1,5,0", "T,wri,4,8,5,2"),
        ("T,rea,4,1,5,0", "T,wri,4,2,5,8"),
        ("T,sin,1,0,0,0", "T,cup,8,3,0,0"),
        ("T,sin,1,0,0,0", "T,cup,3,8,0,0"),
        ("T,sin,1,0,0,0", "T,cap,8,3,0,0"),
        ("T,sin,1,0,0,0", "T,cap,3,8,0,0"),
        ("T,sin,1,0,0,0", "T,dif,8,3,0,0"),
        ("T,sin,1,0,0,0", "T,dif,3,8,0,0"),
        ("T,sin,1,0,0,0", "T,img,4,8,5,0"),
        ("T,wri,4,1,5,2", "T,img,8,3,5,0"),
        ("T,wri,4,1,5,2", "T,wri,8,2,5,2"),
        ("T,wri,4,2,5,1", "T,rea,8,2,5,0"),
    ];
    let mut cases = vec![
        case(
            "failings: typ(v) on the branch",
            with_lines(&base, &[(9, "T,typ,2,0,0,0"), (10, "A,eq,9,9,0,0")]),
            "yes,0,0,9,3,4,2,0",
        ),
        // 1: typ(w) eq typ(w)
        case(
            "failings: typ(w) on the branch",
            with_lines(&base, &[(9, "T,typ,1,0,0,0"), (10, "A,eq,9,9,0,0")]),
            "no,13,13,0,0,0,0,1",
        ),
    ];
    for (inner, outer) in rows {
        cases.push(case(
            &format!("failings: w in {inner}, then {outer}, in the table"),
            with_lines(&base, &[(8, inner), (9, outer)]),
            "yes,0,0,9,3,4,2,0",
        ));
        cases.push(case(
            &format!("failings: w in {inner}, then {outer}, on the branch"),
            with_lines(&base, &[(8, inner), (9, outer), (10, "A,eq,9,9,0,0")]),
            "no,13,13,0,0,0,0,1",
        ));
    }
    cases
}

/// Terms 3 and 4 are equal; the variables named 3 and 4 needn't be.
fn names_as_arguments() -> Vec<Case> {
    let base = [
        "T,rfv,3,0,0,0", // 1
        "T,rfv,4,0,0,0", // 2
        U,               // 3
        V,               // 4
        "T,typ,3,0,0,0", // 5
        "T,typ,4,0,0,0", // 6
        "A,eq,3,4,0,0",  // 1
        "A,ne,5,6,0,0",  // 2
        "A,ne,1,2,0,0",  // 3
        "S,sub,1,0,5,6", // 4: typ of term 3 eq typ of term 4
        "S,cls,4,2,0,0",
    ];
    let variables = [
        ("T,rfv,3,0,0,0", "T,rfv,4,0,0,0"),
        ("T,rgv,3,0,0,0", "T,rgv,4,0,0,0"),
        ("T,arv,3,0,0,0", "T,arv,4,0,0,0"),
        ("T,fnv,3,0,0,0", "T,fnv,4,0,0,0"),
        ("T,clv,3,0,0,0", "T,clv,4,0,0,0"),
    ];
    let mut cases = Vec::new();
    for (first, second) in variables {
        cases.push(case(
            &format!("failings: terms 3 and 4, beside {first}"),
            with_lines(&base, &[(1, first), (2, second)]),
            "yes,0,0,6,3,2,1,0",
        ));
        cases.push(case(
            &format!("failings: names 3 and 4, {first}"),
            with_lines(
                &base,
                &[
                    (1, first),
                    (2, second),
                    (10, "S,sub,1,0,1,2"),
                    (11, "S,cls,4,3,0,0"),
                ],
            ),
            "no,12,10,0,0,0,0,0",
        ));
    }
    cases
}

fn literals_of_a_closed_alternative() -> Vec<Case> {
    let right = [
        U,
        R,
        S,
        "T,cup,2,3,0,0", // 4
        "A,in,1,4,0,0",  // 1: u in cup(r,s)
        "A,ni,1,2,0,0",  // 2: u ni r
        "A,ni,1,3,0,0",  // 3: u ni s
        "S,cue,1,0,0,0", // 4: u in r
        "S,ref,0,0,1,0", // 5: u eq u
        "S,cls,4,2,0,0", // 4: u in s, and no place 5
        "S,cls,4,3,0,0",
    ];
    let last = |what: &str, line, reply| {
        case(
            &format!("failings: cue, {what}"),
            with_line(&right, 11, line),
            reply,
        )
    };
    vec![
        case(
            "failings: cue, both closed",
            lines(&right),
            "yes,0,0,4,3,4,2,0",
        ),
        last("first closing again", "S,cls,4,2,0,0", "no,12,11,0,0,0,0,0"),
        last("place 5 gone", "S,sym,5,0,0,0", "no,11,11,0,0,0,0,0"),
        last(
            "u in s not at place 6",
            "S,cls,6,3,0,0",
            "no,11,11,0,0,0,0,0",
        ),
        // Nothing denies u in s.
        case(
            "failings: cue, second can't close",
            with_lines(&right, &[(7, "A,eq,1,1,0,0"), (11, "S,cls,4,2,0,0")]),
            "no,12,11,0,0,0,0,0",
        ),
    ]
}

/// sin(u) is empty just when u is not allocated.
fn singleton_outside_all() -> Vec<Case> {
    let right = [
        U,
        ALL,
        "T,sin,1,0,0,0", // 3
        EMP,             // 4
        "A,in,1,2,0,0",  // 1: u in all
        "A,eq,3,4,0,0",  // 2: sin(u) eq emp
        "S,sgi,0,0,3,0", // 3: u ni all
        "S,cls,1,3,0,0", // 3: u in sin(u)
        "S,eqr,2,3,0,0", // 4: u in emp
        "S,emp,4,0,0,0",
    ];
    vec![
        case(
            "failings: sgi, both closed",
            lines(&right),
            "yes,0,0,4,2,4,2,0",
        ),
        // Place 3 is still u ni all.
        case(
            "failings: sgi, no case outside all",
            without_line(&right, 8),
            "no,12,8,0,0,0,0,0",
        ),
        case(
            "failings: sgi, u needn't be allocated",
            with_line(&right, 5, "A,eq,1,1,0,0"),
            "no,12,8,0,0,0,0,0",
        ),
        case(
            "failings: sgi, no case inside all",
            lines(&right[..8]),
            "no,17,9,0,0,0,0,0",
        ),
    ]
}
