//! The last field of a reply: with number 13 the first place on the branch, as
//! it stands when the refused line is reached, whose literal mentions w. It is 0
//! with any other number, for a w that is no `rfv`, and for a w that is in a
//! clause only.

use super::clause_freshness::LARGER_TERMS;
use super::{case, lines, runs, with_lines, with_more, Case};
use super::{ALL, EMP, FIELD, HEAP, NUL, R, S, U, V, WITNESS_TERMS};

pub fn cases() -> Vec<Case> {
    let groups = [
        first_of_several(),
        at_a_side(),
        inside_larger_terms(),
        many_levels_down(),
        names_and_numbers(),
        after_closings(),
        after_a_test_and_closings(),
        between_splits(),
        beside_a_waiting_alternative(),
        in_clauses(),
        no_rfv(),
        other_numbers(),
        used_again_by_ext(),
        used_again_by_wit(),
        on_1000_places(),
        on_1000_places_of_steps(),
        on_1000_places_after_a_closing(),
        with_200_waiting(),
    ];
    groups.into_iter().flatten().collect()
}

/// Places 1 to 5; w is term 2, and u eq u stands where it isn't.
fn first_of_several() -> Vec<Case> {
    let rows: [(&[usize], &str); 19] = [
        (&[], "no,17,11,0,0,0,0,0"),
        (&[1], "no,13,10,0,0,0,0,1"),
        (&[2], "no,13,10,0,0,0,0,2"),
        (&[3], "no,13,10,0,0,0,0,3"),
        (&[4], "no,13,10,0,0,0,0,4"),
        (&[5], "no,13,10,0,0,0,0,5"),
        (&[1, 2], "no,13,10,0,0,0,0,1"),
        (&[1, 5], "no,13,10,0,0,0,0,1"),
        (&[2, 3], "no,13,10,0,0,0,0,2"),
        (&[2, 4], "no,13,10,0,0,0,0,2"),
        (&[2, 5], "no,13,10,0,0,0,0,2"),
        (&[3, 4], "no,13,10,0,0,0,0,3"),
        (&[3, 5], "no,13,10,0,0,0,0,3"),
        (&[4, 5], "no,13,10,0,0,0,0,4"),
        (&[1, 3, 5], "no,13,10,0,0,0,0,1"),
        (&[2, 3, 4], "no,13,10,0,0,0,0,2"),
        (&[3, 4, 5], "no,13,10,0,0,0,0,3"),
        (&[2, 3, 4, 5], "no,13,10,0,0,0,0,2"),
        (&[1, 2, 3, 4, 5], "no,13,10,0,0,0,0,1"),
    ];
    let file = |places: &[usize]| {
        let mut file = vec![U, V, R];
        for place in 1..=5 {
            let mentions = places.contains(&place);
            file.push(if mentions {
                "A,eq,2,2,0,0"
            } else {
                "A,eq,1,1,0,0"
            });
        }
        file.extend(["A,ne,3,3,0,0", "S,ext,6,0,0,2"]); // 6: r ne r; line 10
        lines(&file)
    };
    rows.into_iter()
        .map(|(places, reply)| case(&format!("places: w at {places:?}"), file(places), reply))
        .collect()
}

/// Place 2 holds the literal, place 3 holds w anyway. The step is on line 27.
fn with_literal(literal: &str, reply: &'static str) -> Case {
    let more = [
        "T,img,13,3,5,0", // 22, img(wri(h,w,f,v),r,f)
        "T,rea,4,12,5,0", // 23, rea(h,rea(h,w,f),f)
    ];
    let second = format!("A,{literal},0,0");
    let rest = ["A,ne,3,3,0,0", &second, "A,eq,1,1,0,0", "S,ext,1,0,0,1"];
    let file = [&LARGER_TERMS[..], &more, &rest].concat();
    case(&format!("places: {literal}"), lines(&file), reply)
}

/// w is term 1, v term 2, r term 3.
fn at_a_side() -> Vec<Case> {
    let mut cases = Vec::new();
    for literal in [
        "in,1,3", "ni,1,3", "eq,1,2", "ne,1,2", "eq,2,1", "ne,2,1", "eq,1,1", "ne,1,1",
    ] {
        cases.push(with_literal(literal, "no,13,27,0,0,0,0,2"));
    }
    for literal in ["in,2,3", "ni,2,3", "eq,2,2", "ne,2,2", "eq,3,3", "ne,4,4"] {
        cases.push(with_literal(literal, "no,13,27,0,0,0,0,3"));
    }
    cases
}

fn inside_larger_terms() -> Vec<Case> {
    let mut cases = Vec::new();
    // On the left, on the right, on both sides.
    for literal in [
        "le,7,6", "nl,6,7", "eq,7,18", "ne,18,7", "le,7,7", // typ(w)
        "eq,8,3", "in,2,8", "ni,2,8", "in,1,8", // sin(w)
        "eq,9,3", "ne,3,9", "eq,10,3", "ni,2,10", "eq,11,3", "in,2,11", // cup, cap, dif
        "in,12,3", "eq,2,12", "ne,12,20", "eq,20,12", // rea(h,w,f)
        "eq,13,4", "ne,4,13", "eq,14,4", "ne,4,14", "eq,13,14", // wri
        "eq,15,2", "eq,2,15", "in,15,3", // rea(wri(h,v,f,w),v,f)
        "eq,16,3", "in,2,16", "ne,3,16", // img(h,sin(w),f)
        "le,17,6", "nl,6,17", // typ(rea(h,w,f))
        "eq,22,3", "in,2,22", // img(wri(h,w,f,v),r,f)
        "in,23,3", "eq,2,23", // rea(h,rea(h,w,f),f)
    ] {
        cases.push(with_literal(literal, "no,13,27,0,0,0,0,2"));
    }
    // The same words without w.
    for literal in [
        "le,18,6", "nl,6,18", "in,2,19", "eq,19,3", "in,20,3", "eq,2,20", "eq,21,4", "ne,4,21",
    ] {
        cases.push(with_literal(literal, "no,13,27,0,0,0,0,3"));
    }
    cases
}

/// Terms 6 to 600 are rea(h,·,f) around w, or around v: 595 levels.
fn many_levels_down() -> Vec<Case> {
    let file = |inner: usize, third: &str| {
        let first = [U, V, R, HEAP, FIELD]; // 1 w, 2 v, 3 r, 4 h, 5 f
        let mut file: Vec<String> = first.map(String::from).to_vec();
        file.push(format!("T,rea,4,{inner},5,0"));
        file.extend((6..600).map(|part| format!("T,rea,4,{part},5,0")));
        let rest = [
            "A,ne,3,3,0,0", // 1: r ne r
            "A,eq,2,2,0,0", // 2: v eq v
            third,
            "A,eq,1,1,0,0",  // 4: w eq w
            "S,ext,1,0,0,1", // line 605
        ];
        file.extend(rest.map(String::from));
        lines(&file)
    };
    let rows = [
        ("w, left", 1, "A,in,600,3,0,0", "no,13,605,0,0,0,0,3"),
        ("w, right", 1, "A,eq,2,600,0,0", "no,13,605,0,0,0,0,3"),
        ("v, left", 2, "A,in,600,3,0,0", "no,13,605,0,0,0,0,4"),
        ("v, right", 2, "A,eq,2,600,0,0", "no,13,605,0,0,0,0,4"),
    ];
    rows.into_iter()
        .map(|(what, inner, third, reply)| {
            let name = format!("places: 595 levels around {what}");
            case(&name, file(inner, third), reply)
        })
        .collect()
}

/// The names 1 and 2 are those of terms 2 and 1; rgv 1 and clv 2 are others.
fn names_and_numbers() -> Vec<Case> {
    let file = [
        V,               // 1
        U,               // 2
        R,               // 3
        "T,clv,2,0,0,0", // 4
        "A,ne,3,3,0,0",  // 1: r ne r
        "A,eq,4,4,0,0",  // 2: c eq c
        "A,eq,1,1,0,0",  // 3: v eq v
        "A,eq,2,2,0,0",  // 4: u eq u
    ];
    let rows = [
        ("S,ext,1,0,0,1", "no,13,9,0,0,0,0,3"),
        ("S,ext,1,0,0,2", "no,13,9,0,0,0,0,4"),
    ];
    rows.into_iter()
        .map(|(step, reply)| {
            let name = format!("places: names, {step}");
            case(&name, with_more(&file, &[step]), reply)
        })
        .collect()
}

/// A literal of a closed alternative counts no more.
fn after_closings() -> Vec<Case> {
    let file = [
        U,               // 1
        V,               // 2, w
        R,               // 3
        "A,ne,3,3,0,0",  // 1: r ne r
        "A,eq,3,3,0,0",  // 2: r eq r
        "S,cut,0,0,1,3", // 6, 3: u in r
        "S,ref,0,0,2,0", // 7, 4: w eq w
        "S,cls,2,1,0,0", // 8, 3: u ni r
        "S,ref,0,0,1,0", // 9, 4: u eq u
        "S,ref,0,0,2,0", // 10, 5: w eq w
        "S,ext,1,0,0,2", // 11
    ];
    let (ref_u, ref_w, ext) = ("S,ref,0,0,1,0", "S,ref,0,0,2,0", "S,ext,1,0,0,2");
    let rows: [(&str, &[(usize, &str)], &str); 7] = [
        ("w eq w again", &[], "no,13,11,0,0,0,0,5"),
        ("before the closing", &[(8, ext)], "no,13,8,0,0,0,0,4"),
        // 4: w eq w, 5: w eq w
        ("at once again", &[(9, ref_w)], "no,13,11,0,0,0,0,4"),
        // 4: u eq u, 5: u eq u
        ("not again", &[(10, ref_u)], "no,17,12,0,0,0,0,0"),
        // 4: w in r, 5: w ni r, 6: w eq w
        ("again by ext", &[(9, ext)], "no,13,11,0,0,0,0,4"),
        // 4: u eq u, 5: w in r, 6: w ni r
        ("again by a later ext", &[(10, ext)], "no,13,11,0,0,0,0,5"),
        // u has place 3 in both alternatives.
        ("u", &[(11, "S,ext,1,0,0,1")], "no,13,11,0,0,0,0,3"),
    ];
    rows.into_iter()
        .map(|(what, changes, reply)| {
            let name = format!("places: closed, {what}");
            case(&name, with_lines(&file, changes), reply)
        })
        .collect()
}

/// The step of each row, behind so many of the file's lines.
fn stepped(name: &str, file: &[&str], rows: &[(usize, &str, &'static str)]) -> Vec<Case> {
    let mut cases = Vec::new();
    for &(count, step, reply) in rows {
        let name = format!("places: {name}{step} after {count} lines");
        cases.push(case(&name, with_more(&file[..count], &[step]), reply));
    }
    cases
}

/// In the first alternative z is taken as fresh, so that all places have been
/// looked at before they are cut back. The step follows the first so many lines.
fn after_a_test_and_closings() -> Vec<Case> {
    let file = [
        U,               // 1
        V,               // 2, w
        R,               // 3
        "T,rfv,3,0,0,0", // 4, z
        "A,ne,3,3,0,0",  // 1: r ne r
        "A,eq,3,3,0,0",  // 2: r eq r
        "S,cut,0,0,1,3", // 7, 3: u in r
        "S,ref,0,0,2,0", // 8, 4: w eq w
        "S,ext,1,0,0,4", // 9, 5: z in r, 6: z ni r
        "S,cls,2,1,0,0", // 10, 5: z ni r, 6: z in r
        "S,cls,2,1,0,0", // 11, 3: u ni r
        "S,ref,0,0,1,0", // 12, 4: u eq u
        "S,ref,0,0,4,0", // 13, 5: z eq z
        "S,ref,0,0,2,0", // 14, 6: w eq w
    ];
    let (ext_u, ext_w, ext_z) = ("S,ext,1,0,0,1", "S,ext,1,0,0,2", "S,ext,1,0,0,4");
    let rows = [
        (9, ext_u, "no,13,10,0,0,0,0,3"),
        (9, ext_w, "no,13,10,0,0,0,0,4"),
        (9, ext_z, "no,13,10,0,0,0,0,5"),
        (10, ext_w, "no,13,11,0,0,0,0,4"),
        (10, ext_z, "no,13,11,0,0,0,0,5"),
        (11, ext_u, "no,13,12,0,0,0,0,3"),
        (11, ext_w, "no,17,13,0,0,0,0,0"),
        (11, ext_z, "no,17,13,0,0,0,0,0"),
        (13, ext_w, "no,17,15,0,0,0,0,0"),
        (13, ext_z, "no,13,14,0,0,0,0,5"),
        (14, ext_u, "no,13,15,0,0,0,0,3"),
        (14, ext_w, "no,13,15,0,0,0,0,6"),
        (14, ext_z, "no,13,15,0,0,0,0,5"),
    ];
    stepped("z tried, ", &file, &rows)
}

/// w comes in with the second of three nested splits, u with the first. The
/// step follows the first so many lines.
fn between_splits() -> Vec<Case> {
    let file = [
        U,               // 1
        V,               // 2, w
        R,               // 3
        "A,ne,3,3,0,0",  // 1: r ne r
        "A,eq,3,3,0,0",  // 2: r eq r
        "S,cut,0,0,1,3", // 6, 3: u in r
        "S,cut,0,0,2,3", // 7, 4: w in r
        "S,cut,0,0,1,3", // 8, 5: u in r
        "S,cls,2,1,0,0", // 9, 5: u ni r
        "S,cls,2,1,0,0", // 10, 4: w ni r
        "S,cls,2,1,0,0", // 11, 3: u ni r
    ];
    let rows = [
        (5, "S,ext,1,0,0,2", "no,17,7,0,0,0,0,0"),
        (6, "S,ext,1,0,0,2", "no,17,8,0,0,0,0,0"),
        (7, "S,ext,1,0,0,2", "no,13,8,0,0,0,0,4"),
        (8, "S,ext,1,0,0,2", "no,13,9,0,0,0,0,4"),
        (9, "S,ext,1,0,0,2", "no,13,10,0,0,0,0,4"),
        (10, "S,ext,1,0,0,2", "no,13,11,0,0,0,0,4"),
        (11, "S,ext,1,0,0,2", "no,17,13,0,0,0,0,0"),
        (5, "S,ext,1,0,0,1", "no,17,7,0,0,0,0,0"),
        (6, "S,ext,1,0,0,1", "no,13,7,0,0,0,0,3"),
        (8, "S,ext,1,0,0,1", "no,13,9,0,0,0,0,3"),
        (10, "S,ext,1,0,0,1", "no,13,11,0,0,0,0,3"),
        (11, "S,ext,1,0,0,1", "no,13,12,0,0,0,0,3"),
    ];
    stepped("", &file, &rows)
}

/// The second alternative of `rdm` holds w, the reference written, and waits.
fn beside_a_waiting_alternative() -> Vec<Case> {
    let file = [
        U,                // 1
        V,                // 2, w
        "T,rfv,3,0,0,0",  // 3, y
        HEAP,             // 4
        FIELD,            // 5, f
        "T,fnv,2,0,0,0",  // 6, g
        "T,wri,4,1,5,2",  // 7, wri(h,u,f,w)
        "T,rea,7,3,6,0",  // 8, rea(wri(h,u,f,w),y,g)
        "T,rea,4,3,6,0",  // 9, rea(h,y,g)
        R,                // 10
        "A,ne,10,10,0,0", // 1: r ne r
        "A,eq,10,10,0,0", // 2: r eq r
        "S,rdm,0,0,8,0",  // 13, 3: u eq y, 4: f eq g
    ];
    let (ref_w, close, ext) = ("S,ref,0,0,2,0", "S,cls,2,1,0,0", "S,ext,1,0,0,2");
    let rows: [(&str, &[&str], &str); 6] = [
        ("w waiting", &[ext], "no,17,15,0,0,0,0,0"),
        ("w waiting and at 5", &[ref_w, ext], "no,13,15,0,0,0,0,5"),
        // 3: term 8 eq term 9
        ("w at 3", &[close, ext], "no,13,15,0,0,0,0,3"),
        ("w at 3 and 4", &[close, ref_w, ext], "no,13,16,0,0,0,0,3"),
        // 5: w in r, 6: w ni r; then 5: w ni r, 6: w in r; then 3 as above
        ("w at 5 and 6", &[ext, close, ext], "no,13,16,0,0,0,0,5"),
        (
            "w at 3 again",
            &[ext, close, close, ext],
            "no,13,17,0,0,0,0,3",
        ),
    ];
    rows.into_iter()
        .map(|(what, steps, reply)| {
            case(
                &format!("places: rdm, {what}"),
                with_more(&file, steps),
                reply,
            )
        })
        .collect()
}

/// The place is one on the branch, also where a clause has w too.
fn in_clauses() -> Vec<Case> {
    let file = [
        U,              // 1
        V,              // 2, w
        R,              // 3
        S,              // 4
        "A,ne,3,3,0,0", // 1: r ne r
        "A,eq,3,3,0,0", // 2: r eq r
        "C,in,2,3,1,0", // 7, clause 1: w in r
        "C,in,1,4,1,0", // 8, or u in s
    ];
    let w_assumed: &[(usize, &str)] = &[(6, "A,eq,2,2,0,0")]; // 2: w eq w
    let w_second: &[(usize, &str)] = &[(7, "C,in,1,4,1,0"), (8, "C,in,2,3,1,0")];
    let (cla, close, ext) = ("S,cla,0,0,1,0", "S,cls,2,1,0,0", "S,ext,1,0,0,2");
    let (ref_u, ref_w) = ("S,ref,0,0,1,0", "S,ref,0,0,2,0");
    type Row<'a> = (&'a str, &'a [(usize, &'a str)], &'a [&'a str], &'static str);
    let rows: [Row; 15] = [
        ("not split", &[], &[ext], "no,13,9,0,0,0,0,0"),
        (
            "not split, a step",
            &[],
            &[ref_u, ext],
            "no,13,10,0,0,0,0,0",
        ),
        ("w assumed too", w_assumed, &[ext], "no,13,9,0,0,0,0,2"),
        // 3: w eq w
        ("w by ref too", &[], &[ref_w, ext], "no,13,10,0,0,0,0,3"),
        // 3: w in r
        ("split", &[], &[cla, ext], "no,13,10,0,0,0,0,3"),
        // 3: u eq u, 4: w in r
        ("split later", &[], &[ref_u, cla, ext], "no,13,11,0,0,0,0,4"),
        // 3: w in r, 4: w in r
        ("split twice", &[], &[cla, cla, ext], "no,13,11,0,0,0,0,3"),
        // 2: w eq w, 3: w in r
        (
            "assumed, split",
            w_assumed,
            &[cla, ext],
            "no,13,10,0,0,0,0,2",
        ),
        // 3: w eq w, 4: w in r
        (
            "by ref, split",
            &[],
            &[ref_w, cla, ext],
            "no,13,11,0,0,0,0,3",
        ),
        // 3: u in s
        ("closed", &[], &[cla, close, ext], "no,13,11,0,0,0,0,0"),
        // 3: u in s, 4: u eq u, 5: w eq w
        (
            "closed, w by ref",
            &[],
            &[cla, close, ref_u, ref_w, ext],
            "no,13,13,0,0,0,0,5",
        ),
        // 3: u in s, 4: w in r
        (
            "closed, split again",
            &[],
            &[cla, close, cla, ext],
            "no,13,12,0,0,0,0,4",
        ),
        // 3: u in s, and 3: w in r waits
        ("waiting", w_second, &[cla, ext], "no,13,10,0,0,0,0,0"),
        // 3: u in s, 4: w eq w
        (
            "waiting, w by ref",
            w_second,
            &[cla, ref_w, ext],
            "no,13,11,0,0,0,0,4",
        ),
        // 3: w in r
        (
            "no longer waiting",
            w_second,
            &[cla, close, ext],
            "no,13,11,0,0,0,0,3",
        ),
    ];
    rows.into_iter()
        .map(|(what, changes, steps, reply)| {
            let mut file = with_lines(&file, changes);
            file.extend(lines(steps));
            case(&format!("places: clause, {what}"), file, reply)
        })
        .collect()
}

/// Place 1 is t eq t for the term t that is taken as w. The steps are on line
/// 20.
fn no_rfv() -> Vec<Case> {
    let terms = [
        U,               // 1
        R,               // 2
        HEAP,            // 3
        FIELD,           // 4
        "T,img,3,2,4,0", // 5, img(h,r,f)
        V,               // 6
        NUL,             // 7
        "T,rea,3,6,4,0", // 8, rea(h,v,f)
        EMP,             // 9
        ALL,             // 10
        "T,cup,2,2,0,0", // 11
        "T,sin,6,0,0,0", // 12, sin(v)
        "T,wri,3,6,4,6", // 13, wri(h,v,f,v)
        "T,clv,1,0,0,0", // 14
        "T,typ,6,0,0,0", // 15, typ(v)
        "T,dty,4,0,0,0", // 16
    ];
    let with = |term: usize, rule: &str, reply| {
        let first = format!("A,eq,{term},{term},0,0");
        let step = format!("S,{rule},0,0,{term}");
        let rest = ["A,ne,2,2,0,0", "A,in,1,5,0,0", &step]; // 2: r ne r, 3: u in img(h,r,f)
        let file = [&terms[..], &[&first], &rest].concat();
        case(&format!("places: no rfv, {step}"), lines(&file), reply)
    };
    let mut cases = Vec::new();
    for rule in ["ext,2", "wit,3"] {
        for term in [2, 3, 4, 5, 7, 8, 9, 10, 11, 12, 13, 14, 15, 16] {
            cases.push(with(term, rule, "no,13,20,0,0,0,0,0"));
        }
        // u and v are rfv.
        cases.push(with(1, rule, "no,13,20,0,0,0,0,1"));
        cases.push(with(6, rule, "no,13,20,0,0,0,0,1"));
    }
    cases
}

/// The place is 0 where a check before 13 is broken; 13 comes before 14.
fn other_numbers() -> Vec<Case> {
    let rest = [
        "T,rfv,3,0,0,0", // 7, z: fresh
        "A,ne,3,3,0,0",  // 1: r ne r
        "A,in,1,6,0,0",  // 2: u in img(h,r,f)
        "A,eq,2,2,0,0",  // 3: w eq w
    ];
    // And no typ(w), dty(f), rea(h,w,f).
    let file = [&WITNESS_TERMS[..6], &rest].concat();
    let rows = [
        ("S,ext,1,0,0,02", "no,2,11,0,0,0,0,0"),
        ("T,typ,2,0,0,0", "no,3,11,0,0,0,0,0"),
        ("S,fir,1,0,0,2", "no,4,11,0,0,0,0,0"),
        ("S,ext,1,1,0,2", "no,6,11,0,0,0,0,0"),
        ("S,ext,1,0,1,2", "no,6,11,0,0,0,0,0"),
        ("S,wit,2,1,0,2", "no,6,11,0,0,0,0,0"),
        ("S,wit,2,0,1,2", "no,6,11,0,0,0,0,0"),
        ("S,ext,1,0,0,0", "no,8,11,0,0,0,0,0"),
        ("S,ext,1,0,0,8", "no,8,11,0,0,0,0,0"),
        ("S,wit,2,0,0,8", "no,8,11,0,0,0,0,0"),
        ("S,wit,2,0,0,9999", "no,8,11,0,0,0,0,0"),
        ("S,ext,0,0,0,2", "no,11,11,0,0,0,0,0"),
        ("S,ext,4,0,0,2", "no,11,11,0,0,0,0,0"),
        ("S,wit,0,0,0,2", "no,11,11,0,0,0,0,0"),
        ("S,wit,4,0,0,2", "no,11,11,0,0,0,0,0"),
        ("S,ext,2,0,0,2", "no,12,11,0,0,0,0,0"), // p is in
        ("S,ext,3,0,0,2", "no,12,11,0,0,0,0,0"), // p is eq
        ("S,wit,1,0,0,2", "no,12,11,0,0,0,0,0"), // p is ne
        ("S,wit,3,0,0,2", "no,12,11,0,0,0,0,0"), // p is eq
        ("S,ext,1,0,0,2", "no,13,11,0,0,0,0,3"),
        ("S,ext,1,0,0,1", "no,13,11,0,0,0,0,2"),
        ("S,wit,2,0,0,2", "no,13,11,0,0,0,0,3"), // and 14
        ("S,wit,2,0,0,1", "no,13,11,0,0,0,0,2"), // and 14
        ("S,wit,2,0,0,7", "no,14,11,0,0,0,0,0"),
        ("S,ext,1,0,0,7", "no,17,12,0,0,0,0,0"),
    ];
    let mut cases: Vec<Case> = rows
        .into_iter()
        .map(|(line, reply)| {
            let name = format!("places: beside w eq w, {line}");
            case(&name, with_more(&file, &[line]), reply)
        })
        .collect();
    // 5: 4: r eq r against 1, and then w again.
    let closed = ["S,ref,0,0,3,0", "S,cls,4,1,0,0", "S,ext,1,0,0,2"];
    cases.push(case(
        "places: after the last closing",
        with_more(&file, &closed),
        "no,5,13,0,0,0,0,0",
    ));
    cases
}

/// Two witnesses, each brought in by `ext`.
fn used_again_by_ext() -> Vec<Case> {
    let file = [
        U,               // 1, w
        V,               // 2, z
        R,               // 3
        "A,ne,3,3,0,0",  // 1: r ne r
        "S,ext,1,0,0,1", // 5, 2: w in r, 3: w ni r
        "S,ext,1,0,0,2", // 6, 4: z in r, 5: z ni r
        "S,cls,2,3,0,0", // 7, 4: z ni r, 5: z in r
        "S,cls,2,3,0,0", // 8, 2: w ni r, 3: w in r
        "S,ext,1,0,0,2", // 9, 4: z in r, 5: z ni r
        "S,cls,3,2,0,0", // 10, 4: z ni r, 5: z in r
        "S,cls,3,2,0,0", // 11
    ];
    let rows = [
        (5, "S,ext,1,0,0,1", "no,13,6,0,0,0,0,2"),
        (6, "S,ext,1,0,0,1", "no,13,7,0,0,0,0,2"),
        (6, "S,ext,1,0,0,2", "no,13,7,0,0,0,0,4"),
        (7, "S,ext,1,0,0,1", "no,13,8,0,0,0,0,2"),
        (7, "S,ext,1,0,0,2", "no,13,8,0,0,0,0,4"),
        (8, "S,ext,1,0,0,1", "no,13,9,0,0,0,0,2"),
        (8, "S,ext,1,0,0,2", "no,17,10,0,0,0,0,0"), // z is fresh again
        (9, "S,ext,1,0,0,1", "no,13,10,0,0,0,0,2"),
        (9, "S,ext,1,0,0,2", "no,13,10,0,0,0,0,4"),
        (11, "S,ext,1,0,0,1", "no,5,12,0,0,0,0,0"),
    ];
    let mut cases = vec![case(
        "places: two witnesses",
        lines(&file),
        "yes,0,0,3,1,7,4,0",
    )];
    cases.extend(stepped("two witnesses, ", &file, &rows));
    cases
}

/// `wit` brings in w at three places; then `wit` or `ext` with it again.
fn used_again_by_wit() -> Vec<Case> {
    let file = [
        U,                // 1
        V,                // 2, w
        "T,rfv,3,0,0,0",  // 3, z
        R,                // 4
        HEAP,             // 5
        FIELD,            // 6
        "T,img,5,4,6,0",  // 7, img(h,r,f)
        "T,typ,2,0,0,0",  // 8, typ(w)
        "T,dty,6,0,0,0",  // 9, dty(f)
        "T,rea,5,2,6,0",  // 10, rea(h,w,f)
        "T,typ,3,0,0,0",  // 11, typ(z)
        "T,rea,5,3,6,0",  // 12, rea(h,z,f)
        "A,ne,4,4,0,0",   // 13, 1: r ne r
        "A,in,1,7,0,0",   // 14, 2: u in img(h,r,f)
        "A,le,11,9,0,0",  // 15, 3: typ(z) le dty(f)
        "S,wit,2,0,0,2",  // 16, 4: w in r, 5: typ(w) le dty(f), 6: rea(h,w,f) eq u
        "S,ref,0,0,12,0", // 17, 7: rea(h,z,f) eq rea(h,z,f)
    ];
    let (typ_w, rea_w) = ("A,eq,8,9,0,0", "A,in,10,4,0,0");
    let rows: [(&str, &[(usize, &str)], &str, &str); 11] = [
        ("w", &[], "S,wit,2,0,0,2", "no,13,18,0,0,0,0,4"),
        ("w by ext", &[], "S,ext,1,0,0,2", "no,13,18,0,0,0,0,4"),
        ("u", &[], "S,wit,2,0,0,1", "no,13,18,0,0,0,0,2"),
        ("u by ext", &[], "S,ext,1,0,0,1", "no,13,18,0,0,0,0,2"),
        // 3: typ(z) le dty(f) comes before place 7.
        ("z", &[], "S,wit,2,0,0,3", "no,13,18,0,0,0,0,3"),
        ("z by ext", &[], "S,ext,1,0,0,3", "no,13,18,0,0,0,0,3"),
        // The first `wit`, on line 16, is refused.
        (
            "typ(w)",
            &[(15, typ_w)],
            "S,wit,2,0,0,2",
            "no,13,16,0,0,0,0,3",
        ),
        (
            "rea(h,w,f)",
            &[(15, rea_w)],
            "S,wit,2,0,0,2",
            "no,13,16,0,0,0,0,3",
        ),
        // 4: w in r, 5: w ni r, by `ext`; then `wit` on line 17.
        (
            "ext first",
            &[(16, "S,ext,1,0,0,2"), (17, "S,wit,2,0,0,2")],
            "S,ref,0,0,1,0",
            "no,13,17,0,0,0,0,4",
        ),
        // 3: u eq u; then z is at 7 alone.
        (
            "z at 7",
            &[(15, "A,eq,1,1,0,0")],
            "S,wit,2,0,0,3",
            "no,13,18,0,0,0,0,7",
        ),
        // z in no literal: 7: rea(h,w,f) eq rea(h,w,f)
        (
            "z fresh",
            &[(15, "A,eq,1,1,0,0"), (17, "S,ref,0,0,10,0")],
            "S,wit,2,0,0,3",
            "no,17,19,0,0,0,0,0",
        ),
    ];
    rows.into_iter()
        .map(|(what, changes, step, reply)| {
            let mut file = with_lines(&file, changes);
            file.extend(lines(&[step]));
            case(&format!("places: wit, {what} again"), file, reply)
        })
        .collect()
}

const NE: &str = "A,ne,3,3,0,0";
const EQ: &str = "A,eq,3,3,0,0";
const U_ALONE: &str = "A,eq,1,1,0,0";
const W_ALONE: &str = "A,eq,2,2,0,0";
const W_INSIDE: &str = "A,eq,4,4,0,0";

/// u, w, r, sin(w), and then these lines: place p is line 4 + p.
fn filled(parts: &[(usize, &str)]) -> Vec<u8> {
    let terms = [(1, U), (1, V), (1, R), (1, "T,sin,2,0,0,0")];
    runs(&[&terms[..], parts].concat())
}

/// 1,000 A lines, so that a fresh w gets 15. The step is on line 1,005.
fn on_1000_places() -> Vec<Case> {
    let rows: [(&str, &[(usize, &str)], &str); 10] = [
        (
            "no place",
            &[(1, NE), (999, U_ALONE)],
            "no,15,1005,0,0,0,0,0",
        ),
        (
            "2",
            &[(1, NE), (1, W_ALONE), (998, U_ALONE)],
            "no,13,1005,0,0,0,0,2",
        ),
        (
            "500",
            &[(1, NE), (498, U_ALONE), (1, W_ALONE), (500, U_ALONE)],
            "no,13,1005,0,0,0,0,500",
        ),
        (
            "999",
            &[(1, NE), (997, U_ALONE), (1, W_ALONE), (1, U_ALONE)],
            "no,13,1005,0,0,0,0,999",
        ),
        (
            "1,000",
            &[(1, NE), (998, U_ALONE), (1, W_ALONE)],
            "no,13,1005,0,0,0,0,1000",
        ),
        (
            "500 and 1,000",
            &[
                (1, NE),
                (498, U_ALONE),
                (1, W_ALONE),
                (499, U_ALONE),
                (1, W_ALONE),
            ],
            "no,13,1005,0,0,0,0,500",
        ),
        (
            "500 inside sin(w), and 501",
            &[
                (1, NE),
                (498, U_ALONE),
                (1, W_INSIDE),
                (1, W_ALONE),
                (499, U_ALONE),
            ],
            "no,13,1005,0,0,0,0,500",
        ),
        (
            "1,000 inside sin(w)",
            &[(1, NE), (998, U_ALONE), (1, W_INSIDE)],
            "no,13,1005,0,0,0,0,1000",
        ),
        (
            "2 to 1,000",
            &[(1, NE), (999, W_ALONE)],
            "no,13,1005,0,0,0,0,2",
        ),
        (
            "257 to 1,000",
            &[(1, NE), (255, U_ALONE), (744, W_ALONE)],
            "no,13,1005,0,0,0,0,257",
        ),
    ];
    let mut cases: Vec<Case> = rows
        .into_iter()
        .map(|(what, places, reply)| {
            let file = filled(&[places, &[(1, "S,ext,1,0,0,2")]].concat());
            case(&format!("places: of 1,000, {what}"), file, reply)
        })
        .collect();
    // Place 1 mentions w, and r ne r is place 1,000.
    cases.push(case(
        "places: of 1,000, 1",
        filled(&[
            (1, W_ALONE),
            (998, U_ALONE),
            (1, NE),
            (1, "S,ext,1000,0,0,2"),
        ]),
        "no,13,1005,0,0,0,0,1",
    ));
    cases
}

/// r ne r is place 1, and `ref` steps take the others.
fn on_1000_places_of_steps() -> Vec<Case> {
    let (ref_u, ref_w) = ("S,ref,0,0,1,0", "S,ref,0,0,2,0");
    let rows: [(&str, &[(usize, &str)], &str); 4] = [
        ("no place", &[(999, ref_u)], "no,15,1005,0,0,0,0,0"),
        ("2", &[(1, ref_w), (998, ref_u)], "no,13,1005,0,0,0,0,2"),
        (
            "500",
            &[(498, ref_u), (1, ref_w), (500, ref_u)],
            "no,13,1005,0,0,0,0,500",
        ),
        (
            "1,000",
            &[(998, ref_u), (1, ref_w)],
            "no,13,1005,0,0,0,0,1000",
        ),
    ];
    rows.into_iter()
        .map(|(what, steps, reply)| {
            let file = filled(&[&[(1, NE)], steps, &[(1, "S,ext,1,0,0,2")]].concat());
            case(&format!("places: of 1,000 by steps, {what}"), file, reply)
        })
        .collect()
}

/// The first alternative has w at place 4 and 1,000 places; the second has its
/// own. Lines: 4 T, 2 A, the cut, 997 steps, the closing: 1,005.
fn on_1000_places_after_a_closing() -> Vec<Case> {
    let (ref_u, ref_w) = ("S,ref,0,0,1,0", "S,ref,0,0,2,0");
    let first: &[(usize, &str)] = &[
        (1, NE),              // 1: r ne r
        (1, EQ),              // 2: r eq r
        (1, "S,cut,0,0,1,3"), // 3: u in r
        (1, ref_w),           // 4: w eq w
        (996, ref_u),         // 5 to 1,000
        (1, "S,cls,2,1,0,0"), // 3: u ni r
    ];
    let rows: [(&str, &[(usize, &str)], &str); 4] = [
        // 4: w in r, 5: w ni r
        ("fresh", &[], "no,17,1007,0,0,0,0,0"),
        ("full, fresh", &[(997, ref_u)], "no,15,2003,0,0,0,0,0"),
        (
            "1,000",
            &[(996, ref_u), (1, ref_w)],
            "no,13,2003,0,0,0,0,1000",
        ),
        ("600", &[(596, ref_u), (1, ref_w)], "no,13,1603,0,0,0,0,600"),
    ];
    rows.into_iter()
        .map(|(what, second, reply)| {
            let file = filled(&[first, second, &[(1, "S,ext,1,0,0,2")]].concat());
            case(&format!("places: after 1,000 closed, {what}"), file, reply)
        })
        .collect()
}

/// 200 cuts wait, so that a fresh w gets 16, and on 1,000 places 15.
fn with_200_waiting() -> Vec<Case> {
    let rows: [(&str, &[(usize, &str)], &str); 4] = [
        // 1: r ne r, 2 to 201: u in r
        (
            "fresh",
            &[(1, NE), (200, "S,cut,0,0,1,3")],
            "no,16,206,0,0,0,0,0",
        ),
        // 1: r ne r, 2 to 200: u in r, 201: w in r
        (
            "201",
            &[(1, NE), (199, "S,cut,0,0,1,3"), (1, "S,cut,0,0,2,3")],
            "no,13,206,0,0,0,0,201",
        ),
        // 1: r ne r, 2 to 800: u eq u, 801 to 1,000: u in r
        (
            "full, fresh",
            &[(1, NE), (799, U_ALONE), (200, "S,cut,0,0,1,3")],
            "no,15,1005,0,0,0,0,0",
        ),
        // 801 to 999: u in r, 1,000: u in sin(w)
        (
            "full, 1,000",
            &[
                (1, NE),
                (799, U_ALONE),
                (199, "S,cut,0,0,1,3"),
                (1, "S,cut,0,0,1,4"),
            ],
            "no,13,1005,0,0,0,0,1000",
        ),
    ];
    rows.into_iter()
        .map(|(what, lines, reply)| {
            let file = filled(&[lines, &[(1, "S,ext,1,0,0,2")]].concat());
            case(&format!("places: 200 waiting, {what}"), file, reply)
        })
        .collect()
}
