//! For each rule an accepted file that closes by what the rule adds.

use super::{case, lines, with_line, with_lines, Case, ALL, EMP, FIELD, HEAP, NUL, R, S, U, V};

const C: &str = "T,clv,1,0,0,0";
const D: &str = "T,clv,2,0,0,0";
const E: &str = "T,clv,3,0,0,0";
const Y: &str = "T,rfv,3,0,0,0";

pub fn cases() -> Vec<Case> {
    let groups = [
        regions(),
        operators(),
        members(),
        images(),
        equalities(),
        sub_at_every_argument(),
        rep_in_every_literal(),
        classes(),
        writes(),
        closings(),
        one_place_twice(),
        finite(),
        finite_for_every_region(),
    ];
    groups.into_iter().flatten().collect()
}

fn regions() -> Vec<Case> {
    let eqr = [
        U,
        R,
        S,
        "A,eq,2,3,0,0",  // 1: r eq s
        "A,in,1,2,0,0",  // 2: u in r
        "A,ni,1,3,0,0",  // 3: u ni s
        "S,eqr,1,2,0,0", // 4: u in s
        "S,cls,4,3,0,0",
    ];
    // Both sides are the same region: each alternative denies itself.
    let ext_same = [
        U,
        R,
        "A,ne,2,2,0,0",  // 1: r ne r
        "S,ext,1,0,0,1", // 2: w in r, 3: w ni r
        "S,cls,2,3,0,0", // 2: w ni r, 3: w in r
        "S,cls,3,2,0,0",
    ];
    let ext_caps = [
        U,
        R,
        S,
        "T,cap,2,3,0,0", // 4
        "T,cap,3,2,0,0", // 5
        "A,ne,4,5,0,0",  // 1: cap(r,s) ne cap(s,r)
        "S,ext,1,0,0,1", // 2: w in cap(r,s), 3: w ni cap(s,r)
        "S,cpe,2,0,0,0", // 4: w in r, 5: w in s
        "S,cpi,5,4,5,0", // 6: w in cap(s,r)
        "S,cls,6,3,0,0", // 2: w ni cap(r,s), 3: w in cap(s,r)
        "S,cpe,3,0,0,0", // 4: w in s, 5: w in r
        "S,cpi,5,4,4,0", // 6: w in cap(r,s)
        "S,cls,6,2,0,0",
    ];
    let eql = [
        (5, "A,in,1,3,0,0"),  // 2: u in s
        (6, "A,ni,1,2,0,0"),  // 3: u ni r
        (7, "S,eql,1,2,0,0"), // 4: u in r
    ];
    vec![
        case("accept: eqr", lines(&eqr), "yes,0,0,3,3,2,1,0"),
        case("accept: eql", with_lines(&eqr, &eql), "yes,0,0,3,3,2,1,0"),
        case(
            "accept: ext, one region",
            lines(&ext_same),
            "yes,0,0,2,1,3,2,0",
        ),
        case(
            "accept: ext, cap changed over",
            lines(&ext_caps),
            "yes,0,0,5,1,7,2,0",
        ),
    ]
}

fn operators() -> Vec<Case> {
    // Both added literals are used: r and dif(s,r) share nothing.
    let cpe = [
        U,
        R,
        S,
        "T,dif,3,2,0,0", // 4
        "T,cap,2,4,0,0", // 5
        "A,in,1,5,0,0",  // 1: u in cap(r,dif(s,r))
        "S,cpe,1,0,0,0", // 2: u in r, 3: u in dif(s,r)
        "S,dfe,3,0,0,0", // 4: u in s, 5: u ni r
        "S,cls,2,5,0,0",
    ];
    let cpi = [
        U,
        R,
        S,
        "T,cap,2,3,0,0", // 4
        "A,in,1,2,0,0",  // 1: u in r
        "A,in,1,3,0,0",  // 2: u in s
        "A,ni,1,4,0,0",  // 3: u ni cap(r,s)
        "S,cpi,1,2,4,0", // 4: u in cap(r,s)
        "S,cls,4,3,0,0",
    ];
    let cue = [
        U,
        EMP,
        "T,cup,2,2,0,0", // 3
        "A,in,1,3,0,0",  // 1: u in cup(emp,emp)
        "S,cue,1,0,0,0", // 2: u in emp
        "S,emp,2,0,0,0", // 2: u in emp
        "S,emp,2,0,0,0",
    ];
    let cui = [
        U,
        R,
        S,
        "T,cup,2,3,0,0", // 4
        "A,in,1,2,0,0",  // 1: u in r
        "A,ni,1,4,0,0",  // 2: u ni cup(r,s)
        "S,cui,1,0,4,0", // 3: u in cup(r,s)
        "S,cls,3,2,0,0",
    ];
    let dfe = [
        U,
        R,
        "T,dif,2,2,0,0", // 3
        "A,in,1,3,0,0",  // 1: u in dif(r,r)
        "S,dfe,1,0,0,0", // 2: u in r, 3: u ni r
        "S,cls,2,3,0,0",
    ];
    let dfi = [
        (4, "T,dif,2,3,0,0"),
        (6, "A,ni,1,3,0,0"),  // 2: u ni s
        (8, "S,dfi,1,2,4,0"), // 4: u in dif(r,s)
    ];
    vec![
        case("accept: cpe", lines(&cpe), "yes,0,0,5,1,3,1,0"),
        case("accept: cpi", lines(&cpi), "yes,0,0,4,3,2,1,0"),
        case("accept: cue", lines(&cue), "yes,0,0,3,1,3,2,0"),
        case("accept: cui, left", lines(&cui), "yes,0,0,4,2,2,1,0"),
        case(
            "accept: cui, right",
            with_line(&cui, 5, "A,in,1,3,0,0"),
            "yes,0,0,4,2,2,1,0",
        ),
        case("accept: dfe", lines(&dfe), "yes,0,0,3,1,2,1,0"),
        case("accept: dfi", with_lines(&cpi, &dfi), "yes,0,0,4,3,2,1,0"),
    ]
}

fn members() -> Vec<Case> {
    let sge = [
        U,
        V,
        "T,sin,2,0,0,0", // 3
        "A,in,1,3,0,0",  // 1: u in sin(v)
        "A,ne,1,2,0,0",  // 2: u ne v
        "S,sge,1,0,0,0", // 3: u eq v
        "S,cls,3,2,0,0",
    ];
    let sgi = [
        U,
        ALL,
        "T,sin,1,0,0,0", // 3
        "A,in,1,2,0,0",  // 1: u in all
        "A,ni,1,3,0,0",  // 2: u ni sin(u)
        "S,sgi,0,0,3,0", // 3: u ni all
        "S,cls,1,3,0,0", // 3: u in sin(u)
        "S,cls,3,2,0,0",
    ];
    // u is in s, so it is in cap(r,s) or in dif(s,r).
    let cut = [
        U,
        R,
        S,
        "T,cap,2,3,0,0", // 4
        "T,dif,3,2,0,0", // 5
        "A,in,1,3,0,0",  // 1: u in s
        "A,ni,1,4,0,0",  // 2: u ni cap(r,s)
        "A,ni,1,5,0,0",  // 3: u ni dif(s,r)
        "S,cut,0,0,1,2", // 4: u in r
        "S,cpi,4,1,4,0", // 5: u in cap(r,s)
        "S,cls,5,2,0,0", // 4: u ni r
        "S,dfi,1,4,5,0", // 5: u in dif(s,r)
        "S,cls,5,3,0,0",
    ];
    let all = [
        U,
        R,
        ALL,
        "A,in,1,2,0,0",  // 1: u in r
        "A,ni,1,3,0,0",  // 2: u ni all
        "S,all,1,0,0,0", // 3: u in all
        "S,cls,3,2,0,0",
    ];
    let nul = [
        U,
        R,
        NUL,
        "A,in,1,2,0,0",  // 1: u in r
        "A,eq,1,3,0,0",  // 2: u eq nul
        "S,nul,1,0,0,0", // 3: u ne nul
        "S,cls,2,3,0,0",
    ];
    let sep = [
        U,
        V,
        R,               // 3
        "A,in,1,3,0,0",  // 1: u in r
        "A,ni,2,3,0,0",  // 2: v ni r
        "A,eq,1,2,0,0",  // 3: u eq v
        "S,sep,1,2,0,0", // 4: u ne v
        "S,cls,3,4,0,0",
    ];
    let emp = [U, EMP, "A,in,1,2,0,0", "S,emp,1,0,0,0"];
    vec![
        case("accept: sge", lines(&sge), "yes,0,0,3,2,2,1,0"),
        case("accept: sgi", lines(&sgi), "yes,0,0,3,2,3,2,0"),
        case("accept: cut", lines(&cut), "yes,0,0,5,3,5,2,0"),
        case("accept: all", lines(&all), "yes,0,0,3,2,2,1,0"),
        case("accept: nul", lines(&nul), "yes,0,0,3,2,2,1,0"),
        case("accept: sep", lines(&sep), "yes,0,0,3,3,2,1,0"),
        case("accept: emp", lines(&emp), "yes,0,0,2,1,1,1,0"),
    ]
}

/// One assumption for each alternative of `img`.
pub const IMG: [&str; 17] = [
    U,
    R,
    HEAP,            // 3
    FIELD,           // 4
    "T,img,3,2,4,0", // 5
    "T,typ,1,0,0,0", // 6
    "T,dty,4,0,0,0", // 7
    "T,rea,3,1,4,0", // 8
    ALL,             // 9
    "A,in,1,2,0,0",  // 1: u in r
    "A,le,6,7,0,0",  // 2: typ(u) le dty(f)
    "A,in,8,9,0,0",  // 3: rea(h,u,f) in all
    "A,ni,8,5,0,0",  // 4: rea(h,u,f) ni img(h,r,f)
    "S,img,1,0,5,0", // 5: typ(u) nl dty(f)
    "S,cls,2,5,0,0", // 5: rea(h,u,f) ni all
    "S,cls,3,5,0,0", // 5: rea(h,u,f) in img(h,r,f)
    "S,cls,5,4,0,0",
];

fn images() -> Vec<Case> {
    // u comes from some w in r, and r eq s, so u is in img(h,s,f) too. Each of
    // the three literals of `wit` is used.
    let wit = [
        U,
        V,                // 2, w
        R,                // 3
        S,                // 4
        HEAP,             // 5
        FIELD,            // 6
        "T,img,5,3,6,0",  // 7, img(h,r,f)
        "T,img,5,4,6,0",  // 8, img(h,s,f)
        "T,typ,2,0,0,0",  // 9
        "T,dty,6,0,0,0",  // 10
        "T,rea,5,2,6,0",  // 11
        ALL,              // 12
        "A,in,1,7,0,0",   // 1: u in img(h,r,f)
        "A,in,1,12,0,0",  // 2: u in all
        "A,ni,1,8,0,0",   // 3: u ni img(h,s,f)
        "A,eq,3,4,0,0",   // 4: r eq s
        "S,wit,1,0,0,2",  // 5: w in r, 6: typ(w) le dty(f), 7: rea(h,w,f) eq u
        "S,eqr,4,5,0,0",  // 8: w in s
        "S,img,8,0,8,0",  // 9: typ(w) nl dty(f)
        "S,cls,6,9,0,0",  // 9: rea(h,w,f) ni all
        "S,rep,9,7,1,0",  // 10: u ni all
        "S,cls,2,10,0,0", // 9: rea(h,w,f) in img(h,s,f)
        "S,rep,9,7,1,0",  // 10: u in img(h,s,f)
        "S,cls,10,3,0,0",
    ];
    vec![
        case("accept: img", lines(&IMG), "yes,0,0,9,4,4,3,0"),
        case("accept: wit", lines(&wit), "yes,0,0,12,4,8,3,0"),
    ]
}

fn equalities() -> Vec<Case> {
    let ref_ = [
        U,
        "A,ne,1,1,0,0",  // 1: u ne u
        "S,ref,0,0,1,0", // 2: u eq u
        "S,cls,2,1,0,0",
    ];
    let sym = [
        U,
        V,
        "A,eq,1,2,0,0",  // 1: u eq v
        "A,ne,2,1,0,0",  // 2: v ne u
        "S,sym,1,0,0,0", // 3: v eq u
        "S,cls,3,2,0,0",
    ];
    let sym_ne = [
        (3, "A,ne,1,2,0,0"),  // 1: u ne v
        (4, "A,eq,2,1,0,0"),  // 2: v eq u
        (6, "S,cls,2,3,0,0"), // on 3: v ne u
    ];
    let trn = [
        U,
        V,
        Y,
        "A,eq,1,2,0,0",  // 1: u eq v
        "A,eq,2,3,0,0",  // 2: v eq y
        "A,ne,1,3,0,0",  // 3: u ne y
        "S,trn,1,2,0,0", // 4: u eq y
        "S,cls,4,3,0,0",
    ];
    vec![
        case("accept: ref", lines(&ref_), "yes,0,0,1,1,2,1,0"),
        case("accept: sym of eq", lines(&sym), "yes,0,0,2,2,2,1,0"),
        case(
            "accept: sym of ne",
            with_lines(&sym, &sym_ne),
            "yes,0,0,2,2,2,1,0",
        ),
        case("accept: trn", lines(&trn), "yes,0,0,3,3,2,1,0"),
    ]
}

/// Terms 9 and 10 differ at one argument or two, by the sides of place 1. With
/// the sides of place 1 changed over, term 9 has b and term 10 has a: refused.
fn sub_at_every_argument() -> Vec<Case> {
    let base = [
        U,
        V,                // 2
        R,                // 3
        S,                // 4
        HEAP,             // 5
        "T,arv,2,0,0,0",  // 6
        FIELD,            // 7
        "T,fnv,2,0,0,0",  // 8
        "T,typ,1,0,0,0",  // 9
        "T,typ,2,0,0,0",  // 10
        "A,eq,1,2,0,0",   // 1
        "A,ne,9,10,0,0",  // 2
        "S,sub,1,0,9,10", // 3: term 9 eq term 10
        "S,cls,3,2,0,0",
    ];
    // Term 9, term 10, place 1, and place 1 changed over.
    let (refs, back_refs) = ("A,eq,1,2,0,0", "A,eq,2,1,0,0");
    let (regions, back_regions) = ("A,eq,3,4,0,0", "A,eq,4,3,0,0");
    let (heaps, back_heaps) = ("A,eq,5,6,0,0", "A,eq,6,5,0,0");
    let (fields, back_fields) = ("A,eq,7,8,0,0", "A,eq,8,7,0,0");
    let rows = [
        ("T,typ,1,0,0,0", "T,typ,2,0,0,0", refs, back_refs),
        ("T,sin,1,0,0,0", "T,sin,2,0,0,0", refs, back_refs),
        ("T,dty,7,0,0,0", "T,dty,8,0,0,0", fields, back_fields),
        ("T,cup,3,3,0,0", "T,cup,4,3,0,0", regions, back_regions),
        ("T,cup,3,3,0,0", "T,cup,3,4,0,0", regions, back_regions),
        ("T,cup,3,3,0,0", "T,cup,4,4,0,0", regions, back_regions),
        ("T,cap,3,3,0,0", "T,cap,4,3,0,0", regions, back_regions),
        ("T,cap,3,3,0,0", "T,cap,3,4,0,0", regions, back_regions),
        ("T,cap,3,3,0,0", "T,cap,4,4,0,0", regions, back_regions),
        ("T,dif,3,3,0,0", "T,dif,4,3,0,0", regions, back_regions),
        ("T,dif,3,3,0,0", "T,dif,3,4,0,0", regions, back_regions),
        ("T,dif,3,3,0,0", "T,dif,4,4,0,0", regions, back_regions),
        ("T,rea,5,1,7,0", "T,rea,6,1,7,0", heaps, back_heaps),
        ("T,rea,5,1,7,0", "T,rea,5,2,7,0", refs, back_refs),
        ("T,rea,5,1,7,0", "T,rea,5,1,8,0", fields, back_fields),
        ("T,img,5,3,7,0", "T,img,6,3,7,0", heaps, back_heaps),
        ("T,img,5,3,7,0", "T,img,5,4,7,0", regions, back_regions),
        ("T,img,5,3,7,0", "T,img,5,3,8,0", fields, back_fields),
        ("T,wri,5,1,7,1", "T,wri,6,1,7,1", heaps, back_heaps),
        ("T,wri,5,1,7,1", "T,wri,5,2,7,1", refs, back_refs),
        ("T,wri,5,1,7,1", "T,wri,5,1,8,1", fields, back_fields),
        ("T,wri,5,1,7,1", "T,wri,5,1,7,2", refs, back_refs),
        ("T,wri,5,1,7,1", "T,wri,5,2,7,2", refs, back_refs),
    ];
    let mut cases = Vec::new();
    for (t, w, eq, back) in rows {
        let changed = |eq| with_lines(&base, &[(9, t), (10, w), (11, eq)]);
        cases.push(case(
            &format!("accept: sub from {t} to {w}"),
            changed(eq),
            "yes,0,0,10,2,2,1,0",
        ));
        cases.push(case(
            &format!("refuse: sub from {t} to {w}, sides changed over"),
            changed(back),
            "no,12,13,0,0,0,0,0",
        ));
    }
    cases
}

/// Each relation at its left and at its right side. Step and closing follow.
fn rep_in_every_literal() -> Vec<Case> {
    let (left, right) = ("S,rep,1,2,1,0", "S,rep,1,2,2,0");
    // Place 4 is the new literal: it stands first if it is in, eq or le.
    let (new_first, new_last) = ("S,cls,4,3,0,0", "S,cls,3,4,0,0");
    let rows = [
        (
            "A,in,1,3,0,0",
            "A,eq,1,2,0,0",
            "A,ni,2,3,0,0",
            left,
            new_first,
        ),
        (
            "A,in,1,3,0,0",
            "A,eq,3,4,0,0",
            "A,ni,1,4,0,0",
            right,
            new_first,
        ),
        (
            "A,ni,1,3,0,0",
            "A,eq,1,2,0,0",
            "A,in,2,3,0,0",
            left,
            new_last,
        ),
        (
            "A,ni,1,3,0,0",
            "A,eq,3,4,0,0",
            "A,in,1,4,0,0",
            right,
            new_last,
        ),
        (
            "A,eq,5,6,0,0",
            "A,eq,5,7,0,0",
            "A,ne,7,6,0,0",
            left,
            new_first,
        ),
        (
            "A,eq,5,6,0,0",
            "A,eq,6,7,0,0",
            "A,ne,5,7,0,0",
            right,
            new_first,
        ),
        (
            "A,ne,5,6,0,0",
            "A,eq,5,7,0,0",
            "A,eq,7,6,0,0",
            left,
            new_last,
        ),
        (
            "A,ne,5,6,0,0",
            "A,eq,6,7,0,0",
            "A,eq,5,7,0,0",
            right,
            new_last,
        ),
        (
            "A,le,5,6,0,0",
            "A,eq,5,7,0,0",
            "A,nl,7,6,0,0",
            left,
            new_first,
        ),
        (
            "A,le,5,6,0,0",
            "A,eq,6,7,0,0",
            "A,nl,5,7,0,0",
            right,
            new_first,
        ),
        (
            "A,nl,5,6,0,0",
            "A,eq,5,7,0,0",
            "A,le,7,6,0,0",
            left,
            new_last,
        ),
        (
            "A,nl,5,6,0,0",
            "A,eq,6,7,0,0",
            "A,le,5,7,0,0",
            right,
            new_last,
        ),
    ];
    let mut cases = Vec::new();
    for (p, q, denial, step, closing) in rows {
        cases.push(case(
            &format!("accept: {step} on {p} by {q}"),
            lines(&[U, V, R, S, C, D, E, p, q, denial, step, closing]),
            "yes,0,0,7,3,2,1,0",
        ));
    }
    cases
}

fn classes() -> Vec<Case> {
    let ler = [
        C,
        "A,nl,1,1,0,0",  // 1: c nl c
        "S,ler,0,0,1,0", // 2: c le c
        "S,cls,2,1,0,0",
    ];
    let let_ = [
        C,
        D,
        E,
        "A,le,1,2,0,0",  // 1: c le d
        "A,le,2,3,0,0",  // 2: d le e
        "A,nl,1,3,0,0",  // 3: c nl e
        "S,let,1,2,0,0", // 4: c le e
        "S,cls,4,3,0,0",
    ];
    let lea = [
        C,
        D,
        "A,le,1,2,0,0",  // 1: c le d
        "A,le,2,1,0,0",  // 2: d le c
        "A,ne,1,2,0,0",  // 3: c ne d
        "S,lea,1,2,0,0", // 4: c eq d
        "S,cls,4,3,0,0",
    ];
    vec![
        case("accept: ler", lines(&ler), "yes,0,0,1,1,2,1,0"),
        case("accept: let", lines(&let_), "yes,0,0,3,3,2,1,0"),
        case("accept: lea", lines(&lea), "yes,0,0,2,3,2,1,0"),
    ]
}

fn writes() -> Vec<Case> {
    let rdh = [
        U,
        V,
        HEAP,            // 3
        FIELD,           // 4
        "T,wri,3,1,4,2", // 5
        "T,rea,5,1,4,0", // 6
        "A,ne,6,2,0,0",  // 1: rea(wri(h,u,f,v),u,f) ne v
        "S,rdh,0,0,6,0", // 2: rea(wri(h,u,f,v),u,f) eq v
        "S,cls,2,1,0,0",
    ];
    let rdm = [
        U,
        V,
        Y,
        HEAP,            // 4
        FIELD,           // 5
        "T,fnv,2,0,0,0", // 6
        "T,wri,4,1,5,2", // 7
        "T,rea,7,3,6,0", // 8, rea(wri(h,u,f,v),y,g)
        "T,rea,4,3,6,0", // 9, rea(h,y,g)
        "A,ne,1,3,0,0",  // 1: u ne y
        "A,ne,8,9,0,0",  // 2: the reads differ
        "S,rdm,0,0,8,0", // 3: u eq y, 4: f eq g
        "S,cls,3,1,0,0", // 3: the reads are equal
        "S,cls,3,2,0,0",
    ];
    let by_field = [
        (10, "A,ne,5,6,0,0"), // 1: f ne g
        (13, "S,cls,4,1,0,0"),
    ];
    vec![
        case("accept: rdh", lines(&rdh), "yes,0,0,6,1,2,1,0"),
        case(
            "accept: rdm, other reference",
            lines(&rdm),
            "yes,0,0,9,2,3,2,0",
        ),
        case(
            "accept: rdm, other field",
            with_lines(&rdm, &by_field),
            "yes,0,0,9,2,3,2,0",
        ),
    ]
}

fn closings() -> Vec<Case> {
    let by_in = [U, R, "A,in,1,2,0,0", "A,ni,1,2,0,0", "S,cls,1,2,0,0"];
    let denial_first = [
        (3, "A,ni,1,2,0,0"),
        (4, "A,in,1,2,0,0"),
        (5, "S,cls,2,1,0,0"),
    ];
    let by_eq = [U, V, "A,eq,1,2,0,0", "A,ne,1,2,0,0", "S,cls,1,2,0,0"];
    let by_le = [C, D, "A,le,1,2,0,0", "A,nl,1,2,0,0", "S,cls,1,2,0,0"];
    vec![
        case("accept: cls by in", lines(&by_in), "yes,0,0,2,2,1,1,0"),
        case(
            "accept: cls, denial first",
            with_lines(&by_in, &denial_first),
            "yes,0,0,2,2,1,1,0",
        ),
        case("accept: cls by eq", lines(&by_eq), "yes,0,0,2,2,1,1,0"),
        case("accept: cls by le", lines(&by_le), "yes,0,0,2,2,1,1,0"),
    ]
}

/// A place may serve as p and q at once.
fn one_place_twice() -> Vec<Case> {
    let cpi = [
        U,
        R,
        "T,cap,2,2,0,0", // 3
        "A,in,1,2,0,0",  // 1: u in r
        "A,ni,1,3,0,0",  // 2: u ni cap(r,r)
        "S,cpi,1,1,3,0", // 3: u in cap(r,r)
        "S,cls,3,2,0,0",
    ];
    let trn = [
        U,
        "A,eq,1,1,0,0",  // 1: u eq u
        "A,ne,1,1,0,0",  // 2: u ne u
        "S,trn,1,1,0,0", // 3: u eq u
        "S,cls,3,2,0,0",
    ];
    let rep = [
        U,
        V,
        "A,eq,1,2,0,0",  // 1: u eq v
        "A,ne,2,2,0,0",  // 2: v ne v
        "S,rep,1,1,1,0", // 3: v eq v
        "S,cls,3,2,0,0",
    ];
    let let_ = [
        C,
        "A,le,1,1,0,0",  // 1: c le c
        "A,nl,1,1,0,0",  // 2: c nl c
        "S,let,1,1,0,0", // 3: c le c
        "S,cls,3,2,0,0",
    ];
    let lea = [
        C,
        "A,le,1,1,0,0",  // 1: c le c
        "A,ne,1,1,0,0",  // 2: c ne c
        "S,lea,1,1,0,0", // 3: c eq c
        "S,cls,3,2,0,0",
    ];
    vec![
        case("accept: cpi, p is q", lines(&cpi), "yes,0,0,3,2,2,1,0"),
        case("accept: trn, p is q", lines(&trn), "yes,0,0,1,2,2,1,0"),
        case("accept: rep, p is q", lines(&rep), "yes,0,0,2,2,2,1,0"),
        case("accept: let, p is q", lines(&let_), "yes,0,0,1,2,2,1,0"),
        case("accept: lea, p is q", lines(&lea), "yes,0,0,1,2,2,1,0"),
    ]
}

/// A region inside its own image: `fin` adds that the image is inside it.
fn finite() -> Vec<Case> {
    let terms = [
        U,
        R,
        HEAP,            // 3
        FIELD,           // 4
        "T,img,3,2,4,0", // 5, i = img(h,r,f)
        "T,cup,2,5,0,0", // 6, cup(r,i)
        "T,cup,5,2,0,0", // 7, cup(i,r)
    ];
    let last_place = [
        "A,ne,7,2,0,0",  // 1: cup(i,r) ne r
        "A,in,1,5,0,0",  // 2: u in i
        "A,eq,6,5,0,0",  // 3: cup(r,i) eq i
        "S,fin,3,0,0,0", // 4: cup(i,r) eq r
        "S,cls,4,1,0,0",
    ];
    let member = [
        "A,eq,6,5,0,0",  // 1: cup(r,i) eq i
        "A,in,1,5,0,0",  // 2: u in i
        "A,ni,1,2,0,0",  // 3: u ni r
        "S,fin,1,0,0,0", // 4: cup(i,r) eq r
        "S,cui,2,0,7,0", // 5: u in cup(i,r)
        "S,eqr,4,5,0,0", // 6: u in r
        "S,cls,6,3,0,0",
    ];
    let equal = [
        "A,eq,6,5,0,0",  // 1: cup(r,i) eq i
        "A,ne,5,2,0,0",  // 2: i ne r
        "S,fin,1,0,0,0", // 3: cup(i,r) eq r
        "S,ext,2,0,0,1", // 4: u in i, 5: u ni r
        "S,cui,4,0,7,0", // 6: u in cup(i,r)
        "S,eqr,3,6,0,0", // 7: u in r
        "S,cls,7,5,0,0", // 4: u ni i, 5: u in r
        "S,cui,5,0,6,0", // 6: u in cup(r,i)
        "S,eqr,1,6,0,0", // 7: u in i
        "S,cls,7,4,0,0",
    ];
    let twice = [
        "A,eq,6,5,0,0",  // 1: cup(r,i) eq i
        "A,ne,7,7,0,0",  // 2: cup(i,r) ne cup(i,r)
        "S,fin,1,0,0,0", // 3: cup(i,r) eq r
        "S,fin,1,0,0,0", // 4: cup(i,r) eq r
        "S,sym,4,0,0,0", // 5: r eq cup(i,r)
        "S,trn,3,5,0,0", // 6: cup(i,r) eq cup(i,r)
        "S,cls,6,2,0,0",
    ];
    // The clause of one literal brings cup(r,i) eq i onto the branch.
    let by_clause = [
        "A,ne,7,2,0,0",  // 1: cup(i,r) ne r
        "C,eq,6,5,1,0",  // cup(r,i) eq i
        "S,cla,0,0,1,0", // 2: cup(r,i) eq i
        "S,fin,2,0,0,0", // 3: cup(i,r) eq r
        "S,cls,3,1,0,0",
    ];
    // s stands for i; the rules of equality make cup(r,i) eq i of it.
    let by_equality = [
        R,
        S,
        HEAP,            // 3
        FIELD,           // 4
        "T,img,3,1,4,0", // 5, i = img(h,r,f)
        "T,cup,1,2,0,0", // 6, cup(r,s)
        "T,cup,1,5,0,0", // 7, cup(r,i)
        "T,cup,5,1,0,0", // 8, cup(i,r)
        "A,eq,6,2,0,0",  // 1: cup(r,s) eq s
        "A,eq,2,5,0,0",  // 2: s eq i
        "A,ne,8,1,0,0",  // 3: cup(i,r) ne r
        "S,sub,2,0,6,7", // 4: cup(r,s) eq cup(r,i)
        "S,sym,4,0,0,0", // 5: cup(r,i) eq cup(r,s)
        "S,trn,5,1,0,0", // 6: cup(r,i) eq s
        "S,trn,6,2,0,0", // 7: cup(r,i) eq i
        "S,fin,7,0,0,0", // 8: cup(i,r) eq r
        "S,cls,8,3,0,0",
    ];
    // Where sin(u) is inside its image, u is all that the image holds.
    let itself = [
        U,
        ALL,             // 2
        HEAP,            // 3
        FIELD,           // 4
        "T,sin,1,0,0,0", // 5, sin(u)
        "T,img,3,5,4,0", // 6, i = img(h,sin(u),f)
        "T,cup,5,6,0,0", // 7, cup(sin(u),i)
        "T,cup,6,5,0,0", // 8, cup(i,sin(u))
        V,               // 9
        "A,eq,7,6,0,0",  // 1: cup(sin(u),i) eq i
        "A,in,9,6,0,0",  // 2: v in i
        "A,ne,9,1,0,0",  // 3: v ne u
        "S,fin,1,0,0,0", // 4: cup(i,sin(u)) eq sin(u)
        "S,cui,2,0,8,0", // 5: v in cup(i,sin(u))
        "S,eqr,4,5,0,0", // 6: v in sin(u)
        "S,sge,6,0,0,0", // 7: v eq u
        "S,cls,7,3,0,0",
    ];
    let with = |what: &str, rest: &[&str], reply| {
        let file = [&terms[..], rest].concat();
        case(&format!("accept: fin, {what}"), lines(&file), reply)
    };
    vec![
        with("on the last place", &last_place, "yes,0,0,7,3,2,1,0"),
        with("a member of the image", &member, "yes,0,0,7,3,4,1,0"),
        with("the region is its image", &equal, "yes,0,0,7,2,8,2,0"),
        with("twice on a place", &twice, "yes,0,0,7,2,5,1,0"),
        with("by a clause", &by_clause, "yes,0,0,7,2,3,1,0"),
        case(
            "accept: fin, by equality",
            lines(&by_equality),
            "yes,0,0,8,3,6,1,0",
        ),
        case(
            "accept: fin, one reference",
            lines(&itself),
            "yes,0,0,9,3,5,1,0",
        ),
    ]
}

/// The region and the heap value may be any terms.
fn finite_for_every_region() -> Vec<Case> {
    let regions = [
        EMP,
        ALL,
        "T,rgv,3,0,0,0",
        "T,cup,2,3,0,0",
        "T,cup,3,3,0,0",
        "T,cap,2,3,0,0",
        "T,dif,2,3,0,0",
        "T,sin,1,0,0,0",
        "T,img,4,2,5,0",
    ];
    let heaps = ["T,arv,2,0,0,0", "T,wri,4,1,5,1"];
    let mut cases = Vec::new();
    for region in regions {
        for heap in heaps {
            let file = [
                U,
                R,
                S,               // 3
                HEAP,            // 4
                FIELD,           // 5
                region,          // 6
                heap,            // 7
                "T,img,7,6,5,0", // 8, i, the image of term 6
                "T,cup,6,8,0,0", // 9
                "T,cup,8,6,0,0", // 10
                "A,eq,9,8,0,0",  // 1: cup(term 6,i) eq i
                "A,ne,10,6,0,0", // 2: cup(i,term 6) ne term 6
                "S,fin,1,0,0,0", // 3: cup(i,term 6) eq term 6
                "S,cls,3,2,0,0",
            ];
            cases.push(case(
                &format!("accept: fin for {region} in {heap}"),
                lines(&file),
                "yes,0,0,10,2,2,1,0",
            ));
        }
    }
    cases
}
