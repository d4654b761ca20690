//! For each rule a refusal by each number that it can give, beside the right
//! step; `cla` and `fin` have theirs in `clause_splits.rs` and `fin.rs`.
//!
//! All steps stand on one bench: a table in which every term to be added is
//! there, and a branch with literals of every kind. Places 1 and 2 close it,
//! so a right step is accepted when one closing for each alternative follows.

use super::{case, lines, with_line, Case};

pub const TERMS: [&str; 35] = [
    "T,nul,0,0,0,0",   // 1
    "T,emp,0,0,0,0",   // 2
    "T,all,0,0,0,0",   // 3
    "T,rfv,7,0,0,0",   // 4, u
    "T,rfv,8,0,0,0",   // 5, v
    "T,rfv,9,0,0,0",   // 6, w: in no literal
    "T,rgv,7,0,0,0",   // 7, r
    "T,rgv,8,0,0,0",   // 8, s
    "T,arv,7,0,0,0",   // 9, h
    "T,fnv,7,0,0,0",   // 10, f
    "T,fnv,8,0,0,0",   // 11, g
    "T,clv,7,0,0,0",   // 12, c
    "T,clv,8,0,0,0",   // 13, d
    "T,clv,9,0,0,0",   // 14, e
    "T,cap,7,8,0,0",   // 15, cap(r,s)
    "T,cap,8,8,0,0",   // 16, cap(s,s)
    "T,cap,8,7,0,0",   // 17, cap(s,r)
    "T,cup,7,8,0,0",   // 18, cup(r,s)
    "T,dif,7,8,0,0",   // 19, dif(r,s)
    "T,sin,5,0,0,0",   // 20, sin(v)
    "T,img,9,7,10,0",  // 21, img(h,r,f)
    "T,typ,4,0,0,0",   // 22, typ(u)
    "T,typ,6,0,0,0",   // 23, typ(w)
    "T,dty,10,0,0,0",  // 24, dty(f)
    "T,rea,9,4,10,0",  // 25, rea(h,u,f)
    "T,rea,9,6,10,0",  // 26, rea(h,w,f)
    "T,rea,9,5,11,0",  // 27, rea(h,v,g)
    "T,wri,9,4,10,5",  // 28, k = wri(h,u,f,v)
    "T,rea,28,4,10,0", // 29, rea(k,u,f)
    "T,rea,28,5,11,0", // 30, rea(k,v,g)
    "T,rea,28,4,11,0", // 31, rea(k,u,g)
    "T,rea,28,5,10,0", // 32, rea(k,v,f)
    "T,rfv,1,0,0,0",   // 33, x: only in typ(x)
    "T,typ,33,0,0,0",  // 34, typ(x)
    "T,rfv,2,0,0,0",   // 35, z: only a right side
];

pub const LITERALS: [&str; 37] = [
    "A,in,4,7,0,0",   // 1: u in r
    "A,ni,4,7,0,0",   // 2: u ni r
    "A,in,4,8,0,0",   // 3: u in s
    "A,ni,4,8,0,0",   // 4: u ni s
    "A,in,5,7,0,0",   // 5: v in r
    "A,ni,5,7,0,0",   // 6: v ni r
    "A,ni,5,8,0,0",   // 7: v ni s
    "A,eq,7,8,0,0",   // 8: r eq s
    "A,ne,7,8,0,0",   // 9: r ne s
    "A,in,4,15,0,0",  // 10: u in cap(r,s)
    "A,ni,4,15,0,0",  // 11: u ni cap(r,s)
    "A,in,4,18,0,0",  // 12: u in cup(r,s)
    "A,ni,4,18,0,0",  // 13: u ni cup(r,s)
    "A,in,4,19,0,0",  // 14: u in dif(r,s)
    "A,ni,4,19,0,0",  // 15: u ni dif(r,s)
    "A,in,4,20,0,0",  // 16: u in sin(v)
    "A,ni,4,20,0,0",  // 17: u ni sin(v)
    "A,in,4,21,0,0",  // 18: u in img(h,r,f)
    "A,ni,4,21,0,0",  // 19: u ni img(h,r,f)
    "A,in,4,2,0,0",   // 20: u in emp
    "A,ni,4,2,0,0",   // 21: u ni emp
    "A,eq,4,5,0,0",   // 22: u eq v
    "A,ne,4,5,0,0",   // 23: u ne v
    "A,ne,5,4,0,0",   // 24: v ne u
    "A,eq,5,29,0,0",  // 25: v eq rea(k,u,f)
    "A,ne,5,29,0,0",  // 26: v ne rea(k,u,f)
    "A,le,12,13,0,0", // 27: c le d
    "A,nl,12,13,0,0", // 28: c nl d
    "A,le,13,12,0,0", // 29: d le c
    "A,nl,13,12,0,0", // 30: d nl c
    "A,le,13,14,0,0", // 31: d le e
    "A,nl,13,14,0,0", // 32: d nl e
    "A,le,14,12,0,0", // 33: e le c
    "A,eq,12,13,0,0", // 34: c eq d
    "A,ne,12,13,0,0", // 35: c ne d
    "A,eq,34,12,0,0", // 36: typ(x) eq c
    "A,ne,4,35,0,0",  // 37: u ne z
];

const CUT: &str = "S,cut,0,0,4,7";
const CLOSE: &str = "S,cls,1,2,0,0";

/// The bench with place 1 assumed again up to a count of places, with cuts up
/// to a count of waiting alternatives, and then the steps.
fn bench(places: usize, waiting: usize, steps: &[&'static str]) -> Vec<&'static str> {
    let mut file = [&TERMS[..], &LITERALS].concat();
    file.extend(std::iter::repeat_n(LITERALS[0], places - LITERALS.len()));
    file.extend(std::iter::repeat_n(CUT, waiting));
    file.extend(steps);
    file
}

/// The step and a closing for each alternative.
fn closed(step: &'static str, alternatives: usize) -> Vec<&'static str> {
    let mut steps = vec![step];
    steps.extend(std::iter::repeat_n(CLOSE, alternatives));
    steps
}

// The step is on line 35 + 37 + 1.
const N4: &str = "no,4,73,0,0,0,0,0";
const N6: &str = "no,6,73,0,0,0,0,0";
const N8: &str = "no,8,73,0,0,0,0,0";
const N9: &str = "no,9,73,0,0,0,0,0";
const N11: &str = "no,11,73,0,0,0,0,0";
const N12: &str = "no,12,73,0,0,0,0,0";
// w is no rfv; its first place is 1, 36, 37.
const N13: &str = "no,13,73,0,0,0,0,0";
const N13_AT_1: &str = "no,13,73,0,0,0,0,1";
const N13_AT_36: &str = "no,13,73,0,0,0,0,36";
const N13_AT_37: &str = "no,13,73,0,0,0,0,37";
const N14: &str = "no,14,73,0,0,0,0,0";

pub fn cases() -> Vec<Case> {
    let groups = [
        right(),
        eqr(),
        eql(),
        ext(),
        cpe(),
        cpi(),
        cue(),
        cui(),
        dfe(),
        dfi(),
        sge(),
        sgi(),
        cut(),
        all(),
        nul(),
        sep(),
        img(),
        wit(),
        ref_(),
        sym(),
        trn(),
        sub(),
        rep(),
        ler(),
        let_(),
        lea(),
        rdh(),
        rdm(),
        cls(),
        emp(),
        fir(),
        tree_closed(),
        term_missing(),
        branch_full(),
        branch_fills(),
        waiting_full(),
        waiting_fills(),
        two_checks_on_a_full_branch(),
        two_checks_with_200_waiting(),
        fir_at_the_limits(),
    ];
    groups.into_iter().flatten().collect()
}

fn refused(rows: &[(&'static str, &'static str)]) -> Vec<Case> {
    rows.iter()
        .map(|&(step, reply)| {
            case(
                &format!("bench: {step}"),
                lines(&bench(37, 0, &[step])),
                reply,
            )
        })
        .collect()
}

/// A right step of each rule that adds, its longest alternative, and the count
/// of its alternatives.
const ADDING: [(&str, usize, usize); 27] = [
    ("S,eqr,8,1,0,0", 1, 1),
    ("S,eql,8,3,0,0", 1, 1),
    ("S,ext,9,0,0,6", 2, 2),
    ("S,cpe,10,0,0,0", 2, 1),
    ("S,cpi,1,3,15,0", 1, 1),
    ("S,cue,12,0,0,0", 1, 2),
    ("S,cui,1,0,18,0", 1, 1),
    ("S,dfe,14,0,0,0", 2, 1),
    ("S,dfi,1,4,19,0", 1, 1),
    ("S,sge,16,0,0,0", 1, 1),
    ("S,sgi,0,0,20,0", 1, 2),
    ("S,cut,0,0,4,7", 1, 2),
    ("S,all,1,0,0,0", 1, 1),
    ("S,nul,1,0,0,0", 1, 1),
    ("S,sep,1,6,0,0", 1, 1),
    ("S,img,1,0,21,0", 1, 3),
    ("S,wit,18,0,0,6", 3, 1),
    ("S,ref,0,0,9,0", 1, 1),
    ("S,sym,22,0,0,0", 1, 1),
    ("S,trn,22,25,0,0", 1, 1),
    ("S,sub,8,0,15,16", 1, 1),
    ("S,rep,1,22,1,0", 1, 1),
    ("S,ler,0,0,12,0", 1, 1),
    ("S,let,27,31,0,0", 1, 1),
    ("S,lea,27,29,0,0", 1, 1),
    ("S,rdh,0,0,29,0", 1, 1),
    ("S,rdm,0,0,30,0", 2, 2),
];

fn right() -> Vec<Case> {
    let mut steps: Vec<(&str, usize)> = ADDING.iter().map(|row| (row.0, row.2)).collect();
    steps.extend([
        ("S,cui,3,0,18,0", 1),  // u in s
        ("S,sym,23,0,0,0", 1),  // of ne
        ("S,sub,8,0,15,15", 1), // all arguments agree
        ("S,sub,22,0,29,32", 1),
        ("S,rep,1,8,2,0", 1),  // the right side
        ("S,rdm,0,0,29,0", 2), // reads where k writes
    ]);
    let mut cases = Vec::new();
    for (step, alternatives) in steps {
        let reply = match alternatives {
            1 => "yes,0,0,35,37,2,1,0",
            2 => "yes,0,0,35,37,3,2,0",
            _ => "yes,0,0,35,37,4,3,0",
        };
        let file = bench(37, 0, &closed(step, alternatives));
        cases.push(case(&format!("bench: {step}, closed"), lines(&file), reply));
    }
    for step in [
        "S,cls,1,2,0,0",
        "S,cls,8,9,0,0",
        "S,cls,22,23,0,0",
        "S,cls,27,28,0,0",
        "S,cls,34,35,0,0",
        "S,emp,20,0,0,0",
    ] {
        cases.push(case(
            &format!("bench: {step}"),
            lines(&bench(37, 0, &[step])),
            "yes,0,0,35,37,1,1,0",
        ));
    }
    cases
}

// Besides 2, 4 and 5, which any S line can get: 6, 11, 12, 15.
fn eqr() -> Vec<Case> {
    refused(&[
        ("S,eqr,8,1,1,0", N6),
        ("S,eqr,8,1,0,1", N6),
        ("S,eqr,0,1,0,0", N11),
        ("S,eqr,38,1,0,0", N11),
        ("S,eqr,9999,1,0,0", N11),
        ("S,eqr,8,0,0,0", N11),
        ("S,eqr,8,38,0,0", N11),
        ("S,eqr,8,9999,0,0", N11),
        ("S,eqr,9,1,0,0", N12),  // p is ne
        ("S,eqr,1,1,0,0", N12),  // p is in
        ("S,eqr,22,1,0,0", N12), // p is about references
        ("S,eqr,8,2,0,0", N12),  // q is ni
        ("S,eqr,8,3,0,0", N12),  // u in s, the right side
        ("S,eqr,8,10,0,0", N12), // u in neither side
        ("S,eqr,8,8,0,0", N12),  // q is eq
        ("S,eqr,1,8,0,0", N12),  // p and q changed over
    ])
}

// 6, 11, 12, 15.
fn eql() -> Vec<Case> {
    refused(&[
        ("S,eql,8,3,1,0", N6),
        ("S,eql,8,3,0,1", N6),
        ("S,eql,0,3,0,0", N11),
        ("S,eql,38,3,0,0", N11),
        ("S,eql,8,0,0,0", N11),
        ("S,eql,8,38,0,0", N11),
        ("S,eql,9,3,0,0", N12),  // p is ne
        ("S,eql,34,3,0,0", N12), // p is about classes
        ("S,eql,8,4,0,0", N12),  // q is ni
        ("S,eql,8,1,0,0", N12),  // u in r, the left side
        ("S,eql,8,12,0,0", N12), // u in neither side
        ("S,eql,3,8,0,0", N12),  // p and q changed over
    ])
}

// 6, 8, 11, 12, 13, 15, 16.
fn ext() -> Vec<Case> {
    refused(&[
        ("S,ext,9,1,0,6", N6),
        ("S,ext,9,0,1,6", N6),
        ("S,ext,9,0,0,0", N8),
        ("S,ext,9,0,0,36", N8),
        ("S,ext,0,0,0,6", N11),
        ("S,ext,38,0,0,6", N11),
        ("S,ext,8,0,0,6", N12),        // p is eq
        ("S,ext,4,0,0,6", N12),        // p is ni
        ("S,ext,23,0,0,6", N12),       // p is about references
        ("S,ext,35,0,0,6", N12),       // p is about classes
        ("S,ext,9,0,0,1", N13),        // nul is no rfv
        ("S,ext,9,0,0,7", N13),        // nor is a region variable
        ("S,ext,9,0,0,26", N13),       // nor is a read, though in no literal
        ("S,ext,9,0,0,4", N13_AT_1),   // u is at a side
        ("S,ext,9,0,0,35", N13_AT_37), // z is at a right side
        ("S,ext,9,0,0,33", N13_AT_36), // x is inside typ(x)
    ])
}

// 6, 11, 12, 15.
fn cpe() -> Vec<Case> {
    refused(&[
        ("S,cpe,10,1,0,0", N6),
        ("S,cpe,10,0,1,0", N6),
        ("S,cpe,10,0,0,1", N6),
        ("S,cpe,0,0,0,0", N11),
        ("S,cpe,38,0,0,0", N11),
        ("S,cpe,11,0,0,0", N12), // ni
        ("S,cpe,12,0,0,0", N12), // cup
        ("S,cpe,14,0,0,0", N12), // dif
        ("S,cpe,1,0,0,0", N12),  // a variable
        ("S,cpe,8,0,0,0", N12),  // eq
    ])
}

// 6, 8, 11, 12, 15.
fn cpi() -> Vec<Case> {
    refused(&[
        ("S,cpi,1,3,15,1", N6),
        ("S,cpi,1,3,0,0", N8),
        ("S,cpi,1,3,36,0", N8),
        ("S,cpi,0,3,15,0", N11),
        ("S,cpi,38,3,15,0", N11),
        ("S,cpi,1,0,15,0", N11),
        ("S,cpi,1,38,15,0", N11),
        ("S,cpi,2,3,15,0", N12), // p is ni
        ("S,cpi,1,4,15,0", N12), // q is ni
        ("S,cpi,3,3,15,0", N12), // p is u in s
        ("S,cpi,1,1,15,0", N12), // q is u in r
        ("S,cpi,3,1,15,0", N12), // p and q changed over
        ("S,cpi,5,3,15,0", N12), // v in r, u in s
        ("S,cpi,1,3,17,0", N12), // t = cap(s,r)
        ("S,cpi,1,3,18,0", N12), // t = cup(r,s)
        ("S,cpi,1,3,19,0", N12), // t = dif(r,s)
        ("S,cpi,1,3,7,0", N12),  // t = r
    ])
}

// 6, 11, 12, 15, 16.
fn cue() -> Vec<Case> {
    refused(&[
        ("S,cue,12,1,0,0", N6),
        ("S,cue,12,0,1,0", N6),
        ("S,cue,12,0,0,1", N6),
        ("S,cue,0,0,0,0", N11),
        ("S,cue,38,0,0,0", N11),
        ("S,cue,13,0,0,0", N12), // ni
        ("S,cue,10,0,0,0", N12), // cap
        ("S,cue,14,0,0,0", N12), // dif
        ("S,cue,1,0,0,0", N12),  // a variable
    ])
}

// 6, 8, 11, 12, 15.
fn cui() -> Vec<Case> {
    refused(&[
        ("S,cui,1,1,18,0", N6),
        ("S,cui,1,0,18,1", N6),
        ("S,cui,1,0,0,0", N8),
        ("S,cui,1,0,36,0", N8),
        ("S,cui,0,0,18,0", N11),
        ("S,cui,38,0,18,0", N11),
        ("S,cui,2,0,18,0", N12),  // p is ni r
        ("S,cui,4,0,18,0", N12),  // p is ni s
        ("S,cui,10,0,18,0", N12), // u in cap(r,s)
        ("S,cui,22,0,18,0", N12), // p is eq
        ("S,cui,1,0,15,0", N12),  // t = cap(r,s)
        ("S,cui,1,0,19,0", N12),  // t = dif(r,s)
        ("S,cui,1,0,7,0", N12),   // t = r
    ])
}

// 6, 11, 12, 15.
fn dfe() -> Vec<Case> {
    refused(&[
        ("S,dfe,14,1,0,0", N6),
        ("S,dfe,14,0,1,0", N6),
        ("S,dfe,14,0,0,1", N6),
        ("S,dfe,0,0,0,0", N11),
        ("S,dfe,38,0,0,0", N11),
        ("S,dfe,15,0,0,0", N12), // ni
        ("S,dfe,10,0,0,0", N12), // cap
        ("S,dfe,12,0,0,0", N12), // cup
        ("S,dfe,1,0,0,0", N12),  // a variable
    ])
}

// 6, 8, 11, 12, 15.
fn dfi() -> Vec<Case> {
    refused(&[
        ("S,dfi,1,4,19,1", N6),
        ("S,dfi,1,4,0,0", N8),
        ("S,dfi,1,4,36,0", N8),
        ("S,dfi,0,4,19,0", N11),
        ("S,dfi,38,4,19,0", N11),
        ("S,dfi,1,0,19,0", N11),
        ("S,dfi,1,38,19,0", N11),
        ("S,dfi,2,4,19,0", N12), // p is ni
        ("S,dfi,1,3,19,0", N12), // q is in
        ("S,dfi,3,4,19,0", N12), // p is u in s
        ("S,dfi,1,2,19,0", N12), // q is u ni r
        ("S,dfi,3,2,19,0", N12), // for dif(s,r)
        ("S,dfi,4,1,19,0", N12), // p and q changed over
        ("S,dfi,5,4,19,0", N12), // v in r, u ni s
        ("S,dfi,1,7,19,0", N12), // u in r, v ni s
        ("S,dfi,1,4,15,0", N12), // t = cap(r,s)
        ("S,dfi,1,4,18,0", N12), // t = cup(r,s)
        ("S,dfi,1,4,7,0", N12),  // t = r
    ])
}

// 6, 11, 12, 15.
fn sge() -> Vec<Case> {
    refused(&[
        ("S,sge,16,1,0,0", N6),
        ("S,sge,16,0,1,0", N6),
        ("S,sge,16,0,0,1", N6),
        ("S,sge,0,0,0,0", N11),
        ("S,sge,38,0,0,0", N11),
        ("S,sge,17,0,0,0", N12), // ni
        ("S,sge,10,0,0,0", N12), // cap
        ("S,sge,1,0,0,0", N12),  // a variable
        ("S,sge,22,0,0,0", N12), // eq
    ])
}

// 6, 8, 12, 14, 15, 16.
fn sgi() -> Vec<Case> {
    refused(&[
        ("S,sgi,1,0,20,0", N6),
        ("S,sgi,0,1,20,0", N6),
        ("S,sgi,0,0,20,1", N6),
        ("S,sgi,0,0,0,0", N8),
        ("S,sgi,0,0,36,0", N8),
        ("S,sgi,0,0,15,0", N12), // cap(r,s)
        ("S,sgi,0,0,7,0", N12),  // r
        ("S,sgi,0,0,5,0", N12),  // v
        ("S,sgi,0,0,22,0", N12), // typ(u)
        ("S,sgi,0,0,2,0", N12),  // emp
    ])
}

// 6, 8, 9, 15, 16.
fn cut() -> Vec<Case> {
    refused(&[
        ("S,cut,1,0,4,7", N6),
        ("S,cut,0,1,4,7", N6),
        ("S,cut,0,0,0,7", N8),
        ("S,cut,0,0,36,7", N8),
        ("S,cut,0,0,4,0", N8),
        ("S,cut,0,0,4,36", N8),
        ("S,cut,0,0,7,7", N9),  // t a region
        ("S,cut,0,0,9,7", N9),  // a heap
        ("S,cut,0,0,10,7", N9), // a field
        ("S,cut,0,0,22,7", N9), // a class
        ("S,cut,0,0,4,4", N9),  // w a reference
        ("S,cut,0,0,4,28", N9), // a heap
        ("S,cut,0,0,4,11", N9), // a field
        ("S,cut,0,0,4,12", N9), // a class
        ("S,cut,0,0,7,4", N9),  // t and w changed over
    ])
}

// 6, 11, 12, 14, 15.
fn all() -> Vec<Case> {
    refused(&[
        ("S,all,1,1,0,0", N6),
        ("S,all,1,0,1,0", N6),
        ("S,all,1,0,0,1", N6),
        ("S,all,0,0,0,0", N11),
        ("S,all,38,0,0,0", N11),
        ("S,all,2,0,0,0", N12),  // ni
        ("S,all,22,0,0,0", N12), // eq
        ("S,all,27,0,0,0", N12), // le
    ])
}

// 6, 11, 12, 14, 15.
fn nul() -> Vec<Case> {
    refused(&[
        ("S,nul,1,1,0,0", N6),
        ("S,nul,1,0,1,0", N6),
        ("S,nul,1,0,0,1", N6),
        ("S,nul,0,0,0,0", N11),
        ("S,nul,38,0,0,0", N11),
        ("S,nul,2,0,0,0", N12),  // ni
        ("S,nul,22,0,0,0", N12), // eq
        ("S,nul,27,0,0,0", N12), // le
    ])
}

// 6, 11, 12, 15.
fn sep() -> Vec<Case> {
    refused(&[
        ("S,sep,1,6,1,0", N6),
        ("S,sep,1,6,0,1", N6),
        ("S,sep,0,6,0,0", N11),
        ("S,sep,38,6,0,0", N11),
        ("S,sep,1,0,0,0", N11),
        ("S,sep,1,38,0,0", N11),
        ("S,sep,2,6,0,0", N12), // p is ni
        ("S,sep,1,5,0,0", N12), // q is in
        ("S,sep,1,7,0,0", N12), // u in r, v ni s
        ("S,sep,3,6,0,0", N12), // u in s, v ni r
        ("S,sep,6,1,0,0", N12), // p and q changed over
        ("S,sep,1,1,0,0", N12),
    ])
}

// 6, 8, 11, 12, 14, 15, 16.
fn img() -> Vec<Case> {
    refused(&[
        ("S,img,1,1,21,0", N6),
        ("S,img,1,0,21,1", N6),
        ("S,img,1,0,0,0", N8),
        ("S,img,1,0,36,0", N8),
        ("S,img,0,0,21,0", N11),
        ("S,img,38,0,21,0", N11),
        ("S,img,2,0,21,0", N12),  // p is ni
        ("S,img,3,0,21,0", N12),  // u in s
        ("S,img,22,0,21,0", N12), // p is eq
        ("S,img,1,0,15,0", N12),  // t = cap(r,s)
        ("S,img,1,0,25,0", N12),  // t = rea(h,u,f)
        ("S,img,1,0,7,0", N12),   // t = r
        ("S,img,5,0,21,0", N14),  // v in r, but no typ(v)
    ])
}

// 6, 8, 11, 12, 13, 14, 15.
fn wit() -> Vec<Case> {
    refused(&[
        ("S,wit,18,1,0,6", N6),
        ("S,wit,18,0,1,6", N6),
        ("S,wit,18,0,0,0", N8),
        ("S,wit,18,0,0,36", N8),
        ("S,wit,0,0,0,6", N11),
        ("S,wit,38,0,0,6", N11),
        ("S,wit,19,0,0,6", N12), // ni
        ("S,wit,10,0,0,6", N12), // cap
        ("S,wit,1,0,0,6", N12),  // a variable
        ("S,wit,18,0,0,1", N13),
        ("S,wit,18,0,0,7", N13),
        ("S,wit,18,0,0,26", N13),
        ("S,wit,18,0,0,4", N13_AT_1), // the u of p
        ("S,wit,18,0,0,35", N13_AT_37),
        ("S,wit,18,0,0,33", N13_AT_36), // and no rea(h,x,f)
    ])
}

// 6, 8, 15.
fn ref_() -> Vec<Case> {
    refused(&[
        ("S,ref,1,0,9,0", N6),
        ("S,ref,0,1,9,0", N6),
        ("S,ref,0,0,9,1", N6),
        ("S,ref,0,0,0,0", N8),
        ("S,ref,0,0,36,0", N8),
    ])
}

// 6, 11, 12, 15.
fn sym() -> Vec<Case> {
    refused(&[
        ("S,sym,22,1,0,0", N6),
        ("S,sym,22,0,1,0", N6),
        ("S,sym,22,0,0,1", N6),
        ("S,sym,0,0,0,0", N11),
        ("S,sym,38,0,0,0", N11),
        ("S,sym,1,0,0,0", N12),  // in
        ("S,sym,2,0,0,0", N12),  // ni
        ("S,sym,27,0,0,0", N12), // le
        ("S,sym,28,0,0,0", N12), // nl
    ])
}

// 6, 11, 12, 15.
fn trn() -> Vec<Case> {
    refused(&[
        ("S,trn,22,25,1,0", N6),
        ("S,trn,22,25,0,1", N6),
        ("S,trn,0,25,0,0", N11),
        ("S,trn,38,25,0,0", N11),
        ("S,trn,22,0,0,0", N11),
        ("S,trn,22,38,0,0", N11),
        ("S,trn,23,25,0,0", N12), // p is ne
        ("S,trn,22,26,0,0", N12), // q is ne
        ("S,trn,22,22,0,0", N12), // u eq v, u eq v
        ("S,trn,25,22,0,0", N12), // p and q changed over
        ("S,trn,22,8,0,0", N12),  // u eq v, r eq s
        ("S,trn,27,31,0,0", N12), // le
    ])
}

// 6, 8, 11, 12, 15.
fn sub() -> Vec<Case> {
    refused(&[
        ("S,sub,8,1,15,16", N6),
        ("S,sub,8,0,0,16", N8),
        ("S,sub,8,0,36,16", N8),
        ("S,sub,8,0,15,0", N8),
        ("S,sub,8,0,15,36", N8),
        ("S,sub,0,0,15,16", N11),
        ("S,sub,38,0,15,16", N11),
        ("S,sub,9,0,15,16", N12),  // p is ne
        ("S,sub,1,0,15,16", N12),  // p is in
        ("S,sub,27,0,15,15", N12), // p is le, though t is w
        ("S,sub,22,0,15,16", N12), // u eq v doesn't take r to s
        ("S,sub,8,0,16,15", N12),  // t has b and w has a
        ("S,sub,8,0,15,17", N12),  // so at the second argument
        ("S,sub,8,0,15,18", N12),  // cap and cup
        ("S,sub,22,0,29,30", N12), // the fields f and g aren't u and v
        ("S,sub,22,0,4,5", N12),   // u and v themselves have names
        ("S,sub,8,0,4,5", N12),    // names 7 and 8, as r and s are terms 7 and 8
        ("S,sub,8,0,7,8", N12),    // so for regions
        ("S,sub,8,0,4,4", N12),    // one name
        ("S,sub,8,0,2,2", N12),    // no argument
        ("S,sub,8,0,1,1", N12),
        ("S,sub,8,0,2,3", N12),
    ])
}

// 6, 11, 12, 15; t is a side, so never 8.
fn rep() -> Vec<Case> {
    refused(&[
        ("S,rep,1,22,1,1", N6),
        ("S,rep,0,22,1,0", N11),
        ("S,rep,38,22,1,0", N11),
        ("S,rep,1,0,1,0", N11),
        ("S,rep,1,38,1,0", N11),
        ("S,rep,1,22,0,0", N12),
        ("S,rep,1,22,3,0", N12),
        ("S,rep,1,22,4,0", N12), // the term u
        ("S,rep,1,22,36,0", N12),
        ("S,rep,1,22,9999,0", N12),
        ("S,rep,1,23,1,0", N12),  // q is ne
        ("S,rep,1,1,1,0", N12),   // q is in
        ("S,rep,27,27,1,0", N12), // q is le
        ("S,rep,1,8,1,0", N12),   // r is at the right
        ("S,rep,1,22,2,0", N12),  // u is at the left
        ("S,rep,5,22,1,0", N12),  // v, but u eq v
        ("S,rep,3,8,2,0", N12),   // s, but r eq s
    ])
}

// 6, 8, 9, 15.
fn ler() -> Vec<Case> {
    refused(&[
        ("S,ler,1,0,12,0", N6),
        ("S,ler,0,1,12,0", N6),
        ("S,ler,0,0,12,1", N6),
        ("S,ler,0,0,0,0", N8),
        ("S,ler,0,0,36,0", N8),
        ("S,ler,0,0,4,0", N9),  // a reference
        ("S,ler,0,0,7,0", N9),  // a region
        ("S,ler,0,0,9,0", N9),  // a heap
        ("S,ler,0,0,10,0", N9), // a field
    ])
}

// 6, 11, 12, 15.
fn let_() -> Vec<Case> {
    refused(&[
        ("S,let,27,31,1,0", N6),
        ("S,let,27,31,0,1", N6),
        ("S,let,0,31,0,0", N11),
        ("S,let,38,31,0,0", N11),
        ("S,let,27,0,0,0", N11),
        ("S,let,27,38,0,0", N11),
        ("S,let,28,31,0,0", N12), // p is nl
        ("S,let,34,31,0,0", N12), // p is eq
        ("S,let,27,32,0,0", N12), // q is nl
        ("S,let,27,27,0,0", N12), // c le d, c le d
        ("S,let,31,27,0,0", N12), // p and q changed over
    ])
}

// 6, 11, 12, 15.
fn lea() -> Vec<Case> {
    refused(&[
        ("S,lea,27,29,1,0", N6),
        ("S,lea,27,29,0,1", N6),
        ("S,lea,0,29,0,0", N11),
        ("S,lea,38,29,0,0", N11),
        ("S,lea,27,0,0,0", N11),
        ("S,lea,27,38,0,0", N11),
        ("S,lea,28,29,0,0", N12), // p is nl
        ("S,lea,34,29,0,0", N12), // p is eq
        ("S,lea,27,30,0,0", N12), // q is nl
        ("S,lea,27,27,0,0", N12), // c le d, c le d
        ("S,lea,27,31,0,0", N12), // c le d, d le e
        ("S,lea,27,33,0,0", N12), // c le d, e le c
    ])
}

// 6, 8, 12, 15.
fn rdh() -> Vec<Case> {
    refused(&[
        ("S,rdh,1,0,29,0", N6),
        ("S,rdh,0,1,29,0", N6),
        ("S,rdh,0,0,29,1", N6),
        ("S,rdh,0,0,0,0", N8),
        ("S,rdh,0,0,36,0", N8),
        ("S,rdh,0,0,31,0", N12), // other field
        ("S,rdh,0,0,32,0", N12), // other reference
        ("S,rdh,0,0,30,0", N12), // both
        ("S,rdh,0,0,25,0", N12), // no write inside
        ("S,rdh,0,0,28,0", N12), // the write itself
        ("S,rdh,0,0,22,0", N12), // typ(u)
        ("S,rdh,0,0,4,0", N12),  // u
    ])
}

// 6, 8, 12, 14, 15, 16.
fn rdm() -> Vec<Case> {
    refused(&[
        ("S,rdm,1,0,30,0", N6),
        ("S,rdm,0,1,30,0", N6),
        ("S,rdm,0,0,30,1", N6),
        ("S,rdm,0,0,0,0", N8),
        ("S,rdm,0,0,36,0", N8),
        ("S,rdm,0,0,25,0", N12), // no write inside
        ("S,rdm,0,0,28,0", N12), // the write itself
        ("S,rdm,0,0,22,0", N12), // typ(u)
        ("S,rdm,0,0,4,0", N12),  // u
        ("S,rdm,0,0,31,0", N14), // no rea(h,u,g)
        ("S,rdm,0,0,32,0", N14), // no rea(h,v,f)
    ])
}

// 6, 11, 12.
fn cls() -> Vec<Case> {
    refused(&[
        ("S,cls,1,2,1,0", N6),
        ("S,cls,1,2,0,1", N6),
        ("S,cls,0,2,0,0", N11),
        ("S,cls,38,2,0,0", N11),
        ("S,cls,1,0,0,0", N11),
        ("S,cls,1,38,0,0", N11),
        ("S,cls,2,1,0,0", N12),   // p and q changed over
        ("S,cls,23,22,0,0", N12), // so for eq
        ("S,cls,28,27,0,0", N12), // so for le
        ("S,cls,1,1,0,0", N12),   // no denial
        ("S,cls,2,2,0,0", N12),
        ("S,cls,1,6,0,0", N12),   // u in r, v ni r
        ("S,cls,1,4,0,0", N12),   // u in r, u ni s
        ("S,cls,22,24,0,0", N12), // u eq v, v ne u
        ("S,cls,27,30,0,0", N12), // c le d, d nl c
        ("S,cls,34,28,0,0", N12), // c eq d, c nl d
        ("S,cls,27,35,0,0", N12), // c le d, c ne d
    ])
}

// 6, 11, 12.
fn emp() -> Vec<Case> {
    refused(&[
        ("S,emp,20,1,0,0", N6),
        ("S,emp,20,0,1,0", N6),
        ("S,emp,20,0,0,1", N6),
        ("S,emp,0,0,0,0", N11),
        ("S,emp,38,0,0,0", N11),
        ("S,emp,21,0,0,0", N12), // ni
        ("S,emp,1,0,0,0", N12),  // a variable
        ("S,emp,22,0,0,0", N12), // eq
    ])
}

/// No rule: 4, where a rule with these fields would be right or get another
/// number.
fn fir() -> Vec<Case> {
    refused(&[
        ("S,fir,0,0,0,6", N4), // w is fresh
        ("S,fir,1,0,0,6", N4), // more fields than w
        ("S,fir,0,1,0,6", N4),
        ("S,fir,0,0,1,6", N4),
        ("S,fir,0,0,0,0", N4), // no term
        ("S,fir,0,0,0,36", N4),
        ("S,fir,0,0,0,1", N4), // not fresh
        ("S,fir,0,0,0,7", N4),
        ("S,fir,0,0,0,26", N4),
        ("S,fir,0,0,0,4", N4),
        ("S,fir,0,0,0,35", N4),
        ("S,fir,0,0,0,33", N4),
        ("S,fir,9,0,0,6", N4),  // right for ext
        ("S,fir,38,0,0,6", N4), // 11 for ext
        ("S,fir,8,0,0,6", N4),  // 12 for ext
        ("S,fir,9,0,0,4", N4),  // 13 for ext
        ("S,fir,18,0,0,6", N4), // right for wit
        ("S,fir,1,2,0,0", N4),  // right for cls
        ("S,fir,0,0,4,7", N4),  // right for cut
        ("S,fir,0,0,0,9999", N4),
    ])
}

/// A right step of each rule after the closing on line 73.
fn tree_closed() -> Vec<Case> {
    let closing = [CLOSE, "S,emp,20,0,0,0"];
    let steps = ADDING.iter().map(|row| row.0).chain(closing);
    steps
        .map(|step| {
            case(
                &format!("bench, closed: {step}"),
                lines(&bench(37, 0, &[CLOSE, step])),
                "no,5,74,0,0,0,0,0",
            )
        })
        .collect()
}

/// The line of a term that no other line uses, made another term.
fn term_missing() -> Vec<Case> {
    let rows = [
        ("S,sgi,0,0,20,0", 3),
        ("S,all,1,0,0,0", 3),
        ("S,nul,1,0,0,0", 1),
        ("S,img,1,0,21,0", 22), // typ(u)
        ("S,img,1,0,21,0", 24), // dty(f)
        ("S,img,1,0,21,0", 25), // rea(h,u,f)
        ("S,img,1,0,21,0", 3),
        ("S,wit,18,0,0,6", 23), // typ(w)
        ("S,wit,18,0,0,6", 24), // dty(f)
        ("S,wit,18,0,0,6", 26), // rea(h,w,f)
        ("S,rdm,0,0,30,0", 27), // rea(h,v,g)
    ];
    rows.iter()
        .map(|&(step, term)| {
            case(
                &format!("bench without term {term}: {step}"),
                with_line(&bench(37, 0, &[step]), term, "T,rgv,99,0,0,0"),
                N14,
            )
        })
        .collect()
}

/// The first count of places that leaves no room for the longest alternative,
/// and those above. The step is on line 35 + places + 1.
fn branch_full() -> Vec<Case> {
    let mut cases = Vec::new();
    for (step, longest, _) in ADDING {
        let counts = [
            (1000, "no,15,1036,0,0,0,0,0"),
            (999, "no,15,1035,0,0,0,0,0"),
            (998, "no,15,1034,0,0,0,0,0"),
        ];
        for (places, reply) in &counts[..longest] {
            cases.push(case(
                &format!("bench of {places}: {step}"),
                lines(&bench(*places, 0, &[step])),
                reply,
            ));
        }
    }
    cases
}

/// Just room enough.
fn branch_fills() -> Vec<Case> {
    let mut cases = Vec::new();
    for (step, longest, alternatives) in ADDING {
        let (places, reply) = match (longest, alternatives) {
            (1, 1) => (999, "yes,0,0,35,999,2,1,0"),
            (1, 2) => (999, "yes,0,0,35,999,3,2,0"),
            (1, _) => (999, "yes,0,0,35,999,4,3,0"),
            (2, 1) => (998, "yes,0,0,35,998,2,1,0"),
            (2, _) => (998, "yes,0,0,35,998,3,2,0"),
            _ => (997, "yes,0,0,35,997,2,1,0"),
        };
        cases.push(case(
            &format!("bench of {places}: {step}, closed"),
            lines(&bench(places, 0, &closed(step, alternatives))),
            reply,
        ));
    }
    // A closing needs no room.
    for step in [CLOSE, "S,emp,20,0,0,0"] {
        cases.push(case(
            &format!("bench of 1000: {step}"),
            lines(&bench(1000, 0, &[step])),
            "yes,0,0,35,1000,1,1,0",
        ));
    }
    cases
}

/// Each splitting rule with 200 waiting, on line 72 + 200 + 1; `img` leaves two
/// waiting, so it is refused with 199 too.
fn waiting_full() -> Vec<Case> {
    let rows = [
        (200, "S,ext,9,0,0,6", "no,16,273,0,0,0,0,0"),
        (200, "S,cue,12,0,0,0", "no,16,273,0,0,0,0,0"),
        (200, "S,sgi,0,0,20,0", "no,16,273,0,0,0,0,0"),
        (200, "S,cut,0,0,4,7", "no,16,273,0,0,0,0,0"),
        (200, "S,img,1,0,21,0", "no,16,273,0,0,0,0,0"),
        (199, "S,img,1,0,21,0", "no,16,272,0,0,0,0,0"),
        (200, "S,rdm,0,0,30,0", "no,16,273,0,0,0,0,0"),
    ];
    rows.iter()
        .map(|&(waiting, step, reply)| {
            case(
                &format!("bench, {waiting} waiting: {step}"),
                lines(&bench(37, waiting, &[step])),
                reply,
            )
        })
        .collect()
}

/// 200 waiting after the step, or before a step that doesn't split. Then 201
/// branches have to be closed.
fn waiting_fills() -> Vec<Case> {
    let rows = [
        (199, "S,ext,9,0,0,6", "yes,0,0,35,37,401,201,0"),
        (199, "S,cue,12,0,0,0", "yes,0,0,35,37,401,201,0"),
        (199, "S,sgi,0,0,20,0", "yes,0,0,35,37,401,201,0"),
        (198, "S,img,1,0,21,0", "yes,0,0,35,37,400,201,0"),
        (199, "S,rdm,0,0,30,0", "yes,0,0,35,37,401,201,0"),
        (200, "S,ref,0,0,9,0", "yes,0,0,35,37,402,201,0"),
    ];
    rows.iter()
        .map(|&(waiting, step, reply)| {
            case(
                &format!("bench, {waiting} waiting: {step}, closed"),
                lines(&bench(37, waiting, &closed(step, 201))),
                reply,
            )
        })
        .collect()
}

/// The smaller number is given. The step is on line 1036.
fn two_checks_on_a_full_branch() -> Vec<Case> {
    let rows = [
        ("S,ref,1,0,9,0", "no,6,1036,0,0,0,0,0"),
        ("S,ref,0,0,36,0", "no,8,1036,0,0,0,0,0"),
        ("S,cut,0,0,7,7", "no,9,1036,0,0,0,0,0"),
        ("S,ler,0,0,4,0", "no,9,1036,0,0,0,0,0"),
        ("S,cpe,1001,0,0,0", "no,11,1036,0,0,0,0,0"),
        ("S,cpe,11,0,0,0", "no,12,1036,0,0,0,0,0"),
        ("S,ext,9,0,0,4", "no,13,1036,0,0,0,0,1"),
        ("S,wit,18,0,0,33", "no,13,1036,0,0,0,0,36"),
        ("S,rdm,0,0,31,0", "no,14,1036,0,0,0,0,0"),
    ];
    rows.iter()
        .map(|&(step, reply)| {
            case(
                &format!("bench of 1000: {step}"),
                lines(&bench(1000, 0, &[step])),
                reply,
            )
        })
        .collect()
}

/// The smaller number is given. The step is on line 273, or with 800 assumed
/// places, which the cuts make 1,000, on line 35 + 800 + 200 + 1.
fn two_checks_with_200_waiting() -> Vec<Case> {
    let rows = [
        (37, "S,cut,1,0,4,7", "no,6,273,0,0,0,0,0"),
        (37, "S,cut,0,0,4,36", "no,8,273,0,0,0,0,0"),
        (37, "S,cut,0,0,7,7", "no,9,273,0,0,0,0,0"),
        (37, "S,cue,238,0,0,0", "no,11,273,0,0,0,0,0"),
        (37, "S,cue,13,0,0,0", "no,12,273,0,0,0,0,0"),
        (37, "S,ext,9,0,0,4", "no,13,273,0,0,0,0,1"),
        (37, "S,rdm,0,0,31,0", "no,14,273,0,0,0,0,0"),
        (800, "S,cut,0,0,4,7", "no,15,1036,0,0,0,0,0"),
        (800, "S,img,1,0,21,0", "no,15,1036,0,0,0,0,0"),
        (799, "S,rdm,0,0,30,0", "no,15,1035,0,0,0,0,0"), // two literals
        (799, "S,cut,0,0,4,7", "no,16,1035,0,0,0,0,0"),  // one literal
    ];
    rows.iter()
        .map(|&(places, step, reply)| {
            case(
                &format!("bench of {places}, 200 waiting: {step}"),
                lines(&bench(places, 200, &[step])),
                reply,
            )
        })
        .collect()
}

/// 4 comes before 5 and 14 to 16, too.
fn fir_at_the_limits() -> Vec<Case> {
    let step = "S,fir,0,0,0,6";
    let rows = [
        (
            "closed",
            lines(&bench(37, 0, &[CLOSE, step])),
            "no,4,74,0,0,0,0,0",
        ),
        (
            "without all",
            with_line(&bench(37, 0, &[step]), 3, "T,rgv,99,0,0,0"),
            N4,
        ),
        (
            "999 places",
            lines(&bench(999, 0, &[step, CLOSE])),
            "no,4,1035,0,0,0,0,0",
        ),
        (
            "1,000 places",
            lines(&bench(1000, 0, &[step])),
            "no,4,1036,0,0,0,0,0",
        ),
        (
            "200 waiting",
            lines(&bench(37, 200, &[step])),
            "no,4,273,0,0,0,0,0",
        ),
        (
            "1,000 places, 200 waiting",
            lines(&bench(800, 200, &[step])),
            "no,4,1036,0,0,0,0,0",
        ),
    ];
    rows.into_iter()
        .map(|(what, file, reply)| case(&format!("bench, fir, {what}"), file, reply))
        .collect()
}
