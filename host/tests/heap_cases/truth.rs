//! Each operator and each relation, in one heap. Every literal is there with
//! its denial.

use super::{case, lines, Case};

/// Classes 1 le 2 le 3, with 0 apart. References 1 to 4 are allocated, 5 isn't.
const HEAP: [&str; 39] = [
    "D,siz,6,3,4,0",
    "D,alc,1,0,0,0",
    "D,alc,2,0,0,0",
    "D,alc,3,0,0,0",
    "D,alc,4,0,0,0",
    "D,sub,1,2,0,0",
    "D,sub,2,3,0,0",
    "D,sub,1,3,0,0",
    // typ(4) is 0
    "D,typ,0,3,0,0",
    "D,typ,1,1,0,0",
    "D,typ,2,2,0,0",
    "D,typ,3,3,0,0",
    "D,typ,5,2,0,0",
    // dty(2) is 0
    "D,dty,0,2,0,0",
    "D,dty,1,3,0,0",
    // u, v, x; y isn't said
    "D,rfv,1,1,0,0",
    "D,rfv,2,2,0,0",
    "D,rfv,3,5,0,0",
    // r = {1, 2}, s = {2, 3}; q isn't said
    "D,rgv,1,1,0,0",
    "D,rgv,1,2,0,0",
    "D,rgv,2,2,0,0",
    "D,rgv,2,3,0,0",
    // f, g, k; e isn't said
    "D,fnv,1,0,0,0",
    "D,fnv,2,1,0,0",
    "D,fnv,4,2,0,0",
    // c, d; b isn't said
    "D,clv,1,1,0,0",
    "D,clv,2,3,0,0",
    // h
    "D,arv,1,1,0,2",
    "D,arv,1,2,0,3",
    "D,arv,1,3,0,1",
    "D,arv,1,1,1,5",
    "D,arv,1,2,1,4",
    "D,arv,1,4,2,4",
    "D,arv,1,0,0,5",
    "D,arv,1,5,2,1",
    // i; z isn't said
    "D,arv,2,1,0,2",
    // Variables that no T line has.
    "D,rfv,9999,3,0,0",
    "D,rgv,4,4,0,0",
    "D,arv,9,5,2,5",
];

const TERMS: [&str; 55] = [
    "T,nul,0,0,0,0",   // 1, nul
    "T,rfv,1,0,0,0",   // 2, u = 1
    "T,rfv,2,0,0,0",   // 3, v = 2
    "T,rfv,3,0,0,0",   // 4, x = 5
    "T,rfv,4,0,0,0",   // 5, y = nul
    "T,emp,0,0,0,0",   // 6, {}
    "T,all,0,0,0,0",   // 7, {1, 2, 3, 4}
    "T,rgv,1,0,0,0",   // 8, r = {1, 2}
    "T,rgv,2,0,0,0",   // 9, s = {2, 3}
    "T,rgv,3,0,0,0",   // 10, q = {}
    "T,arv,1,0,0,0",   // 11, h
    "T,arv,2,0,0,0",   // 12, i: reference 1 and field 0 give 2, all else nul
    "T,arv,3,0,0,0",   // 13, z: nul everywhere
    "T,fnv,1,0,0,0",   // 14, f = 0
    "T,fnv,2,0,0,0",   // 15, g = 1
    "T,fnv,3,0,0,0",   // 16, e = 0
    "T,fnv,4,0,0,0",   // 17, k = 2
    "T,clv,1,0,0,0",   // 18, c = 1
    "T,clv,2,0,0,0",   // 19, d = 3
    "T,clv,3,0,0,0",   // 20, b = 0
    "T,cup,8,9,0,0",   // 21, cup(r,s) = {1, 2, 3}
    "T,cap,8,9,0,0",   // 22, cap(r,s) = {2}
    "T,dif,8,9,0,0",   // 23, dif(r,s) = {1}
    "T,dif,9,8,0,0",   // 24, dif(s,r) = {3}
    "T,sin,2,0,0,0",   // 25, sin(u) = {1}
    "T,sin,3,0,0,0",   // 26, sin(v) = {2}
    "T,sin,4,0,0,0",   // 27, sin(x) = {}: 5 isn't allocated
    "T,sin,1,0,0,0",   // 28, sin(nul) = {}
    "T,rea,11,2,14,0", // 29, rea(h,u,f) = 2
    "T,rea,11,2,15,0", // 30, rea(h,u,g) = 5
    "T,rea,11,3,14,0", // 31, rea(h,v,f) = 3
    "T,rea,11,1,14,0", // 32, rea(h,nul,f) = 5
    "T,rea,11,4,17,0", // 33, rea(h,x,k) = 1
    "T,rea,13,2,14,0", // 34, rea(z,u,f) = nul
    // dty(f) is 2. typ(1) = 1 is under it, and h gives 2; typ(2) = 2 too, 3.
    "T,img,11,8,14,0", // 35, img(h,r,f) = {2, 3}
    // typ(2) is under dty(f), and h gives 3; typ(3) = 3 isn't.
    "T,img,11,9,14,0", // 36, img(h,s,f) = {3}
    // dty(g) is 3. From 1 h gives 5, which isn't allocated; from 2 it gives 4.
    "T,img,11,8,15,0", // 37, img(h,r,g) = {4}
    // dty(k) is 0. Of the allocated only 4 has class 0, and h gives 4.
    "T,img,11,7,17,0", // 38, img(h,all,k) = {4}
    "T,wri,11,2,14,3", // 39, wri(h,u,f,v) = h: 2 was there already
    "T,wri,11,2,14,2", // 40, j = wri(h,u,f,u): 1 in place of 2
    "T,wri,13,2,14,3", // 41, wri(z,u,f,v) = i
    "T,typ,2,0,0,0",   // 42, typ(u) = 1
    "T,typ,3,0,0,0",   // 43, typ(v) = 2
    "T,typ,4,0,0,0",   // 44, typ(x) = 2
    "T,typ,1,0,0,0",   // 45, typ(nul) = 3
    "T,dty,14,0,0,0",  // 46, dty(f) = 2
    "T,dty,15,0,0,0",  // 47, dty(g) = 3
    "T,dty,17,0,0,0",  // 48, dty(k) = 0
    "T,wri,11,1,15,2", // 49, l = wri(h,nul,g,u): 1 in place of nul
    "T,rea,49,1,15,0", // 50, rea(l,nul,g) = 1
    "T,rea,40,2,14,0", // 51, rea(j,u,f) = 1
    "T,rea,40,3,14,0", // 52, rea(j,v,f) = 3
    "T,rea,40,2,15,0", // 53, rea(j,u,g) = 5
    "T,img,40,8,14,0", // 54, img(j,r,f) = {1, 3}
    "T,typ,29,0,0,0",  // 55, typ(rea(h,u,f)) = 2
];

/// The literals are true or false in the heap above, the denials the other way.
pub fn cases() -> Vec<Case> {
    let tables: [&[(&str, bool)]; 6] = [
        &MEMBERS,
        &REFERENCES,
        &REGIONS,
        &HEAP_VALUES,
        &FIELDS_AND_CLASSES,
        &ORDER,
    ];
    let mut cases = Vec::new();
    for (literal, truth) in tables.concat() {
        let (word, sides) = literal.split_once(',').expect("a literal has a word");
        let denial = match word {
            "in" => "ni",
            "eq" => "ne",
            _ => "nl",
        };
        for (word, truth) in [(word, truth), (denial, !truth)] {
            let line = format!("A,{word},{sides},0,0");
            let checker = [&TERMS[..], &[&line]].concat();
            // 55 T lines: the A line is line 56.
            let reply = if truth { "0,0,0" } else { "0,0,56" };
            let name = format!("truth: {line} is {truth}");
            cases.push(case(&name, lines(&checker), lines(&HEAP), reply));
        }
    }
    cases
}

const MEMBERS: [(&str, bool); 20] = [
    ("in,2,8", true),    // 1 in {1, 2}
    ("in,2,9", false),   // 1 in {2, 3}
    ("in,2,10", false),  // 1 in {}
    ("in,2,6", false),   // 1 in {}
    ("in,2,7", true),    // 1 in all
    ("in,4,7", false),   // 5 in all
    ("in,1,7", false),   // nul in all
    ("in,5,7", false),   // y is nul
    ("in,2,21", true),   // 1 in {1, 2, 3}
    ("in,4,21", false),  // 5 in {1, 2, 3}
    ("in,3,22", true),   // 2 in {2}
    ("in,2,22", false),  // 1 in {2}
    ("in,2,23", true),   // 1 in {1}
    ("in,3,23", false),  // 2 in {1}
    ("in,2,25", true),   // 1 in {1}
    ("in,3,25", false),  // 2 in {1}
    ("in,4,27", false),  // 5 in {}
    ("in,29,35", true),  // 2 in {2, 3}
    ("in,2,35", false),  // 1 in {2, 3}
    ("in,30,37", false), // 5 in {4}
];

const REFERENCES: [(&str, bool); 14] = [
    ("eq,2,2", true),
    ("eq,2,3", false),   // 1, 2
    ("eq,5,1", true),    // y isn't said
    ("eq,4,1", false),   // 5, nul
    ("eq,29,3", true),   // 2, 2
    ("eq,30,4", true),   // 5, 5
    ("eq,31,3", false),  // 3, 2
    ("eq,32,4", true),   // 5, 5
    ("eq,33,2", true),   // 1, 1
    ("eq,34,1", true),   // nul, nul
    ("eq,50,2", true),   // what was written at nul
    ("eq,51,29", false), // 1, 2: what was written, and what was there
    ("eq,52,31", true),  // another reference keeps its entry
    ("eq,53,30", true),  // another field keeps its entry
];

const REGIONS: [(&str, bool); 15] = [
    ("eq,8,9", false),   // {1, 2}, {2, 3}
    ("eq,10,6", true),   // q isn't said
    ("eq,7,6", false),   // something is allocated
    ("eq,21,7", false),  // {1, 2, 3}, {1, 2, 3, 4}
    ("eq,26,22", true),  // {2}, {2}
    ("eq,25,23", true),  // {1}, {1}
    ("eq,23,24", false), // {1}, {3}
    ("eq,27,6", true),   // {}, {}
    ("eq,28,6", true),   // {}, {}
    ("eq,25,26", false), // {1}, {2}
    ("eq,35,9", true),   // {2, 3}, {2, 3}
    ("eq,36,24", true),  // {3}, {3}
    ("eq,37,38", true),  // {4}, {4}
    ("eq,35,36", false), // {2, 3}, {3}
    ("eq,54,35", false), // {1, 3}, {2, 3}
];

const HEAP_VALUES: [(&str, bool); 6] = [
    ("eq,39,11", true),  // what is written was there
    ("eq,40,11", false), // what is written wasn't
    ("eq,41,12", true),  // one entry
    ("eq,11,12", false),
    ("eq,13,12", false), // one entry differs
    ("eq,49,11", false), // one entry of nul differs
];

const FIELDS_AND_CLASSES: [(&str, bool); 11] = [
    ("eq,14,16", true),  // f is said to be 0, e isn't said
    ("eq,14,15", false), // 0, 1
    ("eq,15,17", false), // 1, 2
    ("eq,42,18", true),  // 1, 1
    ("eq,44,43", true),  // 2, 2
    ("eq,45,19", true),  // 3, 3
    ("eq,48,20", true),  // 0, 0
    ("eq,47,19", true),  // 3, 3
    ("eq,55,46", true),  // 2, 2
    ("eq,42,43", false), // 1, 2
    ("eq,46,47", false), // 2, 3
];

const ORDER: [(&str, bool); 11] = [
    ("le,18,19", true),  // 1, 3
    ("le,19,18", false), // 3, 1
    ("le,42,43", true),  // 1, 2
    ("le,43,42", false), // 2, 1
    ("le,18,18", true),
    ("le,20,20", true),
    ("le,44,46", true),  // 2, 2
    ("le,45,47", true),  // 3, 3
    ("le,47,46", false), // 3, 2
    ("le,20,19", false), // 0, 3: class 0 is under itself only
    ("le,18,20", false), // 1, 0
];
