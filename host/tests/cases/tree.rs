//! Nested splits: the order of the alternatives, the places after a cut back,
//! and what is fresh.

use super::rules_accept::IMG;
use super::{case, lines, with_line, with_line_case, with_lines, with_more, Case};
use super::{FIELD, G, HEAP, R, S, U, V};

pub fn cases() -> Vec<Case> {
    let groups = [
        split_in_the_first_alternative(),
        split_in_the_second_alternative(),
        splits_in_img(),
        second_alternative_checked(),
        fresh_again(),
        fresh_again_after_a_larger_term(),
        fresh_beside_a_waiting_alternative(),
    ];
    groups.into_iter().flatten().collect()
}

const LEFT: [&str; 15] = [
    U,
    R,               // 2, a
    S,               // 3, b
    "T,rgv,3,0,0,0", // 4, c
    "T,cup,2,3,0,0", // 5, cup(a,b)
    "T,cup,5,4,0,0", // 6, cup(cup(a,b),c)
    "A,in,1,6,0,0",  // 1: u in cup(cup(a,b),c)
    "A,ni,1,2,0,0",  // 2: u ni a
    "A,ni,1,3,0,0",  // 3: u ni b
    "A,ni,1,4,0,0",  // 4: u ni c
    "S,cue,1,0,0,0", // 5: u in cup(a,b)
    "S,cue,5,0,0,0", // 6: u in a
    "S,cls,6,2,0,0", // waiting last: 6: u in b
    "S,cls,6,3,0,0", // then 5: u in c
    "S,cls,5,4,0,0",
];

fn split_in_the_first_alternative() -> Vec<Case> {
    let changed = |number, line, reply| with_line_case("tree: left", &LEFT, (number, line), reply);
    vec![
        case("tree: left", lines(&LEFT), "yes,0,0,6,4,5,3,0"),
        changed(13, "S,cls,6,3,0,0", "no,12,13,0,0,0,0,0"), // b isn't first
        changed(14, "S,cls,5,4,0,0", "no,12,14,0,0,0,0,0"), // nor c second
        changed(14, "S,cls,6,2,0,0", "no,12,14,0,0,0,0,0"), // a is closed
        changed(14, "S,cls,7,3,0,0", "no,11,14,0,0,0,0,0"), // b took place 6 again
        changed(15, "S,cls,6,4,0,0", "no,11,15,0,0,0,0,0"), // c took place 5
        changed(15, "S,cls,5,3,0,0", "no,12,15,0,0,0,0,0"), // b is closed
        case(
            "tree: left, two open",
            lines(&LEFT[..13]),
            "no,17,14,0,0,0,0,0",
        ),
        case(
            "tree: left, one open",
            lines(&LEFT[..14]),
            "no,17,15,0,0,0,0,0",
        ),
        case(
            "tree: left, step after the last closing",
            with_more(&LEFT, &["S,ref,0,0,1,0"]),
            "no,5,16,0,0,0,0,0",
        ),
    ]
}

fn split_in_the_second_alternative() -> Vec<Case> {
    let right = [
        (5, "T,cup,3,4,0,0"),  // cup(b,c)
        (6, "T,cup,2,5,0,0"),  // cup(a,cup(b,c))
        (11, "S,cue,1,0,0,0"), // 5: u in a
        (12, "S,cls,5,2,0,0"), // 5: u in cup(b,c)
        (13, "S,cue,5,0,0,0"), // 6: u in b
        (14, "S,cls,6,3,0,0"), // 6: u in c; place 5 stays
        (15, "S,cls,6,4,0,0"),
    ];
    let last = |line| with_lines(&LEFT, &[&right[..], &[(15, line)]].concat());
    vec![
        case(
            "tree: right",
            with_lines(&LEFT, &right),
            "yes,0,0,6,4,5,3,0",
        ),
        case(
            "tree: right, place 5 is no alternative",
            last("S,cls,5,4,0,0"),
            "no,12,15,0,0,0,0,0",
        ),
        case(
            "tree: right, no place 7",
            last("S,cls,7,4,0,0"),
            "no,11,15,0,0,0,0,0",
        ),
    ]
}

/// `img` leaves two waiting; a cut is made inside its first and its second
/// alternative, whose own alternatives come before the next of `img`.
fn splits_in_img() -> Vec<Case> {
    let steps = [
        "S,img,1,0,5,0", // 14, 5: typ(u) nl dty(f)
        "S,cut,0,0,1,2", // 15, 6: u in r
        "S,cls,2,5,0,0", // 16, 6: u ni r; place 5 stays
        "S,cls,1,6,0,0", // 17, 5: rea(h,u,f) ni all
        "S,cut,0,0,1,2", // 18, 6: u in r
        "S,cls,3,5,0,0", // 19, 6: u ni r; place 5 stays
        "S,cls,1,6,0,0", // 20, 5: rea(h,u,f) in img(h,r,f)
        "S,cls,5,4,0,0", // 21
    ];
    let file = [&IMG[..13], &steps].concat();
    let changed = |number, line, reply| with_line_case("tree: img", &file, (number, line), reply);
    vec![
        case("tree: img", lines(&file), "yes,0,0,9,4,8,5,0"),
        changed(17, "S,cls,3,5,0,0", "no,12,17,0,0,0,0,0"), // the cut isn't done
        changed(18, "S,cls,5,4,0,0", "no,12,18,0,0,0,0,0"), // third before second
        changed(20, "S,cls,5,4,0,0", "no,12,20,0,0,0,0,0"), // the cut isn't done
        changed(21, "S,cls,1,6,0,0", "no,11,21,0,0,0,0,0"), // no place 6 now
        changed(21, "S,cls,3,5,0,0", "no,12,21,0,0,0,0,0"), // second is closed
        case(
            "tree: img, alternatives from the right",
            with_lines(&IMG, &[(16, "S,cls,5,4,0,0"), (17, "S,cls,3,5,0,0")]),
            "no,12,16,0,0,0,0,0",
        ),
    ]
}

/// The last of two closings is checked as the first is.
fn second_alternative_checked() -> Vec<Case> {
    vec![
        case(
            "tree: G, first closing twice",
            with_line(&G, 10, "S,cls,4,2,0,0"),
            "no,12,10,0,0,0,0,0",
        ),
        case(
            "tree: G, second closing on no place",
            with_line(&G, 10, "S,cls,5,3,0,0"),
            "no,11,10,0,0,0,0,0",
        ),
        case(
            "tree: G, second closing first",
            with_lines(&G, &[(9, "S,cls,4,3,0,0"), (10, "S,cls,4,2,0,0")]),
            "no,12,9,0,0,0,0,0",
        ),
    ]
}

/// w is used in the first alternative; when that is closed it is fresh again.
fn fresh_again() -> Vec<Case> {
    let file = [
        U,
        V,               // 2, w
        R,               // 3
        S,               // 4
        "A,ne,3,3,0,0",  // 1: r ne r
        "S,cut,0,0,1,4", // 6, 2: u in s
        "S,ext,1,0,0,2", // 7, 3: w in r, 4: w ni r
        "S,cls,3,4,0,0", // 8, 3: w ni r, 4: w in r
        "S,cls,4,3,0,0", // 9, 2: u ni s
        "S,ext,1,0,0,2", // 10, 3: w in r, 4: w ni r
        "S,cls,3,4,0,0", // 11, 3: w ni r, 4: w in r
        "S,cls,4,3,0,0", // 12
    ];
    let changed = |what: &str, number, line, reply| {
        case(
            &format!("tree: {what}"),
            with_line(&file, number, line),
            reply,
        )
    };
    // w in r and w ni r stand before the split, so they stay.
    let before = [
        &file[..5],
        &["S,ext,1,0,0,2", "S,cut,0,0,1,4", "S,ext,1,0,0,2"],
    ]
    .concat();
    let closed_once = [
        &file[..5],
        &[
            "S,ext,1,0,0,2", // 6, 2: w in r, 3: w ni r
            "S,cut,0,0,1,4", // 7, 4: u in s
            "S,cls,2,3,0,0", // 8, 4: u ni s
            "S,ext,1,0,0,2", // 9
        ],
    ]
    .concat();
    vec![
        case("tree: w fresh again", lines(&file), "yes,0,0,4,1,7,4,0"),
        // 3: w in r
        changed(
            "w used twice in an alternative",
            8,
            "S,ext,1,0,0,2",
            "no,13,8,0,0,0,0,3",
        ),
        // 3: w ni r
        changed(
            "w used again in the second alternative of ext",
            9,
            "S,ext,1,0,0,2",
            "no,13,9,0,0,0,0,3",
        ),
        // 3: w in r
        changed(
            "w used twice in the second alternative",
            11,
            "S,ext,1,0,0,2",
            "no,13,11,0,0,0,0,3",
        ),
        // 2: u ni s
        changed(
            "u of the cut in the second alternative",
            10,
            "S,ext,1,0,0,1",
            "no,13,10,0,0,0,0,2",
        ),
        // 2: w in r, here and after the closing
        case(
            "tree: w used before the split",
            lines(&before),
            "no,13,8,0,0,0,0,2",
        ),
        case(
            "tree: w used before the split, second alternative",
            lines(&closed_once),
            "no,13,9,0,0,0,0,2",
        ),
    ]
}

/// sin(w) comes in with a cut, and is gone when both its alternatives are
/// closed. In both z is taken as fresh, so that w has been looked for there.
fn fresh_again_after_a_larger_term() -> Vec<Case> {
    let file = [
        U,
        V,               // 2, w
        R,               // 3
        "T,sin,2,0,0,0", // 4, sin(w)
        "T,rfv,3,0,0,0", // 5, z
        "A,eq,3,3,0,0",  // 1: r eq r
        "A,ne,3,3,0,0",  // 2: r ne r
        "S,cut,0,0,1,3", // 8, 3: u in r
        "S,cut,0,0,1,4", // 9, 4: u in sin(w)
        "S,ext,2,0,0,5", // 10, 5: z in r, 6: z ni r
        "S,cls,1,2,0,0", // 11, 5: z ni r, 6: z in r
        "S,cls,1,2,0,0", // 12, 4: u ni sin(w)
        "S,ext,2,0,0,5", // 13, 5: z in r, 6: z ni r
        "S,cls,1,2,0,0", // 14, 5: z ni r, 6: z in r
        "S,cls,1,2,0,0", // 15, 3: u ni r
        "S,ext,2,0,0,2", // 16, 4: w in r, 5: w ni r
        "S,cls,1,2,0,0", // 17, 4: w ni r, 5: w in r
        "S,cls,1,2,0,0", // 18
    ];
    let changed = |what: &str, number, line, reply| {
        case(
            &format!("tree: sin(w), {what}"),
            with_line(&file, number, line),
            reply,
        )
    };
    vec![
        case("tree: sin(w) closed", lines(&file), "yes,0,0,5,2,11,6,0"),
        // Then line 9 adds w in r, w ni r, and line 12 leads to w ni r, w in r.
        changed(
            "ext in place of its cut",
            9,
            "S,ext,2,0,0,2",
            "yes,0,0,5,2,11,6,0",
        ),
        // 4: u in sin(w); 5: z in r; 4: u ni sin(w); 3: u ni r
        changed(
            "w in the first alternative",
            10,
            "S,ext,2,0,0,2",
            "no,13,10,0,0,0,0,4",
        ),
        changed("z twice", 11, "S,ext,2,0,0,5", "no,13,11,0,0,0,0,5"),
        changed(
            "w in the second alternative",
            13,
            "S,ext,2,0,0,2",
            "no,13,13,0,0,0,0,4",
        ),
        changed("u not fresh", 16, "S,ext,2,0,0,1", "no,13,16,0,0,0,0,3"),
    ]
}

/// Only the waiting alternative of `rdm` holds w, the reference written.
fn fresh_beside_a_waiting_alternative() -> Vec<Case> {
    let file = [
        U,
        V,                // 2, w
        "T,rfv,3,0,0,0",  // 3, y
        HEAP,             // 4
        FIELD,            // 5, f
        "T,fnv,2,0,0,0",  // 6, g
        "T,wri,4,1,5,2",  // 7, wri(h,u,f,w)
        "T,rea,7,3,6,0",  // 8, rea(wri(h,u,f,w),y,g)
        "T,rea,4,3,6,0",  // 9, rea(h,y,g)
        R,                // 10
        "T,rfv,4,0,0,0",  // 11, z
        "A,ne,10,10,0,0", // 1: r ne r
        "S,rdm,0,0,8,0",  // 13, 2: u eq y, 3: f eq g
        "S,ext,1,0,0,2",  // 14, 4: w in r, 5: w ni r
        "S,cls,4,5,0,0",  // 15, 4: w ni r, 5: w in r
        "S,cls,5,4,0,0",  // 16, 2: term 8 eq term 9
        "S,ext,1,0,0,11", // 17, 3: z in r, 4: z ni r
        "S,cls,3,4,0,0",  // 18, 3: z ni r, 4: z in r
        "S,cls,4,3,0,0",  // 19
    ];
    let changed = |what: &str, number, line, reply| {
        case(
            &format!("tree: rdm, {what}"),
            with_line(&file, number, line),
            reply,
        )
    };
    vec![
        case(
            "tree: w only in a waiting alternative",
            lines(&file),
            "yes,0,0,11,1,7,4,0",
        ),
        changed(
            "z in both alternatives",
            14,
            "S,ext,1,0,0,11",
            "yes,0,0,11,1,7,4,0",
        ),
        // 2: term 8, which holds w, eq term 9
        changed(
            "w not waiting any more",
            17,
            "S,ext,1,0,0,2",
            "no,13,17,0,0,0,0,2",
        ),
        // 2: u eq y
        changed("u on the branch", 14, "S,ext,1,0,0,1", "no,13,14,0,0,0,0,2"),
        changed("y on the branch", 14, "S,ext,1,0,0,3", "no,13,14,0,0,0,0,2"),
    ]
}
