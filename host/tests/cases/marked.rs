//! The cases that the document marks.

use super::{case, lines, with_line, with_more, without_line, Case, F, G};

pub fn cases() -> Vec<Case> {
    let f = |what: &str, number, line, reply| {
        case(
            &format!("marked: F, {what}"),
            with_line(&F, number, line),
            reply,
        )
    };
    vec![
        case("marked: F", lines(&F), "yes,0,0,4,2,2,1,0"),
        case("marked: G", lines(&G), "yes,0,0,4,3,3,2,0"),
        case(
            "marked: G without its last line",
            without_line(&G, 10),
            "no,17,10,0,0,0,0,0",
        ),
        case("marked: no bytes", Vec::new(), "no,17,1,0,0,0,0,0"),
        case(
            "marked: F, line 8 removed",
            without_line(&F, 8),
            "no,17,8,0,0,0,0,0",
        ),
        case(
            "marked: F, line 8 twice",
            with_more(&F, &F[7..]),
            "no,5,9,0,0,0,0,0",
        ),
        f(
            "places of cls changed over",
            8,
            "S,cls,2,3,0,0",
            "no,12,8,0,0,0,0,0",
        ),
        f("cpe on place 3", 7, "S,cpe,3,0,0,0", "no,11,7,0,0,0,0,0"),
        f("cpe on place 2", 7, "S,cpe,2,0,0,0", "no,12,7,0,0,0,0,0"),
        f("cap of itself", 4, "T,cap,2,4,0,0", "no,8,4,0,0,0,0,0"),
        f("cap of a reference", 4, "T,cap,2,1,0,0", "no,9,4,0,0,0,0,0"),
        f("line 3 same as line 2", 3, F[1], "no,10,3,0,0,0,0,0"),
        f("leading zero", 1, "T,rfv,01,0,0,0", "no,2,1,0,0,0,0,0"),
    ]
}
