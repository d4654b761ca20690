//! Files shared by the tests, with replies worked out by hand.

/// The lines, each ended by LF.
pub fn file(lines: &[&str]) -> Vec<u8> {
    let mut bytes = Vec::new();
    for line in lines {
        bytes.extend_from_slice(line.as_bytes());
        bytes.push(b'\n');
    }
    bytes
}

/// F of the document.
pub const F: [&str; 8] = [
    "T,rfv,1,0,0,0",
    "T,rgv,1,0,0,0",
    "T,rgv,2,0,0,0",
    "T,cap,2,3,0,0",
    "A,in,1,4,0,0",
    "A,ni,1,2,0,0",
    "S,cpe,1,0,0,0",
    "S,cls,3,2,0,0",
];

/// G of the document.
pub const G: [&str; 10] = [
    "T,rfv,1,0,0,0",
    "T,rgv,1,0,0,0",
    "T,rgv,2,0,0,0",
    "T,cup,2,3,0,0",
    "A,in,1,4,0,0",
    "A,ni,1,2,0,0",
    "A,ni,1,3,0,0",
    "S,cue,1,0,0,0",
    "S,cls,4,2,0,0",
    "S,cls,4,3,0,0",
];

/// All three alternatives of `img`, each closed. Terms: 1 u, 2 h, 3 r, 4 f,
/// 5 img(h,r,f), 6 all, 7 typ(u), 8 dty(f), 9 rea(h,u,f).
pub const IMG: [&str; 17] = [
    "T,rfv,1,0,0,0",
    "T,arv,1,0,0,0",
    "T,rgv,1,0,0,0",
    "T,fnv,1,0,0,0",
    "T,img,2,3,4,0",
    "T,all,0,0,0,0",
    "T,typ,1,0,0,0",
    "T,dty,4,0,0,0",
    "T,rea,2,1,4,0",
    "A,in,1,3,0,0",
    "A,le,7,8,0,0",
    "A,in,9,6,0,0",
    "A,ni,9,5,0,0",
    "S,img,1,0,5,0",
    "S,cls,2,5,0,0",
    "S,cls,3,5,0,0",
    "S,cls,5,4,0,0",
];

/// Terms: 1 h, 2 r, 3 f, 4 img(h,r,f), 5 u, 6 w, 7 typ(w), 8 dty(f),
/// 9 rea(h,w,f), 10 emp.
pub const WIT: [&str; 15] = [
    "T,arv,1,0,0,0",
    "T,rgv,1,0,0,0",
    "T,fnv,1,0,0,0",
    "T,img,1,2,3,0",
    "T,rfv,1,0,0,0",
    "T,rfv,2,0,0,0",
    "T,typ,6,0,0,0",
    "T,dty,3,0,0,0",
    "T,rea,1,6,3,0",
    "T,emp,0,0,0,0",
    "A,in,5,4,0,0",
    "A,eq,2,10,0,0",
    "S,wit,1,0,0,6",
    "S,eqr,2,3,0,0",
    "S,emp,6,0,0,0",
];

/// Terms: 1 h, 2 u, 3 f, 4 v, 5 wri(h,u,f,v), 6 y, 7 g,
/// 8 rea(wri(h,u,f,v),y,g), 9 rea(h,y,g).
pub const RDM: [&str; 14] = [
    "T,arv,1,0,0,0",
    "T,rfv,1,0,0,0",
    "T,fnv,1,0,0,0",
    "T,rfv,2,0,0,0",
    "T,wri,1,2,3,4",
    "T,rfv,3,0,0,0",
    "T,fnv,2,0,0,0",
    "T,rea,5,6,7,0",
    "T,rea,1,6,7,0",
    "A,ne,2,6,0,0",
    "A,ne,8,9,0,0",
    "S,rdm,0,0,8,0",
    "S,cls,3,1,0,0",
    "S,cls,3,2,0,0",
];

/// A clause of two literals, each denied by an assumption. Terms: 1 u, 2 r, 3 s.
/// Places: 1 u ni r, 2 u ni s, then 3 u in r, and 3 u in s.
pub const OR: [&str; 10] = [
    "T,rfv,1,0,0,0",
    "T,rgv,1,0,0,0",
    "T,rgv,2,0,0,0",
    "A,ni,1,2,0,0",
    "A,ni,1,3,0,0",
    "C,in,1,2,1,0",
    "C,in,1,3,1,0",
    "S,cla,0,0,1,0",
    "S,cls,3,1,0,0",
    "S,cls,3,2,0,0",
];

/// A region inside its own image: nothing in the image is outside the region.
/// Terms: 1 u, 2 r, 3 h, 4 f, 5 i = img(h,r,f), 6 cup(r,i), 7 cup(i,r). `fin`
/// adds 4 cup(i,r) eq r; then 5 u in cup(i,r), 6 u in r.
pub const FIN: [&str; 14] = [
    "T,rfv,1,0,0,0",
    "T,rgv,1,0,0,0",
    "T,arv,1,0,0,0",
    "T,fnv,1,0,0,0",
    "T,img,3,2,4,0",
    "T,cup,2,5,0,0",
    "T,cup,5,2,0,0",
    "A,eq,6,5,0,0",
    "A,in,1,5,0,0",
    "A,ni,1,2,0,0",
    "S,fin,1,0,0,0",
    "S,cui,2,0,7,0",
    "S,eqr,4,5,0,0",
    "S,cls,6,3,0,0",
];

/// An accepted file that wants an allocated object, so assumes all ne emp: no
/// region r is empty and leaves nothing of all. Terms: 1 w, 2 all, 3 emp, 4 r,
/// 5 dif(all,r). What the steps add, and where:
/// - `ext`: 4 w in all, 5 w ni emp. The alternative w ni all, w in emp waits.
/// - `cut`: 6 w in r. The alternative w ni r waits. `eqr`: 7 w in emp. Closed.
/// - 6 w ni r. `dfi`: 7 w in dif(all,r). `eqr`: 8 w in emp. Closed.
/// - 4 w ni all, 5 w in emp. Closed.
pub const ALLOCATED: [&str; 16] = [
    "T,rfv,1,0,0,0",
    "T,all,0,0,0,0",
    "T,emp,0,0,0,0",
    "T,rgv,1,0,0,0",
    "T,dif,2,4,0,0",
    "A,ne,2,3,0,0",
    "A,eq,4,3,0,0",
    "A,eq,5,3,0,0",
    "S,ext,1,0,0,1",
    "S,cut,0,0,1,4",
    "S,eqr,2,6,0,0",
    "S,emp,7,0,0,0",
    "S,dfi,4,6,5,0",
    "S,eqr,3,7,0,0",
    "S,emp,8,0,0,0",
    "S,emp,5,0,0,0",
];

/// The struck rule `fir` took a fresh w in all. With it all eq emp was closed;
/// now that nothing need be allocated, it must not be.
pub const STRUCK: [&str; 7] = [
    "T,rfv,1,0,0,0",
    "T,all,0,0,0,0",
    "T,emp,0,0,0,0",
    "A,eq,2,3,0,0",
    "S,fir,0,0,0,1",
    "S,eqr,1,2,0,0",
    "S,emp,3,0,0,0",
];

/// An accepted file and its counts: T lines, A lines and clauses, S lines,
/// closings.
pub struct Accepted {
    pub rule: &'static str,
    pub lines: Vec<&'static str>,
    pub counts: [u32; 4],
}

fn accepted(rule: &'static str, text: &'static str, counts: [u32; 4]) -> Accepted {
    Accepted {
        rule,
        lines: text.split_whitespace().collect(),
        counts,
    }
}

/// For each rule, in the order of docs/FORMAT.md, a file that uses it.
pub fn rule_files() -> Vec<Accepted> {
    vec![
        accepted(
            "eqr",
            "T,rfv,1,0,0,0 T,rgv,1,0,0,0 T,rgv,2,0,0,0
             A,eq,2,3,0,0 A,in,1,2,0,0 A,ni,1,3,0,0
             S,eqr,1,2,0,0 S,cls,4,3,0,0",
            [3, 3, 2, 1],
        ),
        accepted(
            "eql",
            "T,rfv,1,0,0,0 T,rgv,1,0,0,0 T,rgv,2,0,0,0
             A,eq,2,3,0,0 A,in,1,3,0,0 A,ni,1,2,0,0
             S,eql,1,2,0,0 S,cls,4,3,0,0",
            [3, 3, 2, 1],
        ),
        accepted(
            "ext",
            "T,rfv,1,0,0,0 T,rgv,1,0,0,0
             A,ne,2,2,0,0
             S,ext,1,0,0,1 S,cls,2,3,0,0 S,cls,3,2,0,0",
            [2, 1, 3, 2],
        ),
        Accepted {
            rule: "cpe",
            lines: F.to_vec(),
            counts: [4, 2, 2, 1],
        },
        accepted(
            "cpi",
            "T,rfv,1,0,0,0 T,rgv,1,0,0,0 T,rgv,2,0,0,0 T,cap,2,3,0,0
             A,in,1,2,0,0 A,in,1,3,0,0 A,ni,1,4,0,0
             S,cpi,1,2,4,0 S,cls,4,3,0,0",
            [4, 3, 2, 1],
        ),
        Accepted {
            rule: "cue",
            lines: G.to_vec(),
            counts: [4, 3, 3, 2],
        },
        accepted(
            "cui",
            "T,rfv,1,0,0,0 T,rgv,1,0,0,0 T,rgv,2,0,0,0 T,cup,2,3,0,0
             A,in,1,3,0,0 A,ni,1,4,0,0
             S,cui,1,0,4,0 S,cls,3,2,0,0",
            [4, 2, 2, 1],
        ),
        accepted(
            "dfe",
            "T,rfv,1,0,0,0 T,rgv,1,0,0,0 T,rgv,2,0,0,0 T,dif,2,3,0,0
             A,in,1,4,0,0 A,in,1,3,0,0
             S,dfe,1,0,0,0 S,cls,2,4,0,0",
            [4, 2, 2, 1],
        ),
        accepted(
            "dfi",
            "T,rfv,1,0,0,0 T,rgv,1,0,0,0 T,rgv,2,0,0,0 T,dif,2,3,0,0
             A,in,1,2,0,0 A,ni,1,3,0,0 A,ni,1,4,0,0
             S,dfi,1,2,4,0 S,cls,4,3,0,0",
            [4, 3, 2, 1],
        ),
        accepted(
            "sge",
            "T,rfv,1,0,0,0 T,rfv,2,0,0,0 T,sin,2,0,0,0
             A,in,1,3,0,0 A,ne,1,2,0,0
             S,sge,1,0,0,0 S,cls,3,2,0,0",
            [3, 2, 2, 1],
        ),
        accepted(
            "sgi",
            "T,rfv,1,0,0,0 T,sin,1,0,0,0 T,all,0,0,0,0
             A,in,1,3,0,0 A,ni,1,2,0,0
             S,sgi,0,0,2,0 S,cls,1,3,0,0 S,cls,3,2,0,0",
            [3, 2, 3, 2],
        ),
        accepted(
            "cut",
            "T,rfv,1,0,0,0 T,rgv,1,0,0,0
             A,in,1,2,0,0 A,ni,1,2,0,0
             S,cut,0,0,1,2 S,cls,3,2,0,0 S,cls,1,3,0,0",
            [2, 2, 3, 2],
        ),
        accepted(
            "all",
            "T,rfv,1,0,0,0 T,rgv,1,0,0,0 T,all,0,0,0,0
             A,in,1,2,0,0 A,ni,1,3,0,0
             S,all,1,0,0,0 S,cls,3,2,0,0",
            [3, 2, 2, 1],
        ),
        accepted(
            "nul",
            "T,rfv,1,0,0,0 T,rgv,1,0,0,0 T,nul,0,0,0,0
             A,in,1,2,0,0 A,eq,1,3,0,0
             S,nul,1,0,0,0 S,cls,2,3,0,0",
            [3, 2, 2, 1],
        ),
        accepted(
            "sep",
            "T,rfv,1,0,0,0 T,rfv,2,0,0,0 T,rgv,1,0,0,0
             A,in,1,3,0,0 A,ni,2,3,0,0 A,eq,1,2,0,0
             S,sep,1,2,0,0 S,cls,3,4,0,0",
            [3, 3, 2, 1],
        ),
        Accepted {
            rule: "img",
            lines: IMG.to_vec(),
            counts: [9, 4, 4, 3],
        },
        Accepted {
            rule: "wit",
            lines: WIT.to_vec(),
            counts: [10, 2, 3, 1],
        },
        accepted(
            "ref",
            "T,clv,1,0,0,0
             A,ne,1,1,0,0
             S,ref,0,0,1,0 S,cls,2,1,0,0",
            [1, 1, 2, 1],
        ),
        accepted(
            "sym",
            "T,rfv,1,0,0,0 T,rfv,2,0,0,0
             A,eq,1,2,0,0 A,ne,2,1,0,0
             S,sym,1,0,0,0 S,cls,3,2,0,0",
            [2, 2, 2, 1],
        ),
        accepted(
            "trn",
            "T,rfv,1,0,0,0 T,rfv,2,0,0,0 T,rfv,3,0,0,0
             A,eq,1,2,0,0 A,eq,2,3,0,0 A,ne,1,3,0,0
             S,trn,1,2,0,0 S,cls,4,3,0,0",
            [3, 3, 2, 1],
        ),
        accepted(
            "sub",
            "T,rfv,1,0,0,0 T,rfv,2,0,0,0 T,typ,1,0,0,0 T,typ,2,0,0,0
             A,eq,1,2,0,0 A,ne,3,4,0,0
             S,sub,1,0,3,4 S,cls,3,2,0,0",
            [4, 2, 2, 1],
        ),
        accepted(
            "rep",
            "T,rfv,1,0,0,0 T,rfv,2,0,0,0 T,rgv,1,0,0,0
             A,in,1,3,0,0 A,eq,1,2,0,0 A,ni,2,3,0,0
             S,rep,1,2,1,0 S,cls,4,3,0,0",
            [3, 3, 2, 1],
        ),
        accepted(
            "ler",
            "T,clv,1,0,0,0
             A,nl,1,1,0,0
             S,ler,0,0,1,0 S,cls,2,1,0,0",
            [1, 1, 2, 1],
        ),
        accepted(
            "let",
            "T,clv,1,0,0,0 T,clv,2,0,0,0 T,clv,3,0,0,0
             A,le,1,2,0,0 A,le,2,3,0,0 A,nl,1,3,0,0
             S,let,1,2,0,0 S,cls,4,3,0,0",
            [3, 3, 2, 1],
        ),
        accepted(
            "lea",
            "T,clv,1,0,0,0 T,clv,2,0,0,0
             A,le,1,2,0,0 A,le,2,1,0,0 A,ne,1,2,0,0
             S,lea,1,2,0,0 S,cls,4,3,0,0",
            [2, 3, 2, 1],
        ),
        accepted(
            "rdh",
            "T,arv,1,0,0,0 T,rfv,1,0,0,0 T,fnv,1,0,0,0 T,rfv,2,0,0,0
             T,wri,1,2,3,4 T,rea,5,2,3,0
             A,ne,6,4,0,0
             S,rdh,0,0,6,0 S,cls,2,1,0,0",
            [6, 1, 2, 1],
        ),
        Accepted {
            rule: "rdm",
            lines: RDM.to_vec(),
            counts: [9, 2, 3, 2],
        },
        Accepted {
            rule: "cla",
            lines: OR.to_vec(),
            counts: [3, 3, 3, 2],
        },
        Accepted {
            rule: "fin",
            lines: FIN.to_vec(),
            counts: [7, 3, 4, 1],
        },
        accepted(
            "cls",
            "T,clv,1,0,0,0 T,clv,2,0,0,0
             A,le,1,2,0,0 A,nl,1,2,0,0
             S,cls,1,2,0,0",
            [2, 2, 1, 1],
        ),
        accepted(
            "emp",
            "T,rfv,1,0,0,0 T,emp,0,0,0,0
             A,in,1,2,0,0
             S,emp,1,0,0,0",
            [2, 1, 1, 1],
        ),
        // 1 u, 2 v, 3 f, 4 g, 5 typ(u), 6 typ(v), 7 dty(f), 8 dty(g).
        accepted(
            "bck",
            "T,rfv,1,0,0,0 T,rfv,2,0,0,0 T,fnv,1,0,0,0 T,fnv,2,0,0,0
             T,typ,1,0,0,0 T,typ,2,0,0,0 T,dty,3,0,0,0 T,dty,4,0,0,0
             A,eq,2,1,0,0 A,eq,3,4,0,0 A,le,6,7,0,0 A,nl,5,8,0,0
             S,bck,0,0,0,0",
            [8, 4, 1, 1],
        ),
    ]
}
