//! The words of each letter as numbers, so that a line's word is matched at
//! once.

/// A word with the comma after it, the first byte lowest.
const fn word(letters: &str) -> u32 {
    match *letters.as_bytes() {
        [a, b] => u32::from_le_bytes([a, b, b',', 0]),
        [a, b, c] => u32::from_le_bytes([a, b, c, b',']),
        _ => panic!("a word has two or three letters"),
    }
}

macro_rules! words {
    ($($name:ident $letters:literal),* $(,)?) => {
        $(pub const $name: u32 = super::word($letters);)*
    };
}

pub mod term {
    words! {
        NUL "nul", RFV "rfv", REA "rea",
        EMP "emp", ALL "all", RGV "rgv", CUP "cup", CAP "cap", DIF "dif", SIN "sin", IMG "img",
        ARV "arv", WRI "wri",
        FNV "fnv",
        CLV "clv", TYP "typ", DTY "dty",
    }
}

pub mod relation {
    words! { IN "in", NI "ni", EQ "eq", NE "ne", LE "le", NL "nl" }
}

pub mod rule {
    words! {
        EQR "eqr", EQL "eql", EXT "ext", CPE "cpe", CPI "cpi", CUE "cue", CUI "cui", DFE "dfe",
        DFI "dfi", SGE "sge", SGI "sgi", CUT "cut", ALL "all", NUL "nul", SEP "sep", IMG "img",
        WIT "wit", REF "ref", SYM "sym", TRN "trn", SUB "sub", REP "rep", LER "ler", LET "let",
        LEA "lea", RDH "rdh", RDM "rdm", CLA "cla", FIN "fin", CLS "cls", EMP "emp",
        BCK "bck",
    }
}

pub mod fact {
    words! {
        SIZ "siz", ALC "alc", TYP "typ", DTY "dty", SUB "sub",
        RFV "rfv", FNV "fnv", CLV "clv", RGV "rgv", ARV "arv",
    }
}
