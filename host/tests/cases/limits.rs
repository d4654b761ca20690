//! Each limit reached by an accepted file, and its neighbours above.

use super::{case, lines, runs, with_line, with_more, Case, R, U};

const IN: &str = "A,in,1,2,0,0";
const NI: &str = "A,ni,1,2,0,0";
const CUT: &str = "S,cut,0,0,1,2";
const REF: &str = "S,ref,0,0,1,0";
const CLS: &str = "S,cls,1,2,0,0";

pub fn cases() -> Vec<Case> {
    let groups = [
        bytes(),
        terms(),
        shared_terms(),
        places(),
        places_of_steps(),
        waiting(),
        waiting_again(),
    ];
    groups.into_iter().flatten().collect()
}

/// Nine times a cut whose first alternative takes 426 `ref` lines and closes,
/// then the last alternative with its own count of them. S lines have 14 bytes
/// each, A lines 13.
fn sized(terms: &[&str], last: usize) -> Vec<u8> {
    let mut parts: Vec<(usize, &str)> = terms.iter().map(|&line| (1, line)).collect();
    parts.extend([(1, IN), (1, NI)]);
    for _ in 0..9 {
        parts.extend([(1, CUT), (426, REF), (1, CLS)]);
    }
    parts.extend([(last, REF), (1, CLS)]);
    runs(&parts)
}

fn bytes() -> Vec<Case> {
    // Of 17 bytes each.
    let four = [
        "T,rfv,1000,0,0,0",
        "T,rgv,1000,0,0,0",
        "T,rfv,1001,0,0,0",
        "T,rfv,1002,0,0,0",
    ];
    // 4*17 + 2*13 + 4279*14; 9 cuts, 10*426 refs, 10 closings.
    let full = sized(&four, 426);
    assert_eq!(full.len(), 60_000);

    // 4*17 + 15 + 2*13 + 4278*14.
    let over = sized(&[&four[..], &["T,rfv,10,0,0,0"]].concat(), 425);
    assert_eq!(over.len(), 60_001);

    // The last line is 4 + 2 + 4279.
    let no_lf = full[..59_999].to_vec();
    let mut other_end = full.clone();
    other_end[59_999] = b'0';
    let mut longer = full.clone();
    longer.push(b'\n');
    vec![
        case("limits: 60,000 bytes", full, "yes,0,0,4,2,4279,10,0"),
        case(
            "limits: 60,001 bytes, all lines right",
            over,
            "no,1,0,0,0,0,0,0",
        ),
        case(
            "limits: 60,000 right bytes and one more",
            longer,
            "no,1,0,0,0,0,0,0",
        ),
        case(
            "limits: 59,999 bytes without the last LF",
            no_lf,
            "no,2,4285,0,0,0,0,0",
        ),
        case(
            "limits: 60,000 bytes, the last no LF",
            other_end,
            "no,2,4285,0,0,0,0,0",
        ),
    ]
}

fn terms() -> Vec<Case> {
    let mut full: Vec<String> = (1..=599)
        .map(|name| format!("T,rfv,{name},0,0,0"))
        .collect();
    full.push(R.into()); // 600
    let rest = ["A,in,1,600,0,0", "A,ni,1,600,0,0", CLS];
    let mut over = full.clone();
    over.push("T,rgv,2,0,0,0".into());
    for file in [&mut full, &mut over] {
        file.extend(rest.map(String::from));
    }
    vec![
        case("limits: 600 terms", lines(&full), "yes,0,0,600,2,1,1,0"),
        case("limits: 601 terms", lines(&over), "no,7,601,0,0,0,0,0"),
        case(
            "limits: term 601 of 600",
            with_line(&full, 601, "A,in,1,601,0,0"),
            "no,8,601,0,0,0,0,0",
        ),
    ]
}

/// Each term from 3 on holds the one before it twice, so that term 600 holds
/// term 2 on more paths than can be walked.
fn shared_terms() -> Vec<Case> {
    let mut file: Vec<String> = [U, R].map(String::from).to_vec();
    file.extend((2..=599).map(|part| format!("T,cup,{part},{part},0,0")));
    let rest = [
        "A,eq,600,600,0,0", // 1
        "A,ne,600,600,0,0", // 2
        "S,ext,2,0,0,1",    // 3: w in term 600, 4: w ni term 600
        CLS,                // 3: w ni term 600, 4: w in term 600
        CLS,
    ];
    file.extend(rest.map(String::from));
    vec![
        case(
            "limits: w not in a much shared term",
            lines(&file),
            "yes,0,0,600,2,3,2,0",
        ),
        case(
            "limits: w in a much shared term",
            with_line(&file, 2, "T,sin,1,0,0,0"),
            "no,13,603,0,0,0,0,1",
        ),
    ]
}

fn places() -> Vec<Case> {
    let last = "S,cls,999,1000,0,0";
    vec![
        case(
            "limits: 1,000 A lines",
            runs(&[(1, U), (1, R), (999, IN), (1, NI), (1, last)]),
            "yes,0,0,2,1000,1,1,0",
        ),
        case(
            "limits: 1,001 A lines, then the closing",
            runs(&[(1, U), (1, R), (999, IN), (2, NI), (1, last)]),
            "no,15,1003,0,0,0,0,0",
        ),
        case(
            "limits: place 1,001 of 1,000",
            runs(&[
                (1, U),
                (1, R),
                (999, IN),
                (1, NI),
                (1, "S,cls,999,1001,0,0"),
            ]),
            "no,11,1003,0,0,0,0,0",
        ),
    ]
}

fn places_of_steps() -> Vec<Case> {
    let file = |refs: &[(usize, &str)]| runs(&[&[(1, U), (1, R), (1, IN), (1, NI)], refs].concat());
    vec![
        case(
            "limits: 998 steps to 1,000 places",
            file(&[(998, REF), (1, CLS)]),
            "yes,0,0,2,2,999,1,0",
        ),
        case(
            "limits: 999 steps past 1,000 places",
            file(&[(999, REF), (1, CLS)]),
            "no,15,1003,0,0,0,0,0",
        ),
        // 3 places after the cut, in each alternative.
        case(
            "limits: 1,000 places in both alternatives",
            file(&[(1, CUT), (997, REF), (1, CLS), (997, REF), (1, CLS)]),
            "yes,0,0,2,2,1997,2,0",
        ),
        // Line 5 cuts, 6 to 1002 fill, 1003 closes, 1004 to 2000 fill again.
        case(
            "limits: 1,001 places in the second alternative",
            file(&[(1, CUT), (997, REF), (1, CLS), (998, REF), (1, CLS)]),
            "no,15,2001,0,0,0,0,0",
        ),
    ]
}

/// Cut i adds place 201 + i: u in r(i), and leaves u ni r(i) waiting. The first
/// branch closes by places 1 and 201; then the alternatives come back from the
/// last cut to the first, each denying place i.
fn waiting() -> Vec<Case> {
    let mut open: Vec<String> = vec![U.into()];
    open.extend((1..=200).map(|name| format!("T,rgv,{name},0,0,0"))); // term 1 + name
    open.extend((2..=201).map(|term| format!("A,in,1,{term},0,0"))); // place i: u in r(i)
    open.push("A,ni,1,2,0,0".into()); // 201: u ni r(1)
    open.extend((2..=201).map(|term| format!("S,cut,0,0,1,{term}")));
    let closings = || {
        (1..=200)
            .rev()
            .map(|i| format!("S,cls,{i},{},0,0", 201 + i))
    };
    let first = "S,cls,1,201,0,0";

    let mut full = open.clone();
    full.push(first.into());
    full.extend(closings());

    let mut over = open;
    over.push("S,cut,0,0,1,2".into()); // line 201 + 201 + 200 + 1
    over.push(first.into());
    over.extend(closings());
    vec![
        case(
            "limits: 200 waiting",
            lines(&full),
            "yes,0,0,201,201,401,201,0",
        ),
        case("limits: 201 waiting", lines(&over), "no,16,603,0,0,0,0,0"),
        // After the first closing the alternative of cut 200 is due.
        case(
            "limits: the first of 200 waiting taken first",
            with_line(&full, 604, "S,cls,1,202,0,0"),
            "no,12,604,0,0,0,0,0",
        ),
    ]
}

/// A closing makes room for one more alternative.
fn waiting_again() -> Vec<Case> {
    let open = [U, R, IN, NI];
    let cuts = [CUT; 200];
    let file = |steps: &[&str]| with_more(&[&open[..], &cuts].concat(), steps);
    let closings = [CLS; 201];
    vec![
        case(
            "limits: 200 waiting again after a closing",
            file(&[&[CLS, CUT], &closings[..]].concat()),
            "yes,0,0,2,2,403,202,0",
        ),
        case(
            "limits: 201 waiting after a closing",
            file(&[CLS, CUT, CUT]),
            "no,16,207,0,0,0,0,0",
        ),
    ]
}
