//! Files at the limits, each accepted, and the neighbours just beyond.

use crate::random::Random;

use super::clause_limits;
use super::closable::{Closable, MEMBER};
use super::draft::{lit, Draft, Place, TermId, MOST_PLACES, MOST_TERMS, MOST_WAITING};
use super::tableau::{self, Tableau};
use super::{accepted, refusal, Sample};

const MOST_BYTES: usize = 60_000;

pub fn samples(random: &mut Random) -> Vec<Sample> {
    let mut samples = Vec::new();
    bytes(random, &mut samples);
    terms(random, &mut samples);
    assumed_places(random, &mut samples);
    derived_places(&mut samples);
    waiting(random, &mut samples);
    three_alternatives(&mut samples);
    samples.extend(clause_limits::samples());
    samples
}

/// The accepted file up to its first line that closes, then one line more that
/// is refused.
pub fn beyond(kind: &'static str, tableau: &Tableau, line: &str, number: u32) -> Sample {
    let kept = tableau.lines.iter().take_while(|line| !line.closes());
    let mut text: String = kept.clone().map(|line| line.text()).collect();
    text += line;
    Sample {
        kind,
        bytes: text.into_bytes(),
        expected: refusal(number, kept.count() + 1),
    }
}

/// 60,000 bytes of steps that help nothing, in several alternatives, as one
/// branch has no room for all.
fn bytes(random: &mut Random, samples: &mut Vec<Sample>) {
    let tableau = file_of_length(MOST_BYTES, random);
    assert_eq!(tableau.bytes().len(), MOST_BYTES);
    samples.push(accepted("60,000 bytes", &tableau));
    let mut bytes = tableau.bytes();
    bytes.insert(random.below(bytes.len() + 1), random.pick(b"\n0S"));
    samples.push(Sample {
        kind: "60,001 bytes",
        bytes,
        expected: refusal(1, 0),
    });
    let mut longer = tableau.bytes();
    longer.extend_from_slice(b"S,ref,0,0,1,0\n");
    samples.push(Sample {
        kind: "over 60,000 bytes",
        bytes: longer,
        expected: refusal(1, 0),
    });
}

/// Literals that helpless steps add to one branch.
const PER_BRANCH: usize = 900;

fn file_of_length(length: usize, random: &mut Random) -> Tableau {
    let room = length - with_99_references().close().bytes().len();
    // "S,ref,0,0,t,0" and LF: 14 bytes, 15 when t has two digits. A cut and
    // its closing have 14 bytes each.
    let lines = room / 14;
    let mut longer = room % 14;
    let cuts = lines / PER_BRANCH;
    let mut left = lines - 2 * cuts;
    let mut made = with_99_references();
    for part in 0..=cuts {
        if part < cuts {
            made.draft.cut(made.u, made.r);
        }
        for _ in 0..left.min(PER_BRANCH) {
            let two_digits = longer > 0;
            longer -= usize::from(two_digits);
            let number = if two_digits {
                10 + random.below(90)
            } else {
                1 + random.below(9)
            };
            made.draft.reflexive(TermId(number - 1));
            left -= 1;
        }
        made.cls();
    }
    assert_eq!(left, 0);
    tableau::in_order(&made.draft)
}

fn with_99_references() -> Closable {
    let mut made = Closable::new();
    for name in 2..100 {
        made.draft.variable("rfv", name);
    }
    made
}

/// 600 terms; the last is used.
fn terms(random: &mut Random, samples: &mut Vec<Sample>) {
    let mut made = Closable::new();
    while made.draft.terms.len() < MOST_TERMS {
        made.draft.variable("rfv", random.digits());
    }
    made.draft.reflexive(TermId(MOST_TERMS - 1));
    let tableau = made.close();
    samples.push(accepted("600 terms", &tableau));
    // A term made already and one of unknown arguments are the 601st too.
    for (line, number) in [
        ("T,nul,0,0,0,0\n", 7),
        ("T,rfv,1,0,0,0\n", 7),
        ("T,sin,99999,0,0,0\n", 7),
        ("T,nul,0,0,0,1\n", 6),
    ] {
        let kept = &tableau.lines[..MOST_TERMS];
        let mut text: String = kept.iter().map(|line| line.text()).collect();
        text += line;
        text += "A,in,1,2,0,0\n";
        samples.push(Sample {
            kind: "601 terms",
            bytes: text.into_bytes(),
            expected: refusal(number, MOST_TERMS + 1),
        });
    }
}

/// 1,000 assumed places; the last is used.
fn assumed_places(random: &mut Random, samples: &mut Vec<Sample>) {
    let mut draft = Draft::default();
    let u = draft.variable("rfv", random.digits());
    let r = draft.variable("rgv", random.digits());
    for _ in 1..MOST_PLACES {
        draft.assume(lit(u, "in", r));
    }
    let last = draft.assume(lit(u, "ni", r));
    draft.cls(Place::Assumed(random.below(MOST_PLACES - 1)), last);
    let tableau = tableau::in_order(&draft);
    samples.push(accepted("1,000 assumptions", &tableau));
    samples.push(beyond("1,001 assumptions", &tableau, "A,in,1,2,0,0\n", 15));
    samples.push(beyond("1,001 places", &tableau, "S,ref,0,0,1,0\n", 15));
    samples.push(beyond("1,001 places", &tableau, "S,cut,0,0,1,2\n", 15));
}

/// Steps that add one, two or three literals, with just room enough and
/// without.
fn derived_places(samples: &mut Vec<Sample>) {
    for (rule, literals) in [("ref", 1), ("cpe", 2), ("rdm", 2), ("wit", 3), ("fin", 1)] {
        for missing in 0..=1 {
            let made = nearly_full(literals - missing);
            let step = step_of(rule);
            if missing == 0 {
                samples.push(accepted("1,000 places", &made.then(rule)));
            } else {
                samples.push(beyond("1,001 places", &made.closable.close(), step, 15));
            }
        }
    }
}

/// A draft whose branch has room for so many literals more. Its terms are, in
/// order: 1 and 2 u and r, 3 w, 4 heap, 5 field, 6 cap(r,r), 7 img, 8 typ(w),
/// 9 dty, 10 rea(h,w,f), 11 wri, 12 rea of wri, 13 rea(h,u,f), 14 cup(r,img),
/// 15 cup(img,r). Place 3 is u in cap(r,r), place 4 u in img, place 5 cup(r,img)
/// eq img.
struct NearlyFull {
    closable: Closable,
    w: TermId,
    read: TermId,
}

fn nearly_full(room: usize) -> NearlyFull {
    let mut closable = Closable::new();
    let (u, r) = (closable.u, closable.r);
    let draft = &mut closable.draft;
    let w = draft.variable("rfv", 2);
    let h = draft.variable("arv", 1);
    let f = draft.variable("fnv", 1);
    let cap = draft.term("cap", &[r, r]);
    let img = draft.term("img", &[h, r, f]);
    draft.term("typ", &[w]);
    draft.term("dty", &[f]);
    draft.term("rea", &[h, w, f]);
    let wri = draft.term("wri", &[h, u, f, u]);
    let read = draft.term("rea", &[wri, u, f]);
    draft.term("rea", &[h, u, f]);
    let cup = draft.term("cup", &[r, img]);
    draft.term("cup", &[img, r]);
    draft.assume(lit(u, "in", cap));
    draft.assume(lit(u, "in", img));
    draft.assume(lit(cup, "eq", img));
    while draft.length() + room < MOST_PLACES {
        draft.reflexive(u);
    }
    NearlyFull { closable, w, read }
}

impl NearlyFull {
    /// The tableau with one step more before it is closed.
    fn then(mut self, rule: &str) -> Tableau {
        let draft = &mut self.closable.draft;
        match rule {
            "ref" => draft.reflexive(self.w),
            "cpe" => draft.cpe(Place::Assumed(2)),
            "rdm" => draft.rdm(self.read),
            "fin" => draft.fin(Place::Assumed(4)),
            _ => draft.wit(Place::Assumed(3), self.w),
        };
        assert_eq!(draft.length(), MOST_PLACES);
        self.closable.close()
    }
}

/// The same step as a line.
fn step_of(rule: &str) -> &'static str {
    match rule {
        "ref" => "S,ref,0,0,3,0\n",
        "cpe" => "S,cpe,3,0,0,0\n",
        "rdm" => "S,rdm,0,0,12,0\n",
        "fin" => "S,fin,5,0,0,0\n",
        _ => "S,wit,4,0,0,3\n",
    }
}

/// 200 alternatives wait.
fn waiting(random: &mut Random, samples: &mut Vec<Sample>) {
    let mut made = Closable::new();
    for _ in 0..MOST_WAITING {
        if random.chance(1, 3) {
            made.draft.reflexive(made.r);
        }
        made.draft.cut(made.u, made.r);
    }
    let tableau = made.close();
    samples.push(accepted("200 wait", &tableau));
    samples.push(beyond("201 wait", &tableau, "S,cut,0,0,1,2\n", 16));
}

/// Two of the three alternatives of `img` wait: so 198 may wait before, and
/// 199 may not. With 1,000 places as well, that limit is met first.
fn three_alternatives(samples: &mut Vec<Sample>) {
    for before in [MOST_WAITING - 2, MOST_WAITING - 1] {
        let mut made = Closable::new();
        let h = made.draft.variable("arv", 1);
        let f = made.draft.variable("fnv", 1);
        let t = made.draft.term("img", &[h, made.r, f]);
        made.draft.term("typ", &[made.u]);
        made.draft.term("dty", &[f]);
        made.draft.term("rea", &[h, made.u, f]);
        made.draft.term("all", &[]);
        for _ in 0..before {
            made.draft.cut(made.u, made.r);
        }
        if before == MOST_WAITING - 2 {
            made.draft.img(MEMBER, t);
            samples.push(accepted("200 wait after img", &made.close()));
        } else {
            let tableau = made.close();
            samples.push(beyond(
                "201 wait after img",
                &tableau,
                "S,img,1,0,5,0\n",
                16,
            ));
        }
    }
    let mut made = Closable::new();
    for _ in 0..MOST_WAITING {
        made.draft.cut(made.u, made.r);
    }
    while made.draft.length() < MOST_PLACES {
        made.draft.reflexive(made.u);
    }
    let tableau = made.close();
    samples.push(accepted("1,000 places and 200 wait", &tableau));
    samples.push(beyond("both limits", &tableau, "S,cut,0,0,1,2\n", 15));
}
