//! Single steps whose premises fit, or fail to fit in just one spot: a term
//! that should stand in two places stands in one only, a premise is denied, or
//! its sides are exchanged. Where they fit, the terms to be added may be
//! missing. `bck` names no premises, but has them all the same.

use crate::random::Random;

use super::aliases;
use super::draft::{denial, lit, Draft, Field, TermId};
use super::tableau::{self, text};
use super::{refusal, Expected, Sample};

/// A rule with premises p and q and terms t and w. Small letters stand for
/// variables: u v y references, r s regions, h a heap, f a field, a b c
/// classes. All fits as it stands if `fits` says so.
struct Schema {
    rule: &'static str,
    premises: &'static [(&'static str, &'static str, &'static str)],
    terms: &'static [&'static str],
    side: u32,
    fits: bool,
}

const fn schema(
    rule: &'static str,
    premises: &'static [(&'static str, &'static str, &'static str)],
    terms: &'static [&'static str],
) -> Schema {
    Schema {
        rule,
        premises,
        terms,
        side: 0,
        fits: true,
    }
}

const fn misfit(
    rule: &'static str,
    premises: &'static [(&'static str, &'static str, &'static str)],
    terms: &'static [&'static str],
) -> Schema {
    Schema {
        fits: false,
        ..schema(rule, premises, terms)
    }
}

const fn replacing(
    side: u32,
    premises: &'static [(&'static str, &'static str, &'static str)],
) -> Schema {
    Schema {
        side,
        ..schema("rep", premises, &[])
    }
}

const SCHEMAS: [Schema; 65] = [
    schema("eqr", &[("r", "eq", "s"), ("u", "in", "r")], &[]),
    schema("eql", &[("r", "eq", "s"), ("u", "in", "s")], &[]),
    schema("cpi", &[("u", "in", "r"), ("u", "in", "s")], &["cap(r,s)"]),
    misfit("cpi", &[("u", "in", "s"), ("u", "in", "r")], &["cap(r,s)"]),
    schema("cui", &[("u", "in", "r")], &["cup(r,s)"]),
    schema("cui", &[("u", "in", "s")], &["cup(r,s)"]),
    schema("dfi", &[("u", "in", "r"), ("u", "ni", "s")], &["dif(r,s)"]),
    misfit("dfi", &[("u", "in", "s"), ("u", "ni", "r")], &["dif(r,s)"]),
    schema("sep", &[("u", "in", "r"), ("v", "ni", "r")], &[]),
    schema("img", &[("u", "in", "r")], &["img(h,r,f)"]),
    schema("trn", &[("u", "eq", "v"), ("v", "eq", "y")], &[]),
    misfit("trn", &[("u", "eq", "v"), ("y", "eq", "v")], &[]),
    schema("sub", &[("u", "eq", "v")], &["rea(h,u,f)", "rea(h,v,f)"]),
    misfit("sub", &[("v", "eq", "u")], &["rea(h,u,f)", "rea(h,v,f)"]),
    schema(
        "sub",
        &[("u", "eq", "v")],
        &["wri(h,u,f,u)", "wri(h,v,f,v)"],
    ),
    schema(
        "sub",
        &[("u", "eq", "v")],
        &["wri(h,u,f,y)", "wri(h,v,f,y)"],
    ),
    schema("sub", &[("r", "eq", "s")], &["cup(r,r)", "cup(r,s)"]),
    schema("sub", &[("r", "eq", "s")], &["img(h,r,f)", "img(h,s,f)"]),
    schema("sub", &[("u", "eq", "v")], &["sin(u)", "sin(v)"]),
    misfit("sub", &[("v", "eq", "u")], &["sin(u)", "sin(v)"]),
    misfit("sub", &[("r", "eq", "s")], &["cup(r,s)", "cap(r,s)"]),
    replacing(1, &[("u", "in", "r"), ("u", "eq", "v")]),
    replacing(2, &[("u", "in", "r"), ("r", "eq", "s")]),
    schema("let", &[("a", "le", "b"), ("b", "le", "c")], &[]),
    misfit("let", &[("a", "le", "b"), ("c", "le", "b")], &[]),
    schema("lea", &[("a", "le", "b"), ("b", "le", "a")], &[]),
    schema("rdh", &[], &["rea(wri(h,u,f,v),u,f)"]),
    misfit("rdh", &[], &["rea(wri(h,u,f,v),v,f)"]),
    schema("cls", &[("u", "in", "r"), ("u", "ni", "r")], &[]),
    schema("cls", &[("u", "eq", "v"), ("u", "ne", "v")], &[]),
    schema("cls", &[("a", "le", "b"), ("a", "nl", "b")], &[]),
    misfit("cls", &[("u", "eq", "v"), ("v", "ne", "u")], &[]),
    misfit("cls", &[("a", "le", "b"), ("b", "nl", "a")], &[]),
    schema("fin", &[("cup(r,img(h,r,f))", "eq", "img(h,r,f)")], &[]),
    schema(
        "fin",
        &[(
            "cup(img(h,r,f),img(h,img(h,r,f),f))",
            "eq",
            "img(h,img(h,r,f),f)",
        )],
        &[],
    ),
    misfit("fin", &[("img(h,r,f)", "eq", "cup(r,img(h,r,f))")], &[]),
    misfit("fin", &[("cup(img(h,r,f),r)", "eq", "img(h,r,f)")], &[]),
    misfit("fin", &[("cup(img(h,r,f),r)", "eq", "r")], &[]),
    misfit("fin", &[("cup(r,img(h,s,f))", "eq", "img(h,s,f)")], &[]),
    misfit("fin", &[("cap(r,img(h,r,f))", "eq", "img(h,r,f)")], &[]),
    misfit("fin", &[("cup(r,s)", "eq", "s")], &[]),
    schema("bck", &[("u", "ne", "u")], &[]),
    schema("bck", &[("a", "nl", "a")], &[]),
    schema("bck", &[("v", "eq", "u"), ("u", "ne", "v")], &[]),
    schema("bck", &[("a", "eq", "b"), ("a", "nl", "b")], &[]),
    schema("bck", &[("a", "eq", "b"), ("b", "nl", "a")], &[]),
    schema("bck", &[("a", "le", "b"), ("a", "nl", "b")], &[]),
    schema(
        "bck",
        &[("u", "eq", "v"), ("y", "eq", "v"), ("u", "ne", "y")],
        &[],
    ),
    schema(
        "bck",
        &[("a", "le", "b"), ("b", "le", "c"), ("a", "nl", "c")],
        &[],
    ),
    schema(
        "bck",
        &[("a", "le", "b"), ("b", "le", "a"), ("a", "ne", "b")],
        &[],
    ),
    schema(
        "bck",
        &[("a", "le", "b"), ("c", "eq", "b"), ("a", "nl", "c")],
        &[],
    ),
    schema(
        "bck",
        &[("a", "le", "b"), ("a", "eq", "c"), ("c", "nl", "b")],
        &[],
    ),
    schema("bck", &[("u", "eq", "v"), ("sin(v)", "ne", "sin(u)")], &[]),
    schema("bck", &[("u", "eq", "v"), ("typ(u)", "nl", "typ(v)")], &[]),
    schema(
        "bck",
        &[("r", "eq", "s"), ("cup(r,s)", "ne", "cup(s,r)")],
        &[],
    ),
    schema(
        "bck",
        &[
            ("u", "eq", "v"),
            ("r", "eq", "s"),
            ("cup(r,sin(u))", "ne", "cup(s,sin(v))"),
        ],
        &[],
    ),
    schema(
        "bck",
        &[
            ("u", "eq", "v"),
            ("r", "eq", "s"),
            ("img(wri(h,u,f,y),r,f)", "ne", "img(wri(h,v,f,y),s,f)"),
        ],
        &[],
    ),
    schema(
        "bck",
        &[
            ("u", "eq", "rea(h,u,f)"),
            ("u", "ne", "rea(h,rea(h,u,f),f)"),
        ],
        &[],
    ),
    misfit("bck", &[("a", "le", "b"), ("b", "nl", "a")], &[]),
    misfit("bck", &[("a", "le", "b"), ("a", "ne", "b")], &[]),
    misfit("bck", &[("u", "in", "r"), ("u", "ni", "r")], &[]),
    misfit("bck", &[("u", "in", "sin(v)"), ("u", "ne", "v")], &[]),
    misfit("bck", &[("sin(u)", "eq", "sin(v)"), ("u", "ne", "v")], &[]),
    misfit(
        "bck",
        &[("r", "eq", "s"), ("cup(r,s)", "ne", "cap(r,s)")],
        &[],
    ),
    misfit("bck", &[("cup(r,s)", "ne", "cup(s,r)")], &[]),
];

/// The terms that `img` and `fin` find in the table, beside `all`. They are
/// made whatever the rule.
const LOOKUPS: [&str; 5] = [
    "typ(u)",
    "dty(f)",
    "rea(h,u,f)",
    "cup(img(h,r,f),r)",
    "cup(img(h,img(h,r,f),f),img(h,r,f))",
];

pub fn sample(random: &mut Random) -> Sample {
    let schema = &SCHEMAS[random.below(SCHEMAS.len())];
    let victim = victim(schema, random);
    let mut instance = Instance::new(random, victim);
    let denied = denied_premise(schema, random);
    let mut fields = [Field::Unused; 4];
    for (index, (left, word, right)) in schema.premises.iter().enumerate() {
        let word = if denied == Some(index) {
            denial(word)
        } else {
            word
        };
        let literal = lit(instance.term(left), word, instance.term(right));
        let place = Field::Place(instance.draft.assume(literal));
        if schema.rule != "bck" {
            fields[index] = place;
        }
    }
    for (index, pattern) in schema.terms.iter().enumerate() {
        fields[2 + index] = Field::Term(instance.term(pattern));
    }
    if schema.side > 0 {
        fields[2] = Field::Side(schema.side);
    }
    let fits = schema.fits && victim.is_none() && denied.is_none();
    let looks_up = matches!(schema.rule, "img" | "fin");
    let missing = looks_up && random.chance(1, 4);
    if !missing {
        instance.make_lookups();
    }
    let outcome = match (fits, missing) {
        (false, _) => Outcome::Misfit,
        (true, true) => Outcome::Missing,
        (true, false) => Outcome::Fit,
    };
    finish(schema.rule, fields, instance.draft, outcome, random)
}

/// What a step comes to.
enum Outcome {
    Fit,
    Misfit,
    /// It fits, but the terms that it adds do not stand in the table.
    Missing,
}

fn finish(
    rule: &'static str,
    fields: [Field; 4],
    mut draft: Draft,
    outcome: Outcome,
    random: &mut Random,
) -> Sample {
    let closes = matches!(rule, "cls" | "bck");
    if closes {
        draft.close(rule, fields);
    } else {
        draft.add(rule, fields, vec![Vec::new()]);
    }
    let lines = tableau::shuffled_lines(&draft, random);
    let counts = [draft.terms.len() as u32, draft.assumptions.len() as u32];
    let expected = match outcome {
        Outcome::Misfit => refusal(12, lines.len()),
        Outcome::Missing => refusal(14, lines.len()),
        Outcome::Fit if closes => Expected::Reply([0, 0, counts[0], counts[1], 1, 1, 0]),
        Outcome::Fit => refusal(17, lines.len() + 1),
    };
    Sample {
        kind: match outcome {
            Outcome::Fit => "a fitting step",
            Outcome::Misfit => "a near miss",
            Outcome::Missing => "a step without its terms",
        },
        bytes: text(&lines),
        expected,
    }
}

/// Every letter of a schema, in the order in which terms are made.
fn letters(schema: &Schema) -> Vec<char> {
    let sides = schema.premises.iter().flat_map(|(l, _, r)| [*l, *r]);
    let patterns = sides.chain(schema.terms.iter().copied());
    patterns
        .flat_map(|pattern| {
            pattern
                .char_indices()
                .filter(move |(i, _)| stands_alone(pattern, *i))
        })
        .map(|(_, letter)| letter)
        .collect()
}

/// Whether a variable stands at this index, and no word, bracket or comma.
fn stands_alone(pattern: &str, index: usize) -> bool {
    let is_letter = |byte: Option<&u8>| byte.is_some_and(u8::is_ascii_lowercase);
    let bytes = pattern.as_bytes();
    let before = index.checked_sub(1).and_then(|before| bytes.get(before));
    is_letter(bytes.get(index)) && !is_letter(before) && !is_letter(bytes.get(index + 1))
}

/// Half of the time an occurrence of a letter that occurs elsewhere too.
fn victim(schema: &Schema, random: &mut Random) -> Option<usize> {
    let letters = letters(schema);
    let twice = |index: &usize| letters.iter().filter(|l| **l == letters[*index]).count() > 1;
    let linked: Vec<usize> = (0..letters.len()).filter(twice).collect();
    if linked.is_empty() || random.chance(1, 2) {
        return None;
    }
    Some(random.pick(&linked))
}

/// Now and then a premise to deny. The first of `rep` may be any literal.
fn denied_premise(schema: &Schema, random: &mut Random) -> Option<usize> {
    let first = usize::from(schema.side > 0);
    if schema.premises.len() <= first || random.chance(4, 5) {
        return None;
    }
    Some(first + random.below(schema.premises.len() - first))
}

/// Terms made from patterns; at the victim another variable is put.
struct Instance {
    draft: Draft,
    /// The name of each letter's variable, and of the one put for it.
    names: Vec<(char, u32, u32)>,
    victim: Option<usize>,
    occurrences: usize,
}

impl Instance {
    fn new(random: &mut Random, victim: Option<usize>) -> Instance {
        let mut names = Vec::new();
        let mut taken = Vec::new();
        let mut new_name = || loop {
            let name = aliases::name(&taken, random);
            if !taken.contains(&name) {
                taken.push(name);
                return name;
            }
        };
        for letter in "uvyrshfabc".chars() {
            names.push((letter, new_name(), new_name()));
        }
        Instance {
            draft: Draft::default(),
            names,
            victim,
            occurrences: 0,
        }
    }

    fn variable(&mut self, letter: char) -> TermId {
        let row = self.names.iter().find(|row| row.0 == letter);
        let (_, own, other) = *row.expect("a letter of the schemas");
        let name = if self.victim == Some(self.occurrences) {
            other
        } else {
            own
        };
        self.occurrences += 1;
        let word = match letter {
            'u' | 'v' | 'y' => "rfv",
            'r' | 's' => "rgv",
            'h' => "arv",
            'f' => "fnv",
            _ => "clv",
        };
        self.draft.variable(word, name)
    }

    fn term(&mut self, pattern: &'static str) -> TermId {
        let Some((word, arguments)) = pattern.split_once('(') else {
            return self.variable(pattern.chars().next().expect("a letter"));
        };
        let inside = &arguments[..arguments.len() - 1];
        let arguments: Vec<TermId> = split_arguments(inside)
            .into_iter()
            .map(|argument| self.term(argument))
            .collect();
        self.draft.term(word, &arguments)
    }

    /// Makes the terms that a rule looks up, every letter with its own variable.
    fn make_lookups(&mut self) {
        self.victim = None;
        for pattern in LOOKUPS {
            self.term(pattern);
        }
        self.draft.term("all", &[]);
    }
}

/// The parts between the commas that stand in no inner brackets.
fn split_arguments(text: &'static str) -> Vec<&'static str> {
    let (mut depth, mut start) = (0, 0);
    let mut parts = Vec::new();
    for (index, byte) in text.bytes().enumerate() {
        match byte {
            b'(' => depth += 1,
            b')' => depth -= 1,
            b',' if depth == 0 => {
                parts.push(&text[start..index]);
                start = index + 1;
            }
            _ => {}
        }
    }
    parts.push(&text[start..]);
    parts
}
