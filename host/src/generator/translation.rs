//! Closings by `bck` in place of chains: where the last steps before a `cls` are
//! those of equality and order, one `bck` does for all of them.

use super::draft::{Draft, Field, Literal, Place, Step};

/// The rules that `bck` applies by itself. `rep` is among them for every literal
/// that one of these chains can use.
const APPLIED: [&str; 8] = ["ref", "sym", "trn", "sub", "ler", "let", "lea", "rep"];

/// Steps that make a chain up to its closing: from the first to the `cls`.
type Chain = std::ops::RangeInclusive<usize>;

/// Puts `bck` in place of those chains that are chosen. All other steps keep
/// their places: what a chain adds is cut off by its closing.
pub fn put_bck(draft: &mut Draft, mut is_chosen: impl FnMut() -> bool) {
    // From the last on, so that the numbers of those before stay right.
    for chain in chains(draft).into_iter().rev() {
        if is_chosen() {
            let closing = Step {
                rule: "bck",
                fields: [Field::Unused; 4],
                alternatives: Vec::new(),
            };
            draft.steps.splice(chain, [closing]);
        }
    }
}

/// The chains that end with a `cls` of eq and ne, or of le and nl.
fn chains(draft: &Draft) -> Vec<Chain> {
    let mut found = Vec::new();
    let mut branch: Vec<Literal> = Vec::new();
    let mut waiting: Vec<(usize, Vec<Literal>)> = Vec::new();
    // The first of the steps that come one after the other and are applied.
    let mut first = None;
    for (index, step) in draft.steps.iter().enumerate() {
        if let [alternative, rest @ ..] = &step.alternatives[..] {
            let is_applied = APPLIED.contains(&step.rule);
            first = is_applied.then(|| first.unwrap_or(index));
            let length = branch.len();
            let further = rest.iter().rev().map(|literals| (length, literals.clone()));
            waiting.extend(further);
            branch.extend(alternative);
            continue;
        }
        if step.rule == "cls" && closes_by_relations(draft, &branch, step) {
            found.push(first.unwrap_or(index)..=index);
        }
        first = None;
        if let Some((length, literals)) = waiting.pop() {
            branch.truncate(length);
            branch.extend(literals);
        }
    }
    found
}

fn closes_by_relations(draft: &Draft, branch: &[Literal], step: &Step) -> bool {
    let literal = match step.fields[0] {
        Field::Place(Place::Assumed(index)) => draft.assumptions[index],
        Field::Place(Place::Derived(index)) => branch[index],
        _ => return false,
    };
    matches!(literal.word, "eq" | "le")
}
