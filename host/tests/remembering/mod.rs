//! The independent checker for files in which `bck` closes the same branches
//! again and again: it finds the relations once for all branches that have the
//! same literals. Which literals come twice, and in which order they stand, makes
//! no difference to `bck`, nor do `in` and `ni`.

use std::cell::RefCell;
use std::collections::HashMap;

use host::call::Numbers;
use host::checkers::{plain_rust_by, Checker};
use host::independent::{Literal, LiteralWord, Term};
use host::independent_closure::closes;

pub const REMEMBERING: Checker = ("plain Rust, remembering", check);

type Key = Vec<(u32, u32, u32)>;

thread_local! {
    /// The terms of a file, and what is known of branches over them.
    static KNOWN: RefCell<(Vec<Term>, HashMap<Key, bool>)> = RefCell::default();
}

fn check(file: &[u8]) -> Numbers {
    plain_rust_by(file, remembered)
}

fn remembered(terms: &[Term], branch: &[Literal]) -> bool {
    let taken = branch
        .iter()
        .filter(|literal| !matches!(literal.word, LiteralWord::In | LiteralWord::Ni));
    let mut key: Key = taken
        .map(|literal| (literal.word as u32, literal.left, literal.right))
        .collect();
    key.sort();
    key.dedup();
    KNOWN.with_borrow_mut(|(known_terms, known)| {
        if known_terms != terms {
            *known_terms = terms.to_vec();
            known.clear();
        }
        *known.entry(key).or_insert_with(|| closes(terms, branch))
    })
}
