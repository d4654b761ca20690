//! Terms made equal by equations, and by having equal arguments: a union-find,
//! and a table of signatures. The signature of a term is the term with the
//! representative of each argument's class in place of the argument.

use crate::yardstick::packing::{field, has_arguments, head_of, pack, Packed};

/// No term, as 0 is no term number.
const NONE: u16 = 0;

pub struct Congruence {
    /// Each at its number; nothing stands at 0.
    terms: Vec<Packed>,
    uses: Uses,
    /// When nothing is equal, which every closing begins with.
    apart: (Classes, Signatures),
    classes: Classes,
    signatures: Signatures,
    /// Pairs of terms that are equal, and still in two classes perhaps.
    pending: Vec<(u16, u16)>,
    /// Terms whose signatures change.
    changing: Vec<u16>,
}

impl Congruence {
    /// Takes the terms in the order of their numbers, from 1.
    pub fn new(terms: &[Packed]) -> Congruence {
        let terms = [&[0], terms].concat();
        let apart = || (Classes::apart(terms.len()), Signatures::apart(&terms));
        let (classes, signatures) = apart();
        Congruence {
            uses: Uses::of(&terms),
            apart: apart(),
            classes,
            signatures,
            pending: Vec::new(),
            changing: Vec::new(),
            terms,
        }
    }

    /// How many numbers there are, with 0.
    pub fn numbers(&self) -> usize {
        self.terms.len()
    }

    /// Makes equal what follows from these equations, and nothing else.
    pub fn close(&mut self, equations: &[(u16, u16)]) {
        self.classes.copy(&self.apart.0);
        self.signatures.copy(&self.apart.1);
        for (left, right) in equations {
            self.merge(*left, *right);
            while let Some((left, right)) = self.pending.pop() {
                self.merge(left, right);
            }
        }
    }

    /// The representative of a term's class.
    pub fn find(&mut self, term: u16) -> u16 {
        self.classes.find(term)
    }

    fn merge(&mut self, left: u16, right: u16) {
        let (left, right) = (self.classes.find(left), self.classes.find(right));
        if left == right {
            return;
        }
        let (small, large) = self.classes.by_size(left, right);
        self.take_users(small);
        self.classes.join(small, large);
        while let Some(user) = self.changing.pop() {
            self.sign(user);
        }
    }

    /// Takes the terms that have an argument in this class from the table.
    fn take_users(&mut self, class: u16) {
        let mut member = class;
        loop {
            for user in self.uses.of_term(member) {
                if self.signatures.remove(*user) {
                    self.changing.push(*user);
                }
            }
            member = self.classes.next[usize::from(member)];
            if member == class {
                return;
            }
        }
    }

    /// Puts a term into the table, or next to the one with its signature.
    fn sign(&mut self, term: u16) {
        let signature = self.signature(term);
        match self.signatures.find(signature) {
            Some(other) => self.pending.push((term, other)),
            None => self.signatures.insert(term, signature),
        }
    }

    fn signature(&mut self, term: u16) -> Packed {
        let term = self.terms[usize::from(term)];
        let classes = [0, 1, 2, 3].map(|index| {
            let argument = field(term, index) as u16;
            u32::from(self.classes.find(argument))
        });
        pack(head_of(term), classes)
    }
}

/// For each term, those that have it as an argument.
struct Uses {
    /// The users of all terms, those of one term together.
    users: Vec<u16>,
    /// Where those of each term start, and at last where they end.
    starts: Vec<usize>,
}

impl Uses {
    fn of(terms: &[Packed]) -> Uses {
        let mut users_of = vec![Vec::new(); terms.len()];
        for (number, term) in terms.iter().enumerate() {
            if has_arguments(*term) {
                for index in 0..4 {
                    users_of[field(*term, index) as usize].push(number as u16);
                }
            }
        }
        // A field that isn't used holds 0.
        users_of[usize::from(NONE)].clear();
        let mut starts = vec![0];
        let mut users = Vec::new();
        for of_term in users_of {
            users.extend(of_term);
            starts.push(users.len());
        }
        Uses { users, starts }
    }

    fn of_term(&self, term: u16) -> &[u16] {
        let term = usize::from(term);
        &self.users[self.starts[term]..self.starts[term + 1]]
    }
}

/// A union-find, by size and with path halving.
struct Classes {
    parent: Vec<u16>,
    /// Of a representative, how many terms its class has.
    size: Vec<u16>,
    /// The members of a class in a circle.
    next: Vec<u16>,
}

impl Classes {
    /// Every term is alone in its class.
    fn apart(numbers: usize) -> Classes {
        let each: Vec<u16> = (0..numbers as u16).collect();
        Classes {
            parent: each.clone(),
            size: vec![1; numbers],
            next: each,
        }
    }

    fn copy(&mut self, other: &Classes) {
        self.parent.copy_from_slice(&other.parent);
        self.size.copy_from_slice(&other.size);
        self.next.copy_from_slice(&other.next);
    }

    fn find(&mut self, mut term: u16) -> u16 {
        loop {
            let parent = self.parent[usize::from(term)];
            if parent == term {
                return term;
            }
            let above = self.parent[usize::from(parent)];
            self.parent[usize::from(term)] = above;
            term = above;
        }
    }

    fn by_size(&self, one: u16, other: u16) -> (u16, u16) {
        if self.size[usize::from(one)] < self.size[usize::from(other)] {
            (one, other)
        } else {
            (other, one)
        }
    }

    fn join(&mut self, small: u16, large: u16) {
        let (of_small, of_large) = (usize::from(small), usize::from(large));
        self.parent[of_small] = large;
        self.size[of_large] += self.size[of_small];
        self.next.swap(of_small, of_large);
    }
}

const BUCKETS: usize = 1024;

/// A table of terms by their signatures. Of terms with one signature, one
/// stands in it.
struct Signatures {
    /// The first term of each bucket.
    first: Vec<u16>,
    /// The next term in the same bucket.
    next: Vec<u16>,
    /// The signature under which a term stands in the table, or `ABSENT`.
    signature: Vec<Packed>,
}

/// No signature, as a word with arguments is never 0.
const ABSENT: Packed = 0;

impl Signatures {
    /// Every term is its own signature.
    fn apart(terms: &[Packed]) -> Signatures {
        let mut signatures = Signatures {
            first: vec![NONE; BUCKETS],
            next: vec![NONE; terms.len()],
            signature: vec![ABSENT; terms.len()],
        };
        for (number, term) in terms.iter().enumerate() {
            if has_arguments(*term) {
                signatures.insert(number as u16, *term);
            }
        }
        signatures
    }

    fn copy(&mut self, other: &Signatures) {
        self.first.copy_from_slice(&other.first);
        self.next.copy_from_slice(&other.next);
        self.signature.copy_from_slice(&other.signature);
    }

    fn find(&self, signature: Packed) -> Option<u16> {
        let mut term = self.first[bucket(signature)];
        while term != NONE {
            if self.signature[usize::from(term)] == signature {
                return Some(term);
            }
            term = self.next[usize::from(term)];
        }
        None
    }

    fn insert(&mut self, term: u16, signature: Packed) {
        let first = &mut self.first[bucket(signature)];
        self.next[usize::from(term)] = *first;
        self.signature[usize::from(term)] = signature;
        *first = term;
    }

    /// Whether the term stood in the table.
    fn remove(&mut self, term: u16) -> bool {
        let signature = self.signature[usize::from(term)];
        if signature == ABSENT {
            return false;
        }
        let after = self.next[usize::from(term)];
        let first = &mut self.first[bucket(signature)];
        if *first == term {
            *first = after;
        } else {
            let mut before = usize::from(*first);
            while self.next[before] != term {
                before = usize::from(self.next[before]);
            }
            self.next[before] = after;
        }
        self.signature[usize::from(term)] = ABSENT;
        true
    }
}

/// Takes the highest bits of a product, to which all bits have come.
fn bucket(signature: Packed) -> usize {
    const FACTOR: u64 = 0x9e37_79b9_7f4a_7c15;
    let folded = signature ^ signature >> 32;
    (folded.wrapping_mul(FACTOR) >> (u64::BITS - BUCKETS.ilog2())) as usize
}
