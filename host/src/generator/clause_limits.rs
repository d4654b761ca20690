//! Files at the limits of clauses, each accepted, and the neighbours just
//! beyond.

use super::closable::Closable;
use super::draft::{lit, ClauseId, MOST_CLAUSE_LINES, MOST_IN_CLAUSE, MOST_PLACES, MOST_WAITING};
use super::limits::beyond;
use super::tableau::{text, Tableau};
use super::{accepted, refusal, Sample};

pub fn samples() -> Vec<Sample> {
    let mut samples = Vec::new();
    literals(&mut samples);
    lines(&mut samples);
    waiting(&mut samples);
    places(&mut samples);
    samples
}

impl Closable {
    /// A clause with so many literals, of which some are true and some false.
    fn clause(&mut self, literals: usize) -> ClauseId {
        let words = ["in", "ni"].iter().cycle().take(literals);
        let literals = words.map(|word| lit(self.u, word, self.r)).collect();
        self.draft.assume_among(literals)
    }

    /// Splits clauses of eight literals until so many alternatives wait.
    fn tower_of_clauses(&mut self, waiting: usize) {
        let clause = self.clause(MOST_IN_CLAUSE);
        while self.draft.waiting() + MOST_IN_CLAUSE <= waiting + 1 {
            self.draft.cla(clause);
        }
        let left = waiting - self.draft.waiting();
        if left > 0 {
            let smaller = self.clause(left + 1);
            self.draft.cla(smaller);
        }
    }
}

/// The lines before the steps, then one C line more that is refused.
fn one_more(kind: &'static str, tableau: &Tableau, line: &str, number: u32) -> Sample {
    let kept = &tableau.lines[..tableau.first_step()];
    let mut bytes = text(kept);
    bytes.extend_from_slice(line.as_bytes());
    Sample {
        kind,
        bytes,
        expected: refusal(number, kept.len() + 1),
    }
}

/// A clause of eight literals, split. What an A line is refused with comes
/// before the ninth.
fn literals(samples: &mut Vec<Sample>) {
    let mut made = Closable::new();
    let clause = made.clause(MOST_IN_CLAUSE);
    made.draft.cla(clause);
    let tableau = made.close();
    samples.push(accepted("8 literals", &tableau));
    for (line, number) in [
        ("C,in,1,2,1,0\n", 21),
        ("C,in,2,1,1,0\n", 9),
        ("C,in,1,3,1,0\n", 8),
        ("C,in,1,2,1,1\n", 6),
    ] {
        samples.push(one_more("9 literals", &tableau, line, number));
    }
}

/// 400 C lines in clauses of one size; the last clause is split.
fn lines(samples: &mut Vec<Sample>) {
    for size in [1, 2, 5, MOST_IN_CLAUSE] {
        let mut made = Closable::new();
        for _ in 0..MOST_CLAUSE_LINES / size {
            made.clause(size);
        }
        let last = made.draft.clauses.len();
        made.draft.cla(ClauseId(last - 1));
        let tableau = made.close();
        samples.push(accepted("400 C lines", &tableau));
        for number in [last, last + 1] {
            let line = format!("C,in,1,2,{number},0\n");
            samples.push(one_more("401 C lines", &tableau, &line, 21));
        }
    }
}

/// 200 alternatives wait after a split of eight, of fewer, or of one. A split of
/// clause 2, of two literals, is then one too many.
fn waiting(samples: &mut Vec<Sample>) {
    for before in [0, MOST_WAITING - MOST_IN_CLAUSE + 1, MOST_WAITING] {
        let mut made = Closable::new();
        let single = made.clause(1);
        made.clause(2);
        for _ in 0..before {
            made.draft.cut(made.u, made.r);
        }
        made.tower_of_clauses(MOST_WAITING);
        made.draft.cla(single);
        let tableau = made.close();
        samples.push(accepted("200 wait after cla", &tableau));
        samples.push(beyond(
            "201 wait after cla",
            &tableau,
            "S,cla,0,0,2,0\n",
            16,
        ));
    }
}

/// A clause is split, or added, where there is just room for a literal. With
/// too many waiting as well, that limit is met first.
fn places(samples: &mut Vec<Sample>) {
    for (size, waiting) in [(1, 0), (MOST_IN_CLAUSE, 0), (MOST_IN_CLAUSE, MOST_WAITING)] {
        let mut made = Closable::new();
        let clause = made.clause(size);
        made.tower_of_clauses(waiting);
        while made.draft.length() + 1 < MOST_PLACES {
            made.draft.reflexive(made.u);
        }
        if waiting == 0 {
            made.draft.cla(clause);
        } else {
            made.draft.reflexive(made.u);
        }
        let tableau = made.close();
        samples.push(accepted("1,000 places after cla", &tableau));
        samples.push(beyond(
            "1,001 places after cla",
            &tableau,
            "S,cla,0,0,1,0\n",
            15,
        ));
    }
}
