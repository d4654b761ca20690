//! A checker for closed tableaux, written from document 01 alone and for
//! plainness only. Sentences in quotes are the document's. Its rule `fir` is
//! struck; clauses and the rule `cla` come from the request "Assumptions with
//! an or in them", the reply's field `place` and the length of the buffer from
//! "Where is that witness already used?", the rule `fin` from "Finite heaps have
//! a counting argument", the closing `bck` from "Let the checker close on
//! equalities by itself". What "More names" changed in a sentence is in brackets.

use crate::independent_closure;
use LiteralWord::*;

/// "At most 60,000 bytes."
const MOST_BYTES: usize = 60_000;
/// "T lines make terms numbered from 1, at most 600."
pub const MOST_TERMS: usize = 600;
/// "A branch starts with no literals and has room for 1,000."
const MOST_PLACES: usize = 1_000;
/// "the rest wait, at most 200 alternatives over all."
const MOST_WAITING: usize = 200;
/// "with at most 8 literals each and 400 C lines"
const MOST_LITERALS: usize = 8;
const MOST_C_LINES: usize = 400;
/// "Fields 3 to 6 are numbers of one to [five] digits". "the number shape up to
/// five digits everywhere": the heap file's too.
const MOST_DIGITS: usize = 5;
/// "The reply buffer becomes 28 bytes."
const BUFFER_BYTES: usize = 28;

// ---------------------------------------------------------------------------
// The reply
// ---------------------------------------------------------------------------

/// The reply of document 01. "the reply gains a last field `place`"
#[derive(Debug, Clone, Copy, PartialEq, Eq)]
pub struct Reply {
    pub yes: bool,
    pub number: u32,
    pub line: u32,
    pub terms: u32,
    pub assumptions: u32,
    pub steps: u32,
    pub closings: u32,
    pub place: u32,
}

impl Reply {
    /// The numbers "in the reply's order", the place last.
    pub fn numbers(&self) -> [u32; 7] {
        [
            self.number,
            self.line,
            self.terms,
            self.assumptions,
            self.steps,
            self.closings,
            self.place,
        ]
    }
}

/// "after a no the four counts are 0"
fn no(refusal: LineRefusal, line: u32) -> Reply {
    Reply {
        yes: false,
        number: refusal.number,
        line,
        terms: 0,
        assumptions: 0,
        steps: 0,
        closings: 0,
        place: refusal.place,
    }
}

/// "After a yes the number and line are 0". "The assumed count takes A lines
/// plus clauses". The place "is 0 for every other reply" than one with 13.
fn yes(state: &State) -> Reply {
    Reply {
        yes: true,
        number: 0,
        line: 0,
        terms: state.terms.len() as u32,
        assumptions: (state.assumptions.len() + state.clauses.len()) as u32,
        steps: state.steps,
        closings: state.closings,
        place: 0,
    }
}

/// "One line ended by LF, fields in order: `yes` or `no`, refusal number,
/// line, T lines, A lines, S lines, closings", and the place last.
pub fn reply_line(reply: &Reply) -> String {
    let answer = if reply.yes { "yes" } else { "no" };
    let numbers = reply.numbers().map(|number| number.to_string());
    format!("{answer},{}\n", numbers.join(","))
}

/// "A build host gets the six numbers through an ordinary C call into a reply
/// buffer of 24 bytes, six numbers of four bytes each, low byte first, in the
/// reply's order; the call returns the refusal number, 0 after a yes." With the
/// place there are seven numbers in 28 bytes.
pub fn call(file: &[u8], buffer: &mut [u8]) -> u32 {
    // 18: "returned by the call, nothing written, before 1". "18 is now given
    // for any length but 28."
    if buffer.len() != BUFFER_BYTES {
        return 18;
    }
    let reply = check(file);
    let mut bytes: Vec<u8> = Vec::new();
    for number in reply.numbers() {
        bytes.extend_from_slice(&number.to_le_bytes());
    }
    buffer.copy_from_slice(&bytes);
    reply.number
}

// ---------------------------------------------------------------------------
// The whole file
// ---------------------------------------------------------------------------

/// A refusal's number and its line.
pub type Refusal = (u32, u32);

/// What a line is refused with: a number, and a place on the branch or 0.
struct LineRefusal {
    number: u32,
    place: u32,
}

/// A number by itself has no place.
impl From<u32> for LineRefusal {
    fn from(number: u32) -> LineRefusal {
        LineRefusal { number, place: 0 }
    }
}

/// Whether `bck` closes a branch over these terms.
pub type Closes = fn(&[Term], &[Literal]) -> bool;

/// Checks a whole file: any bytes get one reply.
pub fn check(file: &[u8]) -> Reply {
    check_by(file, independent_closure::closes)
}

/// The same with another `bck`: a wrong one, or one that remembers what it found.
pub fn check_by(file: &[u8], closes: Closes) -> Reply {
    match closed_tree(file, closes) {
        Ok(state) => yes(&state),
        Err((refusal, line)) => no(refusal, line),
    }
}

/// The state after all lines of an accepted file, or a refusal and its line.
fn closed_tree(file: &[u8], closes: Closes) -> Result<State, (LineRefusal, u32)> {
    check_length(file).map_err(|(number, line)| (number.into(), line))?;
    let mut state = State::new();
    state.closes = closes;
    let lines = each_line(file, |text| check_line(&mut state, text))?;
    // 17: "input ends with a branch open; line is last line plus 1"
    if !state.closed {
        return Err((17.into(), lines + 1));
    }
    Ok(state)
}

/// What a file assumes, and the terms that it speaks of.
#[derive(Debug, Clone, PartialEq, Eq)]
pub struct Assumed {
    pub terms: Vec<Term>,
    /// The literals of the A lines.
    pub literals: Vec<Literal>,
    /// The literals of each clause.
    pub clauses: Vec<Vec<Literal>>,
}

/// What is assumed, for one who wants no steps: "Reading of the checker file
/// stops before the first line that begins `S,`."
pub fn read_before_steps(file: &[u8]) -> Result<Assumed, Refusal> {
    // "1 by its whole length, 17 never"
    check_length(file)?;
    let mut state = State::new();
    each_line(before_steps(file), |text| check_line(&mut state, text))
        .map_err(|(refusal, line)| (refusal.number, line))?;
    Ok(state.assumed())
}

/// The bytes before the first line that begins `S,`; all, where none does.
fn before_steps(file: &[u8]) -> &[u8] {
    let mut length = 0;
    for line in file.split_inclusive(|byte| *byte == b'\n') {
        if line.starts_with(b"S,") {
            break;
        }
        length += line.len();
    }
    &file[..length]
}

/// 1: "over 60,000 bytes; line 0, before any line"
pub fn check_length(file: &[u8]) -> Result<(), Refusal> {
    if file.len() > MOST_BYTES {
        return Err((1, 0));
    }
    Ok(())
}

/// Checks the lines in order, each without its LF, and counts them. "The line
/// is that of the first bad line, from 1." It comes with what the line is
/// refused with, a number or more than that.
pub fn each_line<R: From<u32>>(
    file: &[u8],
    mut check: impl FnMut(&[u8]) -> Result<(), R>,
) -> Result<u32, (R, u32)> {
    let mut rest = file;
    let mut line = 0;
    while !rest.is_empty() {
        line += 1;
        // 2: "or no LF"
        let Some((text, after)) = take_line(rest) else {
            return Err((2.into(), line));
        };
        if let Err(refusal) = check(text) {
            return Err((refusal, line));
        }
        rest = after;
    }
    Ok(line)
}

/// The terms and the literals of the A lines, for one who wants no clauses.
pub fn read(file: &[u8]) -> Option<(Vec<Term>, Vec<Literal>)> {
    let assumed = read_assumed(file)?;
    Some((assumed.terms, assumed.literals))
}

/// What a file assumes whose T, A and C lines are good. What the S lines say is
/// not looked at, only their shape and their order.
pub fn read_assumed(file: &[u8]) -> Option<Assumed> {
    if file.len() > MOST_BYTES {
        return None;
    }
    let mut state = State::new();
    let mut rest = file;
    while !rest.is_empty() {
        let (text, after) = take_line(rest)?;
        let line = shape(text)?;
        check_order(&mut state, line.letter).ok()?;
        match line.letter {
            Letter::T => check_t(&mut state, &line).ok()?,
            Letter::A => check_a(&mut state, &line).ok()?,
            Letter::C => check_c(&mut state, &line).ok()?,
            Letter::S => {}
        }
        rest = after;
    }
    Some(state.assumed())
}

/// The bytes before the first LF and those after it.
fn take_line(rest: &[u8]) -> Option<(&[u8], &[u8])> {
    let end = rest.iter().position(|byte| *byte == b'\n')?;
    Some((&rest[..end], &rest[end + 1..]))
}

/// "Checks on a line run in the order of the numbers below." A check that gives
/// no place has the refusal number alone in its `Err`.
fn check_line(state: &mut State, text: &[u8]) -> Result<(), LineRefusal> {
    // 2: "line not shaped as above"
    let Some(line) = shape(text) else {
        return Err(2.into());
    };
    // 3
    check_order(state, line.letter)?;
    match line.letter {
        Letter::T => check_t(state, &line)?,
        Letter::A => check_a(state, &line)?,
        Letter::C => check_c(state, &line)?,
        Letter::S => check_s(state, &line)?,
    }
    Ok(())
}

/// 3: "T after A or S; A after S". "Admit C lines between A and S", "letters out
/// of order get 3".
fn check_order(state: &mut State, letter: Letter) -> Result<(), u32> {
    let bad = match letter {
        Letter::T => state.seen_a || state.seen_c || state.seen_s,
        Letter::A => state.seen_c || state.seen_s,
        Letter::C => state.seen_s,
        Letter::S => false,
    };
    if bad {
        return Err(3);
    }
    match letter {
        Letter::T => {}
        Letter::A => state.seen_a = true,
        Letter::C => state.seen_c = true,
        Letter::S => state.seen_s = true,
    }
    Ok(())
}

// ---------------------------------------------------------------------------
// The shape of a line
// ---------------------------------------------------------------------------

#[derive(Debug, Clone, Copy, PartialEq, Eq)]
enum Letter {
    T,
    A,
    C,
    S,
}

/// A well shaped line: field 1, field 2, and the numbers in fields 3 to 6.
struct Line<'a> {
    letter: Letter,
    word: &'a [u8],
    numbers: [u32; 4],
}

/// The text before the LF, as a T, A, C or S line.
fn shape(text: &[u8]) -> Option<Line<'_>> {
    let fields = six_fields(text)?;
    Some(Line {
        letter: shape_letter(fields.letter)?,
        word: fields.word,
        numbers: fields.numbers,
    })
}

/// The six fields of a line, whatever stands in the first.
pub struct Fields<'a> {
    pub letter: &'a [u8],
    pub word: &'a [u8],
    pub numbers: [u32; 4],
}

/// "Each line has six fields parted by five commas, no quoting, ended by one
/// LF." The text is what stands before the LF.
pub fn six_fields(text: &[u8]) -> Option<Fields<'_>> {
    let fields: Vec<&[u8]> = text.split(|byte| *byte == b',').collect();
    let [field1, field2, field3, field4, field5, field6] = fields.as_slice() else {
        return None;
    };
    Some(Fields {
        letter: field1,
        word: shape_word(field2)?,
        numbers: [
            shape_number(field3)?,
            shape_number(field4)?,
            shape_number(field5)?,
            shape_number(field6)?,
        ],
    })
}

/// "Field 1 is one of the letters T, A, S." C is admitted beside them.
fn shape_letter(field: &[u8]) -> Option<Letter> {
    match field {
        b"T" => Some(Letter::T),
        b"A" => Some(Letter::A),
        b"C" => Some(Letter::C),
        b"S" => Some(Letter::S),
        _ => None,
    }
}

/// "Field 2 is two or three small letters."
fn shape_word(field: &[u8]) -> Option<&[u8]> {
    if field.len() != 2 && field.len() != 3 {
        return None;
    }
    for byte in field {
        if !byte.is_ascii_lowercase() {
            return None;
        }
    }
    Some(field)
}

/// "Fields 3 to 6 are numbers of one to [five] digits, with no leading zero
/// unless the number is `0`."
fn shape_number(field: &[u8]) -> Option<u32> {
    if field.is_empty() || field.len() > MOST_DIGITS {
        return None;
    }
    if field.len() > 1 && field[0] == b'0' {
        return None;
    }
    let mut number = 0;
    for byte in field {
        if !byte.is_ascii_digit() {
            return None;
        }
        number = number * 10 + u32::from(byte - b'0');
    }
    Some(number)
}

// ---------------------------------------------------------------------------
// Terms
// ---------------------------------------------------------------------------

#[derive(Debug, Clone, Copy, PartialEq, Eq)]
pub enum Sort {
    Reference,
    Region,
    Heap,
    Field,
    Class,
}

#[derive(Debug, Clone, Copy, PartialEq, Eq)]
pub enum TermWord {
    Nul,
    Rfv,
    Rea,
    Emp,
    All,
    Rgv,
    Cup,
    Cap,
    Dif,
    Sin,
    Img,
    Arv,
    Wri,
    Fnv,
    Clv,
    Typ,
    Dty,
}

/// A term: its word and its arguments, which are term numbers or one name.
#[derive(Debug, Clone, PartialEq, Eq)]
pub struct Term {
    pub word: TermWord,
    pub arguments: Vec<u32>,
}

/// What an argument of a word is.
#[derive(Debug, Clone, Copy, PartialEq, Eq)]
enum Argument {
    Name,
    Of(Sort),
}

fn term_word(word: &[u8]) -> Option<TermWord> {
    match word {
        b"nul" => Some(TermWord::Nul),
        b"rfv" => Some(TermWord::Rfv),
        b"rea" => Some(TermWord::Rea),
        b"emp" => Some(TermWord::Emp),
        b"all" => Some(TermWord::All),
        b"rgv" => Some(TermWord::Rgv),
        b"cup" => Some(TermWord::Cup),
        b"cap" => Some(TermWord::Cap),
        b"dif" => Some(TermWord::Dif),
        b"sin" => Some(TermWord::Sin),
        b"img" => Some(TermWord::Img),
        b"arv" => Some(TermWord::Arv),
        b"wri" => Some(TermWord::Wri),
        b"fnv" => Some(TermWord::Fnv),
        b"clv" => Some(TermWord::Clv),
        b"typ" => Some(TermWord::Typ),
        b"dty" => Some(TermWord::Dty),
        _ => None,
    }
}

/// The column "Sort" of the table of T lines.
pub fn sort_of_word(word: TermWord) -> Sort {
    match word {
        TermWord::Nul | TermWord::Rfv | TermWord::Rea => Sort::Reference,
        TermWord::Emp | TermWord::All | TermWord::Rgv => Sort::Region,
        TermWord::Cup | TermWord::Cap | TermWord::Dif => Sort::Region,
        TermWord::Sin | TermWord::Img => Sort::Region,
        TermWord::Arv | TermWord::Wri => Sort::Heap,
        TermWord::Fnv => Sort::Field,
        TermWord::Clv | TermWord::Typ | TermWord::Dty => Sort::Class,
    }
}

/// The column "Words (arguments)" of the table of T lines.
fn arguments_of_word(word: TermWord) -> Vec<Argument> {
    use Argument::{Name, Of};
    use Sort::*;
    match word {
        TermWord::Nul => vec![],
        TermWord::Rfv => vec![Name],
        TermWord::Rea => vec![Of(Heap), Of(Reference), Of(Field)],
        TermWord::Emp => vec![],
        TermWord::All => vec![],
        TermWord::Rgv => vec![Name],
        TermWord::Cup => vec![Of(Region), Of(Region)],
        TermWord::Cap => vec![Of(Region), Of(Region)],
        TermWord::Dif => vec![Of(Region), Of(Region)],
        TermWord::Sin => vec![Of(Reference)],
        TermWord::Img => vec![Of(Heap), Of(Region), Of(Field)],
        TermWord::Arv => vec![Name],
        TermWord::Wri => vec![Of(Heap), Of(Reference), Of(Field), Of(Reference)],
        TermWord::Fnv => vec![Name],
        TermWord::Clv => vec![Name],
        TermWord::Typ => vec![Of(Reference)],
        TermWord::Dty => vec![Of(Field)],
    }
}

/// Whether the word takes a name. "A name is 1 to [99,999] and is not a term
/// number." No number of five digits is larger.
pub fn takes_name(word: TermWord) -> bool {
    arguments_of_word(word).contains(&Argument::Name)
}

/// "T lines make terms numbered from 1, at most 600. Arguments are earlier
/// terms."
fn check_t(state: &mut State, line: &Line) -> Result<(), u32> {
    // 4: "word not known for this letter"
    let Some(word) = term_word(line.word) else {
        return Err(4);
    };
    let wanted = arguments_of_word(word);
    let (used, unused) = line.numbers.split_at(wanted.len());
    // 6: "unused field not 0"
    if !all_zero(unused) {
        return Err(6);
    }
    // 7: "601st term"
    if state.terms.len() >= MOST_TERMS {
        return Err(7);
    }
    // 8: "a term field names no term made so far, or a name is 0"
    for (number, argument) in used.iter().zip(&wanted) {
        let good = match argument {
            Argument::Name => *number != 0,
            Argument::Of(_) => state.term(*number).is_some(),
        };
        if !good {
            return Err(8);
        }
    }
    // 9: "wrong sort in T"
    for (number, argument) in used.iter().zip(&wanted) {
        let good = match argument {
            Argument::Name => true,
            Argument::Of(sort) => state.has_sort(*number, *sort),
        };
        if !good {
            return Err(9);
        }
    }
    // 10: "term already made". "No term is written twice, so equal terms have
    // equal numbers."
    let term = Term {
        word,
        arguments: used.to_vec(),
    };
    if state.terms.contains(&term) {
        return Err(10);
    }
    state.terms.push(term);
    Ok(())
}

/// "A field that the word doesn't use holds `0`."
pub fn all_zero(numbers: &[u32]) -> bool {
    numbers.iter().all(|number| *number == 0)
}

// ---------------------------------------------------------------------------
// Literals
// ---------------------------------------------------------------------------

#[derive(Debug, Clone, Copy, PartialEq, Eq)]
pub enum LiteralWord {
    In,
    Ni,
    Eq,
    Ne,
    Le,
    Nl,
}

/// A literal: a word between two term numbers.
#[derive(Debug, Clone, Copy, PartialEq, Eq)]
pub struct Literal {
    pub word: LiteralWord,
    pub left: u32,
    pub right: u32,
}

fn literal_word(word: &[u8]) -> Option<LiteralWord> {
    match word {
        b"in" => Some(In),
        b"ni" => Some(Ni),
        b"eq" => Some(Eq),
        b"ne" => Some(Ne),
        b"le" => Some(Le),
        b"nl" => Some(Nl),
        _ => None,
    }
}

/// "A lines hold a word and two terms: `in`, `ni` (reference, region); `eq`,
/// `ne` (both of one sort, any); `le`, `nl` (classes)."
fn sorts_fit(state: &State, literal: &Literal) -> bool {
    let left = literal.left;
    let right = literal.right;
    match literal.word {
        In | Ni => state.has_sort(left, Sort::Reference) && state.has_sort(right, Sort::Region),
        Eq | Ne => state.sort(left).is_some() && state.sort(left) == state.sort(right),
        Le | Nl => state.has_sort(left, Sort::Class) && state.has_sort(right, Sort::Class),
    }
}

/// The literal on an A or C line: its word in field 2, its terms in fields 3
/// and 4. The fields that are left over by the letter come along.
fn check_literal(state: &State, line: &Line, unused: &[u32]) -> Result<Literal, u32> {
    // 4: "word not known for this letter"
    let Some(word) = literal_word(line.word) else {
        return Err(4);
    };
    // "T and A lines hold their arguments from field 3 on, in the order given."
    let [left, right, _, _] = line.numbers;
    // 6: "unused field not 0"
    if !all_zero(unused) {
        return Err(6);
    }
    // 8: "a term field names no term made so far"
    if state.term(left).is_none() || state.term(right).is_none() {
        return Err(8);
    }
    // 9: "wrong sort in T, A". "C lines meet 8 and 9 too".
    let literal = Literal { word, left, right };
    if !sorts_fit(state, &literal) {
        return Err(9);
    }
    Ok(literal)
}

fn check_a(state: &mut State, line: &Line) -> Result<(), u32> {
    let [_, _, field5, field6] = line.numbers;
    // 4, 6, 8, 9
    let literal = check_literal(state, line, &[field5, field6])?;
    // 15: "an A line or any alternative would pass 1,000 places"
    if state.branch.len() + 1 > MOST_PLACES {
        return Err(15);
    }
    // "Each takes the next place on the branch, counted from 1."
    state.assumptions.push(literal);
    state.branch.push(literal);
    Ok(())
}

/// "Admit C lines between A and S: word, two terms, clause number, 0."
fn check_c(state: &mut State, line: &Line) -> Result<(), u32> {
    let [_, _, number, field6] = line.numbers;
    // 4, 6, 8, 9
    let literal = check_literal(state, line, &[field6])?;
    // 21: "checked after 9, is clause number 0 or one neither the last nor the
    // next, a ninth literal, or a 401st C line"
    let last = state.clauses.len() as u32;
    let next = last + 1;
    if number == 0 || (number != last && number != next) {
        return Err(21);
    }
    if number == last && state.clauses[last as usize - 1].len() >= MOST_LITERALS {
        return Err(21);
    }
    if state.c_lines() >= MOST_C_LINES {
        return Err(21);
    }
    // "They take no place."
    if number == next {
        state.clauses.push(Vec::new());
    }
    state.clauses[number as usize - 1].push(literal);
    Ok(())
}

// ---------------------------------------------------------------------------
// The state
// ---------------------------------------------------------------------------

/// An alternative that waits, and the length of the branch at its split.
struct Waiting {
    length: usize,
    literals: Vec<Literal>,
}

struct State {
    seen_a: bool,
    seen_c: bool,
    seen_s: bool,
    /// Term number n stands at index n - 1.
    terms: Vec<Term>,
    assumptions: Vec<Literal>,
    /// Clause number n stands at index n - 1.
    clauses: Vec<Vec<Literal>>,
    /// Place n stands at index n - 1.
    branch: Vec<Literal>,
    /// The alternative to be taken next stands last.
    waiting: Vec<Waiting>,
    closed: bool,
    steps: u32,
    closings: u32,
    closes: Closes,
}

impl State {
    /// "A branch starts with no literals"
    fn new() -> State {
        State {
            seen_a: false,
            seen_c: false,
            seen_s: false,
            terms: Vec::new(),
            assumptions: Vec::new(),
            clauses: Vec::new(),
            branch: Vec::new(),
            waiting: Vec::new(),
            closed: false,
            steps: 0,
            closings: 0,
            closes: independent_closure::closes,
        }
    }

    fn assumed(self) -> Assumed {
        Assumed {
            terms: self.terms,
            literals: self.assumptions,
            clauses: self.clauses,
        }
    }

    /// How many C lines there are so far.
    fn c_lines(&self) -> usize {
        self.clauses.iter().map(Vec::len).sum()
    }

    fn term(&self, number: u32) -> Option<&Term> {
        let index = (number as usize).checked_sub(1)?;
        self.terms.get(index)
    }

    fn sort(&self, number: u32) -> Option<Sort> {
        Some(sort_of_word(self.term(number)?.word))
    }

    fn has_sort(&self, number: u32, sort: Sort) -> bool {
        self.sort(number) == Some(sort)
    }

    fn literal(&self, place: u32) -> Option<Literal> {
        let index = (place as usize).checked_sub(1)?;
        self.branch.get(index).copied()
    }

    fn clause(&self, number: u32) -> Option<&[Literal]> {
        let index = (number as usize).checked_sub(1)?;
        self.clauses.get(index).map(Vec::as_slice)
    }

    /// The number of the term with this word and these arguments, if it stands
    /// in the table.
    fn find(&self, word: TermWord, arguments: &[u32]) -> Option<u32> {
        let mut number = 0;
        for term in &self.terms {
            number += 1;
            if term.word == word && term.arguments == arguments {
                return Some(number);
            }
        }
        None
    }

    /// The two sides of the literal at a place, if it has this word.
    fn sides(&self, place: u32, word: LiteralWord) -> Option<(u32, u32)> {
        let literal = self.literal(place)?;
        if literal.word != word {
            return None;
        }
        Some((literal.left, literal.right))
    }

    /// The arguments of a term, if it has this word.
    fn arguments(&self, number: u32, word: TermWord) -> Option<&[u32]> {
        let term = self.term(number)?;
        if term.word != word {
            return None;
        }
        Some(&term.arguments)
    }

    /// The one argument of a term with this word.
    fn one(&self, number: u32, word: TermWord) -> Option<u32> {
        let [a] = self.arguments(number, word)? else {
            return None;
        };
        Some(*a)
    }

    /// The two arguments of a term with this word.
    fn two(&self, number: u32, word: TermWord) -> Option<(u32, u32)> {
        let [a, b] = self.arguments(number, word)? else {
            return None;
        };
        Some((*a, *b))
    }

    /// The three arguments of a term with this word.
    fn three(&self, number: u32, word: TermWord) -> Option<(u32, u32, u32)> {
        let [a, b, c] = self.arguments(number, word)? else {
            return None;
        };
        Some((*a, *b, *c))
    }

    /// The four arguments of a term with this word.
    fn four(&self, number: u32, word: TermWord) -> Option<(u32, u32, u32, u32)> {
        let [a, b, c, d] = self.arguments(number, word)? else {
            return None;
        };
        Some((*a, *b, *c, *d))
    }

    /// 13: "w not fresh". "Fresh" means an `rfv` term that occurs in no literal
    /// now on the branch, not even inside a larger term. "The freshness test
    /// shall give the first branch place that mentions w".
    fn check_fresh(&self, w: u32) -> Result<(), LineRefusal> {
        // The place is 0 "for a w that isn't an `rfv`".
        if self.arguments(w, TermWord::Rfv).is_none() {
            return Err(13.into());
        }
        let holding = self.terms_holding(w);
        for (place, literal) in (1..).zip(&self.branch) {
            if mentions(literal, &holding) {
                return Err(LineRefusal { number: 13, place });
            }
        }
        // "A fresh w must also be absent from every clause, split or not." The
        // place is 0 "for a w found only in a clause".
        for literal in self.clauses.iter().flatten() {
            if mentions(literal, &holding) {
                return Err(13.into());
            }
        }
        Ok(())
    }

    /// The numbers of the terms in which the given term occurs, itself too.
    /// Arguments are earlier terms, so one pass over the table finds all.
    fn terms_holding(&self, wanted: u32) -> Vec<u32> {
        let mut holding = Vec::new();
        let mut number = 0;
        for term in &self.terms {
            number += 1;
            // A name is not a term number, so it is not looked at.
            let inside = !takes_name(term.word)
                && term
                    .arguments
                    .iter()
                    .any(|argument| holding.contains(argument));
            if number == wanted || inside {
                holding.push(number);
            }
        }
        holding
    }
}

/// Whether a literal mentions a term, given the terms in which that occurs.
fn mentions(literal: &Literal, holding: &[u32]) -> bool {
    holding.contains(&literal.left) || holding.contains(&literal.right)
}

// ---------------------------------------------------------------------------
// Steps
// ---------------------------------------------------------------------------

#[derive(Debug, Clone, Copy, PartialEq, Eq)]
enum Rule {
    Eqr,
    Eql,
    Ext,
    Cpe,
    Cpi,
    Cue,
    Cui,
    Dfe,
    Dfi,
    Sge,
    Sgi,
    Cut,
    All,
    Nul,
    Sep,
    Img,
    Wit,
    Ref,
    Sym,
    Trn,
    Sub,
    Rep,
    Ler,
    Let,
    Lea,
    Rdh,
    Rdm,
    Cls,
    Emp,
    Cla,
    Fin,
    Bck,
}

fn rule_of_word(word: &[u8]) -> Option<Rule> {
    match word {
        b"eqr" => Some(Rule::Eqr),
        b"eql" => Some(Rule::Eql),
        b"ext" => Some(Rule::Ext),
        b"cpe" => Some(Rule::Cpe),
        b"cpi" => Some(Rule::Cpi),
        b"cue" => Some(Rule::Cue),
        b"cui" => Some(Rule::Cui),
        b"dfe" => Some(Rule::Dfe),
        b"dfi" => Some(Rule::Dfi),
        b"sge" => Some(Rule::Sge),
        b"sgi" => Some(Rule::Sgi),
        b"cut" => Some(Rule::Cut),
        b"all" => Some(Rule::All),
        b"nul" => Some(Rule::Nul),
        b"sep" => Some(Rule::Sep),
        b"img" => Some(Rule::Img),
        b"wit" => Some(Rule::Wit),
        b"ref" => Some(Rule::Ref),
        b"sym" => Some(Rule::Sym),
        b"trn" => Some(Rule::Trn),
        b"sub" => Some(Rule::Sub),
        b"rep" => Some(Rule::Rep),
        b"ler" => Some(Rule::Ler),
        b"let" => Some(Rule::Let),
        b"lea" => Some(Rule::Lea),
        b"rdh" => Some(Rule::Rdh),
        b"rdm" => Some(Rule::Rdm),
        b"cls" => Some(Rule::Cls),
        b"emp" => Some(Rule::Emp),
        b"cla" => Some(Rule::Cla),
        b"fin" => Some(Rule::Fin),
        b"bck" => Some(Rule::Bck),
        _ => None,
    }
}

/// The column "Uses": "Which fields each rule uses is one fixed table", of
/// thirty-two rows without `fir` and with `cla`, `fin` and `bck`.
fn uses(rule: Rule) -> &'static str {
    match rule {
        Rule::Eqr => "pq",
        Rule::Eql => "pq",
        Rule::Ext => "pw",
        Rule::Cpe => "p",
        Rule::Cpi => "pqt",
        Rule::Cue => "p",
        Rule::Cui => "pt",
        Rule::Dfe => "p",
        Rule::Dfi => "pqt",
        Rule::Sge => "p",
        Rule::Sgi => "t",
        Rule::Cut => "tw",
        Rule::All => "p",
        Rule::Nul => "p",
        Rule::Sep => "pq",
        Rule::Img => "pt",
        Rule::Wit => "pw",
        Rule::Ref => "t",
        Rule::Sym => "p",
        Rule::Trn => "pq",
        Rule::Sub => "ptw",
        Rule::Rep => "pqt",
        Rule::Ler => "t",
        Rule::Let => "pq",
        Rule::Lea => "pq",
        Rule::Rdh => "t",
        Rule::Rdm => "t",
        Rule::Cls => "pq",
        Rule::Emp => "p",
        Rule::Cla => "t",
        Rule::Fin => "p",
        // "with no fields"
        Rule::Bck => "",
    }
}

/// The rules whose column "Needs" says "w fresh".
fn wants_fresh(rule: Rule) -> bool {
    matches!(rule, Rule::Ext | Rule::Wit)
}

/// "S lines hold a rule, then in fields 3 to 6 places p and q, terms t and w,
/// in that order."
struct Step {
    rule: Rule,
    p: u32,
    q: u32,
    t: u32,
    w: u32,
}

impl Step {
    fn uses(&self, field: char) -> bool {
        uses(self.rule).contains(field)
    }

    /// "The t of `rep` is a side", so it is no term field; that of `cla` is a
    /// clause number.
    fn t_is_term(&self) -> bool {
        self.uses('t') && self.rule != Rule::Rep && self.rule != Rule::Cla
    }
}

/// A literal to be added. A side is `None` when the term that should stand
/// there is not in the table.
struct Added {
    word: LiteralWord,
    left: Option<u32>,
    right: Option<u32>,
}

/// What a rule does once its needs are met.
enum Conclusion {
    /// The alternatives, the leftmost first.
    Adds(Vec<Vec<Added>>),
    Closes,
}

fn check_s(state: &mut State, line: &Line) -> Result<(), LineRefusal> {
    // 4: "word not known for this letter"
    let Some(rule) = rule_of_word(line.word) else {
        return Err(4.into());
    };
    // 5: "S line when the tree is closed"
    if state.closed {
        return Err(5.into());
    }
    let [p, q, t, w] = line.numbers;
    let step = Step { rule, p, q, t, w };
    // 6
    check_unused(&step)?;
    // 8
    check_terms(state, &step)?;
    // 9
    check_sorts(state, &step)?;
    // 11
    check_places(state, &step)?;
    // 12: "what the rule needs isn't so, freshness apart"
    let Some(conclusion) = conclude(state, &step) else {
        return Err(12.into());
    };
    // 13
    if wants_fresh(rule) {
        state.check_fresh(w)?;
    }
    match conclusion {
        Conclusion::Adds(alternatives) => {
            // 14
            let alternatives = stand_in_table(alternatives)?;
            // 15, 16
            check_room(state, &alternatives)?;
            continue_with_first(state, alternatives);
        }
        Conclusion::Closes => close(state),
    }
    state.steps += 1;
    Ok(())
}

/// 6: "unused field not 0"
fn check_unused(step: &Step) -> Result<(), u32> {
    let fields = [('p', step.p), ('q', step.q), ('t', step.t), ('w', step.w)];
    for (name, number) in fields {
        if !step.uses(name) && number != 0 {
            return Err(6);
        }
    }
    Ok(())
}

/// 8: "a term field names no term made so far"
fn check_terms(state: &State, step: &Step) -> Result<(), u32> {
    if step.t_is_term() && state.term(step.t).is_none() {
        return Err(8);
    }
    if step.uses('w') && state.term(step.w).is_none() {
        return Err(8);
    }
    Ok(())
}

/// 9: "wrong sort in T, A, `cut` or `ler`"
fn check_sorts(state: &State, step: &Step) -> Result<(), u32> {
    let good = match step.rule {
        // "reference t, region w"
        Rule::Cut => {
            state.has_sort(step.t, Sort::Reference) && state.has_sort(step.w, Sort::Region)
        }
        // "class t"
        Rule::Ler => state.has_sort(step.t, Sort::Class),
        _ => true,
    };
    if !good {
        return Err(9);
    }
    Ok(())
}

/// 11: "a place used is not on the branch". "a `cla` on no clause gets 11"
fn check_places(state: &State, step: &Step) -> Result<(), u32> {
    if step.rule == Rule::Cla && state.clause(step.t).is_none() {
        return Err(11);
    }
    if step.uses('p') && state.literal(step.p).is_none() {
        return Err(11);
    }
    if step.uses('q') && state.literal(step.q).is_none() {
        return Err(11);
    }
    Ok(())
}

/// 14: "Every term in an added literal must stand in the table, in all
/// alternatives."
fn stand_in_table(alternatives: Vec<Vec<Added>>) -> Result<Vec<Vec<Literal>>, u32> {
    let mut found = Vec::new();
    for alternative in alternatives {
        let mut literals = Vec::new();
        for added in alternative {
            let (Some(left), Some(right)) = (added.left, added.right) else {
                return Err(14);
            };
            literals.push(Literal {
                word: added.word,
                left,
                right,
            });
        }
        found.push(literals);
    }
    Ok(found)
}

fn check_room(state: &State, alternatives: &[Vec<Literal>]) -> Result<(), u32> {
    // 15: "any alternative would pass 1,000 places"
    for literals in alternatives {
        if state.branch.len() + literals.len() > MOST_PLACES {
            return Err(15);
        }
    }
    // 16: "over 200 alternatives would wait". All but the first wait.
    let more = alternatives.len().saturating_sub(1);
    if state.waiting.len() + more > MOST_WAITING {
        return Err(16);
    }
    Ok(())
}

/// "A split continues with its first alternative; the rest wait".
fn continue_with_first(state: &mut State, alternatives: Vec<Vec<Literal>>) {
    let length = state.branch.len();
    let mut alternatives = alternatives.into_iter();
    if let Some(first) = alternatives.next() {
        state.branch.extend(first);
    }
    // "A closing takes the alternative that began waiting last, the leftmost
    // first within one split": so the rightmost goes on the pile first.
    for literals in alternatives.rev() {
        state.waiting.push(Waiting { length, literals });
    }
}

/// "the branch is cut back to its length at that split and that alternative is
/// added. When none waits, the tree is closed."
fn close(state: &mut State) {
    state.closings += 1;
    match state.waiting.pop() {
        Some(next) => {
            state.branch.truncate(next.length);
            state.branch.extend(next.literals);
        }
        None => state.closed = true,
    }
}

// ---------------------------------------------------------------------------
// The rules
// ---------------------------------------------------------------------------

/// What a step adds, or `None` when what its rule needs is not so. Freshness
/// is looked at elsewhere.
fn conclude(state: &State, step: &Step) -> Option<Conclusion> {
    let Step { rule, p, q, t, w } = *step;
    match rule {
        Rule::Eqr => eqr(state, p, q),
        Rule::Eql => eql(state, p, q),
        Rule::Ext => ext(state, p, w),
        Rule::Cpe => cpe(state, p),
        Rule::Cpi => cpi(state, p, q, t),
        Rule::Cue => cue(state, p),
        Rule::Cui => cui(state, p, t),
        Rule::Dfe => dfe(state, p),
        Rule::Dfi => dfi(state, p, q, t),
        Rule::Sge => sge(state, p),
        Rule::Sgi => sgi(state, t),
        Rule::Cut => cut(t, w),
        Rule::All => all(state, p),
        Rule::Nul => nul(state, p),
        Rule::Sep => sep(state, p, q),
        Rule::Img => img(state, p, t),
        Rule::Wit => wit(state, p, w),
        Rule::Ref => refl(t),
        Rule::Sym => sym(state, p),
        Rule::Trn => trn(state, p, q),
        Rule::Sub => sub(state, p, t, w),
        Rule::Rep => rep(state, p, q, t),
        Rule::Ler => ler(t),
        Rule::Let => le_trans(state, p, q),
        Rule::Lea => lea(state, p, q),
        Rule::Rdh => rdh(state, t),
        Rule::Rdm => rdm(state, t),
        Rule::Cls => cls(state, p, q),
        Rule::Emp => emp(state, p),
        Rule::Cla => cla(state, t),
        Rule::Fin => fin(state, p),
        Rule::Bck => bck(state),
    }
}

/// A literal whose two terms are known to stand in the table.
fn lit(left: u32, word: LiteralWord, right: u32) -> Added {
    maybe(Some(left), word, Some(right))
}

/// A literal with a side that may be missing from the table.
fn maybe(left: Option<u32>, word: LiteralWord, right: Option<u32>) -> Added {
    Added { word, left, right }
}

/// One alternative: "a comma joins literals added together in that order".
fn adds(literals: Vec<Added>) -> Option<Conclusion> {
    Some(Conclusion::Adds(vec![literals]))
}

/// "\"∥\" parts alternatives"
fn splits(alternatives: Vec<Vec<Added>>) -> Option<Conclusion> {
    Some(Conclusion::Adds(alternatives))
}

/// `Some` when the need is so.
fn need(so: bool) -> Option<()> {
    if so {
        Some(())
    } else {
        None
    }
}

/// "In `eqr`, `eql`, `ext` the sides are regions."
fn need_regions(state: &State, r: u32, s: u32) -> Option<()> {
    need(state.has_sort(r, Sort::Region) && state.has_sort(s, Sort::Region))
}

/// eqr | p q | r eq s; u in r | u in s
fn eqr(state: &State, p: u32, q: u32) -> Option<Conclusion> {
    let (r, s) = state.sides(p, Eq)?;
    need_regions(state, r, s)?;
    let (u, region) = state.sides(q, In)?;
    need(region == r)?;
    adds(vec![lit(u, In, s)])
}

/// eql | p q | r eq s; u in s | u in r
fn eql(state: &State, p: u32, q: u32) -> Option<Conclusion> {
    let (r, s) = state.sides(p, Eq)?;
    need_regions(state, r, s)?;
    let (u, region) = state.sides(q, In)?;
    need(region == s)?;
    adds(vec![lit(u, In, r)])
}

/// ext | p w | r ne s; w fresh | w in r, w ni s ∥ w ni r, w in s
fn ext(state: &State, p: u32, w: u32) -> Option<Conclusion> {
    let (r, s) = state.sides(p, Ne)?;
    need_regions(state, r, s)?;
    splits(vec![
        vec![lit(w, In, r), lit(w, Ni, s)],
        vec![lit(w, Ni, r), lit(w, In, s)],
    ])
}

/// cpe | p | u in cap(r,s) | u in r, u in s
fn cpe(state: &State, p: u32) -> Option<Conclusion> {
    let (u, region) = state.sides(p, In)?;
    let (r, s) = state.two(region, TermWord::Cap)?;
    adds(vec![lit(u, In, r), lit(u, In, s)])
}

/// cpi | p q t | u in r; u in s; t = cap(r,s) | u in t
fn cpi(state: &State, p: u32, q: u32, t: u32) -> Option<Conclusion> {
    let (u, region_p) = state.sides(p, In)?;
    let (u_again, region_q) = state.sides(q, In)?;
    let (r, s) = state.two(t, TermWord::Cap)?;
    need(u_again == u)?;
    need(region_p == r)?;
    need(region_q == s)?;
    adds(vec![lit(u, In, t)])
}

/// cue | p | u in cup(r,s) | u in r ∥ u in s
fn cue(state: &State, p: u32) -> Option<Conclusion> {
    let (u, region) = state.sides(p, In)?;
    let (r, s) = state.two(region, TermWord::Cup)?;
    splits(vec![vec![lit(u, In, r)], vec![lit(u, In, s)]])
}

/// cui | p t | u in r or u in s; t = cup(r,s) | u in t
fn cui(state: &State, p: u32, t: u32) -> Option<Conclusion> {
    let (u, region) = state.sides(p, In)?;
    let (r, s) = state.two(t, TermWord::Cup)?;
    need(region == r || region == s)?;
    adds(vec![lit(u, In, t)])
}

/// dfe | p | u in dif(r,s) | u in r, u ni s
fn dfe(state: &State, p: u32) -> Option<Conclusion> {
    let (u, region) = state.sides(p, In)?;
    let (r, s) = state.two(region, TermWord::Dif)?;
    adds(vec![lit(u, In, r), lit(u, Ni, s)])
}

/// dfi | p q t | u in r; u ni s; t = dif(r,s) | u in t
fn dfi(state: &State, p: u32, q: u32, t: u32) -> Option<Conclusion> {
    let (u, region_p) = state.sides(p, In)?;
    let (u_again, region_q) = state.sides(q, Ni)?;
    let (r, s) = state.two(t, TermWord::Dif)?;
    need(u_again == u)?;
    need(region_p == r)?;
    need(region_q == s)?;
    adds(vec![lit(u, In, t)])
}

/// sge | p | u in sin(v) | u eq v
fn sge(state: &State, p: u32) -> Option<Conclusion> {
    let (u, region) = state.sides(p, In)?;
    let v = state.one(region, TermWord::Sin)?;
    adds(vec![lit(u, Eq, v)])
}

/// sgi | t | t = sin(u) | u ni all ∥ u in t
fn sgi(state: &State, t: u32) -> Option<Conclusion> {
    let u = state.one(t, TermWord::Sin)?;
    let all = state.find(TermWord::All, &[]);
    splits(vec![vec![maybe(Some(u), Ni, all)], vec![lit(u, In, t)]])
}

/// cut | t w | reference t, region w | t in w ∥ t ni w
/// The sorts are refusal 9, looked at before.
fn cut(t: u32, w: u32) -> Option<Conclusion> {
    splits(vec![vec![lit(t, In, w)], vec![lit(t, Ni, w)]])
}

/// all | p | u in r | u in all
fn all(state: &State, p: u32) -> Option<Conclusion> {
    let (u, _) = state.sides(p, In)?;
    let all = state.find(TermWord::All, &[]);
    adds(vec![maybe(Some(u), In, all)])
}

/// nul | p | u in r | u ne nul
fn nul(state: &State, p: u32) -> Option<Conclusion> {
    let (u, _) = state.sides(p, In)?;
    let nul = state.find(TermWord::Nul, &[]);
    adds(vec![maybe(Some(u), Ne, nul)])
}

/// sep | p q | u in r; v ni r | u ne v
fn sep(state: &State, p: u32, q: u32) -> Option<Conclusion> {
    let (u, region_p) = state.sides(p, In)?;
    let (v, region_q) = state.sides(q, Ni)?;
    need(region_p == region_q)?;
    adds(vec![lit(u, Ne, v)])
}

/// img | p t | u in r; t = img(h,r,f) |
/// typ(u) nl dty(f) ∥ rea(h,u,f) ni all ∥ rea(h,u,f) in t
fn img(state: &State, p: u32, t: u32) -> Option<Conclusion> {
    let (u, region) = state.sides(p, In)?;
    let (h, r, f) = state.three(t, TermWord::Img)?;
    need(region == r)?;
    let typ = state.find(TermWord::Typ, &[u]);
    let dty = state.find(TermWord::Dty, &[f]);
    let rea = state.find(TermWord::Rea, &[h, u, f]);
    let all = state.find(TermWord::All, &[]);
    splits(vec![
        vec![maybe(typ, Nl, dty)],
        vec![maybe(rea, Ni, all)],
        vec![maybe(rea, In, Some(t))],
    ])
}

/// wit | p w | u in img(h,r,f); w fresh |
/// w in r, typ(w) le dty(f), rea(h,w,f) eq u
fn wit(state: &State, p: u32, w: u32) -> Option<Conclusion> {
    let (u, region) = state.sides(p, In)?;
    let (h, r, f) = state.three(region, TermWord::Img)?;
    let typ = state.find(TermWord::Typ, &[w]);
    let dty = state.find(TermWord::Dty, &[f]);
    let rea = state.find(TermWord::Rea, &[h, w, f]);
    adds(vec![
        lit(w, In, r),
        maybe(typ, Le, dty),
        maybe(rea, Eq, Some(u)),
    ])
}

/// ref | t | any term | t eq t
fn refl(t: u32) -> Option<Conclusion> {
    adds(vec![lit(t, Eq, t)])
}

/// sym | p | a eq b, or a ne b | the same, sides changed
fn sym(state: &State, p: u32) -> Option<Conclusion> {
    let literal = state.literal(p)?;
    need(literal.word == Eq || literal.word == Ne)?;
    adds(vec![lit(literal.right, literal.word, literal.left)])
}

/// trn | p q | a eq b; b eq c | a eq c
fn trn(state: &State, p: u32, q: u32) -> Option<Conclusion> {
    let (a, b) = state.sides(p, Eq)?;
    let (b_again, c) = state.sides(q, Eq)?;
    need(b_again == b)?;
    adds(vec![lit(a, Eq, c)])
}

/// sub | p t w | a eq b; t, w have one word, whose arguments are terms and not
/// a name, and has at least one; at each argument they agree, or t has a and w
/// has b | t eq w
fn sub(state: &State, p: u32, t: u32, w: u32) -> Option<Conclusion> {
    let (a, b) = state.sides(p, Eq)?;
    let term_t = state.term(t)?;
    let term_w = state.term(w)?;
    need(term_t.word == term_w.word)?;
    need(!takes_name(term_t.word))?;
    need(!term_t.arguments.is_empty())?;
    for (of_t, of_w) in term_t.arguments.iter().zip(&term_w.arguments) {
        let agree = of_t == of_w;
        let a_and_b = *of_t == a && *of_w == b;
        need(agree || a_and_b)?;
    }
    adds(vec![lit(t, Eq, w)])
}

/// rep | p q t | any literal; a eq b; side t (1 left, 2 right) is a |
/// p's literal with b on that side
fn rep(state: &State, p: u32, q: u32, t: u32) -> Option<Conclusion> {
    let literal = state.literal(p)?;
    let (a, b) = state.sides(q, Eq)?;
    match t {
        1 => {
            need(literal.left == a)?;
            adds(vec![lit(b, literal.word, literal.right)])
        }
        2 => {
            need(literal.right == a)?;
            adds(vec![lit(literal.left, literal.word, b)])
        }
        // "The t of `rep` is a side, so 3 there gives 12 and not 8."
        _ => None,
    }
}

/// ler | t | class t | t le t
/// The sort is refusal 9, looked at before.
fn ler(t: u32) -> Option<Conclusion> {
    adds(vec![lit(t, Le, t)])
}

/// let | p q | a le b; b le c | a le c
fn le_trans(state: &State, p: u32, q: u32) -> Option<Conclusion> {
    let (a, b) = state.sides(p, Le)?;
    let (b_again, c) = state.sides(q, Le)?;
    need(b_again == b)?;
    adds(vec![lit(a, Le, c)])
}

/// lea | p q | a le b; b le a | a eq b
fn lea(state: &State, p: u32, q: u32) -> Option<Conclusion> {
    let (a, b) = state.sides(p, Le)?;
    let (b_again, a_again) = state.sides(q, Le)?;
    need(b_again == b)?;
    need(a_again == a)?;
    adds(vec![lit(a, Eq, b)])
}

/// rdh | t | t = rea(wri(h,u,f,v),u,f) | t eq v
fn rdh(state: &State, t: u32) -> Option<Conclusion> {
    let (written, y, g) = state.three(t, TermWord::Rea)?;
    let (_, u, f, v) = state.four(written, TermWord::Wri)?;
    need(y == u)?;
    need(g == f)?;
    adds(vec![lit(t, Eq, v)])
}

/// rdm | t | t = rea(wri(h,u,f,v),y,g) | u eq y, f eq g ∥ t eq rea(h,y,g)
fn rdm(state: &State, t: u32) -> Option<Conclusion> {
    let (written, y, g) = state.three(t, TermWord::Rea)?;
    let (h, u, f, _) = state.four(written, TermWord::Wri)?;
    let rea = state.find(TermWord::Rea, &[h, y, g]);
    splits(vec![
        vec![lit(u, Eq, y), lit(f, Eq, g)],
        vec![maybe(Some(t), Eq, rea)],
    ])
}

/// cls | p q | p is in, eq or le; q is its denial on the same two terms, in the
/// same order | closes
fn cls(state: &State, p: u32, q: u32) -> Option<Conclusion> {
    let literal_p = state.literal(p)?;
    let literal_q = state.literal(q)?;
    let denial = match literal_p.word {
        In => Ni,
        Eq => Ne,
        Le => Nl,
        Ni | Ne | Nl => return None,
    };
    need(literal_q.word == denial)?;
    need(literal_q.left == literal_p.left)?;
    need(literal_q.right == literal_p.right)?;
    Some(Conclusion::Closes)
}

/// emp | p | u in emp | closes
fn emp(state: &State, p: u32) -> Option<Conclusion> {
    let (_, region) = state.sides(p, In)?;
    state.arguments(region, TermWord::Emp)?;
    Some(Conclusion::Closes)
}

/// "Rule `cla` names a clause number in t and splits into its literals in
/// order." A single literal is a single alternative, and nothing waits.
fn cla(state: &State, t: u32) -> Option<Conclusion> {
    let mut alternatives = Vec::new();
    for literal in state.clause(t)? {
        alternatives.push(vec![lit(literal.left, literal.word, literal.right)]);
    }
    splits(alternatives)
}

/// "place p holds cup(r,i) eq i with i = img(h,r,f), and cup(i,r) eq r is added"
fn fin(state: &State, p: u32) -> Option<Conclusion> {
    let (union, i) = state.sides(p, Eq)?;
    let (r, i_again) = state.two(union, TermWord::Cup)?;
    let (_, r_again, _) = state.three(i, TermWord::Img)?;
    need(i_again == i)?;
    need(r_again == r)?;
    let turned = state.find(TermWord::Cup, &[i, r]);
    adds(vec![maybe(turned, Eq, Some(r))])
}

/// "Add the closing `bck`, with no fields." "It counts as a closing", "Otherwise
/// it gets 12."
fn bck(state: &State) -> Option<Conclusion> {
    need((state.closes)(&state.terms, &state.branch))?;
    Some(Conclusion::Closes)
}
