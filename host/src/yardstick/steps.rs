//! A lines, C lines and S lines.

use super::background::Background;
use super::clauses::Clauses;
use super::literals::{literal, Literal, Relation};
use super::mentions::Mentions;
use super::packing::{has_sort, same_sort, Sort};
use super::reader::{refused, Line};
use super::refusal::{ensure, unused, Refusal};
use super::terms::Terms;
use super::tree::Tree;
use super::words::{relation, rule};

pub struct Checker {
    pub terms: Terms,
    pub clauses: Clauses,
    pub tree: Tree,
    pub mentions: Mentions,
    /// Made at the first `bck`, since many files have none.
    pub background: Option<Box<Background>>,
    /// Where w stands first, after a step that is refused for that.
    pub place: u32,
}

impl Checker {
    pub fn new() -> Checker {
        Checker {
            terms: Terms::new(),
            clauses: Clauses::new(),
            tree: Tree::new(),
            mentions: Mentions::default(),
            background: None,
            place: 0,
        }
    }

    /// How much is assumed: each A line, and each clause.
    pub fn assumptions(&self) -> u32 {
        (self.tree.branch().len() + self.clauses.count()) as u32
    }

    /// An A line.
    #[inline(always)]
    pub fn assume(&mut self, line: Line) -> Result<(), Refusal> {
        let [.., third, fourth] = line.fields;
        let literal = self.literal(line, [third, fourth])?;
        self.tree.add([literal])
    }

    /// A C line.
    #[inline(always)]
    pub fn assume_among(&mut self, line: Line) -> Result<(), Refusal> {
        let [.., clause, fourth] = line.fields;
        let literal = self.literal(line, [fourth])?;
        self.clauses.add(clause, literal)
    }

    /// The literal of an A line or of a C line, with the fields that such a
    /// line doesn't use.
    #[inline(always)]
    fn literal<const N: usize>(&self, line: Line, rest: [u32; N]) -> Result<Literal, Refusal> {
        let relation = match line.word {
            relation::IN => Relation::In,
            relation::NI => Relation::Ni,
            relation::EQ => Relation::Eq,
            relation::NE => Relation::Ne,
            relation::LE => Relation::Le,
            relation::NL => Relation::Nl,
            _ => return Err(refused(line.letter, line.word, Refusal::Word)),
        };
        let [left, right, ..] = line.fields;
        unused(rest)?;
        let (a, b) = (self.terms.named(left)?, self.terms.named(right)?);
        let fit = match relation {
            Relation::In | Relation::Ni => {
                has_sort(a, Sort::Reference) && has_sort(b, Sort::Region)
            }
            Relation::Eq | Relation::Ne => same_sort(a, b),
            Relation::Le | Relation::Nl => has_sort(a, Sort::Class) && has_sort(b, Sort::Class),
        };
        ensure(fit, Refusal::Sort)?;
        Ok(literal(left, relation, right))
    }

    /// An S line.
    #[inline(always)]
    pub fn step(&mut self, line: Line) -> Result<(), Refusal> {
        let fields = line.fields;
        match line.word {
            rule::EQR => self.eqr(fields),
            rule::EQL => self.eql(fields),
            rule::EXT => self.ext(fields),
            rule::CPE => self.cpe(fields),
            rule::CPI => self.cpi(fields),
            rule::CUE => self.cue(fields),
            rule::CUI => self.cui(fields),
            rule::DFE => self.dfe(fields),
            rule::DFI => self.dfi(fields),
            rule::SGE => self.sge(fields),
            rule::SGI => self.sgi(fields),
            rule::CUT => self.cut(fields),
            rule::ALL => self.all(fields),
            rule::NUL => self.nul(fields),
            rule::SEP => self.sep(fields),
            rule::IMG => self.img(fields),
            rule::WIT => self.wit(fields),
            rule::REF => self.reflexive(fields),
            rule::SYM => self.sym(fields),
            rule::TRN => self.trn(fields),
            rule::SUB => self.sub(fields),
            rule::REP => self.rep(fields),
            rule::LER => self.ler(fields),
            rule::LET => self.le_trans(fields),
            rule::LEA => self.lea(fields),
            rule::RDH => self.rdh(fields),
            rule::RDM => self.rdm(fields),
            rule::CLA => self.cla(fields),
            rule::FIN => self.fin(fields),
            rule::CLS => self.cls(fields),
            rule::EMP => self.empty(fields),
            rule::BCK => self.bck(fields),
            _ => Err(refused(line.letter, line.word, Refusal::Word)),
        }
    }

    /// The refusal of an S line in a closed tree. A word that isn't known is
    /// refused in any tree, so in an open one.
    #[cold]
    pub fn refused_when_closed(word: u32) -> Refusal {
        let line = Line {
            letter: Some(b'S'),
            word,
            fields: [0; 4],
        };
        match Checker::new().step(line) {
            Err(refusal @ (Refusal::Shape | Refusal::Word)) => refusal,
            _ => Refusal::Closed,
        }
    }
}
