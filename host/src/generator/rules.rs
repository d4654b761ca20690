//! The rules, as steps of a draft. Who calls one knows that its
//! needs are met. Each gives the place of the first literal added.

use super::draft::{lit, ClauseId, Draft, Field, Literal, Place, TermId};

const NONE: Field = Field::Unused;

fn at(place: Place) -> Field {
    Field::Place(place)
}

fn of(term: TermId) -> Field {
    Field::Term(term)
}

impl Draft {
    fn all_region(&mut self) -> TermId {
        self.term("all", &[])
    }

    pub fn eqr(&mut self, p: Place, q: Place) -> Place {
        let (_, s) = self.sides(p, "eq");
        let (u, _) = self.sides(q, "in");
        let added = vec![lit(u, "in", s)];
        self.add("eqr", [at(p), at(q), NONE, NONE], vec![added])
    }

    pub fn eql(&mut self, p: Place, q: Place) -> Place {
        let (r, _) = self.sides(p, "eq");
        let (u, _) = self.sides(q, "in");
        let added = vec![lit(u, "in", r)];
        self.add("eql", [at(p), at(q), NONE, NONE], vec![added])
    }

    pub fn ext(&mut self, p: Place, w: TermId) -> Place {
        self.take_fresh(w);
        let (r, s) = self.sides(p, "ne");
        let left = vec![lit(w, "in", r), lit(w, "ni", s)];
        let right = vec![lit(w, "ni", r), lit(w, "in", s)];
        self.add("ext", [at(p), NONE, NONE, of(w)], vec![left, right])
    }

    pub fn cpe(&mut self, p: Place) -> Place {
        let (u, cap) = self.sides(p, "in");
        let (r, s) = (self.argument(cap, 0), self.argument(cap, 1));
        let added = vec![lit(u, "in", r), lit(u, "in", s)];
        self.add("cpe", [at(p), NONE, NONE, NONE], vec![added])
    }

    pub fn cpi(&mut self, p: Place, q: Place, t: TermId) -> Place {
        let (u, _) = self.sides(p, "in");
        let added = vec![lit(u, "in", t)];
        self.add("cpi", [at(p), at(q), of(t), NONE], vec![added])
    }

    pub fn cue(&mut self, p: Place) -> Place {
        let (u, cup) = self.sides(p, "in");
        let (r, s) = (self.argument(cup, 0), self.argument(cup, 1));
        let alternatives = vec![vec![lit(u, "in", r)], vec![lit(u, "in", s)]];
        self.add("cue", [at(p), NONE, NONE, NONE], alternatives)
    }

    pub fn cui(&mut self, p: Place, t: TermId) -> Place {
        let (u, _) = self.sides(p, "in");
        let added = vec![lit(u, "in", t)];
        self.add("cui", [at(p), NONE, of(t), NONE], vec![added])
    }

    pub fn dfe(&mut self, p: Place) -> Place {
        let (u, dif) = self.sides(p, "in");
        let (r, s) = (self.argument(dif, 0), self.argument(dif, 1));
        let added = vec![lit(u, "in", r), lit(u, "ni", s)];
        self.add("dfe", [at(p), NONE, NONE, NONE], vec![added])
    }

    pub fn dfi(&mut self, p: Place, q: Place, t: TermId) -> Place {
        let (u, _) = self.sides(p, "in");
        let added = vec![lit(u, "in", t)];
        self.add("dfi", [at(p), at(q), of(t), NONE], vec![added])
    }

    pub fn sge(&mut self, p: Place) -> Place {
        let (u, sin) = self.sides(p, "in");
        let added = vec![lit(u, "eq", self.argument(sin, 0))];
        self.add("sge", [at(p), NONE, NONE, NONE], vec![added])
    }

    pub fn sgi(&mut self, t: TermId) -> Place {
        let all = self.all_region();
        let u = self.argument(t, 0);
        let alternatives = vec![vec![lit(u, "ni", all)], vec![lit(u, "in", t)]];
        self.add("sgi", [NONE, NONE, of(t), NONE], alternatives)
    }

    pub fn cut(&mut self, t: TermId, w: TermId) -> Place {
        let alternatives = vec![vec![lit(t, "in", w)], vec![lit(t, "ni", w)]];
        self.add("cut", [NONE, NONE, of(t), of(w)], alternatives)
    }

    pub fn all(&mut self, p: Place) -> Place {
        let (u, _) = self.sides(p, "in");
        let all = self.all_region();
        let added = vec![lit(u, "in", all)];
        self.add("all", [at(p), NONE, NONE, NONE], vec![added])
    }

    pub fn nul(&mut self, p: Place) -> Place {
        let (u, _) = self.sides(p, "in");
        let nul = self.term("nul", &[]);
        let added = vec![lit(u, "ne", nul)];
        self.add("nul", [at(p), NONE, NONE, NONE], vec![added])
    }

    pub fn sep(&mut self, p: Place, q: Place) -> Place {
        let (u, _) = self.sides(p, "in");
        let (v, _) = self.sides(q, "ni");
        let added = vec![lit(u, "ne", v)];
        self.add("sep", [at(p), at(q), NONE, NONE], vec![added])
    }

    pub fn img(&mut self, p: Place, t: TermId) -> Place {
        let (u, _) = self.sides(p, "in");
        let (h, f) = (self.argument(t, 0), self.argument(t, 2));
        let typ = self.term("typ", &[u]);
        let dty = self.term("dty", &[f]);
        let rea = self.term("rea", &[h, u, f]);
        let all = self.all_region();
        let alternatives = vec![
            vec![lit(typ, "nl", dty)],
            vec![lit(rea, "ni", all)],
            vec![lit(rea, "in", t)],
        ];
        self.add("img", [at(p), NONE, of(t), NONE], alternatives)
    }

    pub fn wit(&mut self, p: Place, w: TermId) -> Place {
        self.take_fresh(w);
        let (u, img) = self.sides(p, "in");
        let (h, r, f) = (
            self.argument(img, 0),
            self.argument(img, 1),
            self.argument(img, 2),
        );
        let typ = self.term("typ", &[w]);
        let dty = self.term("dty", &[f]);
        let rea = self.term("rea", &[h, w, f]);
        let added = vec![lit(w, "in", r), lit(typ, "le", dty), lit(rea, "eq", u)];
        self.add("wit", [at(p), NONE, NONE, of(w)], vec![added])
    }

    /// The rule `ref`.
    pub fn reflexive(&mut self, t: TermId) -> Place {
        let added = vec![lit(t, "eq", t)];
        self.add("ref", [NONE, NONE, of(t), NONE], vec![added])
    }

    pub fn sym(&mut self, p: Place) -> Place {
        let literal = self.literal(p);
        let added = vec![lit(literal.right, literal.word, literal.left)];
        self.add("sym", [at(p), NONE, NONE, NONE], vec![added])
    }

    pub fn trn(&mut self, p: Place, q: Place) -> Place {
        let (a, _) = self.sides(p, "eq");
        let (_, c) = self.sides(q, "eq");
        let added = vec![lit(a, "eq", c)];
        self.add("trn", [at(p), at(q), NONE, NONE], vec![added])
    }

    pub fn sub(&mut self, p: Place, t: TermId, w: TermId) -> Place {
        let added = vec![lit(t, "eq", w)];
        self.add("sub", [at(p), NONE, of(t), of(w)], vec![added])
    }

    pub fn rep(&mut self, p: Place, q: Place, side: u32) -> Place {
        let mut literal = self.literal(p);
        let (_, b) = self.sides(q, "eq");
        match side {
            1 => literal.left = b,
            _ => literal.right = b,
        }
        let fields = [at(p), at(q), Field::Side(side), NONE];
        self.add("rep", fields, vec![vec![literal]])
    }

    pub fn ler(&mut self, t: TermId) -> Place {
        let added = vec![lit(t, "le", t)];
        self.add("ler", [NONE, NONE, of(t), NONE], vec![added])
    }

    /// The rule `let`.
    pub fn le_trans(&mut self, p: Place, q: Place) -> Place {
        let (a, _) = self.sides(p, "le");
        let (_, c) = self.sides(q, "le");
        let added = vec![lit(a, "le", c)];
        self.add("let", [at(p), at(q), NONE, NONE], vec![added])
    }

    pub fn lea(&mut self, p: Place, q: Place) -> Place {
        let (a, b) = self.sides(p, "le");
        let added = vec![lit(a, "eq", b)];
        self.add("lea", [at(p), at(q), NONE, NONE], vec![added])
    }

    pub fn rdh(&mut self, t: TermId) -> Place {
        let written = self.argument(t, 0);
        let added = vec![lit(t, "eq", self.argument(written, 3))];
        self.add("rdh", [NONE, NONE, of(t), NONE], vec![added])
    }

    pub fn rdm(&mut self, t: TermId) -> Place {
        let (written, y, g) = (
            self.argument(t, 0),
            self.argument(t, 1),
            self.argument(t, 2),
        );
        let (h, u, f) = (
            self.argument(written, 0),
            self.argument(written, 1),
            self.argument(written, 2),
        );
        let rea = self.term("rea", &[h, y, g]);
        let changed = vec![lit(u, "eq", y), lit(f, "eq", g)];
        let kept = vec![lit(t, "eq", rea)];
        self.add("rdm", [NONE, NONE, of(t), NONE], vec![changed, kept])
    }

    pub fn cla(&mut self, clause: ClauseId) -> Place {
        let literals = self.clauses[clause.0].iter();
        let alternatives = literals.map(|literal| vec![*literal]).collect();
        let fields = [NONE, NONE, Field::Clause(clause), NONE];
        self.add("cla", fields, alternatives)
    }

    pub fn fin(&mut self, p: Place) -> Place {
        let (cup, image) = self.sides(p, "eq");
        let r = self.argument(cup, 0);
        let turned = self.term("cup", &[image, r]);
        let added = vec![lit(turned, "eq", r)];
        self.add("fin", [at(p), NONE, NONE, NONE], vec![added])
    }

    /// Whether the literal at a place is what `fin` needs: cup(r,i) eq i, where
    /// i is an image of r.
    pub fn is_inside_image(&self, place: Place) -> bool {
        let Literal { left, word, right } = self.literal(place);
        word == "eq"
            && self.word(left) == "cup"
            && self.word(right) == "img"
            && self.argument(left, 0) == self.argument(right, 1)
            && self.argument(left, 1) == right
    }

    pub fn cls(&mut self, p: Place, q: Place) {
        self.close("cls", [at(p), at(q), NONE, NONE]);
    }

    /// The rule `emp`.
    pub fn empty(&mut self, p: Place) {
        self.close("emp", [at(p), NONE, NONE, NONE]);
    }

    pub fn bck(&mut self) {
        self.close("bck", [NONE; 4]);
    }
}
