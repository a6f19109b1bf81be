//! Random derivations of subtypes and of terms, each line by one rule from lines that stand.

use crate::generate::Generator;
use crate::listing::{Rule, code::*};
use crate::writer::Step;

impl Generator {
    /// Some subtype judgment in E that follows by this code.
    pub fn subtype_by(&mut self, code: u8, e: u16, depth: usize) -> Step<u16> {
        match code {
            SUB_REFL => {
                let a = self.type_in(e, depth)?;
                self.writer.sub_refl(e, a)
            }
            SUB_TRANS => {
                let a = self.type_in(e, depth)?;
                self.chain(e, a, depth)
            }
            SUB_VAR => {
                let e = self.with_some_type(e, depth)?;
                let k = self.random.between(1, self.writer.bindings(e, ENV_TYPE)) as u16;
                self.writer.sub_var(e, k)
            }
            SUB_TOP => {
                let a = self.type_in(e, depth)?;
                self.writer.sub_top(e, a)
            }
            SUB_ARROW => {
                let a = self.type_in(e, depth)?;
                let b = self.type_in(e, depth)?;
                let p1 = self.subtype(e, a, depth)?;
                let p2 = self.supertype(e, b, depth)?;
                self.writer.sub_arrow(p1, p2)
            }
            _ => {
                let a = self.type_in(e, depth)?;
                let f = self.writer.with_type(e, a)?;
                let b = self.type_in(f, depth)?;
                self.all_supertype(code, e, a, b, depth)
            }
        }
    }

    /// E, lengthened by a type binding if it has none or by chance.
    fn with_some_type(&mut self, e: u16, depth: usize) -> Step<u16> {
        if self.writer.bindings(e, ENV_TYPE) > 0 && self.random.chance(50) {
            return Ok(e);
        }
        let a = self.type_in(e, depth)?;
        self.writer.with_type(e, a)
    }

    /// A judgment A<:B for some B.
    pub fn supertype(&mut self, e: u16, a: u16, depth: usize) -> Step<u16> {
        let [a1, a2, ..] = self.writer.line(a).columns;
        if depth == 0 || self.random.chance(15) {
            return self.simple_supertype(e, a);
        }
        if self.random.chance(10) {
            return self.chain(e, a, depth - 1);
        }
        match self.writer.code(a) {
            TYPE_VAR => {
                let p1 = self.writer.sub_var(e, a1)?;
                let bound = self.writer.judgment(p1).right;
                let p2 = self.supertype(e, bound, depth - 1)?;
                self.writer.sub_trans(p1, p2)
            }
            TYPE_ARROW => {
                let p1 = self.subtype(e, a1, depth - 1)?;
                let p2 = self.supertype(e, a2, depth - 1)?;
                self.writer.sub_arrow(p1, p2)
            }
            TYPE_ALL => {
                let code = self.all_code();
                self.all_supertype(code, e, a1, a2, depth - 1)
            }
            _ => self.simple_supertype(e, a),
        }
    }

    fn simple_supertype(&mut self, e: u16, a: u16) -> Step<u16> {
        let line = self.writer.line(a);
        if line.code == TYPE_VAR && self.random.chance(50) {
            self.writer.sub_var(e, line.columns[0])
        } else if self.random.chance(40) {
            self.writer.sub_top(e, a)
        } else {
            self.writer.sub_refl(e, a)
        }
    }

    /// A<:C by some B with A<:B and B<:C.
    fn chain(&mut self, e: u16, a: u16, depth: usize) -> Step<u16> {
        let p1 = self.supertype(e, a, depth)?;
        let b = self.writer.judgment(p1).right;
        let p2 = self.supertype(e, b, depth)?;
        self.writer.sub_trans(p1, p2)
    }

    /// A judgment All(X<:A)B <: C for some C, by code 65 or 66.
    fn all_supertype(&mut self, code: u8, e: u16, a: u16, b: u16, depth: usize) -> Step<u16> {
        if code == SUB_ALL_EQUAL {
            let f = self.writer.with_type(e, a)?;
            let bodies = self.supertype(f, b, depth)?;
            return self.writer.sub_all_equal(bodies);
        }
        let bounds = self.subtype(e, a, depth)?;
        let least = self.writer.judgment(bounds).left;
        let f = self.writer.with_type(e, least)?;
        let bodies = self.supertype(f, b, depth)?;
        self.writer.sub_all_least(bounds, bodies)
    }

    fn all_code(&mut self) -> u8 {
        if self.rule == Rule::LeastBound && self.random.chance(60) { SUB_ALL_LEAST } else { SUB_ALL_EQUAL }
    }

    /// A judgment B<:A for some B.
    pub fn subtype(&mut self, e: u16, a: u16, depth: usize) -> Step<u16> {
        let [a1, a2, ..] = self.writer.line(a).columns;
        if depth == 0 || self.random.chance(15) {
            return self.simple_subtype(e, a);
        }
        match self.writer.code(a) {
            TYPE_TOP => {
                let b = self.type_in(e, depth - 1)?;
                self.writer.sub_top(e, b)
            }
            TYPE_ARROW => {
                let p1 = self.supertype(e, a1, depth - 1)?;
                let p2 = self.subtype(e, a2, depth - 1)?;
                self.writer.sub_arrow(p1, p2)
            }
            TYPE_ALL if self.all_code() == SUB_ALL_EQUAL => {
                let f = self.writer.with_type(e, a1)?;
                let bodies = self.subtype(f, a2, depth - 1)?;
                self.writer.sub_all_equal(bodies)
            }
            TYPE_ALL => {
                let bounds = self.supertype(e, a1, depth - 1)?;
                let f = self.writer.with_type(e, a1)?;
                let bodies = self.subtype(f, a2, depth - 1)?;
                self.writer.sub_all_least(bounds, bodies)
            }
            _ => self.simple_subtype(e, a),
        }
    }

    /// By a variable with the bound A, if one is found at once.
    fn simple_subtype(&mut self, e: u16, a: u16) -> Step<u16> {
        let variables = self.writer.bindings(e, ENV_TYPE);
        if variables > 0 {
            let k = self.random.between(1, variables) as u16;
            let bound = self.writer.bound(e, k)?;
            if self.writer.looked_up(bound) == a {
                return self.writer.sub_var(e, k);
            }
        }
        self.writer.sub_refl(e, a)
    }

    /// Some term's type in E that follows by this code.
    pub fn term_by(&mut self, code: u8, e: u16, depth: usize) -> Step<u16> {
        match code {
            HAS_TOP => self.writer.has_top(e),
            HAS_VAR => {
                let e = self.with_some_term(e, depth)?;
                let k = self.random.between(1, self.writer.bindings(e, ENV_TERM).min(8)) as u16;
                self.writer.has_var(e, k)
            }
            HAS_FUN => {
                let b = self.type_in(e, depth)?;
                let c = self.type_in(e, depth)?;
                self.function(e, b, c, depth)
            }
            HAS_FUN2 | HAS_APPL2 => {
                let b = self.type_in(e, depth)?;
                let f = self.writer.with_type(e, b)?;
                let c = self.type_in(f, depth)?;
                if code == HAS_FUN2 {
                    return self.function2(e, b, c, depth);
                }
                let bounds = self.subtype(e, b, depth)?;
                self.application2(e, b, c, bounds, depth)
            }
            HAS_FOLD | HAS_UNFOLD => {
                let folded = self.recursive_type(e, depth)?;
                let inner = self.folded(e, folded, depth)?;
                if code == HAS_FOLD { Ok(inner) } else { self.writer.has_unfold(inner) }
            }
            _ => {
                let a = self.type_in(e, depth)?;
                match code {
                    HAS_SUBSUMED => self.subsumed(e, a, depth),
                    HAS_APPL => self.application(e, a, depth),
                    _ => self.recursive(e, a, depth),
                }
            }
        }
    }

    fn with_some_term(&mut self, e: u16, depth: usize) -> Step<u16> {
        if self.writer.bindings(e, ENV_TERM) > 0 && self.random.chance(50) {
            return Ok(e);
        }
        let a = self.type_in(e, depth)?;
        self.writer.with_term(e, a)
    }

    fn recursive_type(&mut self, e: u16, depth: usize) -> Step<u16> {
        let top = self.writer.top()?;
        let f = self.writer.with_type(e, top)?;
        let b = self.type_in(f, depth)?;
        self.writer.rec(b)
    }

    /// A judgment a:A for some term a.
    pub fn term_of(&mut self, e: u16, a: u16, depth: usize) -> Step<u16> {
        if depth == 0 {
            return self.simple_term(e, a);
        }
        let [a1, a2, ..] = self.writer.line(a).columns;
        match (self.random.below(100), self.writer.code(a)) {
            (0..10, _) => self.application(e, a, depth - 1),
            (10..20, _) => self.instantiated(e, a, depth - 1),
            (20..26, _) => self.unfolded(e, a, depth - 1),
            (26..34, _) => self.recursive(e, a, depth - 1),
            (34..44, _) => self.subsumed(e, a, depth - 1),
            (_, TYPE_ARROW) => self.function(e, a1, a2, depth - 1),
            (_, TYPE_ALL) => self.function2(e, a1, a2, depth - 1),
            (_, TYPE_REC) => self.folded(e, a, depth - 1),
            _ => self.simple_term(e, a),
        }
    }

    /// By a variable of that type, if one is found at once.
    fn simple_term(&mut self, e: u16, a: u16) -> Step<u16> {
        let variables = self.writer.bindings(e, ENV_TERM);
        if variables > 0 {
            let k = self.random.between(1, variables.min(6)) as u16;
            let typing = self.writer.typing(e, k)?;
            if self.writer.looked_up(typing) == a {
                return self.writer.has_var(e, k);
            }
        }
        if self.writer.code(a) == TYPE_TOP {
            return self.writer.has_top(e);
        }
        let f = self.writer.with_term(e, a)?;
        let body = self.writer.has_var(f, 1)?;
        self.writer.has_rec(body)
    }

    fn subsumed(&mut self, e: u16, a: u16, depth: usize) -> Step<u16> {
        let sub = self.subtype(e, a, depth)?;
        let b = self.writer.judgment(sub).left;
        let has = self.term_of(e, b, depth)?;
        self.writer.has_subsumed(has, sub)
    }

    fn function(&mut self, e: u16, b: u16, c: u16, depth: usize) -> Step<u16> {
        let f = self.writer.with_term(e, b)?;
        let body = self.term_of(f, c, depth)?;
        self.writer.has_fun(body)
    }

    fn application(&mut self, e: u16, a: u16, depth: usize) -> Step<u16> {
        let b = self.type_in(e, depth)?;
        let arrow = self.writer.arrow(b, a)?;
        let function = self.term_of(e, arrow, depth)?;
        let argument = self.term_of(e, b, depth)?;
        self.writer.has_appl(function, argument)
    }

    fn function2(&mut self, e: u16, b: u16, c: u16, depth: usize) -> Step<u16> {
        let f = self.writer.with_type(e, b)?;
        let body = self.term_of(f, c, depth)?;
        self.writer.has_fun2(body)
    }

    /// A term of All(X<:B)C, applied to the type that `bounds` says is a subtype of B.
    fn application2(&mut self, e: u16, b: u16, c: u16, bounds: u16, depth: usize) -> Step<u16> {
        let all = self.writer.all(b, c)?;
        let function = self.term_of(e, all, depth)?;
        self.writer.has_appl2(function, bounds)
    }

    /// A term of A by applying one of an All type to a type.
    fn instantiated(&mut self, e: u16, a: u16, depth: usize) -> Step<u16> {
        let line = self.writer.line(a);
        let s = match line.code {
            TYPE_ARROW => line.columns[0],
            _ => self.type_in(e, depth)?,
        };
        let c = self.abstracted(a, s)?;
        let bounds = self.supertype(e, s, depth)?;
        let b = self.writer.judgment(bounds).right;
        self.application2(e, b, c, bounds, depth)
    }

    /// A type whose instance at S is A: some S in the arrows of A is the variable 1 there.
    fn abstracted(&mut self, a: u16, s: u16) -> Step<u16> {
        let line = self.writer.line(a);
        if a == s && self.random.chance(80) {
            return self.writer.type_var(1);
        }
        if line.code == TYPE_ARROW {
            let left = self.abstracted(line.columns[0], s)?;
            let right = self.abstracted(line.columns[1], s)?;
            return self.writer.arrow(left, right);
        }
        let raise = self.writer.raise(a, 0)?;
        Ok(self.writer.raised(raise))
    }

    /// A term of the recursive type A by folding one of its unfolding.
    fn folded(&mut self, e: u16, a: u16, depth: usize) -> Step<u16> {
        let unfolding = self.writer.unfolding(a)?;
        let inner = self.term_of(e, self.writer.instance(unfolding), depth)?;
        self.writer.has_fold(a, inner)
    }

    /// A term of A by unfolding one of Rec(X)A.
    fn unfolded(&mut self, e: u16, a: u16, depth: usize) -> Step<u16> {
        let raise = self.writer.raise(a, 0)?;
        let folded = self.writer.rec(self.writer.raised(raise))?;
        let inner = self.term_of(e, folded, depth)?;
        self.writer.has_unfold(inner)
    }

    fn recursive(&mut self, e: u16, a: u16, depth: usize) -> Step<u16> {
        let f = self.writer.with_term(e, a)?;
        let body = self.term_of(f, a, depth)?;
        self.writer.has_rec(body)
    }
}
