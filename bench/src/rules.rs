//! Lines 60 to 79, 91 and 92: each method applies one rule to lines that stand, and gives the
//! number of the line that concludes. It writes down the types and terms that the conclusion needs.

use crate::listing::code::*;
use crate::writer::{Step, Writer};

/// What a line 60 to 79 says: the environment, the type or term, and the type to the right.
pub struct Judgment {
    pub env: u16,
    pub left: u16,
    pub right: u16,
}

impl Writer {
    /// What the line 60 to 79 says.
    pub fn judgment(&self, number: u16) -> Judgment {
        let [env, left, right, ..] = self.line(number).columns;
        Judgment { env, left, right }
    }

    pub fn sub_refl(&mut self, e: u16, a: u16) -> Step<u16> {
        let p1 = self.is_type(e, a)?;
        self.put(SUB_REFL, &[e, a, a, p1])
    }

    /// From A<:C and C<:B: A<:B.
    pub fn sub_trans(&mut self, p1: u16, p2: u16) -> Step<u16> {
        let (first, second) = (self.judgment(p1), self.judgment(p2));
        self.put(SUB_TRANS, &[first.env, first.left, second.right, p1, p2])
    }

    /// The variable k is a subtype of its bound.
    pub fn sub_var(&mut self, e: u16, k: u16) -> Step<u16> {
        let a = self.type_var(k)?;
        let (p1, p2) = (self.is_env(e)?, self.bound(e, k)?);
        self.put(SUB_VAR, &[e, a, self.looked_up(p2), p1, p2])
    }

    pub fn sub_top(&mut self, e: u16, a: u16) -> Step<u16> {
        let (top, p1) = (self.top()?, self.is_type(e, a)?);
        self.put(SUB_TOP, &[e, a, top, p1])
    }

    /// From C<:A and B<:D: A->B <: C->D.
    pub fn sub_arrow(&mut self, p1: u16, p2: u16) -> Step<u16> {
        let (first, second) = (self.judgment(p1), self.judgment(p2));
        let left = self.arrow(first.right, second.left)?;
        let right = self.arrow(first.left, second.right)?;
        self.put(SUB_ARROW, &[first.env, left, right, p1, p2])
    }

    /// From B<:D in E,X<:A: All(X<:A)B <: All(X<:A)D in E.
    pub fn sub_all_equal(&mut self, p1: u16) -> Step<u16> {
        let body = self.judgment(p1);
        let (e, a) = self.parts(body.env, ENV_TYPE)?;
        let left = self.all(a, body.left)?;
        let right = self.all(a, body.right)?;
        self.put(SUB_ALL_EQUAL, &[e, left, right, p1])
    }

    /// From C<:A in E and B<:D in E,X<:C: All(X<:A)B <: All(X<:C)D in E.
    pub fn sub_all_least(&mut self, p1: u16, p2: u16) -> Step<u16> {
        let (bounds, bodies) = (self.judgment(p1), self.judgment(p2));
        let left = self.all(bounds.right, bodies.left)?;
        let right = self.all(bounds.left, bodies.right)?;
        self.put(SUB_ALL_LEAST, &[bounds.env, left, right, p1, p2])
    }

    /// From a:B and B<:A: a:A.
    pub fn has_subsumed(&mut self, p1: u16, p2: u16) -> Step<u16> {
        let (has, sub) = (self.judgment(p1), self.judgment(p2));
        self.put(HAS_SUBSUMED, &[has.env, has.left, sub.right, p1, p2])
    }

    /// The term variable k has its type.
    pub fn has_var(&mut self, e: u16, k: u16) -> Step<u16> {
        let a = self.put(TERM_VAR, &[k])?;
        let (p1, p2) = (self.is_env(e)?, self.typing(e, k)?);
        self.put(HAS_VAR, &[e, a, self.looked_up(p2), p1, p2])
    }

    pub fn has_top(&mut self, e: u16) -> Step<u16> {
        let (term, top) = (self.put(TERM_TOP, &[])?, self.top()?);
        let p1 = self.is_env(e)?;
        self.put(HAS_TOP, &[e, term, top, p1])
    }

    /// From b:C in E,x:B: fun(x:B)b : B->C in E.
    pub fn has_fun(&mut self, p1: u16) -> Step<u16> {
        let body = self.judgment(p1);
        let (e, b) = self.parts(body.env, ENV_TERM)?;
        let term = self.put(TERM_FUN, &[b, body.left])?;
        let arrow = self.arrow(b, body.right)?;
        self.put(HAS_FUN, &[e, term, arrow, p1])
    }

    /// From b:B->A and c:B: b(c) : A.
    pub fn has_appl(&mut self, p1: u16, p2: u16) -> Step<u16> {
        let (function, argument) = (self.judgment(p1), self.judgment(p2));
        let (_, a) = self.parts(function.right, TYPE_ARROW)?;
        let term = self.put(TERM_APPL, &[function.left, argument.left])?;
        self.put(HAS_APPL, &[function.env, term, a, p1, p2])
    }

    /// From b:C in E,X<:B: fun(X<:B)b : All(X<:B)C in E.
    pub fn has_fun2(&mut self, p1: u16) -> Step<u16> {
        let body = self.judgment(p1);
        let (e, b) = self.parts(body.env, ENV_TYPE)?;
        let term = self.put(TERM_FUN2, &[b, body.left])?;
        let all = self.all(b, body.right)?;
        self.put(HAS_FUN2, &[e, term, all, p1])
    }

    /// From b:All(X<:B)C and S<:B: b(:S) has the instance of C at S.
    pub fn has_appl2(&mut self, p1: u16, p2: u16) -> Step<u16> {
        let (function, sub) = (self.judgment(p1), self.judgment(p2));
        let (_, c) = self.parts(function.right, TYPE_ALL)?;
        let term = self.put(TERM_APPL2, &[function.left, sub.left])?;
        let p3 = self.put_for(c, 1, sub.left)?;
        self.put(HAS_APPL2, &[function.env, term, self.instance(p3), p1, p2, p3])
    }

    /// What a term must have to be folded into the recursive type A.
    pub fn unfolding(&mut self, a: u16) -> Step<u16> {
        let (b, _) = self.parts(a, TYPE_REC)?;
        self.put_for(b, 1, a)
    }

    /// From b of the unfolding of A: fold(:A)(b) : A.
    pub fn has_fold(&mut self, a: u16, p2: u16) -> Step<u16> {
        let inner = self.judgment(p2);
        let p1 = self.unfolding(a)?;
        let term = self.put(TERM_FOLD, &[a, inner.left])?;
        self.put(HAS_FOLD, &[inner.env, term, a, p1, p2])
    }

    /// From b:A, which is recursive: unfold(b) has the unfolding of A.
    pub fn has_unfold(&mut self, p1: u16) -> Step<u16> {
        let inner = self.judgment(p1);
        let p2 = self.unfolding(inner.right)?;
        let term = self.put(TERM_UNFOLD, &[inner.left])?;
        self.put(HAS_UNFOLD, &[inner.env, term, self.instance(p2), p1, p2])
    }

    /// From b:A in E,x:A: rec(x:A)b : A in E.
    pub fn has_rec(&mut self, p1: u16) -> Step<u16> {
        let body = self.judgment(p1);
        let (e, a) = self.parts(body.env, ENV_TERM)?;
        let term = self.put(TERM_REC, &[a, body.left])?;
        self.put(HAS_REC, &[e, term, a, p1])
    }

    /// From A<:B in the session environment: Let name<:B = A.
    pub fn let_type(&mut self, name: u16, p1: u16, latest: u16) -> Step<u16> {
        let sub = self.judgment(p1);
        self.put(LET_TYPE, &[name, sub.right, sub.left, p1, sub.env, latest])
    }

    /// From b:A in the session environment: let name:A = b. The next session environment is column 5.
    pub fn let_term(&mut self, name: u16, p1: u16, latest: u16) -> Step<u16> {
        let has = self.judgment(p1);
        let next = self.with_term(has.env, has.right)?;
        self.put(LET_TERM, &[name, has.right, has.left, p1, next, latest])
    }
}
