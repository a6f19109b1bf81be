//! A small benefit formula as a listing: Booleans and amounts are encoded as functions over types.
//!
//! ```text
//! Let Bool<:Top = All(A<:Top)A->A->A
//! let true:Bool = fun(A<:Top)fun(yes:A)fun(no:A)yes
//! Let Amount<:Top = All(A<:Top){A->A}->A->A
//! let zero:Amount = fun(A<:Top)fun(add:A->A)fun(start:A)start
//! let benefit:Bool->Amount->Amount =
//!     fun(vested:Bool)fun(accrued:Amount)vested(:Amount)(accrued)(zero)
//! let payout:All(P<:Amount)P->Amount = fun(P<:Amount)fun(accrued:P)benefit(true)(accrued)
//! ```
//!
//! The argument of `benefit(true)` in `payout` is an Amount by subsumption only: it is a P.

use crate::listing::{Line, MAX_LINES};
use crate::writer::{Step, Writer};

/// The page's lines, sound under both rules.
pub fn benefit_formula() -> Vec<Line> {
    let mut session = Session { writer: Writer::new(MAX_LINES), env: 0, latest: 0 };
    session.define_all().expect("the formula fits");
    session.writer.into_lines()
}

struct Session {
    writer: Writer,
    /// The number of the session environment.
    env: u16,
    /// The number of the latest definition, or 0.
    latest: u16,
}

impl Session {
    fn define_all(&mut self) -> Step<()> {
        self.env = self.writer.empty()?;
        let boolean = self.boolean()?;
        self.define_type("Bool", boolean)?;
        self.define("true", Session::yes)?;
        let amount = self.amount()?;
        self.define_type("Amount", amount)?;
        self.define("zero", Session::zero)?;
        self.define("benefit", Session::benefit)?;
        self.define("payout", Session::payout)
    }

    /// Let name<:Top = A
    fn define_type(&mut self, name: &str, a: u16) -> Step<()> {
        let sub = self.writer.sub_top(self.env, a)?;
        let name = self.writer.name(name)?;
        self.latest = self.writer.let_type(name, sub, self.latest)?;
        Ok(())
    }

    /// let name:A = b, where b:A is what `derive` gives.
    fn define(&mut self, name: &str, derive: fn(&mut Session) -> Step<u16>) -> Step<()> {
        let has = derive(self)?;
        let name = self.writer.name(name)?;
        self.latest = self.writer.let_term(name, has, self.latest)?;
        self.env = self.writer.column(self.latest, 5);
        Ok(())
    }

    /// All(A<:Top)A->A->A
    fn boolean(&mut self) -> Step<u16> {
        let w = &mut self.writer;
        let (top, a) = (w.top()?, w.type_var(1)?);
        let function = w.arrow(a, a)?;
        let choice = w.arrow(a, function)?;
        w.all(top, choice)
    }

    /// All(A<:Top){A->A}->A->A
    fn amount(&mut self) -> Step<u16> {
        let w = &mut self.writer;
        let (top, a) = (w.top()?, w.type_var(1)?);
        let function = w.arrow(a, a)?;
        let repetition = w.arrow(function, function)?;
        w.all(top, repetition)
    }

    /// fun(A<:Top)fun(yes:A)fun(no:A)yes : Bool
    fn yes(&mut self) -> Step<u16> {
        let w = &mut self.writer;
        let (top, a) = (w.top()?, w.type_var(1)?);
        let e = w.with_type(self.env, top)?;
        let e = w.with_term(e, a)?;
        let e = w.with_term(e, a)?;
        let yes = w.has_var(e, 2)?;
        let function = w.has_fun(yes)?;
        let function = w.has_fun(function)?;
        w.has_fun2(function)
    }

    /// fun(A<:Top)fun(add:A->A)fun(start:A)start : Amount
    fn zero(&mut self) -> Step<u16> {
        let w = &mut self.writer;
        let (top, a) = (w.top()?, w.type_var(1)?);
        let function = w.arrow(a, a)?;
        let e = w.with_type(self.env, top)?;
        let e = w.with_term(e, function)?;
        let e = w.with_term(e, a)?;
        let start = w.has_var(e, 1)?;
        let function = w.has_fun(start)?;
        let function = w.has_fun(function)?;
        w.has_fun2(function)
    }

    /// fun(vested:Bool)fun(accrued:Amount)vested(:Amount)(accrued)(zero) : Bool->Amount->Amount
    fn benefit(&mut self) -> Step<u16> {
        let (boolean, amount) = (self.boolean()?, self.amount()?);
        let w = &mut self.writer;
        let e = w.with_term(self.env, boolean)?;
        let e = w.with_term(e, amount)?;
        let (accrued, vested, zero) = (w.has_var(e, 1)?, w.has_var(e, 2)?, w.has_var(e, 3)?);
        let any = w.sub_top(e, amount)?;
        let choice = w.has_appl2(vested, any)?;
        let choice = w.has_appl(choice, accrued)?;
        let chosen = w.has_appl(choice, zero)?;
        let function = w.has_fun(chosen)?;
        w.has_fun(function)
    }

    /// fun(P<:Amount)fun(accrued:P)benefit(true)(accrued) : All(P<:Amount)P->Amount
    fn payout(&mut self) -> Step<u16> {
        let amount = self.amount()?;
        let w = &mut self.writer;
        let p = w.type_var(1)?;
        let e = w.with_type(self.env, amount)?;
        let e = w.with_term(e, p)?;
        let (accrued, benefit, vested) = (w.has_var(e, 1)?, w.has_var(e, 2)?, w.has_var(e, 4)?);
        let for_vested = w.has_appl(benefit, vested)?;
        let is_amount = w.sub_var(e, 1)?;
        let accrued = w.has_subsumed(accrued, is_amount)?;
        let paid = w.has_appl(for_vested, accrued)?;
        let function = w.has_fun(paid)?;
        w.has_fun2(function)
    }
}

#[cfg(test)]
mod tests {
    use super::*;
    use crate::checker::check_table;
    use crate::listing::{Answer, Rule, code::*};
    use std::hash::RandomState;

    #[test]
    fn the_formula_is_sound_under_both_rules() {
        let lines = benefit_formula();
        assert!((60..=200).contains(&lines.len()), "{} lines", lines.len());
        for rule in Rule::BOTH {
            assert_eq!(check_table::<RandomState>(&lines, rule), Answer::granted(lines.len()));
        }
        for code in [NAME, LET_TYPE, LET_TERM, HAS_APPL2, HAS_SUBSUMED] {
            assert!(lines.iter().any(|line| line.code == code));
        }
    }
}
