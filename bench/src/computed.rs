//! Lines 40 to 51: each method gives the number of the line that answers its question.

use crate::listing::code::*;
use crate::writer::{Step, Stop, Writer};

impl Writer {
    /// The line that raises A above j.
    pub fn raise(&mut self, a: u16, j: u16) -> Step<u16> {
        let question = [u16::from(RAISE), a, j, 0];
        if let Some(number) = self.settled(question) {
            return Ok(number);
        }
        let [a1, a2, ..] = self.line(a).columns;
        let (c, p1, p2) = match self.code(a) {
            TYPE_TOP => (a, 0, 0),
            TYPE_VAR if a1 <= j => (a, 0, 0),
            TYPE_VAR => (self.type_var(next(a1)?)?, 0, 0),
            TYPE_ARROW => {
                let (p1, p2) = (self.raise(a1, j)?, self.raise(a2, j)?);
                (self.arrow(self.raised(p1), self.raised(p2))?, p1, p2)
            }
            TYPE_ALL => {
                let (p1, p2) = (self.raise(a1, j)?, self.raise(a2, next(j)?)?);
                (self.all(self.raised(p1), self.raised(p2))?, p1, p2)
            }
            _ => {
                let p1 = self.raise(a1, next(j)?)?;
                (self.rec(self.raised(p1))?, p1, 0)
            }
        };
        let number = self.put(RAISE, &[a, j, c, p1, p2])?;
        self.settle(question, number);
        Ok(number)
    }

    /// The line that puts A for j in B.
    pub fn put_for(&mut self, b: u16, j: u16, a: u16) -> Step<u16> {
        let question = [u16::from(PUT), b, j, a];
        if let Some(number) = self.settled(question) {
            return Ok(number);
        }
        let [b1, b2, ..] = self.line(b).columns;
        let (c, p1, p2, p3) = match self.code(b) {
            TYPE_TOP => (b, 0, 0, 0),
            TYPE_VAR if b1 < j => (b, 0, 0, 0),
            TYPE_VAR if b1 == j => (a, 0, 0, 0),
            TYPE_VAR if b1 == 1 => return Err(Stop::Missing),
            TYPE_VAR => (self.type_var(b1 - 1)?, 0, 0, 0),
            TYPE_ARROW => {
                let (p1, p2) = (self.put_for(b1, j, a)?, self.put_for(b2, j, a)?);
                (self.arrow(self.instance(p1), self.instance(p2))?, p1, p2, 0)
            }
            TYPE_ALL => {
                let (p1, p2) = (self.put_for(b1, j, a)?, self.raise(a, 0)?);
                let p3 = self.put_for(b2, next(j)?, self.raised(p2))?;
                (self.all(self.instance(p1), self.instance(p3))?, p1, p2, p3)
            }
            _ => {
                let p1 = self.raise(a, 0)?;
                let p2 = self.put_for(b1, next(j)?, self.raised(p1))?;
                (self.rec(self.instance(p2))?, p1, p2, 0)
            }
        };
        let number = self.put(PUT, &[b, j, a, c, p1, p2, p3])?;
        self.settle(question, number);
        Ok(number)
    }

    /// The line that gives the bound of the type variable k in E.
    pub fn bound(&mut self, e: u16, k: u16) -> Step<u16> {
        let question = [u16::from(BOUND), e, k, 0];
        if let Some(number) = self.settled(question) {
            return Ok(number);
        }
        let [f, a, ..] = self.line(e).columns;
        let (b, p1, p2) = match (self.code(e), k) {
            (ENV_EMPTY, _) | (_, 0) => return Err(Stop::Missing),
            (ENV_TYPE, 1) => {
                let p2 = self.raise(a, 0)?;
                (self.raised(p2), 0, p2)
            }
            (ENV_TYPE, _) => {
                let p1 = self.bound(f, k - 1)?;
                let p2 = self.raise(self.looked_up(p1), 0)?;
                (self.raised(p2), p1, p2)
            }
            _ => {
                let p1 = self.bound(f, k)?;
                (self.looked_up(p1), p1, 0)
            }
        };
        let number = self.put(BOUND, &[e, k, b, p1, p2])?;
        self.settle(question, number);
        Ok(number)
    }

    /// The line that gives the type of the term variable k in E.
    pub fn typing(&mut self, e: u16, k: u16) -> Step<u16> {
        let question = [u16::from(TYPING), e, k, 0];
        if let Some(number) = self.settled(question) {
            return Ok(number);
        }
        let [f, c, ..] = self.line(e).columns;
        let (a, p1, p2) = match (self.code(e), k) {
            (ENV_EMPTY, _) | (_, 0) => return Err(Stop::Missing),
            (ENV_TERM, 1) => (c, 0, 0),
            (ENV_TERM, _) => {
                let p1 = self.typing(f, k - 1)?;
                (self.looked_up(p1), p1, 0)
            }
            _ => {
                let p1 = self.typing(f, k)?;
                let p2 = self.raise(self.looked_up(p1), 0)?;
                (self.raised(p2), p1, p2)
            }
        };
        let number = self.put(TYPING, &[e, k, a, p1, p2])?;
        self.settle(question, number);
        Ok(number)
    }

    /// The line that says that E is an environment.
    pub fn is_env(&mut self, e: u16) -> Step<u16> {
        let question = [u16::from(IS_ENV), e, 0, 0];
        if let Some(number) = self.settled(question) {
            return Ok(number);
        }
        let [f, a, ..] = self.line(e).columns;
        let p1 = if self.code(e) == ENV_EMPTY { 0 } else { self.is_type(f, a)? };
        let number = self.put(IS_ENV, &[e, p1])?;
        self.settle(question, number);
        Ok(number)
    }

    /// The line that says that A is a type in E.
    pub fn is_type(&mut self, e: u16, a: u16) -> Step<u16> {
        let question = [u16::from(IS_TYPE), e, a, 0];
        if let Some(number) = self.settled(question) {
            return Ok(number);
        }
        let [a1, a2, ..] = self.line(a).columns;
        let (p1, p2) = match self.code(a) {
            TYPE_TOP => (self.is_env(e)?, 0),
            TYPE_VAR => (self.is_env(e)?, self.bound(e, a1)?),
            TYPE_ARROW => (self.is_type(e, a1)?, self.is_type(e, a2)?),
            TYPE_ALL => {
                let f = self.with_type(e, a1)?;
                (self.is_type(f, a2)?, 0)
            }
            _ => {
                let top = self.top()?;
                let f = self.with_type(e, top)?;
                (self.is_type(f, a1)?, 0)
            }
        };
        let number = self.put(IS_TYPE, &[e, a, p1, p2])?;
        self.settle(question, number);
        Ok(number)
    }

    /// What a line 40 computes.
    pub fn raised(&self, raise: u16) -> u16 {
        self.column(raise, 3)
    }

    /// What a line 41 computes.
    pub fn instance(&self, put: u16) -> u16 {
        self.column(put, 4)
    }

    /// The bound or type that a line 42 or 43 gives.
    pub fn looked_up(&self, lookup: u16) -> u16 {
        self.column(lookup, 3)
    }
}

fn next(number: u16) -> Step<u16> {
    number.checked_add(1).ok_or(Stop::Missing)
}
