//! Sound listings from random derivations.

use crate::listing::{Line, Rule, code::*};
use crate::random::Random;
use crate::writer::{Step, Stop, Writer};

/// A sound listing of so many lines under the rule, the same for the same seed.
pub fn sound_listing(rule: Rule, lines: usize, seed: u64) -> Vec<Line> {
    let mut generator = Generator::new(rule, lines, seed);
    while generator.round() != Err(Stop::Full) {}
    generator.writer.into_lines()
}

/// Which variables a random type may have.
#[derive(Clone, Copy)]
pub enum Scope {
    /// Those of so many binders.
    Bound(usize),
    /// Any low ones.
    Low,
    /// Some that raising or lowering brings to the end of the numbers.
    High,
}

impl Scope {
    pub fn inner(self) -> Scope {
        match self {
            Scope::Bound(binders) => Scope::Bound(binders + 1),
            open => open,
        }
    }

    fn variable(self, random: &mut Random) -> Option<u16> {
        match self {
            Scope::Bound(0) => None,
            Scope::Bound(binders) => Some(random.between(1, binders) as u16),
            Scope::Low => Some(random.between(1, 6) as u16),
            Scope::High => Some(random.pick(&[1, 2, 3, 65_532, 65_533, 65_534, 65_535])),
        }
    }
}

/// Something to be added to a listing.
#[derive(Clone, Copy)]
enum Task {
    Raise,
    Put,
    Lookup,
    Environment,
    Type,
    /// The same judgments in several environments.
    Siblings,
    /// A subtype that follows by this code.
    Subtype(u8),
    /// A term's type that follows by this code.
    Term(u8),
    LetType,
    LetTerm,
}

pub struct Generator {
    pub writer: Writer,
    pub random: Random,
    pub rule: Rule,
    /// Some environments that are well-formed.
    environments: Vec<u16>,
    names: Vec<u16>,
    /// The number of the session environment, or 0 before the first use of it.
    session: u16,
    /// The number of the latest definition, or 0.
    latest: u16,
}

impl Generator {
    fn new(rule: Rule, lines: usize, seed: u64) -> Generator {
        Generator {
            writer: Writer::new(lines),
            random: Random::new(seed),
            rule,
            environments: Vec::new(),
            names: Vec::new(),
            session: 0,
            latest: 0,
        }
    }

    /// Performs each task at least once, in random order.
    fn round(&mut self) -> Step<()> {
        let mut tasks = vec![Task::Environment, Task::Type, Task::Siblings, Task::LetType, Task::LetTerm];
        tasks.extend([Task::Raise; 3]);
        tasks.extend([Task::Put; 5]);
        tasks.extend([Task::Lookup; 2]);
        tasks.extend((SUB_REFL..=SUB_ALL_EQUAL).map(Task::Subtype));
        tasks.extend((HAS_SUBSUMED..=HAS_REC).map(Task::Term));
        if self.rule == Rule::LeastBound {
            tasks.push(Task::Subtype(SUB_ALL_LEAST));
        }
        self.random.shuffle(&mut tasks);
        for task in tasks {
            if self.perform(task) == Err(Stop::Full) {
                return Err(Stop::Full);
            }
        }
        Ok(())
    }

    fn perform(&mut self, task: Task) -> Step<u16> {
        let depth = self.depth();
        match task {
            Task::Raise => self.add_raise(),
            Task::Put => self.add_put(),
            Task::Lookup => self.add_lookups(),
            Task::Environment => self.add_environment(),
            Task::Type => {
                let e = self.environment()?;
                let a = self.type_in(e, depth + 1)?;
                self.writer.is_type(e, a)
            }
            Task::Siblings => self.add_siblings(),
            Task::Subtype(code) => {
                let e = self.environment()?;
                self.subtype_by(code, e, depth)
            }
            Task::Term(code) => {
                let e = self.environment()?;
                self.term_by(code, e, depth)
            }
            Task::LetType => self.add_let_type(depth),
            Task::LetTerm => self.add_let_term(depth),
        }
    }

    /// How deep something random is. The first lines of a listing are simple ones.
    fn depth(&mut self) -> usize {
        let most = if self.writer.count() < 500 { 2 } else { 4 };
        self.random.between(1, most)
    }

    fn scope(&mut self) -> Scope {
        if self.random.chance(20) { Scope::High } else { Scope::Low }
    }

    fn add_raise(&mut self) -> Step<u16> {
        let (scope, depth) = (self.scope(), self.depth());
        let a = self.some_type(scope, depth)?;
        for _ in 0..self.random.between(1, 3) {
            let j = self.level(scope);
            self.writer.raise(a, j)?;
        }
        Ok(a)
    }

    fn add_put(&mut self) -> Step<u16> {
        let (scope, depth) = (self.scope(), self.depth());
        let b = self.some_type(scope, depth)?;
        for _ in 0..self.random.between(1, 2) {
            let depth = self.random.between(0, 2);
            let a = self.some_type(scope, depth)?;
            let j = self.level(scope);
            self.put_at(b, j, a)?;
        }
        Ok(b)
    }

    fn put_at(&mut self, b: u16, j: u16, a: u16) -> Step<u16> {
        if j > 0 {
            return self.writer.put_for(b, j, a);
        }
        // The variable 1 can't be lowered, so have none.
        let raise = self.writer.raise(b, 0)?;
        self.writer.put_for(self.writer.raised(raise), 0, a)
    }

    /// The j of a raising or putting.
    fn level(&mut self, scope: Scope) -> u16 {
        match scope {
            Scope::High => self.random.pick(&[0, 1, 65_533, 65_534, 65_535]),
            _ => self.random.pick(&[0, 1, 1, 1, 2, 3, 4]),
        }
    }

    /// The bounds and types of variables in an environment that need not be well-formed.
    fn add_lookups(&mut self) -> Step<u16> {
        let mut e = self.environment()?;
        for _ in 0..self.random.between(1, 5) {
            let depth = self.depth();
            let a = self.some_type(Scope::Low, depth)?;
            e = self.with_binding(e, a)?;
        }
        for k in 1..=self.random.between(1, 3) as u16 {
            for lookup in [self.writer.bound(e, k), self.writer.typing(e, k)] {
                if lookup == Err(Stop::Full) {
                    return lookup;
                }
            }
        }
        Ok(e)
    }

    fn add_environment(&mut self) -> Step<u16> {
        const MOST: usize = 16;
        let e = self.environment()?;
        let depth = self.depth();
        let a = self.type_in(e, depth)?;
        let longer = self.with_binding(e, a)?;
        self.writer.is_env(longer)?;
        if self.environments.len() < MOST {
            self.environments.push(longer);
        } else {
            let place = self.random.below(MOST);
            self.environments[place] = longer;
        }
        Ok(longer)
    }

    /// Judgments that differ in nothing but the environment and its last binding.
    fn add_siblings(&mut self) -> Step<u16> {
        let environments = [self.session()?, self.environment()?];
        let bindings = [self.writer.top()?, self.some_type(Scope::Bound(0), 1)?];
        let body = self.some_type(Scope::Bound(1), 1)?;
        for e in environments {
            for a in bindings {
                self.judgments_under(e, a, body)?;
            }
        }
        Ok(body)
    }

    fn judgments_under(&mut self, e: u16, a: u16, body: u16) -> Step<u16> {
        let w = &mut self.writer;
        let (all, rec) = (w.all(a, body)?, w.rec(body)?);
        w.is_type(e, all)?;
        w.is_type(e, rec)?;
        let f = w.with_type(e, a)?;
        let bodies = w.sub_top(f, body)?;
        w.sub_all_equal(bodies)?;
        if self.rule == Rule::LeastBound {
            let bounds = w.sub_refl(e, a)?;
            w.sub_all_least(bounds, bodies)?;
        }
        let top = w.has_top(f)?;
        w.has_fun2(top)?;
        let f = w.with_term(e, a)?;
        let (top, x) = (w.has_top(f)?, w.has_var(f, 1)?);
        let sub = w.sub_top(f, a)?;
        w.has_subsumed(x, sub)?;
        w.has_rec(x)?;
        if w.code(a) == TYPE_TOP {
            w.has_rec(top)?;
        }
        w.has_fun(top)
    }

    fn with_binding(&mut self, e: u16, a: u16) -> Step<u16> {
        if self.random.chance(60) { self.writer.with_type(e, a) } else { self.writer.with_term(e, a) }
    }

    fn add_let_type(&mut self, depth: usize) -> Step<u16> {
        let (name, e) = (self.name()?, self.session()?);
        let a = self.type_in(e, depth)?;
        let sub = self.supertype(e, a, depth)?;
        self.latest = self.writer.let_type(name, sub, self.latest)?;
        Ok(self.latest)
    }

    fn add_let_term(&mut self, depth: usize) -> Step<u16> {
        let (name, e) = (self.name()?, self.session()?);
        let a = self.type_in(e, depth)?;
        let has = self.term_of(e, a, depth)?;
        self.latest = self.writer.let_term(name, has, self.latest)?;
        self.session = self.writer.column(self.latest, 5);
        Ok(self.latest)
    }

    fn session(&mut self) -> Step<u16> {
        if self.session == 0 {
            self.session = self.writer.empty()?;
        }
        Ok(self.session)
    }

    /// A well-formed environment.
    fn environment(&mut self) -> Step<u16> {
        if self.environments.is_empty() || self.random.chance(25) {
            return self.session();
        }
        Ok(self.random.pick(&self.environments))
    }

    /// A random type of E.
    pub fn type_in(&mut self, e: u16, depth: usize) -> Step<u16> {
        let binders = self.writer.bindings(e, ENV_TYPE);
        self.some_type(Scope::Bound(binders), depth)
    }

    pub fn some_type(&mut self, scope: Scope, depth: usize) -> Step<u16> {
        let form = if depth == 0 { self.random.below(25) } else { self.random.below(100) };
        match form {
            0..5 => self.writer.top(),
            5..25 => match scope.variable(&mut self.random) {
                Some(k) => self.writer.type_var(k),
                None => self.writer.top(),
            },
            25..65 => {
                let a = self.some_type(scope, depth - 1)?;
                let b = self.some_type(scope, depth - 1)?;
                self.writer.arrow(a, b)
            }
            65..85 => {
                let a = self.some_type(scope, depth - 1)?;
                let b = self.some_type(scope.inner(), depth - 1)?;
                self.writer.all(a, b)
            }
            _ => {
                let b = self.some_type(scope.inner(), depth - 1)?;
                self.writer.rec(b)
            }
        }
    }

    /// A name, new or used before.
    fn name(&mut self) -> Step<u16> {
        const FIRST: &[u8] = b"ABCDEFGHIJKLMNOPQRSTUVWXYZabcdefghijklmnopqrstuvwxyz`";
        const LATER: &[u8] = b"ABCXYZabcdefghijklmnopqrstuvwxyz`0123456789";
        if !self.names.is_empty() && self.random.chance(20) {
            return Ok(self.random.pick(&self.names));
        }
        let mut text = String::from(char::from(self.random.pick(FIRST)));
        // Of one letter, or of too many for a keyword.
        if self.random.chance(80) {
            for _ in 0..self.random.between(6, 13) {
                text.push(char::from(self.random.pick(LATER)));
            }
        }
        let name = self.writer.name(&text)?;
        self.names.push(name);
        Ok(name)
    }
}

#[cfg(test)]
mod tests {
    use super::*;
    use crate::checker::check_table;
    use crate::listing::{Answer, code::KNOWN};
    use std::hash::RandomState;

    #[test]
    fn listings_are_sound_and_as_long_as_asked() {
        for rule in Rule::BOTH {
            for seed in 0..300 {
                let lines = sound_listing(rule, seed as usize, seed);
                assert_eq!(check_table::<RandomState>(&lines, rule), Answer::granted(seed as usize));
            }
        }
    }

    #[test]
    fn a_thousand_lines_have_every_code() {
        for rule in Rule::BOTH {
            for seed in 0..200 {
                let lines = sound_listing(rule, 1_000, seed);
                assert_eq!(check_table::<RandomState>(&lines, rule), Answer::granted(1_000));
                for code in KNOWN {
                    let expected = rule == Rule::LeastBound || code != SUB_ALL_LEAST;
                    let occurs = lines.iter().any(|line| line.code == code);
                    assert_eq!(occurs, expected, "{} seed {seed} code {code}", rule.name());
                }
            }
        }
    }

    #[test]
    fn the_longest_listings_are_sound() {
        for rule in Rule::BOTH {
            let lines = sound_listing(rule, 65_535, 1);
            assert_eq!(check_table::<RandomState>(&lines, rule), Answer::granted(65_535));
        }
    }
}
