//! The plain checker: unproved, written from docs/LISTING.md alone.

use std::collections::HashMap;
use std::hash::BuildHasher;

use crate::columns::{Column, columns_of, kind_of};
use crate::listing::{Answer, Line, MAX_LINES, PLACE, Rule, code::*};

/// Adopts all places of the bytes and checks the lines.
pub fn check_page<S: BuildHasher + Default>(bytes: &[u8], rule: Rule) -> Answer {
    match adopt(bytes) {
        Ok(lines) => check_lines::<S>(&lines, rule),
        Err(place) => Answer::out_of_form(place),
    }
}

/// Checks lines that are records already.
pub fn check_table<S: BuildHasher + Default>(lines: &[Line], rule: Rule) -> Answer {
    if lines.len() > MAX_LINES {
        return Answer::out_of_form(MAX_LINES + 1);
    }
    check_lines::<S>(lines, rule)
}

/// The lines of the page, or the lowest place that is out of form or beyond the room.
pub fn adopt(bytes: &[u8]) -> Result<Vec<Line>, usize> {
    let (places, rest) = bytes.as_chunks::<PLACE>();
    let mut lines = Vec::with_capacity(places.len().min(MAX_LINES));
    for place in places {
        match read_place(place) {
            Some(line) if lines.len() < MAX_LINES => lines.push(line),
            _ => return Err(lines.len() + 1),
        }
    }
    if rest.is_empty() { Ok(lines) } else { Err(lines.len() + 1) }
}

fn read_place(place: &[u8; PLACE]) -> Option<Line> {
    let (code, rest) = place.split_first_chunk::<3>()?;
    let (fields, end) = rest.as_chunks::<6>();
    if end != b"\n" {
        return None;
    }
    let code = u8::try_from(read_number(code)?).ok()?;
    let mut columns = [0; 7];
    for (column, field) in columns.iter_mut().zip(fields) {
        *column = u16::try_from(read_number(field)?).ok()?;
    }
    Some(Line { code, columns })
}

/// The number that fills the field right-justified, without leading zeros.
fn read_number<const N: usize>(field: &[u8; N]) -> Option<u32> {
    let spaces = field.iter().take_while(|&&byte| byte == b' ').count();
    let digits = &field[spaces..];
    if digits.is_empty() || digits[0] == b'0' && digits.len() > 1 {
        return None;
    }
    let mut number = 0;
    for byte in digits {
        let digit = byte.wrapping_sub(b'0');
        if digit > 9 {
            return None;
        }
        number = 10 * number + u32::from(digit);
    }
    Some(number)
}

fn admits(rule: Rule, code: u8) -> bool {
    rule == Rule::LeastBound || code != SUB_ALL_LEAST
}

fn check_lines<S: BuildHasher + Default>(lines: &[Line], rule: Rule) -> Answer {
    let mut checker = Checker::<S>::new(lines, rule);
    for line in lines {
        if let Err(cause) = checker.test(line) {
            return Answer::unsound(checker.number(), cause as u8);
        }
        checker.pass(line);
    }
    Answer::granted(lines.len())
}

#[derive(Clone, Copy)]
enum Cause {
    Code = 1,
    Column = 2,
    Reference = 3,
    Repeated = 4,
    Unfounded = 5,
}

/// The lines, of which those before the one at hand are not at fault.
struct Checker<'a, S> {
    lines: &'a [Line],
    rule: Rule,
    /// How many lines passed.
    passed: usize,
    numbers: HashMap<Line, u16, S>,
    /// The number of the latest definition, or 0.
    latest: u16,
    /// The number of the session environment, or 0.
    session: u16,
}

impl<'a, S: BuildHasher + Default> Checker<'a, S> {
    fn new(lines: &'a [Line], rule: Rule) -> Self {
        let numbers = HashMap::with_capacity_and_hasher(lines.len(), S::default());
        Checker { lines, rule, passed: 0, numbers, latest: 0, session: 0 }
    }

    /// The number of the line at hand.
    fn number(&self) -> usize {
        self.passed + 1
    }

    fn test(&mut self, line: &Line) -> Result<(), Cause> {
        let columns = columns_of(line.code).ok_or(Cause::Code)?;
        if !admits(self.rule, line.code) {
            return Err(Cause::Code);
        }
        let (used, past) = line.columns.split_at(columns.len());
        if past.iter().any(|&column| column != 0) {
            return Err(Cause::Column);
        }
        if !used.iter().zip(columns).all(|(&number, &column)| self.refers(number, column)) {
            return Err(Cause::Reference);
        }
        let number = self.number() as u16;
        if self.numbers.insert(*line, number).is_some() {
            return Err(Cause::Repeated);
        }
        if !self.follows(line) {
            return Err(Cause::Unfounded);
        }
        Ok(())
    }

    /// Takes the line, which is not at fault, as passed.
    fn pass(&mut self, line: &Line) {
        self.passed += 1;
        match line.code {
            ENV_EMPTY => self.session = self.passed as u16,
            LET_TYPE | LET_TERM => {
                self.session = line.columns[4];
                self.latest = self.passed as u16;
            }
            _ => {}
        }
    }

    fn refers(&self, number: u16, column: Column) -> bool {
        match column {
            Column::Number => true,
            Column::LineOrNone(_) if number == 0 => true,
            Column::Line(kind) | Column::LineOrNone(kind) => {
                number != 0 && usize::from(number) <= self.passed && kind_of(self.code(number)) == Some(kind)
            }
        }
    }

    /// The line of that number; 0 gives a line that no row wants.
    fn line(&self, number: u16) -> &'a Line {
        const NONE: &Line = &Line { code: 0, columns: [0; 7] };
        if number == 0 { NONE } else { &self.lines[usize::from(number) - 1] }
    }

    fn code(&self, number: u16) -> u8 {
        self.line(number).code
    }

    /// The line's first two columns, if it has that code.
    fn pair(&self, number: u16, code: u8) -> Option<(u16, u16)> {
        let line = self.line(number);
        (line.code == code).then_some((line.columns[0], line.columns[1]))
    }

    /// Whether the line has that code and those first columns.
    fn is<const M: usize>(&self, number: u16, code: u8, columns: [u16; M]) -> bool {
        let line = self.line(number);
        line.code == code && line.columns[..M] == columns
    }

    fn is_var(&self, number: u16, k: u32) -> bool {
        let line = self.line(number);
        line.code == TYPE_VAR && u32::from(line.columns[0]) == k
    }

    fn is_raise(&self, p: u16, a: u16, j: u32, c: u16) -> bool {
        u16::try_from(j).is_ok_and(|j| self.is(p, RAISE, [a, j, c]))
    }

    fn is_put(&self, p: u16, b: u16, j: u32, a: u16, c: u16) -> bool {
        u16::try_from(j).is_ok_and(|j| self.is(p, PUT, [b, j, a, c]))
    }

    /// The environment and the two types of a subtype line.
    fn sub(&self, p: u16) -> Option<(u16, u16, u16)> {
        let line = self.line(p);
        let [e, a, b, ..] = line.columns;
        matches!(line.code, SUB_REFL..=SUB_ALL_LEAST).then_some((e, a, b))
    }

    fn is_sub(&self, p: u16, e: u16, a: u16, b: u16) -> bool {
        self.sub(p) == Some((e, a, b))
    }

    /// The environment, the term and its type of a typing line.
    fn has(&self, p: u16) -> Option<(u16, u16, u16)> {
        let line = self.line(p);
        let [e, a, b, ..] = line.columns;
        matches!(line.code, HAS_SUBSUMED..=HAS_REC).then_some((e, a, b))
    }

    fn is_has(&self, p: u16, e: u16, a: u16, b: u16) -> bool {
        self.has(p) == Some((e, a, b))
    }

    /// The type that line p gives to the term in the environment.
    fn type_had(&self, p: u16, e: u16, a: u16) -> Option<u16> {
        self.has(p).filter(|&(of, term, _)| (of, term) == (e, a)).map(|(_, _, b)| b)
    }

    fn follows(&self, line: &Line) -> bool {
        let c = line.columns;
        match line.code {
            TYPE_VAR | TERM_VAR => c[0] != 0,
            RAISE => self.raise_follows(c),
            PUT => self.put_follows(c),
            BOUND => self.bound_follows(c),
            TYPING => self.typing_follows(c),
            IS_ENV => self.is_env_follows(c),
            IS_TYPE => self.is_type_follows(c),
            SUB_REFL..=SUB_ALL_LEAST => self.sub_follows(line.code, c).unwrap_or(false),
            HAS_SUBSUMED..=HAS_REC => self.has_follows(line.code, c).unwrap_or(false),
            NAME => is_name(c),
            LET_TYPE => self.let_type_follows(c),
            LET_TERM => self.let_term_follows(c),
            _ => true,
        }
    }

    fn raise_follows(&self, [a, j, c, p1, p2, ..]: [u16; 7]) -> bool {
        let from = self.line(a);
        let [a1, a2, ..] = from.columns;
        let [c1, c2, ..] = self.line(c).columns;
        let same_form = self.code(c) == from.code;
        let j = u32::from(j);
        match from.code {
            TYPE_TOP => c == a && p1 == 0 && p2 == 0,
            TYPE_VAR => {
                let k = u32::from(a1);
                p1 == 0 && p2 == 0 && if k <= j { c == a } else { self.is_var(c, k + 1) }
            }
            TYPE_ARROW => same_form && self.is_raise(p1, a1, j, c1) && self.is_raise(p2, a2, j, c2),
            TYPE_ALL => same_form && self.is_raise(p1, a1, j, c1) && self.is_raise(p2, a2, j + 1, c2),
            TYPE_REC => same_form && self.is_raise(p1, a1, j + 1, c1) && p2 == 0,
            _ => false,
        }
    }

    fn put_follows(&self, [b, j, a, c, p1, p2, p3]: [u16; 7]) -> bool {
        let from = self.line(b);
        let [b1, b2, ..] = from.columns;
        let [c1, c2, ..] = self.line(c).columns;
        let same_form = self.code(c) == from.code;
        let j = u32::from(j);
        // What a premise 40(A, 0, R) gives for R.
        let raised = |p: u16| self.line(p).columns[2];
        match from.code {
            TYPE_TOP => c == b && p1 == 0 && p2 == 0 && p3 == 0,
            TYPE_VAR => p1 == 0 && p2 == 0 && p3 == 0 && self.var_put(b, j, a, c),
            TYPE_ARROW => {
                same_form && self.is_put(p1, b1, j, a, c1) && self.is_put(p2, b2, j, a, c2) && p3 == 0
            }
            TYPE_ALL => {
                same_form
                    && self.is_put(p1, b1, j, a, c1)
                    && self.is(p2, RAISE, [a, 0])
                    && self.is_put(p3, b2, j + 1, raised(p2), c2)
            }
            TYPE_REC => {
                same_form
                    && self.is(p1, RAISE, [a, 0])
                    && self.is_put(p2, b1, j + 1, raised(p1), c1)
                    && p3 == 0
            }
            _ => false,
        }
    }

    /// Whether C is the variable B with A put for j.
    fn var_put(&self, b: u16, j: u32, a: u16, c: u16) -> bool {
        let k = u32::from(self.line(b).columns[0]);
        if k < j {
            c == b
        } else if k == j {
            c == a
        } else {
            self.is_var(c, k - 1)
        }
    }

    fn bound_follows(&self, [e, k, b, p1, p2, ..]: [u16; 7]) -> bool {
        let [f, a, ..] = self.line(e).columns;
        match (self.code(e), k) {
            (_, 0) => false,
            (ENV_TYPE, 1) => p1 == 0 && self.is(p2, RAISE, [a, 0, b]),
            (ENV_TYPE, _) => {
                let c = self.line(p1).columns[2];
                self.is(p1, BOUND, [f, k - 1]) && self.is(p2, RAISE, [c, 0, b])
            }
            (ENV_TERM, _) => self.is(p1, BOUND, [f, k, b]) && p2 == 0,
            _ => false,
        }
    }

    fn typing_follows(&self, [e, k, a, p1, p2, ..]: [u16; 7]) -> bool {
        let [f, c, ..] = self.line(e).columns;
        match (self.code(e), k) {
            (_, 0) => false,
            (ENV_TERM, 1) => a == c && p1 == 0 && p2 == 0,
            (ENV_TERM, _) => self.is(p1, TYPING, [f, k - 1, a]) && p2 == 0,
            (ENV_TYPE, _) => {
                let b = self.line(p1).columns[2];
                self.is(p1, TYPING, [f, k]) && self.is(p2, RAISE, [b, 0, a])
            }
            _ => false,
        }
    }

    fn is_env_follows(&self, [e, p1, ..]: [u16; 7]) -> bool {
        let [f, a, ..] = self.line(e).columns;
        match self.code(e) {
            ENV_EMPTY => p1 == 0,
            _ => self.is(p1, IS_TYPE, [f, a]),
        }
    }

    fn is_type_follows(&self, [e, a, p1, p2, ..]: [u16; 7]) -> bool {
        let [a1, a2, ..] = self.line(a).columns;
        // The environment of a premise 51(F, ..).
        let under = self.line(p1).columns[0];
        match self.code(a) {
            TYPE_TOP => self.is(p1, IS_ENV, [e]) && p2 == 0,
            TYPE_VAR => self.is(p1, IS_ENV, [e]) && self.is(p2, BOUND, [e, a1]),
            TYPE_ARROW => self.is(p1, IS_TYPE, [e, a1]) && self.is(p2, IS_TYPE, [e, a2]),
            TYPE_ALL => self.is(p1, IS_TYPE, [under, a2]) && self.is(under, ENV_TYPE, [e, a1]) && p2 == 0,
            TYPE_REC => {
                let bound = self.line(under).columns[1];
                self.is(p1, IS_TYPE, [under, a1])
                    && self.is(under, ENV_TYPE, [e])
                    && self.code(bound) == TYPE_TOP
                    && p2 == 0
            }
            _ => false,
        }
    }

    /// None, too, if the line does not follow.
    fn sub_follows(&self, code: u8, [e, a, b, p1, p2, ..]: [u16; 7]) -> Option<bool> {
        Some(match code {
            SUB_REFL => a == b && self.is(p1, IS_TYPE, [e, a]) && p2 == 0,
            SUB_TRANS => {
                let (_, _, c) = self.sub(p1)?;
                self.is_sub(p1, e, a, c) && self.is_sub(p2, e, c, b)
            }
            SUB_VAR => {
                let (k, _) = self.pair(a, TYPE_VAR)?;
                self.is(p1, IS_ENV, [e]) && self.is(p2, BOUND, [e, k, b])
            }
            SUB_TOP => self.code(b) == TYPE_TOP && self.is(p1, IS_TYPE, [e, a]) && p2 == 0,
            SUB_ARROW => {
                let (a1, a2) = self.pair(a, TYPE_ARROW)?;
                let (b1, b2) = self.pair(b, TYPE_ARROW)?;
                self.is_sub(p1, e, b1, a1) && self.is_sub(p2, e, a2, b2)
            }
            SUB_ALL_EQUAL => {
                let (a1, a2) = self.pair(a, TYPE_ALL)?;
                let (b1, b2) = self.pair(b, TYPE_ALL)?;
                let (f, _, _) = self.sub(p1)?;
                a1 == b1 && self.is_sub(p1, f, a2, b2) && self.is(f, ENV_TYPE, [e, a1]) && p2 == 0
            }
            SUB_ALL_LEAST => {
                let (a1, a2) = self.pair(a, TYPE_ALL)?;
                let (b1, b2) = self.pair(b, TYPE_ALL)?;
                let (f, _, _) = self.sub(p2)?;
                self.is_sub(p1, e, b1, a1) && self.is_sub(p2, f, a2, b2) && self.is(f, ENV_TYPE, [e, b1])
            }
            _ => false,
        })
    }

    /// None, too, if the line does not follow.
    fn has_follows(&self, code: u8, [e, a, t, p1, p2, p3, _]: [u16; 7]) -> Option<bool> {
        if code == HAS_APPL2 {
            let (function, s) = self.pair(a, TERM_APPL2)?;
            let (bound, body) = self.pair(self.type_had(p1, e, function)?, TYPE_ALL)?;
            return Some(self.is_sub(p2, e, s, bound) && self.is(p3, PUT, [body, 1, s, t]));
        }
        let follows = match code {
            HAS_SUBSUMED => self.is_sub(p2, e, self.type_had(p1, e, a)?, t),
            HAS_VAR => {
                let (k, _) = self.pair(a, TERM_VAR)?;
                self.is(p1, IS_ENV, [e]) && self.is(p2, TYPING, [e, k, t])
            }
            HAS_TOP => {
                self.code(a) == TERM_TOP && self.code(t) == TYPE_TOP && self.is(p1, IS_ENV, [e]) && p2 == 0
            }
            HAS_APPL => {
                let (function, argument) = self.pair(a, TERM_APPL)?;
                let (from, to) = self.pair(self.type_had(p1, e, function)?, TYPE_ARROW)?;
                to == t && self.is_has(p2, e, argument, from)
            }
            HAS_FOLD | HAS_UNFOLD => self.folding_follows(code, [e, a, t, p1, p2])?,
            _ => self.binder_follows(code, [e, a, t, p1])? && p2 == 0,
        };
        Some(follows && p3 == 0)
    }

    /// 73, 75 and 79: p1 gives the body's type under one binding more.
    fn binder_follows(&self, code: u8, [e, a, t, p1]: [u16; 4]) -> Option<bool> {
        let (f, body, to) = self.has(p1)?;
        let b = self.line(f).columns[1];
        Some(match code {
            HAS_FUN => {
                self.is(f, ENV_TERM, [e])
                    && self.is(a, TERM_FUN, [b, body])
                    && self.is(t, TYPE_ARROW, [b, to])
            }
            HAS_FUN2 => {
                self.is(f, ENV_TYPE, [e]) && self.is(a, TERM_FUN2, [b, body]) && self.is(t, TYPE_ALL, [b, to])
            }
            _ => self.is(f, ENV_TERM, [e, t]) && self.is(a, TERM_REC, [t, body]) && to == t,
        })
    }

    /// 77 and 78.
    fn folding_follows(&self, code: u8, [e, a, t, p1, p2]: [u16; 5]) -> Option<bool> {
        if code == HAS_FOLD {
            let (to, inner) = self.pair(a, TERM_FOLD)?;
            let (body, _) = self.pair(t, TYPE_REC)?;
            let unfolded = self.line(p1).columns[3];
            return Some(to == t && self.is(p1, PUT, [body, 1, t]) && self.is_has(p2, e, inner, unfolded));
        }
        let (inner, _) = self.pair(a, TERM_UNFOLD)?;
        let folded = self.type_had(p1, e, inner)?;
        let (body, _) = self.pair(folded, TYPE_REC)?;
        Some(self.is(p2, PUT, [body, 1, folded, t]))
    }

    fn let_type_follows(&self, [_, b, a, p1, e, d, _]: [u16; 7]) -> bool {
        e == self.session && self.is_sub(p1, e, a, b) && d == self.latest
    }

    fn let_term_follows(&self, [_, a, b, p1, f, d, _]: [u16; 7]) -> bool {
        let e = self.session;
        e != 0 && self.is_has(p1, e, b, a) && self.is(f, ENV_TERM, [e, a]) && d == self.latest
    }
}

const KEYWORDS: [&str; 11] =
    ["All", "Let", "Rec", "Top", "fold", "fun", "judge", "let", "rec", "top", "unfold"];

fn is_name(columns: [u16; 7]) -> bool {
    let bytes: Vec<u8> = columns.iter().flat_map(|column| column.to_be_bytes()).collect();
    let length = bytes.iter().position(|&byte| byte == 0).unwrap_or(bytes.len());
    let (name, rest) = bytes.split_at(length);
    let is_letter = |byte: u8| byte.is_ascii_alphabetic() || byte == b'`';
    name.first().is_some_and(|&first| is_letter(first))
        && name.iter().all(|&byte| is_letter(byte) || byte.is_ascii_digit())
        && rest.iter().all(|&byte| byte == 0)
        && !KEYWORDS.iter().any(|keyword| keyword.as_bytes() == name)
}

#[cfg(test)]
mod tests {
    use super::*;
    use crate::listing::{listing, page, write_number};
    use std::hash::RandomState;

    const IDENTITY_ON_TOP: &str = "30; 10; 21 1; 22 2 3; 12 2 2; 50 1; 51 1 2 6; 31 1 2; 50 8 7; \
        43 8 1 2; 71 8 3 2 9 10; 73 1 4 5 11; 90 26980; 31 1 5; 92 13 5 4 12 14";

    /// The answer under both rules, of the table and of its page.
    fn answers(short: &str) -> [Answer; 2] {
        let lines = listing(short);
        Rule::BOTH.map(|rule| {
            let answer = check_table::<RandomState>(&lines, rule);
            assert_eq!(check_page::<RandomState>(&page(&lines), rule), answer);
            answer
        })
    }

    fn assert_unsound(short: &str, line: usize, cause: u8) {
        assert_eq!(answers(short), [Answer::unsound(line, cause); 2], "{short}");
    }

    fn of_page(bytes: &[u8]) -> Answer {
        check_page::<RandomState>(bytes, Rule::EqualBounds)
    }

    #[test]
    fn the_sound_examples_of_the_document() {
        let putting = "11 1; 11 2; 11 3; 12 1 3; 13 1 4; 41 1 1 2 2; 40 2 0 3; 41 1 2 3 1; 41 3 2 3 2; \
            12 1 2; 41 4 2 3 10 8 9; 13 2 10; 41 5 1 2 12 6 7 11";
        let identity_on_all = "30; 10; 11 1; 21 1; 22 3 4; 24 2 5; 25 6 2; 50 1; 51 1 2 8; 32 1 2; \
            50 10 9; 40 2 0 2; 42 10 1 2 0 12; 51 10 3 11 13; 31 10 3; 50 15 14; 43 15 1 3; \
            71 15 4 3 16 17; 12 3 3; 73 10 5 19 18; 13 2 19; 75 1 6 21 20; 63 1 2 2 9; 12 2 2; \
            41 3 1 2 2; 41 19 1 2 24 25 25; 76 1 7 24 22 23 26";
        for short in ["", "30; 10; 50 1; 51 1 2 3", IDENTITY_ON_TOP, putting, identity_on_all] {
            assert_eq!(answers(short), [Answer::granted(listing(short).len()); 2], "{short}");
        }
    }

    #[test]
    fn the_example_for_least_bound_only() {
        let short = "30; 10; 11 1; 13 2 3; 12 2 2; 13 5 3; 50 1; 51 1 2 7; 51 1 5 8 8; 63 1 5 2 9; \
            32 1 5; 50 11 9; 40 2 0 2; 40 5 0 5 13 13; 42 11 1 5 0 14; 51 11 3 12 15; \
            60 11 3 3 16; 66 1 4 6 10 17";
        assert_eq!(answers(short), [Answer::unsound(18, 1), Answer::granted(18)]);
    }

    #[test]
    fn the_faults_of_the_document() {
        assert_unsound("0", 1, 1);
        assert_eq!(answers("30; 10; 66 1 2 2"), [Answer::unsound(3, 1), Answer::unsound(3, 5)]);
        assert_unsound("30; 10 1", 2, 2);
        assert_unsound("51 1 1 1 0 7", 1, 2);
        assert_unsound("51 1 1 1", 1, 3);
        assert_unsound("30; 12 1 1", 2, 3);
        assert_unsound("10; 12 1 0", 2, 3);
        assert_unsound("30; 10; 50 1 2", 3, 3);
        assert_unsound("10; 10", 2, 4);
        assert_unsound("30; 10; 51 1 2; 51 1 2", 3, 5);
        assert_unsound("11 0", 1, 5);
        assert_unsound("30; 10; 50 1; 51 1 2 3 3", 4, 5);
        assert_unsound("30; 10; 50 1; 51 1 2 3; 60 1 2 2 3", 5, 5);
        assert_unsound("11 65535; 40 1 0 1", 2, 5);
        assert_unsound("11 1; 41 1 0 1 1", 2, 5);
        assert_unsound(&format!("{IDENTITY_ON_TOP}; 92 13 5 4 12 14"), 16, 4);
        assert_unsound(&format!("{IDENTITY_ON_TOP}; 92 13 5 4 12 14 15"), 16, 5);
        assert_unsound("90 16748 27648", 1, 5);
        assert_unsound("90 26980 0 1", 1, 5);
        assert_unsound("90 12641", 1, 5);
    }

    #[test]
    fn the_files_of_the_document_that_are_no_pages() {
        let two = page(&listing("30; 10"));
        assert_eq!(of_page(&two[..91]), Answer::out_of_form(2));
        let mut three = page(&listing("10; 10; 30"));
        three[92..95].copy_from_slice(b"030");
        assert_eq!(of_page(&three), Answer::out_of_form(3));
        let mut one = page(&listing("11 1"));
        write_number(&mut one[3..9], 65_536);
        assert_eq!(of_page(&one), Answer::out_of_form(1));
        one[3..9].fill(b' ');
        assert_eq!(of_page(&one), Answer::out_of_form(1));
        assert_eq!(of_page(b""), Answer::granted(0));
    }

    #[test]
    fn files_beyond_the_room() {
        let mut bytes = page(&vec![listing("10")[0]; 65_536]);
        assert_eq!(of_page(&bytes), Answer::out_of_form(65_536));
        assert_eq!(of_page(&bytes[..65_536 * 46 - 1]), Answer::out_of_form(65_536));
        assert_eq!(of_page(&bytes[..65_535 * 46]), Answer::unsound(2, 4));
        bytes[65_534 * 46] = b'x';
        assert_eq!(of_page(&bytes), Answer::out_of_form(65_535));
        let lines = vec![listing("10")[0]; 65_536];
        assert_eq!(check_table::<RandomState>(&lines, Rule::LeastBound), Answer::out_of_form(65_536));
    }
}
