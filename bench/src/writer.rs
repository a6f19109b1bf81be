//! A listing that grows: a line is put only if no equal one stands.

use std::collections::HashMap;

use crate::listing::{Line, MAX_LINES, code::*};

/// Why no line was put.
#[derive(Clone, Copy, PartialEq, Eq, Debug)]
pub enum Stop {
    /// The listing has as many lines as it may have.
    Full,
    /// What is sought is not there, or a number would be out of range.
    Missing,
}

pub type Step<T> = Result<T, Stop>;

pub struct Writer {
    lines: Vec<Line>,
    limit: usize,
    numbers: HashMap<Line, u16>,
    /// The line that computes or judges something, by its code and what it is asked about.
    settled: HashMap<[u16; 4], u16>,
}

impl Writer {
    pub fn new(limit: usize) -> Writer {
        let limit = limit.min(MAX_LINES);
        Writer { lines: Vec::with_capacity(limit), limit, numbers: HashMap::new(), settled: HashMap::new() }
    }

    pub fn into_lines(self) -> Vec<Line> {
        self.lines
    }

    pub fn count(&self) -> usize {
        self.lines.len()
    }

    /// The number of this line, which is put if it does not stand yet.
    pub fn put(&mut self, code: u8, columns: &[u16]) -> Step<u16> {
        let line = Line::new(code, columns);
        if let Some(&number) = self.numbers.get(&line) {
            return Ok(number);
        }
        if self.lines.len() == self.limit {
            return Err(Stop::Full);
        }
        self.lines.push(line);
        let number = self.lines.len() as u16;
        self.numbers.insert(line, number);
        Ok(number)
    }

    pub fn line(&self, number: u16) -> Line {
        self.lines[usize::from(number) - 1]
    }

    pub fn code(&self, number: u16) -> u8 {
        self.line(number).code
    }

    /// The line's column, counted from 1.
    pub fn column(&self, number: u16, column: usize) -> u16 {
        self.line(number).columns[column - 1]
    }

    /// The line's first two columns, if it has that code.
    pub fn parts(&self, number: u16, code: u8) -> Step<(u16, u16)> {
        let line = self.line(number);
        if line.code == code { Ok((line.columns[0], line.columns[1])) } else { Err(Stop::Missing) }
    }

    pub fn settled(&self, question: [u16; 4]) -> Option<u16> {
        self.settled.get(&question).copied()
    }

    pub fn settle(&mut self, question: [u16; 4], number: u16) {
        self.settled.insert(question, number);
    }

    pub fn top(&mut self) -> Step<u16> {
        self.put(TYPE_TOP, &[])
    }

    pub fn type_var(&mut self, k: u16) -> Step<u16> {
        self.put(TYPE_VAR, &[k])
    }

    pub fn arrow(&mut self, a: u16, b: u16) -> Step<u16> {
        self.put(TYPE_ARROW, &[a, b])
    }

    pub fn all(&mut self, a: u16, b: u16) -> Step<u16> {
        self.put(TYPE_ALL, &[a, b])
    }

    pub fn rec(&mut self, b: u16) -> Step<u16> {
        self.put(TYPE_REC, &[b])
    }

    pub fn empty(&mut self) -> Step<u16> {
        self.put(ENV_EMPTY, &[])
    }

    /// E,x:A
    pub fn with_term(&mut self, e: u16, a: u16) -> Step<u16> {
        self.put(ENV_TERM, &[e, a])
    }

    /// E,X<:A
    pub fn with_type(&mut self, e: u16, a: u16) -> Step<u16> {
        self.put(ENV_TYPE, &[e, a])
    }

    /// How many bindings of this code the environment has.
    pub fn bindings(&self, mut e: u16, code: u8) -> usize {
        let mut count = 0;
        loop {
            let line = self.line(e);
            if line.code == ENV_EMPTY {
                return count;
            }
            count += usize::from(line.code == code);
            e = line.columns[0];
        }
    }

    /// The name of up to fourteen bytes.
    pub fn name(&mut self, text: &str) -> Step<u16> {
        let mut bytes = [0; 14];
        bytes[..text.len()].copy_from_slice(text.as_bytes());
        let (pairs, _) = bytes.as_chunks::<2>();
        let columns: Vec<u16> = pairs.iter().map(|&pair| u16::from_be_bytes(pair)).collect();
        self.put(NAME, &columns)
    }
}
