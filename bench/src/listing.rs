//! Lines, the quantifier rules, the answers, and the two ways of writing a listing as text.

use std::hash::{Hash, Hasher};

/// The most lines that a listing may have.
pub const MAX_LINES: usize = 65_535;

/// The bytes of a line on a page.
pub const PLACE: usize = 46;

/// The codes of the table of lines.
pub mod code {
    pub const TYPE_TOP: u8 = 10;
    pub const TYPE_VAR: u8 = 11;
    pub const TYPE_ARROW: u8 = 12;
    pub const TYPE_ALL: u8 = 13;
    pub const TYPE_REC: u8 = 14;
    pub const TERM_TOP: u8 = 20;
    pub const TERM_VAR: u8 = 21;
    pub const TERM_FUN: u8 = 22;
    pub const TERM_APPL: u8 = 23;
    pub const TERM_FUN2: u8 = 24;
    pub const TERM_APPL2: u8 = 25;
    pub const TERM_FOLD: u8 = 26;
    pub const TERM_UNFOLD: u8 = 27;
    pub const TERM_REC: u8 = 28;
    pub const ENV_EMPTY: u8 = 30;
    pub const ENV_TERM: u8 = 31;
    pub const ENV_TYPE: u8 = 32;
    pub const RAISE: u8 = 40;
    pub const PUT: u8 = 41;
    pub const BOUND: u8 = 42;
    pub const TYPING: u8 = 43;
    pub const IS_ENV: u8 = 50;
    pub const IS_TYPE: u8 = 51;
    pub const SUB_REFL: u8 = 60;
    pub const SUB_TRANS: u8 = 61;
    pub const SUB_VAR: u8 = 62;
    pub const SUB_TOP: u8 = 63;
    pub const SUB_ARROW: u8 = 64;
    pub const SUB_ALL_EQUAL: u8 = 65;
    pub const SUB_ALL_LEAST: u8 = 66;
    pub const HAS_SUBSUMED: u8 = 70;
    pub const HAS_VAR: u8 = 71;
    pub const HAS_TOP: u8 = 72;
    pub const HAS_FUN: u8 = 73;
    pub const HAS_APPL: u8 = 74;
    pub const HAS_FUN2: u8 = 75;
    pub const HAS_APPL2: u8 = 76;
    pub const HAS_FOLD: u8 = 77;
    pub const HAS_UNFOLD: u8 = 78;
    pub const HAS_REC: u8 = 79;
    pub const NAME: u8 = 90;
    pub const LET_TYPE: u8 = 91;
    pub const LET_TERM: u8 = 92;

    /// All of them.
    pub const KNOWN: [u8; 43] = [
        10, 11, 12, 13, 14, 20, 21, 22, 23, 24, 25, 26, 27, 28, 30, 31, 32, 40, 41, 42, 43, 50, 51, 60, 61,
        62, 63, 64, 65, 66, 70, 71, 72, 73, 74, 75, 76, 77, 78, 79, 90, 91, 92,
    ];
}

/// A code and seven columns, laid out as the boundary takes them: 16 bytes.
#[repr(C)]
#[derive(Clone, Copy, PartialEq, Eq, Debug, Default)]
pub struct Line {
    pub code: u8,
    pub columns: [u16; 7],
}

const _: () = assert!(size_of::<Line>() == 16 && align_of::<Line>() == 2);

impl Line {
    /// The line with these first columns, the others 0.
    pub fn new(code: u8, first: &[u16]) -> Line {
        let mut columns = [0; 7];
        columns[..first.len()].copy_from_slice(first);
        Line { code, columns }
    }

    /// The line as one number.
    pub fn packed(&self) -> u128 {
        let columns = self.columns.iter().rev();
        columns.fold(u128::from(self.code), |high, &column| high << 16 | u128::from(column))
    }
}

impl Hash for Line {
    fn hash<H: Hasher>(&self, state: &mut H) {
        state.write_u128(self.packed());
    }
}

#[derive(Clone, Copy, PartialEq, Eq, Debug)]
pub enum Rule {
    EqualBounds,
    LeastBound,
}

impl Rule {
    pub const BOTH: [Rule; 2] = [Rule::EqualBounds, Rule::LeastBound];

    pub fn named(name: &str) -> Option<Rule> {
        Rule::BOTH.into_iter().find(|rule| rule.name() == name)
    }

    pub fn name(self) -> &'static str {
        match self {
            Rule::EqualBounds => "EqualBounds",
            Rule::LeastBound => "LeastBound",
        }
    }

    pub fn other(self) -> Rule {
        match self {
            Rule::EqualBounds => Rule::LeastBound,
            Rule::LeastBound => Rule::EqualBounds,
        }
    }
}

/// The three numbers of an answer.
#[derive(Clone, Copy, PartialEq, Eq, Debug)]
pub struct Answer {
    pub number: u8,
    pub place: u32,
    pub cause: u8,
}

impl Answer {
    pub fn granted(lines: usize) -> Answer {
        Answer { number: 0, place: lines as u32, cause: 0 }
    }

    pub fn unsound(line: usize, cause: u8) -> Answer {
        Answer { number: 13, place: line as u32, cause }
    }

    pub fn out_of_form(place: usize) -> Answer {
        Answer { number: 14, place: place as u32, cause: 0 }
    }
}

impl std::fmt::Display for Answer {
    fn fmt(&self, f: &mut std::fmt::Formatter) -> std::fmt::Result {
        write!(f, "{} {} {}", self.number, self.place, self.cause)
    }
}

/// The page of these lines.
pub fn page(lines: &[Line]) -> Vec<u8> {
    lines.iter().flat_map(place).collect()
}

/// The line's 46 bytes.
pub fn place(line: &Line) -> [u8; PLACE] {
    let mut bytes = [b' '; PLACE];
    write_number(&mut bytes[..3], u32::from(line.code));
    for (column, field) in line.columns.iter().zip(bytes[3..].chunks_exact_mut(6)) {
        write_number(field, u32::from(*column));
    }
    bytes[PLACE - 1] = b'\n';
    bytes
}

/// The field with the number right-justified in it.
pub fn write_number(field: &mut [u8], number: u32) {
    let text = number.to_string();
    let spaces = field.len() - text.len();
    field.fill(b' ');
    field[spaces..].copy_from_slice(text.as_bytes());
}

/// The listing in the short notation: `30; 10; 50 1`. It is for texts in the program: a mistake panics.
pub fn listing(short: &str) -> Vec<Line> {
    let lines = short.split(';').map(str::trim).filter(|line| !line.is_empty());
    lines.map(line_in_short).collect()
}

fn line_in_short(text: &str) -> Line {
    let mut words = text.split_whitespace();
    let code = words.next().and_then(|word| word.parse().ok()).expect("a code");
    let columns: Vec<u16> = words.map(|word| word.parse().expect("a column")).collect();
    Line::new(code, &columns)
}

#[cfg(test)]
mod tests {
    use super::*;

    #[test]
    fn the_page_of_the_document() {
        let text = concat!(
            " 30     0     0     0     0     0     0     0\n",
            " 10     0     0     0     0     0     0     0\n",
            " 50     1     0     0     0     0     0     0\n",
            " 51     1     2     3     0     0     0     0\n",
        );
        assert_eq!(page(&listing("30; 10; 50 1; 51 1 2 3")), text.as_bytes());
    }
}
