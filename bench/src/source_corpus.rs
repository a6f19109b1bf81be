//! The sources of `tests/sources.txt` with the answers that they must get.

use crate::boundary;
use crate::listing::{Line, listing};
use crate::reader::read;
use crate::sources::Case;
use crate::tree::Read;

pub struct Entry {
    /// The line of the file, from 1.
    row: usize,
    pub case: Case,
    number: u8,
    place: u32,
}

/// Tries the readers that are there on each source. True if each gives the expected answer.
pub fn check() -> bool {
    let entries = entries();
    let mut wrong = 0;
    let mut proved_runs = 0;
    for entry in &entries {
        let Case { source, lines, places } = &entry.case;
        wrong += entry.wrong("plain", &read(source, lines, *places));
        if let Some(read) = boundary::read(source, lines, *places) {
            wrong += entry.wrong("proved", &read);
            proved_runs += 1;
        }
    }
    println!("{} sources, {proved_runs} of them also by the proved reader, {wrong} wrong", entries.len());
    wrong == 0
}

impl Entry {
    /// 1 if the reader has not given the expected answer, else 0.
    fn wrong(&self, reader: &str, read: &Read) -> usize {
        let place = if read.number == 0 { read.nodes.len() as u32 } else { read.place };
        if (read.number, place) == (self.number, self.place) {
            return 0;
        }
        let (row, expected, at) = (self.row, self.number, self.place);
        println!("sources.txt line {row}: expected {expected} {at}, {reader} {} {place}", read.number);
        1
    }
}

pub fn entries() -> Vec<Entry> {
    let mut entries = Vec::new();
    let mut lines = Vec::new();
    for (row, text) in include_str!("../../tests/sources.txt").lines().enumerate() {
        if let Some(short) = text.strip_prefix("listing") {
            lines = listing(short);
        } else if !text.is_empty() && !text.starts_with('#') {
            entries.push(entry(row + 1, text, &lines));
        }
    }
    entries
}

fn entry(row: usize, text: &str, lines: &[Line]) -> Entry {
    let mut cells = text.splitn(4, ' ');
    let mut cell = || cells.next().expect("three numbers and a source");
    let mut number = || cell().parse().expect("a number");
    let (places, number, place): (usize, usize, usize) = (number(), number(), number());
    let case = Case { source: unescaped(cell()), lines: lines.to_vec(), places };
    Entry { row, case, number: number as u8, place: place as u32 }
}

/// The bytes that a text stands for.
fn unescaped(text: &str) -> Vec<u8> {
    let mut bytes = Vec::new();
    let mut rest = text;
    while !rest.is_empty() {
        if let Some(repeat) = rest.strip_prefix("%REPEAT(") {
            let (count, behind) = repeat.split_once(',').expect("a count and a comma");
            let (repeated, behind) = behind.split_once(')').expect("a closing parenthesis");
            let count = count.parse().expect("a count");
            bytes.extend(unescaped(repeated).repeat(count));
            rest = behind;
        } else if let Some(escaped) = rest.strip_prefix("\\x") {
            let (digits, behind) = escaped.split_at(2);
            bytes.push(u8::from_str_radix(digits, 16).expect("two hexadecimal digits"));
            rest = behind;
        } else {
            let (byte, behind) = rest.split_at(1);
            assert_ne!(byte, "\\", "an unknown escape");
            bytes.extend(byte.as_bytes());
            rest = behind;
        }
    }
    bytes
}

#[cfg(test)]
mod tests {
    use super::*;

    #[test]
    fn the_plain_reader_gives_the_expected_answers() {
        assert!(check());
    }

    #[test]
    fn texts_stand_for_bytes() {
        assert_eq!(unescaped("a\\x00%REPEAT(3,\\x29,)b%"), b"a\0),),),b%");
    }
}
