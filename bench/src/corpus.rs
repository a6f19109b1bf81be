//! A small corpus of pages by answer and cause, each with the answer that it must get.

use std::fmt::Write;
use std::path::Path;
use std::{fs, io};

use crate::example::benefit_formula;
use crate::listing::{Answer, Rule, listing, page};

/// A page and its answers under EqualBounds and LeastBound.
pub struct Entry {
    pub name: String,
    pub bytes: Vec<u8>,
    pub answers: [Answer; 2],
}

/// Writes the pages to the directory, and their answers to `expected.txt` there: a line for each
/// page and rule, with the page's file, the rule, and the answer's number, place and cause.
pub fn write(directory: &Path) -> io::Result<()> {
    fs::create_dir_all(directory)?;
    let mut expected = String::new();
    for entry in entries() {
        let file = format!("{}.page", entry.name);
        fs::write(directory.join(&file), &entry.bytes)?;
        for (rule, answer) in Rule::BOTH.iter().zip(entry.answers) {
            writeln!(expected, "{file} {} {answer}", rule.name()).expect("a string takes all");
        }
    }
    fs::write(directory.join("expected.txt"), expected)
}

pub fn entries() -> Vec<Entry> {
    let rows = include_str!("corpus.txt").lines();
    let rows = rows.filter(|row| !row.is_empty() && !row.starts_with('#'));
    let mut entries: Vec<Entry> = rows.map(entry).collect();
    let formula = benefit_formula();
    entries.push(Entry {
        name: "sound-benefit-formula".into(),
        bytes: page(&formula),
        answers: [Answer::granted(formula.len()); 2],
    });
    entries.extend(FORM.map(out_of_form));
    entries
}

/// The entry of a row of `corpus.txt`.
fn entry(row: &str) -> Entry {
    let mut cells = row.split('|').map(str::trim);
    let mut cell = || cells.next().expect("three cells");
    let (name, answers, short) = (cell(), cell(), cell());
    let (equal, least) = answers.split_once('/').unwrap_or((answers, answers));
    Entry {
        name: name.into(),
        bytes: page(&listing(&short.replace("identity", IDENTITY))),
        answers: [answer(equal), answer(least)],
    }
}

fn answer(numbers: &str) -> Answer {
    let mut numbers = numbers.split_whitespace().map(|word| word.parse().expect("a number"));
    let mut number = || numbers.next().expect("three numbers");
    Answer { number: number() as u8, place: number(), cause: number() as u8 }
}

fn out_of_form((name, damage, place): FormFault) -> Entry {
    let mut bytes = page(&listing(TOP_IS_A_TYPE));
    damage(&mut bytes);
    Entry { name: format!("form-{name}"), bytes, answers: [Answer::out_of_form(place); 2] }
}

const IDENTITY: &str = "30; 10; 21 1; 22 2 3; 12 2 2; 50 1; 51 1 2 6; 31 1 2; 50 8 7; 43 8 1 2; \
    71 8 3 2 9 10; 73 1 4 5 11; 90 26980; 31 1 5; 92 13 5 4 12 14";

const TOP_IS_A_TYPE: &str = "30; 10; 50 1; 51 1 2 3";

/// Name, what is done to the page of Top is a type, and the lowest place out of form.
type FormFault = (&'static str, fn(&mut Vec<u8>), usize);

const FORM: [FormFault; 19] = [
    ("last-byte-missing", |bytes| bytes.truncate(183), 4),
    ("one-byte-only", |bytes| bytes.truncate(1), 1),
    ("one-byte-more", |bytes| bytes.push(b'\n'), 5),
    ("code-with-a-leading-zero", |bytes| bytes[92] = b'0', 3),
    ("column-with-a-leading-zero", |bytes| bytes[145] = b'0', 4),
    ("code-256", |bytes| bytes[46..49].copy_from_slice(b"256"), 2),
    ("column-65536", |bytes| bytes[3..9].copy_from_slice(b" 65536"), 1),
    ("column-of-six-digits", |bytes| bytes[39..45].copy_from_slice(b"100000"), 1),
    ("blank-column", |bytes| bytes[100] = b' ', 3),
    ("left-justified-column", |bytes| bytes[95..101].copy_from_slice(b"1     "), 3),
    ("space-within-a-number", |bytes| bytes[3..9].copy_from_slice(b"  1 10"), 1),
    ("tab", |bytes| bytes[3] = b'\t', 1),
    ("sign", |bytes| bytes[53] = b'+', 2),
    ("byte-after-9", |bytes| bytes[100] = b':', 3),
    ("byte-before-0", |bytes| bytes[100] = b'/', 3),
    ("letter", |bytes| bytes[182] = b'o', 4),
    ("carriage-return", |bytes| bytes[91] = b'\r', 2),
    ("space-missing", |bytes| _ = bytes.remove(3), 1),
    ("two-places-the-lower-counts", |bytes| (bytes[60], bytes[160]) = (b'x', b'x'), 2),
];

#[cfg(test)]
mod tests {
    use super::*;
    use crate::checker::check_page;
    use std::hash::RandomState;

    #[test]
    fn the_plain_checker_gives_the_expected_answers() {
        for entry in entries() {
            for (rule, expected) in Rule::BOTH.into_iter().zip(entry.answers) {
                let answer = check_page::<RandomState>(&entry.bytes, rule);
                assert_eq!(answer, expected, "{} under {}", entry.name, rule.name());
            }
        }
    }

    #[test]
    fn the_names_differ() {
        let mut names: Vec<String> = entries().into_iter().map(|entry| entry.name).collect();
        let count = names.len();
        names.sort();
        names.dedup();
        assert_eq!(names.len(), count);
    }
}
