//! The table of docs/SYNTAX.md under "How a source is read", taken from the document and gone through as it says there:
//! a reader that gives the answer and the places taken, but no tree. The plain reader is tried against it.

use std::collections::HashMap;

use crate::lexer::{Kind, Lexer, Stop, Token};
use crate::random::Random;
use crate::reader::{MAX_DEPTH, read_unresolved};
use crate::source_corpus;
use crate::sources::case;

/// The items of a row; the row `other` has none for a beginning.
struct Row<'t> {
    other: bool,
    items: Vec<&'t str>,
}

/// The rows of each kind.
type Table<'t> = HashMap<&'t str, Vec<Row<'t>>>;

const DOCUMENT: &str = include_str!("../../docs/SYNTAX.md");

fn table() -> Table<'static> {
    let start = DOCUMENT.find("phrase         =  \"Let\"").expect("the table");
    let end = start + DOCUMENT[start..].find("```").expect("the end of the table");
    let mut table = Table::new();
    let mut kind = "";
    for line in DOCUMENT[start..end].lines().filter(|line| !line.is_empty()) {
        let (mark, row) = line.split_at(17);
        if let Some(name) = mark.trim().strip_suffix('=') {
            kind = name.trim();
        } else {
            assert_eq!(mark.trim(), "|", "{line}");
        }
        let (other, row) = row.trim().strip_prefix("other:").map_or((false, row), |row| (true, row));
        let items = row.split_whitespace().filter(|&item| item != "nothing").collect();
        table.entry(kind).or_default().push(Row { other, items });
    }
    table
}

struct Reading<'a> {
    table: &'a Table<'a>,
    lexer: Lexer<'a>,
    next: Option<Token>,
    places: usize,
    taken: usize,
}

impl Reading<'_> {
    fn look(&mut self) -> Result<Token, Stop> {
        let token = match self.next {
            Some(token) => token,
            None => self.lexer.token()?,
        };
        self.next = Some(token);
        Ok(token)
    }

    fn go_through(&mut self, kind: &str, depth: usize, first: u32) -> Result<(), Stop> {
        let (mut kind, mut first) = (kind, first);
        'kind: loop {
            let token = self.look()?;
            let rows = &self.table[kind];
            let begins = |row: &&Row| !row.other && is(row.items[0], token.kind);
            let row = rows.iter().find(begins).or(rows.iter().find(|row| row.other));
            let row = row.ok_or(Stop { number: 6, place: token.byte })?;
            for (index, &item) in row.items.iter().enumerate() {
                match item {
                    "^" if depth == MAX_DEPTH => return Err(Stop { number: 7, place: first }),
                    "#" if self.taken == self.places => return Err(Stop { number: 8, place: first }),
                    "^" => (),
                    "#" => self.taken += 1,
                    "+type" | "+term" => {
                        let byte = self.look()?.byte;
                        self.go_through(&item[1..], depth + 1, byte)?;
                    }
                    "type" | "term" => {
                        let byte = self.look()?.byte;
                        self.go_through(item, depth, byte)?;
                    }
                    // These end with themselves.
                    "args" | "env" if item == kind && index + 1 == row.items.len() => {
                        if item == "env" {
                            first = self.look()?.byte;
                        }
                        kind = item;
                        continue 'kind;
                    }
                    "env" => {
                        let byte = self.look()?.byte;
                        self.go_through(item, depth, byte)?;
                    }
                    kind if self.table.contains_key(kind) => self.go_through(kind, depth, first)?,
                    _ => {
                        let token = self.look()?;
                        if !is(item, token.kind) {
                            return Err(Stop { number: 6, place: token.byte });
                        }
                        self.next = None;
                    }
                }
            }
            return Ok(());
        }
    }
}

/// Whether the token is the one that the item of a row wants.
fn is(item: &str, kind: Kind) -> bool {
    match kind {
        Kind::End => item == "end",
        Kind::Name(name) => {
            let length = name.iter().position(|&byte| byte == 0).unwrap_or(name.len());
            let words = ["\"env\"", "\"type\"", "\"subtype\"", "\"term\""];
            let spelled = |word: &&str| word.trim_matches('"').as_bytes() == &name[..length];
            item == "name" || words.iter().find(|word| spelled(word)).is_some_and(|&word| word == item)
        }
        _ => item.strip_prefix('"').and_then(|item| item.strip_suffix('"')) == Some(&spelling(kind)),
    }
}

fn spelling(kind: Kind) -> String {
    match kind {
        Kind::All => "All".into(),
        Kind::LetType => "Let".into(),
        Kind::Rec => "Rec".into(),
        Kind::Top => "Top".into(),
        Kind::Fold => "fold".into(),
        Kind::Fun => "fun".into(),
        Kind::Judge => "judge".into(),
        Kind::LetTerm => "let".into(),
        Kind::RecTerm => "rec".into(),
        Kind::TopTerm => "top".into(),
        Kind::Unfold => "unfold".into(),
        Kind::Colon => ":".into(),
        Kind::Below => "<:".into(),
        Kind::Arrow => "->".into(),
        Kind::Equal => "=".into(),
        Kind::Turnstile => "|-".into(),
        Kind::Delimiter(byte) => char::from(byte).into(),
        Kind::End | Kind::Name(_) => unreachable!("these have no spelling"),
    }
}

/// The stop, if there is one, and how many places are taken.
fn by_table(table: &Table, source: &[u8], places: usize) -> (Option<Stop>, usize) {
    if source.len() > 65_535 {
        return (Some(Stop { number: 2, place: 65_535 }), 0);
    }
    let mut reading = Reading { table, lexer: Lexer::new(source), next: None, places, taken: 0 };
    let stop = reading.go_through("phrase", 0, 0).err();
    (stop, reading.taken)
}

fn compare(table: &Table, source: &[u8], places: usize) {
    let (read, nodes) = read_unresolved(source, places);
    let shown = String::from_utf8_lossy(source);
    assert_eq!((read.err(), nodes.len()), by_table(table, source, places), "{places} places: {shown}");
}

#[test]
fn the_table_has_all_kinds() {
    let table = table();
    let kinds = [
        ("phrase", 5),
        ("let-type-rest", 2),
        ("let-term-rest", 2),
        ("judged", 4),
        ("env", 2),
        ("binding-rest", 2),
        ("type", 1),
        ("type-base", 5),
        ("all-rest", 2),
        ("arrow-rest", 2),
        ("term", 1),
        ("term-base", 7),
        ("fun-rest", 3),
        ("args", 2),
        ("argument", 2),
    ];
    assert_eq!(table.len(), kinds.len());
    for (kind, rows) in kinds {
        assert_eq!(table[kind].len(), rows, "{kind}");
    }
}

#[test]
fn the_plain_reader_goes_by_the_table() {
    let table = table();
    for entry in source_corpus::entries() {
        for places in [entry.case.places, 0, 1, 2, 65_535] {
            compare(&table, &entry.case.source, places);
        }
    }
    let mut random = Random::new(7);
    for _ in 0..60_000 {
        let case = case(&mut random);
        compare(&table, &case.source, case.places);
    }
}
