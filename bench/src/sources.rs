//! Sources of all kinds, with a number of tree places and a listing: well-formed ones, damaged ones and random ones.

use crate::lexer::{Class, class};
use crate::listing::{Line, code::*};
use crate::random::Random;
use crate::reader::{MAX_SOURCE, read_unresolved};

/// What a reader is tried on.
pub struct Case {
    pub source: Vec<u8>,
    pub lines: Vec<Line>,
    pub places: usize,
}

type Text = Vec<u8>;

/// A case of any kind.
pub fn case(random: &mut Random) -> Case {
    let lines = lines(random);
    let source = match random.below(1_000) {
        0..4 => large(&lines, random),
        4..40 => random_bytes(random),
        40..100 => spaced(&random_tokens(random), random),
        100..200 => deep(&lines, random),
        200..260 => commented(&lines, random),
        260..660 => spaced(&phrase(&lines, random), random),
        660..830 => {
            let mut tokens = phrase(&lines, random);
            for _ in 0..random.pick(&[1, 1, 1, 2, 4]) {
                damage_tokens(&mut tokens, random);
            }
            spaced(&tokens, random)
        }
        _ => {
            let mut source = spaced(&phrase(&lines, random), random);
            for _ in 0..random.pick(&[1, 1, 1, 2, 4]) {
                damage_bytes(&mut source, random);
            }
            source
        }
    };
    let places = places(&source, random);
    Case { source, lines, places }
}

/// A number of tree places: mostly enough, but also none, some, one short, and just enough.
fn places(source: &[u8], random: &mut Random) -> usize {
    let wanted = read_unresolved(source, usize::MAX).1.len();
    match random.below(20) {
        0 => 0,
        1 | 2 => wanted.saturating_sub(1),
        3 | 4 => wanted,
        5 | 6 => random.below(wanted + 1),
        7 => wanted + 1,
        _ => MAX_SOURCE,
    }
}

const NAMES: [&str; 22] = [
    "x",
    "y",
    "z",
    "f",
    "X",
    "Y",
    "A",
    "B",
    "x1",
    "`",
    "a`b",
    "top1",
    "Tops",
    "env",
    "type",
    "subtype",
    "term",
    "Fold",
    "abcdefghijklmn",
    "abcdefghijklm",
    "z2345678901234",
    "judge`",
];

const KEYWORDS: [&str; 11] =
    ["All", "Let", "Rec", "Top", "fold", "fun", "judge", "let", "rec", "top", "unfold"];

const MARKS: [&str; 17] =
    [":", "<:", "->", "=", "|-", "(", ")", "{", "}", ";", ",", ".", "[", "]", "_", "?", "!"];

/// Lexemes that are no tokens.
const NO_TOKENS: [&str; 16] = [
    ":<:",
    "-5",
    "5",
    "0x",
    "\"",
    "'",
    "~",
    "abcdefghijklmno",
    "TopTopTopTopTopTop",
    "->->",
    "*",
    "*)",
    "<",
    "-",
    "|",
    "<::",
];

fn name(random: &mut Random) -> Text {
    // The first ones more often, so that names meet.
    let end = random.pick(&[4, 8, 8, 12, NAMES.len()]);
    NAMES[random.below(end)].into()
}

/// A listing: names and definitions, mostly as they should be, between other lines.
fn lines(random: &mut Random) -> Vec<Line> {
    if random.chance(30) {
        return Vec::new();
    }
    let damaged = random.chance(40);
    let mut lines: Vec<Line> = Vec::new();
    for _ in 0..random.pick(&[2, 6, 12, 12, 40]) {
        let named = name_line(NAME, &name(random));
        lines.push(match random.below(10) {
            0..4 => named,
            4..7 => definition(LET_TYPE, &lines, random),
            7..9 => definition(LET_TERM, &lines, random),
            _ => Line::new(random.pick(&KNOWN), &[random.below(12) as u16, random.below(12) as u16]),
        });
    }
    if damaged {
        for _ in 0..random.between(1, 4) {
            damage_line(&mut lines, random);
        }
    }
    lines
}

fn name_line(code: u8, name: &[u8]) -> Line {
    let mut bytes = [0; 14];
    bytes[..name.len()].copy_from_slice(name);
    let mut columns = [0; 7];
    for (column, pair) in columns.iter_mut().zip(bytes.chunks_exact(2)) {
        *column = u16::from_be_bytes([pair[0], pair[1]]);
    }
    Line { code, columns }
}

/// A line 91 or 92 whose name is on an earlier line, if there is one.
fn definition(code: u8, lines: &[Line], random: &mut Random) -> Line {
    let named: Vec<usize> = (0..lines.len()).filter(|&index| lines[index].code == NAME).collect();
    let name = if named.is_empty() { 0 } else { random.pick(&named) + 1 };
    let other = |random: &mut Random| random.below(lines.len() + 1) as u16;
    let (second, third, fourth) = (other(random), other(random), other(random));
    Line::new(code, &[name as u16, second, third, fourth, other(random), other(random)])
}

fn damage_line(lines: &mut Vec<Line>, random: &mut Random) {
    let (at, count) = (random.below(lines.len()), lines.len());
    match random.below(8) {
        0 => lines[at].columns[0] = random.pick(&[0, count, count + 1, at + 1, 65_535]) as u16,
        1 => lines[at].columns[0] = random.between(1, count) as u16,
        2 => lines[at].columns[random.below(7)] = random.draw() as u16,
        3 => lines[at].code = random.pick(&[NAME, LET_TYPE, LET_TERM, ENV_EMPTY, 0, 255]),
        // A name on a line that is no 90, and one that no source can have.
        4 => lines[at] = name_line(random.pick(&[TYPE_TOP, LET_TERM, LET_TYPE, 0]), &name(random)),
        5 => lines[at] = name_line(NAME, random.pick(&KEYWORDS).as_bytes()),
        6 => lines[at].columns[6] ^= 1,
        _ => _ = lines.remove(random.below(count)),
    }
    if lines.is_empty() {
        lines.push(Line::default());
    }
}

/// The names that the lines give to types (91) or terms (92).
fn defined(code: u8, lines: &[Line]) -> Vec<Text> {
    let named = lines.iter().filter(|line| line.code == code).filter_map(|line| {
        let line = lines.get(usize::from(line.columns[0]).checked_sub(1)?)?;
        let bytes: Text = line.columns.iter().flat_map(|column| column.to_be_bytes()).collect();
        NAMES.iter().find(|name| name_line(NAME, name.as_bytes()).columns == line.columns)?;
        Some(bytes.into_iter().filter(|&byte| byte != 0).collect())
    });
    named.collect()
}

/// Writes the tokens of a phrase.
struct Writer<'r> {
    random: &'r mut Random,
    tokens: Vec<Text>,
    /// The names that are bound at this point.
    types: Vec<Text>,
    terms: Vec<Text>,
    /// How many of 100 names are taken without regard to what is bound.
    loose: usize,
    /// About how many more types and terms there will be.
    fuel: usize,
}

impl<'r> Writer<'r> {
    fn new(lines: &[Line], random: &'r mut Random) -> Writer<'r> {
        let loose = random.pick(&[0, 0, 0, 3, 10, 30]);
        let fuel = random.pick(&[3, 8, 20, 20, 60, 200]);
        let (types, terms) = (defined(LET_TYPE, lines), defined(LET_TERM, lines));
        Writer { random, tokens: Vec::new(), types, terms, loose, fuel }
    }

    /// Writes the tokens of the text, which has a space between any two.
    fn put(&mut self, text: &str) {
        self.tokens.extend(text.split(' ').map(Text::from));
    }

    fn binder(&mut self) -> Text {
        let name = name(self.random);
        self.tokens.push(name.clone());
        name
    }

    /// Goes on with the name bound as a type.
    fn under_type(&mut self, name: Text, write: impl FnOnce(&mut Self)) {
        self.types.push(name);
        write(self);
        self.types.pop();
    }

    fn under_term(&mut self, name: Text, write: impl FnOnce(&mut Self)) {
        self.terms.push(name);
        write(self);
        self.terms.pop();
    }

    /// A phrase in which a chain of so many types or terms, each inside the one before, is somewhere.
    fn phrase(&mut self, chain: usize) {
        let form = self.random.below(10);
        let first = chain * self.random.below(2);
        match form {
            0 => {
                self.put("Let");
                self.binder();
                self.put("<:");
                self.a_type(first);
                self.put("=");
                self.a_type(chain);
            }
            1 => {
                self.put("Let");
                self.binder();
                self.put("=");
                self.a_type(chain);
            }
            2 => {
                self.put("let");
                self.binder();
                self.put(":");
                self.a_type(first);
                self.put("=");
                self.a_term(chain);
            }
            3 => {
                self.put("let");
                self.binder();
                self.put("=");
                self.a_term(chain);
            }
            4 => {
                self.put(":");
                self.a_type(chain);
            }
            5 => self.a_term(chain),
            6 => {
                self.put("judge env");
                self.env(chain);
            }
            7 => {
                self.put("judge type");
                self.env(first);
                self.put("|-");
                self.a_type(chain);
            }
            8 => {
                self.put("judge subtype");
                self.env(0);
                self.put("|-");
                self.a_type(first);
                self.put("<:");
                self.a_type(chain);
            }
            _ => {
                self.put("judge term");
                self.env(0);
                self.put("|-");
                self.a_term(chain);
                self.put(":");
                self.a_type(first);
            }
        }
        self.put(";");
    }

    fn env(&mut self, chain: usize) {
        let least = usize::from(chain > 0);
        for _ in 0..self.random.pick(&[0, 1, 2, 3, 5]).max(least) {
            let name = self.binder();
            let of_types = self.random.chance(50);
            self.put(if of_types { "<:" } else { ":" });
            let here = chain * self.random.below(2);
            self.a_type(here);
            if of_types { &mut self.types } else { &mut self.terms }.push(name);
        }
    }

    fn a_type(&mut self, chain: usize) {
        self.fuel = self.fuel.saturating_sub(1);
        let next = chain.saturating_sub(1);
        let form = if chain > 0 {
            self.random.between(3, 8)
        } else if self.fuel == 0 {
            self.random.below(3)
        } else {
            self.random.below(9)
        };
        match form {
            0 => self.put("Top"),
            1 | 2 => self.use_of(false),
            3 | 4 => {
                self.a_type_in_front_of_an_arrow();
                self.put("->");
                self.a_type(next);
            }
            5 => {
                self.put("{");
                self.a_type(next);
                self.put("}");
            }
            6 => {
                self.put("All (");
                let name = self.binder();
                self.put("<:");
                let in_bound = self.random.chance(30);
                self.a_type(if in_bound { next } else { 0 });
                self.put(")");
                self.under_type(name, |writer| writer.a_type(if in_bound { 0 } else { next }));
            }
            7 => {
                self.put("All (");
                let name = self.binder();
                self.put(")");
                self.under_type(name, |writer| writer.a_type(next));
            }
            _ => {
                self.put("Rec (");
                let name = self.binder();
                self.put(")");
                self.under_type(name, |writer| writer.a_type(next));
            }
        }
    }

    fn a_type_in_front_of_an_arrow(&mut self) {
        match self.random.below(3) {
            0 => self.put("Top"),
            1 => self.use_of(false),
            _ => {
                self.put("{");
                self.a_type(0);
                self.put("}");
            }
        }
    }

    /// A name where a type or a term is wanted: a bound one of its sort, mostly.
    fn use_of(&mut self, term: bool) {
        let bound = if term { &self.terms } else { &self.types };
        let text = if self.random.chance(self.loose) {
            name(self.random)
        } else if bound.is_empty() {
            if term { "top".into() } else { "Top".into() }
        } else {
            // The nearer ones more often.
            let back = self.random.below(bound.len()).min(self.random.below(bound.len()));
            bound[bound.len() - 1 - back].clone()
        };
        self.tokens.push(text);
    }

    fn a_term(&mut self, chain: usize) {
        self.fuel = self.fuel.saturating_sub(1);
        let next = chain.saturating_sub(1);
        let form = if chain > 0 {
            self.random.between(3, 14)
        } else if self.fuel == 0 {
            self.random.below(3)
        } else {
            self.random.below(15)
        };
        match form {
            0 => self.put("top"),
            1 | 2 => self.use_of(true),
            3..6 => {
                self.a_function();
                let count = if self.random.chance(1) { self.random.below(300) } else { self.random.below(4) };
                let last = if self.random.chance(80) { 0 } else { count };
                for argument in 0..=count {
                    self.argument(if argument == last { next } else { 0 });
                }
            }
            6 => {
                self.put("{");
                self.a_term(next);
                self.put("}");
            }
            7 | 8 => self.binder_of_terms("fun", next),
            9 => self.binder_of_terms("rec", next),
            10 | 11 => {
                self.put("fun (");
                let name = self.binder();
                self.put("<:");
                let in_bound = self.random.chance(30);
                self.a_type(if in_bound { next } else { 0 });
                self.put(")");
                self.under_type(name, |writer| writer.a_term(if in_bound { 0 } else { next }));
            }
            12 => {
                self.put("fun (");
                let name = self.binder();
                self.put(")");
                self.under_type(name, |writer| writer.a_term(next));
            }
            13 => {
                self.put("fold ( :");
                let in_type = self.random.chance(30);
                self.a_type(if in_type { next } else { 0 });
                self.put(") (");
                self.a_term(if in_type { 0 } else { next });
                self.put(")");
            }
            _ => {
                self.put("unfold (");
                self.a_term(next);
                self.put(")");
            }
        }
    }

    /// fun(x:A)b or rec(x:A)b
    fn binder_of_terms(&mut self, keyword: &str, next: usize) {
        self.put(keyword);
        self.put("(");
        let name = self.binder();
        self.put(":");
        let in_domain = self.random.chance(30);
        self.a_type(if in_domain { next } else { 0 });
        self.put(")");
        self.under_term(name, |writer| writer.a_term(if in_domain { 0 } else { next }));
    }

    fn a_function(&mut self) {
        if self.random.chance(70) {
            return self.use_of(true);
        }
        self.put("{");
        self.a_term(0);
        self.put("}");
    }

    fn argument(&mut self, chain: usize) {
        self.put("(");
        if self.random.chance(35) {
            self.put(":");
            self.a_type(chain);
        } else {
            self.a_term(chain);
        }
        self.put(")");
    }
}

fn phrase(lines: &[Line], random: &mut Random) -> Vec<Text> {
    let mut writer = Writer::new(lines, random);
    writer.phrase(0);
    writer.tokens
}

/// A phrase with a chain of types and terms about as deep as it may be, or deeper, at times with a damaged end.
fn deep(lines: &[Line], random: &mut Random) -> Text {
    let levels = match random.below(10) {
        0 => random.between(20, 120),
        1 => random.between(128, 300),
        _ => random.between(124, 130),
    };
    if random.chance(30) {
        return uniform(levels, random);
    }
    let mut writer = Writer::new(lines, random);
    writer.loose = writer.loose.min(3);
    writer.fuel = 0;
    writer.phrase(levels);
    let mut tokens = writer.tokens;
    if random.chance(20) {
        damage_tokens(&mut tokens, random);
    }
    spaced(&tokens, random)
}

/// One form over and over.
fn uniform(levels: usize, random: &mut Random) -> Text {
    let (start, open, core, close) = random.pick(&[
        ("", "{", "top", "}"),
        (":", "{", "Top", "}"),
        (":", "Top->", "Top", ""),
        (":", "Rec(X)", "X", ""),
        (":", "All(X)", "X", ""),
        (":", "All(X<:", "Top", ")X"),
        ("", "top(", "top", ")"),
        ("", "fun(x:Top)", "x", ""),
        ("", "fun(X)", "top", ""),
        ("", "unfold(", "top", ")"),
        ("", "fold(:Top)(", "top", ")"),
        ("", "rec(x:Top)", "x", ""),
    ]);
    let core = match random.below(6) {
        0 => random.pick(&[";", "~", "fun", "All", "(*", "abcdefghijklmno", "", "judge", ")", "5", "\u{1}"]),
        _ => core,
    };
    let levels = if random.chance(20) { levels.min(127) } else { levels };
    let (open, close) = (open.repeat(levels), close.repeat(levels));
    format!("{start}{open}{core}{close};").into()
}

/// A phrase with comments in front of a token, nested about as deep as they may be, or deeper.
fn commented(lines: &[Line], random: &mut Random) -> Text {
    let tokens = phrase(lines, random);
    let at = random.below(tokens.len() + 1);
    let mut source = spaced(&tokens[..at], random);
    let levels = if random.chance(40) { random.between(1, 5) } else { random.between(126, 130) };
    for _ in 0..levels {
        source.extend(b"(*");
        if random.chance(10) {
            comment_text(&mut source, random);
        }
    }
    let closed = if random.chance(80) { levels } else { random.below(levels + 2) };
    for _ in 0..closed {
        source.extend(b"*)");
        if random.chance(10) {
            comment(&mut source, 1, random);
        }
    }
    source.extend(spaced(&tokens[at..], random));
    if random.chance(20) {
        damage_bytes(&mut source, random);
    }
    source
}

fn comment(source: &mut Text, depth: usize, random: &mut Random) {
    source.extend(b"(*");
    comment_text(source, random);
    if depth < 4 && random.chance(30) {
        comment(source, depth + 1, random);
        comment_text(source, random);
    }
    source.extend(b"*)");
}

fn comment_text(source: &mut Text, random: &mut Random) {
    for _ in 0..random.below(4) {
        let text =
            random.pick(&[" ", "x", "'", "\"", "~", "5", ") ", "*x", "( ", "\n", ";", "** ", ":<:", "}"]);
        source.extend(text.as_bytes());
    }
}

/// The tokens as bytes, with space where it is needed and where it is not.
fn spaced(tokens: &[Text], random: &mut Random) -> Text {
    let style = random.below(4);
    let mut source = Text::new();
    for token in tokens {
        match style {
            0 => (),
            1 => source.push(b' '),
            _ if random.chance(80) => (),
            2 => source.push(random.pick(b" \t\n\x0C\r")),
            _ => match random.below(3) {
                0 => comment(&mut source, 1, random),
                1 => source.extend(b"(**)"),
                _ => source.extend(b" \n "),
            },
        }
        let joined = source.last().zip(token.first()).is_some_and(|(&last, &first)| same_run(last, first));
        if joined {
            source.push(b' ');
        }
        source.extend(token);
    }
    if style > 1 && random.chance(20) {
        comment(&mut source, 1, random);
    }
    source
}

/// Whether two bytes side by side are of one lexeme.
fn same_run(last: u8, first: u8) -> bool {
    let word = |byte| matches!(class(byte), Class::Letter | Class::Digit);
    let special = |byte| class(byte) == Class::Special;
    word(last) && word(first) || special(last) && special(first)
}

fn any_token(random: &mut Random) -> Text {
    match random.below(10) {
        0..3 => name(random),
        3..5 => random.pick(&KEYWORDS).into(),
        5..9 => random.pick(&MARKS).into(),
        _ => random.pick(&NO_TOKENS).into(),
    }
}

fn random_tokens(random: &mut Random) -> Vec<Text> {
    let most = random.pick(&[2, 5, 12]);
    (0..random.below(most + 1)).map(|_| any_token(random)).collect()
}

fn damage_tokens(tokens: &mut Vec<Text>, random: &mut Random) {
    if tokens.is_empty() {
        return tokens.push(any_token(random));
    }
    let count = tokens.len();
    let (at, other) = (random.below(count), random.below(count));
    match random.below(8) {
        0 => tokens.swap(at, other),
        1 => tokens.swap(at, (at + 1) % count),
        2 => _ = tokens.remove(at),
        3 => tokens.insert(at, tokens[at].clone()),
        4 => tokens.insert(at, any_token(random)),
        5 => tokens[at] = any_token(random),
        6 => tokens.truncate(at),
        _ => tokens.insert(at, tokens[other].clone()),
    }
}

fn damage_bytes(source: &mut Text, random: &mut Random) {
    if source.is_empty() {
        return source.push(any_byte(random));
    }
    let at = random.below(source.len());
    match random.below(8) {
        0 => source[at] = any_byte(random),
        1 => source[at] ^= 1 << random.below(8),
        2 => _ = source.remove(at),
        3 => source.insert(at, any_byte(random)),
        4 => source.insert(at, source[at]),
        5 => source.truncate(at),
        6 => {
            // In a name or next to one, it comes out about as long as it may be.
            let letters = b"abcdefghijklmnopq";
            source.splice(at..at, letters[..random.between(10, letters.len())].iter().copied());
        }
        _ => {
            let other = random.below(source.len());
            source.swap(at, other);
        }
    }
}

/// A byte of any class, those that sources are made of more often.
fn any_byte(random: &mut Random) -> u8 {
    match random.below(8) {
        0 => random.draw() as u8,
        1 => random.pick(b"\t\n\x0C\r  "),
        2 => random.pick(b"(*)(*)"),
        3 => random.pick(b":<->=|*#"),
        4 => random.pick(b"xXyA`z5"),
        5 => random.pick(b"\"'~_,.!?[]\x0B\x7F\x80"),
        _ => random.pick(b"(){};:"),
    }
}

fn random_bytes(random: &mut Random) -> Text {
    let most = random.pick(&[3, 10, 40]);
    (0..random.below(most + 1)).map(|_| any_byte(random)).collect()
}

/// A source about as long as it may be, or longer.
fn large(lines: &[Line], random: &mut Random) -> Text {
    let length = MAX_SOURCE + 2 - random.pick(&[0, 1, 1, 2, 2, 2, 3, 4]);
    let mut source = match random.below(4) {
        0 => well_formed(length, random),
        1 => spaced(&phrase(lines, random), random),
        2 => b"judge env ".to_vec(),
        _ => Text::new(),
    };
    let more = random.pick(&["", "", "x:Top ", "A<:B ", "x", "(*", "*)", "(**)", "(x)", "{", ";"]);
    while !more.is_empty() && source.len() + more.len() < length {
        source.extend(more.as_bytes());
    }
    source.resize(length, random.pick(b" \n;x"));
    if random.chance(40) {
        damage_bytes(&mut source, random);
    }
    source
}

/// A term of just so many bytes (at least 1,000) in which every name is bound: a function with many arguments.
pub fn well_formed(length: usize, random: &mut Random) -> Text {
    let mut source = b"let big : Top = fun(X)fun(f:X)rec(x:X->Top)f".to_vec();
    loop {
        let mut writer = Writer::new(&[], random);
        writer.loose = 0;
        writer.types.push("X".into());
        writer.terms.extend(["f", "x"].map(Text::from));
        writer.argument(0);
        let tokens = writer.tokens;
        let argument = spaced(&tokens, random);
        if source.len() + argument.len() < length {
            source.extend(argument);
        } else if source.len() + 400 > length {
            break;
        }
    }
    source.push(b';');
    source.resize(length, b' ');
    source
}
