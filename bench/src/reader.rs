//! A plain reader of sources, written from docs/SYNTAX.md alone: from bytes, a number of tree places and a listing to
//! the resolved tree, or to the answer's number and byte.

use std::collections::HashMap;

use crate::lexer::{Kind, Lexer, Name, Stop, Token, kept};
use crate::listing::{Line, code::LET_TERM, code::LET_TYPE};
use crate::tree::{Node, Phrase, Read};

/// The most bytes that a source may have.
pub const MAX_SOURCE: usize = 65_535;

/// A type or term that begins inside so many others is too deep.
pub const MAX_DEPTH: usize = 128;

/// Reads the source with so many tree places, and looks its names up in the lines.
pub fn read(source: &[u8], lines: &[Line], places: usize) -> Read {
    let (read, mut nodes) = read_unresolved(source, places);
    match read.and_then(|phrase| resolve(&mut nodes, lines).map(|()| phrase)) {
        Ok(phrase) => Read { number: 0, place: nodes.len() as u32, nodes, phrase: Some(phrase) },
        Err(stop) => Read { number: stop.number, place: stop.place, nodes: Vec::new(), phrase: None },
    }
}

/// The record of the phrase, or where reading stops, and the nodes that have taken a place until then.
pub fn read_unresolved(source: &[u8], places: usize) -> (Result<Phrase, Stop>, Vec<Node>) {
    if source.len() > MAX_SOURCE {
        return (Err(Stop::new(2, MAX_SOURCE)), Vec::new());
    }
    let mut reader = Reader {
        lexer: Lexer::new(source),
        next: None,
        places,
        nodes: Vec::new(),
        types: Vec::new(),
        terms: Vec::new(),
    };
    let phrase = reader.phrase();
    (phrase, reader.nodes)
}

type Step<T> = Result<T, Stop>;

struct Reader<'a> {
    lexer: Lexer<'a>,
    /// The token that was looked at and is not used.
    next: Option<Token>,
    /// How many the tree table has.
    places: usize,
    nodes: Vec<Node>,
    /// The names of the binders around, the innermost last.
    types: Vec<Name>,
    terms: Vec<Name>,
}

const OPEN: Kind = Kind::Delimiter(b'(');
const CLOSE: Kind = Kind::Delimiter(b')');
const OPEN_BRACE: Kind = Kind::Delimiter(b'{');
const CLOSE_BRACE: Kind = Kind::Delimiter(b'}');
const SEMICOLON: Kind = Kind::Delimiter(b';');

impl Reader<'_> {
    fn look(&mut self) -> Step<Token> {
        if let Some(token) = self.next {
            return Ok(token);
        }
        let token = self.lexer.token()?;
        self.next = Some(token);
        Ok(token)
    }

    /// Uses the token that was looked at.
    fn advance(&mut self) {
        self.next = None;
    }

    /// Uses the next token if it is this one.
    fn take(&mut self, kind: Kind) -> Step<bool> {
        let wanted = self.look()?.kind == kind;
        if wanted {
            self.advance();
        }
        Ok(wanted)
    }

    fn want(&mut self, kind: Kind) -> Step<()> {
        if self.take(kind)? { Ok(()) } else { self.unexpected() }
    }

    fn name(&mut self) -> Step<Name> {
        match self.look()?.kind {
            Kind::Name(name) => {
                self.advance();
                Ok(name)
            }
            _ => self.unexpected(),
        }
    }

    fn unexpected<T>(&mut self) -> Step<T> {
        let byte = self.look()?.byte;
        Err(Stop { number: 6, place: byte })
    }

    /// A type or term has begun.
    fn begin(&self, depth: usize, first: u32) -> Step<()> {
        if depth < MAX_DEPTH { Ok(()) } else { Err(Stop { number: 7, place: first }) }
    }

    /// A thing is whole and takes the next place.
    fn whole(&mut self, first: u32, node: Node) -> Step<u32> {
        let place = self.next_place();
        if self.nodes.len() == self.places {
            return Err(Stop { number: 8, place: first });
        }
        self.nodes.push(node);
        Ok(place)
    }

    fn next_place(&self) -> u32 {
        self.nodes.len() as u32
    }

    fn phrase(&mut self) -> Step<Phrase> {
        let phrase = match self.look()?.kind {
            Kind::LetType => {
                self.advance();
                let name = self.name()?;
                if self.take(Kind::Below)? {
                    let bound = self.read_type(0)?;
                    self.want(Kind::Equal)?;
                    Phrase::LetType { name, bound, to: self.read_type(0)? }
                } else {
                    self.want(Kind::Equal)?;
                    Phrase::LetTypeUnbounded { name, to: self.read_type(0)? }
                }
            }
            Kind::LetTerm => {
                self.advance();
                let name = self.name()?;
                if self.take(Kind::Colon)? {
                    let stated = self.read_type(0)?;
                    self.want(Kind::Equal)?;
                    Phrase::LetTerm { name, stated, term: self.read_term(0)? }
                } else {
                    self.want(Kind::Equal)?;
                    Phrase::LetTermUntyped { name, term: self.read_term(0)? }
                }
            }
            Kind::Colon => {
                self.advance();
                Phrase::TypePhrase { node: self.read_type(0)? }
            }
            Kind::Judge => {
                self.advance();
                self.judged()?
            }
            _ => Phrase::TermPhrase { node: self.read_term(0)? },
        };
        self.want(SEMICOLON)?;
        self.want(Kind::End)?;
        Ok(phrase)
    }

    fn judged(&mut self) -> Step<Phrase> {
        let Kind::Name(word) = self.look()?.kind else {
            return self.unexpected();
        };
        let is = |spelling: &[u8]| Some(word) == kept(spelling);
        if is(b"env") {
            self.advance();
            self.env()?;
            Ok(Phrase::JudgeEnv)
        } else if is(b"type") {
            self.advance();
            self.env()?;
            self.want(Kind::Turnstile)?;
            Ok(Phrase::JudgeType { node: self.read_type(0)? })
        } else if is(b"subtype") {
            self.advance();
            self.env()?;
            self.want(Kind::Turnstile)?;
            let left = self.read_type(0)?;
            self.want(Kind::Below)?;
            Ok(Phrase::JudgeSubtype { left, right: self.read_type(0)? })
        } else if is(b"term") {
            self.advance();
            self.env()?;
            self.want(Kind::Turnstile)?;
            let term = self.read_term(0)?;
            self.want(Kind::Colon)?;
            Ok(Phrase::JudgeTerm { term, stated: self.read_type(0)? })
        } else {
            self.unexpected()
        }
    }

    fn env(&mut self) -> Step<()> {
        loop {
            let first = self.look()?;
            let Kind::Name(name) = first.kind else {
                return Ok(());
            };
            self.advance();
            let binding = if self.take(Kind::Below)? {
                Node::TypeBinding { name, bound: self.read_type(0)? }
            } else {
                self.want(Kind::Colon)?;
                Node::TermBinding { name, domain: self.read_type(0)? }
            };
            self.whole(first.byte, binding)?;
        }
    }

    /// A type at this depth. Gives the place of its node.
    fn read_type(&mut self, depth: usize) -> Step<u32> {
        let first = self.look()?.byte;
        let left = self.type_base(depth)?;
        if !self.take(Kind::Arrow)? {
            return Ok(left);
        }
        let right = self.read_type(depth + 1)?;
        self.whole(first, Node::Arrow { left, right })
    }

    fn type_base(&mut self, depth: usize) -> Step<u32> {
        let Token { kind, byte } = self.look()?;
        if !matches!(kind, Kind::Top | Kind::Name(_) | Kind::All | Kind::Rec | OPEN_BRACE) {
            return self.unexpected();
        }
        self.advance();
        self.begin(depth, byte)?;
        let node = match kind {
            Kind::Top => Node::Top,
            Kind::Name(name) => match number_of(&self.types, name) {
                Some(number) => Node::TypeVar { number },
                None => Node::TypeName { byte, name, inside: self.types.len() as u32 },
            },
            Kind::All => {
                self.want(OPEN)?;
                let name = self.name()?;
                if self.take(Kind::Below)? {
                    let bound = self.read_type(depth + 1)?;
                    self.want(CLOSE)?;
                    Node::All { bound, body: self.under_type(name, |reader| reader.read_type(depth + 1))? }
                } else {
                    self.want(CLOSE)?;
                    let first = self.next_place();
                    let body = self.under_type(name, |reader| reader.read_type(depth + 1))?;
                    Node::AllUnbounded { first, body }
                }
            }
            Kind::Rec => {
                self.want(OPEN)?;
                let name = self.name()?;
                self.want(CLOSE)?;
                Node::RecType { body: self.under_type(name, |reader| reader.read_type(depth + 1))? }
            }
            _ => {
                let inner = self.read_type(depth + 1)?;
                self.want(CLOSE_BRACE)?;
                return Ok(inner);
            }
        };
        self.whole(byte, node)
    }

    /// A term at this depth. Gives the place of its node.
    fn read_term(&mut self, depth: usize) -> Step<u32> {
        let first = self.look()?.byte;
        let mut term = self.term_base(depth)?;
        loop {
            let Token { kind: OPEN, byte } = self.look()? else {
                return Ok(term);
            };
            self.advance();
            let function = term;
            let application = if self.take(Kind::Colon)? {
                Node::Appl2 { byte, function, argument: self.read_type(depth + 1)? }
            } else {
                Node::Appl { byte, function, argument: self.read_term(depth + 1)? }
            };
            self.want(CLOSE)?;
            term = self.whole(first, application)?;
        }
    }

    fn term_base(&mut self, depth: usize) -> Step<u32> {
        let Token { kind, byte } = self.look()?;
        match kind {
            Kind::TopTerm | Kind::Name(_) | Kind::Fun | Kind::Fold => (),
            Kind::Unfold | Kind::RecTerm | OPEN_BRACE => (),
            _ => return self.unexpected(),
        }
        self.advance();
        self.begin(depth, byte)?;
        let node = match kind {
            Kind::TopTerm => Node::TopTerm { byte },
            Kind::Name(name) => match number_of(&self.terms, name) {
                Some(number) => Node::TermVar { byte, number },
                None => Node::TermName { byte, name, inside: self.terms.len() as u32 },
            },
            Kind::Fun => self.function(depth, byte)?,
            Kind::Fold => {
                self.want(OPEN)?;
                self.want(Kind::Colon)?;
                let to = self.read_type(depth + 1)?;
                self.want(CLOSE)?;
                self.want(OPEN)?;
                let argument = self.read_term(depth + 1)?;
                self.want(CLOSE)?;
                Node::Fold { byte, to, argument }
            }
            Kind::Unfold => {
                self.want(OPEN)?;
                let argument = self.read_term(depth + 1)?;
                self.want(CLOSE)?;
                Node::Unfold { byte, argument }
            }
            Kind::RecTerm => {
                self.want(OPEN)?;
                let name = self.name()?;
                self.want(Kind::Colon)?;
                let domain = self.read_type(depth + 1)?;
                self.want(CLOSE)?;
                let body = self.under_term(name, |reader| reader.read_term(depth + 1))?;
                Node::RecTerm { byte, domain, body }
            }
            _ => {
                let inner = self.read_term(depth + 1)?;
                self.want(CLOSE_BRACE)?;
                return Ok(inner);
            }
        };
        self.whole(byte, node)
    }

    /// What stands behind `fun`.
    fn function(&mut self, depth: usize, byte: u32) -> Step<Node> {
        self.want(OPEN)?;
        let name = self.name()?;
        if self.take(Kind::Colon)? {
            let domain = self.read_type(depth + 1)?;
            self.want(CLOSE)?;
            let body = self.under_term(name, |reader| reader.read_term(depth + 1))?;
            Ok(Node::Fun { byte, domain, body })
        } else if self.take(Kind::Below)? {
            let bound = self.read_type(depth + 1)?;
            self.want(CLOSE)?;
            let body = self.under_type(name, |reader| reader.read_term(depth + 1))?;
            Ok(Node::Fun2 { byte, bound, body })
        } else {
            self.want(CLOSE)?;
            let first = self.next_place();
            let body = self.under_type(name, |reader| reader.read_term(depth + 1))?;
            Ok(Node::Fun2Unbounded { byte, first, body })
        }
    }

    /// Reads the body of a binder of types.
    fn under_type(&mut self, name: Name, body: impl FnOnce(&mut Self) -> Step<u32>) -> Step<u32> {
        self.types.push(name);
        let place = body(self)?;
        self.types.pop();
        Ok(place)
    }

    /// Reads the body of a binder of terms.
    fn under_term(&mut self, name: Name, body: impl FnOnce(&mut Self) -> Step<u32>) -> Step<u32> {
        self.terms.push(name);
        let place = body(self)?;
        self.terms.pop();
        Ok(place)
    }
}

/// Which of these binders binds the name, counted outward from 1.
fn number_of(binders: &[Name], name: Name) -> Option<u32> {
    binders.iter().rev().zip(1..).find(|(binder, _)| **binder == name).map(|(_, number)| number)
}

/// What a type's name means outside of the binders of the source.
enum Meaning {
    /// The binding of types with this number, from 0 in their order.
    Binding(u32),
    Line(u16),
}

/// Replaces the names that no binder of the source binds. They have their places in the order of the source, and a
/// binding has its place behind all that it does not reach.
fn resolve(nodes: &mut [Node], lines: &[Line]) -> Result<(), Stop> {
    let mut types = HashMap::new();
    let mut terms = HashMap::new();
    let (mut type_count, mut term_count) = (0, 0);
    for line in lines {
        let name = usize::from(line.columns[0]).checked_sub(1).and_then(|index| lines.get(index));
        match (line.code, name) {
            (LET_TYPE, Some(name)) => _ = types.insert(name_on(name), Meaning::Line(line.columns[2])),
            (LET_TERM, Some(name)) => _ = terms.insert(name_on(name), term_count),
            _ => (),
        }
        term_count += u32::from(line.code == LET_TERM);
    }
    for node in nodes {
        match *node {
            Node::TypeBinding { name, .. } => {
                types.insert(name, Meaning::Binding(type_count));
                type_count += 1;
            }
            Node::TermBinding { name, .. } => {
                terms.insert(name, term_count);
                term_count += 1;
            }
            Node::TypeName { byte, name, inside } => {
                *node = match types.get(&name).ok_or(Stop { number: 9, place: byte })? {
                    Meaning::Binding(index) => Node::TypeVar { number: inside + type_count - index },
                    Meaning::Line(line) => Node::TypeLine { line: u32::from(*line) },
                }
            }
            Node::TermName { byte, name, inside } => {
                let index = terms.get(&name).ok_or(Stop { number: 9, place: byte })?;
                *node = Node::TermVar { byte, number: inside + term_count - index };
            }
            _ => (),
        }
    }
    Ok(())
}

/// The 14 bytes of the line's columns, the high one of each first.
fn name_on(line: &Line) -> Name {
    let mut name = [0; 14];
    for (pair, column) in name.chunks_exact_mut(2).zip(line.columns) {
        pair.copy_from_slice(&column.to_be_bytes());
    }
    name
}
