//! The tree of a source, and what a reader answers.

use crate::lexer::Name;

#[derive(Clone, Copy, PartialEq, Eq, Debug)]
pub enum Node {
    Top,
    TypeVar { number: u32 },
    TypeName { byte: u32, name: Name, inside: u32 },
    Arrow { left: u32, right: u32 },
    All { bound: u32, body: u32 },
    AllUnbounded { first: u32, body: u32 },
    RecType { body: u32 },
    TopTerm { byte: u32 },
    TermVar { byte: u32, number: u32 },
    TermName { byte: u32, name: Name, inside: u32 },
    Fun { byte: u32, domain: u32, body: u32 },
    Appl { byte: u32, function: u32, argument: u32 },
    Fun2 { byte: u32, bound: u32, body: u32 },
    Fun2Unbounded { byte: u32, first: u32, body: u32 },
    Appl2 { byte: u32, function: u32, argument: u32 },
    Fold { byte: u32, to: u32, argument: u32 },
    Unfold { byte: u32, argument: u32 },
    RecTerm { byte: u32, domain: u32, body: u32 },
    TypeBinding { name: Name, bound: u32 },
    TermBinding { name: Name, domain: u32 },
    TypeLine { line: u32 },
}

/// The record of a phrase.
#[derive(Clone, Copy, PartialEq, Eq, Debug)]
pub enum Phrase {
    LetType { name: Name, bound: u32, to: u32 },
    LetTypeUnbounded { name: Name, to: u32 },
    LetTerm { name: Name, stated: u32, term: u32 },
    LetTermUntyped { name: Name, term: u32 },
    TypePhrase { node: u32 },
    TermPhrase { node: u32 },
    JudgeEnv,
    JudgeType { node: u32 },
    JudgeSubtype { left: u32, right: u32 },
    JudgeTerm { term: u32, stated: u32 },
}

/// What a reader says of a source.
#[derive(Clone, PartialEq, Eq, Debug)]
pub struct Read {
    /// 0 if the source is read and its names are bound, else 2 to 9.
    pub number: u8,
    /// The answer's byte; for 0, how many places of the tree are taken.
    pub place: u32,
    /// The nodes with the names resolved; none if the number is not 0.
    pub nodes: Vec<Node>,
    /// The record of the phrase, if the number is 0 and the reader gives it.
    pub phrase: Option<Phrase>,
}
