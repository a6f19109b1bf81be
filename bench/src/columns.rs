//! Which columns a code has, and what each of them may hold.

use crate::listing::code::*;

/// What a line is, seen from a column that names it.
#[derive(Clone, Copy, PartialEq, Eq)]
pub enum Kind {
    Type,
    Term,
    Environment,
    Premise,
    Name,
    Definition,
}

/// What a column may hold.
#[derive(Clone, Copy)]
pub enum Column {
    /// The number of a line of this kind.
    Line(Kind),
    /// That, or 0.
    LineOrNone(Kind),
    Number,
}

const A: Column = Column::Line(Kind::Type);
const T: Column = Column::Line(Kind::Term);
const E: Column = Column::Line(Kind::Environment);
const P: Column = Column::LineOrNone(Kind::Premise);
const N: Column = Column::Line(Kind::Name);
const D: Column = Column::LineOrNone(Kind::Definition);
const K: Column = Column::Number;

/// The columns of a known code.
pub const fn columns_of(code: u8) -> Option<&'static [Column]> {
    Some(match code {
        TYPE_TOP | TERM_TOP | ENV_EMPTY => &[],
        TYPE_VAR | TERM_VAR => &[K],
        TYPE_ARROW | TYPE_ALL => &[A, A],
        TYPE_REC => &[A],
        TERM_FUN | TERM_FUN2 | TERM_FOLD | TERM_REC => &[A, T],
        TERM_APPL => &[T, T],
        TERM_APPL2 => &[T, A],
        TERM_UNFOLD => &[T],
        ENV_TERM | ENV_TYPE => &[E, A],
        RAISE => &[A, K, A, P, P],
        PUT => &[A, K, A, A, P, P, P],
        BOUND | TYPING => &[E, K, A, P, P],
        IS_ENV => &[E, P],
        IS_TYPE => &[E, A, P, P],
        SUB_REFL..=SUB_ALL_LEAST => &[E, A, A, P, P],
        HAS_SUBSUMED..=HAS_REC => &[E, T, A, P, P, P],
        NAME => &[K; 7],
        LET_TYPE => &[N, A, A, P, E, D],
        LET_TERM => &[N, A, T, P, E, D],
        _ => return None,
    })
}

/// The kind of a line of this code.
pub const fn kind_of(code: u8) -> Option<Kind> {
    Some(match code {
        10..=14 => Kind::Type,
        20..=28 => Kind::Term,
        30..=32 => Kind::Environment,
        40..=79 => Kind::Premise,
        90 => Kind::Name,
        91 | 92 => Kind::Definition,
        _ => return None,
    })
}
