//! The trees of docs/SYNTAX.md, and what names mean there.

use crate::lexer::{Name, kept};
use crate::listing::listing;
use crate::reader::read;
use crate::tree::{Node, Phrase, Read};

fn name(text: &str) -> Name {
    kept(text.as_bytes()).expect("a short name")
}

fn read_with(short: &str, source: &str) -> Read {
    let read = read(source.as_bytes(), &listing(short), 100);
    assert_eq!(read.number, 0, "{source}");
    assert_eq!(read.place as usize, read.nodes.len());
    read
}

#[test]
fn a_function_over_types() {
    let read = read_with("", "fun(X<:Top)fun(f:X)f(top);");
    let nodes = [
        Node::Top,
        Node::TypeVar { number: 1 },
        Node::TermVar { byte: 19, number: 1 },
        Node::TopTerm { byte: 21 },
        Node::Appl { byte: 20, function: 2, argument: 3 },
        Node::Fun { byte: 11, domain: 1, body: 4 },
        Node::Fun2 { byte: 0, bound: 0, body: 5 },
    ];
    assert_eq!(read.nodes, nodes);
    assert_eq!(read.phrase, Some(Phrase::TermPhrase { node: 6 }));
}

#[test]
fn a_type_with_a_definition() {
    // Z is unbound in the document; here it is a Let name.
    let read = read_with("90 23040; 91 1 0 9", ":All(X<:Top)Rec(Y)X->Y->Z;");
    let nodes = [
        Node::Top,
        Node::TypeVar { number: 2 },
        Node::TypeVar { number: 1 },
        Node::TypeLine { line: 9 },
        Node::Arrow { left: 2, right: 3 },
        Node::Arrow { left: 1, right: 4 },
        Node::RecType { body: 5 },
        Node::All { bound: 0, body: 6 },
    ];
    assert_eq!(read.nodes, nodes);
    assert_eq!(read.phrase, Some(Phrase::TypePhrase { node: 7 }));
}

#[test]
fn a_judgment_with_a_binding() {
    let read = read_with("", "judge subtype X<:Top |- X <: All(Y)Y->X;");
    let nodes = [
        Node::Top,
        Node::TypeBinding { name: name("X"), bound: 0 },
        Node::TypeVar { number: 1 },
        Node::TypeVar { number: 1 },
        Node::TypeVar { number: 2 },
        Node::Arrow { left: 3, right: 4 },
        Node::AllUnbounded { first: 3, body: 5 },
    ];
    assert_eq!(read.nodes, nodes);
    assert_eq!(read.phrase, Some(Phrase::JudgeSubtype { left: 2, right: 6 }));
}

#[test]
fn the_other_forms() {
    let read = read_with("", "let a:Rec(X)X = {fold(:Top)(unfold(top))}(:Top)({rec(x:Top)fun(Y)x});");
    let nodes = [
        Node::TypeVar { number: 1 },
        Node::RecType { body: 0 },
        Node::Top,
        Node::TopTerm { byte: 35 },
        Node::Unfold { byte: 28, argument: 3 },
        Node::Fold { byte: 17, to: 2, argument: 4 },
        Node::Top,
        Node::Appl2 { byte: 41, function: 5, argument: 6 },
        Node::Top,
        Node::TermVar { byte: 65, number: 1 },
        Node::Fun2Unbounded { byte: 59, first: 9, body: 9 },
        Node::RecTerm { byte: 49, domain: 8, body: 10 },
        Node::Appl { byte: 47, function: 7, argument: 11 },
    ];
    assert_eq!(read.nodes, nodes);
    assert_eq!(read.phrase, Some(Phrase::LetTerm { name: name("a"), stated: 1, term: 12 }));
}

/// The numbers of the type variables and the lines of Let names, in order.
fn types(read: &Read) -> Vec<(&'static str, u32)> {
    let meanings = read.nodes.iter().filter_map(|node| match *node {
        Node::TypeVar { number } => Some(("variable", number)),
        Node::TypeLine { line } => Some(("line", line)),
        _ => None,
    });
    meanings.collect()
}

/// The numbers of the term variables, in order.
fn terms(read: &Read) -> Vec<u32> {
    let numbers = read.nodes.iter().filter_map(|node| match *node {
        Node::TermVar { number, .. } => Some(number),
        _ => None,
    });
    numbers.collect()
}

#[test]
fn names_of_types_after_a_definition() {
    let short = "30; 10; 12 2 2; 50 1; 51 1 2 4; 51 1 3 5 5; 63 1 3 2 6; 90 21504; 91 8 2 3 7 1";
    let types = |source| types(&read_with(short, source));
    assert_eq!(types(":T;"), [("line", 3)]);
    assert_eq!(types(":All(X)X->T;"), [("variable", 1), ("line", 3)]);
    assert_eq!(types(":All(T)T;"), [("variable", 1)]);
    assert_eq!(types(":All(X<:T)Rec(Y)X->Y;"), [("line", 3), ("variable", 2), ("variable", 1)]);
    let hidden = [("line", 3), ("variable", 1), ("variable", 2), ("variable", 1)];
    assert_eq!(types("judge env T<:T X<:T T<:T x:T;"), hidden);
}

#[test]
fn names_of_terms_after_definitions() {
    let short = "90 24832; 90 25088; 92 1; 92 2; 92 1";
    let terms = |source| terms(&read_with(short, source));
    assert_eq!(terms("a;"), [1]);
    assert_eq!(terms("b;"), [2]);
    assert_eq!(terms("fun(x:Top)fun(X)b(x);"), [3, 1]);
    assert_eq!(terms("let b = b;"), [2]);
    let read = read_with(short, "judge term X<:Top y:X b:X |- fun(z:X)a(b)(y) : X;");
    assert_eq!(self::terms(&read), [4, 2, 3]);
    assert_eq!(types(&read), [("variable", 1); 4]);
}

#[test]
fn a_bound_is_outside_of_its_binder() {
    let variables = |source, expected: &[u32]| {
        let expected: Vec<_> = expected.iter().map(|&number| ("variable", number)).collect();
        assert_eq!(types(&read_with("", source)), expected, "{source}");
    };
    variables("judge type X<:Top |- All(Y<:X)X->Y;", &[1, 2, 1]);
    variables("judge type X<:Top |- All(Y)All(Z<:X)X->Z;", &[2, 3, 1]);
    variables(":All(X)All(Y<:X)X->Y;", &[1, 2, 1]);
    variables("fun(X)fun(Y<:X)fun(x:X)fun(y:Y)x(:X);", &[1, 2, 1, 2]);
    variables("judge env X<:Top Y<:Rec(Z)X Z<:X x:Y y:Z;", &[2, 2, 2, 1]);
}

#[test]
fn names_on_lines_of_any_sort() {
    // A 92 without a name adds a variable, a 91 nothing; the later 91 hides the earlier one.
    let short = "90 30720; 92 1; 92; 92 65535; 91 1 0 7; 91 0 0 8; 91 99 0 8";
    assert_eq!(terms(&read_with(short, "x;")), [3]);
    assert_eq!(types(&read_with(short, ":x;")), [("line", 7)]);
    assert_eq!(types(&read_with("91 3 0 1; 91 3 0 65535; 10 30720", ":x;")), [("line", 65_535)]);
}

#[test]
fn grouped_forms_are_read_alike() {
    let pairs = [
        (":A->B->C;", ":A->{B->C};"),
        (":All(X)A->B;", ":All(X){A->B};"),
        (":Rec(X)A->B;", ":Rec(X){A->B};"),
        (":A->All(X)B->C;", ":A->{All(X){B->C}};"),
        ("f(a)(b);", "{f(a)}(b);"),
        ("f(:A)(b);", "{f(:A)}(b);"),
        ("fun(x:A)f(x);", "fun(x:A){f(x)};"),
        ("rec(x:A)f(x);", "rec(x:A){f(x)};"),
        ("fold(:A)(a)(b);", "{fold(:A)(a)}(b);"),
        ("unfold(a)(b);", "{unfold(a)}(b);"),
    ];
    // A, B, C, a, b and f, as types and as terms.
    let short = "90 16640; 90 16896; 90 17152; 90 24832; 90 25088; 90 26112; \
        91 1; 91 2; 91 3; 92 4; 92 5; 92 6";
    for (written, read_as) in pairs {
        let (left, right) = (read_with(short, written), read_with(short, read_as));
        assert_eq!(without_bytes(&left), without_bytes(&right), "{written}");
    }
}

fn without_bytes(read: &Read) -> Vec<Node> {
    let nodes = read.nodes.iter().map(|&node| match node {
        Node::TopTerm { .. } => Node::TopTerm { byte: 0 },
        Node::TermVar { number, .. } => Node::TermVar { byte: 0, number },
        Node::Fun { domain, body, .. } => Node::Fun { byte: 0, domain, body },
        Node::Appl { function, argument, .. } => Node::Appl { byte: 0, function, argument },
        Node::Appl2 { function, argument, .. } => Node::Appl2 { byte: 0, function, argument },
        Node::Fold { to, argument, .. } => Node::Fold { byte: 0, to, argument },
        Node::Unfold { argument, .. } => Node::Unfold { byte: 0, argument },
        Node::RecTerm { domain, body, .. } => Node::RecTerm { byte: 0, domain, body },
        node => node,
    });
    nodes.collect()
}
