//! A number for a whole tree, and the names of its kinds.

use std::fmt::Debug;

use crate::lexer::Name;
use crate::tree::Node;

/// A number of all the nodes, in their order (FNV-1a, 64 bits). Of each node it takes the byte of the kind, its
/// three numbers with four bytes each, the low one first, and the 14 bytes of the name.
pub fn digest(nodes: &[Node]) -> u64 {
    let mut digest = 0xCBF2_9CE4_8422_2325_u64;
    let mut add = |byte: u8| digest = (digest ^ u64::from(byte)).wrapping_mul(0x0000_0100_0000_01B3);
    for node in nodes {
        let (kind, numbers, name) = parts(node);
        add(kind);
        numbers.iter().flat_map(|number| number.to_le_bytes()).for_each(&mut add);
        name.into_iter().for_each(&mut add);
    }
    digest
}

/// The number of its kind, its numbers in the order of their fields, the rest 0, and its name if it has one.
fn parts(node: &Node) -> (u8, [u32; 3], Name) {
    const NONE: Name = [0; 14];
    match *node {
        Node::Top => (0, [0, 0, 0], NONE),
        Node::TypeVar { number } => (1, [number, 0, 0], NONE),
        Node::TypeName { byte, name, inside } => (2, [byte, inside, 0], name),
        Node::Arrow { left, right } => (3, [left, right, 0], NONE),
        Node::All { bound, body } => (4, [bound, body, 0], NONE),
        Node::AllUnbounded { first, body } => (5, [first, body, 0], NONE),
        Node::RecType { body } => (6, [body, 0, 0], NONE),
        Node::TopTerm { byte } => (7, [byte, 0, 0], NONE),
        Node::TermVar { byte, number } => (8, [byte, number, 0], NONE),
        Node::TermName { byte, name, inside } => (9, [byte, inside, 0], name),
        Node::Fun { byte, domain, body } => (10, [byte, domain, body], NONE),
        Node::Appl { byte, function, argument } => (11, [byte, function, argument], NONE),
        Node::Fun2 { byte, bound, body } => (12, [byte, bound, body], NONE),
        Node::Fun2Unbounded { byte, first, body } => (13, [byte, first, body], NONE),
        Node::Appl2 { byte, function, argument } => (14, [byte, function, argument], NONE),
        Node::Fold { byte, to, argument } => (15, [byte, to, argument], NONE),
        Node::Unfold { byte, argument } => (16, [byte, argument, 0], NONE),
        Node::RecTerm { byte, domain, body } => (17, [byte, domain, body], NONE),
        Node::TypeBinding { name, bound } => (18, [bound, 0, 0], name),
        Node::TermBinding { name, domain } => (19, [domain, 0, 0], name),
        Node::TypeLine { line } => (20, [line, 0, 0], NONE),
    }
}

/// The name of the variant of a node or phrase.
pub fn kind(variant: &impl Debug) -> String {
    let shown = format!("{variant:?}");
    shown.split(' ').next().unwrap_or_default().to_string()
}
