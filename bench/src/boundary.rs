//! The proved checker and reader, called through the static library of the crate `boundary_c`.

use crate::lexer::Name;
use crate::listing::{Answer, Line, Rule};
use crate::tree::{Node, Phrase, Read};

/// Whether it is linked in.
pub const LINKED: bool = cfg!(feature = "boundary");

/// Adopts all places of the bytes and checks the lines.
pub fn check_page(bytes: &mut [u8], rule: Rule) -> Answer {
    // Safety: the pointer and the length are those of one exclusive slice.
    unpacked(unsafe { linked::check_page(bytes.as_mut_ptr(), bytes.len(), rule as u8) })
}

/// Checks lines that are records already.
pub fn check_table(lines: &mut [Line], rule: Rule) -> Answer {
    // Safety: the pointer and the length are those of one exclusive slice.
    unpacked(unsafe { linked::check_table(lines.as_mut_ptr(), lines.len(), rule as u8) })
}

/// Reads the source with so many tree places, and looks its names up in the lines; none if the library is not linked in
/// or was refused memory.
pub fn read(source: &[u8], lines: &[Line], places: usize) -> Option<Read> {
    if !LINKED {
        return None;
    }
    let mut lines = lines.to_vec();
    let mut rows = vec![Row::NONE; places + 1];
    // Safety: the pointers and lengths are those of slices, of which the last two are exclusive.
    let packed = unsafe {
        linked::read_source(
            source.as_ptr(),
            source.len(),
            lines.as_mut_ptr(),
            lines.len(),
            rows.as_mut_ptr(),
            rows.len(),
        )
    };
    if packed == u64::MAX {
        return None;
    }
    let Answer { number, place, .. } = unpacked(packed);
    let laid = rows.iter().take_while(|row| row.kind != Row::NONE.kind).count();
    if number > 0 {
        assert_eq!(laid, 0, "a row was written");
        return Some(Read { number, place, nodes: Vec::new(), phrase: None });
    }
    let nodes: Vec<Node> = rows[1..laid].iter().map(Row::node).collect();
    Some(Read { number, place: nodes.len() as u32, nodes, phrase: Some(rows[0].phrase()) })
}

/// A phrase or a node as numbers, as the library has them.
#[repr(C)]
#[derive(Clone, Copy, Debug)]
struct Row {
    kind: u8,
    byte: u16,
    first: usize,
    second: usize,
    name: Name,
}

impl Row {
    const NONE: Row = Row { kind: u8::MAX, byte: 0, first: 0, second: 0, name: [0; 14] };

    fn node(&self) -> Node {
        let byte = u32::from(self.byte);
        let (first, second) = (self.first as u32, self.second as u32);
        let name = self.name;
        match self.kind {
            0 => Node::Top,
            1 => Node::TypeVar { number: first },
            2 => Node::TypeName { byte, name, inside: first },
            3 => Node::Arrow { left: first, right: second },
            4 => Node::All { bound: first, body: second },
            5 => Node::AllUnbounded { first, body: second },
            6 => Node::RecType { body: first },
            7 => Node::TopTerm { byte },
            8 => Node::TermVar { byte, number: first },
            9 => Node::TermName { byte, name, inside: first },
            10 => Node::Fun { byte, domain: first, body: second },
            11 => Node::Appl { byte, function: first, argument: second },
            12 => Node::Fun2 { byte, bound: first, body: second },
            13 => Node::Fun2Unbounded { byte, first, body: second },
            14 => Node::Appl2 { byte, function: first, argument: second },
            15 => Node::Fold { byte, to: first, argument: second },
            16 => Node::Unfold { byte, argument: first },
            17 => Node::RecTerm { byte, domain: first, body: second },
            18 => Node::TypeBinding { name, bound: first },
            19 => Node::TermBinding { name, domain: first },
            20 => Node::TypeLine { line: first },
            kind => panic!("a node of kind {kind}"),
        }
    }

    fn phrase(&self) -> Phrase {
        let (first, second) = (self.first as u32, self.second as u32);
        let name = self.name;
        match self.kind {
            0 => Phrase::LetType { name, bound: first, to: second },
            1 => Phrase::LetTypeUnbounded { name, to: first },
            2 => Phrase::LetTerm { name, stated: first, term: second },
            3 => Phrase::LetTermUntyped { name, term: first },
            4 => Phrase::TypePhrase { node: first },
            5 => Phrase::TermPhrase { node: first },
            6 => Phrase::JudgeEnv,
            7 => Phrase::JudgeType { node: first },
            8 => Phrase::JudgeSubtype { left: first, right: second },
            9 => Phrase::JudgeTerm { term: first, stated: second },
            kind => panic!("a phrase of kind {kind}"),
        }
    }
}

/// The number stands above bit 40, the place above bit 8, the cause below.
fn unpacked(packed: u64) -> Answer {
    let number = u8::try_from(packed >> 40).expect("an answer's number");
    Answer { number, place: (packed >> 8) as u32, cause: packed as u8 }
}

#[cfg(feature = "boundary")]
mod linked {
    use crate::listing::Line;

    unsafe extern "C" {
        pub fn check_page(bytes: *mut u8, len: usize, rule: u8) -> u64;
        pub fn check_table(lines: *mut Line, len: usize, rule: u8) -> u64;
        pub fn read_source(
            source: *const u8,
            len: usize,
            lines: *mut Line,
            count: usize,
            rows: *mut super::Row,
            rows_len: usize,
        ) -> u64;
    }
}

#[cfg(not(feature = "boundary"))]
mod linked {
    use crate::listing::Line;

    pub unsafe fn check_page(_: *mut u8, _: usize, _: u8) -> u64 {
        unreachable!("built without the boundary")
    }

    pub unsafe fn check_table(_: *mut Line, _: usize, _: u8) -> u64 {
        unreachable!("built without the boundary")
    }

    pub unsafe fn read_source(
        _: *const u8,
        _: usize,
        _: *mut Line,
        _: usize,
        _: *mut super::Row,
        _: usize,
    ) -> u64 {
        unreachable!("built without the boundary")
    }
}
