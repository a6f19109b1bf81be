//! Many sources through the plain reader, and through the proved one beside it.

use std::collections::BTreeMap;
use std::{fs, io};

use crate::boundary;
use crate::digest::{digest, kind};
use crate::listing::{Line, page};
use crate::random::Random;
use crate::reader::{read, read_unresolved};
use crate::source_corpus;
use crate::sources::{Case, case};
use crate::tree::{Node, Read};

/// How many differences are written out.
const SHOWN: usize = 10;

const DIRECTORY: &str = "differences";

/// Reads so many sources with the plain reader, and prints what came of them.
pub fn sources(count: usize, seed: u64) {
    let mut random = Random::new(seed);
    let mut counts = Counts::default();
    for _ in 0..count {
        let case = case(&mut random);
        let read = read(&case.source, &case.lines, case.places);
        counts.add(&case, &read);
    }
    counts.report();
}

/// Compares the two readers on so many sources and on those of the corpus. True if they never differ; none if there is
/// no proved reader.
pub fn compare(count: usize, seed: u64) -> io::Result<Option<bool>> {
    if boundary::read(b"", &[], 0).is_none() {
        return Ok(None);
    }
    let mut random = Random::new(seed);
    let mut counts = Counts::default();
    let mut differences = 0;
    let corpus = source_corpus::entries().into_iter().map(|entry| entry.case);
    for case in corpus.chain((0..count).map(|_| case(&mut random))) {
        let plain = read(&case.source, &case.lines, case.places);
        counts.add(&case, &plain);
        let proved = boundary::read(&case.source, &case.lines, case.places);
        if proved.as_ref().is_none_or(|proved| !agree(&plain, proved)) {
            differences += 1;
            if differences <= SHOWN {
                keep(differences, &case, &plain, proved.as_ref())?;
            }
        }
    }
    counts.report();
    println!("\n{differences} differences");
    Ok(Some(differences == 0))
}

/// Whether the readers say the same. The place of a source that is read is told by its nodes; the phrase is compared if
/// both give it.
fn agree(plain: &Read, proved: &Read) -> bool {
    let phrases = plain.phrase.zip(proved.phrase);
    plain.number == proved.number
        && (plain.number == 0 || plain.place == proved.place)
        && plain.nodes.len() == proved.nodes.len()
        && digest(&plain.nodes) == digest(&proved.nodes)
        && phrases.is_none_or(|(plain, proved)| plain == proved)
}

/// Writes the source and the listing of a difference to two files, for the command `source`.
fn keep(number: usize, case: &Case, plain: &Read, proved: Option<&Read>) -> io::Result<()> {
    fs::create_dir_all(DIRECTORY)?;
    let file = format!("{DIRECTORY}/{number}");
    fs::write(format!("{file}.source"), &case.source)?;
    fs::write(format!("{file}.page"), page(&case.lines))?;
    println!("bench source {} {file}.source {file}.page", case.places);
    println!("  plain  {}", line(plain));
    println!("  proved {}", proved.map_or("nothing".into(), line));
    Ok(())
}

fn line(read: &Read) -> String {
    let Read { number, place, nodes, .. } = read;
    format!("{number} {place}, {} nodes, digest {:016x}", nodes.len(), digest(nodes))
}

/// Prints what each reader says of one source, and the trees.
pub fn show(source: &[u8], lines: &[Line], places: usize) {
    let plain = Some(read(source, lines, places));
    for (name, read) in [("plain", plain), ("proved", boundary::read(source, lines, places))] {
        let Some(read) = read else { continue };
        println!("{name}: {}", line(&read));
        for (place, node) in read.nodes.iter().enumerate() {
            println!("{place:6} {node:?}");
        }
        if let Some(phrase) = read.phrase {
            println!("       {phrase:?}");
        }
    }
}

/// What came of the sources.
#[derive(Default)]
struct Counts {
    sources: usize,
    bytes: usize,
    by_answer: BTreeMap<u8, usize>,
    /// The same by what is at fault, or by what was read.
    by_detail: BTreeMap<(u8, String), usize>,
    /// The nodes of all trees that were read.
    nodes: BTreeMap<String, usize>,
}

impl Counts {
    fn add(&mut self, case: &Case, read: &Read) {
        self.sources += 1;
        self.bytes += case.source.len();
        *self.by_answer.entry(read.number).or_default() += 1;
        if let Some(detail) = detail(case, read) {
            *self.by_detail.entry((read.number, detail)).or_default() += 1;
        }
        for node in &read.nodes {
            *self.nodes.entry(kind(node)).or_default() += 1;
        }
    }

    fn report(&self) {
        println!("{} sources, {} bytes\n\nanswer  sources", self.sources, self.bytes);
        for (number, count) in &self.by_answer {
            println!("{number:6}  {count:7}");
        }
        for number in self.by_answer.keys() {
            let details = self.by_detail.iter().filter(|((of, _), _)| of == number);
            let details: Vec<String> = details.map(|((_, what), count)| format!("{what}: {count}")).collect();
            if !details.is_empty() {
                println!("\nanswer {number}\n{}", details.join(", "));
            }
        }
        let nodes: Vec<String> = self.nodes.iter().map(|(kind, count)| format!("{kind}: {count}")).collect();
        println!("\nnodes of the trees that were read\n{}", nodes.join(", "));
    }
}

/// What is at fault, or which phrase was read.
fn detail(case: &Case, read: &Read) -> Option<String> {
    let at = read.place as usize;
    match read.number {
        0 => Some(kind(&read.phrase?)),
        3 => Some(match case.source[at] {
            b'0'..=b'9' => "digit".into(),
            b'"' | b'\'' | b'~' => "reserved".into(),
            byte if byte.is_ascii_graphic() => "run".into(),
            _ => "illegal".into(),
        }),
        6 => Some(match case.source.get(at) {
            None => "end".into(),
            Some(byte) if byte.is_ascii_alphabetic() || *byte == b'`' => "word".into(),
            Some(byte) => char::from(*byte).into(),
        }),
        7 => Some(if case.source[at] == b'(' { "comment" } else { "nesting" }.into()),
        // With one place more, what found none would have taken it.
        8 => read_unresolved(&case.source, case.places + 1).1.get(case.places).map(kind),
        9 => {
            let nodes = read_unresolved(&case.source, case.places).1;
            nodes.iter().find_map(|node| match *node {
                Node::TypeName { byte, inside, .. } if byte == read.place => Some(sort("type", inside)),
                Node::TermName { byte, inside, .. } if byte == read.place => Some(sort("term", inside)),
                _ => None,
            })
        }
        _ => None,
    }
}

fn sort(sort: &str, inside: u32) -> String {
    if inside == 0 { format!("{sort}, outside of binders") } else { format!("{sort}, under binders") }
}
