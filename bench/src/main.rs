//! Generates listings and sources, damages them, and compares the proved checker and reader with plain ones.

mod boundary;
mod checker;
mod columns;
mod compare;
mod computed;
mod corpus;
mod damage;
mod damage_page;
mod derivations;
mod digest;
mod example;
mod generate;
mod hash;
mod lexer;
mod listing;
mod measure;
mod random;
mod reader;
#[cfg(test)]
mod reader_examples;
mod readspeed;
mod rules;
mod source_corpus;
mod sources;
mod stack;
#[cfg(test)]
mod syntax_table;
mod tree;
mod trial;
mod writer;

use std::hash::RandomState;
use std::io::{self, Write};
use std::path::Path;
use std::process::ExitCode;
use std::str::FromStr;
use std::{env, fs};

use listing::{Rule, page};

const USAGE: &str = "\
bench                       times a line in both checkers
compare N SEED              compares their answers on N listings, good and damaged
generate RULE LINES SEED    writes a sound page to standard output
check RULE FILE             prints the three numbers of each checker's answer to the file
corpus DIR                  writes a small corpus of pages by answer and cause
example                     writes the page of a benefit formula to standard output
read N SEED                 compares the two readers on N sources, good and damaged
sources N SEED              reads N sources with the plain reader and counts the answers
corpus                      tries the readers on the sources of tests/sources.txt
source PLACES FILE [PAGE]   prints what each reader says of the source, with the page's lines as listing
readspeed                   times a byte in both readers
stack                       finds how much stack the proved reader needs
RULE is EqualBounds or LeastBound.";

enum Failure {
    Usage,
    Unlinked,
    NoReader,
    Io(io::Error),
}

impl From<io::Error> for Failure {
    fn from(error: io::Error) -> Failure {
        Failure::Io(error)
    }
}

fn main() -> ExitCode {
    let arguments: Vec<String> = env::args().skip(1).collect();
    let words: Vec<&str> = arguments.iter().map(String::as_str).collect();
    match run(&words) {
        Ok(code) => code,
        Err(Failure::Usage) => {
            eprintln!("{USAGE}");
            ExitCode::from(2)
        }
        Err(Failure::Unlinked) => {
            eprintln!("built without the proved checker");
            ExitCode::from(2)
        }
        Err(Failure::NoReader) => {
            eprintln!("built without the proved reader");
            ExitCode::from(2)
        }
        Err(Failure::Io(error)) => {
            eprintln!("{error}");
            ExitCode::from(2)
        }
    }
}

fn run(words: &[&str]) -> Result<ExitCode, Failure> {
    match *words {
        ["bench"] => measure::bench(),
        ["compare", listings, seed] => {
            let (listings, seed) = (number(listings)?, number(seed)?);
            if !boundary::LINKED {
                return Err(Failure::Unlinked);
            }
            let same = compare::compare(listings, seed)?;
            return Ok(verdict(same));
        }
        ["generate", rule, lines, seed] => {
            let lines = generate::sound_listing(named(rule)?, number(lines)?, number(seed)?);
            io::stdout().write_all(&page(&lines))?;
        }
        ["check", rule, file] => check(named(rule)?, file)?,
        ["corpus", directory] => corpus::write(Path::new(directory))?,
        ["read", sources, seed] => {
            return match trial::compare(number(sources)?, number(seed)?)? {
                None => Err(Failure::NoReader),
                Some(same) => Ok(verdict(same)),
            };
        }
        ["sources", sources, seed] => trial::sources(number(sources)?, number(seed)?),
        ["corpus"] => return Ok(verdict(source_corpus::check())),
        ["source", places, file, ref page @ ..] => source(number(places)?, file, page)?,
        ["readspeed"] => readspeed::readspeed(),
        ["stack"] => stack::stack()?,
        ["stack", bytes] => return Ok(verdict(stack::try_with(number(bytes)?)?)),
        ["example"] => io::stdout().write_all(&page(&example::benefit_formula()))?,
        _ => return Err(Failure::Usage),
    }
    Ok(ExitCode::SUCCESS)
}

fn check(rule: Rule, file: &str) -> io::Result<()> {
    let mut bytes = fs::read(file)?;
    println!("plain {}", checker::check_page::<RandomState>(&bytes, rule));
    if boundary::LINKED {
        println!("proved {}", boundary::check_page(&mut bytes, rule));
    }
    Ok(())
}

fn source(places: usize, file: &str, pages: &[&str]) -> Result<(), Failure> {
    let lines = match *pages {
        [] => Vec::new(),
        [page] => checker::adopt(&fs::read(page)?).map_err(|_| Failure::Usage)?,
        _ => return Err(Failure::Usage),
    };
    trial::show(&fs::read(file)?, &lines, places);
    Ok(())
}

fn verdict(good: bool) -> ExitCode {
    if good { ExitCode::SUCCESS } else { ExitCode::FAILURE }
}

fn named(rule: &str) -> Result<Rule, Failure> {
    Rule::named(rule).ok_or(Failure::Usage)
}

fn number<T: FromStr>(word: &str) -> Result<T, Failure> {
    word.parse().map_err(|_| Failure::Usage)
}
